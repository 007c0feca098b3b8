"""Texts of networks for benchmarks: buffers with room for one item, philosophers at a table, partners, and caches.

Each kind makes a text of a number, and says how many components the network has and how many summands its linear process.
"""

DATA = "sort D = struct d1 | d2;"


def buffer(name, takes, gives):
    """A buffer that takes an item by any of some actions, and gives it by any of others."""
    taken, given = (" + ".join(f"{action}(d)" for action in actions) for actions in (takes, gives))
    return f"  {name} = sum d: D . ({taken}) . ({given}) . {name};"


def network(buffers, links, ends, around):
    """Buffers side by side, in a text of their actions. The k-th of so many links joins `give_k` and `take_k` to `pass_k`.

    The operators stand around the network in braces: in a pattern, {ends} are the actions of the ends, {parts} those of the links'
    two sides, {passed} what these join to, {renamed} a renaming of the latter, and {net} is the network under `comm`."""
    parts = [f"{side}_{k}" for k in range(links) for side in ("give", "take")]
    passed = [f"pass_{k}" for k in range(links)]
    moved = [f"move_{k}" for k in range(links)]
    rules = ", ".join(f"give_{k}|take_{k} -> pass_{k}" for k in range(links))
    lists = {"ends": ends, "parts": parts, "passed": passed, "moved": moved, "shown": [*ends, *passed], "seen": [*ends, *moved]}
    sets = {name: ", ".join(actions) for name, actions in lists.items()}
    sets["renamed"] = ", ".join(f"{old} -> {new}" for old, new in zip(passed, moved))
    net = f"comm({{{rules}}}, {' || '.join(name for name, _, _ in buffers)})"
    acts = f"act {', '.join([*ends, *parts, *passed, *moved])}: D;"
    return "\n".join([DATA, acts, "proc", *(buffer(*it) for it in buffers), f"init {around.format(net=net, **sets)};", ""])


# Operators around a network. What a link is called at last, or that it is hidden, decides what `allow` keeps.
ALLOWED = "allow({{{shown}}}, {net})"
BLOCKED = "block({{{parts}}}, {net})"
RENAMED = "allow({{{seen}}}, rename({{{renamed}}}, {net}))"
HIDDEN = "allow({{{ends}}}, hide({{{passed}}}, {net}))"


def line(count, around=ALLOWED):
    """Buffers of which each gives to the next one."""
    takes = ["read", *(f"take_{k}" for k in range(count - 1))]
    gives = [*(f"give_{k}" for k in range(count - 1)), "write"]
    return network([(f"B{k}", takes[k : k + 1], gives[k : k + 1]) for k in range(count)], count - 1, ["read", "write"], around)


def ring(count, around=ALLOWED):
    """Buffers of which each gives to the next one, and the last to the first."""
    return network([(f"B{k}", [f"take_{k}"], [f"give_{(k + 1) % count}"]) for k in range(count)], count, [], around)


def star(count):
    """A buffer that gives to any of the others."""
    outer = range(count - 1)
    centre = ("B", ["read"], [f"give_{k}" for k in outer])
    return network([centre, *((f"B{k}", [f"take_{k}"], [f"write_{k}"]) for k in outer)], count - 1, ["read", *(f"write_{k}" for k in outer)], ALLOWED)


def tree(count):
    """Buffers of which each gives to any of two others, as far as these go. The link to the k-th one behind the first has the number k - 1."""
    below = [[child for child in (2 * k + 1, 2 * k + 2) if child < count] for k in range(count)]
    gives = [[f"give_{child - 1}" for child in children] or [f"write_{k}"] for k, children in enumerate(below)]
    takes = [["read"], *([f"take_{k - 1}"] for k in range(1, count))]
    ends = ["read", *(f"write_{k}" for k, children in enumerate(below) if not children)]
    return network([(f"B{k}", takes[k], gives[k]) for k in range(count)], count - 1, ends, ALLOWED)


def philosophers(count):
    """So many philosophers at a table, with a fork between each and the next. Which fork somebody takes is told by data."""
    seats = " || ".join(f"Thinker({k}, {k}, {k % count + 1}) || Fork({k})" for k in range(1, count + 1))
    return f"""act eat: Pos; take, lift, grab, put, lay, free: Pos # Pos;
proc Thinker(p, l, r: Pos) = take(p, l) . take(p, r) . eat(p) . put(p, l) . put(p, r) . Thinker(p, l, r);
  Fork(f: Pos) = sum p: Pos . lift(p, f) . lay(p, f) . Fork(f);
init allow({{eat, grab, free}}, comm({{take|lift -> grab, put|lay -> free}}, {seats}));
"""


def caches(count):
    """So many caches with a copy of one item each, and a directory that talks to all of them and knows who wrote last."""
    return f"""act load, asks, asked, ask, drops, dropped, drop: Pos;
proc Cache(id: Pos, valid: Bool) = valid -> load(id) . Cache() + (!valid) -> asks(id) . Cache(valid = true) + dropped(id) . Cache(valid = false);
  Directory(owner: Pos) = sum id: Pos . asked(id) . drops(owner) . Directory(id);
init allow({{load, ask, drop}}, comm({{asks|asked -> ask, drops|dropped -> drop}}, Directory(1) || {' || '.join(f'Cache({k}, false)' for k in range(1, count + 1))}));
"""


def partners(count):
    """Two components, of which each can do so many actions, each with a partner in the other one."""
    of_one, of_other, joined = ([f"{name}{k}" for k in range(count)] for name in "abc")
    rules = ", ".join(f"a{k}|b{k} -> c{k}" for k in range(count))
    return f"""act {', '.join([*of_one, *of_other, *joined])};
proc A = {' + '.join(f'{name} . A' for name in of_one)};
  B = {' + '.join(f'{name} . B' for name in of_other)};
init allow({{{', '.join(joined)}}}, comm({{{rules}}}, A || B));
"""


def apart(count):
    """How many sets there are of so many things in a row of which no two stand beside each other."""
    last, this = 1, 1
    for _ in range(count):
        last, this = this, last + this
    return this


# The kinds: each with its text of a number, how many components that has, how many summands are kept, and the numbers to try. Of a network of
# buffers each step has one link or one end, where `allow` keeps these alone. Where any of them may be at once, it has some that share no buffer.
KINDS = {
    "line": (line, lambda n: n, lambda n: n + 1, (5, 10, 20, 40)),
    "ring": (ring, lambda n: n, lambda n: n, (5, 10, 20, 40)),
    "star": (star, lambda n: n, lambda n: 2 * n - 1, (5, 10, 20, 40)),
    "tree": (tree, lambda n: n, lambda n: n + (n + 1) // 2, (5, 10, 20, 40)),
    "line, renamed": (lambda n: line(n, RENAMED), lambda n: n, lambda n: n + 1, (5, 10, 20, 40)),
    # (what is hidden is allowed beside one end or none)
    "line, hidden": (lambda n: line(n, HIDDEN), lambda n: n, lambda n: apart(n + 1) - apart(n - 3) - 1, (5, 10, 20)),
    "line, blocked": (lambda n: line(n, BLOCKED), lambda n: n, lambda n: apart(n + 1) - 1, (5, 10, 20)),
    # (a link is in the set, without its neighbours, or isn't)
    "ring, blocked": (lambda n: ring(n, BLOCKED), lambda n: n, lambda n: apart(n - 3) + apart(n - 1) - 1, (5, 10, 20)),
    # (each philosopher's two takes and two puts are tried with each fork)
    "philosophers": (philosophers, lambda n: 2 * n, lambda n: 4 * n * n + n, (2, 4, 5, 8, 10)),
    # (each of the one's actions is tried with those that are near it)
    "partners": (partners, lambda n: 2, lambda n: n, (50, 100, 200, 400)),
    "caches": (caches, lambda n: n + 1, lambda n: 3 * n, (5, 10, 20, 40)),
}
