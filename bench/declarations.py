#!/usr/bin/env python3
"""How long `check` takes over texts of many declarations, up to `ok` or a refusal: sort names, cycles of aliases, and what is declared twice.

Run it from the top of the repository, after a build: bench/declarations.py [WORD..]
It prints one line for each kind of text and size: the kind, how many declarations, names or sorts the text has, its size, the processor's
seconds beyond those of a text without any, how many times those of a tenth of the size, and for the largest the peak memory for each byte
of the text, which is never less than that of this script. At last it names the kinds that grow worse than n log n. With words only the
kinds that have one of them are tried. The program runs under a stack of a mebibyte, so that nothing that goes down along a text ends
well. It is no part of the gate.
"""

import math
import re
import resource
import sys

from programs import done

KIB = 1 << 10
SIZES = (1_000, 10_000, 100_000)
# What is allowed beyond n log n, as what is far in memory takes longer.
ROOM = 1.5
# What is said of a text whose declarations have no fault: typing may have one.
CLEAN = re.compile(r"ok$|refused (1[2-9]|20) ")


def names(front, count):
    return [f"{front}{number}" for number in range(count)]


def one_section(word, declarations):
    return f"{word} " + " ".join(f"{declaration};" for declaration in declarations)


def each(word, form):
    """A section whose declarations have this form, where @ stands for a number."""
    return lambda count: one_section(word, [form.replace("@", str(number)) for number in range(count)])


def together(word, front, behind):
    """One declaration of many names."""
    return lambda count: f"{word} {', '.join(names(front, count))}{behind};"


def chain(form, last):
    """Sorts of which each, but the last, uses the next."""
    return lambda count: one_section("sort", [f"A{n} = {form.format(f'A{n + 1}', n)}" for n in range(count - 1)] + [f"A{count - 1} = {last}"])


def chain_back(form, first):
    """Sorts of which each, but the first, uses the one before."""
    return lambda count: one_section("sort", [f"A0 = {first}"] + [f"A{n} = {form.format(f'A{n - 1}', n)}" for n in range(1, count)])


def long_lists(count):
    """Mappings of a hundred sorts each, which differ in the last."""
    front = "Nat # " * 99
    sorts = one_section("sort", names("D", count // 100))
    return sorts + " " + one_section("map", [f"f: {front}D{number} -> Nat" for number in range(count // 100)])


def many_names_long_list(count):
    """One declaration with half as many names as are asked for, and a list of as many sorts or of about the most that are read."""
    return f"map {', '.join(names('f', count // 2))}: {' # '.join(['Nat'] * min(count // 2, 990))} -> Nat;"


def growing_lists(count):
    """Mappings of one name, each with one sort more than the one before."""
    return one_section("map", ["f: " + " # ".join(["Nat"] * (number + 1)) + " -> Nat" for number in range(math.isqrt(2 * count))])


def overloads(count):
    sorts = names("D", count)
    return one_section("sort", sorts) + " " + one_section("map", [f"f: {sort} -> Nat" for sort in sorts])


def recognisers(count):
    """Structs with projections and recognisers of the same names."""
    return one_section("sort", [f"A{n} = struct c{n}(p: Nat, q: A{n})?r | d{n}" for n in range(count)])


def constructors(count):
    return "sort S = struct " + " | ".join(f"c{n}(p{n}: Nat)?r{n}" for n in range(count)) + ";"


def fields(count):
    return "sort S = struct c(" + ", ".join(f"p{n}: Nat" for n in range(count)) + ");"


def variables(count):
    return "var x: Nat; eqn x = x; " * count


def sums(count):
    return "proc P = " + " + ".join(["sum x, y: Nat . delta"] * count) + ";"


def twice(text):
    """A text whose last declaration is the first one again, and what is said of it."""
    return lambda count: (text(count), f"refused 10 Duplicate 1 {count}")


def cycle(count):
    """Aliases that go round, and what is said of them."""
    return chain("{}", "A0")(count), "refused 9 SortCycle " + " ".join(names("A", count))


def unknown(count):
    """Actions of which the last one's sort isn't declared, and what is said of them."""
    return each("act", "a@: Nat")(count - 1) + " act a: E;", f"refused 8 UnknownSort {count} E"


# The text of a size, and where there is a fault what is said of it.
KINDS = {
    "sorts": each("sort", "D@"),
    "sorts, together": together("sort", "D", ""),
    "aliases": each("sort", "A@ = List(Nat)"),
    "aliases, forward": chain("{}", "Nat"),
    "aliases, backward": chain_back("{}", "Nat"),
    "aliases, lists": chain("List({})", "Nat"),
    "structs": each("sort", "A@ = struct c@(p@: Nat)?r@"),
    "structs, forward": chain("struct c{1}({0})", "struct c"),
    "structs, backward": chain_back("struct c{1}({0})", "struct c"),
    "structs, one name": recognisers,
    "constructors": constructors,
    "fields": fields,
    "cons": lambda count: "sort S; cons d: S; " + each("cons", "c@: S -> S")(count),
    "cons, together": lambda count: "sort S; " + together("cons", "c", ": S")(count),
    "maps": each("map", "f@: Nat # Nat -> Nat"),
    "maps, together": together("map", "f", ": Nat # Nat -> Nat"),
    "maps, many long lists": long_lists,
    "maps, growing lists": growing_lists,
    "maps, names and list": many_names_long_list,
    "maps, overloads": overloads,
    "actions": each("act", "a@: Nat"),
    "actions, together": together("act", "a", ": Nat"),
    "processes": each("proc", "P@ = delta"),
    "parameters": lambda count: f"proc P({', '.join(names('x', count))}: Nat) = delta;",
    "sums": sums,
    "var sections": variables,
    "var, one section": lambda count: each("var", "x@: Nat")(count) + " eqn x0 = x0;",
    "an unknown sort": unknown,
    "a cycle": cycle,
    "a sort twice": twice(lambda count: each("sort", "D@")(count - 1) + " sort D0;"),
    "a map twice": twice(lambda count: each("map", "f@: Nat # Bool -> Nat")(count - 1) + " map f0: Nat # Bool -> Bool;"),
    "an action, a process": twice(lambda count: each("act", "a@: Nat")(count - 1) + " proc a0 = delta;"),
}


def ask(text, repeated):
    """The processor's seconds and the peak memory in KiB for a text, the least of some runs, and what was said."""
    runs = [done("check", text) for _ in range(repeated)]
    return min(run[1] for run in runs), min(run[2] for run in runs), runs[0][3].strip()


def worse_than_n_log_n(size, times):
    return times > 10 * ROOM * math.log(size) / math.log(size / 10)


def main():
    kinds = {kind: made for kind, made in KINDS.items() if not sys.argv[1:] or any(word in kind for word in sys.argv[1:])}
    resource.setrlimit(resource.RLIMIT_STACK, (KIB * KIB, resource.RLIM_INFINITY))
    base, _, _ = ask("init delta;", 5)
    print(f"the start of the program: {base:.4f} s, which are left out below")
    worse = []
    for kind, made in kinds.items():
        before = None
        for size in SIZES:
            text, wanted = made(size) if isinstance(made(1_000), tuple) else (made(size), CLEAN)
            seconds, memory, said = ask(text + " init delta;", 3)
            assert said == wanted or wanted == CLEAN and CLEAN.match(said), f"{kind}, {size}: {said[:80]}"
            seconds = max(seconds - base, 0.0001)
            times = f"{seconds / before:6.1f} times" if before else " " * 12
            peak = f"{memory * KIB / len(text):6.1f} a byte" if size == SIZES[-1] else ""
            print(f"{kind:22} {size:7} {len(text) // KIB:5} KiB {seconds:8.4f} s {times} {peak}", flush=True)
            if before and before > 0.004 and worse_than_n_log_n(size, seconds / before):
                worse.append(f"{kind} ({seconds / before:.1f} times at {size})")
            before = seconds
    print("worse than n log n:", "; ".join(worse) or "none")


if __name__ == "__main__":
    main()
