#!/usr/bin/env python3
"""Whether the program does with random small texts what the rules for steps say.

Run it from the top of the repository, after a build: bench/starting.py [--seed N] [--texts N] [PROGRAM WORD..]
Each text has a few processes with actions, choices, sums, conditions and parameters of sort Bool, and side by side some of them by `||`, `||_` and
`|`, under the operators around processes. Its steps are searched here by the rules of the language alone (steps_of). For each text (600 of them, or
N) it compares: the linear process that `linearise` prints, with or without a stack, is read by a small reader and searched too, and both are to be
strongly bisimilar; `steps` is to list just the first labels; and `replay` is to tell of two random traces what the search does.
    bench/starting.py --quick [--seed N] [--texts N]
asks what the toolchain builds of the sources without a proof, as examples/check.py does, at a second or two for each of four runs a text.
Each text that differs is printed with why, the last line counts, and the status is 1 where one differs. It is no part of the gate.
"""

import argparse
import collections
import concurrent.futures
import functools
import itertools
import os
import pathlib
import random
import re
import sys
import tempfile

TOP = pathlib.Path(__file__).resolve().parent.parent
sys.path.insert(0, str(TOP / "examples"))

import cases  # noqa: E402
import unproved  # noqa: E402

PROGRAM = TOP / "crates" / "mcrl2lin" / "out" / "mcrl2lin"
# A text with more states is left out, and one whose linear process may have more summands.
MOST_STATES, MOST_SUMMANDS = 400, 60
# What a step comes to where the process ends.
END = ("end",)
TRUTH = (True, False)

# ---- Process terms, and their steps by the rules of the language.
#
# A term is a tuple: its kind, and its parts. A value is a truth value, the name of a variable, or ("not", name). A label is a sorted tuple of
# actions, each with its name and its value, or None.


def value_in(value, scope):
    """A value with the variables of the scope put in."""
    if isinstance(value, tuple):
        return not scope[value[1]] if value[1] in scope else value
    return scope.get(value, value) if isinstance(value, str) else value


def put_in(term, scope):
    """The term with the variables of the scope put in."""
    kind, *parts = term
    if kind == "act":
        return (kind, tuple((name, value_in(value, scope)) for name, value in parts[0]))
    if kind == "call":
        return (kind, parts[0], tuple(value_in(value, scope) for value in parts[1]))
    if kind == "sum":
        inner = {name: value for name, value in scope.items() if name != parts[0]}
        return (kind, parts[0], put_in(parts[1], inner))
    if kind == "if":
        return (kind, value_in(parts[0], scope), put_in(parts[1], scope), put_in(parts[2], scope))
    if kind in AROUND:
        return (kind, parts[0], put_in(parts[1], scope))
    return (kind, *(put_in(part, scope) for part in parts))


def beside(left, right):
    """What is left of two sides that go on."""
    if left == END:
        return right
    return left if right == END else ("par", left, right)


def allowed(sets, label):
    """What is left of a label under `allow`."""
    return [label] if not label or tuple(sorted(name for name, _ in label)) in sets else []


def blocked(names, label):
    """What is left of a label under `block`."""
    return [] if any(name in names for name, _ in label) else [label]


def hidden(names, label):
    """What is left of a label under `hide`."""
    return [tuple(action for action in label if action[0] not in names)]


def renamed(pairs, label):
    """What is left of a label under `rename`."""
    return [tuple(sorted((dict(pairs).get(name, name), value) for name, value in label))]


def joined(rules, label):
    """What is left of a label under `comm`: what stands left of a rule joins as often as it can. No name is left of two rules."""
    left = collections.Counter(label)
    made = collections.Counter()
    for value in {value for _, value in label}:
        for names, result in rules:
            wanted = collections.Counter(names)
            times = min(left[name, value] // count for name, count in wanted.items())
            for name, count in wanted.items():
                left[name, value] -= times * count
            made[result, value] += times
    return [tuple(sorted((left + made).elements()))]


AROUND = {"allow": allowed, "block": blocked, "hide": hidden, "rename": renamed, "comm": joined}


class Text:
    """A specification: its definitions, each with its parameters and its body, and its `init`."""

    def __init__(self, definitions, init):
        self.definitions = definitions
        self.init = init
        self.steps_of = functools.lru_cache(None)(self.found_steps)

    def found_steps(self, term):
        """The steps of a term without free variables: each with its label and what it comes to."""
        kind, *parts = term
        if kind == "delta":
            return []
        if kind == "act":
            return [(tuple(sorted(parts[0])), END)]
        if kind == "call":
            names, body = self.definitions[parts[0]]
            return self.steps_of(put_in(body, dict(zip(names, parts[1]))))
        if kind == "choice":
            return [*self.steps_of(parts[0]), *self.steps_of(parts[1])]
        if kind == "if":
            return self.steps_of(parts[1] if parts[0] else parts[2])
        if kind == "sum":
            return [step for value in TRUTH for step in self.steps_of(put_in(parts[1], {parts[0]: value}))]
        if kind in AROUND:
            return [(kept, then if then == END else (kind, parts[0], then))
                    for label, then in self.steps_of(parts[1]) for kept in AROUND[kind](parts[0], label)]
        lefts = self.steps_of(parts[0])
        if kind == "seq":
            return [(label, parts[1] if then == END else (kind, then, parts[1])) for label, then in lefts]
        # (of `p ||_ q` the first step is one of p, of `p | q` one of both, and of `p || q` any one)
        found = []
        if kind in ("par", "left"):
            found += [(label, beside(then, parts[1])) for label, then in lefts]
        if kind == "par":
            found += [(label, beside(parts[0], then)) for label, then in self.steps_of(parts[1])]
        if kind in ("par", "sync"):
            found += [(tuple(sorted(one + other)), beside(then, left))
                      for (one, then), (other, left) in itertools.product(lefts, self.steps_of(parts[1]))]
        return found


def actions_in(term, called):
    """How many labels a term has, where a call has so many."""
    kind, *parts = term
    if kind in ("act", "call"):
        return 1 if kind == "act" else called
    return sum(actions_in(part, called) for part in parts if isinstance(part, tuple) and part[:1] and part[0] in LEVELS)


def summands_in(text, term):
    """How many summands the linear process of a term may have, about."""
    kind, *parts = term
    if kind in ("par", "left", "sync"):
        return (1 + summands_in(text, parts[0])) * (1 + summands_in(text, parts[1])) - 1
    if kind in AROUND:
        return summands_in(text, parts[1])
    if kind == "call" and parts[0] in NETS:
        return summands_in(text, text.definitions[parts[0]][1])
    return actions_in(term, sum(actions_in(body, 0) for name, (_, body) in text.definitions.items() if name not in NETS))


def searched(start, steps_of, most):
    """The steps of each state that is met from the start on, or None where there are more of them."""
    found, waiting = {}, [start]
    while waiting:
        state = waiting.pop()
        if state in found:
            continue
        if len(found) == most:
            return None
        found[state] = set() if state == END else set(steps_of(state))
        waiting += [then for _, then in found[state]]
    return found


def are_bisimilar(one, one_start, other, other_start):
    """Whether the starts of two searches are strongly bisimilar. The end is bisimilar to itself alone."""
    steps = {**{(0, state): {(label, (0, then)) for label, then in made} for state, made in one.items()},
             **{(1, state): {(label, (1, then)) for label, then in made} for state, made in other.items()}}
    block = {state: int(state[1] == END) for state in steps}
    while True:
        signs = {state: (block[state], frozenset((label, block[then]) for label, then in made)) for state, made in steps.items()}
        numbers = {sign: number for number, sign in enumerate(dict.fromkeys(signs.values()))}
        if len(numbers) == len(set(block.values())):
            return block[0, one_start] == block[1, other_start]
        block = {state: numbers[signs[state]] for state in steps}


# ---- A reader of linear processes.

TOKEN = re.compile(r"%[^\n]*|\s+|([A-Za-z_][\w']*|\d+|->|<>|=>|==|!=|&&|\|\||\|>|.)")


class Linear:
    """The linear process of a printed text, over truth values, numbers and what its structured sorts have."""

    def __init__(self, text):
        self.tokens = [token for token in TOKEN.findall(text) if token] + ["", ""]
        self.at = 0
        self.constructors, self.sorts, self.projections, self.recognisers = {}, {}, {}, {}
        self.read_sections()
        self.body = self.summands()

    def next(self):
        self.at += 1
        return self.tokens[self.at - 1]

    def take(self, token):
        """Whether this token comes next, which is passed then."""
        is_next = self.tokens[self.at] == token
        self.at += is_next
        return is_next

    def want(self, token):
        found = self.next()
        assert found == token, f"{found} in place of {token}"

    def read_sections(self):
        """What stands in front of the definition, and its head."""
        while (word := self.next()) != "proc":
            assert word, "no definition"
            if word == "struct":
                self.struct(self.tokens[self.at - 3])
        self.name = self.next()
        self.params = self.variables() if self.take("(") else []
        self.want("=")

    def struct(self, sort):
        self.sorts[sort] = []
        while True:
            name, fields = self.next(), []
            while self.tokens[self.at] in ("(", ",") and self.next():
                fields.append(self.next())
                self.want(":")
                self.sort()
            if fields:
                self.want(")")
            self.constructors[name] = len(fields)
            self.sorts[sort].append((name, len(fields)))
            self.projections.update({field: (name, place) for place, field in enumerate(fields)})
            if self.take("?"):
                self.recognisers[self.next()] = name
            if not self.take("|"):
                return

    def sort(self):
        name = self.next()
        if self.take("("):
            name = f"{name}({self.sort()})"
            self.want(")")
        return name

    def variables(self):
        """Variables with their sorts, up to the bracket that closes them or the dot."""
        found = []
        while True:
            name = self.next()
            self.want(":")
            found.append((name, self.sort()))
            if self.next() != ",":
                return found

    def summands(self):
        if self.take("delta"):
            found = []
        else:
            found = [self.summand()]
            while self.take("+"):
                found.append(self.summand())
        self.want(";")
        self.want("init")
        self.want(self.name)
        start = self.listed() if self.take("(") else []
        self.want(";")
        self.start = tuple(self.value(term, {}) for term in start)
        return found

    def summand(self):
        sums = self.variables() if self.take("sum") else []
        condition = ("true",)
        if self.take("("):
            condition = self.expression()
            self.want(")")
            self.want("->")
        label = [self.action()]
        while self.take("|"):
            label.append(self.action())
        nexts = None
        if self.take("."):
            self.want(self.name)
            nexts = {}
            while self.tokens[self.at] in ("(", ",") and self.next() and not self.take(")"):
                name = self.next()
                self.want("=")
                nexts[name] = self.expression()
            if nexts:
                self.want(")")
        return sums, condition, [action for action in label if action[0] != "tau"], nexts

    def action(self):
        name = self.next()
        return name, self.listed() if self.take("(") else []

    def listed(self):
        """Expressions up to the bracket that closes them."""
        found = [self.expression()]
        while self.next() == ",":
            found.append(self.expression())
        return found

    def expression(self):
        """An expression. A sign between two stands alone or in a chain, since operands have brackets."""
        term = self.unit()
        sign = self.tokens[self.at]
        while sign in ("&&", "||", "=>", "==", "!=") and self.take(sign):
            term = (sign, term, self.unit())
        return term

    def unit(self):
        if self.take("!"):
            return ("!", self.unit())
        if self.take("("):
            term = self.expression()
            self.want(")")
            return term
        name = self.next()
        return (name, *(self.listed() if self.take("(") else []))

    def value(self, term, scope):
        """What an expression without free variables is."""
        head, *parts = term
        if head in scope:
            return scope[head]
        if head.isdigit() or head in ("true", "false"):
            return int(head) if head.isdigit() else head == "true"
        if head == "&&":
            return all(self.value(part, scope) for part in parts)
        if head == "||":
            return any(self.value(part, scope) for part in parts)
        values = [self.value(part, scope) for part in parts]
        if head in self.constructors:
            return (head, *values)
        if head in self.recognisers:
            return values[0][0] == self.recognisers[head]
        if head in self.projections:
            name, place = self.projections[head]
            # (what a projection of another constructor is isn't told, so nothing hangs on it)
            return values[0][place + 1] if values[0][0] == name else ("unknown", term[0], *values)
        return {"!": lambda x: not x, "==": lambda x, y: x == y, "!=": lambda x, y: x != y, "=>": lambda x, y: not x or y}[head](*values)

    def values_of(self, sort):
        return TRUTH if sort == "Bool" else [(name,) for name, fields in self.sorts[sort] if not fields]

    def steps_of(self, state):
        """The steps of a state, which has a value for each parameter."""
        for sums, condition, label, nexts in self.body:
            for values in itertools.product(*(self.values_of(sort) for _, sort in sums)):
                scope = dict(zip([name for name, _ in self.params], state)) | dict(zip([name for name, _ in sums], values))
                if self.value(condition, scope):
                    made = tuple(sorted((name, *(self.value(term, scope) for term in terms)) for name, terms in label))
                    then = END if nexts is None else tuple(self.value(nexts.get(name, (name,)), scope) for name, _ in self.params)
                    yield tuple((name, *value) if value else (name, None) for name, *value in made), then


# ---- Random texts.

# Names of actions without and with a value, and of processes without and with parallel operators.
PLAIN, VALUED = "abcd", "efg"
COMPONENTS, NETS = "XYZ", "NM"
LEVELS = {"choice": 0, "sum": 0, "par": 1, "left": 2, "if": 2.5, "sync": 4, "seq": 3, "act": 4}


class Maker:
    """Makes random texts."""

    def __init__(self, seed):
        self.random = random.Random(seed)

    def some(self, *kinds):
        return self.random.choice(kinds)

    def is_once_in(self, count):
        return self.random.randrange(count) == 0

    def value(self, scope):
        name = self.random.choice([*scope, None])
        return self.some(*TRUTH) if name is None else self.some(name, name, ("not", name))

    def action(self, scope):
        name = self.random.choice(PLAIN + VALUED[: 1 + len(scope)])
        return name, self.value(scope) if name in VALUED else None

    def label(self, scope):
        count = self.some(1, 1, 1, 1, 1, 2, 2, 3, 0)
        return ("act", tuple(self.action(scope) for _ in range(count)))

    def call(self, names, scope):
        name = self.random.choice(list(names))
        return ("call", name, tuple(self.value(scope) for _ in names[name]))

    def sequential(self, size, names, scope):
        """A process without parallel operators, whose calls stand behind an action."""
        kind = self.random.choice(["act"] if size == 0 else ["seq"] * 5 + ["choice"] * 4 + ["sum", "if", "if", "deep", "deep", "label", "delta"])
        if kind == "delta":
            return ("delta",)
        if kind == "seq":
            goes_on = names and self.is_once_in(3)
            return ("seq", self.label(scope), self.call(names, scope) if goes_on else self.sequential(size - 1, names, scope))
        if kind == "deep":
            return ("seq", self.sequential(size - 1, {}, scope), self.sequential(size - 1, {}, scope))
        if kind == "choice":
            return ("choice", self.sequential(size - 1, names, scope), self.sequential(size - 1, names, scope))
        if kind == "sum":
            name = self.some("x", "y", "z")
            return ("sum", name, self.sequential(size - 1, names, [*scope, name]))
        if kind == "if" and scope:
            name = self.random.choice(scope)
            other = self.some(("delta",), self.sequential(size - 1, names, scope))
            return ("if", self.some(name, ("not", name)), self.sequential(size - 1, names, scope), other)
        return self.label(scope)

    def parallel(self, count, leaves):
        """So many leaves side by side, with operators around some of them."""
        if count == 1:
            found = leaves()
        else:
            first = self.random.randrange(1, count)
            kind = self.some("par", "left", "left", "sync", "sync")
            found = (kind, self.parallel(first, leaves), self.parallel(count - first, leaves))
        return self.around(found) if self.is_once_in(4) else found

    def around(self, term):
        kind = self.some("allow", "block", "hide", "rename", "comm", "comm")
        if kind == "comm":
            pairs = [(tuple(sorted(pair)), self.some(*PLAIN)) for pair in self.some(("ab",), ("cd",), ("ab", "cd"), ("aac",), ("bb", "cd"))]
            rules = (*pairs, (("e", "f"), "g")) if self.is_once_in(2) else (*pairs,)
            return (kind, rules, term)
        names = self.random.sample(PLAIN + VALUED, self.some(1, 2))
        if kind == "rename":
            others = [self.some(*(PLAIN if name in PLAIN else VALUED)) for name in names]
            return (kind, tuple(zip(names, others)), term)
        if kind == "allow":
            pairs = itertools.combinations_with_replacement(PLAIN + VALUED, 2)
            sets = [*((name,) for name in PLAIN + VALUED), *pairs]
            return (kind, tuple(self.random.sample(sets, self.random.randrange(8, 25))), term)
        return (kind, tuple(names), term)

    def text(self):
        names = {name: self.some((), ("t",)) for name in COMPONENTS[: self.random.randrange(4)]}
        definitions = {name: (params, self.body(names, params)) for name, params in names.items()}
        nets = []

        def leaf():
            if nets and self.is_once_in(3):
                return ("call", self.random.choice(nets), ())
            if names and self.is_once_in(2):
                return self.call(names, ())
            return self.sequential(self.some(0, 1, 2, 2, 3), names, [])

        for name in NETS[: self.some(0, 0, 1, 2)]:
            definitions[name] = ((), self.parallel(self.some(1, 2), leaf))
            nets.append(name)
        return Text(definitions, self.parallel(self.some(2, 2, 3, 3, 4), leaf))

    def body(self, names, params):
        return self.sequential(self.some(2, 3, 4), names, list(params))


def spelled_value(value):
    if isinstance(value, tuple):
        return f"!{value[1]}"
    return value if isinstance(value, str) else str(value).lower()


def spelled_label(label):
    return "|".join(name if value is None else f"{name}({spelled_value(value)})" for name, value in label) or "tau"


def spelled_around(kind, what):
    if kind == "allow":
        return ", ".join("|".join(names) for names in what)
    if kind == "rename":
        return ", ".join(f"{old} -> {new}" for old, new in what)
    if kind == "comm":
        return ", ".join(f"{'|'.join(names)} -> {result}" for names, result in what)
    return ", ".join(what)


def spelled(term, level=0):
    """The text of a term, in brackets where it binds less tightly than its place asks. No sum and no condition stands in a chain without brackets."""
    kind, *parts = term
    if kind in AROUND:
        return f"{kind}({{{spelled_around(kind, parts[0])}}}, {spelled(parts[1])})"
    if kind == "call":
        return parts[0] + (f"({', '.join(map(spelled_value, parts[1]))})" if parts[1] else "")
    text = {
        "delta": lambda: "delta",
        "act": lambda: spelled_label(parts[0]),
        "choice": lambda: f"{spelled(parts[0])} + {spelled(parts[1], 1)}",
        "par": lambda: f"{spelled(parts[0], 1)} || {spelled(parts[1], 2)}",
        "left": lambda: f"{spelled(parts[0], 3)} ||_ {spelled(parts[1], 2)}",
        # (an action behind the bar stands in brackets or not, and does the same)
        "sync": lambda: f"{spelled(parts[0], 4)} | {spelled(parts[1], 4 if parts[1][0] == 'act' and len(parts[1][1]) == 1 else 5)}",
        "seq": lambda: f"{spelled(parts[0], 4)} . {spelled(parts[1], 3)}",
        "sum": lambda: f"sum {parts[0]}: Bool . {spelled(parts[1], 1)}",
        "if": lambda: spelled_condition(*parts),
    }[kind]()
    return f"({text})" if LEVELS.get(kind, 5) < level else text


def spelled_condition(condition, then, other):
    rest = "" if other == ("delta",) else f" <> {spelled(other, 3)}"
    return f"{spelled_value(condition)} -> {spelled(then, 3)}{rest}"


def spelled_text(text):
    """The text of a specification."""
    made = [f"act {', '.join(PLAIN)};", f"act {', '.join(VALUED)}: Bool;"]
    for name, (params, body) in text.definitions.items():
        head = f"{name}({', '.join(f'{param}: Bool' for param in params)})" if params else name
        made.append(f"proc {head} = {spelled(body)};")
    return "\n".join([*made, f"init {spelled(text.init)};"])


# ---- What is compared.


def read_label(line):
    """The label that a line is."""
    actions = [action.strip() for action in line.split("|")]
    return tuple(sorted((name, value == "true)" if value else None) for name, _, value in (it.partition("(") for it in actions) if name != "tau"))


class Trial:
    """A text, what the search found of it, and what the program is asked."""

    def __init__(self, maker):
        self.found = None
        while self.found is None:
            self.text = maker.text()
            if summands_in(self.text, self.text.init) <= MOST_SUMMANDS:
                self.found = searched(self.text.init, self.text.steps_of, MOST_STATES)
        self.method = maker.some("auto", "auto", "stack")
        self.traces = [self.trace(maker) for _ in range(2)]

    def trace(self, maker):
        """The labels of a walk, the last one maybe changed, with the actions of each in some order."""
        labels, states = [], self.text.init
        every = sorted({label for made in self.found.values() for label, _ in made}, key=repr) or [(("a", None),)]
        for _ in range(maker.random.randrange(8)):
            made = sorted(self.found[states], key=repr)
            if not made:
                break
            label, states = maker.random.choice(made)
            labels.append(label)
        if maker.is_once_in(2):
            labels.append(maker.random.choice(every))
        return [maker.random.sample(label, len(label)) for label in labels]

    def verdict(self, trace):
        """What `replay` is to tell of a trace."""
        states = {self.text.init}
        for number, label in enumerate(trace, 1):
            states = {then for state in states for made, then in self.found[state] if made == tuple(sorted(label))}
            if not states:
                return f"rejected {number}\n", 7
        return "accepted\n", 0

    def runs(self):
        """The runs of the program, each with the test of what it writes."""
        text = spelled_text(self.text).encode()
        yield cases.Case("", ["linearise", "TEXT", "--method", self.method], text, b"", None), self.linearised
        yield cases.Case("", ["steps", "TEXT"], text, b"", None), self.stepped
        for trace in self.traces:
            lines = "\n".join(map(spelled_label, trace)).encode()
            yield cases.Case("", ["replay", "TEXT", "--trace", "TRACE"], text, lines, None), functools.partial(self.replayed, trace)

    def linearised(self, status, out):
        """Why the printed linear process is another one, or None."""
        if status != 0:
            return f"the status is {status}"
        linear = Linear(out)
        states = searched(linear.start, linear.steps_of, 50 * MOST_STATES)
        if states is None:
            return f"too many states:\n{out}"
        return None if are_bisimilar(self.found, self.text.init, states, linear.start) else f"not bisimilar:\n{out}"

    def stepped(self, status, out):
        lines = out.splitlines()
        told = {read_label(line.split(" ", 1)[1]) for line in lines[:-1] if line[:1].isdigit()}
        wanted = {label for label, _ in self.found[self.text.init]}
        if status == 0 and lines and lines[-1].endswith("undecided 0, cut 0") and told == wanted:
            return None
        return f"status {status}, first labels {sorted(told)} in place of {sorted(wanted)}:\n{out}"

    def replayed(self, trace, status, out):
        wanted = self.verdict(trace)
        lines = ", ".join(map(spelled_label, trace))
        return None if (out, status) == wanted else f"of {lines}: {out.strip()}, status {status}, in place of {wanted}"


def tell(trials, answers):
    """Says of each answer why it isn't what it has to be. Gives how many runs there were, and how many texts differ."""
    wrong, number = {}, 0
    for (trial, test, case), (_, found) in zip(trials, answers):
        number += 1
        why = found if isinstance(found, str) else test(found[0], found[1].decode())
        if why is None and not isinstance(found, str) and found[2]:
            why = found[2].decode()
        if why:
            wrong[id(trial)] = trial
            print(f"{case.text.decode()}\n{' '.join(case.words)}: {why}\n", flush=True)
    return number, len(wrong)


def main():
    words = argparse.ArgumentParser(usage="bench/starting.py [--quick] [--seed N] [--texts N] [PROGRAM WORD..]")
    words.add_argument("--quick", action="store_true")
    words.add_argument("--seed", type=int, default=1)
    words.add_argument("--texts", type=int, default=600)
    words.add_argument("program", nargs="*", default=[str(PROGRAM)])
    asked = words.parse_args()
    maker = Maker(asked.seed)
    trials = [(trial, test, case) for trial in (Trial(maker) for _ in range(asked.texts)) for case, test in trial.runs()]
    if asked.quick:
        number, wrong = tell(trials, unproved.answers([case for _, _, case in trials]))
    else:
        with tempfile.TemporaryDirectory() as folder, concurrent.futures.ThreadPoolExecutor(os.cpu_count()) as pool:
            answers = pool.map(lambda trial: (trial[2], cases.answered(asked.program, trial[2], folder)), trials)
            number, wrong = tell(trials, answers)
    print(f"{asked.texts} texts, {number} runs, {wrong} texts differ")
    return 1 if wrong else 0


if __name__ == "__main__":
    sys.exit(main())
