#!/usr/bin/env python3
"""How the time of `comm` grows.

Run it from the top of the repository, after a build: bench/communicating.py [REPEATS]. It is no part of the gate.

Each line has the processor's seconds of a text with communication, those of the same text without it, and how many times
the difference is that of the line in front. First come labels of more and more actions, of which each joins one other by a rule of its own, so
that the ways double with each rule; then labels whose actions have a rule and nobody to join; last more and more summands of two actions.
"""

import sys

from programs import done


def seconds(text, repeats):
    """The least of so many runs' processor seconds over a text."""
    runs = [done("linearise", text) for _ in range(repeats)]
    assert all(run[0] == 0 for run in runs), runs[0][3][:80]
    return min(run[1] for run in runs)


def case(actions, labels, rules):
    """A text with these actions and a summand for each label, with these rules and without them."""
    summands = " + ".join("|".join(f"{name}({k})" for k, name in enumerate(label, 1)) + " . X" for label in labels)
    front = f"act {', '.join(actions)}: Nat; proc X = {summands}; init "
    return f"{front}comm({{{', '.join(rules)}}}, X);", f"{front}X;"


def pairs(count):
    """A label of so many actions, and half as many rules."""
    half = count // 2
    names = [f"a{k}" for k in range(half)] + [f"b{k}" for k in range(half)]
    results = [f"c{k}" for k in range(half)]
    return case(names + results, [names], [f"a{k}|b{k} -> c{k}" for k in range(half)])


def alone(count):
    """A label of so many actions of one name, whose rule wants another one."""
    return case(["a", "b", "c"], [["a"] * count], ["a|b -> c"])


def apart(count):
    """A label of so many actions with a name of their own each, whose rules want another one."""
    names = [f"a{k}" for k in range(count)]
    return case(names + [f"b{k}" for k in range(count)] + [f"c{k}" for k in range(count)], [names], [f"a{k}|b{k} -> c{k}" for k in range(count)])


def summands(count):
    """So many summands of two actions that may join."""
    return case(["a", "b", "c"], [["a", "b"]] * count, ["a|b -> c"])


def table(title, make, counts, repeats):
    """Prints a line for each count."""
    print(title)
    before = None
    for count in counts:
        joined, apart = make(count)
        with_it = seconds(joined, repeats)
        without = seconds(apart, repeats)
        own = with_it - without
        ratio = "" if before is None or before <= 0 else f"  {own / before:5.1f} times"
        print(f"  {count:6}  {with_it:8.3f} s  {without:8.3f} s{ratio}", flush=True)
        before = own


def main():
    repeats = int(sys.argv[1]) if len(sys.argv) > 1 else 3
    table("actions in pairs", pairs, (8, 10, 12, 14, 16), repeats)
    table("actions alone", alone, (50, 100, 200, 400), repeats)
    table("actions of different names, alone", apart, (50, 100, 200, 400), repeats)
    table("summands", summands, (250, 500, 1000, 2000, 4000), repeats)


main()
