#!/usr/bin/env python3
"""How many equations a second the rewriter uses, and how that grows, by the first steps of a process.

Run it from the top of the repository, after a build: bench/rewriting.py [WORD..]
It prints one line for each kind of term and size: the kind, how many equations are used, the processor's seconds beyond those of a text
without a term to rewrite, how many uses a second that is, how many times the seconds of half the size, and for the largest the peak memory
for each use. What the text itself takes is told with it. With words only the kinds that have one of them are tried. It is no part of the gate.
"""

import math
import sys

from programs import done

KIB = 1 << 10
SIZES = (125_000, 250_000, 500_000, 1_000_000)
# Enough fuel for every text.
FUEL = 100_000_000


def endless(count):
    """The equation f(x) = f(x), and so many uses of it."""
    return "map f: Nat -> Bool; var x: Nat; eqn f(x) = f(x); act b; init f(0) -> b;", count, count


def sum_of_numbers(count):
    """1 + 1 + .. + 1 == 0: one use for each sign, and one for the equality."""
    return f"act b; init ({' + '.join(['1'] * (count + 1))} == 0) -> b;", count, FUEL


def listed(element, count):
    return f"[{', '.join([element] * count)}]"


def joined(count):
    """Two lists of so many elements put together, which aren't empty: one use for each element of the first, and some for its ends."""
    return f"act b; init ({listed('1', count)} ++ {listed('2', count)} == []) -> b;", count, FUEL


def sought(count):
    """An element that a list hasn't: three uses for each element, and one for the end."""
    return f"act b; init (2 in {listed('1', count // 3)}) -> b;", 3 * (count // 3), FUEL


WRITTEN = """map app, mul: List(Pos) # List(Pos) -> List(Pos); var x: Pos; k, l: List(Pos);
eqn app([], k) = k; app(x |> l, k) = x |> app(l, k); mul([], k) = []; mul(x |> l, k) = app(k, mul(l, k)); act b;
"""


def written_sum(count):
    """A list of so many elements put in front of another one, by two written equations."""
    return f"{WRITTEN}init (app({listed('1', count)}, {listed('2', count)}) == []) -> b;", count, FUEL


def written_product(count):
    """A list put in front of itself as often as it has elements, by four written equations."""
    size = math.isqrt(count)
    return f"{WRITTEN}init (mul({listed('1', size)}, {listed('2', size)}) == []) -> b;", size * (size + 2), FUEL


KINDS = {
    "an endless chain": endless,
    "a sum of numbers": sum_of_numbers,
    "lists put together": joined,
    "an element sought": sought,
    "a written sum": written_sum,
    "a written product": written_product,
}


def ask(made):
    """The processor's seconds and the peak memory in KiB for a text, the least of some runs."""
    text, _, fuel = made
    runs = [done("steps", text, "--fuel", str(fuel)) for _ in range(3)]
    assert all(run[0] in (0, 6) for run in runs), runs[0][3][:80]
    return min(run[1] for run in runs), min(run[2] for run in runs)


def main():
    base, _ = ask(("act b; init b;", 0, FUEL))
    print(f"the start of the program: {base:.4f} s, which are left out below")
    for kind, make in KINDS.items():
        if sys.argv[1:] and not any(word in kind for word in sys.argv[1:]):
            continue
        before = None
        for size in SIZES:
            made = make(size)
            seconds, memory = ask(made)
            seconds = max(seconds - base, 0.0001)
            times = f"{seconds / before:5.1f} times" if before else " " * 11
            peak = f"{memory * KIB / made[1]:6.1f} bytes a use" if size == SIZES[-1] else ""
            print(f"{kind:20} {made[1]:8} uses {seconds:8.4f} s {made[1] / seconds:10.0f} a second {times} {peak}", flush=True)
            before = seconds


if __name__ == "__main__":
    main()
