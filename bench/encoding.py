#!/usr/bin/env python3
"""How long specifications of many equations, of many columns and of many sorts take from their text to that of the linear process.

Run it from the top of the repository, after a build: bench/encoding.py
Where the columns are many, the text that is written grows by as many for the first values. It prints one line for each text: seconds of the
processor, how many times those of the line before, and the peak memory. It is no part of the gate.
"""

from programs import done


def many_equations(count):
    """Each equation calls the next one, with one column."""
    equations = (f"X{i}(n: Nat) = a . X{(i + 1) % count}(n);" for i in range(count))
    return f"act a; proc {' '.join(equations)} init X0(0);"


def columns_at_first(count):
    """The first of two equations has all columns, so that each starts with an argument."""
    params = ", ".join(f"v{i}: Nat" for i in range(count))
    return f"act a, b; proc X({params}) = a . X() + b . Y; Y = b . Y; init X({', '.join(['0'] * count)});"


def columns_later(count):
    """The second of two equations has all columns, so that each starts with the closed term of its sort."""
    params = ", ".join(f"v{i}: Nat" for i in range(count))
    return f"act a, b; proc Y = b . X({', '.join(['1'] * count)}); X({params}) = a . X(); init Y;"


def many_sorts(count):
    """Each column has a sort of its own without constructors, and starts with a constant of it."""
    params = ", ".join(f"v{i}: D{i}" for i in range(count))
    sums = ", ".join(f"w{i}: D{i}" for i in range(count))
    sorts = " ".join(f"D{i};" for i in range(count))
    return f"sort {sorts} act a, b; proc Y = sum {sums} . b . X({', '.join(f'w{i}' for i in range(count))}); X({params}) = a . X(); init Y;"


TEXTS = [
    ("equations", many_equations, (10_000, 20_000, 40_000)),
    ("columns of the first equation", columns_at_first, (2_000, 4_000, 8_000)),
    ("columns of the second equation", columns_later, (2_000, 4_000, 8_000)),
    ("columns of sorts of their own", many_sorts, (250, 500, 1_000)),
]


def main():
    for name, make, counts in TEXTS:
        before = None
        for count in counts:
            status, seconds, memory, said = done("linearise", make(count))
            assert status == 0, said[:80]
            times = "" if before is None else f"{seconds / before:5.1f} times"
            print(f"{count:7} {name:30} {seconds:7.2f} s {times:11} {memory / 1024:7.1f} MB")
            before = max(seconds, 0.01)


if __name__ == "__main__":
    main()
