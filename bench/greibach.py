#!/usr/bin/env python3
"""How long texts take whose Greibach forms are large: time against the size of the linear process that is written.

Run it from the top of the repository, after a build: bench/greibach.py
The program goes all the way from the text to the bytes of the linear process, so the seconds are those of all passes. It prints one line for each
text: how many summands come of it and in how many bytes, seconds of the processor, how many times those of the line before, and the peak
memory. It is no part of the gate.
"""

from programs import done


def ring(count):
    """Each definition does an action and calls the next one."""
    return "act a; proc " + " ".join(f"X{i} = a . X{(i + 1) % count};" for i in range(count)) + " init X0;"


def summands(count):
    """One definition has so many summands, each of which calls it."""
    return f"act a; proc X = {' + '.join(['a . X'] * count)}; init X;"


def heads(count):
    """Each definition begins with a call of the next one, and an action stands behind it. One equation has so many calls."""
    return "act a; proc " + " ".join(f"X{i} = X{i + 1} . a;" for i in range(1, count)) + f" X{count} = a; init X1;"


def heads_with_summands(count):
    """The same, with an action beside each call. Each level gives a summand, whose calls are those of all levels above it."""
    return "act a; proc " + " ".join(f"X{i} = X{i + 1} . a + a;" for i in range(1, count)) + f" X{count} = a; init X1;"


def heads_with_data(count):
    """The same without the action, where each definition has a parameter, a sum and an argument of its own."""
    bodies = " ".join(f"X{i}(x: Nat) = sum n: Nat . X{i + 1}(n) . a(x, n);" for i in range(1, count))
    return f"act a: Nat # Nat; proc {bodies} X{count}(x: Nat) = a(x, x); init X1(1);"


def rests(count):
    """One body is a chain of so many actions."""
    return f"act a; proc X = {' . '.join(['a'] * count)}; init X;"


def rests_with_data(count):
    """One body is a chain of so many actions under a sum, which all need its variable."""
    return f"act a: Nat; proc X = sum n: Nat . {' . '.join(['a(n)'] * count)}; init X;"


def entered(count):
    """So many definitions begin with a call of one that has ten summands."""
    bodies = " ".join(f"X{i} = Y . X{(i + 1) % count};" for i in range(count))
    return f"act a; proc {bodies} Y = {' + '.join(['a'] * 10)}; init X0;"


def conditions(count):
    """Conditions within one another, each with an action. Each summand has those of all levels above it."""
    body = "a(x)"
    for i in range(count):
        body = f"(x == {i}) -> a(x) <> ({body})"
    return f"act a: Nat; proc X(x: Nat) = {body}; init X(0);"


def parameters(count):
    """So many parameters, each of which one summand needs."""
    names = [f"x{i}" for i in range(count)]
    params = ", ".join(f"{name}: Nat" for name in names)
    return f"act a: Nat; proc X({params}) = {' + '.join(f'a({name})' for name in names)}; init X({', '.join(['0'] * count)});"


TEXTS = [
    ("definitions in a ring", ring, (10_000, 20_000, 40_000)),
    ("summands", summands, (10_000, 20_000, 40_000)),
    ("calls in head position", heads, (500, 1_000, 2_000)),
    ("the same with summands", heads_with_summands, (250, 500, 1_000)),
    ("the same with data", heads_with_data, (125, 250, 500)),
    ("factors", rests, (25_000, 50_000, 100_000)),
    ("factors with data", rests_with_data, (25_000, 50_000, 100_000)),
    ("definitions that enter one", entered, (2_500, 5_000, 10_000)),
    ("conditions in one another", conditions, (80, 160, 320)),
    ("parameters", parameters, (1_000, 2_000, 4_000)),
]


def main():
    for name, make, counts in TEXTS:
        before = None
        for count in counts:
            status, seconds, memory, said = done("linearise", make(count))
            assert status == 0, f"{count} {name}: {said[:80]}"
            times = "" if before is None else f"{seconds / before:5.1f} times"
            size = f"{1 + said.count(chr(10) + '  + ')} summands in {len(said)} bytes"
            print(f"{count:7} {name:27} {size:40} {seconds:7.2f} s {times:11} {memory >> 10:5} MB")
            before = max(seconds, 0.01)


if __name__ == "__main__":
    main()
