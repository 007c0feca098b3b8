#!/usr/bin/env python3
"""How long `check` takes over specifications of many definitions, and `linearise` over networks of many components, and how much memory and stack
that needs.

Run it from the top of the repository, after a build: bench/networks.py [speed|stack|kept] [--exe PROGRAM] [--limit SECONDS] [--memory MIB]
`speed` prints one line for each specification of components that do nothing, or of many operators: what is asked of it, its shape, how many
definitions it has, the processor's seconds, how many times those of the line before, and the peak memory. The peak is never less than that of
this script, which starts the program.
`stack` prints the least `ulimit -s` under which a network of some depths is made and written, and how many bytes a level that is.
`kept` prints one line for each network of which operators keep few of the summands that its components have side by side (`generate`, and the
kinds of network_texts.py): its kind, components and kept summands, the processor's seconds, how many times those of half the number, and the
peak memory. A run has 20 seconds of the processor and 4096 MiB at most, or what the options say. What takes more is over the limit, and no
greater number of its kind is tried. The summands are compared with the number that the kind has to have; the status is 1 where they differ.
It is no part of the gate.
"""

import argparse
import resource
import sys

from network_texts import KINDS
from programs import PROGRAM, done, run_of

KIB = 1 << 10
MIB = 1 << 20
# The task, the shape, and how many definitions.
SPEEDS = [
    ("check", "chain", (12_500, 25_000, 50_000, 100_000)),
    ("check", "tree", (12_499, 24_999, 49_999, 99_999)),
    ("linearise", "chain", (12_500, 25_000, 50_000, 100_000)),
    ("linearise", "merges", (250, 500, 1_000, 2_000)),
    ("linearise", "hides", (250, 500, 1_000, 2_000)),
]
# The lines of buffers that the program makes itself.
GENERATED = (5, 10, 20, 40)


def text(shape, count):
    """Definitions of which each calls the next alone, beside nothing or under a `hide`, or of which each calls two."""
    forms = {"chain": "X{0}", "merges": "X{0} || delta", "hides": "hide({{a}}, X{0})", "tree": "X{1} || X{2}"}
    bodies = []
    for place in range(count):
        last = 2 * place + 2 >= count if shape == "tree" else place + 1 >= count
        bodies.append("a" if last else forms[shape].format(place + 1, 2 * place + 1, 2 * place + 2))
    return "act a; proc " + " ".join(f"X{place} = {body};" for place, body in enumerate(bodies)) + " init X0;"


def wanted(task, shape):
    """How what the program says has to begin."""
    return "ok" if task == "check" else "act a;\nproc P" + (" = tau;" if shape == "hides" else " = a;" if shape == "chain" else "(")


def speed(options):
    for task, shape, counts in SPEEDS:
        before = None
        for count in counts:
            _, seconds, memory, said = min(done(task, text(shape, count), program=options.exe) for _ in range(3))
            assert said.startswith(wanted(task, shape)), f"{task} {shape} {count}: {said[:80]}"
            times = f"{seconds / before:5.1f} times" if before else " " * 11
            print(f"{task:9} {shape:6} {count:7} definitions {seconds:8.4f} s {times} {memory // KIB:4} MiB")
            before = max(seconds, 0.0001)


def ends_well(shape, count, stack, options):
    """Whether the program answers under a stack of so many KiB."""
    def limit():
        resource.setrlimit(resource.RLIMIT_STACK, (stack * KIB, stack * KIB))

    return done("linearise", text(shape, count), limit=limit, program=options.exe)[0] == 0


def least_stack(shape, count, options):
    """The least stack in KiB, to a sixteenth, under which the program answers."""
    low, high = 0, 64
    while not ends_well(shape, count, high, options):
        low, high = high, 2 * high
    while high - low > max(high // 16, 4):
        middle = (low + high) // 2
        if ends_well(shape, count, middle, options):
            high = middle
        else:
            low = middle
    return high


def stack(options):
    base = least_stack("chain", 1, options)
    print(f"no nesting: {base} KiB")
    for shape in ("merges", "hides"):
        for count in (1_000, 2_000, 5_000):
            need = least_stack(shape, count, options)
            print(f"linearise {shape:6} {count:5} {need:6} KiB, {(need - base) * KIB // count:5} bytes a level")


def limited(options):
    """What gives a process the seconds and the memory that it may have."""
    def limit():
        resource.setrlimit(resource.RLIMIT_CPU, (options.limit, options.limit + 1))
        resource.setrlimit(resource.RLIMIT_AS, (options.memory * MIB, options.memory * MIB))

    return limit


def generated(count, options):
    """A line of buffers that the program makes itself: the status, seconds, memory, and what it says of components and summands."""
    status, seconds, memory, said = run_of(options.exe, ["generate", str(count)], limited(options))
    told = dict(line.split() for line in said.splitlines()) if status == 0 else {}
    return status, seconds, memory, said, int(told.get("components", 0)), int(told.get("summands", 0))


def made(make, components, count, options):
    """The same for a text of a kind, of which the program writes the linear process."""
    status, seconds, memory, said = done("linearise", make(count), limit=limited(options), program=options.exe)
    return status, seconds, memory, said, components(count), 1 + said.count("\n  + ")


def runs():
    """Each kind with how a network of a number is run, what components and summands it has to have, and the numbers to try."""
    yield "generate", generated, lambda n: n, lambda n: n + 1, GENERATED
    for kind, (make, components, summands, counts) in KINDS.items():
        yield kind, lambda n, options, make=make, components=components: made(make, components, n, options), components, summands, counts


def without_answer(status, said):
    """Why a run has no linear process: a signal has ended it, there was no memory for it, or the program doesn't take it."""
    return "over the limit" if status < 0 or said == "no memory\n" else f"not taken, with status {status} ({said[:20].strip()} ..)"


def kept(options):
    differ = []
    for kind, run, components, summands, counts in runs():
        taken = {}
        for count in counts:
            status, seconds, memory, said, has, keeps = run(count, options)
            line = f"{kind:14} {components(count):3} components"
            if status:
                print(f"{line} {without_answer(status, said)}: {seconds:.1f} s, {memory // KIB} MiB", flush=True)
                break
            taken[count] = max(seconds, 0.0001)
            times = f"{seconds / taken[count // 2]:6.1f} times" if count % 2 == 0 and count // 2 in taken else " " * 12
            due = summands(count)
            print(f"{line} {keeps:6} summands {seconds:8.3f} s {times} {memory // KIB:5} MiB", flush=True)
            if (has, keeps) != (components(count), due):
                differ.append(f"{kind} {count}: {has} components and {keeps} summands in place of {components(count)} and {due}")
    print("\n".join(differ) or "each has the summands that it has to have")
    return 1 if differ else 0


def main():
    parser = argparse.ArgumentParser()
    parser.add_argument("words", nargs="*", metavar="speed|stack|kept", default=["speed", "stack"])
    parser.add_argument("--exe", default=PROGRAM)
    parser.add_argument("--limit", type=int, default=20)
    parser.add_argument("--memory", type=int, default=4096)
    options = parser.parse_args()
    return max([{"speed": speed, "stack": stack, "kept": kept}[word](options) or 0 for word in options.words])


if __name__ == "__main__":
    sys.exit(main())
