#!/usr/bin/env python3
"""How long the tasks take that go through a linear process step by step.

Run it from the top of the repository, after a build: bench/simulating.py [PROGRAM WORD..]
It prints one line for each run: what is run, seconds of the processor, and peak memory. A kind whose size grows has a line for each size, with how
many times the seconds of the line before its own are. It is no part of the gate.
"""

import os
import pathlib
import subprocess
import sys
import tempfile

TOP = pathlib.Path(__file__).resolve().parent.parent
PROGRAM = TOP / "crates" / "mcrl2lin" / "out" / "mcrl2lin"
ALTERNATING = TOP / "examples" / "alternating_bit.mcrl2"

# One sum with more values than any bound, of which a condition takes three.
ONE_SUM = "act a: Nat;\nproc X = sum n: Nat . (n < 3) -> a(n) . X;\ninit X;\n"


def walks(folder):
    """Walks of the alternating bit protocol."""
    for depth in (1_000, 10_000, 100_000):
        yield f"walk of {depth}", ["walk", ALTERNATING, "--depth", str(depth)]


def choices(folder):
    """As many choices of the first move of the alternating bit protocol, which always has one."""
    for count in (1_000, 10_000, 100_000):
        path = folder / f"{count}.choices"
        path.write_text("1\n" * count)
        yield f"steps after {count}", ["steps", ALTERNATING, "--after", path]


def lines_of_buffers(folder):
    """Lines of buffers, of which the program makes the text itself."""
    for count in (5, 10, 20, 40):
        yield f"generate {count}", ["generate", str(count)]


def sums(folder):
    """A sum of which so many values are tried."""
    path = folder / "one_sum.mcrl2"
    path.write_text(ONE_SUM)
    for bound in (4_096, 16_384, 65_536):
        yield f"sum of {bound}", ["steps", path, "--bound", str(bound)]


def traces(folder):
    """The labels of a walk of the alternating bit protocol, replayed."""
    for length in (1_000, 10_000):
        walk = subprocess.run([*COMMAND, "walk", ALTERNATING, "--depth", str(length)], capture_output=True, check=True, text=True)
        path = folder / f"{length}.trace"
        path.write_text("".join(f"{label}\n" for label in walk.stdout.splitlines()[:-1]))
        yield f"replay of {length}", ["replay", ALTERNATING, "--trace", path]


def first_steps(folder):
    """What the alternating bit protocol can do first."""
    yield "steps", ["steps", ALTERNATING]


COMMAND = sys.argv[1:] or [PROGRAM]
KINDS = [first_steps, walks, choices, lines_of_buffers, sums, traces]


def run(words):
    """Runs the program on these words; gives its status, the processor's seconds and the peak memory in KiB."""
    with tempfile.TemporaryFile() as shown:
        child = subprocess.Popen([*COMMAND, *words], stdout=shown)
        _, status, usage = os.wait4(child.pid, 0)
        child.returncode = os.waitstatus_to_exitcode(status)
        return child.returncode, usage.ru_utime + usage.ru_stime, usage.ru_maxrss


def main():
    with tempfile.TemporaryDirectory() as folder:
        for kind in KINDS:
            before = None
            for name, words in kind(pathlib.Path(folder)):
                status, seconds, memory = run(words)
                growth = f"{seconds / max(before, 0.01):6.1f}" if before is not None else ""
                outcome = "" if status == 0 else f" status {status}"
                print(f"{name:20} {seconds:8.2f} s {memory / 1024:7.1f} MB {growth}{outcome}", flush=True)
                before = seconds


if __name__ == "__main__":
    main()
