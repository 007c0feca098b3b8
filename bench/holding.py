#!/usr/bin/env python3
"""How long the task `invariant` takes for a condition that holds, measured by `parelm` on the same text.

Run it from the top of the repository, after a build: bench/holding.py [PROGRAM WORD..]
The texts have one process of a thousand summands, and the conditions twenty parts. The parts of the one are bounds, which stay hypotheses; those of
the other are equalities, each of which is put in everywhere. The two tasks run in turn, and the least seconds of the processor count. It prints one
line for each text: the kind, the seconds of both tasks, how many times those of `parelm` are in those of `invariant`, and the peak memory of
`invariant`. It is no part of the gate.
"""

import os
import pathlib
import subprocess
import sys
import tempfile

TOP = pathlib.Path(__file__).resolve().parent.parent
PROGRAM = TOP / "crates" / "mcrl2lin" / "out" / "mcrl2lin"
SUMMANDS = 1_000
PARTS = 20
RUNS = 5


def text_of(parameters, changes):
    """A process that counts round its summands, each of which changes what it is told to."""
    heads = ", ".join(f"{it}: Nat" for it in ["n", *parameters])
    summands = (f"(n == {k}) -> a(n) . X(n = {(k + 1) % SUMMANDS}, {changes(k)})" for k in range(SUMMANDS))
    return f"act a: Nat;\nproc X({heads}) = " + "\n  + ".join(summands) + f";\ninit X({', '.join('0' * (len(parameters) + 1))});\n"


def bounds():
    """Each summand sets one of so many parameters to a number below the bound."""
    text = text_of([f"p{i}" for i in range(PARTS)], lambda k: f"p{k % PARTS} = {k % 10}")
    return text, " && ".join(f"p{i} < 10" for i in range(PARTS))


def equalities():
    """Each summand sets both of a pair of parameters to the same number."""
    text = text_of([f"{it}{i}" for i in range(PARTS) for it in "pq"], lambda k: f"p{k % PARTS} = {k % 10}, q{k % PARTS} = {k % 10}")
    return text, " && ".join(f"p{i} == q{i}" for i in range(PARTS))


COMMAND = sys.argv[1:] or [PROGRAM]
KINDS = {"bounds": bounds, "equalities": equalities}


def run(*words):
    """Runs the program on these words, which have to succeed; gives the processor's seconds and the peak memory in KiB."""
    with tempfile.TemporaryFile() as shown:
        child = subprocess.Popen([*COMMAND, *words], stdout=shown)
        _, status, usage = os.wait4(child.pid, 0)
        child.returncode = os.waitstatus_to_exitcode(status)
        assert child.returncode == 0, f"{words[0]} ended with status {child.returncode}"
        return usage.ru_utime + usage.ru_stime, usage.ru_maxrss


def main():
    for kind, make in KINDS.items():
        with tempfile.TemporaryDirectory() as folder:
            text, condition = pathlib.Path(folder) / "text.mcrl2", pathlib.Path(folder) / "condition"
            for path, written in zip((text, condition), make()):
                path.write_text(written)
            runs = [(run("invariant", text, "--invariant", condition), run("parelm", text)) for _ in range(RUNS)]
        (seconds, memory), (measure, _) = (min(its) for its in zip(*runs))
        print(f"{kind:12} invariant {seconds:7.2f} s   parelm {measure:7.2f} s   {seconds / max(measure, 0.001):6.1f} times {memory / 1024:7.1f} MB", flush=True)


if __name__ == "__main__":
    main()
