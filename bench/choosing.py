#!/usr/bin/env python3
"""Leads a session by the picks of a walk, and compares both: bench/choosing.py [STEPS [NAME ..]]

For each specification NAME.mcrl2 of examples/, or those of the names, a session of launcher/simulate.py makes up to STEPS moves, or 100, by
the picks of a walk with the seed 1: of n moves the one at the place w / 2^33 modulo n, where the words w follow one another as in
docs/definitions/simulating.md. Its labels are to be those of the task `walk` with the same seed and depth. A line for each specification
has the steps and the seconds of the last one, and the last line counts what differs. It takes the program that ./mcrl2lin starts.
"""

import pathlib
import sys
import time

TOP = pathlib.Path(__file__).resolve().parent.parent
for part in ("examples", "launcher"):
    sys.path.append(str(TOP / part))

import simulate  # noqa: E402
import unproved  # noqa: E402


class Picks:
    """The picks of a walk, in place of chance."""

    def __init__(self, seed):
        self.word = seed

    def randint(self, first, last):
        self.word = (self.word * 6364136223846793005 + 1442695040888963407) % 2**64
        return first + (self.word >> 33) % (last - first + 1)


def labels_of_session(program, steps):
    """The labels of a session with at most so many steps, and the seconds that its last one took."""
    session, seconds = simulate.Session(program, Picks(1)), 0.0
    while len(session.labels) < steps and session.view.moves:
        began = time.monotonic()
        session.take(session.chance.randint(1, len(session.view.moves)))
        seconds = time.monotonic() - began
    return session.labels, seconds


def main(words):
    steps = int(words[0]) if words else 100
    differ = 0
    for file in sorted((TOP / "examples").glob("*.mcrl2")):
        if words[1:] and file.stem not in words[1:]:
            continue
        program = simulate.Program(unproved.program(), [], file.read_bytes())
        walk = program.ask("walk", program.text, ["--seed=1", f"--depth={steps}"]).splitlines()[:-1]
        labels, seconds = labels_of_session(program, steps)
        differ += labels != walk
        print(f"{file.stem}: {len(labels)} steps, the last in {seconds:.2f} s{'' if labels == walk else ', and the walk has others'}", flush=True)
    print(f"{differ} differ")
    return 1 if differ else 0


if __name__ == "__main__":
    sys.exit(main(sys.argv[1:]))
