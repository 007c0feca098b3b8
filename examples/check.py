#!/usr/bin/env python3
"""Runs the program on the examples, and compares what it writes, byte by byte, with what stands beside them.

Run it anywhere: examples/check.py [PROGRAM WORD..]. The program is ./mcrl2lin if none is given.
    examples/check.py --quick [WORD..]
compares what ./mcrl2lin would start: what the toolchain builds of the sources without a proof, where they aren't proved. That is for whoever
changes the code. It runs the files here, or those and the cases of cases/ whose names have one of the words.

A specification NAME.mcrl2 has its linear process in NAME.lps, where there is one, which is given again when it is read itself. It can be
linearised, which the task `check` is to say.
One in refused/ has the line that refuses it in NAME.err, whatever the task. NAME.session has what a terminal shows for further tasks
(sessions.py). The cases in cases/ are run as well (cases.py says what they are), and where a program is given the runs of files.py. Each difference is a line, and the last line counts what was compared. The status
is 1 where something differs.
"""

import concurrent.futures
import os
import pathlib
import sys

import cases
import files
import sessions
import unproved

HERE = pathlib.Path(__file__).resolve().parent


def linear_processes():
    """For each specification with a linear process beside it, and for that itself, the task, its path and what is to be answered."""
    for made in sorted(HERE.glob("*.lps")):
        for path in (made.with_suffix(".mcrl2"), made):
            yield "linearise", path, (0, made.read_bytes(), b"")


def accepted():
    """For each specification that isn't refused, the task, its path and what is to be answered."""
    for path in sorted(HERE.glob("*.mcrl2")):
        yield "check", path, (0, b"ok\n", b"")


def refusals():
    """For each specification that is refused and each task, its path and what is to be answered."""
    for line in sorted(HERE.glob("refused/*.err")):
        for task in ("check", "linearise"):
            yield task, line.with_suffix(".mcrl2"), (1, b"", line.read_bytes())


def examples():
    """The cases of the files here."""
    for task, path, wanted in (*linear_processes(), *accepted(), *refusals()):
        yield cases.Case(str(path.relative_to(HERE)), [task, "TEXT"], path.read_bytes(), b"", wanted)


def chosen(words):
    """The cases whose names have one of the words, or those of the files here where there is no word."""
    if not words:
        return [*examples()]
    return [it for it in (*examples(), *cases.all_cases()) if any(word in it.place for word in words)]


def compare_sessions(program, words=()):
    """Runs the sessions whose places have one of the words, or all, and says each difference: the number of their commands, and of those that differ."""
    runs = [run for run in sessions.all_runs() if not words or any(word in run.place for word in words)]
    with concurrent.futures.ThreadPoolExecutor(os.cpu_count()) as pool:
        written = [pool.submit(sessions.written_by, program, run) for run in runs]
        answers = [(run, it.result()) for run, it in zip(runs, written)]
    differ = [(run, found) for run, found in answers if found != run.wanted]
    for run, found in differ:
        print(f"{run.place}: {run.command}: {sessions.difference(found, run.wanted)}", flush=True)
    return len(runs), len(differ)


def compare(words):
    """Compares what the program of the words answers to all examples: the number of these, and of those that differ."""
    program = words or [str(HERE.parent / "mcrl2lin")]
    parts = [cases.compare(program, [*cases.all_cases(), *examples()]), compare_sessions(program)]
    if words:
        parts.append(files.compare(words))
    return tuple(map(sum, zip(*parts)))


def main():
    words = sys.argv[1:]
    if words[:1] == ["--quick"]:
        program = unproved.program()
        parts = cases.compare(program, chosen(words[1:])), compare_sessions(program, words[1:])
        compared, differ = map(sum, zip(*parts))
        if not compared:
            sys.exit("no case has such a name")
    else:
        compared, differ = compare(words)
    print(f"{compared} compared, {differ} differ")
    return 1 if differ else 0


if __name__ == "__main__":
    sys.exit(main())
