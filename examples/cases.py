#!/usr/bin/env python3
"""Cases of the finished program: texts, and what it is to write for each.

Run it anywhere: examples/cases.py PROGRAM [WORD..] runs the program on the cases whose files have one of the words in their names, or on
all. examples/check.py runs all of them. Each difference is a line, the last line counts the cases, and the status is 1 where one differs.

The files stand in cases/. The first sign of a line says what it is, and a blank stands behind it:

    # a comment, as is an empty line
    $ linearise TEXT --fuel 9       the words of the program for the cases from here on. Several such lines are several runs
    < act a; init a;                a text: of the file that stands for TEXT among the words
    | init a;                       the next line of a text
    ~ a|b                           a line of the file that stands for TRACE
    > init P;                       a line of the output
    ! refused 6 NoInit              a line of the error output
    = 6                             the exit status, where it isn't 0, or 1 with a line of the error output

The lines of `>`, `!` and `=` are what each of the texts in front of them is answered by, back to the last such line. Where there are none,
nothing is to be written. Neither a text nor a trace has a line feed at its end.

In all lines but comments, `\\` and two digits of base 16 are the byte of that number, and `@3@piece@` is the piece three times. In it `{1}`
is 1 the first time, 2 the second time and so on, and `{1:2}` is 1, 3 and so on; the pieces don't nest.
"""

import concurrent.futures
import dataclasses
import itertools
import os
import pathlib
import re
import subprocess
import sys
import tempfile

FOLDER = pathlib.Path(__file__).resolve().parent / "cases"


@dataclasses.dataclass
class Text:
    """A text with its trace, if there is one, and where its lines begin."""

    line: int
    lines: list
    trace: list


@dataclasses.dataclass
class Answer:
    """What is to be written, and the status."""

    out: list = dataclasses.field(default_factory=list)
    err: list = dataclasses.field(default_factory=list)
    status: int = None

    def wanted(self):
        """The status, the output and the error output."""
        status = self.status if self.status is not None else int(bool(self.err))
        return status, ended(self.out), ended(self.err)


@dataclasses.dataclass
class Case:
    """A run of the program: where it stands, the words, the text, the trace, and what is to be answered."""

    place: str
    words: list
    text: bytes
    trace: bytes
    wanted: tuple


def ended(lines):
    """The bytes of lines that each end."""
    return b"".join(line + b"\n" for line in lines)


def numbered(found, at):
    """The number that stands for a pair of braces in a piece's round."""
    return str(int(found[1]) + at * int(found[2] or 1))


def spelled(line):
    """The bytes that a line stands for."""
    pieces = line.split("@")
    parts = []
    for place in range(0, len(pieces), 3):
        parts.append(pieces[place])
        if place + 2 < len(pieces):
            count, piece = int(pieces[place + 1]), pieces[place + 2]
            parts += [re.sub(r"\{(\d+)(?::(\d+))?\}", lambda found: numbered(found, at), piece) for at in range(count)]
    return re.sub(rb"\\([0-9a-f]{2})", lambda found: bytes([int(found[1], 16)]), "".join(parts).encode())


def cases_of(path):
    """The cases of a file, in their order."""
    tasks, texts, answer = [], [], None
    is_behind_task = False
    for number, line in enumerate([*path.read_text(encoding="utf-8").split("\n"), "$"], 1):
        sign, rest = line[:1], line[2:]
        if sign in ("", "#"):
            continue
        if line[1:2] not in ("", " "):
            raise SystemExit(f"{path.name}:{number}: no blank behind {sign}")
        if sign == "$" or (sign == "<" and answer is not None):
            yield from cases_between(path, tasks, texts, answer or Answer())
            texts, answer = [], None
        if sign == "$":
            tasks = [*(tasks if is_behind_task else []), rest.split()]
        elif sign == "<":
            texts.append(Text(number, [spelled(rest)], []))
        elif sign == "|":
            texts[-1].lines.append(spelled(rest))
        elif sign == "~":
            texts[-1].trace.append(spelled(rest))
        else:
            answer = answer or Answer()
            if sign == ">":
                answer.out.append(spelled(rest))
            elif sign == "!":
                answer.err.append(spelled(rest))
            elif sign == "=":
                answer.status = int(rest)
            else:
                raise SystemExit(f"{path.name}:{number}: {sign} is no sign of a line")
        is_behind_task = sign == "$"


def cases_between(path, tasks, texts, answer):
    """The cases of some texts that have one answer, for each task."""
    for text in texts:
        for words in tasks:
            place = f"{path.name}:{text.line}"
            yield Case(place, words, b"\n".join(text.lines), b"\n".join(text.trace), answer.wanted())


def all_cases(words=()):
    """The cases of all files whose names have one of the words."""
    for path in sorted(FOLDER.glob("*.cases")):
        if not words or any(word in path.name for word in words):
            yield from cases_of(path)


def answered(program, case, folder):
    """What the program answers to a case, whose files stand in a folder of their own."""
    with tempfile.TemporaryDirectory(dir=folder) as own:
        text, trace = pathlib.Path(own, "text.mcrl2"), pathlib.Path(own, "trace")
        text.write_bytes(case.text)
        trace.write_bytes(case.trace)
        words = [{"TEXT": str(text), "TRACE": str(trace)}.get(word, word) for word in case.words]
        done = subprocess.run([*program, *words], stdin=subprocess.DEVNULL, capture_output=True, check=False)
    return done.returncode, done.stdout, done.stderr


def difference(found, wanted):
    """Where an answer differs from what is wanted first."""
    for name, one, other in zip(("output", "error output"), found[1:], wanted[1:]):
        lines = itertools.zip_longest(one.split(b"\n"), other.split(b"\n"))
        for number, (line, due) in enumerate(lines, 1):
            if line != due:
                return f"line {number} of the {name} is {line and line[:300]} in place of {due and due[:300]}"
    return f"the status is {found[0]} in place of {wanted[0]}"


def compare(program, cases):
    """Runs the program on the cases, and says each difference. Gives the number of the cases and of those that differ."""
    with tempfile.TemporaryDirectory() as folder, concurrent.futures.ThreadPoolExecutor(os.cpu_count()) as pool:
        runs = [(case, pool.submit(answered, program, case, folder)) for case in cases]
        return tell((case, run.result()) for case, run in runs)


def tell(answers):
    """Says each difference of the cases with their answers, or why there is no answer, and counts the cases and the differences."""
    compared = differ = 0
    for case, found in answers:
        compared += 1
        if found != case.wanted:
            differ += 1
            why = found if isinstance(found, str) else difference(found, case.wanted)
            print(f"{case.place}: {' '.join(case.words)}: {why}", flush=True)
    return compared, differ


def main():
    if len(sys.argv) < 2:
        sys.exit(__doc__.split("\n\n")[1])
    compared, differ = compare([sys.argv[1]], all_cases(sys.argv[2:]))
    print(f"{compared} compared, {differ} differ")
    return 1 if differ else 0


if __name__ == "__main__":
    sys.exit(main())
