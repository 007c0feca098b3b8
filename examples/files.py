#!/usr/bin/env python3
"""Runs of the finished program over files and streams that fail, and with names and words that a case of cases/ can't have.

Run it anywhere: examples/files.py PROGRAM. examples/check.py runs them too, where it is given a program: ./mcrl2lin answers some of the words
itself, and names a file that can't be read. Each difference is a line, the last line counts the runs, and the status is 1 where one differs.
"""

import os
import pathlib
import resource
import signal
import subprocess
import sys
import tempfile

USAGE = b"usage: mcrl2lin TASK FILE [--trace FILE] [--method M] [--fuel N] [--bound N] [--seed N] [--depth N] [--ending E] [--invariant FILE] [--after FILE]\n"

TEXT = b"act a, b; proc X = a . Y; Y = b . X; init X;"

PRINTED = b"act a, b;\nproc P(s: Pos) = (s == 1) -> a . P(s = 2)\n  + (s == 2) -> b . P(s = 1);\ninit P(1);\n"

# The files in the folder in which the program runs. A text has at most 16 MiB.
FILES = {
    "text": TEXT,
    "-": TEXT,
    "-f": TEXT,
    "trace": b"a\nb",
    "longest": b" " * 2**24,
    "too_long": b" " * (2**24 + 1),
    "refused": b"init forall;",
}

# Words, and the status, the output and the error output.
NAMES = [
    # A name that is a dash, and one that begins with one.
    ("linearise -", (0, PRINTED, b"")),
    ("-- linearise -f", (0, PRINTED, b"")),
    # A trace behind `=`, one that isn't there, and one that is too long.
    ("replay --trace=trace text", (0, b"accepted\n", b"")),
    ("replay --trace=none text", (3, b"", b"read fault\n")),
    ("replay --trace too_long text", (1, b"", b"refused 0 TooLong\n")),
    # A file that isn't there, and a folder: it can be opened, and not read.
    ("linearise none", (3, b"", b"read fault\n")),
    ("linearise .", (3, b"", b"read fault\n")),
    ("linearise longest", (1, b"", b"refused 6 NoInit\n")),
    ("linearise too_long", (1, b"", b"refused 0 TooLong\n")),
    # Words that ask for help or for a version, and a word that is no text.
    ("-h", (2, b"", USAGE)),
    ("--help", (2, b"", USAGE)),
    ("--version", (2, b"", USAGE)),
    (b"linearise \xff", (2, b"", USAGE)),
    (b"check text \xff", (2, b"", USAGE)),
]


def ran(program, words, folder, **how):
    """What the program answers to words in a folder: its status, its output and its error output."""
    how = {"stdout": subprocess.PIPE, "stderr": subprocess.PIPE, "executable": program[0], **how}
    done = subprocess.run([*program, *words.split()], cwd=folder, stdin=subprocess.DEVNULL, check=False, **how)
    return done.returncode, done.stdout, done.stderr


def cut(program, words, folder, stream, size):
    """What the program answers where a stream is a file that takes so many bytes."""

    def limit():
        signal.signal(signal.SIGXFSZ, signal.SIG_IGN)
        resource.setrlimit(resource.RLIMIT_FSIZE, (size, size))

    path = pathlib.Path(folder, "taken")
    with path.open("wb") as file:
        status, *written = ran(program, words, folder, preexec_fn=limit, **{stream: file})
    return (status, *(path.read_bytes() if it is None else it for it in written))


def full(program, words, folder, stream):
    """What the program answers where a stream is a device that is full."""
    with open("/dev/full", "wb") as device:
        return ran(program, words, folder, **{stream: device})


def under(program, name, words, folder):
    """What the program answers where it is started under a name."""
    return ran([name, *program[1:]], words, folder, executable=program[0])


def runs(program, folder):
    """Each run by its name, with what is answered and what is to be answered."""
    for words, wanted in NAMES:
        yield words, ran(program, words, folder), wanted
    # Whatever name it is started under, also one that is no text.
    for name in (b"\xff", b"", b"linearise"):
        yield f"linearise text, as {name}", under(program, name, "linearise text", folder), (0, PRINTED, b"")
    # Terms as deep as a chain is long, in a text that hardly nests.
    for sign in (b"&&", b"||"):
        chain = (b" " + sign + b" ").join([b"b"] * 50_000)
        pathlib.Path(folder, "chain").write_bytes(b"act a: Bool; proc X(b: Bool) = a(" + chain + b") . X(b = b); init X(true);")
        status, output, error = ran(program, "linearise chain", folder)
        yield f"linearise a chain of {sign}", (status, chain in output, error), (0, True, b"")
    # The output takes nothing, or ten bytes of the answer. The error output takes five bytes of its line, or none.
    for words in ("check text", "linearise text"):
        yield f"{words} > /dev/full", full(program, words, folder, "stdout"), (4, None, b"write fault\n")
    yield "linearise text, cut off", cut(program, "linearise text", folder, "stdout", 10), (4, PRINTED[:10], b"write fault\n")
    yield "a refusal, cut off", cut(program, "linearise refused", folder, "stderr", 5), (1, b"", b"refus")
    yield "a refusal 2> /dev/full", full(program, "linearise refused", folder, "stderr"), (1, b"", None)


def compare(program):
    """Does the runs, and says each difference. Gives the number of the runs and of those that differ."""
    compared = differ = 0
    program = [os.path.abspath(program[0]), *program[1:]]
    with tempfile.TemporaryDirectory() as folder:
        for name, held in FILES.items():
            pathlib.Path(folder, name).write_bytes(held)
        for name, found, wanted in runs(program, folder):
            compared += 1
            if found != wanted:
                differ += 1
                print(f"{name}: {found} in place of {wanted}")
    return compared, differ


def main():
    if len(sys.argv) != 2:
        sys.exit(__doc__.split("\n\n")[1])
    compared, differ = compare([sys.argv[1]])
    print(f"{compared} compared, {differ} differ")
    return 1 if differ else 0


if __name__ == "__main__":
    sys.exit(main())
