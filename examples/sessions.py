"""Sessions: what a terminal shows for commands that run the program on the examples.

They stand in NAME.session here. A line `$ COMMAND` is a command for bash, in the folder above this one, which starts the program as
`./mcrl2lin`. The lines up to the next command, or to a remark, which begins with `%`, are all that it writes, on both streams.
"""

import dataclasses
import itertools
import pathlib
import re
import shlex
import subprocess

HERE = pathlib.Path(__file__).resolve().parent


@dataclasses.dataclass
class Run:
    """A command: where it stands, its text, and what is to be written."""

    place: str
    command: str
    wanted: bytes


def runs_of(path):
    """The commands of a session, in their order."""
    command, written = None, []
    for number, line in enumerate([*path.read_text(encoding="utf-8").splitlines(), "%"], 1):
        if line.startswith(("$ ", "%")):
            if command:
                yield Run(command[0], command[1], "".join(it + "\n" for it in written).encode())
            command, written = ((f"{path.name}:{number}", line[2:]) if line[0] == "$" else None), []
        elif command:
            written.append(line)
        elif line:
            raise SystemExit(f"{path.name}:{number}: no command is in front of this line")


def all_runs():
    """The commands of all sessions."""
    return [run for path in sorted(HERE.glob("*.session")) for run in runs_of(path)]


def written_by(program, run):
    """What a command writes where the words of the program start it."""
    first = str(pathlib.Path(program[0]).resolve()) if "/" in program[0] else program[0]
    command = f'start() {{ {shlex.join([first, *program[1:]])} "$@"; }}\n' + re.sub(r"\./mcrl2lin\b", "start", run.command)
    done = subprocess.run(["bash", "-c", command], cwd=HERE.parent, stdin=subprocess.DEVNULL, stdout=subprocess.PIPE,
                          stderr=subprocess.STDOUT, check=False)
    return done.stdout


def difference(found, wanted):
    """The first line of what was written that differs."""
    lines = itertools.zip_longest(found.split(b"\n"), wanted.split(b"\n"))
    return next(f"line {number} is {one and one[:300]} in place of {other and other[:300]}"
                for number, (one, other) in enumerate(lines, 1) if one != other)
