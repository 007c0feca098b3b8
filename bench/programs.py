"""Programs for benchmarks: how one is built over the crates of this repository that no program of it is, and how programs are run."""

import os
import pathlib
import shutil
import subprocess
import tempfile

TOP = pathlib.Path(__file__).resolve().parent.parent
# The finished program, once `rt ci` or `rt run` has built it.
PROGRAM = TOP / "crates" / "mcrl2lin" / "out" / "mcrl2lin"


def lines_of(crates):
    """The lines of crates.txt for these crates."""
    lines = (TOP / "crates.txt").read_text().splitlines()
    return [line for line in lines if line.split(":")[0].split() and line.split(":")[0].split()[0] in crates]


def build(folder, name, crates, files):
    """Builds, in that folder, a program of that name over copies of the crates, and gives its path.

    The files of the program are given by their paths and texts.
    """
    folder = pathlib.Path(folder)
    for crate in crates:
        shutil.copytree(TOP / "crates" / crate, folder / "crates" / crate, ignore=shutil.ignore_patterns("out"))
    for path, text in files.items():
        file = folder / "crates" / name / path
        file.parent.mkdir(parents=True, exist_ok=True)
        file.write_text(text)
    (folder / "crates.txt").write_text("\n".join([*lines_of(crates), f"{name}: {' '.join(crates)}", ""]))
    shutil.copy(TOP / "HANDLES", folder / "HANDLES")
    subprocess.run(["rt", "run"], cwd=folder / "crates" / name, check=True, stdout=subprocess.DEVNULL)
    return folder / "crates" / name / "out" / name


def run(program, words):
    """Runs the program with so many words in all; gives the processor's seconds and the peak memory in KiB."""
    child = subprocess.Popen([program] + ["-"] * (words - 1))
    _, status, usage = os.wait4(child.pid, 0)
    child.returncode = 0
    assert status == 0, "the program ended with a failure"
    return usage.ru_utime + usage.ru_stime, usage.ru_maxrss


def run_of(program, words, limit=None):
    """Runs a program with words; gives its status, the processor's seconds, the peak memory in KiB and what it writes. Where there is a limit,
    that is called in the process before it starts."""
    with tempfile.TemporaryFile("w+") as said:
        child = subprocess.Popen([program, *words], stdin=subprocess.DEVNULL, stdout=said, stderr=said, preexec_fn=limit)
        _, status, usage = os.wait4(child.pid, 0)
        child.returncode = 0
        said.seek(0)
        return os.waitstatus_to_exitcode(status), usage.ru_utime + usage.ru_stime, usage.ru_maxrss, said.read()


def done(task, text, *words, limit=None, program=PROGRAM):
    """The same of the finished program, or of another one, for a task on a text, with further words."""
    with tempfile.NamedTemporaryFile("w") as file:
        file.write(text)
        file.flush()
        return run_of(program, [task, file.name, *words], limit)
