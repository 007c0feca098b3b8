"""The program that a start of the launcher comes to."""

import pathlib
import subprocess

TOP = pathlib.Path(__file__).resolve().parent.parent


def program():
    """The words that start the program which the launcher keeps: the proved one of the sources, or else what the toolchain built of them without a
    proof. The launcher itself adds a line to the answers of that, and has it built where it isn't."""
    words = [str(TOP / "mcrl2lin"), "check", str(TOP / "examples" / "two_steps.mcrl2")]
    ran = subprocess.run(words, stdin=subprocess.DEVNULL, stdout=subprocess.DEVNULL, check=False)
    kept = [*TOP.glob("out/mcrl2lin-*"), *TOP.glob("out/unproved-*")]
    if ran.returncode or not kept:
        raise SystemExit("there is no program")
    # (as the launcher does, with all the stack that there may be, and with nothing that the program's own checks heed)
    return ["bash", "-c", 'ulimit -S -s hard; exec env -i "$0" "$@"', str(kept[0])]
