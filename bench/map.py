#!/usr/bin/env python3
"""Shows where things are in the crates.

  bench/map.py                      the crates in the order of crates.txt, each with what is said of it there
  bench/map.py CRATE..              the files of a crate's src/ and specs/, each with its first line
  bench/map.py --lemmas [WORD..]    the lemmas whose file, name or line has all the words: the file, the lemma, and the line above it

There are more than ten thousand lemmas, so the last one is for searching. `rt lemma WORDS` searches by what a lemma says.
"""
import pathlib
import re
import signal
import sys

TOP = pathlib.Path(__file__).resolve().parent.parent


def first_line(path):
    """What the first line of a file says of it."""
    with path.open(encoding="utf-8") as file:
        return re.sub(r"^(//!|--)\s*", "", file.readline().strip())


def crates():
    """The crates in the order of crates.txt, each with the last remark above it."""
    remark = ""
    for line in (TOP / "crates.txt").read_text(encoding="utf-8").split("\n"):
        found = re.match(r"(\w+)(?: staticlib)?:", line)
        remark = line[2:] if line.startswith("# ") else remark
        if found:
            yield found[1], remark


def files_of(crate):
    """The files of a crate's src/ and specs/, but those that only list others."""
    folder = TOP / "crates" / crate
    found = [*sorted(folder.glob("src/**/*.rt")), *sorted(folder.glob("specs/*.antt"))]
    return [path for path in found if path.stem not in ("lib", "Lib")]


def lemmas():
    """Each lemma of a file of proofs/ that others may cite: its file, its name and the comment above it."""
    for path in sorted(TOP.glob("crates/*/proofs/*.antt")):
        above = ""
        for line in path.read_text(encoding="utf-8").split("\n"):
            found = re.match(r"(?:pub |abbrev |unfoldable )*([^\s:({]+) :", line)
            if line.startswith("-- "):
                above = line[3:]
            elif found and not line.startswith(("use ", " ")):
                yield path.relative_to(TOP), found[1], above
                above = ""


def shown(words):
    """The lines that the words ask for."""
    if words[:1] == ["--lemmas"]:
        lines = (f"{path} {name}" + (f": {above}" if above else "") for path, name, above in lemmas())
        return (line for line in lines if all(word in line for word in words[1:]))
    if words:
        return (f"{path.relative_to(TOP)}: {first_line(path)}" for crate in words for path in files_of(crate))
    return (f"{crate}: {remark}" for crate, remark in crates())


if __name__ == "__main__":
    signal.signal(signal.SIGPIPE, signal.SIG_DFL)
    for each in shown(sys.argv[1:]):
        print(each)
