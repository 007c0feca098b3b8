#!/usr/bin/env python3
"""Checks what the documents say of the sources, in a few seconds. Each fault is a line, and the status is 1 where there is one.

  bench/documents.py

- No line of README.md is over 120 columns, it has at most 130 lines, and each answer in its table of tasks stands in an example.
- The table of crates in docs/ARCHITECTURE.md has the crates of crates.txt, lowest first, each on crates on which it stands there.
- Each clause that docs/PROMISES.md names, as `crate::function` (`clause`), stands in the contract of such a public function, and each crate
  and definition that it names is there. docs/reading-the-headline.md has all clauses of `run`, each definition in the file that it says, and
  the numbers of definitions to 5 in 100.
- Each page, script and folder that a document names is there.
"""
import pathlib
import re
import sys

import definitions

TOP = pathlib.Path(__file__).resolve().parent.parent
ROWS = re.compile(r"^\| `([\w.]+)` \| (?:crates/)?(\w+)/(?:specs/)?(\w+)\.antt \|", re.M)
CALLS = re.compile(r"`(\w+)::([\w:]+)`(?: \(((?:`\w+`(?:, )?)+)\))?")
PATHS = re.compile(r"(?:crates|docs|examples|bench|\.ci)/[\w./-]*\w")


def read(name):
    """The text of a file of the repository."""
    return (TOP / name).read_text(encoding="utf-8")


def crates():
    """The crates of crates.txt in their order, each with those on which it stands, also through others."""
    found = {}
    for name, rest in re.findall(r"^(\w+)(?: staticlib)?:(.*)$", read("crates.txt"), re.M):
        found[name] = {low for it in rest.split() if it in found for low in (it, *found[it])}
    return found


def readme():
    """Faults of README.md."""
    lines = read("README.md").split("\n")
    for number, line in enumerate(lines, 1):
        if len(line) > 120:
            yield f"README.md:{number}: {len(line)} columns"
    if len(lines) - 1 > 130:
        yield f"README.md: {len(lines) - 1} lines"
    shown = "\n".join(read(path) for pattern in ("*.lps", "*.session") for path in sorted((TOP / "examples").glob(pattern)))
    for number, line in enumerate(lines, 1):
        found = re.match(r"\| `\w+` \|.*\| `(.*)` \|$", line)
        if found and found[1] not in shown:
            yield f"README.md:{number}: no example has the answer {found[1]}"


def architecture():
    """Faults of the table of crates."""
    page, known, above = read("docs/ARCHITECTURE.md"), crates(), []
    for name, rest, stands in re.findall(r"^\| `(\w+)` \|.*?\|([^|]*)\| ([^|]*) \|$", page, re.M):
        if name not in known and stands != "-":
            yield f"docs/ARCHITECTURE.md: {name} is no crate of crates.txt"
        for low in re.findall(r"`(\w+)`", rest):
            if low not in above:
                yield f"docs/ARCHITECTURE.md: {low} stands below {name} in the table, and not above"
            if name in known and low not in known[name]:
                yield f"docs/ARCHITECTURE.md: {name} doesn't stand on {low}"
        above.append(name)
    for name in known:
        if f"`{name}`" not in page:
            yield f"docs/ARCHITECTURE.md: {name} isn't named"


def contracts(crate):
    """The contracts of the functions of a crate, by name: all that stands between the name and the body."""
    found = {}
    for path in sorted((TOP / "crates" / crate / "src").rglob("*.rt")):
        for name, head in re.findall(r"\bfn (\w+)\b(.*?)(?=^\s*\{|;$|\{$)", path.read_text(encoding="utf-8"), re.S | re.M):
            found.setdefault(name, []).append(head)
    return found


def references(name):
    """Faults of the crates, functions and clauses that a page names."""
    page, known, read_so_far = read(name), crates(), {}
    for crate, call, clauses in CALLS.findall(page):
        if crate not in known:
            yield f"{name}: {crate} is no crate of crates.txt"
            continue
        heads = read_so_far.setdefault(crate, contracts(crate)).get(call.split("::")[-1], [])
        if not heads:
            yield f"{name}: {crate} has no function {call}"
        for clause in re.findall(r"`(\w+)`", clauses):
            if heads and not any(re.search(rf"^\s*(?:ensures|requires|follows_so)\*? {clause}\b", head, re.M) for head in heads):
                yield f"{name}: {crate}::{call} has no clause {clause}"


def headline():
    """Faults of docs/reading-the-headline.md."""
    name, sources = "docs/reading-the-headline.md", definitions.Sources()
    page = read(name)
    rows = ROWS.findall(page)
    for called, crate, module in rows:
        file = sources.files.get((crate, module))
        if file is None or called.split(".")[-1] not in file.definitions:
            yield f"{name}: crates/{crate}/specs/{module}.antt doesn't define {called}"
    if f"The {len(rows)} below" not in page:
        yield f"{name}: {len(rows)} definitions stand in its tables"
    top = TOP / "crates/lin_run/src/top.rt"
    told, there = set(re.findall(r"^\| `(\w+)` \| [^|`]*(?:`[^|]*)?\|$", page, re.M)), set(definitions.clauses(top, "run"))
    yield from (f"{name}: it doesn't name the clause {clause} of run" for clause in sorted(there - told))
    yield from (f"{name}: run has no clause {clause}" for clause in sorted(told - there))
    roots = dict(definitions.roots_of(sources, top))
    reached = {"run": [it for some in roots.values() for it in some], **roots,
               "StandsFor": [sources.found("lin_driver.StandsFor")], "IsGood": [sources.found("bisim_laws.IsGood")]}
    numbers = re.search(r"`run` reach ([\d,]+\d) .*?`headline` alone ([\d,]+\d).*?`StandsFor` reaches ([\d,]+\d).*?`IsGood` ([\d,]+\d)", page, re.S)
    for called, told in zip(("run", "headline", "StandsFor", "IsGood"), numbers.groups() if numbers else ("0",) * 4):
        count = len(sources.reached(reached[called])[0])
        if abs(int(told.replace(",", "")) - count) * 20 > count:
            yield f"{name}: {called} reaches {count} definitions, and not {told}"


def named_definitions(name):
    """Faults of the definitions that a page names with their file, as `Name` in `File.antt`."""
    files = {path.name: path.read_text(encoding="utf-8") for path in TOP.glob("crates/*/specs/*.antt")}
    for called, file in re.findall(r"`(\w+)` in `(?:[\w/]*/)?(\w+\.antt)`", read(name)):
        if not re.search(rf"\b{called}\b", files.get(file, "")):
            yield f"{name}: no {file} has {called}"


def places():
    """Faults of the pages, scripts and folders that the documents name."""
    for path in (TOP / "README.md", *sorted(TOP.glob("docs/*.md")), *sorted(TOP.glob("docs/definitions/*.md"))):
        page, name = path.read_text(encoding="utf-8"), path.relative_to(TOP)
        for link in re.findall(r"\]\(([^)#:]+)\)", page):
            if not (path.parent / link).exists():
                yield f"{name}: there is no {link}"
        for place in PATHS.findall(page):
            if "NAME" not in place and "CRATE" not in place and not place.endswith("/out") and not (TOP / place).exists() and not place.startswith("crates/mcrl2lin/out"):
                yield f"{name}: there is no {place}"


def main():
    pages = "docs/PROMISES.md", "docs/reading-the-headline.md"
    faults = [*readme(), *architecture(), *headline(), *places()]
    for page in pages:
        faults += [*references(page), *named_definitions(page)]
    for fault in faults:
        print(fault)
    return 1 if faults else 0


if __name__ == "__main__":
    sys.exit(main())
