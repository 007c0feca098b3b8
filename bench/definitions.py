#!/usr/bin/env python3
"""Lists the definitions that a definition, or a clause of a public function, reaches.

  bench/definitions.py                      what each clause of `run` reaches, and how many definitions all of them reach
  bench/definitions.py NAME..               what these definitions reach, one a line: the crate, the file, the line and the name
  bench/definitions.py --count NAME..       how many each of these reaches, in each crate

A NAME that several crates define has its crate in front, as `lin_driver.StandsFor`.

A definition is a name that a file of a crate's specs/ defines: by `record`, `data` or `abbrev`. It reaches what its text names, and what
that reaches. Names are told apart by the `use` lines of the file, as the toolchain tells them. A name that the text itself binds, a field
and a comment count for nothing. A type of the code (`specs.declared`) and the toolchain's own library are ends: they are counted beside.
"""
import collections
import pathlib
import re
import sys

TOP = pathlib.Path(__file__).resolve().parent.parent
SIGNS = r"[\s(){}\[\],;|→×⊎≡≢≤<∷¬↔=+λ:]+"
Definition = collections.namedtuple("Definition", "crate module name line text")


def without_comment(line):
    """A line without its comment."""
    return re.sub(r"(^|\s)--.*", "", line)


class File:
    """A file of specs/: what it imports, and what it defines."""

    def __init__(self, path):
        self.crate, self.module = path.parent.parent.name, path.stem
        self.imports, self.aliases, self.definitions, self.constructors = {}, {}, {}, {}
        lines = [without_comment(it) for it in path.read_text(encoding="utf-8").split("\n")]
        for line in lines:
            self.read_import(line)
        self.read_definitions(lines)

    def read_import(self, line):
        """Reads a `use` line: names of another module, or another name for it."""
        found = re.match(r"use Rattle\.(\w+)\.specs\.([\w.«»]+?)(?:\.\{(.*)\}| as (\w+))\s*$", line)
        if found:
            where = found[1], found[2]
            for name in (found[3] or "").split(","):
                if name.strip():
                    self.imports[name.strip()] = where
            if found[4]:
                self.aliases[found[4]] = where

    def read_definitions(self, lines):
        """Cuts the file at the lines that begin a definition."""
        begun, is_mutual = None, False
        for number, line in enumerate(lines, 1):
            if line[:1].strip():
                is_mutual = re.match(r"(abbrev |unfoldable )?mutual\b", line) is not None
            name = defined_name(line, is_mutual)
            if name:
                begun = self.definitions[name] = Definition(self.crate, self.module, name, number, [line])
            elif begun and not line.startswith(("use ", "pub mod ")):
                begun.text.append(line)
        for made in self.definitions.values():
            if re.match(r"\s*(pub )?data\b", made.text[0]):
                names = (re.match(r"\s+([^\s:]+)\s*:", line) for line in made.text[1:])
                self.constructors.update({found[1]: made.name for found in names if found})


def defined_name(line, is_mutual):
    """The name that a line begins to define, if it does."""
    found = re.match(r"\s*(?:pub )?(?:record|data) ([^\s:({]+)(?=[\s:({])", line)
    found = found or re.match(r"(?:abbrev|unfoldable) (?:pub )?(?!mutual\b)([^\s:({]+)", line)
    found = found or (re.match(r"  pub (?!record |data )([^\s:({]+)", line) if is_mutual else None)
    return found[1] if found else None


def files():
    """The files of all specs/, by crate and module."""
    return {(it.crate, it.module): it for it in map(File, sorted(TOP.glob("crates/*/specs/*.antt")))}


def bound_names(text):
    """The names that a definition's text binds: parameters, fields, and the variables of `λ` and of patterns."""
    whole = "\n".join(text)
    names = set(re.findall(r"[({]([^(){}:]*?)\s:\s", whole))
    bound = {name for group in names for name in group.split()}
    bound |= {name for group in re.findall(r"λ\s+([^.()]*)\.", whole) for name in group.split()}
    bound |= set(re.findall(r"^\s+pub\s+([^\s:]+)\s*:", whole, re.M))
    return bound


def named(text):
    """The names in a definition's text that it doesn't bind, with the module's other name in front where there is one."""
    bound = bound_names(text)
    for line in text:
        for word in re.split(SIGNS, line):
            parts = word.strip(".").split(".")
            if parts[0] and parts[0] not in bound:
                yield parts


class Sources:
    """All definitions, and what each names."""

    def __init__(self):
        self.files = files()
        self.by_name = collections.defaultdict(list)
        for file in self.files.values():
            for name, made in file.definitions.items():
                self.by_name[name].append(made)

    def found(self, name):
        """The definition of a name, which may have its crate in front."""
        crate, _, plain = name.rpartition(".")
        made = [it for it in self.by_name.get(plain, []) if crate in ("", it.crate)]
        if len(made) != 1:
            places = ", ".join(f"{it.crate}.{it.name} ({it.module}.antt)" for it in made) or "no file of specs/"
            sys.exit(f"{name}: {places} has it")
        return made[0]

    def at(self, where, name):
        """The definition of a name in a module, or of the type whose constructor it is; a text where it is an end."""
        crate, module = where
        file = self.files.get((crate, module))
        if file is None:
            return f"{crate}.{module}.{name}" if crate not in ("std",) else None
        return file.definitions.get(name) or file.definitions.get(file.constructors.get(name))

    def resolve(self, file, parts):
        """What a name means in a file."""
        name = parts[0]
        if name in file.aliases and len(parts) > 1:
            return self.at(file.aliases[name], parts[1])
        if name in file.definitions:
            return file.definitions[name]
        if name in file.constructors:
            return file.definitions[file.constructors[name]]
        if name in file.imports:
            return self.at(file.imports[name], name)
        return None

    def directly(self, made):
        """The definitions, and the ends, that a definition names, in the order in which it does."""
        file = self.files[made.crate, made.module]
        met = (self.resolve(file, parts) for parts in named(made.text))
        return list({key(it): it for it in met if it is not None and key(it) != key(made)}.values())

    def reached(self, roots):
        """All definitions that some definitions reach, themselves included, and the ends, in the order of reading."""
        order, ends, waiting = {}, {}, list(reversed(roots))
        while waiting:
            made = waiting.pop()
            if isinstance(made, str):
                ends[made] = made
            elif key(made) not in order:
                order[key(made)] = made
                waiting += reversed(self.directly(made))
        return list(order.values()), list(ends)


def key(made):
    """What tells a definition from others."""
    return made if isinstance(made, str) else made[:3]


def clauses(path, function):
    """The clauses of a function of a file of the code: their names, each with its text."""
    text = path.read_text(encoding="utf-8")
    found = re.search(rf"^(?:pub )?fn {function}\b.*?^\{{", text, re.S | re.M)
    head = "\n".join(re.sub(r"^\s*//.*", "", line) for line in found[0].split("\n"))
    parts = re.split(r"\n\s+(?:ensures|requires)\s*", head)[1:]
    return {(re.match(r"(\w+) \{", part) or ["", f"clause {n}"])[1]: part for n, part in enumerate(parts, 1)}


def roots_of(sources, path):
    """For each clause of `run`, the definitions that it names."""
    uses = dict((name, (found[0], found[1])) for found in re.findall(r"^ghost use Rattle\.(\w+)\.specs\.([\w.]+)\.\{(.*)\};", path.read_text(encoding="utf-8"), re.M)
                for name in found[2].split(", "))
    for clause, text in clauses(path, "run").items():
        met = dict.fromkeys(uses[parts[0]] + (parts[0],) for parts in named([text]) if parts[0] in uses)
        yield clause, [it for it in (sources.at(where[:2], where[2]) for where in met) if it is not None]


def by_crate(made):
    """How many definitions each crate has of some, the lowest crate first."""
    order = re.findall(r"^(\w+)(?: staticlib)?:", (TOP / "crates.txt").read_text(encoding="utf-8"), re.M)
    count = collections.Counter(it.crate for it in made)
    return ", ".join(f"{crate} {count[crate]}" for crate in sorted(count, key=lambda it: order.index(it) if it in order else -1))


def tell_run(sources):
    """Prints what each clause of `run` reaches, and all of them."""
    every = []
    for clause, roots in roots_of(sources, TOP / "crates/lin_run/src/top.rt"):
        made, _ = sources.reached(roots)
        every += roots
        print(f"{clause}: {len(made)}")
    made, ends = sources.reached(every)
    print(f"all: {len(made)} definitions ({by_crate(made)}), and {len(ends)} types of the code and definitions of ported crates")


def main(words):
    sources = Sources()
    names = [it for it in words if it != "--count"]
    if not names:
        return tell_run(sources)
    for name in names:
        made, ends = sources.reached([sources.found(name)])
        if "--count" in words:
            print(f"{name}: {len(made)} ({by_crate(made)}), and {len(ends)} ends")
        else:
            for it in made:
                print(f"{it.crate} {it.module}.antt:{it.line} {it.name}")
    return 0


if __name__ == "__main__":
    sys.exit(main(sys.argv[1:]))
