#!/usr/bin/env python3
"""Says what a refusal means, in the form of compilers: launcher/refusals.py LINE FILE [FILE ..]

LINE is the line of the program, such as `refused 12 UnknownName 3 b`, and the files are those that it read, in their order. What is
written has the form FILE:LINE:COLUMN: SENTENCE, with a second line for a second place. Lines and columns are counted from 1, a column
is a byte, and a declaration stands at its first token. A file that can't be read again, such as a pipe, has no line and column.

The launcher ../mcrl2lin starts it, and simulate.py beside it uses it. The long form of each sentence is in docs/REFUSALS.md.
"""

import os
import re
import sys

# The bytes that a file may have.
LIMIT = 16_777_216
# A comment, an identifier or a word, or any other byte that isn't white space: enough to find the declarations of a text.
TOKEN = re.compile(rb"%[^\n]*|[A-Za-z_][A-Za-z0-9_']*|[^ \t\r\n]")
SECTIONS = {b"sort", b"cons", b"map", b"var", b"eqn", b"act", b"proc", b"init"}
# Which of the files a refusal is about, where that isn't the first.
FILES = {22: 1, 24: 1, 25: 1, 26: 2, 28: 1}

# For each number what is wrong, and what to do. {0} and {1} are the details of the program's line, {it} is what stands at the place.
SENTENCES = {
    0: "the file has more than 16,777,216 bytes, and here is the first too many: split the file, or shorten it, comments included",
    1: "no token begins with {it}: take it away, or put it into a comment",
    2: "this numeral is 2^128 or more: write it as a product or a power of smaller ones",
    3: "{it} of mCRL2 isn't taken here: write it by what docs/LANGUAGE.md has, such as a function with equations",
    4: "the grammar has no such declaration: look for a missing semicolon, or for a condition that needs brackets, as in `(x == y) -> p`",
    5: "this declaration nests deeper than 1,000 levels: name a part of it, by a function with an equation or by a process",
    6: "no `init` says with which process this starts: write `init P;` for your process P",
    7: "this is the second `init`: keep one",
    8: "the sort `{1}` isn't declared: declare it in a `sort` section, or mend its spelling",
    11: "each constructor of the sort `{0}` needs a value of `{0}` first: give it a constructor that needs none",
    12: "`{1}` isn't known where this declaration uses it: declare it, or mend its spelling; variables of equations stand in the `var`"
    " section right before the `eqn` section",
    13: "an expression, an action or a call of this declaration has no reading: mend the number and the sorts of its arguments; a cast"
    " to a narrower sort, such as `Nat2Pos(n)`, has to be written",
    14: "`{1}` has no value here: use the variable on the left side of the equation, or give the parameter a value in the call",
    15: "the left side of this equation is a variable, which would make all terms of its sort equal: write a function there",
    16: "the rules of a `comm` don't fit: have each name in one left side at most, and each result declared with the sorts of its left side",
    17: "a `rename` of this declaration renames `{1}` twice: keep one",
    19: "a parallel operator stands under `+`, `.`, `sum` or `->` here, itself or by a call: put it outside, around sequential processes",
    21: "component {0} calls two processes one after the other, in summand {1} of its form: leave `--method regular` out, so that it gets a"
    " stack (components are what this `init` puts side by side, from the left, and a form is a choice of summands with an action in front)",
    22: "this line is no label, which is one action of the text or more with `|` between them, all arguments closed: mend it, or put `%`"
    " in front of it",
    23: "this declares an action `Terminate`, as `--ending terminate` does itself: give yours another name, or leave the option out",
    24: "this is no expression of sort Bool over the parameters that `linearise` prints: mend it",
    25: 'an Aldebaran file has `des (FIRST,EDGES,STATES)` first and then a line `(FROM,"LABEL",TO)` for each edge: mend this line, or add the'
    " one that is missing",
    26: "a file of states has a line for each state from 0 on, the closed terms of the parameters in brackets, or `-` for the end: mend"
    " this line, or add the one that is missing",
    27: "the linear process of this `init` has a sum in its summand {0}, as `linearise` prints them, and no file lists all values of a sum: see"
    " whether `sumelm` removes it, or test traces by `replay`",
    28: "this is no number of a move that can be made after the lines before it: let `steps` show which moves there are after those lines"
    " alone, and mend it",
}
# The same of names that lead round: where there is one name, and where there are more.
ROUNDS = {
    9: (
        "the sort {names} stands for itself, by `=` and `List`: make it a structured sort, as `sort A = struct leaf | node(A, A);` is",
        "the sorts {names} stand for one another, by `=` and `List`: make one a structured sort, as `sort A = struct leaf | node(A, A);` is",
    ),
    18: (
        "the process {names} calls itself and reaches a parallel operator: put that outside, around processes without one",
        "the processes {names} call one another and reach a parallel operator: put that outside, around processes without one",
    ),
    20: (
        "the process {names} calls itself before any action: put an action in front of the call",
        "the processes {names} call one another before any action: put an action in front of one of the calls",
    ),
}
# The same of a declaration that repeats another one, or itself.
AGAIN = "this declares again what an earlier declaration does: keep one of both, or give one another name"
TWICE = "this declares something twice, or a built-in function: keep one, or give it another name"


class Declaration:
    """A declaration of a text: the word of its section, and its first tokens by their places, up to `=` or a bracket for a sort or a process."""

    def __init__(self, section, tokens):
        self.section, self.tokens = section, tokens
        self.place = tokens[0][1]

    def place_of(self, name):
        """Where a declaration of sorts or of a process has the name that it declares."""
        found = [place for word, place in self.tokens if word == name]
        return found[0] if found and self.section in (b"sort", b"proc") else None


def declarations(text):
    """The declarations of a text, in its order. A semicolon ends one, and so does the word of a section."""
    section, tokens = None, []
    for found in TOKEN.finditer(text):
        word, place = found.group(), found.start()
        if word.startswith(b"%"):
            continue
        if word in SECTIONS:
            if tokens:
                yield Declaration(section, tokens)
            section, tokens = word, []
        elif word == b";" and section:
            yield Declaration(section, tokens or [(word, place)])
            tokens = []
        elif not tokens or section in (b"sort", b"proc") and tokens[-1][0] not in (b"=", b"("):
            tokens.append((word, place))
    if tokens:
        yield Declaration(section, tokens)


def declared_at(text, number):
    """Where the declaration with that number, counted from 1, has its first token."""
    return next((it.place for at, it in enumerate(declarations(text), 1) if at == number), None)


def named_at(text, name):
    """Where a sort or a process of that name is declared."""
    places = (it.place_of(name) for it in declarations(text))
    return next((it for it in places if it is not None), None)


def first_init(text):
    """Where the first `init` has its first token."""
    return next((it.place for it in declarations(text) if it.section == b"init"), None)


def line_at(text, number):
    """Where the line with that number, counted from 1, begins to have something."""
    place = 0
    for _ in range(number - 1):
        place = text.find(b"\n", place) + 1 or len(text)
    found = re.compile(rb"[ \t\r]*").match(text, place)
    return found.end() if text[found.end() : found.end() + 1].strip() else place


def places_of(number, details, text):
    """The places that a refusal is about, the main one first."""
    if number in (1, 2, 3):
        return [int(details[0])]
    if number == 10:
        first, second = (declared_at(text, int(it)) for it in details)
        return [second] if first == second else [second, first]
    if number in (9, 11, 18, 20):
        return [named_at(text, details[0].encode())]
    if number == 7:
        return [declared_at(text, int(details[0])), first_init(text)]
    if number in (21, 27):
        return [first_init(text)]
    if number in (22, 25, 26, 28):
        return [line_at(text, int(details[0]))]
    if number == 24:
        return [line_at(text, 1)]
    ends = {0: LIMIT, 6: len(text.rstrip())}
    return [ends[number] if number in ends else declared_at(text, int(details[0]))]


def sentence_of(number, details, text, place):
    """The sentence of a refusal. Where there is no text or no place, it speaks of no text."""
    if number in ROUNDS:
        return ROUNDS[number][len(details) > 1].format(names=", ".join(f"`{it}`" for it in details))
    if number == 10:
        return TWICE if details[0] == details[1] else AGAIN
    return SENTENCES[number].format(*details, it=what_stands(text, place))


def what_stands(text, place):
    """A word or a sign of a text as a reader sees it."""
    if text is None or place is None:
        return "what stands here"
    found = re.compile(rb"[A-Za-z_][A-Za-z0-9_']*|<<|[\x80-\xff]+|.", re.DOTALL).match(text, place)
    try:
        word = found.group().decode() if found else ""
    except UnicodeDecodeError:
        word = ""
    return f"`{word}`" if word.isprintable() and 0 < len(word) < 100 else "what stands here"


def shown(name):
    """A name without control characters and what is no text."""
    return "".join(it if it.isprintable() else it.encode("unicode_escape").decode() for it in name)


def position(text, place):
    """The line and the column of a place in a text."""
    line, column = text.count(b"\n", 0, place) + 1, place - text.rfind(b"\n", 0, place)
    return f"{line}:{column}"


def read_again(path):
    """What a file has, up to the first byte too many, or None where it can't be read a second time."""
    if not os.path.isfile(path):
        return None
    try:
        with open(path, "rb") as file:
            return file.read(LIMIT + 1)
    except OSError:
        return None


def explain(line, files):
    """The lines that say what the program's line means, where the files are pairs of a name and a text. None where it is no refusal known here."""
    found = re.search(r"^refused (\d+) \w+(.*)$", line, re.MULTILINE)
    if not found or int(found[1]) not in {*SENTENCES, *ROUNDS, 10}:
        return None
    number, details = int(found[1]), found[2].split()
    name, text = file_of(number, files)
    places = [None] if text is None else places_of(number, details, text)
    where = [shown(name) + (f":{position(text, it)}" if it is not None else "") for it in places]
    sentence = f"{where[0]}: {sentence_of(number, details, text, places[0])} (docs/REFUSALS.md, {number})"
    return [sentence, *(f"{it}: the earlier one stands here" for it in where[1:])]


def file_of(number, files):
    """The name and the text of the file that a refusal is about."""
    if number == 0:
        return next((it for it in files if it[1] is not None and len(it[1]) > LIMIT), (files[0][0], None))
    at = FILES.get(number, 0)
    return files[at] if at < len(files) else ("?", None)


def main(words):
    sys.stdout.reconfigure(encoding="utf-8", errors="backslashreplace")
    lines = explain(words[0], [(it, read_again(it)) for it in words[1:]])
    if lines is None:
        return 1
    print("\n".join(lines))
    return 0


if __name__ == "__main__":
    sys.exit(main(sys.argv[1:]))
