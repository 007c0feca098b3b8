#!/usr/bin/env python3
"""Says where an invariant isn't proved, in the form of compilers: launcher/invariants.py LINE FILE CONDITION < PROCESS

LINE is the line of the program, such as `unproved 3 1`, FILE is the specification, and CONDITION the file of the invariant. PROCESS is what the
task `linearise` writes of FILE with the same options, or nothing where FILE is a pipe. What is written has the form CONDITION:LINE:COLUMN: SENTENCE,
with a second line FILE: SENTENCE for the summand. Lines and columns are those of refusals.py beside this script.

The launcher ../mcrl2lin starts it. What has to be shown, and how to mend a condition, is in docs/invariants.md.
"""

import re
import sys

import refusals

# A comment, a name, a numeral, or a sign: the longest one that begins there.
TOKEN = re.compile(rb"%[^\n]*|[A-Za-z_][A-Za-z0-9_']*|[0-9]+|&&|\|\||=>|[<>=!]=|\+\+|<\||\|>|[^ \t\r\n]")
# The signs that bind less tightly than `&&`.
LOOSER = {b"||", b"=>"}
# How much is shown of a part or a summand.
LONGEST = 1_000

# What isn't proved and what to do, at the start and after a summand.
START = (
    "{part} isn't proved of the initial values: mend the condition so that the equations make this part true of them, or give more --fuel"
)
STEP = (
    "{part} isn't proved to hold after summand {place}: strengthen the condition by a conjunct that makes this part hold there, or give more --fuel"
)
# What stands at a place.
VALUES = "the process that `linearise` prints starts with `{0}`"
SUMMAND = "summand {place} of what `linearise` prints is `{0}`"


class Condition:
    """The text of a condition, with its tokens by their places, and for each opening bracket the closing one."""

    def __init__(self, text):
        self.text = text
        self.tokens = [(it.start(), it.group()) for it in TOKEN.finditer(text) if not it.group().startswith(b"%")]
        self.closing, opened = {}, []
        for at, (_, word) in enumerate(self.tokens):
            if word in (b"(", b"["):
                opened.append(at)
            elif word in (b")", b"]") and opened:
                self.closing[opened.pop()] = at

    def parts(self):
        """The parts from the left, each by its first token and the one behind its last."""
        left, found = [(0, len(self.tokens))], []
        while left:
            first, end = self.bare(*left.pop())
            cuts = self.cuts(first, end)
            if cuts:
                left += reversed([*zip([first, *(it + 1 for it in cuts)], [*cuts, end])])
            else:
                found.append((first, end))
        return found

    def bare(self, first, end):
        """An expression without the brackets around it."""
        while self.closing.get(first) == end - 1:
            first, end = first + 1, end - 1
        return first, end

    def cuts(self, first, end):
        """Where an expression has `&&` outside brackets. Nowhere, if a sign beside it binds less tightly."""
        at, found = first, []
        while at < end:
            word = self.tokens[at][1]
            if word in LOOSER:
                return []
            if word == b"&&":
                found.append(at)
            at = self.closing.get(at, at) + 1
        return found

    def shown(self, first, end):
        """An expression as a reader sees it, in one line and without comments."""
        last, word = self.tokens[end - 1]
        return cut(" ".join(re.sub(rb"%[^\n]*", b" ", self.text[self.tokens[first][0] : last + len(word)]).decode(errors="replace").split()))


def cut(text):
    """A text that isn't too long to be shown."""
    return refusals.shown(text if len(text) <= LONGEST else text[:LONGEST] + " ..")


def part_of(name, text, number):
    """Where the part with that number stands, and how a sentence calls it. Where there is no text, it has its number alone."""
    condition = Condition(text or b"")
    parts = condition.parts()
    if text is None or not 0 < number <= len(parts) or not condition.tokens:
        return refusals.shown(name), f"part {number}"
    first, end = parts[number - 1]
    where = f"{refusals.shown(name)}:{refusals.position(text, condition.tokens[first][0])}"
    return where, f"part {number}, `{condition.shown(first, end)}`,"


def summands_of(process):
    """The summands of a printed linear process. Each has a line, and that of the first one has the parameters."""
    _, _, body = process.partition("\nproc ") if not process.startswith("proc ") else ("", "", process)
    first, *lines = body.split("\ninit ")[0].split("\n")
    found = [first.partition(" = ")[2], *(it.removeprefix("  + ") for it in lines)]
    return [*found[:-1], found[-1].removesuffix(";")]


def standing_at(process, place):
    """What says what stands at a place of a printed linear process, or None where there is no such place."""
    if place == 0:
        _, init, values = process.rpartition("\ninit ")
        return VALUES.format(cut(values.strip().removesuffix(";"))) if init else None
    summands = summands_of(process)
    if place > len(summands) or not summands[place - 1]:
        return None
    return SUMMAND.format(cut(summands[place - 1]), place=place)


def explain(line, specification, condition, process):
    """The lines that say what the program's line means, where the condition is a pair of a name and a text. None where it is no such line."""
    found = re.fullmatch(r"unproved (\d+) (\d+)", line)
    if not found:
        return None
    place, number = int(found[1]), int(found[2])
    where, part = part_of(*condition, number)
    sentence = (STEP if place else START).format(part=part, place=place)
    standing = standing_at(process, place)
    return [f"{where}: {sentence} (docs/invariants.md)", *([f"{refusals.shown(specification)}: {standing}"] if standing else [])]


def main(words):
    sys.stdout.reconfigure(encoding="utf-8", errors="backslashreplace")
    line, specification, condition = words
    process = sys.stdin.buffer.read().decode(errors="replace")
    lines = explain(line, specification, (condition, refusals.read_again(condition)), process)
    if lines is None:
        return 1
    print("\n".join(lines))
    return 0


if __name__ == "__main__":
    sys.exit(main(sys.argv[1:]))
