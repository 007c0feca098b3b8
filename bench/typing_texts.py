#!/usr/bin/env python3
"""How long texts take to be typed, and to be elaborated once they are: bench/typing_texts.py [WORD..] [--upto MIB] [--by N] [--program PROGRAM]

Run it from the top of the repository, after a build. It prints a line for each kind of text and size, from 1 MiB on by doubling, or by N
times each, up to 4 MiB or as many as are given: the kind, the size, the processor's seconds of the text with a name renamed twice at its end,
which is the last of the refusals, and how many times those of the size before these are; then the same of the text without that fault, which
is elaborated too, and its peak memory for each byte. With words only the kinds that have one of them are tried. At last it names the kinds
that grow more than 2.3 times by a doubling. `--upto 16 --by 4` tries 1, 4 and 16 MiB, the longest text that is taken. It is no part of the gate.
"""

import argparse
import math
import os
import pathlib
import subprocess
import sys
import tempfile

TOP = pathlib.Path(__file__).resolve().parent.parent
PROGRAM = TOP / "crates" / "mcrl2lin" / "out" / "mcrl2lin"
MIB = 1 << 20
# What a doubling may cost, as what is far in memory takes longer.
BOUND = 2.3
# What stands at the end, and what is said of it: the last fault of typing, or the one behind it.
REFUSED = (b" act z; init rename({z -> z, z -> z}, z);", b"refused 17 RenameTwice")
SOUND = (b" proc Z = Z; init Z;", b"refused 20 Unguarded Z")


def nested(depth, front, inside, behind):
    return front * depth + inside + behind * depth


def overloads(count):
    """Sorts, functions of one name over them, and a constant of the last one."""
    sorts = [f"D{number}" for number in range(count)]
    functions = " ".join(f"f: {sort} -> Nat;" for sort in sorts)
    return f"sort {', '.join(sorts)}; map {functions} c: {sorts[-1]}; act a: Nat; proc P = a(f(c)".encode()


# What stands in front, what is repeated, and what stands behind.
KINDS = {
    "sum of numbers": (b"act a: Nat; proc P = a(1", b" + 0 + 1", b");"),
    "sum of operands": (b"act a: Int; proc P(p: Pos, n: Nat, i: Int) = a(p", b" + n - i", b");"),
    "conjunction": (b"act a: Bool; proc P(b: Bool, n: Nat) = a(b", b" && n <= 1", b");"),
    "sums": (b"act a: Nat; proc P = delta", b" + sum x: Nat . a(x)", b";"),
    "sequence": (b"act a: Nat; proc P(n: Nat) = a(n)", b" . a(n + 1)", b";"),
    "nested if": (b"act a: Nat; proc P(b: Bool) = delta", b" + a(" + nested(900, b"if(b, 1, ", b"0", b")") + b")", b";"),
    "nested if, nothing wanted": (b"act a: Bool; proc P(b: Bool) = delta", b" + a(0 == " + nested(900, b"if(b, 1, ", b"0", b")") + b")", b";"),
    "nested lists": (b"map f: List(Nat); eqn", b" f = tail(" + nested(400, b"1 |> tail(", b"[]", b")") + b");", b""),
    "nested brackets": (b"act a: Nat; proc P = delta", b" + a(#" + nested(900, b"[", b"1", b"]") + b")", b";"),
    "list": (b"act a: List(Nat); proc P = a([0", b", 1", b"]);"),
    "list, nothing wanted": (b"act a: Nat; proc P = a(#[0", b", 1", b"]);"),
    "list of lists": (b"act a: List(List(Nat)); proc P = a([[0]", b", [1, 0]", b"]);"),
    "equations": (b"map f: Nat -> Nat; var x: Nat; eqn", b" f(x) = x + 1;", b""),
    "equations, ten variables": (b"map f: Nat -> Nat; var x, x1, x2, x3, x4, x5, x6, x7, x8, x9: Nat; eqn", b" f(x) = x + 1;", b""),
    "sections of equations": (b"map f: Nat -> Nat;", b" var x: Nat; eqn f(x) = x + 1;", b""),
    "calls": (b"proc P(n: Nat, b: Bool) = delta", b" + P(1, b) + P(b = !b)", b";"),
    "500 signatures": (overloads(500), b" + f(c)", b");"),
    "50 signatures": (overloads(50), b" + f(c)", b");"),
}


def text_of(size, pieces, end):
    front, piece, behind = pieces
    room = size - len(front) - len(behind) - len(end)
    return front + piece * max(room // len(piece), 1) + behind + end


def run(command, text, wanted):
    """The processor's seconds and the peak memory in KiB for a text, which has to be answered so."""
    with tempfile.NamedTemporaryFile() as file, tempfile.TemporaryFile() as said:
        file.write(text)
        file.flush()
        child = subprocess.Popen([*command, file.name], stdout=subprocess.DEVNULL, stderr=said)
        _, _, usage = os.wait4(child.pid, 0)
        child.returncode = 0
        said.seek(0)
        line = said.read().strip()
        assert line.startswith(wanted), f"{line[:80]} instead of {wanted}"
        return usage.ru_utime + usage.ru_stime, usage.ru_maxrss


def main():
    parser = argparse.ArgumentParser()
    parser.add_argument("words", nargs="*")
    parser.add_argument("--upto", type=int, default=4)
    parser.add_argument("--by", type=int, default=2)
    parser.add_argument("--program", default=PROGRAM)
    wanted = parser.parse_args()
    bound = BOUND ** math.log2(wanted.by)
    command, above = [wanted.program, "linearise"], []
    for kind, pieces in KINDS.items():
        if wanted.words and not any(word in kind for word in wanted.words):
            continue
        before, size = (None, None), 1
        while size <= wanted.upto:
            times = [run(command, text_of(size * MIB, pieces, end), said) for end, said in (REFUSED, SOUND)]
            seconds = [max(time, 0.001) for time, _ in times]
            growth = [now / old if old else None for now, old in zip(seconds, before)]
            shown = [f"{now:8.3f} s" + (f" {more:5.2f} x" if more else " " * 8) for now, more in zip(seconds, growth)]
            print(f"{kind:26} {size:3} MiB  typed {shown[0]}  elaborated {shown[1]} {times[1][1] / 1024 / size:7.1f} a byte", flush=True)
            above += [f"{kind} {more:.1f} x at {size} MiB" for more in growth if more and more > bound]
            before, size = seconds, size * wanted.by
    print(f"above {bound:.1f} from one size to the next:", "; ".join(above) or "none")


if __name__ == "__main__":
    sys.exit(main())
