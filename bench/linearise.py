#!/usr/bin/env python3
"""How long whole texts take from their bytes to the bytes of their linear process.

Run it from the top of the repository, after a build: bench/linearise.py [PROGRAM WORD..]
It prints one line for each text: its kind, how many parts it has, its size and that of the linear process, seconds of the processor, peak
memory in all and for each byte of both texts, and how many times the seconds, and the output, those of the line before were. At last it
names each line whose seconds grew by more than its output and a tenth. It is no part of the gate.
"""

import os
import pathlib
import subprocess
import sys
import tempfile

TOP = pathlib.Path(__file__).resolve().parent.parent
PROGRAM = TOP / "crates" / "mcrl2lin" / "out" / "mcrl2lin"


def ring(count):
    """Each equation calls the next one, and the last the first, with one parameter."""
    heads = ["act a: Nat; b;", "proc"]
    equations = (f"  X{i}(n: Nat) = (n < 10) -> a(n) . X{(i + 1) % count}(n + 1) + b . X{i}(0);" for i in range(count))
    return "\n".join([*heads, *equations, "init X0(0);", ""])


def many_parameters(count):
    """Ten equations with so many parameters, of which each summand changes one."""
    names = [f"p{i}" for i in range(count)]
    params = ", ".join(f"{name}: Nat" for name in names)
    equations = (f"  X{k}({params}) = " + "\n    + ".join(f"(p{i} < 3) -> a(p{i}) . X{(k + 1) % 10}(p{i} = p{i} + 1)" for i in range(count)) + ";" for k in range(10))
    return "\n".join(["act a: Nat;", "proc", *equations, f"init X0({', '.join(['0'] * count)});", ""])


def summands(count):
    """One process of so many summands."""
    parts = (f"(n == {i}) -> a(n) . X(n = {(i + 1) % count})" for i in range(count))
    return "act a: Nat;\nproc X(n: Nat) = " + "\n  + ".join(parts) + ";\ninit X(0);\n"


def long_sequences(count):
    """One process that does so many actions, one behind the other, before it starts again."""
    return "act a: Nat;\nproc X(n: Nat) = " + "\n  . ".join(f"a(n + {i % 10})" for i in range(count)) + " . X(n);\ninit X(0);\n"


def declarations(count):
    """So many functions with an equation each, and one process that calls them."""
    maps = (f"  f{i}: Nat -> Nat;" for i in range(count))
    equations = (f"  f{i}(n) = n + {i};" for i in range(count))
    process = "proc X(n: Nat) = " + "\n  + ".join(f"a(f{i}(n)) . X(n + 1)" for i in range(count)) + ";"
    return "\n".join(["act a: Nat;", "map", *maps, "var n: Nat;", "eqn", *equations, process, "init X(0);", ""])


def buffers(count):
    """A line of so many buffers with room for one item, each hidden from the next one's user."""
    links = range(1, count)
    acts = ["act read, write: D;", *(f"    give_{k}, take_{k}, pass_{k}: D;" for k in links)]
    ends = lambda k: ("read" if k == 1 else f"take_{k - 1}", "write" if k == count else f"give_{k}")
    definitions = (f"  B{k} = sum d: D . {ends(k)[0]}(d) . {ends(k)[1]}(d) . B{k};" for k in range(1, count + 1))
    passed = ", ".join(f"pass_{k}" for k in links)
    joined = ", ".join(f"give_{k}|take_{k} -> pass_{k}" for k in links)
    line = " || ".join(f"B{k}" for k in range(1, count + 1))
    start = f"init hide({{{passed}}}, allow({{read, write, {passed}}}, comm({{{joined}}}, {line})));"
    return "\n".join(["sort D = struct d1 | d2;", *acts, "proc", *definitions, start, ""])


def filtered(around):
    """So many actions, of which each is done by itself, under an operator: {names} are all of them, {pairs} each with a new name."""

    def text(count):
        names = [f"a{i}" for i in range(count)]
        pairs = ", ".join(f"{name} -> b{i}" for i, name in enumerate(names))
        acts = ", ".join([*names, *(f"b{i}" for i in range(count)), "c"])
        under = around.format(names=", ".join(names), pairs=pairs)
        return f"act {acts};\nproc X = {' + '.join(f'{name} . X' for name in names)} + c . X;\ninit {under};\n"

    return text


def example(name):
    """An example of the repository, whatever the number."""
    return lambda _: (TOP / "examples" / f"{name}.mcrl2").read_text()


KINDS = [
    ("equations", ring, (100, 1_000, 10_000)),
    ("parameters", many_parameters, (10, 20, 40)),
    ("summands", summands, (1_000, 10_000, 30_000)),
    ("actions in sequence", long_sequences, (500, 1_000, 2_000)),
    ("declarations", declarations, (1_000, 4_000, 16_000)),
    ("buffers in a line", buffers, (5, 10, 20, 40)),
    ("actions allowed", filtered("allow({{{names}}}, X)"), (500, 1_000, 2_000, 4_000)),
    ("actions blocked", filtered("block({{{names}}}, X)"), (500, 1_000, 2_000, 4_000)),
    ("actions hidden", filtered("hide({{{names}}}, X)"), (500, 1_000, 2_000, 4_000)),
    ("actions renamed", filtered("rename({{{pairs}}}, X)"), (500, 1_000, 2_000, 4_000)),
    ("alternating bit", example("alternating_bit"), (1,)),
    ("bakery", example("bakery"), (1,)),
    ("sliding window", example("sliding_window"), (1,)),
]


def run(command, path):
    """Linearises the file; gives the processor's seconds, the peak memory in KiB and the size of what is printed."""
    with tempfile.TemporaryFile() as shown:
        child = subprocess.Popen([*command, path], stdout=shown)
        _, status, usage = os.wait4(child.pid, 0)
        child.returncode = 0
        assert status == 0, "the program made no linear process"
        return usage.ru_utime + usage.ru_stime, usage.ru_maxrss, shown.seek(0, os.SEEK_END)


def main():
    command = sys.argv[1:] or [PROGRAM, "linearise"]
    slow = []
    with tempfile.TemporaryDirectory() as folder:
        path = pathlib.Path(folder) / "text.mcrl2"
        for kind, make, counts in KINDS:
            before = None
            for count in counts:
                text = make(count)
                path.write_text(text)
                seconds, memory, size = run(command, path)
                growth = ""
                if before:
                    times, more = seconds / max(before[0], 0.01), size / before[1]
                    growth = f"{times:6.1f} {more:6.1f}"
                    if times > 1.1 * more and seconds > 0.2:
                        slow.append(f"{kind} of {count}")
                per_byte = memory * 1024 / (len(text) + size)
                print(f"{kind:20} {count:7} {len(text):9} B {size:10} B {seconds:8.2f} s {memory / 1024:7.1f} MB {per_byte:7.1f} {growth}", flush=True)
                before = seconds, size
    print("grew by more than their output:", ", ".join(slow) or "none")


if __name__ == "__main__":
    main()
