#!/usr/bin/env python3
"""How fast texts are read, beside `wc -w` on the same file, and refused, and how much stack deep ones take.

Run it from the top of the repository, after a build: bench/reading.py [speed|refusals|brackets|names|stack|chains|short] [PROGRAM WORD..]
Programs run as the launcher starts them, with memory in large pages that is kept. `speed` builds a program that reads a text up to
its tree, by `lex` and `parse`, and prints one line for each text: its kind, size, the processor's seconds, bytes a second, peak
memory in all and for each byte of the text, how many times the time of `wc -w` that was, and how many times that of the text of a
quarter of its size. Each is run five times, in rounds over all of them, next to `wc -w` on the same text, and the best time counts,
of the program as of `wc`, since a machine that is shared is faster for some seconds or minutes, and then slower. Kinds of which 16 MiB
are above a bound are run up to three times five rounds more. At last it names those that still are: 25 times `wc -w`, 4.4 times the
time of 4 MiB, 80 bytes a byte. `refusals` prints the same lines, without bounds, of the whole program, up to its refusal of the text.
The peak is never less than that of this script, which starts the program. `brackets` prints how many times longer 16 MiB take with
990 brackets around. `names` linearises systems of many actions, whose names collide in tables of std with their fixed seed, or
don't: it builds a program that searches such names. `stack` prints for each kind of nesting the least `ulimit -s` that texts of
some depths need, and how many bytes a level that is. `chains` prints the same for texts that hardly nest, with long chains of signs
whose terms are as deep as the chains are long. `short` prints what the program says of texts that nest less than they seem
to: none ends for want of memory. With no word all are printed. It is no part of the gate.
"""

import os
import pathlib
import resource
import subprocess
import sys
import tempfile

from programs import build

TOP = pathlib.Path(__file__).resolve().parent.parent
PROGRAM = TOP / "crates" / "mcrl2lin" / "out" / "mcrl2lin"
MIB = 1 << 20
# How many MiB texts have.
SIZES = (1, 4, 16)
MIXED = b"act a, b_1: Nat; % a comment\nproc X(n: Nat) = (n <= 12) -> a(n + 1) . X(n = n + 1) <> b_1(0) . delta;\n"
# What stands in front, what is repeated, and what stands behind.
KINDS = {
    "mixed": (b"", MIXED, b""),
    "one identifier": (b"", b"i", b""),
    "one numeral": (b"", b"1", b""),
    "opening parentheses": (b"", b"(", b""),
    "opening brackets": (b"", b"[", b""),
    "minus signs": (b"", b"-", b""),
    "semicolons": (b"", b";", b""),
    "spaces": (b"", b" ", b""),
    "choices": (b"init a", b" + a", b";"),
    "sequence": (b"init a", b" . a(x)", b";"),
    "parallel": (b"init a", b" || a|b", b";"),
    "sum of numbers": (b"init a(1", b" + 1 - x", b");"),
    "conjunction": (b"init (b", b" && b", b") -> a;"),
    "list": (b"init a([1", b", 1", b"]);"),
    "variables": (b"init sum x", b", x", b": S . a;"),
    "constructors": (b"sort S = struct c", b" | c(p: S)?r", b"; init a;"),
    "declarations": (b"", b"act a, b: S # T;", b" init a;"),
    "sections of equations": (b"", b"var x: S; eqn f(x) = x;\n", b" init a;"),
    "short sections": (b"", b"var x:S;", b" init a;"),
    "sorts": (b"sort ", b"A;", b"init a;"),
    "equations": (b"eqn ", b"a=b;", b"init a;"),
    "processes": (b"proc ", b"P=a;", b"init a;"),
    "conditions": (b"init ", b"b->a||", b"a;"),
    "conditions, both": (b"init ", b"b->a<>a||", b"a;"),
    "nested choices": (b"init " + b"(" * 990 + b"a", b" + a", b")" * 990 + b";"),
    "nested arrow": (b"init " + b"(" * 990 + b"a", b" + a", b" + b -> a" + b")" * 990 + b";"),
    "nested, no guards": (b"init " + b"(" * 990 + b"a", b" + a", b" -> b)" * 990 + b";"),
}
# Declarations that hardly nest: what stands in front, what is repeated, and what stands behind.
CHAINS = {
    "conjunctions": (b"act b: Bool; init b(true", b" && true", b");"),
    "sums": (b"act b: Nat; init b(1", b" + 1", b");"),
    "guards of &&": (b"act a; proc X(b: Bool) = (b", b" && b", b") -> a . X(b = b); init X(true);"),
    "guards of ||": (b"act a; proc X(b: Bool) = (b", b" || b", b") -> a . X(b = b); init X(true);"),
    "lists": (b"act a: List(Nat); init a([1", b", 1", b"]);"),
}
# Nestings: what stands in front, what opens a level, what stands inside, what closes a level, and what stands behind.
NESTINGS = {
    "brackets": ("init ", "(", "a", ")", ";"),
    "brackets of data": ("init a(", "(", "b", ")", ");"),
    "brackets and signs": ("init a(", "(b && ", "b", ")", ");"),
    "lists": ("init a(", "[", "b", "]", ");"),
    "calls": ("init a(", "f(", "b", ")", ");"),
    "prefix signs": ("init a(", "!", "b", "", ");"),
    "conditions": ("init ", "b -> ", "a", "", ";"),
    "sums": ("init ", "sum x: S . ", "a", "", ";"),
    "sorts": ("map f: ", "(", "A", ")", "; init a;"),
}
# Texts of level 1,000 at most that don't nest as deep as they are long.
SHORT = {
    "conditions": "init " + "b->a||" * 1_400 + "a;",
    "conditions, both": "init " + "b->a<>a||" * 700 + "a;",
    "conditions and signs": "init " + "b->" * 400 + "a||" + "!" * 999 + "b->a;",
    "signs in turn": "init a(" + "(" * 20 + "x" + (" => y" * 900 + " && !z)") * 20 + ");",
}


COLLIDING = """//! Writes names whose hashes, by the hasher that tables of std have, end in the same bits.
#![tactic(auto)]

use std::hash::{FoldHasher, Hash, Hasher};
use std::io;

/// What names are made of.
const LETTERS: [u8; 32] = *b"abcdefghijklmnopqrstuvwxyzABCDEF";

/// How many names are written.
const NAMES: u32 = 65_536;

/// The letter of the last five bits.
fn letter(number: u32) -> u8 {
    LETTERS[number as usize % 32]
}

/// The name of a number.
fn name_of(number: u32) -> [u8; 7] {
    [
        letter(number),
        letter(number >> 5),
        letter(number >> 10),
        letter(number >> 15),
        letter(number >> 20),
        letter(number >> 25),
        letter(number >> 30),
    ]
}

/// What tables take a name for.
fn hash_of(name: &[u8]) -> u64 {
    let mut hasher = FoldHasher::default();
    name.hash(&mut hasher);
    hasher.finish()
}

fn main(rt: HostRuntime) -> io::Result<()> {
    let mut found = 0;
    for number in 0..u32::MAX {
        let name = name_of(number);
        if found < NAMES && hash_of(&name) % 8_192 == 0 {
            found += 1;
            println!(rt; "{}", name.escape_ascii())?;
        }
        if found == NAMES {
            return Ok(());
        }
    }
    Ok(())
}
"""


READS = """//! Reads a text to its tree.
#![tactic(auto)]

use mcrl2_lexer::lex;
use mcrl2_parser::parse;
use std::io::{self, Read};

fn main(rt: HostRuntime) -> io::Result<()> {
    let alloc = rt.alloc();
    let mut text = Vec::new(alloc);
    rt.stdin().read_to_end(&mut text)?;
    let Ok(tokens) = lex(alloc, text.as_slice()) else {
        println!(rt; "no tokens")?;
        return Ok(());
    };
    match parse(alloc, &tokens) {
        Ok(spec) => println!(rt; "{} sections", spec.sections.len())?,
        Err(_) => println!(rt; "no tree")?,
    }
    Ok(())
}
"""


# What the launcher sets.
AS_STARTED = {"GLIBC_TUNABLES": "glibc.malloc.hugetlb=1:glibc.malloc.trim_threshold=4294967296"}


def run(words, path):
    """Runs a program over the file, as its last word and its input, with its output dropped; gives the processor's seconds and the peak memory in KiB."""
    quiet = {"stdout": subprocess.DEVNULL, "stderr": subprocess.DEVNULL}
    with open(path) as text:
        child = subprocess.Popen([*words, path], stdin=text, env={**os.environ, **AS_STARTED}, **quiet)
        _, _, usage = os.wait4(child.pid, 0)
        child.returncode = 0
    return usage.ru_utime + usage.ru_stime, usage.ru_maxrss


def best(words, path):
    runs = [run(words, path) for _ in range(3)]
    return min(seconds for seconds, _ in runs), max(memory for _, memory in runs)


def text_of(size, front, piece, behind):
    """A text of at most that many bytes; where nothing stands behind, the last piece may be cut."""
    room = size - len(front) - len(behind)
    if behind:
        return front + piece * (room // len(piece)) + behind
    return (piece * (room // len(piece) + 1))[:size]


def rounds(commands, path, kinds, runs):
    """Runs each command on each size of these kinds of text, in five rounds over all of them, and puts what that took behind the runs."""
    for _ in range(5):
        for kind in kinds:
            for size in SIZES:
                path.write_bytes(text_of(size * MIB, *KINDS[kind]))
                for name, words in commands.items():
                    runs.setdefault((name, kind, size), []).append(run(words, path))


def measured(runs, kind, size):
    """The least seconds of the program, its greatest memory in KiB, and the least seconds of `wc -w`."""
    reads, counts = runs["reads", kind, size], runs["counts", kind, size]
    return min(seconds for seconds, _ in reads), max(memory for _, memory in reads), min(words for words, _ in counts)


def above_bounds(runs, kind):
    """What of the kind's 16 MiB is above a bound."""
    seconds, memory, words = measured(runs, kind, 16)
    before, _, _ = measured(runs, kind, 4)
    bounds = (("x wc -w", seconds / words, 25), ("x 4 MiB", seconds / before, 4.4), ("a byte", memory / 1024 / 16, 80))
    return [f"{kind} {value:.1f} {name}" for name, value, bound in bounds if value > bound]


def figures(command, path, repeats):
    """Prints the figures of all kinds; gives what is above the bounds. A kind that is above one is run again, that often at most."""
    runs = {}
    kinds = list(KINDS)
    for _ in range(1 + repeats):
        rounds({"reads": command, "counts": ["wc", "-w"]}, path, kinds, runs)
        kinds = [kind for kind in kinds if above_bounds(runs, kind)]
    for kind in KINDS:
        before = None
        for size in SIZES:
            seconds, memory, words = measured(runs, kind, size)
            growth = f" {seconds / before:5.2f} x" if before else ""
            before = seconds
            peak = f"{memory // 1024:5} MiB peak {memory / 1024 / size:6.1f} a byte"
            shown = f"{seconds / words:6.2f} x wc -w{growth}"
            print(f"{kind:21} {size:3} MiB {seconds:7.3f} s {size / seconds:7.1f} MiB/s {peak} {shown}", flush=True)
    return [shown for kind in KINDS for shown in above_bounds(runs, kind)]


def speed(_, path):
    with tempfile.TemporaryDirectory() as folder:
        crates = ["mcrl2_lexer", "mcrl2_syntax", "mcrl2_parser"]
        reader = build(folder, "reads", crates, {"src/main.rt": READS})
        above = figures([reader], path, 3)
    print("above the bounds:", "; ".join(above) or "none")


def refusals(command, path):
    figures(command, path, 0)


def brackets(command, path):
    path.write_bytes(text_of(16 * MIB, *KINDS["choices"]))
    plain, _ = best(command, path)
    for kind in ("nested choices", "nested arrow", "nested, no guards"):
        path.write_bytes(text_of(16 * MIB, *KINDS[kind]))
        seconds, _ = best(command, path)
        print(f"{kind:21} {seconds:7.3f} s {seconds / plain:6.2f} times the choices without brackets")


def names(command, path):
    with tempfile.TemporaryDirectory() as folder:
        program = build(folder, "colliding_names", [], {"src/main.rt": COLLIDING})
        colliding = subprocess.run([program], capture_output=True, check=True).stdout.split()
    ordinary = [b"a%d" % number for number in range(len(colliding))]
    for kind, all_names in (("ordinary names", ordinary), ("colliding names", colliding)):
        for count in (len(all_names) // 4, len(all_names) // 2, len(all_names)):
            some = all_names[:count]
            path.write_bytes(b"act " + b", ".join(some) + b";\nproc X = " + some[0] + b";\ninit X;\n")
            seconds, _ = best(command, path)
            print(f"{kind:21} {count:7} {seconds:7.3f} s")


def ends(command, path, kib):
    """Whether the program ends by itself with a stack of that many KiB and no environment."""

    def limit():
        resource.setrlimit(resource.RLIMIT_STACK, (kib * 1024, resource.RLIM_INFINITY))

    outcome = subprocess.run([*command, path], preexec_fn=limit, env={}, capture_output=True, check=False)
    return outcome.returncode >= 0


def least(command, path):
    """The least stack in KiB, within 8, that the program needs."""
    low, high = 0, 16 * 1024
    while high - low > 8:
        middle = (low + high) // 2
        if ends(command, path, middle):
            high = middle
        else:
            low = middle
    return high


def stack(command, path):
    for kind, (front, opens, inside, closes, behind) in NESTINGS.items():
        needs = {}
        for depth in (250, 500, 990):
            path.write_text(front + opens * depth + inside + closes * depth + behind)
            needs[depth] = least(command, path)
        each = (needs[990] - needs[250]) * 1024 // (990 - 250)
        shown = " ".join(f"{depth}: {kib:5} KiB" for depth, kib in needs.items())
        print(f"{kind:21} {shown} {each:6} bytes a level")


def chains(command, path):
    for kind, (front, part, behind) in CHAINS.items():
        needs = {}
        for count in (1_000, 10_000, 43_750):
            path.write_bytes(front + part * count + behind)
            needs[count] = least(command, path)
        shown = " ".join(f"{count}: {kib:5} KiB" for count, kib in needs.items())
        print(f"{kind:21} {shown}")


def short(command, path):
    for kind, text in SHORT.items():
        path.write_text(text)
        said = subprocess.run([*command, path], capture_output=True, check=False)
        print(f"{kind:21} {said.stderr.decode().strip()}")


def main():
    parts = {"speed": speed, "refusals": refusals, "brackets": brackets, "names": names, "stack": stack, "chains": chains, "short": short}
    wanted = sys.argv[1:2] if len(sys.argv) > 1 else list(parts)
    command = sys.argv[2:] if len(sys.argv) > 2 else [PROGRAM, "linearise"]
    with tempfile.TemporaryDirectory() as folder:
        path = pathlib.Path(folder) / "text.mcrl2"
        for name in wanted:
            parts[name](command, path)


if __name__ == "__main__":
    main()
