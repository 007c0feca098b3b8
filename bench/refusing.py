#!/usr/bin/env python3
"""Refuses each allocation of a run in turn: bench/refusing.py [--exe PROGRAM] [--every N] [NAME ..]

For each case below, or those of the names, the finished program runs once as it is, and then once for each allocation that it made, which is
refused to it while all others are made. Such a run is to end with the status 5, the line that says so and nothing on the output; or, where that
allocation isn't reached, as the first run did. A line for each case counts both, and names the first allocations behind which a run ended in
another way. With --every N only each Nth allocation is refused. The status is 1 where a run ended in another way.

It needs a C compiler and GNU's C library, whose allocation a small library stands in front of. It is no part of the gate.
"""

import argparse
import concurrent.futures
import os
import pathlib
import subprocess
import sys
import tempfile

from programs import PROGRAM

# Counts the allocations, refuses the one with the number in REFUSED, and writes how many there were to the file in COUNTED.
LIBRARY = r"""
#define _GNU_SOURCE
#include <errno.h>
#include <stddef.h>
#include <stdio.h>
#include <stdlib.h>
extern void *__libc_malloc(size_t), *__libc_calloc(size_t, size_t), *__libc_realloc(void *, size_t), *__libc_memalign(size_t, size_t);
static unsigned long made, refused;
static int refuses(void) { return ++made == refused && (errno = ENOMEM); }
void *malloc(size_t size) { return refuses() ? NULL : __libc_malloc(size); }
void *calloc(size_t count, size_t size) { return refuses() ? NULL : __libc_calloc(count, size); }
void *realloc(void *old, size_t size) { return refuses() ? NULL : __libc_realloc(old, size); }
void *memalign(size_t align, size_t size) { return refuses() ? NULL : __libc_memalign(align, size); }
void *aligned_alloc(size_t align, size_t size) { return memalign(align, size); }
int posix_memalign(void **to, size_t align, size_t size) { return (*to = memalign(align, size)) ? 0 : ENOMEM; }
__attribute__((constructor)) static void begin(void) {
    const char *number = getenv("REFUSED");
    made = 0;
    refused = number ? strtoul(number, NULL, 10) : 0;
}
__attribute__((destructor)) static void end(void) {
    const char *name = getenv("COUNTED");
    unsigned long all = made;
    refused = 0;
    FILE *file = name ? fopen(name, "w") : NULL;
    if (file) { fprintf(file, "%lu", all); fclose(file); }
}
"""

LOOP = "act a; proc X = a . X; init X;"
COUNTER = "act up, down: Nat; proc C(n: Nat) = (n < 2) -> up(n) . C(n + 1) + (n > 0) -> down(n) . C(Int2Nat(n - 1)); init C(0);"
CHOSEN = "sort D = struct red | green; act take, give: D; proc B(x: D) = sum y: D . (y == x) -> take(y) . give(y) . B(green); init B(red);"
# A name, the words, the text, and a further file where the task reads one.
CASES = [
    ("loop", ["linearise", "TEXT"], LOOP, ""),
    ("stack", ["linearise", "TEXT"], "act a, b, c; proc X = a . X . Y + b; Y = c; init X;", ""),
    ("network", ["linearise", "TEXT"], "act a, b, c; init allow({a, c}, comm({a|b -> c}, a || b . a));", ""),
    ("check", ["check", "TEXT"], COUNTER, ""),
    ("constelm", ["constelm", "TEXT"], COUNTER, ""),
    ("parelm", ["parelm", "TEXT"], COUNTER, ""),
    ("sumelm", ["sumelm", "TEXT"], CHOSEN, ""),
    ("steps", ["steps", "TEXT"], COUNTER, ""),
    ("after", ["steps", "TEXT", "--after", "FURTHER"], COUNTER, "1\n1\n"),
    ("walk", ["walk", "TEXT", "--depth", "3"], COUNTER, ""),
    ("replay", ["replay", "TEXT", "--trace", "FURTHER"], COUNTER, "up(0)\nup(1)\n"),
    ("invariant", ["invariant", "TEXT", "--invariant", "FURTHER"], COUNTER, "n <= 2"),
    ("equations", ["equations", "TEXT"], "map f: Nat -> Nat; var n: Nat; eqn f(0) = 0; n > 0 -> f(n) = f(Int2Nat(n - 1)); init delta;", ""),
    ("generate", ["generate", "2"], "", ""),
    ("refused", ["linearise", "TEXT"], "act a; proc X = X + a; init X;", ""),
]


def run(words, library, number, counted):
    """Runs the program with this allocation refused, or none where it is 0: its status, output and error output."""
    given = {**os.environ, "LD_PRELOAD": str(library), "REFUSED": str(number), "COUNTED": str(counted)}
    done = subprocess.run(words, stdin=subprocess.DEVNULL, capture_output=True, env=given)
    return done.returncode, done.stdout, done.stderr


def sweep(case, program, library, folder, every):
    """Refuses the allocations of a case in turn, prints its line, and says whether each run ended as it is to."""
    name, words, text, further = case
    files = {"TEXT": folder / f"{name}.mcrl2", "FURTHER": folder / f"{name}.further"}
    files["TEXT"].write_text(text)
    files["FURTHER"].write_text(further)
    words = [str(program), *(str(files.get(word, word)) for word in words)]
    counted = folder / f"{name}.counted"
    first = run(words, library, 0, counted)
    numbers = range(1, int(counted.read_text()) + 1, every)
    with concurrent.futures.ThreadPoolExecutor(os.cpu_count()) as pool:
        ends = [*pool.map(lambda number: run(words, library, number, folder / f"{name}.{number % 64}"), numbers)]
    refused = sum(end == (5, b"", b"no memory\n") for end in ends)
    others = [number for number, end in zip(numbers, ends) if end not in (first, (5, b"", b"no memory\n"))]
    same = len(ends) - refused - len(others)
    print(f"{name:10} status {first[0]}: {len(ends)} refused, {refused} ended for want of memory, {same} as before{', others: ' + str(others[:5]) if others else ''}", flush=True)
    return not others


def main():
    parser = argparse.ArgumentParser(description=__doc__.splitlines()[0])
    parser.add_argument("names", nargs="*")
    parser.add_argument("--exe", default=PROGRAM)
    parser.add_argument("--every", type=int, default=1)
    options = parser.parse_args()
    with tempfile.TemporaryDirectory() as room:
        folder = pathlib.Path(room)
        source, library = folder / "refusing.c", folder / "refusing.so"
        source.write_text(LIBRARY)
        subprocess.run(["cc", "-O1", "-shared", "-fPIC", "-o", library, source], check=True)
        cases = [case for case in CASES if not options.names or case[0] in options.names]
        ended = [sweep(case, options.exe, library, folder, options.every) for case in cases]
    return 0 if all(ended) else 1


if __name__ == "__main__":
    sys.exit(main())
