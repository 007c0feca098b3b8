#!/usr/bin/env python3
"""Says which functions of a crate take the prover longest: bench/slowest.py CRATE [--test]

It checks a copy of the crate's repository from nothing for this crate, one function after the other, and prints the seconds by the clock
that passed before each function was done, the slowest first. A lemma file counts for the first function that cites it. For figures that
mean something run nothing else on the machine.
"""
import os
import re
import shutil
import subprocess
import sys
import tempfile
import time

TOP = os.path.dirname(os.path.dirname(os.path.abspath(__file__)))


def main():
    crate, flags = sys.argv[1], sys.argv[2:]
    with tempfile.TemporaryDirectory() as room:
        copy = f"{room}/copy"
        shutil.copytree(TOP, copy, symlinks=True, ignore=shutil.ignore_patterns(".git"))
        shutil.rmtree(f"{copy}/crates/{crate}/out", ignore_errors=True)
        command = ["rt", "check", "--jobs", "1", *flags]
        check = subprocess.Popen(command, cwd=f"{copy}/crates/{crate}", stdout=subprocess.PIPE, stderr=subprocess.STDOUT, text=True)
        last, taken, verdict = None, [], ""
        for line in check.stdout:
            now = time.monotonic()
            done = re.match(r"checked (\S+),", line)
            if line.startswith("so far"):
                last = now
            elif done and last is not None:
                taken.append((now - last, done[1]))
                last = now
            elif line.startswith("logic="):
                verdict = line.split()[0]
    for seconds, name in sorted(taken, reverse=True):
        print(f"{seconds:8.1f} {name}")
    print(f"{sum(seconds for seconds, _ in taken):8.1f} in all, {len(taken)} functions, {verdict}")
    return check.wait()


if __name__ == "__main__":
    sys.exit(main())
