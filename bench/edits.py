#!/usr/bin/env python3
"""Tries the edits that must be refused and that the gate leaves out: bench/edits.py [CRATE..] or bench/edits.py --changed [COMMIT]

The gate proves a crate once more for its edits. So crates/CRATE/must-fail has only those that nothing above would refuse: the edits of `run`
itself, and of what no crate above uses yet. The others stand in bench/edits/CRATE, for whoever changes the crate. Each crate named, or else
each that has such edits, is copied with the repository and what is kept of its proofs, and `rt must-fail` tries them there. --changed takes
the crates of which a file differs from the commit (from HEAD where none is named). The status is 0 where all were refused.
"""
import os
import shutil
import subprocess
import sys
import tempfile

TOP = os.path.dirname(os.path.dirname(os.path.abspath(__file__)))
EDITS = f"{TOP}/bench/edits"


def changed(commit):
    """The crates with edits of which a file differs from the commit."""
    told = subprocess.run(["git", "diff", "--name-only", commit, "--", "crates"], cwd=TOP, check=True, capture_output=True, text=True).stdout
    return sorted({path.split("/")[1] for path in told.split()} & set(os.listdir(EDITS)))


def asked(words):
    """The crates whose edits are to be tried."""
    if words[:1] == ["--changed"]:
        return changed(*(words[1:] or ["HEAD"]))
    return words or sorted(os.listdir(EDITS))


def main(words):
    tried = asked(words)
    if not tried:
        print("no crate with edits has changed")
        return 0
    with tempfile.TemporaryDirectory() as room:
        copy = f"{room}/copy"
        shutil.copytree(TOP, copy, symlinks=True, ignore=shutil.ignore_patterns(".git", "incremental"))
        for crate in tried:
            edits = f"{copy}/crates/{crate}/must-fail"
            shutil.rmtree(edits, ignore_errors=True)
            shutil.copytree(f"{EDITS}/{crate}", edits)
        return subprocess.run(["rt", "must-fail", *tried], cwd=copy).returncode


if __name__ == "__main__":
    sys.exit(main(sys.argv[1:]))
