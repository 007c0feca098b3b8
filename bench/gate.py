#!/usr/bin/env python3
"""Says what a run of the gate takes, crate by crate, in processor-minutes.

  bench/gate.py [COMMAND..]          starts the command at the top of the repository (`rt ci` without one) and prints a table at its end
  bench/gate.py --write [COMMAND..]  the same, and writes the table to docs/GATE.md
  bench/gate.py --from FILE          writes docs/GATE.md by what an earlier run has printed into the file

It looks every quarter of a second at the processes that the command has started, so it costs next to nothing. The processes of
the prover name their crate on their command line: proofs of the crate, of its tests (with what is built and run of these and of
programs), and of its edits, which are tried in a folder of their own. What ends between two looks isn't seen: the last row but
one has the rest of the command's own count. For an exact table run nothing else on the machine. Behind the table stand the longest chain
of crates, what machines of two and of four processors would take at best, and the seconds of each edit in the order of their names, with
those of the crate over what the edits left at the end.
"""
import os
import re
import resource
import subprocess
import sys
import threading
import time

TICKS = os.sysconf("SC_CLK_TCK")
TOP = os.path.dirname(os.path.dirname(os.path.abspath(__file__)))
KINDS = ("proof", "tests", "edits")
HEAD = "| Crate | Lines | Proof | Tests | Edits | Minutes | per 1,000 lines |"
PAGE = """# What the gate takes

The gate is `rt ci`: every proof, every edit that must be refused and every test. `bench/gate.py --write` runs it and writes this
page. The minutes are those of one processor. *Lines* are those of `src/` and `specs/`. *Tests* are the proofs of a crate's
tests, with what is built and run of these and of programs. *Edits* are a further proof of a crate, and the edits that are tried
over it. [HACKING.md](HACKING.md) says how checks are kept short.

"""


def lines_of(crate):
    """The lines of the crate's src/ and specs/."""
    count = 0
    for part in ("src", "specs"):
        for at, _, files in os.walk(f"{TOP}/crates/{crate}/{part}"):
            for name in files:
                if name.endswith((".rt", ".antt")):
                    with open(f"{at}/{name}", "rb") as file:
                        count += file.read().count(b"\n")
    return count


def processes():
    """Each process: its parent and its own processor seconds."""
    found = {}
    for name in os.listdir("/proc"):
        if name.isdigit():
            try:
                with open(f"/proc/{name}/stat", "rb") as file:
                    parts = file.read().rpartition(b")")[2].split()
            except OSError:
                continue
            found[int(name)] = int(parts[1]), (int(parts[11]) + int(parts[12])) / TICKS, parts[19]
    return found


def below(found, root):
    """The processes that stand below one."""
    children = {}
    for pid, (parent, _, _) in found.items():
        children.setdefault(parent, []).append(pid)
    left, inside = [root], []
    while left:
        for pid in children.get(left.pop(), []):
            inside.append(pid)
            left.append(pid)
    return inside


def what(pid):
    """The crate, the kind and the run that a process works for."""
    try:
        with open(f"/proc/{pid}/cmdline", "rb") as file:
            words = file.read().decode(errors="replace").split("\0")
        folder = os.readlink(f"/proc/{pid}/cwd")
    except OSError:
        return None
    if "--crate-name" in words:
        crate = words[words.index("--crate-name") + 1]
        edit = re.search(r"/rt-edit-[^/]*", folder)
        if edit:
            return crate, "edits", edit.group()
        return crate, "tests" if "--test" in words or "--crate-checked" in words else "proof", ""
    for word in words:
        program = re.search(r"/rt-run-[^/]*/bin/(\w+)$", word)
        if program:
            return program.group(1).removesuffix("_tests"), "tests", ""
    return None


class Watch(threading.Thread):
    """Adds up what the processes below one take, until it is told to end."""

    def __init__(self, root):
        super().__init__(daemon=True)
        self.root, self.is_over = root, False
        self.known, self.taken = {}, {}

    def run(self):
        while not self.is_over:
            found = processes()
            for pid in below(found, self.root):
                key = pid, found[pid][2]
                if key not in self.known:
                    told = what(pid)
                    if told is None:
                        continue
                    self.known[key] = told
                self.taken[key] = found[pid][1]
            time.sleep(0.25)


def listed():
    """The crates of crates.txt, in its order, each with the crates that it names."""
    with open(f"{TOP}/crates.txt", encoding="utf-8") as file:
        named = re.findall(r"^(\w+)(?: staticlib)?:(.*)$", file.read(), re.M)
    crates = {crate for crate, _ in named}
    return {crate: [it for it in rest.split() if it in crates] for crate, rest in named}


def ways_down(below, minutes):
    """The minutes of the longest chain that ends in each crate, with the chain itself."""
    found = {}

    def way(crate):
        if crate not in found:
            before = max((way(it) for it in below[crate]), default=(0.0, []))
            found[crate] = before[0] + minutes[crate], [*before[1], crate]
        return found[crate]

    for crate in below:
        way(crate)
    return found


def clock(below, work, processors):
    """The minutes that so many processors take, where a proof can be shared by up to four of them without loss.

    The work of a crate is its proof, which waits for those below it, and then its tests and edits, which nothing waits for.
    """
    above = {crate: 0.0 for crate in below}
    for crate, (minutes, chain) in ways_down(below, {it: work[it][0] for it in below}).items():
        for place, it in enumerate(chain):
            above[it] = max(above[it], minutes - sum(work[low][0] for low in chain[:place]))
    left = {(crate, part): work[crate][part] for crate in below for part in (0, 1)}
    done, now = set(), 0.0
    while len(done) < len(left):
        ready = [it for it in left if it not in done and all((low, 0) in done for low in ([it[0]] if it[1] else below[it[0]]))]
        ready.sort(key=lambda it: (it[1], -above[it[0]]))
        shares, free = {}, processors
        for it in ready:
            shares[it] = min(4 if it[1] == 0 else 1, free)
            free -= shares[it]
        step = min((left[it] / share for it, share in shares.items() if share), default=0.0)
        now += step
        for it, share in shares.items():
            left[it] -= step * share
            if share and left[it] < 1e-9:
                done.add(it)
    return now


def prospects(sums):
    """The longest chain, and what machines of two and of four processors would take."""
    below = listed()
    work = {crate: (sums.get(crate, {}).get("proof", 0.0) / 60, sum(sums.get(crate, {}).get(kind, 0.0) for kind in KINDS[1:]) / 60) for crate in below}
    minutes, chain = max(ways_down(below, {crate: work[crate][0] for crate in below}).values())
    yield f"longest chain: {minutes:.1f} processor-minutes: {', '.join(chain)}"
    yield f"at best {clock(below, work, 2):.0f} minutes on two processors, {clock(below, work, 4):.0f} on four"


def lines_of_table(watch, total):
    """The lines of the table, and those of the edits."""
    sums, edits = {}, {}
    for key, seconds in watch.taken.items():
        crate, kind, run = watch.known[key]
        sums.setdefault(crate, dict.fromkeys(KINDS, 0.0))[kind] += seconds
        if run:
            runs = edits.setdefault(crate, {})
            runs[run] = runs.get(run, 0.0) + seconds
    order = listed()
    yield HEAD
    yield "|---|---|---|---|---|---|---|"
    whole, seen = 0, 0.0
    for crate in [it for it in order if it in sums]:
        lines, parts = lines_of(crate), [sums[crate][kind] / 60 for kind in KINDS]
        whole, seen = whole + lines, seen + sum(parts)
        each = f"{1000 * sum(parts) / lines:.1f}" if lines else "-"
        yield f"| `{crate}` | {lines:,} | {' | '.join(f'{it:.1f}' for it in parts)} | {sum(parts):.1f} | {each} |"
    yield f"| the rest | | | | | {total / 60 - seen:.1f} | |"
    yield f"| all | {whole:,} | | | | {total / 60:.1f} | {1000 * total / 60 / max(whole, 1):.1f} |"
    yield from prospects(sums)
    for crate, runs in edits.items():
        yield f"edits of {crate}: {' '.join(f'{it:.0f}' for it in runs.values())} s"


def table(watch, total):
    """Prints the table and the edits."""
    print("\n".join(lines_of_table(watch, total)))


def write(lines):
    """Writes docs/GATE.md by the lines that a run has printed."""
    begin = lines.index(HEAD)
    end = next(place for place in range(begin, len(lines)) if not lines[place].startswith("|"))
    with open(f"{TOP}/docs/GATE.md", "w", encoding="utf-8") as file:
        file.write(PAGE)
        file.write("\n".join([*lines[begin:end], "", *(f"- {line}" for line in lines[end:] if line)]) + "\n")


def main(words):
    if words[:1] == ["--from"]:
        with open(words[1], encoding="utf-8") as file:
            write(file.read().split("\n"))
        return 0
    is_written = words[:1] == ["--write"]
    began = time.time()
    started = subprocess.Popen(words[is_written:] or ["rt", "ci"], cwd=TOP)
    watch = Watch(started.pid)
    watch.start()
    status = started.wait()
    watch.is_over = True
    watch.join()
    used = resource.getrusage(resource.RUSAGE_CHILDREN)
    kit = subprocess.run(["rt", "version"], stdout=subprocess.PIPE, text=True, check=False).stdout.strip()
    lines = [*lines_of_table(watch, used.ru_utime + used.ru_stime), f"{(time.time() - began) / 60:.1f} minutes by the clock on {os.cpu_count()} processors, status {status}",
             f"toolchain: {kit}"]
    print("\n".join(lines))
    if is_written and status == 0:
        write(lines)
    return status


if __name__ == "__main__":
    sys.exit(main(sys.argv[1:]))
