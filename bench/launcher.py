#!/usr/bin/env python3
"""Tries the launcher mcrl2lin on a small repository whose toolchain proves nothing: bench/launcher.py [NAME ..]

The command rt of these tries only notes that it was called, waits as long as a try asks, and makes a program that does what
the launcher counts on. So they take a few minutes, and say how the launcher proves, answers and starts, and nothing of the proofs or of
the program. A line for each try, and `N passed, M failed` as the last. It is no part of the gate.
"""

import fcntl
import os
import pathlib
import pty
import re
import resource
import select
import shutil
import signal
import struct
import subprocess
import sys
import tempfile
import termios
import time

TOP = pathlib.Path(__file__).resolve().parent.parent
# The crates of the small repository, lowest first, and one that the program doesn't use.
CRATES = ["low", "high", "mcrl2lin"]
LISTED = "# The crates.\nmcrl2lin: high, itoa\nhigh staticlib: low # and no more\nlow:\napart: low"
# The program that it makes. RT_SAYS is the line by which it refuses everything. A text may have the lines `% refused ..`, by which it is refused,
# `% unproved ..`, for the answer of `invariant`, `% after CHOICES: LINE/LINE ..`, for what can be seen after these choices, and
# `% at STATE: LINE/LINE ..`, for the moves of a state, with @ for the name of what marks a summand.
PROGRAM = """#!/bin/bash
refuse() {
    [[ ! $1 ]] || { echo "$1" >&2; exit 1; }
}

steps() {
    local key seen
    [[ -r $2 ]] || { echo 'read fault' >&2; exit 3; }
    case ${3-} in
    --after=*) key="after $(paste -sd ' ' "${3#*=}")" ;;
    *) key="at $(sed -n 's/^init \\(.*\\);$/\\1/p' "$2" | tail -n 1)" ;;
    esac
    seen=$(grep -aF -- "% $key: " "$2") || refuse "refused 28 BadChoice 1"
    seen=${seen#*: }
    seen=${seen//@/$(sed -n 's/^act \\(summand_*\\)1.*/\\1/p' "$2")}
    case $seen in
    'slow') sleep 60 ;;
    'fault') echo '==1==ERROR: a fault' >&2; kill -ABRT $$ ;;
    esac
    tr / '\\n' <<< "$seen"
    [[ $seen != *undecided*undecided* ]] || exit 6
}

refuse "${RT_SAYS-}"
case "$1 ${2-}" in
'steps '?*) [[ ${3---} != --* ]] || { steps "$@"; exit; } ;;&
'linearise /dev/'*) [[ ! -f $2 ]] || refuse "$(sed -n 's/^% refused/refused/p' "$2")" ;;&
'check '*) cat < "$2" ;;
'invariant '*) sed -n 's/^% unproved/unproved/p' "$2" 2> /dev/null | grep . && exit 6; cat 2> /dev/null < "$2" || { echo 'read fault' >&2; exit 3; } ;;
'linearise '*) cat 2> /dev/null < "$2" || { echo 'read fault' >&2; exit 3; } ;;
'replay '*) cat -- "$2" "${4:-${3#*=}}" 2> /dev/null || { echo 'read fault' >&2; exit 3; } ;;
'stack '*) ulimit -S -s; ulimit -H -s ;;
'pages '*) echo "${GLIBC_TUNABLES-unset}" ;;
'refuse '*) head -n 1 < "$2" >&2; exit 1 ;;
'ask '*) read -r line; echo "got $line"; echo heard >&2; exit "$2" ;;
'write '*) echo "$2" 2> /dev/null || { echo 'write fault' >&2; exit 4; } ;;
'long '*) yes | head -n 100000 ;;
'wait '*) echo "$$"; exec sleep 60 ;;
'break '*) echo half; echo '==1==ERROR: a fault' >&2; kill -ABRT $$ ;;
'--fuel 3' | '--invariant '*) shift 2; exec "$0" "$@" ;;
'--fuel=3 '* | '--invariant='* | '-- '*) shift; exec "$0" "$@" ;;
*) printf '%s\\n' usage "$#" "$@" >&2; exit 2 ;;
esac
"""
# The toolchain keeps what it proved by the sums of the crates' files, as the real one does. RT_SLOW: seconds that the crate `high` and an answer
# take; RT_HOLD: they wait for the file `go`; RT_AT: the crates that do so in place of `high`; RT_BROKEN: the crate that isn't proved; RT_FORGETS: it
# keeps nothing; RT_TRY: what becomes of an answer. Its gate takes the names of crates where its help says so. Else its other commands keep what they
# proved in the crate's folder out/.
TOOLCHAIN = """#!/bin/bash
kit=${0%/*}/..
pause() {
    read -rt "${RT_SLOW-0}" <> <(:) # waits, in this process
    [[ ! ${RT_HOLD-} ]] || until [[ -e $kit/go ]]; do read -rt 0.1 _ <> <(:); done
}

# (with a name it works on a copy)
prove() {
    local crate broken= sum kept=
    echo "${*-}" >> "$kit/asked"
    [[ $* ]] || find . -type f | sort > "$kit/seen"
    for crate in low high side mcrl2lin apart; do
        grep -q "^ *$crate\\b" crates.txt || continue
        [[ ! $* || $crate == "$1" || "$crate $1" == 'low high' ]] || continue
        [[ $* ]] || { rm -rf "crates/$crate/out"; mkdir "crates/$crate/out"; }
        sum=$(find "crates/$crate" -name '*.*t' -exec sha256sum {} + | sort | sha256sum)
        if [[ $broken ]]; then
            echo "rt: $crate NOT PROVED: its library $broken failed"
        elif [[ -e $kit/kept/${sum:0:64} ]]; then
            echo "rt: $crate is kept: an earlier run on this machine proved the same files over the same libraries"
        else
            echo "ci $crate" >> "$kit/calls"
            [[ " ${RT_AT-high} " != *" $crate "* ]] || pause
            [[ $crate != "${RT_BROKEN-}" ]] || { broken=$crate; echo "not proved: $crate"; echo "rt: $crate NOT PROVED"; continue; }
            [[ ${RT_FORGETS-} ]] || { mkdir -p "$kit/kept" && touch "$kit/kept/${sum:0:64}"; }
            echo "rt: $crate proved"
            ! grep -q '#.test.' "crates/$crate/src/lib.rt" || echo "rt: $crate: its tests are proved"
        fi
    done
    [[ ! $broken ]] || exit 1
    if [[ $* ]]; then
        [[ ${RT_FORGETS-} ]] || kept=", and that is kept"
        echo "rt: $1 and the crates below passed$kept. This is not the gate: run rt ci with no names"
    else
        install "$kit/program" crates/mcrl2lin/out/mcrl2lin
    fi
}

# (as the real one, it locks the crate and those below, and takes their libraries)
work() {
    local crate=${PWD##*/} low held
    [[ $2 == "$crate" && $3 == --jobs ]] || exit 2
    for low in ../*; do
        exec {held}< "$low"
        flock "$held"
        [[ $low == "../$crate" || -e $low/out/rlib/stamp ]] || { echo "no library: $low"; exit 1; }
    done
    [[ $(find .. -type l) || $(sed 's/:.*//; s/ .*//' ../../crates.txt | sort) != "$(cd .. && ls)" ]] && { echo "not as wanted: $(ls ..)"; exit 2; }
    case $1 in
    check)
        echo "$crate $4" >> "$kit/asked"
        [[ ! -e out/incremental/done ]] || return 0
        echo "check $crate" >> "$kit/calls"
        mkdir -p out/incremental
        [[ " ${RT_AT-high} " != *" $crate "* ]] || pause
        [[ $crate != "${RT_BROKEN-}" ]] || { echo "not proved: $crate"; exit 1; }
        touch out/incremental/done
        ;;
    lib) [[ -e out/incremental/done ]] && mkdir out/rlib && touch out/rlib/stamp ;;
    run)
        [[ -e out/incremental/done && $5 == -- && ! ${RT_BACKEND-} ]] && install "$kit/program" "out/$crate" && exec "out/$crate" "${@:6}"
        ;;
    esac
}

try() {
    local status room
    echo "try ${PWD##*/}" >> "$kit/calls"
    pause
    case ${RT_TRY-} in
    refused) printf '%s\\n' "src/main.rt:1:1: error[no-such-name]: no name" "run=none proved=no" >&2; exit 1 ;;
    long) printf '%s\\n' "checked: no-answer: past its limit" "run=no-answer proved=no" >&2; exit 6 ;;
    killed) kill -9 $$ ;;
    esac
    room=$(mktemp -d)
    mkdir "$room/run"
    install -m 700 "$kit/program" "$room/run/program"
    [[ $* == '--steps 1 -- check '* ]] || exit 2
    (cd "$room/run" && exec env -i ./program "${@:4}") < /dev/null
    status=$?
    rm -r -- "$room"
    printf '%s\\n' "interpreter: no-answer: no" "checked: ended status=$status" "run=ended status=$status runners=1 proved=no" >&2
    exit "$status"
}

case $1 in
version) cat "$kit/name" ;;
help) cat "$kit/help" >&2; exit 2 ;;
ci) [[ ! ${2-} ]] || grep -q NAME "$kit/help" || exit 2; prove "${@:2}" ;;
check | lib | run) work "$@" ;;
try) try "${@:2}" ;;
esac
"""


class Place:
    """A folder with the small repository and its toolchain."""

    def __init__(self, folder):
        self.folder = pathlib.Path(folder)
        self.top, self.kit = self.folder / "a repository", self.folder / "kit"
        for crate in [*CRATES, "apart"]:
            for file in ("src/lib.rt", "specs/Lib.antt", "proofs/f/Answers.antt", "must-fail/wrong.edit"):
                self.write(f"crates/{crate}/{file}", f"{crate} {file}\n")
        self.write("crates.txt", LISTED)
        self.write("HANDLES", "Handles allowed: none.\n")
        self.write("crates/mcrl2lin/data/a b", "data\n")
        self.write("examples/two_steps.mcrl2", "act a;\n")
        for file in ("mcrl2lin", "VERSION"):
            shutil.copy(TOP / file, self.top / file)
        shutil.copytree(TOP / "launcher", self.top / "launcher", ignore=shutil.ignore_patterns("__pycache__"))
        (self.kit / "bin").mkdir(parents=True)
        (self.folder / "temporary files").mkdir()
        (self.kit / "KIT-ID").write_text("kit one\n")
        (self.kit / "WHAT").write_text("a kit\n")
        (self.kit / "name").write_text("kit one\n")
        (self.kit / "help").write_text("rt: proves\n\n  rt ci [NAME..]   the merge gate\n  rt must-fail [NAME..]\n")
        self.machine("4", "20000000")
        for path, text in ((self.kit / "bin" / "rt", TOOLCHAIN), (self.kit / "program", PROGRAM)):
            path.write_text(text)
            path.chmod(0o755)
        self.env = {**os.environ, "PATH": f"{self.kit / 'bin'}:/usr/bin:/bin", "TERM": "xterm"}
        self.env["TMPDIR"] = str(self.folder / "temporary files")
        for name in ("RT_JOBS", "CI"):
            self.env.pop(name, None)
        self.launcher = str(self.top / "mcrl2lin")

    def write(self, path, text):
        file = self.top / path
        file.parent.mkdir(parents=True, exist_ok=True)
        file.write_text(text)

    def machine(self, processors, memory):
        """Sets how many processors there are, and kilobytes of memory that are free, as the tools say that the launcher asks."""
        for tool, said in (("nproc", processors), ("awk", memory)):
            path = self.kit / "bin" / tool
            path.write_text(f"#!/bin/sh\necho {said}\n")
            path.chmod(0o755)

    def take_no_names(self):
        """Makes the toolchain's gate one that takes no names and keeps nothing."""
        (self.kit / "help").write_text("rt: proves\n\n  rt ci            the merge gate\n  rt must-fail [NAME..]\n")

    def calls(self, name="calls"):
        """What the toolchain did since the last time, or what its gate was `asked` for."""
        file = self.kit / name
        found = file.read_text().splitlines() if file.exists() else []
        file.unlink(missing_ok=True)
        return found

    def widen(self, line="side: low"):
        """Adds a crate beside `high`."""
        for file in ("src/lib.rt", "specs/Lib.antt"):
            self.write(f"crates/side/{file}", f"side {file}\n")
        self.write("crates.txt", LISTED.replace("high, itoa", "high, side, itoa") + f"\n{line}")

    def run(self, *words, env=None, launcher=None, given="", **how):
        how = {"text": True, "input": given, "capture_output": True, "timeout": 60, **how}
        return subprocess.run([launcher or self.launcher, *words], env={**self.env, **(env or {})}, **how)

    def start(self, *words, env=None, **how):
        how = {"stdin": subprocess.DEVNULL, "stdout": subprocess.PIPE, "stderr": subprocess.PIPE, "text": True, **how}
        return subprocess.Popen([self.launcher, *words], env={**self.env, **(env or {})}, **how)

    def example(self, **how):
        return self.run("linearise", str(self.top / "examples" / "two_steps.mcrl2"), **how)

    def prove(self, **how):
        return self.run("--prove", **how)

    def is_proved(self):
        return any(self.top.glob("out/mcrl2lin-*"))

    def unproved(self):
        """What is kept of the builds without a proof."""
        return [*self.top.glob("out/unproved-*")]

    def processes(self):
        """What still runs of the repository and its toolchain."""
        found = subprocess.run(["pgrep", "-af", str(self.folder)], capture_output=True, text=True, check=False).stdout
        return found.splitlines()

    def await_end(self):
        """Waits until nothing runs of the repository and its toolchain."""
        until = time.monotonic() + 20
        while self.processes():
            assert time.monotonic() < until, self.processes()
            time.sleep(0.1)

    def rooms(self):
        """What is left among the temporary files."""
        return [*(self.folder / "temporary files").iterdir()]

    def forget(self):
        """Has the toolchain keep nothing of what it proved."""
        shutil.rmtree(self.kit / "kept", ignore_errors=True)

    def await_call(self, call, name="calls"):
        until, file = time.monotonic() + 20, self.kit / name
        while call not in (file.read_text().splitlines() if file.exists() else []):
            assert time.monotonic() < until, f"no call {call}"
            time.sleep(0.02)


PROVED = [f"ci {it}" for it in CRATES]
CHECKED = [f"check {it}" for it in CRATES]
TRIED = ["try mcrl2lin"]
UNPROVED = "mcrl2lin: this answer comes from the same sources without a proof; ./mcrl2lin --prove makes the proved program"
BUILT = UNPROVED.replace(";", ", in two or three minutes;")


def same(found, wanted):
    assert found == wanted, f"{found!r} and not {wanted!r}"


def first_start(place):
    """Without a proved program the answer comes from the unproved build, which is kept until a source changes or the program is proved."""
    for _ in range(2):
        for first, calls in ((BUILT, TRIED), (UNPROVED, []), (UNPROVED, [])):
            ran = place.example()
            same((ran.returncode, ran.stdout, ran.stderr), (0, "act a;\n", f"{first}\n"))
            same((place.calls(), place.rooms(), len(place.unproved())), (calls, [], 1))
        same(sorted(it.name for it in (place.top / "out").iterdir()), ["turn", place.unproved()[0].name])
        place.write("crates/low/src/lib.rt", "changed\n")
    place.prove()
    same((place.example().stderr, place.unproved()), ("", []))


def build_meanwhile(place):
    """A source that changes while it is built: what was built serves for this answer and isn't kept."""
    child = place.start("linearise", str(place.top / "examples/two_steps.mcrl2"), env={"RT_HOLD": "1"})
    place.await_call(*TRIED)
    place.write("crates/low/src/lib.rt", "changed\n")
    (place.kit / "go").touch()
    same((child.communicate(timeout=60), child.returncode), (("act a;\n", f"{BUILT}\n"), 0))
    same((place.unproved(), place.rooms(), place.calls()), ([], [], TRIED))


def build_at_once(place):
    """Of starts that would build one does, and the others wait for it; but for none that was killed."""
    words = ["linearise", str(place.top / "examples/two_steps.mcrl2")]
    one = place.start(*words, env={"RT_HOLD": "1"})
    place.await_call(*TRIED)
    others = [place.start(*words) for _ in range(4)]
    for other in others:
        same([other.stderr.readline(), other.stderr.readline()], [f"{BUILT}\n", "mcrl2lin: waiting for another start, which is building\n"])
    others[0].terminate()
    others[0].communicate(timeout=2)
    same(others[0].returncode, -signal.SIGTERM)
    (place.kit / "go").touch()
    for it in (one, *others[1:]):
        same((it.communicate(timeout=60)[0], it.returncode), ("act a;\n", 0))
    same((place.calls(), place.rooms(), len(place.unproved())), (TRIED, [], 1))
    place.write("crates/low/src/lib.rt", "changed\n")
    (place.kit / "go").unlink()
    one = place.start(*words, env={"RT_HOLD": "1"})
    place.await_call(*TRIED)
    one.kill()
    one.communicate()
    ran = place.example()
    same((ran.returncode, ran.stdout, ran.stderr, place.calls()), (0, "act a;\n", f"{BUILT}\n", TRIED * 2))
    (place.kit / "go").touch()
    place.await_end()


def pipeline(place):
    """Starts that read what others write, where nothing is built yet."""
    both = '"$1" linearise <("$1" linearise <("$1" linearise "$2"))'
    ran = subprocess.run(
        ["bash", "-c", both, "", place.launcher, str(place.top / "examples/two_steps.mcrl2")], env=place.env, capture_output=True, text=True, timeout=60
    )
    same((ran.returncode, ran.stdout, place.calls(), place.rooms()), (0, "act a;\n", TRIED, []))


def prove(place):
    """A proof of a copy with just what the program is made of and run on, and then starts of the program alone."""
    ran = place.prove()
    same((ran.returncode, ran.stdout), (0, ""))
    lines = [re.sub(r"\d+ min \d+ s", "T", it) for it in ran.stderr.splitlines()]
    same(lines[0], "mcrl2lin: proving: 0 of 3 crates done (0%), T")
    same(lines[-1], "mcrl2lin: proved and built, 3 crates in T")
    assert "\r" not in ran.stderr and "\x1b" not in ran.stderr, "control signs off the terminal"
    same((place.calls(), place.rooms()), (PROVED, []))
    files = [f"./crates/{crate}/{file}" for crate in CRATES for file in ("src/lib.rt", "specs/Lib.antt", "proofs/f/Answers.antt")]
    same((place.kit / "seen").read_text().splitlines(), sorted([*files, "./HANDLES", "./crates.txt", "./crates/mcrl2lin/data/a b"]))
    ran = place.example()
    same((ran.returncode, ran.stdout, ran.stderr, place.calls()), (0, "act a;\n", "", []))
    ran = place.prove()
    same((ran.returncode, ran.stdout, ran.stderr.count("\n"), place.calls()), (0, "", 1, []))


def progress(place):
    """How far a proof is, and how long it is likely to last, by the lines of the crates and of those with tests once more."""
    place.write("crates/low/src/lib.rt", "#[test]\n" * 8)
    place.write("crates/mcrl2lin/src/lib.rt", "line\n" * 975)
    child = place.start("--prove", env={"RT_SLOW": "1.5", "RT_AT": "low"})
    lines = child.communicate(timeout=60)[1].splitlines()
    same(child.returncode, 0)
    assert any(re.search(r" 1 of 3 crates done \(2%\), \d+ min \d+ s, about \d+ min left", it) for it in lines), lines
    place.calls()
    # What was kept is done, and tells nothing of the time.
    place.write("crates/mcrl2lin/src/lib.rt", "line\n" * 976)
    lines = place.prove().stderr.splitlines()
    assert not any("left" in it for it in lines), lines
    same(place.calls(), PROVED[2:])


def read_all(main):
    """What a terminal shows until it is closed."""
    said = b""
    while True:
        try:
            more = os.read(main, 4096)
        except OSError:
            break
        said += more
        if not more:
            break
    return said.decode()


def terminal(place, columns=30, longest=29):
    """One line, written over, of which nothing is left but that the proof is done."""
    said = on_terminal(place, columns, "--prove", env={"RT_SLOW": "4"})
    rows = said.split("\r\n")
    shown = [it for it in rows[0].split("\r\x1b[K") if it]
    assert sum("proving: 1 of" in it for it in shown) >= 2, shown
    assert max(map(len, shown[:-1])) == longest if longest else all(it.endswith((" s", " min left")) for it in shown[:-1]), shown
    assert shown[-1].startswith("mcrl2lin: proved and built, 3 crates in "), shown
    same(rows[1:], [""])


def terminal_without_width(place):
    terminal(place, 0, None)


def answer_on_terminal(place):
    """The time that an unproved answer takes, and then the same lines as of the program."""
    text = place.folder / "text"
    text.write_text("refused 1 BadByte 4\n $")
    said = on_terminal(place, 60, "refuse", str(text), env={"RT_SLOW": "4"}, status=1)
    first, rows = said.split("\r\n", 1)
    same(first, BUILT)
    shown, last = rows.rsplit("\r\x1b[K", 1)
    assert sum("building without a proof (0 min" in it for it in shown.split("\r\x1b[K")) >= 2, shown
    same(last.split("\r\n")[0], "refused 1 BadByte 4")
    same(last.split("\r\n")[1].partition(": ")[0], f"{text}:1:5")


def on_terminal(place, columns, *words, env, status=0, **how):
    """What a terminal of so many columns shows of a start."""
    main, side = pty.openpty()
    fcntl.ioctl(side, termios.TIOCSWINSZ, struct.pack("HHHH", 24, columns, 0, 0))
    child = place.start(*words, env=env, stdin=side, stdout=side, stderr=side, **how)
    os.close(side)
    said = read_all(main)
    same(child.wait(), status)
    return said


def streams(place):
    place.prove()
    ran = place.run("ask", "42", given="a b\n")
    same((ran.returncode, ran.stdout, ran.stderr), (42, "got a b\n", "heard\n"))
    words = ["", "a  b", "*", "-x", "$HOME", "caf\u00e9", "--help"]
    ran = place.run(*words)
    same((ran.returncode, ran.stdout, ran.stderr.splitlines()), (2, "", ["usage", str(len(words)), *words]))
    ran = place.run()
    same((ran.returncode, ran.stderr.splitlines()), (2, ["usage", "0"]))


def process(place):
    """The program is the very process that was started, so it gets its signals."""
    place.prove()
    file = place.folder / "there"
    file.write_text("x")
    for words in ([], [str(file)], ["/dev/null"]):
        child = place.start("wait", *words)
        same(int(child.stdout.readline()), child.pid)
        child.terminate()
        child.communicate()
        same(child.returncode, -signal.SIGTERM)


def stack(place):
    place.prove()
    limits = lambda soft, hard: lambda: resource.setrlimit(resource.RLIMIT_STACK, (soft, hard))
    ran = place.run("stack", preexec_fn=limits(1 << 20, 32 << 20))
    same(ran.stdout.split(), [str(32 << 10)] * 2)
    ran = place.run("stack", preexec_fn=limits(8 << 20, resource.RLIM_INFINITY))
    same(ran.stdout.split(), ["unlimited"] * 2)


def large_pages(place):
    place.prove()
    place.env.pop("GLIBC_TUNABLES", None)
    same(place.run("pages").stdout.split(), ["glibc.malloc.hugetlb=1:glibc.malloc.trim_threshold=4294967296"])
    for own in ("glibc.malloc.check=0", ""):
        same(place.run("pages", env={"GLIBC_TUNABLES": own}).stdout.split(), own.split())


def links(place):
    away = place.folder / "away" / "deeper"
    away.mkdir(parents=True)
    (away / "straight").symlink_to(place.launcher)
    (away.parent / "relative").symlink_to("deeper/straight")
    (place.top / "examples" / "near").symlink_to("../mcrl2lin")
    (away / "file").write_text("act b;\n")
    for launcher in ("./straight", "../relative", str(place.top / "examples" / "near")):
        ran = place.run("linearise", "file", launcher=launcher, cwd=away)
        same((ran.returncode, ran.stdout), (0, "act b;\n"))
    env = {"PATH": f"{away}:{place.env['PATH']}", "CDPATH": str(place.folder)}
    ran = subprocess.run(["straight", "linearise", "file"], env={**place.env, **env}, cwd=away, capture_output=True, text=True)
    same((ran.returncode, ran.stdout), (0, "act b;\n"))
    same(place.calls(), TRIED)


def sources(place):
    """What makes a proof, and what makes none."""
    place.prove()
    place.calls()

    def then(wanted):
        same((place.example().returncode, place.calls()), (0, TRIED if wanted else []))
        same((place.prove().returncode, place.calls()), (0, wanted))
        ran = place.example()
        same((ran.returncode, ran.stdout, ran.stderr), (0, "act a;\n", ""))
        same(len([*place.top.glob("out/mcrl2lin-*")]), 1)

    os.utime(place.top / "crates/low/src/lib.rt")
    then([])
    file = place.top / "crates/high/src/lib.rt"
    before = file.stat()
    file.write_text(file.read_text().replace("high", "hush"))
    os.utime(file, ns=(before.st_atime_ns, before.st_mtime_ns))
    then(["ci high"])
    place.write("crates/low/proofs/g/Answers.antt", "new\n")
    then(["ci low"])
    (place.top / "crates/low/specs/Lib.antt").unlink()
    then(["ci low"])
    (place.top / "crates/low/proofs/g").rename(place.top / "crates/low/proofs/h")
    then(["ci low"])
    place.forget()
    place.write("crates.txt", LISTED + "\n")
    then(PROVED)
    for file, text in (("KIT-ID", "kit two\n"), ("WHAT", "another kit\n")):
        place.forget()
        (place.kit / file).write_text(text)
        then(PROVED)
    place.forget()
    (place.kit / "KIT-ID").unlink()
    then(PROVED)
    place.forget()
    (place.kit / "name").write_text("kit two\n")
    then(PROVED)
    for left in (".lib.rt.swp", ".lib.rt.swo", "lib.rt~", "#lib.rt#", ".#lib.rt", "4913", "lib.rt.orig", ".lib.rt.kate-swp"):
        place.write(f"crates/low/src/{left}", "left by an editor\n")
    (place.top / "crates/low/src/.#main.rt").symlink_to("me@here.1:2")
    place.write("crates/apart/src/lib.rt", "not of the program\n")
    place.write("crates/low/must-fail/wrong.edit", "other\n")
    place.write("crates/low/out/kept.rt", "made by the toolchain\n")
    then([])


def changed_meanwhile(place):
    """A source that changes while the crates are proved: what was proved is a copy, and the sources as they are now are proved behind it."""
    child = place.start("--prove", env={"RT_SLOW": "1"})
    place.await_call("ci high")
    place.write("crates/low/src/lib.rt", "changed\n")
    child.communicate(timeout=60)
    same((child.returncode, place.calls()), (0, [*PROVED, "ci low"]))
    same((place.example().stdout, place.calls()), ("act a;\n", []))


def broken(place):
    for crate, wanted in (("high", PROVED[:2]), ("mcrl2lin", PROVED[1:])):
        ran = place.prove(env={"RT_BROKEN": crate})
        same((ran.returncode, ran.stdout), (70, ""))
        last = ran.stderr.splitlines()[-1]
        log = place.top / "out" / "log" / ("high.log" if crate == "high" else "prove.log")
        same(last, f"mcrl2lin: the crate {crate} couldn't be proved and built; see {log}")
        assert f"not proved: {crate}" in log.read_text(), log.read_text()
        same((place.calls(), place.rooms()), (wanted, []))
        assert not place.is_proved()
    place.prove()
    place.calls()
    file = place.top / "crates/low/src/lib.rt"
    was = file.read_text()
    file.write_text("broken\n")
    same(place.prove(env={"RT_BROKEN": "low"}).returncode, 70)
    file.write_text(was)
    place.calls()
    same((place.example().returncode, place.calls()), (0, []))


def side_by_side(place):
    """Crates that don't stand on one another are proved at the same time, and one that stands on another waits for it."""
    place.widen()
    child = place.start("--prove", env={"RT_HOLD": "1", "RT_AT": "low"})
    place.await_call("ci low")
    time.sleep(1.5)
    same((place.calls(), place.calls("asked")), (["ci low"], ["low"]))
    (place.kit / "go").touch()
    child.communicate(timeout=60)
    same((child.returncode, sorted(place.calls())), (0, ["ci high", "ci mcrl2lin", "ci side"]))
    place.forget()
    (place.kit / "go").unlink()
    for crate in (*CRATES, "side"):
        place.write(f"crates/{crate}/src/lib.rt", f"other {crate}\n")
    child = place.start("--prove", env={"RT_HOLD": "1", "RT_AT": "high side"})
    place.await_call("ci high")
    place.await_call("ci side")
    (place.kit / "go").touch()
    said = child.communicate(timeout=60)[1].splitlines()
    same((child.returncode, place.rooms()), (0, []))
    calls = place.calls()
    same((calls[0], {*calls[1:3]}, calls[3:]), ("ci low", {"ci high", "ci side"}, ["ci mcrl2lin"]))
    assert said[-1].startswith("mcrl2lin: proved and built, 4 crates in "), said


def one_by_one(place):
    """The gate of the whole does everything where there is one processor or little memory, or by what the caller says to the toolchain."""
    whole, each = [""], ["low", "high", ""]
    for machine, env, asked in (
        (("1", "20000000"), {}, whole),
        (("2", "20000000"), {}, each),
        (("64", "20000000"), {}, each),
        (("4", "7000000"), {}, whole),
        (("4", ""), {}, whole),
        (("4", "20000000"), {"RT_JOBS": "3"}, whole),
        (("4", "20000000"), {"CI": "true"}, whole),
    ):
        place.forget()
        shutil.rmtree(place.top / "out", ignore_errors=True)
        place.machine(*machine)
        ran = place.prove(env=env)
        same((machine, env, ran.returncode, place.calls(), place.calls("asked")), (machine, env, 0, PROVED, asked))


def nothing_kept(place):
    """Where the toolchain keeps nothing, no crate is proved again and again: once one has been, the gate of the whole does all."""
    place.widen("side:")
    child = place.start("--prove", env={"RT_FORGETS": "1", "RT_HOLD": "1", "RT_AT": "side"})
    place.await_call("", "asked")
    place.await_call("ci high")
    (place.kit / "go").touch()
    child.communicate(timeout=60)
    calls = place.calls()
    same((child.returncode, {*calls[:2]}, calls[2:]), (0, {"ci low", "ci side"}, ["ci low", "ci high", "ci side", "ci mcrl2lin"]))
    asked = place.calls("asked")
    same(({*asked[:2]}, asked[2:]), ({"low", "side"}, [""]))


def broken_beside(place):
    """A crate that fails ends the one that is proved beside it, and its log is named."""
    place.widen()
    ran = place.prove(env={"RT_HOLD": "1", "RT_BROKEN": "side"})
    log = place.top / "out" / "log" / "side.log"
    same((ran.returncode, ran.stderr.splitlines()[-1]), (70, f"mcrl2lin: the crate side couldn't be proved and built; see {log}"))
    assert "not proved: side" in log.read_text(), log.read_text()
    same(({*place.calls()} - {"ci high"}, place.rooms()), ({"ci low", "ci side"}, []))
    ran = place.prove()
    assert ran.returncode == 0 and "waiting" not in ran.stderr, ran.stderr
    same(sorted(place.calls()), ["ci high", "ci mcrl2lin", "ci side"])


def interrupted_beside(place):
    """An interrupt ends both crates that are at work, and the next proof goes on."""
    place.widen()
    for number in (signal.SIGINT, signal.SIGTERM):
        child = place.start("--prove", env={"RT_HOLD": "1", "RT_AT": "high side"})
        place.await_call("ci high")
        place.await_call("ci side")
        begun = time.monotonic()
        child.send_signal(number)
        said = child.communicate(timeout=30)[1]
        same((child.returncode, place.rooms()), (-number, []))
        assert time.monotonic() - begun < 2 and "interrupted" in said.splitlines()[-1], said
        place.calls()
    ran = place.prove()
    assert ran.returncode == 0 and "waiting" not in ran.stderr, ran.stderr
    same(sorted(place.calls()), ["ci high", "ci mcrl2lin", "ci side"])


def without_names(place):
    """By a toolchain whose gate takes no names, each crate is proved in a repository of its own, and the program last."""
    place.take_no_names()
    ran = place.prove(env={"RT_BACKEND": "both"})
    same((ran.returncode, ran.stdout), (0, ""))
    lines = [re.sub(r"\d+ min \d+ s", "T", it) for it in ran.stderr.splitlines()]
    same((lines[0], lines[-1]), ("mcrl2lin: proving: 0 of 3 crates done (0%), T", "mcrl2lin: proved and built, 3 crates in T"))
    assert any(re.fullmatch(r"mcrl2lin: proving: 2 of 3 crates done \(66%\), T", it) for it in lines), lines
    same((place.calls(), place.calls("asked"), place.rooms()), (CHECKED, ["low 4", "high 4", "mcrl2lin 4"], []))
    ran = place.example()
    same((ran.returncode, ran.stdout, ran.stderr, place.calls()), (0, "act a;\n", "", []))
    # What changed meanwhile is proved behind it.
    place.write("crates/low/src/lib.rt", "other\n")
    child = place.start("--prove", env={"RT_SLOW": "1"})
    place.await_call("check high")
    place.write("crates/low/src/lib.rt", "changed\n")
    child.communicate(timeout=60)
    same((child.returncode, place.calls(), place.rooms()), (0, CHECKED * 2, []))
    same((place.example().stderr, place.calls()), ("", []))


def shares(place):
    """How many processors a proof gets, and how many are side by side, by those that there are, the memory and RT_JOBS."""
    place.take_no_names()
    place.widen()
    for machine, env, asked in (
        (("4", "20000000"), {}, ["low 4", "high 2", "side 2", "mcrl2lin 4"]),
        (("64", "1000000000"), {}, ["low 8", "high 8", "side 8", "mcrl2lin 8"]),
        (("4", "13000000"), {}, ["low 3", "high 2", "side 1", "mcrl2lin 3"]),
        (("4", "20000000"), {"RT_JOBS": "2", "CI": "true"}, ["low 2", "high 2", "side 2", "mcrl2lin 2"]),
        (("1", "20000000"), {}, ["low 1", "high 1", "side 1", "mcrl2lin 1"]),
        (("4", ""), {"RT_JOBS": "x"}, ["low 1", "high 1", "side 1", "mcrl2lin 1"]),
    ):
        shutil.rmtree(place.top / "out", ignore_errors=True)
        place.write("crates/high/src/lib.rt", "high\n" * 9)
        place.machine(*machine)
        ran = place.prove(env=env)
        found = place.calls("asked")
        same((machine, env, ran.returncode, found[:1], sorted(found[1:3]), found[3:]), (machine, env, 0, asked[:1], sorted(asked[1:3]), asked[3:]))


def goes_on(place):
    """A proof that was interrupted, or killed, goes on where it was, in the same room, as long as sources and toolchain are the same."""
    place.take_no_names()
    place.widen()
    for number in (signal.SIGINT, signal.SIGTERM, signal.SIGKILL):
        child = place.start("--prove", env={"RT_HOLD": "1", "RT_AT": "high side"})
        place.await_call("check high")
        place.await_call("check side")
        rooms, begun = place.rooms(), time.monotonic()
        child.send_signal(number)
        said = child.communicate(timeout=30)[1]
        same((child.returncode, place.rooms(), len(rooms)), (-number, rooms, 1))
        assert time.monotonic() - begun < 2 and ("interrupted" in said.splitlines()[-1] or number == signal.SIGKILL), said
        same(sorted(place.calls()), ["check high", *(["check low"] if number == signal.SIGINT else []), "check side"])
    assert "a proof is under way" in place.example().stderr
    (place.kit / "go").touch()
    ran = place.prove()
    lines = ran.stderr.splitlines()
    same((ran.returncode, place.rooms()), (0, []))
    # (what was killed went on, and kept its work)
    assert any(re.search(r" 1 of 4 crates done \(\d+%\), \d+ min \d+ s$", it) for it in lines), lines
    same(place.calls(), [*TRIED, "check mcrl2lin"])


def begins_anew(place):
    """Where a source or the toolchain is another one, what was kept for the former ones is removed."""
    place.take_no_names()

    def interrupt():
        child = place.start("--prove", env={"RT_HOLD": "1"})
        place.await_call("check high")
        child.terminate()
        child.communicate(timeout=30)
        same((child.returncode, len(place.rooms())), (-signal.SIGTERM, 1))
        place.calls()
        return place.rooms()

    changes = [
        lambda room: place.write("crates/high/proofs/f/Answers.antt", f"{room}\n"),
        lambda room: place.write("crates/low/specs/Lib.antt", f"{room}\n"),
        lambda room: (place.kit / "KIT-ID").write_text(f"{room}\n"),
        lambda room: (room / "repository/crates/low/src/lib.rt").write_text("damaged\n"),
        lambda room: (room / "program").unlink(),
        shutil.rmtree,
    ]
    for change in changes:
        shutil.rmtree(place.top / "out", ignore_errors=True)
        rooms = interrupt()
        change(rooms[0])
        child = place.start("--prove", env={"RT_SLOW": "1"})
        place.await_call("check high")
        assert place.rooms() != rooms and len(place.rooms()) == 1, place.rooms()
        child.communicate(timeout=60)
        same((child.returncode, place.calls(), place.rooms()), (0, CHECKED, []))
    # A program from the gate makes what was kept needless.
    place.write("crates/low/specs/Lib.antt", "last\n")
    interrupt()
    subprocess.run(["rt", "ci"], cwd=place.top, env=place.env, check=True, capture_output=True)
    same((place.prove().returncode, place.is_proved(), place.rooms()), (0, True, []))


def broken_without_names(place):
    """A crate that fails is named with its log. What was proved is kept, but where that itself was kept from before."""
    place.take_no_names()
    for crate, wanted in (("high", CHECKED[:2]), ("mcrl2lin", CHECKED[1:])):
        ran = place.prove(env={"RT_BROKEN": crate})
        same((ran.returncode, ran.stdout), (70, ""))
        log = place.top / "out" / "log" / ("high.log" if crate == "high" else "prove.log")
        same(ran.stderr.splitlines()[-1], f"mcrl2lin: the crate {crate} couldn't be proved and built; see {log}")
        assert f"not proved: {crate}" in log.read_text(), log.read_text()
        same((place.calls(), place.is_proved(), len(place.rooms())), (wanted, False, 1 if crate == "high" else 0))
    same((place.prove().returncode, place.calls(), place.rooms()), (0, CHECKED, []))


def no_toolchain(place):
    env = {"PATH": "/usr/bin:/bin"}
    for words in ([], ["--prove"]):
        ran = place.run(*words, env=env) if words else place.example(env=env)
        same((ran.returncode, ran.stdout), (70, ""))
        assert "the command rt isn't on the PATH" in ran.stderr, ran.stderr
    place.prove()
    ran = place.example(env=env)
    same((ran.returncode, ran.stdout, ran.stderr), (0, "act a;\n", ""))
    place.write("crates/low/src/lib.rt", "changed\n")
    same(place.example(env=env).returncode, 70)
    place.example()
    ran = place.example(env=env)
    same((ran.returncode, ran.stdout, ran.stderr), (0, "act a;\n", f"{UNPROVED}\n"))


def no_path(place):
    """Where no PATH is set, the toolchain isn't one that bash finds in folders of its own."""
    bare = lambda *words: subprocess.run(["env", "-i", place.launcher, *words], capture_output=True, text=True, timeout=60)
    file = str(place.top / "examples/two_steps.mcrl2")
    ran = bare("linearise", file)
    same((ran.returncode, ran.stdout), (70, ""))
    assert "no PATH is set" in ran.stderr, ran.stderr
    assert "no PATH is set" in bare("--version").stdout
    place.prove()
    ran = bare("linearise", file)
    same((ran.returncode, ran.stdout, ran.stderr), (0, "act a;\n", ""))


def not_the_example(place):
    """What doesn't do the example is no program."""
    (place.kit / "program").write_text("#!/bin/sh\nexit 1\n")
    same(place.prove().returncode, 70)
    assert not place.is_proved()


def no_room(place):
    """Where nothing can be written: a file stands in the way, since root may write anywhere."""
    (place.top / "out").write_text("")
    same((place.prove().returncode, place.calls()), (70, []))
    same(place.example().returncode, 0)
    for words in (["--prove"], ["linearise", str(place.top / "examples/two_steps.mcrl2")]):
        ran = place.run(*words, env={"TMPDIR": str(place.folder / "none")})
        same((ran.returncode, ran.stdout), (70, ""))


def interrupted(place):
    for words, call in ((["--prove"], "ci high"), (["linearise", "x"], "try mcrl2lin")):
        for number in (signal.SIGINT, signal.SIGTERM, signal.SIGHUP, signal.SIGQUIT):
            no_core = lambda: resource.setrlimit(resource.RLIMIT_CORE, (0, 0))
            child = place.start(*words, env={"RT_SLOW": "5"}, preexec_fn=no_core)
            place.await_call(call)
            begun = time.monotonic()
            child.send_signal(number)
            said, complained = child.communicate(timeout=30)
            # (bash ignores SIGQUIT, and then tells it by its status)
            same((child.returncode, said), (131 if number == signal.SIGQUIT else -number, ""))
            assert time.monotonic() - begun < 2, "it didn't end at once"
            same("interrupted" in complained.splitlines()[-1], words == ["--prove"])
            same((place.is_proved(), place.rooms()), (False, []))
            place.calls()
    # What was proved before the interrupt isn't proved again.
    same((place.prove().returncode, place.calls()), (0, PROVED[1:]))


def interrupted_on_terminal(place):
    main, side = pty.openpty()
    take = lambda: fcntl.ioctl(0, termios.TIOCSCTTY, 0)
    how = {"stdin": side, "stdout": side, "stderr": side, "start_new_session": True, "preexec_fn": take}
    child = place.start("--prove", env={"RT_SLOW": "30"}, **how)
    os.close(side)
    place.await_call("ci high")
    os.write(main, b"\x03")
    said = b""
    while select.select([main], [], [], 5)[0]:
        try:
            said += os.read(main, 4096)
        except OSError:
            break
    same(child.wait(timeout=5), -signal.SIGINT)
    assert b"interrupted" in said, said
    assert not place.is_proved()


def lost_reader(place):
    """Whoever read the error output of a proof went away, or the output of an answer."""
    child = place.start("--prove", env={"RT_SLOW": "1"})
    child.stderr.readline()
    child.stderr.close()
    child.stdout.read()
    same(child.wait(timeout=30), -signal.SIGPIPE)
    assert not place.is_proved()
    child = place.start("long", env={"RT_SLOW": "1"})
    child.stdout.close()
    child.stderr.read()
    same((child.wait(timeout=30), place.rooms()), (-signal.SIGPIPE, []))


def killed(place):
    """Killed outright: the toolchain goes on, and the next proof waits for it and takes what it proved."""
    child = place.start("--prove", env={"RT_HOLD": "1"})
    place.await_call("ci high")
    child.kill()
    child.communicate()
    assert not place.is_proved()
    (place.top / "out" / "unfinished").write_text("half a program")
    same(len(place.rooms()), 1)
    place.calls()
    ran = place.example()
    same((ran.returncode, ran.stdout), (0, "act a;\n"))
    assert "a proof is under way" in ran.stderr, ran.stderr
    child = place.start("--prove")
    same(child.stderr.readline(), "mcrl2lin: waiting for another start, which is proving the program\n")
    (place.kit / "go").touch()
    child.communicate(timeout=60)
    same((child.returncode, place.calls()), (0, [*TRIED, "ci mcrl2lin"]))
    same(((place.top / "out" / "unfinished").exists(), place.rooms()), (False, []))


def killed_on_terminal(place):
    """Killed outright on a terminal: nothing goes on writing to it."""
    main, side = pty.openpty()
    child = place.start("--prove", env={"RT_SLOW": "1"}, stdin=side, stdout=side, stderr=side)
    os.close(side)
    place.await_call("ci high")
    child.kill()
    child.wait()
    time.sleep(2.5)
    while select.select([main], [], [], 0)[0]:
        try:
            if not os.read(main, 4096):
                break
        except OSError:
            return
    assert not select.select([main], [], [], 1.5)[0], "it goes on writing"


def two_at_once(place):
    """Of two proofs one waits, and of the same sources only one is made. A start meanwhile answers without."""
    one = place.start("--prove", env={"RT_HOLD": "1"})
    place.await_call("ci high")
    other = place.start("--prove")
    same(other.stderr.readline(), "mcrl2lin: waiting for another start, which is proving the program\n")
    ran = place.example()
    same((ran.returncode, ran.stdout), (0, "act a;\n"))
    same(ran.stderr, BUILT.replace("this", "a proof is under way; this") + "\n")
    (place.kit / "go").touch()
    said = [it.communicate(timeout=60) for it in (one, other)]
    same([(it.returncode, out) for it, (out, _) in zip((one, other), said)], [(0, "")] * 2)
    same(said[1][1], "")
    same(sorted(place.calls()), sorted([*PROVED, *TRIED]))
    place.write("crates/low/src/lib.rt", "changed\n")
    many = [place.start("--prove", env={"RT_SLOW": "0.5"}) for _ in range(8)]
    same({(it.communicate(timeout=60)[0], it.returncode) for it in many}, {("", 0)})
    same(place.calls(), PROVED[:1])


def waits_for_a_failure(place):
    """A proof that waited for one that failed is made."""
    one = place.start("--prove", env={"RT_SLOW": "1", "RT_BROKEN": "high"})
    place.await_call("ci high")
    ran = place.prove()
    one.communicate()
    same((one.returncode, ran.returncode, place.calls()), (70, 0, [*PROVED[:2], *PROVED[1:]]))


def gate(place):
    """What the gate left is taken at once, where no source is younger than its run."""
    run_gate = lambda: subprocess.run(["rt", "ci"], cwd=place.top, env=place.env, check=True, capture_output=True)
    run_gate()
    same([*place.run("--version").stdout.splitlines()][2], "a start uses the proved program of these sources")
    assert not place.is_proved()
    place.calls()
    ran = place.example()
    same((ran.returncode, ran.stdout, ran.stderr, place.calls()), (0, "act a;\n", "", []))
    assert place.is_proved()
    # A source that was changed, also while the gate ran, makes it the program of others.
    changes = [
        lambda: place.write("crates/low/src/lib.rt", "changed\n"),
        lambda: (place.top / "crates/low/proofs/f").rename(place.top / "crates/low/proofs/g"),
        lambda: (place.top / "crates/high/specs/Lib.antt").unlink(),
        lambda: place.write("crates.txt", LISTED + "\n"),
        lambda: (place.kit / "KIT-ID").write_text("kit two\n"),
    ]
    for change in changes:
        shutil.rmtree(place.top / "out", ignore_errors=True)
        run_gate()
        time.sleep(0.05)
        change()
        place.calls()
        same((place.example().returncode, place.calls()), (0, TRIED))
    place.forget()
    shutil.rmtree(place.top / "out")
    child = subprocess.Popen(["rt", "ci"], cwd=place.top, env={**place.env, "RT_SLOW": "1"}, stdout=subprocess.DEVNULL)
    place.await_call("ci high")
    changes[0]()
    child.wait()
    place.calls()
    same((place.example().returncode, place.calls()), (0, TRIED))
    # A proof takes it too, and so does a start where its name can't be given.
    run_gate()
    place.calls()
    same((place.prove().returncode, place.is_proved(), place.calls()), (0, True, []))
    shutil.rmtree(place.top / "out")
    place.write("out", "")
    ran = place.example()
    same((ran.returncode, ran.stdout, ran.stderr, place.calls()), (0, "act a;\n", "", []))


def answers(place):
    """--help, -h and --version prove nothing, with a toolchain or without."""
    for env in ({}, {"PATH": "/usr/bin:/bin"}):
        for word in ("--help", "-h"):
            ran = place.run(word, env=env)
            same((ran.returncode, ran.stderr), (0, ""))
            for part in ("linearise", "Example", "--version", "--prove", "70"):
                assert part in ran.stdout, part
            assert max(map(len, ran.stdout.splitlines())) <= 80
        ran = place.run("--version", env=env)
        same((ran.returncode, ran.stderr), (0, ""))
        first, second, third = ran.stdout.splitlines()
        same(first, f"mcrl2lin {(TOP / 'VERSION').read_text().strip()}")
        same(second, f"kit one ({place.kit / 'bin/rt'})" if not env else "no toolchain: the command rt isn't on the PATH")
        assert third.startswith("no proved program of these sources"), third
    same((place.calls(), (place.top / "out").exists()), ([], False))
    same(place.run("--help", "more").returncode, 2)
    same(place.calls(), TRIED)
    place.prove()
    same(place.run("--version").stdout.splitlines()[2], "a start uses the proved program of these sources")


def unreadable(place):
    """What can't be read, without a proved program and with one: the same status and the same lines behind the first."""
    for path, mode in ((place.folder, 0o755), (place.top, 0o755), (place.folder / "temporary files", 0o777), (place.kit, 0o777)):
        path.chmod(mode)
    (place.kit / "calls").touch(0o666)
    (place.kit / "calls").chmod(0o666)
    place.example()
    unreadable_files(place, [UNPROVED])
    second_readers(place, [UNPROVED])
    traces(place, [UNPROVED])
    place.prove()
    unreadable_files(place, [])
    second_readers(place, [])
    traces(place, [])


def unreadable_files(place, first):
    odd = place.folder / "a b\n\x1b[1m"
    cases = [place.folder / "nothing", place.folder, f"/proc/{os.getpid()}/mem", odd, place.folder / ("x" * 300), ""]
    loop = place.folder / "loop"
    if not first:
        loop.symlink_to("loop")
    for file in [*cases, loop]:
        ran = place.run("linearise", str(file))
        same((ran.returncode, ran.stdout, ran.stderr.splitlines()[:-1]), (3, "", [*first, "read fault"]))
        assert str(file) in ran.stderr or file == odd, ran.stderr
    assert "\x1b" not in place.run("linearise", str(odd)).stderr
    # FILE behind options, and with a dash in front.
    for words in (["--fuel", "3"], ["--fuel=3"], ["--fuel", "3", "--fuel=3", "--"]):
        for file in ("nothing", "-f") if words[-1] == "--" else ("nothing",):
            ran = place.run(*words, "linearise", file)
            lines = [*first, "read fault", f"mcrl2lin: can't read {file}"]
            same((words, ran.returncode, ran.stderr.splitlines()), (words, 3, lines))
    if not os.geteuid():
        shut = place.folder / "shut"
        shut.write_text("x")
        shut.chmod(0)
        ran = place.run("linearise", str(shut), user=65534)
        same((ran.returncode, ran.stderr.splitlines()), (3, [*first, "read fault", f"mcrl2lin: can't read {shut}"]))


def second_readers(place, first):
    """What can be read but by no second reader, and odd names."""
    both = '"$1" linearise <(echo piped); echo given | "$1" linearise /dev/stdin; "$1" replay <(echo one) --trace <(echo two)'
    ran = subprocess.run(["bash", "-c", both, "", place.launcher], env=place.env, capture_output=True, text=True)
    same((ran.stdout, ran.stderr.splitlines()), ("piped\ngiven\none\ntwo\n", first * 3))
    for name in ("empty", "-", "a=b", "a b\n\tc", "text "):
        (place.folder / name).write_text(name)
        ran = place.run("linearise", name, cwd=place.folder)
        same((name, ran.returncode, ran.stdout, ran.stderr.splitlines()), (name, 0, name, first))
    ran = place.run("--", "linearise", "-f", cwd=place.folder)
    same((ran.returncode, ran.stderr.splitlines()[-1]), (3, "mcrl2lin: can't read -f"))


def traces(place, first):
    """The trace, where FILE can be read."""
    empty = place.folder / "empty"
    empty.write_text("")
    for file, trace, said in ((empty, "nothing", "nothing"), ("none", "nothing", "none"), (empty, empty, None)):
        for words in (["--trace", str(trace)], [f"--trace={trace}"]):
            ran = place.run("replay", str(file), *words)
            lines = [*first, *(["read fault", f"mcrl2lin: can't read {said}"] if said else [])]
            same((words, ran.returncode, ran.stderr.splitlines()), (words, 3 if said else 0, lines))
    # Words that give no command stay such words.
    for words in (["-f"], ["-f", "-g"], ["--trace", "-x"], ["--trace"], []):
        ran = place.run("none", *words, cwd=place.folder)
        same((ran.returncode, ran.stderr.splitlines()), (2, [*first, "usage", str(len(words) + 1), "none", *words]))


def refused(place):
    """On a terminal, or where `--explain` is among the words, a refusal has a sentence, with the place in the file; elsewhere it has none."""
    place.prove()
    (place.folder / "a text").write_text("init $;\n")
    line = "refused 1 BadByte 5"
    said = "a text:1:6: no token begins with `$`: take it away, or put it into a comment (docs/REFUSALS.md, 1)"
    env = {"RT_SAYS": line}
    for words in (["check", "a text"], ["--fuel", "3", "check", "--", "a text"], ["check", "--", "a text", "--explain"]):
        ran = place.run(*words, env=env, cwd=place.folder)
        same((ran.returncode, ran.stdout, ran.stderr), (1, "", f"{line}\n"))
    for at in range(4):
        words = ["check", "--fuel=3", "a text"]
        ran = place.run(*words[:at], "--explain", *words[at:], env=env, cwd=place.folder)
        same((ran.returncode, ran.stdout, ran.stderr), (1, "", f"{line}\n{said}\n"))
    for words in (["check", "a text"], ["check", "--explain", "a text"]):
        same(on_terminal(place, 80, *words, env=env, status=1, cwd=place.folder), f"{line}\r\n{said}\r\n")
    # What isn't refused has no sentence, and the program doesn't see the word.
    ran = place.run("none", "--explain", "-x", "--", "--explain")
    same((ran.returncode, ran.stderr.splitlines()), (2, ["usage", "4", "none", "-x", "--", "--explain"]))
    # A text that is no file any more, names that no terminal should get, and no python3.
    ran = subprocess.run(["bash", "-c", '"$1" check --explain <(echo)', "", place.launcher], env={**place.env, **env}, capture_output=True, text=True)
    assert re.fullmatch(line + r"\n/dev/fd/\d+: no token begins with what stands here: .*\n", ran.stderr), ran.stderr
    (place.folder / "\x1b\n").write_text("init $;\n")
    ran = place.run("check", "--explain", "\x1b\n", env=env, cwd=place.folder)
    same(ran.stderr, f"{line}\n{said.replace('a text', chr(92) + 'x1b' + chr(92) + 'n')}\n")
    ran = place.run("check", "--explain", "a text", env={**env, "PATH": without_python(place)}, cwd=place.folder)
    same(ran.stderr, f"{line}\nmcrl2lin: see 1 in {place.top}/docs/REFUSALS.md\n")


def without_python(place):
    """A PATH with the tools of this one but for python3."""
    tools = place.folder / "tools"
    tools.mkdir()
    for folder in ("/bin", "/usr/bin", place.kit / "bin"):
        for tool in pathlib.Path(folder).iterdir():
            if not tool.name.startswith("python") and not (tools / tool.name).exists():
                (tools / tool.name).symlink_to(tool)
    return str(tools)


# Refusals of the files here: the program's line, the texts of the files that are read, and the file, the line and the column that are told of it.
PLACES = [
    ("1 BadByte 4", ["a\n  \xe9"], "0:2:3"),
    ("1 BadByte 0", ["\x01"], "0:1:1"),
    ("2 NumeralTooLarge 9", ["init\r\na(\t9"], "0:2:4"),
    ("3 OutOfProfile 7", ["init a(lambda"], "0:1:8"),
    ("4 Syntax 1", ["a; b act"], "0:1:1"),
    ("4 Syntax 2", ["sort A act a; b"], "0:1:12"),
    ("4 Syntax 3", ["sort A act a; % ;\n b"], "0:2:2"),
    ("5 TooDeep 2", ["sort A;\n  ; init a;"], "0:2:3"),
    ("6 NoInit", [""], "0:1:1"),
    ("6 NoInit", ["act a;\n%\n\n"], "0:2:2"),
    ("7 TwoInits 3", ["act a; init a; init\n\ta;"], "0:2:2 0:1:13"),
    ("8 UnknownSort 2 D", ["act a; b';\n act' : D"], "0:1:8"),
    ("8 UnknownSort 3 D", ["act a; 1b; actD: D"], "0:1:12"),
    ("9 SortCycle B C", ["sort A, D; act B; sort C = B; B = C;"], "0:1:31"),
    ("10 Duplicate 1 3", ["act a; b;\na; init a;"], "0:2:1 0:1:5"),
    ("10 Duplicate 2 2", ["act a; b, b;"], "0:1:8"),
    ("11 EmptySort B", ["sort A, B; cons b: B -> B;"], "0:1:9"),
    ("12 UnknownName 1 X", ["init X;"], "0:1:6"),
    ("13 Untyped 1", ["init X;"], "0:1:6"),
    ("14 FreeVariable 1 X", ["eqn f = X;"], "0:1:5"),
    ("15 VariableLeft 1", ["eqn X = f;"], "0:1:5"),
    ("16 CommShape 1", ["init comm({}, X);"], "0:1:6"),
    ("17 RenameTwice 1 X", ["init X;"], "0:1:6"),
    ("18 ParallelRecursion Y X", ["proc X(Y: Nat) = Y(Y); Y(Y: Nat) = X(Y) || X(Y);"], "0:1:24"),
    ("19 ParallelUnderSequential 1", ["init X;"], "0:1:6"),
    ("20 Unguarded X", ["map X: Nat; proc\nX = X;"], "0:2:1"),
    ("21 NotTail 2 3", ["act a;\ninit X;"], "0:2:6"),
    ("23 TerminateDeclared 1", ["act\nTerminate;"], "0:2:1"),
    ("27 HasSums 4", ["act a;\ninit X;", "", ""], "0:2:6"),
    ("0 TooLong", ["a\n" * 8388608 + "a"], "0:8388609:1"),
    ("22 BadTrace 3", ["init X;", "a\n\n  b\n"], "1:3:3"),
    ("0 TooLong", ["init X;", "a" * 16777217], "1:1:16777217"),
    ("24 BadTerm", ["init X;", "\t x"], "1:1:3"),
    ("25 BadAut 2", ["init X;", "des (0,1,1)\n", ""], "1:2:1"),
    ("26 BadStates 1", ["init X;", "", " \r\n"], "2:1:1"),
    ("28 BadChoice 2", ["init X;", "1\n 01"], "1:2:2"),
    ("12 UnknownName 7 X", ["init X;"], "0"),
]
# The words by which a task names the files after the first one.
NAMED = {22: ["replay", "--trace"], 24: ["invariant", "--invariant"], 25: ["autcheck", "--aut", "--states"], 28: ["steps", "--after"]}


def places(place):
    """The places that refusals are told for, and that each number has a sentence of its own."""
    place.prove()
    found = {}
    for line, texts, wanted in PLACES:
        number = int(line.split()[0])
        task, *options = NAMED.get({0: 22, 26: 25, 27: 25}.get(number, number), ["check"])
        for at, text in enumerate(texts):
            (place.folder / f"file {at}").write_bytes(text.encode("latin-1"))
        words = [it for at, option in enumerate(options[: len(texts) - 1], 1) for it in (option, f"file {at}")]
        ran = place.run(task, *words, "file 0", "--explain", env={"RT_SAYS": f"refused {line}"}, cwd=place.folder)
        first, *rows = ran.stderr.splitlines()
        same((ran.returncode, first), (1, f"refused {line}"))
        told = [it.partition(": ") for it in rows]
        same((line, [it[0] for it in told]), (line, [f"file {it}" for it in wanted.split()]))
        found.setdefault(number, told[0][2])
        assert told[0][2].endswith(f" (docs/REFUSALS.md, {number})") and "{" not in told[0][2].replace("{}", ""), told
    same((sorted(found), len({*found.values()})), ([*range(29)], 29))


def refused_examples(place):
    """Each text of examples/refused has a line, a column and a sentence."""
    place.prove()
    for file in sorted((TOP / "examples" / "refused").glob("*.err")):
        text, line = file.with_suffix(".mcrl2"), file.read_text().strip()
        ran = place.run("linearise", str(text), "--explain", env={"RT_SAYS": line})
        rows = ran.stderr.splitlines()
        same((ran.returncode, rows[0]), (1, line))
        assert re.fullmatch(re.escape(str(text)) + r":1:\d+: \S+ .* \(docs/REFUSALS.md, \d+\)", rows[1]), rows


# A linear process for an answer of `invariant` in front of it.
JUDGED = """\
% unproved {0}
act a;
  proc_1: Nat;
proc P(n: Nat, b: Bool) = a . P()
  + sum m: Nat . (n == m) -> proc_1(m) . P(n = m);
init P(x_init + 1, true);
"""
# Answers of `invariant` for it: the place and the part, the condition, and the line, the column and the text that are told of the part, if it has any.
PARTS = [
    ("2 1", "b", "1:1", "b"),
    ("1 2", "b&&b && n>1", "1:4", "b"),
    ("0 3", "b && b && n<=1 % && b\n", "1:11", "n<=1"),
    ("2 2", "% b\n(b) && % && b\n\t((n ==\n 2 % )\n))", "3:4", "n == 2"),
    ("2 3", "((b && (n < 1 && n > 2)) && !(b && b))", "1:18", "n > 2"),
    ("2 4", "((b && (n < 1 && n > 2)) && !(b && b))", "1:29", "!(b && b)"),
    ("2 1", "b && b || b", "1:1", "b && b || b"),
    ("2 1", "(b => b && b)", "1:2", "b => b && b"),
    ("2 2", "(b || b) && f(b && b)", "1:13", "f(b && b)"),
    ("2 2", "[b && b] == [] && (b && b) == b", "1:19", "(b && b) == b"),
    ("1 1001", "(" * 1000 + "n" + " && b)" * 1000, "1:7000", "b"),
    ("1 2", "b", "", ""),
    ("1 1001", "b && (" * 1000 + "n" + ")" * 1000, "1:6001", "n"),
    ("1 1", "b == \xe9\x1b" + "b" * 1000, "1:1", "b == \ufffd\\x1b" + "b" * 993 + " .."),
]
# What is told of its places.
PLACED = [
    "the process that `linearise` prints starts with `P(x_init + 1, true)`",
    "summand 1 of what `linearise` prints is `a . P()`",
    "summand 2 of what `linearise` prints is `sum m: Nat . (n == m) -> proc_1(m) . P(n = m)`",
]


def unproved_parts(place):
    """The parts and the summands that are told where an invariant isn't proved."""
    place.prove()
    for answer, condition, where, part in PARTS:
        at, number = answer.split()
        (place.folder / "text").write_text(JUDGED.format(answer))
        (place.folder / "part").write_bytes(condition.encode("latin-1"))
        ran = place.run("invariant", "text", "--invariant", "part", "--explain", cwd=place.folder)
        same((answer, ran.returncode, ran.stdout), (answer, 6, f"unproved {answer}\n"))
        first, second = ran.stderr.splitlines()
        named = f"part:{where}: part {number}, `{part}`," if where else f"part: part {number}"
        assert first.startswith(f"{named} isn't proved ") and first.endswith(" (docs/invariants.md)"), (named, first)
        same((f"after summand {at}:" in first, second), (at != "0", f"text: {PLACED[int(at)]}"))


def unproved_invariants(place):
    """On a terminal, or with `--explain`, they are told, by a proved program and without one; elsewhere there is the answer alone."""
    (place.folder / "a text").write_text(JUDGED.format("2 1"))
    (place.folder / "part").write_text("b")
    words, how = ["invariant", "a text", "--invariant=part"], {"cwd": place.folder}
    place.example()
    for is_proved in (False, True):
        if is_proved:
            place.prove()
        lines = [] if is_proved else [UNPROVED]
        ran = place.run(*words, **how)
        same((ran.returncode, ran.stdout, ran.stderr.splitlines()), (6, "unproved 2 1\n", lines))
        ran = place.run(*words, "--explain", **how)
        said = ran.stderr.splitlines()
        same((ran.returncode, ran.stdout, said[:-2]), (6, "unproved 2 1\n", lines))
        same([it.partition(": ")[0] for it in said[-2:]], ["part:1:1", "a text"])
        same(on_terminal(place, 80, *words, env={}, status=6, **how), "\r\n".join([*lines, "unproved 2 1", *said[-2:], ""]))
        # Files that are none any more.
        ran = told_of_pipes(place, '"$1" invariant <(cat "a text") --explain --invariant part')
        same(ran.stderr.splitlines(), said[:-1])
        ran = told_of_pipes(place, '"$1" invariant "a text" --explain --invariant <(cat part)')
        assert re.fullmatch(r"/dev/fd/\d+: part 1 isn't proved to hold after summand 2: .*", ran.stderr.splitlines()[-2]), ran.stderr
        same(ran.stderr.splitlines()[-1], said[-1])
    ran = place.run(*words, "--explain", env={"PATH": without_python(place)}, **how)
    same((ran.returncode, ran.stdout, ran.stderr), (6, "unproved 2 1\n", ""))


def explained_invariants(place):
    """With `--explain` the answers of `invariant` are what they are without it, whatever becomes of the output."""
    (place.folder / "holds").write_text("init P;\n" * 30_000 + "\n")
    (place.folder / "text").write_text(JUDGED.format("2 1"))
    place.example()
    for is_proved in (False, True):
        if is_proved:
            place.prove()
        lines = [] if is_proved else [UNPROVED]
        ran = place.run("invariant", "holds", "--explain", cwd=place.folder)
        same((ran.returncode, ran.stdout, ran.stderr.splitlines()), (0, "init P;\n" * 30_000 + "\n", lines))
        ran = place.run("invariant", "none", "--explain", cwd=place.folder)
        same((ran.returncode, ran.stdout, ran.stderr.splitlines()[-1]), (3, "", "mcrl2lin: can't read none"))
        for file in ("holds", "text"):
            reader, writer = os.pipe()
            os.close(reader)
            for output, status, said in ((os.open("/dev/full", os.O_WRONLY), 4, ["write fault"]), (writer, -signal.SIGPIPE, [])):
                ran = place.run("invariant", file, "--explain", cwd=place.folder, capture_output=False, stdout=output, stderr=subprocess.PIPE)
                os.close(output)
                same((file, ran.returncode, ran.stderr.splitlines()), (file, status, [*lines, *said]))


def told_of_pipes(place, command):
    """What a start says that bash gives its files."""
    return subprocess.run(["bash", "-c", command, "", place.launcher], env=place.env, cwd=place.folder, capture_output=True, text=True, check=False)


# A linear process, with what the program of these tries shows of it.
LED = """\
% after : state P(1, [d1, d2], f(a, [b]))/1 read(d1)/2 a|b(1, 2)/3 b/undecided 3 stuck/undecided 1 spent/cut 2/cut 3/moves 3, undecided 2, cut 2
% at P(1, [d1, d2], f(a, [b])): 1 read(d1)|@1/2 a|b(1, 2)|@2/3 b|@2/moves 3, undecided 2, cut 2
% after 1: state P(2, [d1, d2], f(a, []))/1 tau/moves 1, undecided 0, cut 0
% at P(2, [d1, d2], f(a, [])): 1 @3/moves 1, undecided 0, cut 0
% after 1 1: state P(3, [d1, d2], f(a, []))/1 tau/moves 1, undecided 0, cut 0
% at P(3, [d1, d2], f(a, [])): 1 b|@2/moves 1, undecided 0, cut 0
% after 1 1 1: ended/moves 0, undecided 0, cut 0
% after 2: fault
% after 3: slow
act read: D;
proc P(s: Pos, l: List(D), t: T) = sum d: D, k: List(D) . (s == 1) -> read(d . k) . P(s = 2)
  + a|b(1, 2) . P()
  + ((s == 2) || (l . s == d1)) -> tau . P(t = f(a, l . s));
init P(1, [d1, d2], f(a, [b]));
"""
# What is seen at its start, and which summands leave something open there; after the moves 1, 1 1 and 1 1 1; and back at the start.
START = "step 0\n    s = 1\n    l = [d1, d2]\n    t = f(a, [b])\nmoves\n  1 read(d1)\n  2 a|b(1, 2)\n  3 b\n"
OPEN = """\
undecided: summand 3, stuck (the equations make neither true nor false of its condition)
undecided: summand 1, spent (its condition takes more uses of equations than `--fuel` has)
cut: summands 2, 3 (a sum has more values than `--bound` tries)
"""
SECOND = "step 1: read(d1)\n  * s = 2\n    l = [d1, d2]\n  * t = f(a, [])\nmoves\n  1 tau\n"
THIRD = "step 2: tau\n  * s = 3\n    l = [d1, d2]\n    t = f(a, [])\nmoves\n  1 tau\n"
ENDED = "step 3: tau\nno moves: the process has ended\n"
BACK = START.replace("    s", "  * s").replace("    t", "  * t") + OPEN
# What is typed at the start, and what answers it.
TYPED = [
    ("u", "this is the start: there is no step to take back\n"),
    ("t", "no step is made yet\n"),
    ("4", "there is no move 4: the last one is 3\n"),
    ("01", "there is no move 01: the last one is 3\n"),
    ("9" * 3000, f"there is no move {'9' * 60}: the last one is 3\n"),
    ("1 1", "no such command: 1 1 (? lists them)\n"),
    ("x\x07\u00e9\u2028 y", "no such command: x\\x07\u00e9\\u2028 y (? lists them)\n"),
    ("r", "r takes a number from 1 to 1000000: r N\n"),
    ("r 0", "r takes a number from 1 to 1000000: r N\n"),
    ("w", "w takes the path of a file: w FILE\n"),
    ("2", "no step is made: mcrl2lin: the program ended without an answer (==1==ERROR: a fault)\n"),
    ("", START + OPEN),
    (
        "s",
        f"""\
  1 read(d1): summand 1
  2 a|b(1, 2): summand 2
  3 b: summand 2
{OPEN}summand 1: sum d: D, k: List(D) . (s == 1) -> read(d . k) . P(s = 2)
summand 2: a|b(1, 2) . P()
summand 3: ((s == 2) || (l . s == d1)) -> tau . P(t = f(a, l . s))
""",
    ),
    ("1", SECOND),
    ("s", "  1 tau: summand 3\nsummand 3: ((s == 2) || (l . s == d1)) -> tau . P(t = f(a, l . s))\n"),
    ("  1 ", THIRD),
    ("s", "the summands of these moves can't be told\n"),
    ("1", ENDED),
    ("1", "there is no move 1: there is none here, and u goes back\n"),
    ("r 5", ENDED.partition("\n")[2]),
    ("s", "no moves\n"),
    ("t", "step 1: read(d1) (move 1)\nstep 2: tau (move 1)\nstep 3: tau (move 1)\n"),
    ("u", THIRD.replace("    ", "  * ")),
    ("u", SECOND.replace("* t", "  t")),
    ("u", BACK),
    ("1", SECOND),
    ("r 7", "step 2: tau\nstep 3: tau\nno moves: the process has ended\n"),
]


def led(place):
    """A session through a pipe: each command and bad ones, of the proved program and without a proof."""
    text = place.folder / "a text"
    text.write_text(LED)
    given = "".join(f"{word}\n" for word, _ in TYPED)
    wanted = START + OPEN + "".join(answer for _, answer in TYPED)
    for is_proved in (False, True):
        if is_proved:
            place.prove()
        first = "" if is_proved else f"{UNPROVED if place.unproved() else BUILT}\n"
        for words in (["simulate", "a text"], ["--fuel", "3", "simulate", "--bound=4", "--", "a text"]):
            ran = place.run(*words, given=given, cwd=place.folder)
            same((ran.returncode, ran.stderr, place.rooms()), (0, first, []))
            for found, line in zip(ran.stdout.splitlines(), wanted.splitlines()):
                same(found, line)
            same(ran.stdout, wanted)
            first = "" if is_proved else f"{UNPROVED}\n"


def session(place, given, *words, **how):
    """A session of the text of these tries through a pipe."""
    (place.folder / "a text").write_text(LED)
    return place.run("simulate", "a text", *words, given=given, **{"cwd": place.folder, **how})


def led_to_file(place):
    """The trace as a file, which is never written over unless that is asked for."""
    place.prove()
    file = place.folder / "a  trace"
    ran = session(place, "w a  trace\n1\nr 2\nw a  trace\nw! a  trace\nw .\nw no/where\nw \0\nu\nw \u00e9")
    said = [it for it in ran.stdout.splitlines() if "trace" in it or " is" in it or "write" in it or "wrote" in it]
    same(
        said,
        [
            "wrote a  trace, with 0 labels",
            "a  trace exists and stays as it is: w! FILE would write over it",
            "wrote a  trace, with 3 labels",
            ". exists and stays as it is: w! FILE would write over it",
            "can't write no/where: No such file or directory",
            "can't write \\x00: embedded null byte",
            "wrote \u00e9, with 2 labels",
        ],
    )
    same(file.read_text(), "read(d1) % move 1\ntau % move 1\ntau % move 1\n")
    same((place.folder / "\u00e9").read_text(), "read(d1) % move 1\ntau % move 1\n")
    same(sorted(it.name for it in place.folder.iterdir()), sorted(["a  trace", "a repository", "a text", "kit", "temporary files", "\u00e9"]))


def led_to_its_end(place):
    """Where a session ends, and where there is none."""
    place.prove()
    for given in ("", "q", "q\n1\n", " q \n1"):
        ran = session(place, given)
        same((given, ran.returncode, ran.stdout, ran.stderr), (given, 0, START + OPEN, ""))
    # What `?` lists.
    listed = [it.split("  ")[0] for it in session(place, "?\n").stdout.removeprefix(START + OPEN).splitlines()]
    same(listed[:-1], ["N", "u", "r N", "t", "w FILE", "w! FILE", "s", "?", "q"])
    # By a seed the same moves are picked.
    moves = "/".join(f"{it} a({it})" for it in range(1, 9))
    lines = [f"% after {it}: ended/moves 0, undecided 0, cut 0" for it in ("", *range(1, 9))]
    (place.folder / "text").write_text("\n".join([lines[0].replace("ended", f"state P/{moves}"), *lines[1:], "proc P = a(1);\ninit P;\n"]))
    runs = [place.run("simulate", "text", f"--seed={it}", given="r 1\n", cwd=place.folder).stdout for it in [*range(8), *range(8)]]
    same((runs[:8], len({*runs}) > 1), (runs[8:], True))
    # A text that can be read once.
    ran = subprocess.run(["bash", "-c", 'echo 1 | "$1" simulate <(cat "$2")', "", place.launcher, place.folder / "a text"], env=place.env, capture_output=True, text=True)
    same((ran.returncode, ran.stdout, ran.stderr), (0, START + OPEN + SECOND, ""))
    # What is no session is what the program says of `steps`.
    (place.folder / "text").write_text(f"% refused 12 UnknownName 2 X\n{LED}\n")
    for words, status, said in (
        (["simulate"], 2, ["usage", "1", "steps"]),
        (["simulate", "text", "more"], 2, ["usage", "3", "steps", "text", "more"]),
        (["simulate", "none"], 3, ["read fault", "mcrl2lin: can't read none"]),
        (["simulate", "text"], 1, ["refused 12 UnknownName 2 X"]),
        (["simulate", "text", "--after", "x"], 2, ["mcrl2lin: simulate reads its choices from standard input, and takes no --after"]),
    ):
        ran = place.run(*words, cwd=place.folder)
        same((words, ran.returncode, ran.stdout, ran.stderr.splitlines()), (words, status, "", said))
    ran = place.run("simulate", "text", "--explain", cwd=place.folder)
    first, said = ran.stderr.splitlines()
    same((ran.returncode, first, said.partition(": ")[0]), (1, "refused 12 UnknownName 2 X", f"text:{LED.count(chr(10)) - 2}:6"))
    ran = place.run("simulate", "text", env={"PATH": without_python(place)}, cwd=place.folder)
    same((ran.returncode, ran.stdout, ran.stderr), (70, "", "mcrl2lin: simulate needs the command python3, which isn't on the PATH\n"))
    # A program that fails at once, and output that takes nothing.
    (place.folder / "text").write_text(LED.replace("% after :", "% after : fault\n%"))
    ran = place.run("simulate", "text", cwd=place.folder)
    same((ran.returncode, ran.stdout, ran.stderr), (70, "", "mcrl2lin: the program ended without an answer (==1==ERROR: a fault)\n"))
    with open("/dev/full", "w", encoding="utf-8") as full:
        ran = session(place, "q\n", capture_output=False, stdout=full, stderr=subprocess.PIPE)
        same((ran.returncode, ran.stderr), (4, "write fault\n"))


def led_not_kept(place):
    """A session by a build that can't be kept, of which nothing is left."""
    place.write("out", "")
    ran = session(place, "1\n")
    same((ran.returncode, ran.stdout, ran.stderr, place.rooms()), (0, START + OPEN + SECOND, f"{BUILT}\n", []))
    ran = session(place, "2\n1\n")
    same((ran.returncode, ran.stdout.splitlines()[-7][:20], place.rooms()), (0, "no step is made: mcr", []))


class Terminal:
    """A session on a terminal of its own."""

    def __init__(self, place, *words):
        (place.folder / "a text").write_text(LED)
        self.main, self.side = pty.openpty()
        self.child = subprocess.Popen(
            ["setsid", "--ctty", "--wait", place.launcher, "simulate", *words],
            env=place.env,
            cwd=place.folder,
            stdin=self.side,
            stdout=self.side,
            stderr=self.side,
        )
        os.close(self.side)

    def read_to(self, end):
        """What it shows up to the end of some text."""
        said, until = b"", time.monotonic() + 20
        while not said.endswith(end.encode()):
            assert time.monotonic() < until and select.select([self.main], [], [], 20)[0], said
            said += os.read(self.main, 1)
        return said.decode().replace("\r\n", "\n").removesuffix(end)

    def type(self, text):
        os.write(self.main, text.encode())


def led_on_terminal(place):
    """The same on a terminal, where each command has a prompt, with the end of input and interrupts."""
    place.prove()
    shown = Terminal(place, "a text")
    same(shown.read_to("> "), START + OPEN)
    for word, answer in TYPED:
        if word.isprintable() and len(word) < 99:
            shown.type(f"{word}\n")
            same((word, shown.read_to("\n> ")), (word, f"{word}\n{answer}".removesuffix("\n")))
    shown.type("\x04")
    same((read_all(shown.main), shown.child.wait()), ("\r\n", 0))
    # An interrupt, of one who thinks and of one who waits for the program.
    for typed, said in (("", "^C\r\n"), ("3\n", "3\r\n^C\r\n")):
        shown = Terminal(place, "a text")
        shown.read_to("> ")
        shown.type(typed)
        if typed:
            time.sleep(1)
        shown.type("\x03")
        same((read_all(shown.main), shown.child.wait()), (said, 130))
    place.await_end()
    # The refused text has its place.
    (place.folder / "text").write_text(f"% refused 12 UnknownName 2 X\n{LED}")
    shown = Terminal(place, "text")
    said = read_all(shown.main).split("\r\n")
    same((said[0], said[1].partition(": ")[0], said[2:]), ("refused 12 UnknownName 2 X", f"text:{LED.count(chr(10)) - 2}:6", [""]))
    same(shown.child.wait(), 1)


def led_and_interrupted(place):
    """An interrupt of a session through a pipe, by the process alone, of each program."""
    (place.folder / "a text").write_text(LED)
    for is_proved in (False, True):
        if is_proved:
            place.prove()
        child = place.start("simulate", "a text", stdin=subprocess.PIPE, cwd=place.folder)
        child.stdin.write("1\nw kept\n")
        child.stdin.flush()
        while not child.stdout.readline().startswith("wrote"):
            assert child.poll() is None
        child.send_signal(signal.SIGINT)
        same((child.communicate(timeout=20)[0], child.returncode), ("", 130))
        same(((place.folder / "kept").read_text(), place.rooms(), place.processes()), ("read(d1) % move 1\n", [], []))
        (place.folder / "kept").unlink()


def no_answer(place):
    """What the unproved build can't do is a line that says so, and nothing on standard output."""
    for how, why in (("refused", "error[no-such-name]"), ("long", "past its limit"), ("killed", "was ended")):
        ran = place.example(env={"RT_TRY": how})
        same((how, ran.returncode, ran.stdout, place.rooms()), (how, 70, "", []))
        lines = ran.stderr.splitlines()
        same((len(lines), lines[0]), (2, BUILT))
        assert lines[1].startswith("mcrl2lin: without a proof there is no answer") and why in lines[1], lines
        same((place.unproved(), place.processes()), ([], []))
    for _ in range(2):
        ran = place.run("break", "it")
        why = "mcrl2lin: without a proof there is no answer (==1==ERROR: a fault); ./mcrl2lin --prove makes the proved program"
        same((ran.returncode, ran.stdout, ran.stderr.splitlines()[1:], place.rooms()), (70, "", [why], []))
    (place.kit / "program").write_text('#!/bin/sh\ncat "$2"\nexit 1\n')
    place.write("crates/low/src/lib.rt", "changed\n")
    ran = place.example()
    same((ran.returncode, ran.stdout, place.unproved(), place.rooms()), (70, "", [place.unproved()[0]], []))
    assert "doesn't do the example" in ran.stderr, ran.stderr


def dying_tools(place):
    """A tool that ends before its time while the sources are summed: no other sum is taken for theirs, and the program stays."""
    place.prove()
    place.calls()
    tools = place.folder / "tools"
    tools.mkdir()
    env = {"PATH": f"{tools}:{place.env['PATH']}"}
    for tool in ("cat", "find", "sort", "xargs", "sha256sum"):
        (tools / tool).write_text("#!/bin/sh\necho half\nkill -9 $$\n")
        (tools / tool).chmod(0o755)
        for words in (["linearise", str(place.top / "examples/two_steps.mcrl2")], ["--prove"]):
            ran = place.run(*words, env=env)
            same((tool, ran.returncode, ran.stdout, place.calls()), (tool, 70, "", []))
        (tools / tool).unlink()
    same((place.example(env=env).stderr, place.calls()), ("", []))


def limits(place):
    """Under a limit an answer is right, or there is none and the status says so."""
    limit = lambda what, soft, hard: {"preexec_fn": lambda: resource.setrlimit(what, (soft, hard))}
    # (bash has no say where it isn't even loaded)
    is_right = lambda ran: (ran.returncode, ran.stdout) in ((0, "act a;\n"), (70, "")) or "loading shared libraries" in ran.stderr
    for is_proved in (False, True):
        if is_proved:
            place.prove()
        ran = place.example(**limit(resource.RLIMIT_STACK, 64 << 10, resource.RLIM_INFINITY))
        same((ran.returncode, ran.stdout), (0, "act a;\n"))
        for number in range(3, 20):
            ran = place.example(**limit(resource.RLIMIT_NOFILE, number, number))
            assert is_right(ran), (number, ran)
        for size in range(4 << 20, 16 << 20, 1 << 19):
            ran = place.example(**limit(resource.RLIMIT_AS, size, size))
            assert is_right(ran), (size, ran)
        place.calls()
        with open(place.folder / "written", "w", encoding="utf-8") as out:
            ran = place.run("write", "x", capture_output=False, stdout=out, stderr=subprocess.PIPE, **limit(resource.RLIMIT_FSIZE, 0, 0))
        same(ran.returncode, 4 if is_proved else 70)


def lost_output(place):
    """Output that is closed, or takes nothing, on a terminal and off it."""
    close = lambda: os.close(1)
    for is_proved in (False, True):
        if is_proved:
            place.prove()
        first = [] if is_proved else [UNPROVED]
        place.example()
        with open("/dev/full", "w", encoding="utf-8") as full:
            for how in ({"preexec_fn": close, "stdout": None}, {"stdout": full}):
                ran = place.run("write", "x", **{"capture_output": False, "stderr": subprocess.PIPE, **how})
                same((ran.returncode, ran.stderr.splitlines()), (4, [*first, "write fault"]))
                main, side = pty.openpty()
                child = place.start("write", "x", **{"stderr": side, **how})
                os.close(side)
                said = [it.rpartition("\x1b[K")[2] for it in read_all(main).split("\r\n")]
                same((child.wait(), said), (4, [*first, "write fault", ""]))
                for word in ("--help", "--version"):
                    same(place.run(word, **{"capture_output": False, "stderr": subprocess.PIPE, **how}).returncode, 4)


def apart(place):
    """A hard link doesn't stand in the repository."""
    other = place.folder / "elsewhere"
    os.link(place.launcher, other)
    for words in (["--prove"], ["--version"], ["linearise", "x"]):
        ran = place.run(*words, launcher=str(other))
        same((ran.returncode, ran.stdout), (70, ""))
        assert "doesn't stand in its repository" in ran.stderr, ran.stderr


TRIES = [
    first_start,
    build_meanwhile,
    build_at_once,
    pipeline,
    prove,
    progress,
    terminal,
    terminal_without_width,
    answer_on_terminal,
    streams,
    process,
    stack,
    large_pages,
    links,
    sources,
    changed_meanwhile,
    broken,
    side_by_side,
    one_by_one,
    nothing_kept,
    broken_beside,
    interrupted_beside,
    without_names,
    shares,
    goes_on,
    begins_anew,
    broken_without_names,
    no_toolchain,
    no_path,
    not_the_example,
    no_room,
    interrupted,
    interrupted_on_terminal,
    lost_reader,
    killed,
    killed_on_terminal,
    two_at_once,
    waits_for_a_failure,
    gate,
    answers,
    unreadable,
    refused,
    places,
    refused_examples,
    unproved_parts,
    unproved_invariants,
    explained_invariants,
    led,
    led_to_file,
    led_to_its_end,
    led_not_kept,
    led_on_terminal,
    led_and_interrupted,
    no_answer,
    dying_tools,
    limits,
    lost_output,
    apart,
]


def main(names):
    failed = 0
    for it in TRIES:
        if names and it.__name__ not in names:
            continue
        with tempfile.TemporaryDirectory(prefix="launcher-") as folder:
            try:
                it(Place(folder))
                print(f"{it.__name__}: ok", flush=True)
            except (AssertionError, subprocess.TimeoutExpired) as error:
                failed += 1
                print(f"{it.__name__}: FAILED: {error}", flush=True)
    print(f"{len(names or TRIES) - failed} passed, {failed} failed")
    return 1 if failed else 0


if __name__ == "__main__":
    sys.exit(main(sys.argv[1:]))
