#!/usr/bin/env python3
"""Leads a linear process move by move: launcher/simulate.py explain|plain FILE COMMAND .. -- [OPTION ..]

FILE is the specification, COMMAND starts the program, and the options are the program's; `explain` asks for a sentence with a refusal.
The launcher ../mcrl2lin starts this as the task `simulate`, and docs/simulate.md says how it is used. Each line of standard input is a
command, as HELP lists them.

Each step is one call of the program, `steps FILE --after CHOICES`, where CHOICES has the numbers of all moves so far. So all that is
shown of a state is the program's, but for the names of the parameters, which stand in the text that `linearise` writes. FILE is read
once, so that a session keeps its text, and the program gets it as a file in memory. No file is written but by `w`.

The status is 0, that of the program where it has no first state to show, 70 where it has no answer at all, 4 where standard output takes
nothing, and 130 after an interrupt.
"""

import os
import random
import re
import signal
import subprocess
import sys

import refusals

HELP = """\
N        make the move that has the number N
u        go back one step
r N      make N moves, picked by chance
t        show the trace: the labels of the moves so far
w FILE   write the trace to a new file, as the task `replay` reads it
w! FILE  write it to FILE, whether that exists or not
s        show the summand that each move comes from
?        show these lines
q        leave, as the end of the input does
An empty line shows the state again."""
WHY_UNDECIDED = {
    "stuck": "the equations make neither true nor false of its condition",
    "spent": "its condition takes more uses of equations than `--fuel` has",
}


class NoAnswer(Exception):
    """The program's status and its line, where it has no answer."""

    def __init__(self, status, said):
        super().__init__(said)
        self.status, self.said = status, said


class LostOutput(Exception):
    """Standard output takes nothing."""


class Program:
    """The program over a text."""

    def __init__(self, command, options, text):
        self.command, self.options, self.text = command, options, in_memory(text)

    def linear_process(self):
        return LinearProcess(self.ask("linearise", self.text, self.options))

    def view_after(self, choices):
        """What can be seen after these moves."""
        with_choices = in_memory("".join(f"{it}\n" for it in choices).encode())
        try:
            return View(self.ask("steps", self.text, [f"--after={path_of(with_choices)}", *self.options], with_choices))
        finally:
            os.close(with_choices)

    def view_of(self, text):
        """What can be seen first of another text, by the same fuel and bound."""
        other = in_memory(text.encode("utf-8", "surrogateescape"))
        try:
            return View(self.ask("steps", other, chosen_options(self.options, ("--fuel", "--bound"))))
        finally:
            os.close(other)

    def ask(self, task, text, options, *files):
        """What the program writes."""
        words = [*self.command, task, path_of(text), *options]
        try:
            done = subprocess.run(words, stdin=subprocess.DEVNULL, capture_output=True, pass_fds=(text, *files), check=False)
        except OSError as fault:
            raise NoAnswer(70, f"mcrl2lin: can't start the program ({fault.strerror})") from fault
        said = done.stderr.decode("utf-8", "replace").splitlines()
        if done.returncode in (0, 6):
            return done.stdout.decode("utf-8", "surrogateescape")
        if done.returncode in range(1, 6) and said:
            raise NoAnswer(done.returncode, said[-1])
        why = next((it for it in said if "ERROR" in it), f"status {done.returncode}")
        raise NoAnswer(70, f"mcrl2lin: the program ended without an answer ({refusals.shown(why)})")


class View:
    """What the program shows of a state: the state, none where the process has ended, its moves, and the summands that leave it open."""

    def __init__(self, text):
        self.state, self.moves, self.undecided, self.cut = None, [], [], []
        for line in text.split("\n"):
            word, _, rest = line.partition(" ")
            if word == "state":
                self.state = rest
            elif word == "undecided":
                number, _, reason = rest.partition(" ")
                self.undecided.append((int(number), reason))
            elif word == "cut":
                self.cut.append(int(rest))
            elif word.isdigit():
                self.moves.append(rest)


class LinearProcess:
    """The text of a linear process: its declarations, its head with the parameters, and its summands."""

    def __init__(self, text):
        self.declarations, _, process = f"\n{text}".rpartition("\nproc ")
        self.head, _, rest = process.partition(" = ")
        body = rest.rpartition("\ninit ")[0].removesuffix(";")
        self.summands = [] if body == "delta" else body.split("\n  + ")
        self.parameters = [it.partition(":")[0] for it in parts(arguments(self.head))]

    def terms(self, state):
        """The terms of a state by their parameters."""
        if state is None:
            return {}
        terms = parts(arguments(state))
        return dict(zip(self.parameters, terms)) if len(terms) == len(self.parameters) else {"state": state}

    def marked(self, state):
        """The text of the process from a state on with one action more in each label, a mark and the number of the summand; and the mark."""
        mark = "summand_"
        while any(mark in it for it in (self.declarations, self.head, *self.summands)):
            mark += "_"
        marks = [f"{mark}{number}" for number in range(1, len(self.summands) + 1)]
        summands = [with_mark(*it) for it in zip(self.summands, marks)]
        lines = [self.declarations, f"act {', '.join(marks)};", f"proc {self.head} = " + "\n  + ".join(summands) + ";", f"init {state};\n"]
        return "\n".join(lines), mark


class Session:
    """A session: the choices so far with their labels, and what was seen after each."""

    def __init__(self, program, chance):
        self.program, self.chance = program, chance
        self.process = program.linear_process()
        self.choices, self.labels = [], []
        self.views = [program.view_after([])]
        self.last_shown, self.shown_before = None, None

    @property
    def view(self):
        return self.views[-1]

    def answer(self, line):
        """The lines that answer a command. A bad one changes nothing."""
        word, _, rest = line.strip().partition(" ")
        rest = rest.strip()
        commands = {"": self.show, "u": self.back, "t": self.trace, "s": self.show_summands, "?": HELP.splitlines}
        further = {"r": self.run, "w": self.write, "w!": self.write_over}
        try:
            if word in commands and not rest:
                yield from commands[word]()
            elif word in further:
                yield from further[word](rest)
            elif word.isdigit() and not rest:
                yield from self.choose(word)
            else:
                yield f"no such command: {refusals.shown(line.strip())[:60]} (? lists them)"
        except NoAnswer as it:
            yield f"no step is made: {it.said}"

    def choose(self, word):
        """Makes the move that has the number."""
        if not is_number(word, len(self.view.moves)):
            yield self.no_such_move(word)
            return
        self.take(int(word))
        yield from self.show()

    def no_such_move(self, word):
        many = len(self.view.moves)
        return f"there is no move {word[:60]}: " + (f"the last one is {many}" if many else "there is none here, and u goes back")

    def take(self, number):
        self.views.append(self.program.view_after([*self.choices, number]))
        self.labels.append(self.views[-2].moves[number - 1])
        self.choices.append(number)

    def back(self):
        """Takes the last move back."""
        if not self.choices:
            yield "this is the start: there is no step to take back"
            return
        for it in (self.views, self.labels, self.choices):
            it.pop()
        yield from self.show()

    def run(self, rest):
        """Makes so many moves by chance, as long as there are any."""
        if not is_number(rest, 1_000_000):
            yield "r takes a number from 1 to 1000000: r N"
            return
        for _ in range(int(rest)):
            if not self.view.moves:
                break
            self.take(self.chance.randint(1, len(self.view.moves)))
            yield self.heading()
        yield from self.state_lines()

    def show(self):
        """Where the session is, and what can be done there."""
        yield self.heading()
        yield from self.state_lines()

    def heading(self):
        return f"step {len(self.choices)}" + (f": {self.labels[-1]}" if self.labels else "")

    def state_lines(self):
        """The terms of the parameters, with a sign at each that is another one than in the state that was shown before, and the moves."""
        view = self.view
        if view is not self.last_shown:
            self.shown_before, self.last_shown = self.last_shown, view
        before = self.process.terms(self.shown_before.state) if self.shown_before else None
        for name, term in self.process.terms(view.state).items():
            is_other = before is not None and before.get(name) != term
            yield f"  {'*' if is_other else ' '} {name} = {term}"
        yield ("moves" if view.moves else "no moves") + (": the process has ended" if view.state is None else "")
        yield from (f"  {number} {label}" for number, label in enumerate(view.moves, 1))
        yield from self.open_lines()

    def open_lines(self):
        """What leaves it open whether there are further moves."""
        for summand, reason in self.view.undecided:
            yield f"undecided: summand {summand}, {reason} ({WHY_UNDECIDED.get(reason, 'there is no answer')})"
        if self.view.cut:
            numbers = ("summands " if self.view.cut[1:] else "summand ") + ", ".join(map(str, self.view.cut))
            yield f"cut: {numbers} (a sum has more values than `--bound` tries)"

    def trace(self):
        """The labels so far."""
        if not self.labels:
            yield "no step is made yet"
        for step, (label, choice) in enumerate(zip(self.labels, self.choices), 1):
            yield f"step {step}: {label} (move {choice})"

    def write(self, path):
        return self.write_as(path, "x")

    def write_over(self, path):
        return self.write_as(path, "w")

    def write_as(self, path, mode):
        """Writes the labels so far to a file, each with its choice as a comment."""
        if not path:
            yield "w takes the path of a file: w FILE"
            return
        lines = [f"{label} % move {choice}\n" for label, choice in zip(self.labels, self.choices)]
        try:
            with open(path, mode, encoding="utf-8", errors="surrogateescape") as file:
                file.writelines(lines)
        except FileExistsError:
            yield f"{refusals.shown(path)} exists and stays as it is: w! FILE would write over it"
        except (OSError, ValueError) as fault:
            yield f"can't write {refusals.shown(path)}: {getattr(fault, 'strerror', None) or fault}"
        else:
            yield f"wrote {refusals.shown(path)}, with {len(lines)} label{'' if len(lines) == 1 else 's'}"

    def show_summands(self):
        """The summand of each move, where the moves of the marked process tell it, and the texts of these and of what leaves something open."""
        numbers = self.summands_of_moves()
        if numbers is None:
            yield "the summands of these moves can't be told"
        if not self.view.moves:
            yield "no moves"
        for move, (label, summand) in enumerate(zip(self.view.moves, numbers or []), 1):
            yield f"  {move} {label}: summand {summand}"
        yield from self.open_lines()
        shown = {*(numbers or []), *(it for it, _ in self.view.undecided), *self.view.cut}
        for summand in sorted(shown & {*range(1, len(self.process.summands) + 1)}):
            yield f"summand {summand}: {self.process.summands[summand - 1]}"

    def summands_of_moves(self):
        """The number of each move's summand. None where the marked process hasn't just these moves."""
        if not self.view.moves:
            return []
        text, mark = self.process.marked(self.view.state)
        try:
            labels = self.program.view_of(text).moves
        except NoAnswer:
            return None
        found = [re.fullmatch(rf"(?:(.*)\|)?{mark}(\d+)", it) for it in labels]
        if not all(found) or [it[1] or "tau" for it in found] != self.view.moves:
            return None
        return [int(it[2]) for it in found]


def in_memory(content):
    """A file in memory with that content."""
    file = os.memfd_create("mcrl2lin")
    with open(file, "wb", closefd=False) as writer:
        writer.write(content)
    return file


def path_of(file):
    return f"/dev/fd/{file}"


def is_number(word, most):
    """Whether a word is a number from 1 up to that one, as the program reads numbers."""
    return bool(re.fullmatch(r"[1-9][0-9]{0,17}", word)) and int(word) <= most


def chosen_options(options, names):
    """The options that have one of these names, with their values."""
    given = iter(options)
    chosen = []
    for option in given:
        value = [] if "=" in option else [next(given, "")]
        if option.partition("=")[0] in names:
            chosen += [option, *value]
    return chosen


def seed_of(options):
    """The value of `--seed`, by which the picks are the same again, if it is given."""
    chosen = chosen_options(options, ("--seed",))
    return chosen[-1].removeprefix("--seed=") if chosen else None


def arguments(call):
    """What stands in the brackets of a head, a call or a state, if it has any."""
    return call.partition("(")[2].removesuffix(")")


def parts(text):
    """What stands between the commas that are in no bracket."""
    found, depth, begin = [], 0, 0
    for at, sign in enumerate(text):
        depth += (sign in "([{") - (sign in ")]}")
        if sign == "," and not depth:
            found.append(text[begin:at].strip())
            begin = at + 1
    return [*found, text[begin:].strip()] if text else []


def outside_brackets(text, sign, begin):
    """The first place of a sign that is in no bracket, from that place on, or the end."""
    depth = 0
    for at in range(begin, len(text)):
        if not depth and text.startswith(sign, at):
            return at
        depth += (text[at] in "([{") - (text[at] in ")]}")
    return len(text)


def with_mark(summand, mark):
    """A summand `sum x: S . (condition) -> label . call` with one action more in its label."""
    begin = summand.find(" . ") + len(" . ") if summand.startswith("sum ") else 0
    if summand.startswith("(", begin):
        begin = outside_brackets(summand, " -> ", begin) + len(" -> ")
    end = outside_brackets(summand, " . ", begin)
    label = summand[begin:end]
    return summand[:begin] + (mark if label == "tau" else f"{label}|{mark}") + summand[end:]


def tell(lines, end="\n"):
    """Writes lines to standard output."""
    try:
        for line in lines:
            sys.stdout.write(f"{line}{end}")
        sys.stdout.flush()
    except OSError as fault:
        raise LostOutput from fault


def next_line():
    """The next line of standard input, empty at its end. A terminal that is gone is one."""
    try:
        return sys.stdin.readline()
    except OSError:
        return ""


def talk(session, has_prompt):
    """Answers each line of standard input, until it ends or one is `q`."""
    tell(session.show())
    while True:
        if has_prompt:
            tell(["> "], end="")
        line = next_line()
        if has_prompt and not line:
            tell([""])
        if not line or line.strip() == "q":
            return
        tell(session.answer(line))


def say_why(fault, file, text, explains):
    """Says why there is no first state."""
    lines = refusals.explain(fault.said, [(file, text)]) if fault.status == 1 and explains else None
    sys.stderr.write("".join(f"{it}\n" for it in [fault.said, *(lines or [])]))


def lead(words):
    """Leads a session, and answers its status."""
    how, file, *command = words
    at = command.index("--")
    command, options = command[:at], command[at + 1 :]
    if chosen_options(options, ("--after",)):
        sys.stderr.write("mcrl2lin: simulate reads its choices from standard input, and takes no --after\n")
        return 2
    text = None
    try:
        text = read(file)
        session = Session(Program(command, options, text), random.Random(seed_of(options)))
    except NoAnswer as fault:
        say_why(fault, file, text, how == "explain")
        return fault.status
    talk(session, sys.stdin.isatty() and sys.stdout.isatty())
    return 0


def read(file):
    """The text of a file, up to a byte more than it may have."""
    try:
        with open(file, "rb") as reader:
            return reader.read(refusals.LIMIT + 1)
    except OSError as fault:
        raise NoAnswer(3, "read fault") from fault


def main(words):
    signal.signal(signal.SIGPIPE, signal.SIG_DFL)
    sys.stdin.reconfigure(encoding="utf-8", errors="surrogateescape")
    for stream in (sys.stdout, sys.stderr):
        stream.reconfigure(encoding="utf-8", errors="backslashreplace")
    try:
        return lead(words)
    except KeyboardInterrupt:
        if sys.stdout.isatty():
            tell([""])
        return 130
    except LostOutput:
        sys.stderr.write("write fault\n")
        sys.stderr.flush()
        # (what couldn't be written isn't tried again)
        os._exit(4)
    except Exception as fault:  # pylint: disable=broad-exception-caught
        # (the status of Python itself would be that of a refusal)
        sys.stderr.write(f"mcrl2lin: the session can't go on ({fault!r})\n")
        return 70


if __name__ == "__main__":
    sys.exit(main(sys.argv[1:]))
