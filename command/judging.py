"""Several scripts, all rules, and a specification with what is held against it: a line for each report of the program."""
import contextlib, os, subprocess

from console import shown, tell
from words import READER, RULES

# A script has at most 1,048,576 bytes: one byte more is enough for the program to say that it is too long.
LONGEST = 1_048_577
MOST_LINES = 8


def in_line(status, report):
    """A report as one line."""
    head, *rest = report.decode(errors="replace").splitlines() or [""]
    if head == "deadlock-free":
        # that a rule was met needs no second word on which
        rest = rest[1:]
    if len(rest) > MOST_LINES:
        rest = [*rest[:MOST_LINES], "and more"]
    if status >= 128:
        return f"ended by signal {status - 128}"
    if status == 5:
        return "memory ran out"
    separator = ", " if status == 0 else ": "
    return head + (separator + ", ".join(rest) if rest else "")


class Judge:
    """Asks the program, and remembers the greatest status."""

    def __init__(self, program):
        self.program, self.statuses = program, []

    def ask(self, *words, held=()):
        status, report = self.program.run(list(words), subprocess.PIPE, held)
        self.statuses.append(status)
        return in_line(status, report)

    def greatest(self):
        return max(self.statuses)


@contextlib.contextmanager
def copied(script):
    """A script that is read more than once, as a copy in memory, so that all readings are of one text and a pipe is read once; where it can't be read, its name."""
    try:
        with open(script, "rb") as file:
            text = file.read(LONGEST)
        copy = os.memfd_create("script")
    except OSError:
        yield script, ()
        return
    with open(copy, "wb") as file:
        file.write(text)
        file.flush()
        yield f"/dev/fd/{copy}", (copy,)


def check_several(program, rule, *scripts):
    judge = Judge(program)
    for script in scripts:
        tell(f"{shown(script)}: {judge.ask('check', rule, script)}")
    return judge.greatest()


def check_by_any(program, script):
    judge = Judge(program)
    with copied(script) as (copy, held):
        for rule in RULES:
            tell(f"{rule}: {judge.ask('check', rule, copy, held=held)}")
        if judge.greatest() == 1 and 0 not in judge.statuses:
            # the script as it stands is not proved all the same
            for line in program.ask_tool(READER, ["--proposals", copy], held).splitlines():
                tell(shown(line))
    return 0 if 0 in judge.statuses else judge.greatest()


def prove_by(program, specification, rule, script):
    judge = Judge(program)
    with copied(specification) as (first, held_first), copied(script) as (second, held_second):
        tell(f"check {rule} {shown(specification)}: {judge.ask('check', rule, first, held=held_first)}")
        told = judge.ask("conform", second, first, held=held_first + held_second)
        tell(f"conform {shown(script)} {shown(specification)}: {told}")
    if judge.greatest() == 0:
        tell(f"Both hold, so the network of {shown(script)} is free of deadlock: at most {told.split()[-1]} silent steps of it follow one another.")
    else:
        tell(f"Not both hold, so nothing is proved of the network of {shown(script)}.")
    return judge.greatest()
