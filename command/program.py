"""The program that answers: the proved one, or the unproved one, which is built when it is first needed."""
import os, signal, subprocess, sys

import builder, sources, stamps
from console import Fault, Stopped, say, shown, tell_bytes
from places import HOME, IS_REPOSITORY, PROVED, PROVED_STAMP, TOP
from words import PROGRAM, find, program_usage, scripts_in

PROVEN, UNPROVED, OPEN = "proved", "unproved", "open"
NO_WORDS, NO_SCRIPT = 3, 4
# Set for the calls of a reader where the unproved program can't be had as a file, so that each of them does not try it again.
RUNS_SOURCES = "DLCHECK_RUNS_SOURCES"


class Program:
    """What ./dlcheck found: the proved program, the unproved one, or that this is open. What is made for this call alone goes when `stack` is closed."""

    def __init__(self, state, path, stack):
        self.state, self.path, self.stack = state, path, stack
        self.is_had = False

    def settle(self):
        """Decides by sums what the file system left open: it stays open where a program is still to be built."""
        if self.state != OPEN or self.is_had:
            return
        if stamps.is_of_these_sources(PROVED, PROVED_STAMP):
            self.state, self.path = PROVEN, PROVED
        elif not IS_REPOSITORY:
            raise Fault(f"the program is not where it was installed, or is not the one that was installed: {shown(str(PROVED))}")
        elif kept := builder.settled():
            self.state, self.path = UNPROVED, kept.program

    def have(self):
        """Has the program there, and says where it is unproved. Without a path the kit then runs the sources."""
        self.settle()
        if self.is_had:
            return
        self.is_had = True
        if self.state == OPEN:
            self.make()
        elif self.state == UNPROVED:
            say(stamps.of_kept(self.path).said)
            builder.allow_unproved()

    def make(self):
        if not sources.kit_command():
            raise Fault("the command rt of the Rattle kit is not on the PATH, and no program of these sources is here")
        builder.allow_unproved()
        self.state, self.path = UNPROVED, None
        if os.environ.get(RUNS_SOURCES):
            return
        try:
            self.path = builder.unproved_program(self.stack)
        except builder.NotBuilt as fault:
            os.environ[RUNS_SOURCES] = "yes"
            say(f"unproved: the program can't be kept ({fault}), so each call compiles the sources, in a minute or two")

    def told_without(self, words):
        """What the program answers to words that are none of its own, or where a script can't be read, as status and report; else nothing. That takes no program."""
        found = find(words)
        if not found or found[0].by != PROGRAM:
            return NO_WORDS, program_usage().encode() + b"\n"
        for kind, script in zip(("script", "specification"), scripts_in(found[1], words)):
            if lack := lack_of(script):
                say(f"{shown(script)}: {lack[1]}")
                return NO_SCRIPT, f"outside fault: {kind} {lack[0]}\n".encode()
        return None

    def run(self, words, into=None, held=()):
        """Runs the program for its own words; its status, and its report where `into` is subprocess.PIPE. `held` are open files among the words."""
        self.settle()
        if self.state == OPEN and (told := self.told_without(words)):
            if into is None:
                tell_bytes(told[1])
            return told
        self.have()
        if not self.path:
            return builder.run_sources(words, into, held)
        done = subprocess.run([self.path, *words], stdout=into, pass_fds=held)
        # a signal is told as a shell tells it
        return done.returncode if done.returncode >= 0 else 128 - done.returncode, done.stdout

    def for_tool(self, words, form):
        """The program as a tool asks it."""
        self.settle()
        if self.state == OPEN and any(map(lack_of, scripts_in(form, words))):
            # ./dlcheck tells that without a program
            return TOP / "dlcheck"
        self.have()
        return self.path or TOP / "dlcheck"

    def run_tool(self, tool, words, form):
        """Has a tool answer; its status."""
        asked = ["--program", self.for_tool(words, form)] if tool.asks_program else []
        return self.run_python(tool, [*asked, *words[0 if tool.takes_first else 1:]])[0]

    def ask_tool(self, tool, words, held):
        """What a tool prints to words over the program that was asked before; nothing where it fails. `held` are open files among the words."""
        status, printed = self.run_python(tool, ["--program", self.path or TOP / "dlcheck", *words], subprocess.PIPE, held)
        return printed.decode(errors="replace") if status in (0, 1) else ""

    def run_python(self, tool, words, into=None, held=()):
        """Runs a tool; its status, and what it prints where `into` is subprocess.PIPE."""
        child = subprocess.Popen([sys.executable, "-I", "-S", "-B", HOME / tool.file, *words], stdout=into, pass_fds=held)
        try:
            printed = child.communicate()[0]
        except Stopped as stopped:
            end_child(child, stopped.number)
            raise
        return child.returncode if child.returncode >= 0 else 128 - child.returncode, printed


def end_child(child, number):
    """Has a tool end by the signal that came here, and tidy up. One of the keyboard has come to it too."""
    for seconds, sent in ((1 if number == signal.SIGINT else 0, None), (5, number), (5, signal.SIGKILL)):
        if sent:
            child.send_signal(sent)
        try:
            child.wait(seconds)
            return
        except subprocess.TimeoutExpired:
            pass


def lack_of(script):
    """Why a script can't be read, as the program and as the system say it, or nothing. A pipe is not opened, since it is read once."""
    try:
        os.stat(os.fsencode(script))
        script.encode()
    except UnicodeEncodeError:
        return "not found", "its name is no text"
    except OSError as fault:
        return "not found" if isinstance(fault, (FileNotFoundError, NotADirectoryError)) else "not read", fault.strerror
    if os.path.isdir(script):
        return "not read", "it is a directory"
    return None if os.access(script, os.R_OK) else ("not read", "Permission denied")
