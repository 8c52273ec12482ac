"""`--test`: runs the tests over the program that is there, with a line for each."""
import os, signal, subprocess, threading, time
from concurrent.futures import FIRST_COMPLETED, ThreadPoolExecutor, wait
from typing import NamedTuple

import builder
from console import Fault, Progress, shown, tell
from places import TOP
from program import PROVEN

# KiB: what the proved program has to do with
PROVED_STACK = 2_560
# Seconds. On four processors that do nothing else all tests together take some minutes.
LONGEST = 1_800
# Each test uses several processors for a part of its time.
AT_ONCE = 2
MOST_LINES = 60


class Test(NamedTuple):
    what: str
    # from the top; a word in capitals stands for what Runs gives it
    command: str


# A further test is a line here. What is dear comes first.
TESTS = (
    Test("the command from outside", ".ci/wrapper PROGRAM"),
    Test("failing memory and devices", "bench/faults ALL PROGRAM"),
    Test("reports that are explained", "reader/test PROGRAM"),
    Test("annotations that are proposed", "reader/test_annotate PROGRAM"),
    Test("pages in a browser", "reader/test_page PROGRAM"),
    Test("scripts from FDR", "port/test PROGRAM"),
    Test("the worked scripts", "command/worked.py UNPROVED PROGRAM"),
    Test("scripts that are nested deeply", "bench/deep --stack STACK PROGRAM"),
    Test("the command's functions", "command/test PROGRAM"),
    Test("the scripts of the pages", "docs/run UNPROVED PROGRAM"),
    Test("the examples", "examples/run PROGRAM"),
    Test("the reading order of the theorem", "docs/cited --check"),
)


class Runs:
    """The tests that run, each in a session of its own, so that it can be ended with all that it started."""

    def __init__(self, program):
        is_proved = program.state == PROVEN
        # an unproved program is slow, takes more stack, and has an allocator of its own
        self.given = {"PROGRAM": str(program.path), "STACK": str(PROVED_STACK if is_proved else builder.STACK), "UNPROVED": "" if is_proved else "--unproved", "ALL": "--all" if is_proved else "--few"}
        self.running, self.lock, self.is_over = {}, threading.Lock(), False

    def run(self, test):
        """Whether the test passes, what it printed, and its seconds."""
        began = time.monotonic()
        words = [given for word in test.command.split() if (given := self.given.get(word, word))]
        words[0] = str(TOP / words[0])
        with self.lock:
            if self.is_over:
                return False, "", 0
            child = subprocess.Popen(words, cwd=TOP, stdin=subprocess.DEVNULL, stdout=subprocess.PIPE, stderr=subprocess.STDOUT, start_new_session=True)
            self.running[test.what] = child
        try:
            printed = child.communicate(timeout=LONGEST)[0].decode(errors="replace")
        except subprocess.TimeoutExpired:
            self.end_one(child)
            return False, f"no end within {LONGEST} seconds", LONGEST
        finally:
            self.running.pop(test.what, None)
        return child.returncode == 0, printed, time.monotonic() - began

    def end_one(self, child):
        os.killpg(child.pid, signal.SIGTERM)
        try:
            child.wait(5)
        except subprocess.TimeoutExpired:
            os.killpg(child.pid, signal.SIGKILL)

    def end(self):
        with self.lock:
            self.is_over = True
        for child in list(self.running.values()):
            if child.poll() is None:
                self.end_one(child)


def report(test, passes, printed, seconds):
    """A line for a test, with the last one that it printed; of one that fails all lines."""
    lines = printed.rstrip("\n").split("\n")
    tell(f"{'passed' if passes else 'FAILED'}: {test.what}, {seconds:.0f} s ({test.command.split()[0]}: {shown(lines[-1])})")
    if not passes:
        tell("".join(f"    {line}\n" for line in lines[-MOST_LINES:]).rstrip("\n"))


def test(program):
    """The status is 0 where all tests pass, else 1."""
    program.have()
    if not program.path:
        raise Fault("the program can't be had as a file, so it can't be tested")
    tell(f"The tests run over the {'proved' if program.state == PROVEN else 'unproved'} program, {program.path}.")
    runs, failed = Runs(program), 0
    progress = Progress(f"runs {len(TESTS)} tests, which takes some minutes")
    pool = ThreadPoolExecutor(AT_ONCE)
    try:
        left = {pool.submit(runs.run, one): one for one in TESTS}
        while left:
            done, _ = wait(left, timeout=1, return_when=FIRST_COMPLETED)
            progress.show(f"{len(left)} tests left; runs {', '.join(list(runs.running)[:AT_ONCE])}")
            for job in done:
                progress.clear()
                failed += not job.result()[0]
                report(left.pop(job), *job.result())
    finally:
        runs.end()
        pool.shutdown(wait=False, cancel_futures=True)
        progress.clear()
    tell(f"{len(TESTS) - failed} passed, {failed} failed")
    return 1 if failed else 0
