"""What the command says and tells, and how it ends.

A report goes to standard output; what the command itself has to say goes to standard error, a line each."""
import contextlib, os, signal, sys, time

# the command itself failed
FAILED = 70
# the report could not be written
NOT_WRITTEN = 4


class Fault(Exception):
    """The command itself fails, for this reason."""


class Ended(Exception):
    """The command ends with this status."""

    def __init__(self, status):
        super().__init__(status)
        self.status = status


class Stopped(BaseException):
    """The command was stopped by this signal."""

    def __init__(self, number):
        super().__init__(number)
        self.number = number


def shown(name):
    """A name as a line can have it: a sign that is not printed, or that turns the line round, stands there as a question mark."""
    return "".join(sign if sign.isprintable() else "?" for sign in name)


def say(text):
    """A line of the command itself. Where even that can't be written, nobody reads it."""
    with contextlib.suppress(OSError):
        write_all(2, f"dlcheck: {text}\n".encode(errors="replace"))


def tell(text):
    """A line of a report."""
    tell_bytes(f"{text}\n".encode(errors="replace"))


def tell_bytes(text):
    """A report as it is. One that can't be written ends the command as it ends the program."""
    try:
        write_all(1, text)
    except OSError:
        say("the report could not be written")
        raise Ended(NOT_WRITTEN) from None


def write_all(descriptor, rest):
    while rest:
        rest = rest[os.write(descriptor, rest):]


def stop(number, _frame):
    # what tidies up is not stopped in turn
    for other in SIGNALS:
        signal.signal(other, signal.SIG_IGN)
    raise Stopped(number)


SIGNALS = (signal.SIGINT, signal.SIGTERM, signal.SIGHUP)


def mind_signals():
    """Has a signal that ends the command tidy up first. One that is ignored, as that of the keyboard behind `&`, stays so."""
    for number in SIGNALS:
        if signal.getsignal(number) is not signal.SIG_IGN:
            signal.signal(number, stop)


def end_by(number):
    """Ends as that signal ends a program, so that the shell that called sees it."""
    signal.signal(number, signal.SIG_DFL)
    os.kill(os.getpid(), number)


def open_standard():
    """Opens what of the three standard files is closed, so that no other file takes its place: a report that has no place to go to can't be written."""
    for descriptor, name, way in ((0, "/dev/null", os.O_RDONLY), (1, "/dev/full", os.O_WRONLY), (2, "/dev/null", os.O_WRONLY)):
        try:
            os.fstat(descriptor)
        except OSError:
            # the lowest number that is free is this one
            os.set_inheritable(os.open(name, way), True)


class Progress:
    """A line on a terminal that tells what is done and for how long, written anew every second; elsewhere one line at the beginning."""

    def __init__(self, expected):
        self.began, self.last, self.is_shown = time.monotonic(), -1, False
        self.is_terminal = os.isatty(2)
        if not self.is_terminal:
            say(expected)

    def seconds(self):
        return int(time.monotonic() - self.began)

    def show(self, what):
        if self.is_terminal and self.seconds() != self.last:
            self.last, self.is_shown = self.seconds(), True
            with contextlib.suppress(OSError):
                write_all(2, f"\r\033[Kdlcheck: {what}: {self.last} s".encode())

    def clear(self):
        if self.is_shown:
            self.is_shown = False
            with contextlib.suppress(OSError):
                write_all(2, b"\r\033[K")
