"""What the reader prints: reports and what is told beside them on standard output, its own words on standard error. All texts are UTF-8, whatever the locale is."""
import os, sys

from texts import plain


class NotWritten(Exception):
    """Standard output is closed, or takes no more."""


def send(content):
    """Bytes, as they are, on standard output."""
    try:
        sys.stdout.buffer.write(content)
    except (OSError, ValueError, AttributeError) as fault:
        raise NotWritten from fault


def flush():
    try:
        sys.stdout.flush()
    except (OSError, ValueError, AttributeError) as fault:
        raise NotWritten from fault


def pass_on(report):
    """The report of the program, byte for byte, before what is told beside it is looked for."""
    send(report.sent)
    flush()


def give_up():
    """What is still to be written is lost, so that the end of the process doesn't try again."""
    try:
        os.dup2(os.open(os.devnull, os.O_WRONLY), sys.stdout.fileno())
    except (OSError, ValueError, AttributeError):
        pass


def say(*lines):
    """Lines of the reader's own, in which no sign is hidden."""
    send("".join(plain(line) + "\n" for line in lines).encode(errors="surrogateescape"))


def warn(*lines):
    """Lines on standard error; where that is closed they are lost."""
    try:
        sys.stderr.write("".join(plain(line) + "\n" for line in lines))
        sys.stderr.flush()
    except (OSError, ValueError, AttributeError):
        pass
