#!/usr/bin/env python3
"""The command ./dlcheck, beside the program: `main.py STATE PROGRAM WORDS..`.

./dlcheck calls it where it doesn't run the program at once. STATE is what it found: `proved` or `unproved`, where PROGRAM is it, or `open`, where the file system alone
doesn't tell whether a program of these sources is there. It ends with the status of the program or of the reader, or with 70 where the command itself fails."""
import signal

if signal.getsignal(signal.SIGINT) is signal.default_int_handler:
    # no traceback where that comes before all is read
    signal.signal(signal.SIGINT, signal.SIG_DFL)
import contextlib, importlib, os, pathlib, sys

sys.dont_write_bytecode = True
sys.path.insert(0, str(pathlib.Path(__file__).resolve().parent))
import console

console.open_standard()
import words
from console import FAILED, NOT_WRITTEN, Ended, Fault, Stopped, say, tell
from program import NO_WORDS, Program
from words import PROGRAM, Tool


def answer(program, given):
    """Does what these words ask for; the status."""
    found = words.find(given)
    if not found:
        return no_command(given)
    command, form = found
    if command.by == PROGRAM:
        return program.run(given)[0]
    if isinstance(command.by, Tool):
        return program.run_tool(command.by, given, form)
    module, _, function = command.by.partition(".")
    return getattr(importlib.import_module(module), function)(program, *given[1:]) or 0


def no_command(given):
    """The program's usage line, as it prints it; to words of the command itself also their forms."""
    tell(words.program_usage())
    if not given or given[0].startswith("-"):
        say(words.wrong_words(given))
    return NO_WORDS


def main(state, path, *given):
    console.mind_signals()
    try:
        with contextlib.ExitStack() as stack:
            return answer(Program(state, pathlib.Path(path), stack), list(given))
    except Ended as end:
        return end.status
    except Fault as fault:
        say(str(fault))
    except BrokenPipeError:
        return NOT_WRITTEN
    except Stopped as stopped:
        console.end_by(stopped.number)
    except Exception as fault:
        if os.environ.get("DLCHECK_TRACES"):
            raise
        say(f"{type(fault).__name__}: {console.shown(str(fault))}")
    return FAILED


if __name__ == "__main__":
    status = main(*sys.argv[1:])
    # nothing is left to be written, and no fault of the end takes the status away
    os._exit(status)
