#!/usr/bin/env python3
"""Reads what the program dlcheck reports, and tells beside it what stands elsewhere: the page on an answer, a line of the script, what components and links are.
It proves nothing. It asks the program, and passes its report and its status on as they are.

  --explain RULE SCRIPT, or a command's words   the report, then what the page says of it, and the components and links that it names
  --explain SCRIPT                              all components with their events, and all links
  --draw SCRIPT INDEX                           a component's table, for Graphviz
  --draw SCRIPT                                 the components and links, for Graphviz
  --page RULE SCRIPT FILE.html                  the same in one file for a browser, with pictures, the script and steps
  --annotate roles SCRIPT, or resource SCRIPT   the script with annotations and the sets that they need, as the components' tables suggest them
  --annotate --fresh roles SCRIPT, or resource  the same as if none of that kind were there
  --proposals SCRIPT                            a line for each rule that proves the script with the annotations that are proposed
  --alphabets SCRIPT                            for each component the events that its text does, beside its alphabet
  --json WORDS, or --lines WORDS                the answers of check, --any, --explain, run and so on for a machine: an object a script, or a line a finding"""
import pathlib, signal, sys, traceback

sys.dont_write_bytecode = True
sys.path.insert(0, str(pathlib.Path(__file__).resolve().parent))
import alphabets, annotate, draw, explain, findings, forms, outputs, page

# A word, and what it does: a function of the program and of the words behind it. It gives the status, or nothing where the words are none of its own.
COMMANDS = {
    "--explain": explain.command,
    "--draw": draw.command,
    "--page": page.command,
    "--annotate": annotate.command,
    "--proposals": annotate.proposals,
    "--alphabets": alphabets.command,
    "--json": findings.as_json,
    "--lines": findings.as_lines,
}
NO_COMMAND, NOT_WRITTEN, FAILED = 3, 4, 70
DEEPEST = 20_000


class Stopped(Exception):
    """A signal asks for the end."""


def main(words):
    """Does what the words ask for; the status. What fails here is raised as it is."""
    program = ["dlcheck"]
    while words[:1] == ["--program"] and len(words) > 1:
        program, words = [words[1]], words[2:]
    sys.setrecursionlimit(DEEPEST)
    status = COMMANDS[words[0]](program, words[1:]) if words[:1] and words[0] in COMMANDS else None
    if status is None:
        outputs.say(forms.usage())
        status = NO_COMMAND
    outputs.flush()
    return status


def guarded(words):
    """The same for a process: a fault of the reader's own is told in a line, and its status is none of the program's."""
    try:
        return main(words)
    except outputs.NotWritten:
        outputs.give_up()
        outputs.warn("dlcheck: the report could not be written")
        return NOT_WRITTEN
    except (KeyboardInterrupt, Stopped) as stop:
        return 128 + (signal.SIGTERM if isinstance(stop, Stopped) else signal.SIGINT)
    except OSError as fault:
        outputs.warn(f"dlcheck: {fault}")
    except Exception as fault:
        where = traceback.extract_tb(fault.__traceback__)[-1]
        said = " ".join(str(fault).split())[:200]
        outputs.warn(f"dlcheck: the reader of reports failed: {type(fault).__name__}{f', {said}' if said else ''} ({pathlib.Path(where.filename).name}, line {where.lineno})")
    return FAILED


def stop(number, frame):
    raise Stopped


if __name__ == "__main__":
    signal.signal(signal.SIGTERM, stop)
    sys.exit(guarded(sys.argv[1:]))
