#!/usr/bin/env python3
"""Prints a script in dlcheck's language for one in the CSPm that FDR users write. It proves nothing: `check` judges what it prints.

Status 0: ported; 2: refused, with a sentence; 3: usage; 4: the script can't be read, or the port not be written; 70: a fault of this tool."""
import pathlib, re, sys

sys.dont_write_bytecode = True
sys.path.insert(0, str(pathlib.Path(__file__).resolve().parent))
from composing import Composer
from cspm_parser import Script
from cspm_steps import Processes
from cspm_tokens import Refused, bare
from declarations import script_text

LONGEST_FILE, DEEPEST = 1_048_576, 20_000
PORTED, REFUSED, USAGE, UNREAD, FAULT = 0, 2, 3, 4, 70


def ported(text):
    """The port of a script's first deadlock assertion, and the composer that made it."""
    script = Script(text)
    if not script.asserted:
        raise Refused("no assertion `:[deadlock free]` stands in the script")
    composer = Composer(Processes(script), bare(script.asserted[0].value))
    name = composer.top
    if not re.fullmatch(r"[A-Za-z][A-Za-z0-9_]*'*", name):
        name = composer.names.fresh("NETWORK")
        composer.lines.append(f"{name} = {composer.top}")
    composer.lines = without_unused(composer.lines, name)
    if len(script.asserted) > 1:
        composer.warnings.append(f"the first of {len(script.asserted)} deadlock assertions was ported")
    return script_text(composer) + f"assert {name} :[deadlock free]\n", composer


def without_unused(lines, name):
    """Without definitions that nobody uses: the alphabets of whole networks."""
    while True:
        used = {name}.union(*(re.findall(r"[A-Za-z][A-Za-z0-9_]*'*", line.partition(" = ")[2]) for line in lines))
        kept = [line for line in lines if line.partition(" = ")[0].partition("(")[0] in used]
        if kept == lines:
            return lines
        lines = kept


def told(line):
    print(f"dlcheck: {line}", file=sys.stderr)


def read(file):
    """The text of a script; an error where it is too long or no text."""
    with open(file, "rb") as stream:
        content = stream.read(LONGEST_FILE + 1)
    if len(content) > LONGEST_FILE:
        raise Refused(f"the script has more than {LONGEST_FILE} bytes")
    return content.decode(errors="replace")


def print_port(file):
    text, composer = ported(read(file))
    sys.stdout.write(text)
    sys.stdout.flush()
    for warning in composer.warnings:
        told(warning)
    return PORTED


def main(words):
    if len(words) != 1:
        print("usage: --port SCRIPT", file=sys.stderr)
        return USAGE
    try:
        return print_port(words[0])
    except Refused as fault:
        told(f"not ported: {fault}")
        return REFUSED
    except RecursionError:
        told("not ported: the script nests too deeply")
        return REFUSED
    except OSError as fault:
        told(f"{fault.filename or 'the port'}: {fault.strerror}")
        return UNREAD
    except Exception as fault:
        told(f"--port failed: {type(fault).__name__}: {fault}")
        return FAULT


if __name__ == "__main__":
    sys.setrecursionlimit(DEEPEST)
    sys.exit(main(sys.argv[1:]))
