"""The words of the program's commands and of the reader's own: one table, from which usage, and what is a script among them, are told."""

RULES = ("cyclic", "client-server", "resource")
# What follows a command of the program.
PROGRAM = {
    "check": "RULE SCRIPT", "run": "SCRIPT SEED STEPS", "livelock": "SCRIPT SET", "conform": "SCRIPT SPEC", "trial": "FAMILY N", "table": "SCRIPT INDEX", "show": "SCRIPT",
}
# Behind which words an answer is told to a machine.
MACHINE = ("check RULE SCRIPT ..", "--any SCRIPT ..", "--explain RULE SCRIPT", "COMMAND WORDS")
# What may follow a command of the reader.
READER = {
    "--explain": ("RULE SCRIPT", "SCRIPT", "COMMAND WORDS"), "--draw": ("SCRIPT INDEX", "SCRIPT"), "--page": ("RULE SCRIPT FILE.html",),
    "--annotate": ("roles SCRIPT", "resource SCRIPT", "--fresh roles SCRIPT", "--fresh resource SCRIPT"), "--proposals": ("SCRIPT",),
    "--alphabets": ("SCRIPT",), "--json": MACHINE, "--lines": MACHINE,
}


def is_of_program(words):
    """Whether these are as many words as a command of the program takes."""
    return words[:1] != [] and words[0] in PROGRAM and len(words) == 1 + len(PROGRAM[words[0]].split())


def script_places(words):
    """Where scripts stand among the words of a command of the program."""
    return [place for place, kind in enumerate(PROGRAM[words[0]].split(), 1) if kind in ("SCRIPT", "SPEC")]


def usage():
    forms = [f"{word} {form}" for word, own in READER.items() for form in own]
    return "\n".join([f"usage: {' | '.join(forms)}", f"COMMAND WORDS: {' | '.join(f'{word} {form}' for word, form in PROGRAM.items())}"])
