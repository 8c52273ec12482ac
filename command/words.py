"""The table of all commands. Usage, help, the completions, the manual page and what is looked at before a program runs are made from it.

A form is what follows a command: words in capitals stand for what is given, others for themselves, and `..` for more of the last one."""
import re
from typing import NamedTuple

from console import shown
from places import IS_REPOSITORY, NAME

RULES = ("cyclic", "client-server", "resource")
FAMILIES = {"forks": (2, 256), "chain": (1, 512), "mesh": (1, 22)}
GREATEST = 999_999


class Tool(NamedTuple):
    """A program of Python beside this folder."""
    file: str
    # whether it is given the program, as `--program PROGRAM`
    asks_program: bool
    # whether it is given all words, or those behind the first
    takes_first: bool


class Command(NamedTuple):
    word: str
    forms: tuple
    # who answers: the program, a tool, or a function of a module here, which is given the program and the words behind the first
    by: object
    does: str
    # whether it is one of the repository alone
    is_local: bool = False


PROGRAM = "program"
READER = Tool("reader/reader.py", asks_program=True, takes_first=True)
PORT = Tool("port/port.py", asks_program=False, takes_first=False)
# the words behind --json and --lines
FOR_MACHINES = ("COMMAND WORDS", "check RULE SCRIPT ..", "--any SCRIPT ..", "--explain RULE SCRIPT")

COMMANDS = (
    Command("check", ("RULE SCRIPT",), PROGRAM, "judges the network of the script's first deadlock assertion by a rule: cyclic, client-server or resource"),
    Command("show", ("SCRIPT",), PROGRAM, "prints the script again, one declaration a line, without comments, and with parentheses round each operand that is no atom"),
    Command("table", ("SCRIPT INDEX",), PROGRAM, "prints the normal form of one component: its nodes, their events and their minimal acceptances; components are counted from 0, "
            "from left to right"),
    Command("trial", ("FAMILY N",), PROGRAM, "judges a network of any size by the family's rule: forks (N from 2 to 256), chain (1 to 512), mesh (1 to 22)"),
    Command("run", ("SCRIPT SEED STEPS",), PROGRAM, "prints one run of the network, which shows what can happen and proves nothing: SEED (0 to 999999) chooses the steps, STEPS "
            "(0 to 999999) is their number"),
    Command("livelock", ("SCRIPT SET",), PROGRAM, "bounds the steps in a row that are silent or by an event of SET, a set that the script defines: whether those events can be hidden"),
    Command("conform", ("SCRIPT SPEC",), PROGRAM, "compares each component of a script with the one in its place in another script, its specification: where all conform and the "
            "specification is free of deadlock, so is the script"),
    Command("check", ("RULE SCRIPT SCRIPT ..",), "judging.check_several", "judges several scripts, with a line for each; the status is the greatest of theirs"),
    Command("--any", ("SCRIPT",), "judging.check_by_any", "checks by each of the three rules, with a line for each, and says where annotations that --annotate proposes would do; the status is 0 where one of them proves the "
            "network, else the greatest of the three"),
    Command("--prove-by", ("SPEC RULE SCRIPT",), "judging.prove_by", "`check RULE SPEC` and `conform SCRIPT SPEC` over one copy of both: where both end with 0, the network of SCRIPT is free of deadlock"),
    Command("--explain", ("RULE SCRIPT", "COMMAND WORDS", "SCRIPT"), READER, "the report of `check`, or of another command of the program with its words, then what breaks the rule in "
            "this script and by what, and what docs/ANSWERS.md says of it; with a script alone, all components and links"),
    Command("--draw", ("SCRIPT", "SCRIPT INDEX"), READER, "prints the components and links, or a component's table, for Graphviz: `dlcheck --draw SCRIPT | dot -Tsvg`"),
    Command("--page", ("RULE SCRIPT FILE.html",), READER, "writes the report, a picture of the network and a way to step through it as one page for a browser"),
    Command("--annotate", ("roles SCRIPT", "resource SCRIPT", "--fresh roles SCRIPT", "--fresh resource SCRIPT"), READER, "prints the script with annotations that are found from its "
            "components' tables; `check` judges the result. With --fresh as if the script had none of that kind"),
    Command("--proposals", ("SCRIPT",), READER, "prints a line for each rule that proves the script with the annotations that are proposed for it; the status is 0 where there is one, else 1"),
    Command("--alphabets", ("SCRIPT",), READER, "prints for each component the events that its text does, beside its alphabet; the status is 0 where all of these are equal, else 1"),
    Command("--port", ("SCRIPT",), PORT, "prints a script in dlcheck's language for one in CSPm as FDR reads it; `check` judges the result"),
    Command("--json", FOR_MACHINES, READER, "an object for each script: what the command behind it answers, for a machine"),
    Command("--lines", FOR_MACHINES, READER, "a line for each finding, FILE:LINE:COLUMN: MESSAGE, of what the command behind it answers"),
    Command("--version", ("",), "help.version", "the sum of the sources, and the kit that proved them"),
    Command("--help", ("",), "help.show", "prints all commands"),
    Command("--prove", ("",), "proving.prove", "proves and builds the program; later calls run it", is_local=True),
    Command("--install", ("DIR",), "installing.install", "the same, and puts the command into DIR, and what belongs to it under DIR/../lib and DIR/../share", is_local=True),
    Command("--uninstall", ("DIR",), "installing.uninstall", "takes away what was installed with the command in DIR"),
    Command("--test", ("",), "testing.test", "runs the tests over the program that is there; the status is 0 where all pass", is_local=True),
)
# what .ci/run says once the gate has passed and left its program; before it began, --version said this
GATE = Command("--proved-by-gate", ("VERSION",), "proving.note_gate", "", is_local=True)


def commands():
    """The commands that there are here."""
    return [command for command in COMMANDS if IS_REPOSITORY or not command.is_local]


def of_program():
    return [command for command in commands() if command.by == PROGRAM]


def number_of(word):
    """The number that the program reads in a word, or nothing."""
    return int(word) if re.fullmatch("0|[1-9][0-9]{0,5}", word) else None


def is_right_word(kind, word, before):
    if kind == "RULE":
        return word in RULES
    if kind == "FAMILY":
        return word in FAMILIES
    if kind == "N":
        number, (least, greatest) = number_of(word), FAMILIES[before]
        return number is not None and least <= number <= greatest
    if kind in ("INDEX", "SEED", "STEPS"):
        return number_of(word) is not None
    return kind == word if kind.islower() else True


def fits(form, given):
    """Whether these words are of a form."""
    if form == "COMMAND WORDS":
        return any(command.word == given[0] and fits(one, given[1:]) for command in of_program() for one in command.forms) if given else False
    kinds = form.split()
    if kinds[-1:] == [".."]:
        kinds = kinds[:-1] + kinds[-2:-1] * (len(given) - len(kinds) + 1)
    return len(kinds) == len(given) and all(is_right_word(kind, word, before) for kind, word, before in zip(kinds, given, ["", *given]))


def find(given):
    """The command that these words are, with its form, or nothing."""
    for command in (*commands(), *([GATE] if IS_REPOSITORY else [])):
        if given and command.word == given[0]:
            for form in command.forms:
                if fits(form, given[1:]):
                    return command, form
    return None


def scripts_in(form, given):
    """The scripts among the words of a command of this form."""
    if form == "COMMAND WORDS":
        return scripts_in(find(given[1:])[1], given[1:])
    return [word for kind, word in zip(form.split(), given[1:]) if kind in ("SCRIPT", "SPEC")]


def forms_of(of):
    return [f"{command.word} {form}".rstrip() for command in of for form in command.forms]


def program_usage():
    """The usage line that the program prints."""
    return "usage: dlcheck " + " | ".join(forms_of(of_program()))


def own_usage():
    """The forms of the commands around the program, in lines."""
    lines = [""]
    for form in forms_of([command for command in commands() if command.by != PROGRAM]):
        if len(lines[-1]) + len(form) > 110:
            lines.append("")
        lines[-1] += (" | " if lines[-1] else "") + form
    return "\n".join(f"       {NAME if at == 0 else '':{len(NAME)}} {line}" for at, line in enumerate(lines))


def wrong_words(given):
    """What is said of words that are no command of the command's own."""
    if not given:
        return f"{NAME} --help lists all commands"
    forms = [f"{command.word} {form}" for command in commands() if command.word == given[0] for form in command.forms]
    return f"{given[0]} is used so: {' | '.join(forms)}" if forms else f"unknown option {shown(given[0])}; {NAME} --help lists all commands"
