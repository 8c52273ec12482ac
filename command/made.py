#!/usr/bin/env python3
"""command/made.py [--check]: makes from the table of commands what stands in share/: the completions for bash, zsh and fish, and the manual page's list of commands.

With --check it writes nothing, names each file that is not as it would be made, and ends with 1 where there is one. Each completion (completion.bash, .zsh, .fish here) has the same forms,
and looks for those that the words so far are of; what it then completes hangs on the kind of the next word alone."""
import pathlib, re, sys

sys.dont_write_bytecode = True
sys.path.insert(0, str(pathlib.Path(__file__).resolve().parent))
from places import TOP
from words import COMMANDS, FAMILIES, PROGRAM, RULES, forms_of

HERE = pathlib.Path(__file__).resolve().parent
SHARE = TOP / "share"
HEAD = "# Completion for dlcheck in {}. Made by command/made.py from the table of commands, command/words.py: change that, and make it again."
MARKS = '.\\" begin: made by command/made.py\n', '.\\" end\n'


def expanded(form):
    """The forms that `COMMAND WORDS` stands for, or the form itself."""
    if form != "COMMAND WORDS":
        return [form]
    return forms_of([command for command in COMMANDS if command.by == PROGRAM])


def forms(is_local):
    """All forms of the commands of the repository alone, or of the others, each with its first word."""
    return [f"{command.word} {one}".rstrip() for command in COMMANDS if command.is_local == is_local for form in command.forms for one in expanded(form)]


def listed(is_local, joint="\n"):
    return joint.join(f"  '{form}'" for form in forms(is_local))


def completion(shell, **more):
    """The completion for a shell: the file beside this one, with what stands in the table in place of its words between two signs @."""
    joint = " \\\n" if shell == "fish" else "\n"
    said = {"HEAD": HEAD.format(shell), "FORMS": listed(False, joint), "LOCAL": listed(True, joint), "RULES": " ".join(RULES), "FAMILIES": " ".join(FAMILIES),
            "RULE_PATTERN": (" | " if shell == "bash" else "|").join(RULES), **more}
    return re.sub("@([A-Z_]+)@", lambda found: said[found[1]], (HERE / f"completion.{shell}").read_text())


def fish_completions():
    """In fish each word that may follow is told of by a line of its own."""
    scripts, pages = "'(__fish_complete_suffix .csp)'", "'(__fish_complete_suffix .html)'"
    kinds = {"RULE": f"'{' '.join(RULES)}'", "FAMILY": f"'{' '.join(FAMILIES)}'", "SCRIPT": scripts, "SPEC": scripts, "FILE.html": pages, "DIR": "'(__fish_complete_directories)'"}
    lines = [f"complete -c dlcheck -n '__dlcheck_wants {kind}' -a {what}" for kind, what in kinds.items()]
    said = {command.word: re.split("[;:]", command.does)[0].replace("`", "").replace("'", "\\'") for command in reversed(COMMANDS)}
    for word in sorted({kind for is_local in (False, True) for form in forms(is_local) for kind in form.split() if not re.match("[A-Z.]", kind)}):
        lines.append(f"complete -c dlcheck -n '__dlcheck_wants {word}' -a '{word}'" + (f" -d '{said[word]}'" if word in said else ""))
    return "\n".join(lines)


def of_roff(text):
    return text.replace("\\", "\\e").replace("-", "\\-")


def manual():
    """The manual page, with its list of commands between the marks."""
    text = (SHARE / "man/man1/dlcheck.1").read_text()
    lines = []
    for command in COMMANDS:
        lines.append(".TP")
        for at, form in enumerate(command.forms):
            words = " ".join(f"\\fI{of_roff(word)}\\fR" if re.match("[A-Z]", word) else of_roff(word) for word in form.split())
            lines += [".TQ"] * (at > 0) + [f"\\fB{of_roff(command.word)}\\fR {words}".rstrip()]
        lines.append(of_roff(re.sub("`([^`]*)`", r"\1", command.does)).replace("'", "\\(aq") + ("; in the repository alone" if command.is_local else "") + ".")
    before, _, rest = text.partition(MARKS[0])
    return before + MARKS[0] + "".join(f"{line}\n" for line in lines) + MARKS[1] + rest.partition(MARKS[1])[2]


MADE = {
    "bash-completion/completions/dlcheck": lambda: completion("bash"),
    "zsh/site-functions/_dlcheck": lambda: completion("zsh"),
    "fish/vendor_completions.d/dlcheck.fish": lambda: completion("fish", COMPLETIONS=fish_completions()),
    "man/man1/dlcheck.1": manual,
}


def main(words):
    others = [file for file, make in MADE.items() if not (SHARE / file).is_file() or (SHARE / file).read_text() != make()]
    if words == ["--check"]:
        for file in others:
            print(f"share/{file} is not what command/made.py makes")
        return 1 if others else 0
    for file in others:
        (SHARE / file).parent.mkdir(parents=True, exist_ok=True)
        (SHARE / file).write_text(MADE[file]())
    return 0


if __name__ == "__main__":
    sys.exit(main(sys.argv[1:]))
