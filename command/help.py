"""What the command tells of itself: all commands, and which program runs."""
import textwrap, time

import sources, stamps
from console import tell
from places import IS_REPOSITORY, NAME, PROVED_STAMP, TOP
from program import PROVEN, UNPROVED
from words import commands, own_usage, program_usage

WIDTH = 130
PAGES = """Status: 0 proved, shown or conforming, 1 not proved or stuck, 2 refused, 3 no command, 4 script or report failed, 5 memory ran out, 70 the command itself failed.
README.md is the way in; docs/LANGUAGE.md describes the language, docs/RULES.md which rule to take, docs/ANSWERS.md what an answer means;
examples/ has designs that are proved, and designs that are broken and mended."""


def text():
    described, last = [], None
    for command in commands():
        name = command.word if command.word != last else ""
        last = command.word
        described.append(textwrap.fill(command.does.replace("dlcheck --draw", f"{NAME} --draw").replace("`", ""), WIDTH, initial_indent=f"{name:12}", subsequent_indent=" " * 12))
    place = [] if IS_REPOSITORY else [f"They stand in {TOP}/share/doc/dlcheck; see also man dlcheck."]
    return "\n".join([program_usage(), own_usage(), "", *described, "", PAGES, *place])


def show(_):
    tell(text())


def version(program):
    program.settle()
    if program.state == PROVEN:
        stamp = stamps.read(PROVED_STAMP)
        tell(f"dlcheck {stamp.sources[:12]}, proved with {stamp.kit or 'no kit that is known'}")
    elif program.state == UNPROVED:
        tell(f"dlcheck {stamps.of_kept(program.path).sources[:12]}, unproved, built {when(program.path.stat().st_mtime)}")
    else:
        tell(f"dlcheck {sources.sources_sum()[:12]}, unproved, not built")


def when(second):
    """The hour of a time of today, else also the day."""
    then, now = time.localtime(second), time.localtime()
    return time.strftime("%H:%M" if then[:3] == now[:3] else "%Y-%m-%d %H:%M", then)
