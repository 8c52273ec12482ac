"""What is told beside a report: what the page says of it, and what it names of the script and the network. It proves nothing."""
import collections, pathlib, re

from comparing import about_outside, about_refusal
from constructs import MOST_CONSTRUCTS, constructs_of
from forms import RULES, is_of_program, script_places
from hidden import about_bound, about_hidden, about_no_order, about_no_set
from network import KINDS, NOT_FOLLOWED, Network
from orders import about_circle, about_ends, about_order, cause_of, way_of
from outputs import pass_on, say, warn
from pages import language_rows, row_head, section
from parts import about_links, about_part, about_stop
from patterns import about_mending, about_readings
from refusals import ABOUT as REFUSALS, about_components_differ, about_events_differ
from reports import ask, table_of, told_by
from roles import about_clients, about_roles, answers_of
from runs import about_run, about_tries
from texts import MOST_NAMED, TOP_LINE, indented, plain
from uses import about_resources, about_uses

# What is told of the answer with a number: a function of the network and of what the report tells; of two networks for the second.
ABOUT = {
    **REFUSALS, "21": about_stop, "23": about_order, "24": about_circle, "25": about_ends, "26": about_roles, "27": about_clients, "28": about_uses, "29": about_resources,
    "37": about_no_set, "38": about_bound, "39": about_no_order,
}
COMPARED = {"41": about_events_differ, "42": about_components_differ, "43": about_outside, "44": about_refusal}
# Answers that a network gives which another rule fits: then it is told how it reads as clients and servers.
UNREAD = ("23", "25", "26", "28")
# The word by which the page's section heads the part that is meant.
KEYS = {"23": way_of, "25": cause_of, "27": answers_of}


def command(program, words):
    """`--explain` with RULE SCRIPT, the words of a command, or a script alone."""
    if len(words) == 1:
        return explain_number(words[0]) if re.fullmatch(r"\d{1,2}", words[0]) and not pathlib.Path(words[0]).exists() else explain_script(program, words[0])
    if len(words) == 2 and words[0] in RULES:
        words = ["check", *words]
    if is_of_program(words):
        return explain_report(program, words)
    return None


def explain_number(number):
    """What the page of answers says on a number, whatever script gives it."""
    name, text = section(number)
    if not text:
        warn(f"dlcheck: no answer has the number {number}; {name or 'docs/ANSWERS.md'} has them all")
        return None
    say(f"{name} on {number}:", "", *text.splitlines())
    return 0


def explain_report(program, words):
    places = script_places(words)
    networks = [Network(program, words[place]) for place in places]
    asked = list(words)
    for place, network in zip(places, networks):
        asked[place] = network.file
    report = ask(program, asked)
    pass_on(report)
    told = told_by(asked, report)
    say("", TOP_LINE, *explanation(told, *networks))
    return report.status


# What is told of a report: the culprit and by what, in this script; how the page's section is headed, and what it says; the components and links that are named.
Explained = collections.namedtuple("Explained", "here head page named")


def explanation(told, network=None, specification=None):
    """The lines that are told of a report: of the network of its script, and for `conform` also that of the specification."""
    parts = explained(told, network, specification)
    page = ["", parts.head, *(["", indented(parts.page)] if parts.page else [])]
    return (["", "In this script:", *parts.here] if parts.here else []) + page + parts.named


def explained(told, network=None, specification=None):
    """The parts of an explanation: lists of lines, and for the page's section its text as it stands there."""
    named = specification if told.specification else network
    refused = bool(named and told.status in (1, 2) and told.command != "run")
    here = about_comments(named, told)
    here += about_place(named, told) if refused else []
    here += here_of(told, network, specification)
    here += attempt(about_constructs, named, told) + attempt(about_language, named, told) if refused else []
    return Explained(here, *about_page(told, attempt(keys_of, told, named)), attempt(about_network, named, told) if refused else [])


def here_of(told, network, specification):
    """What is told of this script alone: the culprit, and by what."""
    if not network:
        return []
    if told.number in COMPARED:
        return attempt(COMPARED[told.number], network, specification, told)
    network = specification if told.specification else network
    if told.command == "run" and told.status in (0, 1):
        return attempt(about_run, network, told)
    if told.command == "livelock" and told.status == 0:
        return attempt(about_hidden, network, told)
    found = attempt(ABOUT[told.number], network, told) if told.number in ABOUT else []
    if not told.rule or told.status != 1:
        return found
    return found + (attempt(about_readings, network, told) if told.number in UNREAD else []) + attempt(about_mending, network, told) + attempt(about_tries, network)


def attempt(function, *arguments):
    """What a function tells, or nothing where it can't follow the script: then the report and the page stand alone."""
    try:
        return function(*arguments)
    except NOT_FOLLOWED:
        return []


def keys_of(told, network):
    """Which parts of the page's section are about what is told."""
    if told.number.startswith("Status"):
        return [told.command]
    if told.number in KEYS and network:
        return [key for key in [KEYS[told.number](network, told)] if key]
    if told.number == "10":
        return [told.line.split()[-1]]
    return [key for key in (told.condition, told.kind) if key]


def about_page(told, keys):
    """How what the page of answers says is headed, and what it says."""
    name, text = section(told.number, keys)
    if not name:
        return "The page docs/ANSWERS.md is not beside this program.", ""
    number = told.number if told.number.isdigit() else told.number.lower()
    return (f"{name} on {number}:", text) if text else (f"{name} has no section on {number}.", "")


def about_comments(network, told):
    """Comments that look like annotations: `--@ role P A B C D`, `-- @ roles ..`."""
    found = []
    for number, line in enumerate(network.source.split("\n") if network and network.script and told.rule in KINDS else [], 1):
        match = re.match(r"\s*--\s*(@?)\s*(\w*)(.*)", line)
        if not match or re.match(r"\s*--@[ \t\r]*(roles|resource)[ \t\r]", line):
            continue
        names = [word for word in match[3].split() if word in network.script.definitions]
        if match[1] or (re.match(r"roles?$|resources?$", match[2], re.I) and len(names) > 1):
            found += ["", f"Line {number} is a comment, and no annotation, which begins with --@ roles or --@ resource: {line.strip()}"]
    return found


def about_place(network, told):
    """The line of a slip, and the declaration that is named."""
    found = []
    lines = network.source.split("\n")
    if told.place and told.place[0] <= len(lines):
        line, column = told.place
        # columns count bytes
        front = lines[line - 1].encode(errors="replace")[: column - 1].decode(errors="replace")
        found += ["", f"Line {line}, column {column}:", "", "  " + lines[line - 1].rstrip("\r").replace("\t", " "), "  " + " " * len(plain(front)) + "^"]
    if told.declaration is not None and told.declaration < len(network.shown):
        found += ["", f"{network.place(told.declaration).capitalize()}:", "", *("  " + line for line in network.text(told.declaration))]
    return found


def constructs_in(network, told):
    """What the script has that is outside of the language, where that is why it is refused."""
    return constructs_of(network.source) if told.number in ("1", "4") else []


def about_constructs(network, told):
    """All that is outside of the language at once, by line."""
    found = constructs_in(network, told)
    lines = [f"  line {construct.line}, {row_head(construct.row)}: {construct.text}" for construct in found[:MOST_CONSTRUCTS]]
    lines += [f"  and {len(found) - MOST_CONSTRUCTS} more"] if len(found) > MOST_CONSTRUCTS else []
    return ["", "Outside of the language, by line:", *lines] if lines else []


def about_language(network, told):
    """The rows of the page on the language that may be about what is refused."""
    kept = language_rows(told, network, {construct.row for construct in constructs_in(network, told)})
    return ["", "LANGUAGE.md, as you know it and as it is written here:", "", *kept] if kept else []


def about_network(network, told):
    """The components and links that are named."""
    found = []
    for part in told.components[:MOST_NAMED]:
        found += about_part(network, part, told)
    if len(told.components) > MOST_NAMED:
        found += ["", f"and {len(told.components) - MOST_NAMED} more components"]
    if told.number in ("23", "26", "28"):
        links = [(link.left, link.right) for link in network.links_of(told.components[0])]
        return found + about_links(network, links[:MOST_NAMED], "Its links:")
    return found + about_links(network, told.links if told.number == "25" else [], "The link:")


def explain_script(program, script):
    network = Network(program, script)
    words = ["table", network.file, "0"]
    first = ask(program, words)
    table = table_of(first)
    if not table:
        pass_on(first)
        say("", TOP_LINE, *explanation(told_by(words, first), network))
        return first.status
    say(TOP_LINE)
    nothing = told_by(words, first)
    for part in range(network.count):
        say(*about_part(network, part, nothing))
    links = [(link.left, link.right) for link in network.links()]
    say(*about_links(network, links, "Links, and what their ends share:"))
    if not links:
        say("", "There are no links: no two components share an event.")
    return 0
