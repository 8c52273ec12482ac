"""The pages beside the program: what stands in them on an answer, and which rows of the table of the language may be about a line."""
import pathlib, re


def page_named(name):
    """A page: in the repository, or where it is installed."""
    here = pathlib.Path(__file__).resolve().parent
    for place in (here.parent / "docs", here.parent.parent / "doc/dlcheck/docs"):
        if (place / name).is_file():
            return place / name
    return None


def section(number, keys=()):
    """The name of the page of answers, and what its section on a number or a status says; nothing where there is none.

    Where the section has parts (headings of the third level, bullets) for several conditions, only those of these keys are kept, as far as there are any."""
    page = page_named("ANSWERS.md")
    if not page:
        return None, None
    kept, inside = [], False
    for line in page.read_text(encoding="utf-8").splitlines():
        if line.startswith("## "):
            head = line[3:]
            inside = head == number or head.split()[0] == number
        elif inside:
            kept.append(line)
    return page.name, "\n".join(bullets_for(parts_for(kept, keys), keys)).strip("\n")


def fits(text, keys):
    return any(re.search(rf"(?<!\w){re.escape(key)}(?!\w)", text) for key in keys)


def parts_for(lines, keys):
    """The lines before the first heading of the third level, and of the parts behind such headings those of the keys."""
    parts = [[]]
    for line in lines:
        if line.startswith("### "):
            parts.append([])
        parts[-1].append(line)
    chosen = [part for part in parts[1:] if fits(part[0], keys)] or parts[1:]
    return [line for part in [parts[0], *chosen] for line in (part if len(chosen) != 1 or not part[:1] or not part[0].startswith("### ") else part[1:])]


def bullets_for(lines, keys):
    """The lines without the bullets of other keys, where one of the keys has a bullet. A bullet's key stands before its first comma or colon."""
    bullets, kept, bullet = [], [], None
    for line in lines:
        if line.startswith("- "):
            bullet = [line]
            bullets.append(bullet)
            kept.append(bullet)
        elif bullet and line.startswith("  ") and line.strip() and not line.startswith("    "):
            bullet.append(line)
        else:
            bullet = None
            kept.append([line])
    chosen = [bullet for bullet in bullets if fits(re.split("[,:]", bullet[0])[0], keys)]
    return [line for part in kept if not chosen or not any(part is bullet for bullet in bullets) or any(part is bullet for bullet in chosen) for line in part]


def table_rows():
    """The table of the page on the language: its head, and groups of rows, each with what it is about."""
    page = page_named("LANGUAGE.md")
    table = re.search(r"<!-- begin: rows -->\n(.*?)<!-- end -->", page.read_text(encoding="utf-8"), re.S) if page else None
    groups = [group.split("\n") for group in table[1].split("\n\n")] if table else []
    head = groups[0][0] if groups else ""
    return head[4:], [[line[4:] for line in group] for group in groups[1:]]


# What the rows of a number are about beyond it: the first words of the group, and a test of what is told and of the network.
ONLY_WHERE = (
    ("definitions by cases", lambda told, network: False),
    ("the same with a name", lambda told, network: len([line for line in network.shown if re.match(rf"{re.escape(told.event)} (= |\( )", line)]) > 1),
    ("an input of one constant", lambda told, network: told.event in network.script.consts),
    ("a channel with data", lambda told, network: heads_of_parameters(network, told.declaration)),
    ("fields that are left out", lambda told, network: told.event in network.script.channels and "[[" not in network.shown[told.declaration]),
    ("hiding round a network", lambda told, network: re.search(r"[\\]", network.shown[told.declaration])),
    ("hiding or renaming round", lambda told, network: told.line.endswith("800")),
    ("; and SKIP", lambda told, network: True),
)


def heads_of_parameters(network, declaration):
    """Whether a definition sends or takes by a name that is one of its parameters."""
    head, _, body = network.shown[declaration].partition(" = ")
    return any(re.search(rf"(?<!\w){re.escape(name)} [.!?]", body) for name in re.findall(r"\w+", head)[1:])


def is_about(group, told, network, at):
    """Whether a group of rows may be about what is refused."""
    about = group[0][3:]
    if told.number == "1" or not any(row[at:].startswith(told.number + " ") for row in group[1:]):
        return False
    if told.number == "4":
        # a name of one letter stands there for any
        return len(told.event) > 1 and any(re.search(rf"\b{re.escape(told.event)}\b", row[:at]) for row in group[1:])
    tests = [test for words, test in ONLY_WHERE if about.startswith(words)]
    return not tests or bool(tests[0](told, network))


def language_rows(told, network, constructs):
    """The rows of the table that may be about what is refused, and those about constructs that the script has."""
    head, groups = table_rows()
    if told.number not in ("1", "4", "5", "6", "7", "8", "10", "14", "19") or not groups or not network.script:
        return []
    at = head.index("told")
    return ["  " + row for group in groups if is_about(group, told, network, at) or group[0][3:].startswith(tuple(constructs)) for row in group]


def row_head(about):
    """What a group of rows is about, in a few words: `tuples` of `tuples: two parameters, two fields`."""
    return next((group[0][3:].split(":")[0] for group in table_rows()[1] if group[0][3:].startswith(about)), about.rstrip(":"))
