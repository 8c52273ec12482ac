"""The reports of the program: how they are asked for, and what stands in them. This is the one place that knows what the line of an answer tells."""
import collections, dataclasses, re, subprocess

Report = collections.namedtuple("Report", "status sent")
# Of one component: its nodes in order; of each its steps (event, node) and its acceptances (lists of events).
Table = collections.namedtuple("Table", "count nodes")
Node = collections.namedtuple("Node", "steps accepts")
# A step of a run: the component that takes a silent step, or the event.
Step = collections.namedtuple("Step", "silent event")


def ask(program, words, quiet=False):
    """Runs a command of the program: its status, and its standard output as it is."""
    done = subprocess.run([*program, *words], stdin=subprocess.DEVNULL, stdout=subprocess.PIPE, stderr=subprocess.DEVNULL if quiet else None)
    # a signal is told as a shell tells it
    return Report(done.returncode if done.returncode >= 0 else 128 - done.returncode, done.stdout)


def text_of(report):
    return report.sent.decode(errors="replace")


def events_in(text):
    return [event for event in text.split(", ") if event]


def table_of(report):
    """The table that a report of `table` prints, or nothing where it is another report."""
    lines = text_of(report).splitlines()
    head = re.match(r"component \d+ of (\d+)$", lines[0]) if lines else None
    if report.status != 0 or not head:
        return None
    nodes = [Node([], []) for _ in range(int(lines[1].split()[1]))]
    for line in lines[2:]:
        step = re.match(r"(\d+) (\S+) -> (\d+)$", line)
        if step:
            nodes[int(step[1])].steps.append((step[2], int(step[3])))
            continue
        kept = re.match(r"(\d+) accepts \{(.*)\}$", line)
        nodes[int(kept[1])].accepts.append(events_in(kept[2]))
    return Table(int(head[1]), nodes)


def events_of(table):
    """The events that a table has, each once, as they first come."""
    return list(dict.fromkeys(event for node in table.nodes for event, _ in node.steps))


def node_after(table, trace):
    """The node that a trace leads to, or nothing where it is no trace."""
    at = 0
    for event in trace:
        at = dict(table.nodes[at].steps).get(event)
        if at is None:
            return None
    return at


@dataclasses.dataclass
class Told:
    """What a report tells, beyond its text.

    `number` is that of the answer (`"24"`), or `"Status 0"` and so on where there is none. `components` are those that are named, in the order of the report:
    the culprit first, or a circle in its order where `circle` is set. `traces` has the events after which something is so, by component."""

    words: list
    status: int
    number: str
    line: str = ""
    components: list = dataclasses.field(default_factory=list)
    links: list = dataclasses.field(default_factory=list)
    traces: dict = dataclasses.field(default_factory=dict)
    event: str = None  # the event, or the name, that is told
    declaration: int = None
    place: tuple = None  # line and column of a slip
    condition: str = None  # C1, C2, S1 to S6, U1 to U5
    kind: str = None  # of a value fault: Range, Division, ..
    site: str = None  # of a value fault: declaration, network, component, annotation, hidden set
    specification: bool = False  # it is the specification of `conform` that is refused
    steps: list = dataclasses.field(default_factory=list)  # of a run

    @property
    def command(self):
        return self.words[0]

    @property
    def rule(self):
        """The rule of `check`, or nothing."""
        return self.words[1] if self.words[:1] == ["check"] else None

    @property
    def circle(self):
        return self.number in ("24", "27", "29")

    @property
    def stuck(self):
        return self.command == "run" and self.status == 1


# How the line of an answer reads, what the groups of it are, and the condition that is broken where there is only one.
PATTERNS = (
    (r"1 no script near line (?P<row>\d+) column (?P<column>\d+)$", None),
    (r"2 value fault (?P<kind>\w+) in (?P<site>declaration) (?P<declaration>\d+)$", None),
    (r"2 value fault (?P<kind>\w+) in the (?P<site>network|hidden set)$", None),
    (r"2 value fault (?P<kind>\w+) in (?P<site>component) (?P<part>\d+)$", None),
    (r"2 value fault (?P<kind>\w+) in the (?P<site>annotation) of component (?P<part>\d+)$", None),
    (r"4 unknown name (?P<event>\S+) in declaration (?P<declaration>\d+)$", None),
    (r"5 name (?P<event>\S+) is declared twice in declaration (?P<declaration>\d+)$", None),
    (r"7 wrong count for (?P<event>\S+) in declaration (?P<declaration>\d+)$", None),
    (r"(?:6|8|33) .* in declaration (?P<declaration>\d+)$", None),
    (r"1[0-3] component (?P<part>\d+) ", None),
    (r"14 components (?P<first>\d+) to (?P<last>\d+) differ from their alphabet at (?P<event>\S+)$", None),
    (r"14 an empty operand has (?P<event>\S+) in its alphabet$", None),
    (r"(?:19|21) component (?P<part>\d+) can (?:terminate|stop) after <(?P<trace>.*)>$", None),
    (r"20 event (?P<event>\S+) is in alphabets (?P<parts>[\d ]+)$", None),
    (r"23 component (?P<part>\d+) breaks (?P<condition>C1) after <(?P<trace>.*)> by (?P<event>\S+)$", None),
    (r"24 links in a circle$", None),
    (r"25 link (?P<left>\d+) (?P<right>\d+) has no full end$", "C2"),
    (r"(?:26|28) component (?P<part>\d+) breaks (?P<condition>\w\d) after <(?P<trace>.*)>$", None),
    (r"27 clients in a circle(?P<parts>[\d ]*)$", "S6"),
    (r"29 resources in a circle(?P<parts>[\d ]*)$", "U5"),
    (r"38 hidden bound passes 64 bits at component (?P<part>\d+)$", None),
    (r"39 no order for components(?P<parts>[\d ]*)$", None),
    (r"42 components differ at (?P<part>\d+)$", None),
    (r"43 component (?P<part>\d+) does <(?P<trace>.*)> outside its specification$", None),
    (r"44 component (?P<part>\d+) refuses too much after <(?P<trace>.*)>$", None),
)


def told_by(words, report):
    """What the report of these words tells."""
    lines = text_of(report).splitlines()
    told = Told(words, report.status, f"Status {report.status}")
    if told.command == "run" and report.status in (0, 1):
        told.steps = steps_of(lines[1:-1])
        return told
    if report.status not in (1, 2) or len(lines) < 2:
        return told
    told.specification = lines[1] == "in the specification"
    rest = lines[2:] if told.specification else lines[1:]
    told.line = rest[0] if rest else ""
    if re.match(r"\d+ ", told.line):
        told.number = told.line.split()[0]
    for pattern, condition in PATTERNS:
        found = re.match(pattern, told.line)
        if found:
            told.condition = condition
            take_groups(told, {key: value for key, value in found.groupdict().items() if value is not None})
            break
    take_lines(told, rest[1:])
    return told


def take_groups(told, groups):
    """What the groups of a line's pattern tell."""
    for name in ("event", "condition", "kind", "site"):
        setattr(told, name, groups.get(name) or getattr(told, name))
    if "declaration" in groups:
        told.declaration = int(groups["declaration"])
    if "row" in groups:
        told.place = int(groups["row"]), int(groups["column"])
    if "part" in groups:
        told.components = [int(groups["part"])]
    if "first" in groups:
        told.components = list(range(int(groups["first"]), int(groups["last"]) + 1))
    if "parts" in groups:
        told.components = [int(word) for word in groups["parts"].split()]
    if "trace" in groups:
        told.traces = {told.components[0]: events_in(groups["trace"])}
    if "left" in groups:
        told.links = [(int(groups["left"]), int(groups["right"]))]


def take_lines(told, lines):
    """The lines behind the first: the links of a circle, the ends of a link."""
    for line in lines:
        found = re.match(r"link (\d+) (\d+)$", line)
        if found:
            told.links.append((int(found[1]), int(found[2])))
        found = re.match(r"component (\d+) after <(.*)>$", line)
        if found:
            told.traces[int(found[1])] = events_in(found[2])
    if told.number == "27":
        told.links = list(zip(told.components, told.components[1:] + told.components[:1]))
    told.components = told.components or list(dict.fromkeys(part for link in told.links for part in link))


def steps_of(lines):
    """The steps of a run."""
    found = [(re.match(r"component (\d+) silent$", line), line) for line in lines]
    return [Step(int(match[1]), None) if match else Step(None, line) for match, line in found]
