"""The model of a network, from which texts, pictures and the page are made: its components with names, alphabets and tables, its links, and its annotations.

All that the program can tell is asked of it (`show`, `table`), each thing once. How components are called, and alphabets, stand in no report: they are
evaluated from what `show` prints, and where that can't be followed the tables alone are gone by. It proves nothing."""
import collections, pathlib, re, time

from layout import Layout
from reports import ask, events_of, node_after, table_of, text_of
from rooms import make_room
from script import NOT_FOLLOWED, lines_of
from trees import process_text
from values import Script

# Two components, the left one first, and the events that both have in their alphabets.
Link = collections.namedtuple("Link", "left right events")
# A set of a component's annotation: the name that the script gives it, what it holds, and its events.
Noted = collections.namedtuple("Noted", "name meaning events")
KINDS = {"client-server": "roles", "resource": "resource"}
MEANINGS = {"roles": ("requests made", "answers got", "requests taken", "answers given"), "resource": ("acquire", "release")}
MOST_BYTES = 1_048_576


class Network:
    """A script, and the network that it asserts. Components are counted from 0; events are texts, as reports have them."""

    def __init__(self, program, file):
        self.program, self.room, self.file = program, None, file
        self.content = self.read()
        self.source = self.content.decode(errors="replace")
        began = time.monotonic()
        shown = ask(program, ["show", self.file], quiet=True)
        # unproved sources take a minute for each answer, so that nothing is asked then that can be done without
        self.is_slow = time.monotonic() - began > 10
        self.shown = text_of(shown).splitlines() if shown.status == 0 else []
        self.lines = lines_of(self.source, self.shown)
        self.script, self.components, self.operands, self.tables, self.fault = None, [], [], {}, None
        self.kept_alphabets, self.kept_alone, self.kept_owners, self.kept_links, self.kept_events = {}, {}, None, None, None
        try:
            self.script = Script(self.shown)
            layout = Layout(self.script)
            self.components, self.operands = layout.components, layout.operands
        except NOT_FOLLOWED as fault:
            self.fault = fault
        counted = self.counted()
        self.count = counted or len(self.components)
        if counted and counted != len(self.components):
            self.components, self.operands = [], []

    def read(self):
        """The bytes of the script, which are read once and kept in a file of its own: a pipe gives them only once, and all that is asked is asked of one text."""
        try:
            with open(self.file, "rb") as opened:
                content = opened.read(MOST_BYTES + 1)
        except (OSError, ValueError):
            return b""
        self.room = make_room()
        self.file = str(pathlib.Path(self.room.name) / "script.csp")
        pathlib.Path(self.file).write_bytes(content)
        return content

    def counted(self):
        """How many components there are, by the program; 0 where it refuses the network, and then it is the own count that stands."""
        if not self.shown:
            return 0
        if self.table(0):
            return self.table(0).count
        lines = text_of(ask(self.program, ["table", self.file, "999999"], quiet=True)).splitlines()
        found = re.match(r"35 there are (\d+) components", lines[1]) if len(lines) > 1 else None
        return int(found[1]) if found else 0

    # components

    def name(self, part):
        """`FORK(3)`, or nothing where the component has no name or none is known."""
        return self.components[part].call if part < len(self.components) else None

    def called(self, part):
        """`component 3, FORK(3)`, as far as it is known."""
        own = self.name(part)
        return f"component {part}" + (f", {own}" if own else "")

    def short(self, part):
        """`FORK(3)`, or `component 3`."""
        return self.name(part) or f"component {part}"

    def table(self, part):
        """The table of a component, or nothing where it has none."""
        if part not in self.tables:
            self.tables[part] = table_of(ask(self.program, ["table", self.file, str(part)], quiet=True))
        return self.tables[part]

    def node_after(self, part, trace):
        """The node of a component after a trace, or nothing where its table or the trace in it is not there."""
        table = self.table(part)
        at = node_after(table, trace) if table else None
        return None if at is None else table.nodes[at]

    def table_alone(self, part):
        """The table that a component has by itself, where nobody blocks any event of its text; nothing where the program tells none."""
        component, script = self.components[part], self.script
        name, values = component.name, component.values
        added = []
        if not name:
            # what is written out in the network is called by a name of its own, with the values that are bound there
            name, values = free_name("ALONE", script), list(component.bound.values())
            added = [f"{name}{'(' + ', '.join(component.bound) + ')' if values else ''} = {process_text(component.tree)}"]
        asserted = f"assert {script.use(name, values)} : [ deadlock free ]"
        if asserted not in self.kept_alone:
            lines = [*(line for line in self.shown if not line.startswith("assert ")), *added, asserted, ""]
            with make_room() as room:
                alone = pathlib.Path(room) / "alone.csp"
                alone.write_text("\n".join(lines), encoding="utf-8")
                self.kept_alone[asserted] = table_of(ask(self.program, ["table", str(alone), "0"], quiet=True))
        return self.kept_alone[asserted]

    def alone(self, part):
        """The events that the text of a component does where nobody blocks it, or nothing where the program doesn't tell."""
        table = self.table_alone(part)
        return events_of(table) if table else None

    def event(self, text):
        """The event with a text."""
        if self.kept_events is None:
            self.kept_events = {self.script.text(event): event for event in self.script.all_events()}
        return self.kept_events[text]

    def does(self, part):
        """The events that a component can do at all, as its table first has them."""
        table = self.table(part)
        return events_of(table) if table else []

    def alphabet(self, part):
        """The alphabet where it is known, else the events of the table."""
        if part not in self.kept_alphabets:
            known = part < len(self.components) and self.components[part].alphabet is not None
            self.kept_alphabets[part] = self.script.texts(self.components[part].alphabet) if known else self.does(part)
        return self.kept_alphabets[part]

    def owners(self, event):
        """The components that have the event in their alphabet."""
        if self.kept_owners is None:
            self.kept_owners = {}
            for part in range(self.count):
                for own in self.alphabet(part):
                    self.kept_owners.setdefault(own, []).append(part)
        return self.kept_owners.get(event, [])

    # links

    def shared(self, one, other):
        """The events that two components have in common, in the order of the first."""
        with_other = set(self.alphabet(other))
        return [event for event in self.alphabet(one) if event in with_other]

    def links(self):
        """All links, in the order of their ends."""
        if self.kept_links is None:
            found = {}
            for part in range(self.count):
                for event in self.alphabet(part):
                    for other in self.owners(event):
                        if other > part:
                            found.setdefault((part, other), []).append(event)
            self.kept_links = [Link(left, right, found[left, right]) for left, right in sorted(found)]
        return self.kept_links

    def links_of(self, part):
        """The links of a component."""
        return [link for link in self.links() if part in (link.left, link.right)]

    # annotations

    def sets(self, part, kind):
        """The sets of a component's annotation of this kind (`roles` or `resource`): four or two, or none where it has no annotation."""
        component = self.components[part] if part < len(self.components) else None
        if not component or not component.name or component.chosen:
            return []
        for note in self.script.notes:
            if note[0] == kind and note[1] == component.name:
                return self.noted(note, component, kind)
        return []

    def noted(self, note, component, kind):
        sets = []
        try:
            for name, meaning in zip(note[2:], MEANINGS[kind]):
                parameters, body = self.script.body_of(name)
                events = self.script.value(body, dict(zip(parameters, component.values)))
                sets.append(Noted(name, meaning, self.script.texts(events)))
        except NOT_FOLLOWED:
            return []
        return sets

    def direction(self, one, other, rule):
        """Of a link: (client, server) by `client-server`, (user, resource) by `resource`; nothing where the annotations don't say it."""
        kind, shared = KINDS.get(rule), set(self.shared(one, other))
        if not kind or not shared:
            return None
        if kind == "resource":
            resources = [part for part in (one, other) if self.sets(part, kind)]
            return None if len(resources) != 1 else (one, other) if resources == [other] else (other, one)
        for client, server in ((one, other), (other, one)):
            asks, serves = self.sets(client, kind), self.sets(server, kind)
            if asks and serves and shared <= set(asks[0].events + asks[1].events) and shared <= set(serves[2].events + serves[3].events):
                return client, server
        return None

    # the text

    def defined(self, part):
        """The number of the declaration that a component is called by, or nothing."""
        own = self.components[part].name if part < len(self.components) else None
        return self.script.names.get(own) if own else None

    def line(self, declaration):
        """The line of the source on which a declaration begins, or nothing."""
        return self.lines[declaration] if declaration < len(self.lines) else None

    def place(self, declaration):
        """`declaration 4, line 12`."""
        line = self.line(declaration)
        return f"declaration {declaration}" + (f", line {line}" if line else "")

    def line_of(self, declaration):
        """` (line 12)`, where it is known."""
        line = self.line(declaration) if declaration is not None else None
        return f" (line {line})" if line else ""

    def text(self, declaration):
        """A declaration as the source has it, where its place is known, else as `show` prints it."""
        if declaration >= len(self.lines):
            return [self.shown[declaration]]
        written = self.source.split("\n")
        end = self.lines[declaration + 1] if declaration + 1 < len(self.lines) else len(written) + 1
        kept = written[self.lines[declaration] - 1 : max(end - 1, self.lines[declaration])]
        while len(kept) > 1 and (not kept[-1].strip() or re.match(r"\s*--(?!@)|\s*assert\b", kept[-1])):
            kept.pop()
        return [line.rstrip() for line in kept]


def free_name(wanted, script):
    """A name that the script doesn't have."""
    while wanted in script.names or wanted in script.consts:
        wanted += "_"
    return wanted
