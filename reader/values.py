"""What a script says: its declarations, as `show` prints them, and the values of its data, alphabets and annotations.

This serves the reader of reports alone, and it proves nothing. Where it can't follow a script it says so, and the reader goes by the tables."""
import collections

from script import NoScript
from trees import BINARY, Parser

Const = collections.namedtuple("Const", "order name")
Event = collections.namedtuple("Event", "channel fields")
MOST_STEPS = 1_000_000
GREATEST_NUMBER = 1_000_000
MOST_ELEMENTS = 16_384
MOST_BINDINGS = 1_048_576
KINDS = {bool: "a truth value", int: "a number", Const: "a constant", Event: "an event", frozenset: "a set"}


class NoValue(NoScript):
    """A value is needed that isn't there: of which kind the fault is, at which expression, and why.

    `uses` are the definitions that it lies in, the innermost first, each with the values of its arguments; `bound` has the values of the names at the place."""

    def __init__(self, kind, tree, why):
        super().__init__(kind)
        self.kind, self.tree, self.why, self.uses, self.bound = kind, tree, why, [], {}

    def found_in(self, name, values, bound):
        """The fault lies in this use of a definition."""
        self.bound = self.bound if self.uses else bound | self.bound
        self.uses.append((name, values))


class Script:
    """The declarations that `show` printed, by name."""

    def __init__(self, shown):
        self.shown = shown
        self.channels, self.consts, self.datatypes, self.names, self.definitions = {}, {}, {}, {}, {}
        self.notes, self.asserted, self.asserted_at, self.parsed, self.types, self.steps, self.channel_names = [], None, None, {}, {}, 0, []
        for number, line in enumerate(shown):
            self.declare(number, line)

    def declare(self, number, line):
        if line.startswith("--@"):
            self.notes.append(line.split()[1:])
        elif line.startswith("channel "):
            names, _, types = line[8:].partition(" : ")
            for name in names.split(" , "):
                self.names.setdefault(name, number)
                self.channels[name] = (len(self.channels), types)
                self.channel_names.append(name)
        elif line.startswith("datatype "):
            name, _, constants = line[9:].partition(" = ")
            self.names.setdefault(name, number)
            members = []
            for constant in constants.split(" | "):
                self.consts[constant] = Const(len(self.consts), constant)
                members.append(self.consts[constant])
            self.datatypes[name] = frozenset(members)
        elif line.startswith("assert "):
            if not self.asserted:
                self.asserted, self.asserted_at = line[7:].rsplit(" : [ deadlock free ]", 1)[0], number
        else:
            head, _, body = (line[9:] if line.startswith("nametype ") else line).partition(" = ")
            name, _, parameters = head.partition(" ( ")
            self.names[name] = number
            self.definitions[name] = ([p for p in parameters.split(" )")[0].split(" , ") if p], body)

    def body_of(self, name):
        """The parameters and the tree of a definition."""
        if name not in self.parsed:
            if name not in self.definitions:
                raise NoScript(name)
            parameters, body = self.definitions[name]
            self.parsed[name] = (parameters, Parser(body).tree())
        return self.parsed[name]

    def field_trees(self, channel):
        """How the sets of a channel's fields are written."""
        types, sets = self.channels[channel][1], []
        if types:
            parser = Parser(types)
            sets.append(parser.atom())
            while parser.peek() == ".":
                parser.take()
                sets.append(parser.atom())
        return sets

    def fields_of(self, channel):
        """The sets of values of a channel's fields."""
        if channel not in self.channels:
            raise NoScript(channel)
        if channel not in self.types:
            self.types[channel] = [sorted(self.set_of(tree, {})) for tree in self.field_trees(channel)]
        return self.types[channel]

    def count(self, steps=1):
        self.steps += steps
        if self.steps > MOST_STEPS:
            raise NoScript("too long")

    # values, in the order in which the program evaluates them

    def value(self, tree, bound):
        self.count()
        form = tree[0]
        if form in ("number", "truth"):
            return tree[1]
        if form == "name":
            return self.named(tree, bound)
        if form == "call":
            return self.used(tree, [self.value(item, bound) for item in tree[2]])
        if form == "dot":
            return self.event(tree, [self.value(field, bound) for field in tree[2]])
        if form == "if":
            return self.value(tree[2] if self.truth(tree[1], bound) else tree[3], bound)
        if form in ("display", "range", "those", "production", "union", "inter", "diff"):
            return self.limited(tree, self.many(tree, bound))
        if form == "not":
            return not self.truth(tree[1], bound)
        if form in ("and", "or"):
            first = self.truth(tree[1], bound)
            return self.truth(tree[2], bound) if first == (form == "and") else first
        return self.computed(tree, bound)

    def of_kind(self, kind, tree, bound):
        found = self.value(tree, bound)
        if type(found) is not kind:
            raise NoValue("Kind", tree, f"is {KINDS[type(found)]}, and {KINDS[kind]} is needed")
        return found

    def number(self, tree, bound):
        return self.of_kind(int, tree, bound)

    def truth(self, tree, bound):
        return self.of_kind(bool, tree, bound)

    def set_of(self, tree, bound):
        return self.of_kind(frozenset, tree, bound)

    def element(self, tree, bound):
        found = self.value(tree, bound)
        if type(found) is frozenset:
            raise NoValue("Kind", tree, "is a set, and an element is needed")
        return found

    def computed(self, tree, bound):
        form = tree[0]
        if form not in BINARY:
            raise NoScript(f"{form} has no value")
        if len(tree) == 2:
            return self.in_range(tree, -self.number(tree[1], bound))
        if form in ("==", "!="):
            first, second = self.element(tree[1], bound), self.element(tree[2], bound)
            if type(first) is not type(second):
                raise NoValue("Kind", tree, f"compares {KINDS[type(first)]} with {KINDS[type(second)]}")
            return (first == second) == (form == "==")
        first, second = self.number(tree[1], bound), self.number(tree[2], bound)
        if form in ("<", "<=", ">", ">="):
            return {"<": first < second, "<=": first <= second, ">": first > second, ">=": first >= second}[form]
        if form in ("/", "%"):
            if second < 1:
                raise NoValue("Division", tree, f"divides by {second}")
            return first // second if form == "/" else first % second
        return self.in_range(tree, first + second if form == "+" else first - second if form == "-" else first * second)

    def in_range(self, tree, found):
        if abs(found) > GREATEST_NUMBER:
            raise NoValue("Range", tree, f"is {found}, and numbers lie from -1000000 to 1000000")
        return found

    # sets

    def many(self, tree, bound):
        form = tree[0]
        if form == "display":
            return self.of_one_kind(tree, [self.element(item, bound) for item in tree[1]])
        if form == "range":
            first, last = self.number(tree[1], bound), self.number(tree[2], bound)
            if last - first >= MOST_ELEMENTS:
                raise NoValue("SetLimit", tree, f"has {last - first + 1} elements, and a set has at most {MOST_ELEMENTS}")
            return frozenset(range(first, last + 1))
        if form == "those":
            return self.of_one_kind(tree, [self.element(item, inner) for inner in self.chosen(tree, bound) for item in tree[1]])
        if form == "production":
            return frozenset(event for inner in self.chosen(tree, bound) for part in tree[1] for event in self.events_from(tree, part, inner))
        first, second = self.set_of(tree[1], bound), self.set_of(tree[2], bound)
        if form == "union":
            return self.of_one_kind(tree, [*first, *second])
        return first & second if form == "inter" else first - second

    def of_one_kind(self, tree, elements):
        kinds = list(dict.fromkeys(type(element) for element in elements))
        if len(kinds) > 1:
            raise NoValue("Kind", tree, f"holds {KINDS[kinds[0]]} and {KINDS[kinds[1]]}")
        return frozenset(elements)

    def limited(self, tree, found):
        if len(found) > MOST_ELEMENTS:
            raise NoValue("SetLimit", tree, f"has more than {MOST_ELEMENTS} elements")
        return found

    def chosen(self, tree, bound):
        for number, inner in enumerate(self.bindings(tree[2], bound)):
            if number >= MOST_BINDINGS:
                raise NoValue("SetLimit", tree, f"has more than {MOST_BINDINGS} bindings")
            yield inner

    def bindings(self, generators, bound):
        if not generators:
            yield bound
            return
        first, rest = generators[0], generators[1:]
        if first[0] == "where":
            if self.truth(first[1], bound):
                yield from self.bindings(rest, bound)
            return
        for value in sorted(self.set_of(first[2], bound)):
            self.count()
            yield from self.bindings(rest, {**bound, first[1]: value})

    # names and events

    def named(self, tree, bound):
        name = tree[1]
        if name in bound:
            return bound[name]
        if name in self.consts:
            return self.consts[name]
        if name in self.datatypes:
            return self.datatypes[name]
        if name in self.channels:
            return self.event(tree, [])
        return self.used(tree, [])

    def used(self, tree, values):
        """The value of a definition; a fault in it is told with the use that it lies in."""
        name = tree[1]
        parameters, body = self.body_of(name)
        try:
            return self.value(body, dict(zip(parameters, values)))
        except NoValue as fault:
            fault.found_in(name, values, dict(zip(parameters, values)))
            raise

    def event(self, tree, values):
        channel = tree[1]
        fields = self.fields_of(channel)
        if len(values) != len(fields):
            raise NoScript(channel)
        self.within(tree, channel, values)
        return Event(self.channels[channel][0], tuple(values))

    def within(self, tree, channel, values):
        """Each value is one of its field's."""
        for place, (value, field) in enumerate(zip(values, self.fields_of(channel))):
            if type(value) is frozenset or value not in field or type(value) is not type(field[0]):
                front = ".".join([channel, *(self.text(value) for value in values[: place + 1])])
                raise NoValue("OutsideChannel", tree, f"is {front}, and field {place + 1} of {channel} takes {self.short(field)}")

    def events_from(self, tree, part, bound):
        channel, trees = part
        begun = [self.value(field, bound) for field in trees]
        self.within(("dot", channel, trees), channel, begun)
        made = [tuple(begun)]
        for field in self.fields_of(channel)[len(begun) :]:
            made = [values + (value,) for values in made for value in field]
            self.count(len(made))
        return [Event(self.channels[channel][0], values) for values in made]

    def all_events(self):
        """All events that the channels have, in their order."""
        return [event for channel in self.channels for event in self.events_from(("name", channel), (channel, []), {})]

    # how values are written

    def text(self, value):
        """A value as a script writes it."""
        if isinstance(value, bool):
            return "true" if value else "false"
        if isinstance(value, Const):
            return value.name
        if isinstance(value, Event):
            return ".".join([self.channel_names[value.channel], *(self.text(field) for field in value.fields)])
        if isinstance(value, frozenset):
            return "{" + ", ".join(self.text(item) for item in sorted(value)) + "}"
        return f"({value})" if value < 0 else str(value)

    def use(self, name, values):
        """`FORK(3)`."""
        return name + (f"({', '.join(self.text(value) for value in values)})" if values else "")

    def short(self, value):
        """A value, of numbers in a row their ends."""
        if not isinstance(value, (frozenset, list)):
            return self.text(value)
        values = sorted(value)
        if len(values) > 2 and all(type(value) is int for value in values) and values[-1] - values[0] == len(values) - 1:
            return f"{{{values[0]}..{values[-1]}}}"
        return "{" + ", ".join(self.text(value) for value in values[:12]) + (", .." if len(values) > 12 else "") + "}"

    def texts(self, events):
        return [self.text(event) for event in sorted(events)]
