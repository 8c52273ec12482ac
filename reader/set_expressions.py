"""Expressions for sets of events that depend on the parameters of a process: found from the sets that its calls in a network need.

Patterns of events, whose fields are parameters, what is computed of them, or all values of a set, are taken together until they give each call exactly its
events. What no pattern covers is listed call by call. It proves nothing; what is found is evaluated again by whoever asks."""
import collections, functools, itertools

from script import NOT_FOLLOWED as NO_VALUE
from trees import BINARY, Parser
from values import Const, Event

# An expression and what it is worth at each call; `cost` is how far from plain it is.
Term = collections.namedtuple("Term", "cost text values")
# Some events of a channel: the fields that are written, the generators, the condition under which, and of each call which events they are.
Piece = collections.namedtuple("Piece", "cost head generators guard events")
MOST_TERMS = 6
MOST_LISTED = 8
DATA = {"name", "call", "dot", "if", "display", "range", "those", "production", "union", "inter", "diff", "not", *BINARY}
MOST_EVALUATED = 20_000


def is_data(script, name, seen=()):
    """Whether a definition has a value: no process and no network stands in it."""
    if name in seen or name not in script.definitions:
        return name not in seen
    try:
        return has_value(script, script.body_of(name)[1], (*seen, name))
    except NO_VALUE:
        return False


def has_value(script, tree, seen):
    form = tree[0]
    if form in ("number", "truth"):
        return True
    if form not in DATA or (form in ("name", "call") and not is_data(script, tree[1], seen)):
        return False
    return all(has_value(script, part, seen) for part in parts_of(tree))


def parts_of(tree):
    """The trees that stand in a tree."""
    for part in tree[1:]:
        if isinstance(part, tuple):
            yield part
        for item in part if isinstance(part, list) else ():
            if item[0] in ("from", "where"):
                yield item[-1]
            elif tree[0] == "production":
                yield from item[1]
            else:
                yield item


def is_number(value):
    return isinstance(value, int) and not isinstance(value, bool)


def both(one, two):
    """Two conditions at once, with parentheses as the reader's own trees need them."""
    return f"({one}) and ({two})"


class Terms:
    """What can be said of the parameters of a process, with its value at each of the calls."""

    def __init__(self, script, parameters, calls):
        self.script, self.parameters, self.calls = script, parameters, calls
        self.fields, self.guards, self.sets = [], [], []
        if len(calls) > 1:
            self.from_parameters()
            self.from_definitions()
            self.compare()
        self.named_sets()
        self.fields = self.plainest(self.fields)
        self.guards = self.plainest(self.guards)
        self.sets = self.plainest(self.sets)

    def plainest(self, terms):
        """Of terms of one value each time the plainest."""
        kept = {}
        for term in sorted(terms, key=lambda term: term.cost):
            kept.setdefault(tuple((type(value), value) for value in term.values), term)
        return list(kept.values())

    def column(self, place):
        return [call[place] for call in self.calls]

    def from_parameters(self):
        for place, name in enumerate(self.parameters):
            column = self.column(place)
            if all(isinstance(value, Const) for value in column):
                self.fields.append(Term(1, name, column))
            elif all(is_number(value) for value in column):
                self.fields += [Term(1, name, column)]
                span = max(column) + 1
                for step in (1, 2, 3):
                    self.fields += [Term(3 + step, f"({name}+{step})", [v + step for v in column]), Term(3 + step, f"({name}-{step})", [v - step for v in column])]
                    if span > step and min(column) >= 0:
                        self.fields += [
                            Term(6 + step, f"(({name}+{step})%{span})", [(v + step) % span for v in column]),
                            Term(6 + step, f"(({name}+{span - step})%{span})", [(v - step) % span for v in column]),
                        ]
                self.fields += [Term(6, f"({top}-{name})", [top - v for v in column]) for top in {span - 1, span}]
                self.fields += [Term(7, f"({name}/2)", [v // 2 for v in column]), Term(7, f"({name}%2)", [v % 2 for v in column]), Term(7, f"(2*{name})", [v * 2 for v in column])]
                # the nodes below one of a tree, and the one above
                self.fields += [Term(7 + step, f"((2*{name})+{step})", [v * 2 + step for v in column]) for step in (1, 2)]
                self.fields.append(Term(9, f"(({name}-1)/2)", [(v - 1) // 2 for v in column]))
        numbers = [place for place in range(len(self.parameters)) if all(is_number(value) for value in self.column(place))]
        for one, two in itertools.permutations(numbers, 2):
            left, right, wide = self.column(one), self.column(two), max(self.column(two)) + 1
            names = self.parameters[one], self.parameters[two]
            self.fields.append(Term(8, f"(({names[0]}*{wide})+{names[1]})", [a * wide + b for a, b in zip(left, right)]))
            if one < two:
                self.fields.append(Term(7, f"({names[0]}+{names[1]})", [a + b for a, b in zip(left, right)]))
            self.fields.append(Term(7, f"({names[0]}-{names[1]})", [a - b for a, b in zip(left, right)]))

    def from_definitions(self):
        """The script's own functions of data, of the parameters."""
        script = self.script
        named = [name for name, (parameters, _) in script.definitions.items() if 0 < len(parameters) <= 3 and is_data(script, name)]
        tries = [(name, places) for name in named for places in itertools.permutations(range(len(self.parameters)), len(script.definitions[name][0]))]
        if len(tries) * len(self.calls) > MOST_EVALUATED:
            return
        for name, places in tries:
            values = [self.applied(name, [call[place] for place in places]) for call in self.calls]
            self.sort_in(3, f"{name}({','.join(self.parameters[place] for place in places)})", values)

    def applied(self, name, arguments):
        self.script.steps = 0
        try:
            parameters, body = self.script.body_of(name)
            return self.script.value(body, dict(zip(parameters, arguments)))
        except NO_VALUE:
            return None

    def sort_in(self, cost, text, values):
        known = [value for value in values if value is not None]
        if not known:
            return
        if all(isinstance(value, bool) for value in known):
            self.guards.append(Term(cost, text, [value is True for value in values]))
            self.guards.append(Term(cost + 1, f"not {text}", [value is False for value in values]))
        elif all(isinstance(value, frozenset) for value in known):
            self.sets.append(Term(cost, text, values))
        elif all(is_number(value) or isinstance(value, Const) for value in known):
            self.fields.append(Term(cost, text, values))

    def compare(self):
        """Conditions on the parameters."""
        plain = []
        for place, name in enumerate(self.parameters):
            column = self.column(place)
            if any(isinstance(value, frozenset) for value in column):
                continue
            values = sorted(set(column)) if len(set(map(type, column))) == 1 else []
            # of many values the outermost, since it is at the ends of a row that things differ
            for value in values if len(values) <= 2 * MOST_TERMS else values[:MOST_TERMS] + values[-MOST_TERMS:]:
                text = self.written(value)
                plain.append(Term(4, f"{name} == {text}", [v == value for v in column]))
                plain.append(Term(5, f"{name} != {text}", [v != value for v in column]))
                if is_number(value):
                    plain += [Term(4, f"{name} < {text}", [v < value for v in column]), Term(4, f"{name} > {text}", [v > value for v in column])]
            if all(is_number(value) for value in column):
                plain += [Term(5, f"({name}%2) == {odd}", [v % 2 == odd for v in column]) for odd in (0, 1)]
        plain = [*self.guards, *plain]
        self.guards = plain
        if len(plain) <= 60:
            for one, two in itertools.combinations(plain, 2):
                self.guards = self.guards + [Term(one.cost + two.cost, both(one.text, two.text), [a and b for a, b in zip(one.values, two.values)])]

    def exactly(self, at):
        """The condition that this call meets alone, or nothing where its parameters can't be compared."""
        parts = []
        for name, value in zip(self.parameters, self.calls[at]):
            if isinstance(value, frozenset):
                if any(call[self.parameters.index(name)] != value for call in self.calls):
                    return None
                continue
            parts.append(f"{name} == {self.written(value)}")
        return Term(9, functools.reduce(both, parts), [place == at for place in range(len(self.calls))]) if parts else None

    def written(self, value):
        text = self.script.text(value)
        return f"({text})" if isinstance(value, Event) and value.fields else text

    def named_sets(self):
        """The script's own sets of values, and its datatypes."""
        script = self.script
        for name, (parameters, _) in script.definitions.items():
            if not parameters and is_data(script, name):
                value = self.applied(name, [])
                if isinstance(value, frozenset):
                    self.sets.append(Term(1, name, [value] * len(self.calls)))
        self.sets += [Term(1, name, [members] * len(self.calls)) for name, members in script.datatypes.items()]


class Finder:
    """Finds expressions for the sets that the calls of one process need."""

    def __init__(self, script, parameters, calls):
        self.script, self.parameters, self.calls = script, parameters, calls
        self.terms = Terms(script, parameters, calls)
        taken = set(script.definitions) | set(script.channels) | set(script.consts) | set(script.datatypes) | set(parameters)
        self.bound = [name for name in [*"xyzuvw", *(f"x{i}" for i in range(1, 100))] if name not in taken]

    def named(self, wanted):
        """A definition of the script that has this set for each call and as many parameters, or nothing."""
        for name, (parameters, body) in self.script.definitions.items():
            if len(parameters) != len(self.parameters) or self.script.shown[self.script.names[name]].startswith("nametype ") or not is_data(self.script, name):
                continue
            if not any(wanted):
                if body.replace(" ", "") == "{}":
                    return name
            elif all(self.terms.applied(name, call) == events for call, events in zip(self.calls, wanted)):
                return name
        return None

    def expression(self, wanted):
        """An expression that has this set for each call, or nothing where the parameters can't tell the calls apart."""
        if not any(wanted):
            return "{}"
        for place, name in enumerate(self.parameters):
            if all(call[place] == events for call, events in zip(self.calls, wanted)):
                return name
        pieces = []
        for channel in sorted({event.channel for events in wanted for event in events}):
            found = self.pieces(channel, [{event.fields for event in events if event.channel == channel} for events in wanted])
            if found is None:
                return None
            pieces += found
        if any(piece.guard for piece in pieces):
            for term in self.terms.sets:
                if term.values == wanted:
                    return term.text
        return self.together(pieces)

    def pieces(self, channel, wanted):
        """Pieces that give each call exactly these events of a channel."""
        left, found = [set(events) for events in wanted], []
        while any(left):
            at = next(place for place, events in enumerate(left) if events)
            best = None
            for piece in self.patterns(channel, wanted, at, min(left[at])):
                covered = sum(len(events & rest) for events, rest in zip(piece.events, left))
                best = max((covered, -piece.cost, piece), best or (0, 0, piece), key=lambda kept: kept[:2])
            if best is None or best[0] == 0:
                return None
            found.append(best[2])
            left = [rest - events for rest, events in zip(left, best[2].events)]
        if len(found) > 1 and len(wanted) == 1 and len(wanted[0]) <= MOST_LISTED:
            return [Piece(1, (self.script.text(Event(channel, fields)), False), (), None, [{fields}]) for fields in sorted(wanted[0])]
        return found

    def patterns(self, channel, wanted, at, seed):
        """The patterns that fit this event of this call and give no call an event that it doesn't need."""
        choices = []
        for place, value in enumerate(seed):
            terms = [term for term in self.terms.fields if term.values[at] is not None and type(term.values[at]) is type(value) and term.values[at] == value]
            same = Term(2 if len(self.calls) > 1 else 1, self.script.text(value), [value] * len(self.calls))
            choices.append([None, same, *sorted(terms, key=lambda term: term.cost)[:MOST_TERMS]])
        for chosen in itertools.product(*choices):
            fits = self.fitting(chosen, wanted)
            valid = [bool(events) for events in fits]
            if not valid[at]:
                continue
            for guard in [None] if all(valid) else self.guards_within(valid, at):
                piece = self.piece(channel, chosen, [events if not guard or guard.values[place] else set() for place, events in enumerate(fits)], guard)
                if piece:
                    yield piece

    def guards_within(self, valid, at):
        kept = [guard for guard in self.terms.guards if guard.values[at] and all(ok or not holds for ok, holds in zip(valid, guard.values))]
        most = max((sum(guard.values) for guard in kept), default=0)
        kept = [guard for guard in kept if sum(guard.values) == most]
        exact = self.terms.exactly(at)
        return sorted(kept, key=lambda guard: guard.cost)[:1] or ([exact] if exact else [])

    def fitting(self, chosen, wanted):
        """Of each call the events that a pattern gives, where it gives only what is needed: nothing where it would give more."""
        fits = []
        for place, events in enumerate(wanted):
            kept = {event for event in events if all(term is None or (term.values[place] == field and type(term.values[place]) is type(field)) for term, field in zip(chosen, event))}
            size = 1
            for number, term in enumerate(chosen):
                if term is None:
                    size *= len({event[number] for event in kept})
            fits.append(kept if kept and size == len(kept) else set())
        return fits

    def piece(self, channel, chosen, events, guard):
        """A pattern as it is written, or nothing where what its free fields range over can't be written."""
        name, cost = self.script.channel_names[channel], guard.cost if guard else 0
        fields = self.script.fields_of(name)
        known = [place for place, own in enumerate(events) if own]
        free = [number for number, term in enumerate(chosen) if term is None]
        ranges = {number: [frozenset(event[number] for event in events[place]) if events[place] else None for place in range(len(events))] for number in free}
        last = len(chosen)
        while last and chosen[last - 1] is None and all(ranges[last - 1][place] == frozenset(fields[last - 1]) for place in known):
            last -= 1
        head, generators, bound = [name], [], iter(self.bound)
        for number, term in enumerate(chosen[:last]):
            if term is not None:
                head.append(term.text)
                cost += term.cost
                continue
            own = next(bound)
            over = self.whole(own, name, number, ranges[number], known) or self.ranging(own, ranges[number], fields[number], known)
            if over is None:
                return None
            head.append(own)
            generators.append(over.text)
            cost += 2 + over.cost
        return Piece(cost + (last < len(chosen)), (".".join(head), last < len(chosen)), tuple(generators), guard.text if guard else None, events)

    def whole(self, own, channel, number, ranges, known):
        """A generator over the set that the channel's declaration names for a field, where all of it is wanted; else nothing."""
        written, every = self.script.field_trees(channel)[number], frozenset(self.script.fields_of(channel)[number])
        if written[0] != "name" or any(ranges[place] != every for place in known):
            return None
        return Term(1, f"{own} <- {written[1]}", ())

    def ranging(self, name, ranges, field, known):
        """A generator for a bound name over what it ranges over at each call."""
        if len({len(ranges[place]) for place in known}) == 1 and len(ranges[known[0]]) == 1 and len(self.calls) > 1:
            return None
        for term in self.terms.sets:
            if all(term.values[place] == ranges[place] for place in known):
                return Term(term.cost, f"{name} <- {term.text}", ())
        if all(ranges[place] == ranges[known[0]] for place in known):
            return Term(3, f"{name} <- {self.set_text(ranges[known[0]])}", ())
        whole = frozenset(field)
        base = next((term.text for term in self.terms.sets if all(term.values[place] == whole for place in known)), self.set_text(whole))
        for term in sorted(self.terms.fields, key=lambda term: term.cost):
            if any(term.values[place] is None for place in known):
                continue
            tests = [("!=", lambda v, t: v != t)]
            if all(is_number(value) for value in whole) and all(is_number(term.values[place]) for place in known):
                tests += [("<", lambda v, t: v < t), (">", lambda v, t: v > t), ("<=", lambda v, t: v <= t), (">=", lambda v, t: v >= t)]
            for sign, test in tests:
                if all(ranges[place] == frozenset(v for v in whole if test(v, term.values[place])) for place in known):
                    return Term(4 + term.cost, f"{name} <- {base}, {name} {sign} {term.text}", ())
        return None

    def set_text(self, values):
        ordered = sorted(values)
        if len(ordered) > 1 and all(is_number(value) for value in ordered) and ordered == list(range(ordered[0], ordered[-1] + 1)):
            text = f"{ordered[0]}..{ordered[-1]}"
        else:
            text = ", ".join(str(value) if is_number(value) else self.script.text(value) for value in ordered)
        return "{ " + text + "}" if text.startswith("-") else "{" + text + "}"

    def together(self, pieces):
        """One expression for all pieces: those with the same generators and condition in one display."""
        groups = {}
        for piece in pieces:
            groups.setdefault((piece.generators, piece.guard), []).append(piece.head)
        texts = []
        for (generators, guard), heads in groups.items():
            rest = ", ".join([*generators, *([guard] if guard else [])])
            marks = ("{| ", " |}") if any(opened for _, opened in heads) else ("{", "}")
            texts.append(marks[0] + ", ".join(head for head, _ in heads) + (f" | {rest}" if rest else "") + marks[1])
        while len(texts) > 1:
            texts = [f"union({', '.join(texts[at : at + 2])})" if at + 1 < len(texts) else texts[at] for at in range(0, len(texts), 2)]
        return texts[0]


def has_values(script, text, parameters, calls, wanted):
    """Whether an expression, as it is printed, has the wanted value at each call."""
    try:
        tree = Parser(text).tree()
        for call, events in zip(calls, wanted):
            script.steps = 0
            if script.value(tree, dict(zip(parameters, call))) != events:
                return False
    except NO_VALUE:
        return False
    return True
