"""The network of the port: alphabetised parallels with exact alphabets, and the components in them, by the designer's text or by their graphs."""
import collections, re

from alphabets import Finder, condition
from channel_names import Channels, Names
from cspm_steps import TAU
from cspm_tokens import Refused, tokens_of
from cspm_values import in_order, spelled_field
from declarations import Declarations
from graphs import definitions, endless_states, grouped, reduced
from kept_data import ATOM, BREAK, Context, NotKept
from kept_definitions import Definitions, broken
from networks import Leaf, Named, Network, Row, Wrapped, literal
from ways import EventNames, Ways

# A part of the network: a text that may stand as an operand, the text of its alphabet, and its events at each instance.
Part = collections.namedtuple("Part", "text alphabet events")
LONGEST_ALPHABET, MOST_DEFINITIONS = 24, 50
IS_CALL = re.compile(r"[A-Za-z][A-Za-z0-9_]*'*(\([^()]*(\([^()]*\)[^()]*)*\))?$")


class Composer:
    """Writes the network. `lines` are the new definitions, `notes` what the designer is told, `needed` the designer's definitions that the new ones use."""

    def __init__(self, processes, tree):
        script = processes.script
        self.processes, self.script, self.tree = processes, script, tree
        self.names = Names([*script.channels, *script.definitions, *script.constructors, *script.datatypes, *script.nametypes])
        self.channels = Channels(processes, self.names)
        self.keeper = Definitions(processes, self.channels)
        self.lines, self.notes, self.warnings, self.needed, self.made = [], [], [], set(), set()
        self.network = Network(processes, tree, self.write)
        self.ways = Ways(self.network)
        self.events = EventNames(self.ways, self.channels)
        self.graphs = [self.events.renamed(leaf) for leaf in self.network.leaves]
        for leaf in self.network.leaves:
            if endless_states(reduced(self.graphs[leaf.index])):
                raise Refused(f"{self.network.title(leaf)} can do silent steps for ever (12): leave a hiding out there, or let an event stand in the loop")
        self.declarations = Declarations(self.keeper, self.events.split)
        self.finder = Finder(self.declarations.shown())
        self.top = self.part([((), self.network.top)], [], None).text

    def note(self, text):
        if text not in self.notes:
            self.notes.append(text)

    def write(self, tree, texts):
        """An expression of the network in the port; None where it has no form there."""
        text, fault, record = self.keeper.recorded(lambda: self.keeper.source(tree, Context(texts)))
        if fault or self.keeper.fault(record.uses):
            return None
        self.needed |= record.uses
        return text

    def use_names(self, text):
        self.needed |= {token.text for token in tokens_of(text) if token.text in self.script.definitions and token.text not in self.made}

    def bound_name(self, others):
        """A name for a generator or an input that hides none."""
        return next(name for name in map("x{}".format, ["", *range(1, 1000)]) if name not in self.names.taken and name not in others)

    def fresh_call(self, name, params):
        return called(self.names.fresh(name), params)

    # the tree

    def part(self, instances, params, wanted):
        """A part of the network at all its instances: (values of the params, tree). `wanted` is a name for its alphabet."""
        first = instances[0][1]
        if isinstance(first, Wrapped):
            self.note_wrapped(first)
            return self.part([(values, tree.child) for values, tree in instances], params, wanted)
        if isinstance(first, Named):
            return self.named(instances, params)
        if isinstance(first, Leaf):
            return self.leaf(instances, params)
        return self.row(instances, params, wanted) if isinstance(first, Row) else self.group(instances, params, wanted)

    def note_wrapped(self, tree):
        if tree.pairs:
            self.note("A renaming round a network became one of its components")
        else:
            self.note("A hiding round a network was left out: it does not change whether the network deadlocks. It may make a livelock; `livelock SCRIPT SET` looks for one")

    def named(self, instances, params):
        name = instances[0][1].name
        if name in self.made or name in self.keeper.closure(self.needed):
            name = self.names.fresh(name)
        self.made.add(name)
        part = self.part([(values, tree.child) for values, tree in instances], params, name)
        self.lines.append(f"{called(name, params)} = {part.text}")
        return Part(called(name, params), part.alphabet, part.events)

    def group(self, instances, params, wanted):
        """A parallel of two or more, the first with the others."""
        items = [self.part([(values, tree.items[at]) for values, tree in instances], params, None) for at in range(len(instances[0][1].items))]
        whole = items.pop()
        while items:
            one = items.pop()
            events = [first | rest for first, rest in zip(one.events, whole.events)]
            alphabet = self.alphabet(f"A_{wanted or 'PART'}", params, instances, events, f"union({one.alphabet}, {whole.alphabet})")
            whole = Part(f"{operand(one.text)} [{one.alphabet} || {whole.alphabet}] {operand(whole.text)}", alphabet, events)
        return whole

    def row(self, instances, params, wanted):
        first = instances[0][1]
        inner = [((*values, value), item) for values, tree in instances for value, item in zip(tree.values, tree.items)]
        item = self.part(inner, [*params, first.name], None)
        counts = iter(item.events)
        events = [frozenset().union(*(next(counts) for _ in tree.items)) for _, tree in instances]
        bound = self.bound_name([*params, first.name])
        long = "{" + f"{bound} | {first.name} <- {first.source}, {bound} <- {item.alphabet}" + "}"
        alphabet = self.alphabet(f"A_{wanted or 'ROW'}", params, instances, events, long)
        self.use_names(first.source)
        source = first.source if first.source.startswith("{") or IS_CALL.match(first.source) else f"({first.source})"
        return Part(f"|| {first.name}:{source} @ [{item.alphabet}] {operand(item.text)}", alphabet, events)

    def alphabet(self, name, params, instances, events, long=None):
        """The name of a definition with these events, which is made where there is none; or the set itself where it is short."""
        text, is_call = self.finder.find(params, [values for values, _ in instances], events)
        text = long if long and len(text) > 70 and not is_call else text
        self.use_names(text)
        if is_call or (len(text) <= LONGEST_ALPHABET and "if " not in text):
            return text
        call = self.fresh_call(name, params)
        self.lines.append(f"{call} = {text}")
        return call

    # components

    def leaf(self, instances, params):
        first = instances[0][1]
        own = {name: None for name in first.bound if name not in first.texts}
        name = first.name() or "COMPONENT"
        context = Context({**own, **first.texts}, {}, params, name)
        text, fault, record = self.keeper.recorded(lambda: self.keeper.process(first.tree, context) + self.renaming(instances, params))
        fault = fault or self.keeper.fault(record.uses)
        if fault:
            text = self.from_graphs(instances, params, name, fault)
        else:
            self.needed |= record.uses
            self.lines += record.pending
            if not IS_CALL.match(text):
                call = self.fresh_call(name, params)
                self.lines.append(broken(f"{call} = {text}"))
                text = call
        events = [self.events.alphabets[leaf.index] for _, leaf in instances]
        return Part(text.replace(BREAK, " "), self.alphabet(f"A_{name}", params, instances, events), events)

    def renaming(self, instances, params):
        """The renaming that gives a component's events a name for each way; empty where they keep theirs."""
        leaves = [leaf for _, leaf in instances]
        if not any(map(self.events.renames, leaves)):
            return ""
        if any(map(self.events.collides, leaves)):
            raise NotKept("a name for an event that is blocked beside one that is renamed to it")
        pairs, gens = [], []
        for channel in sorted({old[0] for leaf in leaves for old in self.events.coded(leaf)}):
            tags = [self.events.tags(leaf, channel) for leaf in leaves]
            if len(leaves) == 1 and tags[0] is None:
                pairs += [f"{dotted(old)} <- {dotted(new)}" for old, found in self.events.coded(leaves[0]).items() if old[0] == channel for new in found]
            elif None in tags or len(set(map(len, tags))) > 1 or len({tag[0] for own in tags for tag in own}) > 1:
                raise NotKept(f"a renaming of some events of {channel}")
            else:
                self.rename_channel(channel, tags, instances, params, pairs, gens)
        self.note("An event that several components do, not together, under one name got a name for each way; back under the one name it is the same network")
        generated = " | " + ", ".join(gens) if gens else ""
        return f"[[{', '.join(pairs)}{generated}]]"

    def rename_channel(self, channel, tags, instances, params, pairs, gens):
        """A channel of which all events of a component go the same ways: the tags of these are written as terms of the params, or as generators."""
        new, count = tags[0][0][0], len(tags[0])
        columns = [in_order(set(column)) for column in zip(*(tag[1:] for tag in tags[0]))]
        sizes = [len(column) for column in columns]
        if count > 1 and all(own == tags[0] for own in tags) and max(sizes) == count:
            texts = [literal(column[0]) for column in columns]
            for at in (at for at, column in enumerate(columns) if len(column) > 1):
                texts[at] = self.bound_name([*params, *(gen.split(" ")[0] for gen in gens)])
                gens.append(f"{texts[at]} <- {literal(frozenset(columns[at]))}")
            pairs.append(f"{channel} <- {'.'.join([new, *texts])}")
            return
        for place in range(count):
            texts = [self.term([own[place][1 + at] for own in tags], instances, params) for at in range(len(columns))]
            pairs += [f"{channel} <- {'.'.join([new, *texts])}"] if texts or new != channel else []

    def term(self, values, instances, params):
        """A text that has these values at the instances."""
        if len(set(values)) == 1:
            return literal(values[0])
        for text, found in self.terms(params, instances):
            if found == values:
                self.use_names(text)
                return text
        raise NotKept("a renaming by the name of a replicated parallel")

    def terms(self, params, instances):
        calls = [values for values, _ in instances]
        plain = [(name, [call[place] for call in calls]) for place, name in enumerate(params)]
        return plain + [term for term in self.finder.terms(params, calls) if term[1] not in [values for _, values in plain]]

    def from_graphs(self, instances, params, name, fault):
        """A component by its finite graph; those of a replicated parallel together where they differ by its name alone."""
        graphs = [reduced(self.graphs[leaf.index]) for _, leaf in instances]
        calls = [values for values, _ in instances]
        base = name if name in self.script.definitions and name not in self.made and self.keeper.fault([name]) else self.names.fresh(name)
        self.made.add(base)
        groups, cases = grouped(graphs, self.terms(params, instances)), []
        for number, (chosen, graph) in enumerate(groups):
            own = base if len(groups) == 1 else self.names.fresh(f"{base}_{chr(97 + number) if number < 26 else number}")
            given = params if len(groups) == 1 or len(chosen) > 1 else []
            states = [own, *(self.names.fresh(f"{own}_{state}") for state in range(1, len(graph)))]
            lines = definitions(graph, states, given, self.bound_name(params), self.events.count_of_last)
            for line in lines:
                self.use_names(line)
            self.lines += lines
            cases.append((chosen, called(own, given)))
            self.warn(own, len(graph), fault)
        if len(groups) > 1:
            cases.sort(key=lambda case: len(case[0]))
            tests = [(" or ".join(condition(params, calls[at]) for at in chosen), own) for chosen, own in cases]
            self.lines.append(f"{called(base, params)} = {''.join(f'if {test} then {own} else ' for test, own in tests[:-1])}{tests[-1][1]}")
        return called(base, params)

    def warn(self, name, count, fault):
        self.note(f"{name} is written from its graph of {count} states: the language lacks {fault}")
        if count > MOST_DEFINITIONS:
            self.warnings.append(f"{name} became {count} definitions, which nobody will want to read: {fault} is what the language lacks")


def called(name, params):
    return name + (f"({','.join(params)})" if params else "")


def operand(text):
    return text if IS_CALL.match(text) else f"({text})"


def dotted(event):
    return ".".join(map(spelled_field, event))
