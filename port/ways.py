"""Which components do each event of a network together, and the event's name in the port.

A way of an event is a set of components that do it together, each with the event's name in it: {(component, own event)}. Ways follow the tree of parallels:
`P [|X|] Q` joins a way of P with one of Q for an event in X, and keeps the ways of both for one outside. So the steps of the network are the ways of which all
components are ready, and an event with a name of its own for each way changes nothing but names. An event of no way is one that the network blocks."""
import collections, itertools

from cspm_steps import TAU
from cspm_tokens import Refused
from cspm_values import Dot, in_order, spelled
from networks import Leaf, Named, Wrapped, literal

MOST_WAYS = 16_384


class Ways:
    """The ways of a network's events: `visible`, and `hidden` by a hiding round a part of it."""

    def __init__(self, network):
        self.network, self.is_stable = network, False
        while not self.is_stable:
            self.find()
        for event, ways in self.of.items():
            for way in ways:
                if len(way) > 2:
                    names = ", ".join(self.titles(way))
                    raise Refused(f"{spelled(event)} is done by {len(way)} components together, {names}: no rule of dlcheck takes an event of three (20); divide it into events of two")
        if sum(map(len, self.of.values())) > MOST_WAYS:
            raise Refused(f"with a name for each way the channels have more than {MOST_WAYS} events")

    def find(self):
        """The ways by what each component can do; where the network blocks some of that, the component may do less, and it has to be done again."""
        self.hidden = collections.defaultdict(list)
        self.visible, self.is_stable = self.together(self.network.top), True
        self.of = {event: self.visible.get(event, []) + self.hidden.get(event, []) for event in in_order({*self.visible, *self.hidden})}
        allowed = [set() for _ in self.network.leaves]
        for index, event in (end for ways in self.of.values() for way in ways for end in way):
            allowed[index].add(event)
        for leaf in self.network.leaves:
            does = done_within(leaf.steps, allowed[leaf.index])
            self.is_stable = self.is_stable and does == leaf.does
            leaf.does = does

    def titles(self, way):
        return [self.network.title(self.network.leaves[index]) for index in sorted(index for index, _ in way)]

    def together(self, tree):
        """The ways of each event that a part of the network can do."""
        if isinstance(tree, Leaf):
            return {event: [frozenset([(tree.index, event)])] for event in tree.does}
        if isinstance(tree, Named):
            return self.together(tree.child)
        if isinstance(tree, Wrapped):
            return self.wrapped(tree, self.together(tree.child))
        return self.joined([self.together(item) for item in tree.items], tree.shared, tree.sets)

    def wrapped(self, tree, ways):
        if tree.pairs:
            renamed, new = {old for old, _ in tree.pairs}, collections.defaultdict(list)
            for old, event in [*in_order(tree.pairs), *((event, event) for event in ways if event not in renamed)]:
                new[event] += [way for way in ways.get(old, []) if way not in new[event]]
            return {event: own for event, own in new.items() if own}
        for event in tree.events & ways.keys():
            self.hidden[event] += ways.pop(event)
        return ways

    def joined(self, parts, shared, sets):
        found = {}
        for event in {event for part in parts for event in part}:
            if sets is not None:
                ends = [part for part, own in zip(parts, sets) if event in own]
                ways = self.combined(ends, event) if ends else []
            elif event in shared:
                ways = self.combined(parts, event)
            else:
                ways = [way for part in parts for way in part.get(event, [])]
            if ways:
                found[event] = ways
        return found

    def combined(self, parts, event):
        """The ways of parts that have to do an event together."""
        count = 1
        for part in parts:
            count *= len(part.get(event, []))
        if count > MOST_WAYS:
            raise Refused(f"{spelled(event)} is done in more than {MOST_WAYS} ways")
        return [frozenset().union(*ways) for ways in itertools.product(*(part.get(event, []) for part in parts))]


def done_within(steps, allowed):
    """The events that a component does if it does none but these."""
    seen, todo, found = {0}, [0], set()
    for state in todo:
        for label, to in steps[state]:
            if label == TAU or label in allowed:
                found.add(label)
                todo += [] if to in seen else [to]
                seen.add(to)
    return frozenset(found - {TAU})


class EventNames:
    """The events of the port. `of_leaf` gives of each component its own events and what they become, `split` of each channel with several ways the new channel
    with the types that it has before the others, and `meaning` of each new event the event that it was and whether it was hidden."""

    def __init__(self, ways, channels):
        self.ways, self.channels, self.split, self.meaning = ways, channels, {}, {}
        self.of_leaf = [collections.defaultdict(list) for _ in ways.network.leaves]
        by_channel = collections.defaultdict(dict)
        for event, own in ways.of.items():
            by_channel[channels.encode(event)[0]][event] = own
        for channel, events in by_channel.items():
            if all(len(own) == 1 for own in events.values()):
                self.name(events, lambda event, way: channels.encode(event))
            else:
                self.name_each_way(channel, events)
        # of each channel of the port the fields of its events
        self.rows = collections.defaultdict(set)
        for event in [event for channel in channels.kinds for event in map(channels.encode, channels.processes.extensions((channel,)))] + list(self.meaning):
            self.rows[event[0]].add(tuple(event[1:]))
        self.alphabets = [frozenset(new for found in own.values() for new in found) for own in self.of_leaf]

    def name(self, events, name_of):
        for event, own in events.items():
            hidden = self.ways.hidden.get(event, [])
            for way in own:
                new = name_of(event, way)
                self.meaning[new] = self.channels.encode(event), way in hidden
                for index, old in way:
                    self.of_leaf[index][old].append(new)

    def name_each_way(self, channel, events):
        """A channel with several ways: another one, of which the first fields tell the way."""
        new = self.channels.fresh(f"{channel}_by")
        tags = self.tags_by_component(events) or {(event, way): (at,) for event, own in events.items() for at, way in enumerate(own)}
        columns = list(zip(*tags.values()))
        self.split[channel] = new, [literal(frozenset(column)) for column in columns]
        self.name(events, lambda event, way: Dot((new, *tags[event, way], *self.channels.encode(event)[1:])))

    def tags_by_component(self, events):
        """Tags that tell which component it is at each end where there are several; None where these don't tell the ways apart."""
        rows = {(event, way): sorted(index for index, _ in way) for event, own in events.items() for way in own}
        if len(set(map(len, rows.values()))) > 1:
            return None
        columns = [(at, self.keys(set(column))) for at, column in enumerate(zip(*rows.values())) if len(set(column)) > 1]
        tags = {key: tuple(keys[row[at]] for at, keys in columns) for key, row in rows.items()}
        are_told = all(len({tags[event, way] for way in own}) == len(own) for event, own in events.items())
        return tags if are_told else None

    def keys(self, indices):
        """Of components a key each: the value of the replicated name where they are of one row, else a number."""
        leaves = [self.ways.network.leaves[index] for index in sorted(indices)]
        first = leaves[0]
        for name, text in first.texts.items() if all(leaf.tree is first.tree for leaf in leaves) else []:
            values = [leaf.bound.get(name) for leaf in leaves]
            if text and text[0].isalpha() and all(type(value) is type(values[0]) and isinstance(value, (int, str)) for value in values) and len(set(values)) == len(values):
                return {leaf.index: value for leaf, value in zip(leaves, values)}
        return {leaf.index: number for number, leaf in enumerate(leaves)}

    def renames(self, leaf):
        """Whether a component's events have other names in the port."""
        return any(new != [self.channels.encode(old)] for old, new in self.of_leaf[leaf.index].items())

    def count_of_last(self, channel):
        """How many values the last field of a channel has."""
        base = next((own for own, (new, _) in self.split.items() if new == channel and self.rows[own] != {()}), channel)
        return len({row[-1:] for row in self.rows[base]})

    def coded(self, leaf):
        """Of a component's own events, as the port has them, what they become."""
        return {self.channels.encode(old): new for old, new in self.of_leaf[leaf.index].items()}

    def tags(self, leaf, channel):
        """What all events of a channel get in a component: (new channel, fields before the others) for each way; None where this differs between them."""
        found = set()
        for old, new in self.coded(leaf).items():
            if old[0] == channel:
                count = [len(own) - len(old) for own in new]
                if any(more < 0 or own[1 + more :] != old[1:] or not self.takes_all(channel, own[0]) for own, more in zip(new, count)):
                    return None
                found.add(tuple(in_order(own[: 1 + more] for own, more in zip(new, count))))
        return next(iter(found)) if len(found) == 1 else None

    def collides(self, leaf):
        """Whether an event that the network blocks in a component would have the new name of another one."""
        own, alphabet = self.of_leaf[leaf.index], self.alphabets[leaf.index]
        for event in {self.channels.encode(label) for steps in leaf.steps for label, _ in steps if label != TAU and label not in own}:
            fronts = [(event[0],), *(self.tags(leaf, event[0]) or ())]
            if any(Dot((*front, *event[1:])) in alphabet for front in fronts):
                return True
        return False

    def takes_all(self, channel, new):
        """Whether all events of a channel can be renamed to another one."""
        return self.split.get(channel, ("",))[0] == new or (self.rows[channel] <= self.rows[new] and new not in {own for own, _ in self.split.values()})

    def renamed(self, leaf):
        """The graph of a component with the events of the port, without those that the network blocks."""
        own = self.of_leaf[leaf.index]
        return [[(new, to) for label, to in steps for new in ([TAU] if label == TAU else own.get(label, []))] for steps in leaf.steps]
