"""Who asks whom: for each link of a network a reading by the conditions S1 to S6 of the rule client-server, found from the components' tables.

It proves nothing: whether an annotation meets the rule is told by `check`."""
import collections

from searches import Reached
from texts import listed, trace_text

# Who asks and who answers on a link, by which events.
Reading = collections.namedtuple("Reading", "client server requests answers")
# Why a link has no reading, or not this one: the condition, what breaks it, and the events that are waited for there.
Fault = collections.namedtuple("Fault", "condition what offer", defaults=(frozenset(),))
MOST_TRIES = 50_000


class TooLong(Exception):
    """No choice was found in as many tries as are made."""


def circle_of(after):
    """A shortest circle of a graph, or nothing."""
    best = []
    for start in sorted(after):
        before, waiting = {start: None}, collections.deque([start])
        while waiting:
            part = waiting.popleft()
            for other in sorted(after.get(part, ())):
                if other == start:
                    row = [part]
                    while before[row[-1]] is not None:
                        row.append(before[row[-1]])
                    best = row[::-1] if not best or len(row) < len(best) else best
                elif other not in before:
                    before[other] = part
                    waiting.append(other)
    return best


def named_events(network, part):
    """The events of a component's alphabet by their texts."""
    return {network.script.text(event): event for event in network.components[part].alphabet}


class Turns:
    """A component's table beside the count of a link's events so far, even or odd."""

    def __init__(self, table, events):
        self.reached = Reached((0, 0), lambda state: ((event, (to, state[1] ^ (event in events))) for event, to in table.nodes[state[0]].steps))
        # of each count: the events that are possible there, with the state at which each first is
        self.possible = ({}, {})
        for state in self.reached:
            for event, _ in table.nodes[state[0]].steps:
                if event in events:
                    self.possible[state[1]].setdefault(event, state)

    def has(self, state):
        return state in self.reached.before

    def trace(self, state):
        return trace_text(self.reached.trace(state))

    def open_nodes(self):
        return [node for node, odd in self.reached if odd]


class Roles:
    """The readings of each link, and a choice of one for each of them; or the readings of a few links alone, by their places."""

    def __init__(self, network, places=None, links=None):
        self.network = network
        # of links that are given a part may be meant, of which no annotation speaks
        self.links, self.minds_annotations = (network.links(), True) if links is None else (links, False)
        self.turns, self.readings, self.faults, self.chief, self.kept_waits, self.kept_events = {}, {}, {}, {}, {}, {}
        for place in range(len(self.links)) if places is None else places:
            for part in self.ends(place)[0]:
                self.turns[part, place] = Turns(network.table(part), set(self.links[place].events))
            self.read(place)

    def waits(self, part):
        """Where a component waits for shared events alone: the places in its table, and the events."""
        if part not in self.kept_waits:
            shared = {event for link in self.network.links_of(part) for event in link.events}
            nodes = self.network.table(part).nodes
            self.kept_waits[part] = [(node, frozenset(offer)) for node, at in enumerate(nodes) for offer in at.accepts if offer and shared.issuperset(offer)]
        return self.kept_waits[part]

    def events(self, part):
        """The events of a component's alphabet by their texts."""
        if part not in self.kept_events:
            self.kept_events[part] = named_events(self.network, part)
        return self.kept_events[part]

    # readings of one link

    def read(self, place):
        """All readings of a link that its two ends allow by themselves, and why the others are none."""
        self.readings[place], self.faults[place] = [], []
        for requests, answers in self.partings(place):
            for client, server in self.ends(place):
                reading = Reading(client, server, requests, answers)
                fault = (self.noted_fault(place, reading) if self.minds_annotations else None) or self.server_fault(place, reading) or self.client_fault(place, reading)
                if fault:
                    self.faults[place].append((reading, fault))
                else:
                    self.readings[place].append(reading)
        self.readings[place].sort(key=lambda reading: self.dislike(place, reading))
        self.faults[place].sort(key=lambda kept: self.dislike(place, kept[0]) if kept[0] else (-1,))

    def ends(self, place):
        link = self.links[place]
        return (link.left, link.right), (link.right, link.left)

    def other(self, part, place):
        link = self.links[place]
        return link.right if part == link.left else link.left

    def partings(self, place):
        """The ways to part a link's events into requests and answers that take turns at both ends, and all as requests."""
        events = set(self.links[place].events)
        first, second = (set().union(*(self.turns[part, place].possible[odd] for part in self.ends(place)[0])) for odd in (0, 1))
        idle, parted = events - first - second, []
        if first & second:
            self.faults[place].append((None, self.turn_fault(place, min(first & second))))
        else:
            parted = [(first | idle, second), (first, second | idle)] if idle else [(first, second)]
        parted = [(requests, answers) for requests, answers in parted if answers and requests]
        return [(frozenset(requests), frozenset(answers)) for requests, answers in [*parted, (events, ())]]

    def turn_fault(self, place, event):
        told = {}
        for part in self.ends(place)[0]:
            for odd in (0, 1):
                if event in self.turns[part, place].possible[odd]:
                    turns = self.turns[part, place]
                    told.setdefault(odd, f"of {self.network.short(part)} after {turns.trace(turns.possible[odd][event])}")
        return Fault("S3", f"{event} would be both: it is possible {told[0]}, and {told[1]}")

    def server_fault(self, place, reading):
        """Whether the server is choosy about these requests, or takes them while it owes an answer."""
        turns = self.turns[reading.server, place]
        for node, offer in self.waits(reading.server):
            if offer & reading.requests and not offer >= reading.requests:
                missing = listed(sorted(reading.requests - offer))
                return Fault("S4", f"{self.network.short(reading.server)} {self.after(reading.server, node)} waits for {listed(sorted(offer))} and not for {missing}")
            if reading.answers and turns.has((node, 1)) and offer & reading.requests:
                return Fault("S4", f"{self.network.short(reading.server)} after {turns.trace((node, 1))} owes an answer and waits for {listed(sorted(offer))}")
        return None

    def client_fault(self, place, reading):
        """Whether the client, once it has asked, doesn't wait for every answer."""
        turns = self.turns[reading.client, place]
        for node, offer in self.waits(reading.client) if reading.answers else ():
            if turns.has((node, 1)) and not offer >= reading.answers:
                missing = listed(sorted(reading.answers - offer))
                return Fault("S5", f"{self.network.short(reading.client)} after {turns.trace((node, 1))} waits for {listed(sorted(offer))} and not for {missing}", offer)
        return None

    def noted_fault(self, place, reading):
        """Whether an annotation that is there says something else."""
        events = set(self.links[place].events)
        own = {reading.client: (reading.requests, reading.answers, (), ()), reading.server: ((), (), reading.requests, reading.answers)}
        for part, wanted in own.items():
            sets = self.network.sets(part, "roles")
            if sets and [events & set(noted.events) for noted in sets] != [set(kept) for kept in wanted]:
                return Fault("S2", f"the annotation of {self.network.short(part)} says otherwise")
        return None

    def after(self, part, node):
        trace = Turns(self.network.table(part), ()).trace((node, 0))
        return "at its start" if trace == "<>" else f"after {trace}"

    def dislike(self, place, reading):
        """How unnatural a reading is: answers are natural; a client chooses when it asks, a server waits for others too and works before it answers."""
        seen = 0 if reading.answers else 8
        for part, weight in ((reading.client, 1), (reading.server, -1)):
            works, waits, chooses = self.manner(part, place, reading)
            seen += weight * ((2 if works and reading.answers else 0) + (2 if waits else 0) - (2 if chooses else 0))
        return seen, self.company(reading.client, reading) - self.company(reading.server, reading), reading.client > reading.server

    def company(self, part, reading):
        """Whether an end can do something else wherever it can do a request: who is asked mostly can."""
        nodes = [{event for event, _ in node.steps} for node in self.network.table(part).nodes]
        return all(able - reading.requests for able in nodes if able & reading.requests)

    def manner(self, part, place, reading):
        """Of an end: whether it does something else between request and answer, waits for others beside the requests, and may refuse one that is possible."""
        events, table = set(self.links[place].events), self.network.table(part)
        works = any(event not in events for node in self.turns[part, place].open_nodes() for event, _ in table.nodes[node].steps)
        waits = any(offer & reading.requests and offer - events for _, offer in self.waits(part))
        chooses = any(not offer >= {event for event, _ in table.nodes[node].steps if event in reading.requests} for node, offer in self.waits(part))
        return works, waits, chooses

    # a reading for each link

    def takes(self, reading):
        """Where a server waits for these requests: of all links that it serves this has to be the same."""
        return frozenset(wait for wait in self.waits(reading.server) if wait[1] & reading.requests)

    def choice(self):
        """A reading for each link, by place, and whether nobody is a client of itself by others; nothing where there is no choice."""
        if not all(self.readings.values()):
            return None
        for acyclic in (True, False):
            for variables in (self.alike(), self.alone(range(len(self.links)))):
                found = self.solved(variables, acyclic)
                if found is not None:
                    return {place: reading for candidate in found for place, reading in candidate.items()}, acyclic
        return None

    def solved(self, variables, acyclic):
        try:
            return Search(variables, self.takes, acyclic).solve() if variables is not None else None
        except TooLong:
            return None

    def alone(self, places):
        """Each reading of each of these links as a candidate by itself."""
        return [[{place: reading} for reading in self.readings[place]] for place in places]

    def alike(self):
        """Candidates for links of one shape together, so that the same end of each asks."""
        classes = {}
        for place in range(len(self.links)):
            left, right = (self.shape(part, place) for part in self.ends(place)[0])
            sides = {self.links[place].left: (left, 0), self.links[place].right: (right, 1)} if left == right else {self.links[place].left: (left,), self.links[place].right: (right,)}
            options = {}
            for reading in self.readings[place]:
                options.setdefault((sides[reading.client], bool(reading.answers)), reading)
            classes.setdefault(tuple(sorted((left, right))), []).append((place, options))
        variables = []
        for members in classes.values():
            kept = [key for key in members[0][1] if all(key in options for _, options in members)]
            variables.append([{place: options[key] for place, options in members} for key in kept])
        return variables if all(variables) else None

    def shape(self, part, place):
        """How a link's events look from one end: the definition, and in which fields its parameters stand."""
        component = self.network.components[part]
        if not component.name or component.chosen:
            return (str(part),)
        seen = set()
        for text in self.links[place].events:
            event = self.events(part)[text]
            chief = self.chief_parameters(component.name, event.channel)
            seen.add((event.channel, tuple(at is not None and component.values[at] == field for at, field in zip(chief, event.fields))))
        return (component.name, *sorted(seen))

    def chief_parameters(self, name, channel):
        """For each field of a channel the parameter of a definition that is found there most often among all its calls."""
        if (name, channel) not in self.chief:
            counts = collections.defaultdict(collections.Counter)
            fields = 0
            for component in self.network.components:
                if component.name == name and not component.chosen:
                    own = [event.fields for event in component.alphabet if event.channel == channel]
                    fields = max([fields, *map(len, own)])
                    for field in range(fields):
                        counts[field].update(at for at, value in enumerate(component.values) if any(event[field] == value for event in own))
            self.chief[name, channel] = [min(counts[field], key=lambda at: (-counts[field][at], at), default=None) for field in range(fields)]
        return self.chief[name, channel]

    def circle(self, chosen):
        """Components each of which asks the next, the last the first; nothing where there are none."""
        asks = collections.defaultdict(set)
        for reading in chosen.values():
            asks[reading.client].add(reading.server)
        return circle_of(asks)

    # why there is no choice

    def untold(self):
        """Links without any reading, each with why; else a component whose links have none together."""
        bare = [place for place in range(len(self.links)) if not self.readings[place]]
        if bare:
            return [(place, self.faults[place]) for place in bare], None
        for part in range(self.network.count):
            own = [place for place in range(len(self.links)) if part in self.ends(place)[0]]
            if self.solved(self.alone(own), False) is None:
                return [], self.clash(part, own)
        return [], None

    def clash(self, part, places):
        """Two links of a component that have no readings together, with what it waits for on one and not on the other."""
        for place in places:
            for other in places[places.index(place) + 1 :]:
                if self.solved(self.alone([place, other]), False) is None:
                    return part, [place, other], self.apart(part, place, other)
        return part, places, None

    def apart(self, part, place, other):
        for one in self.readings[place]:
            for two in self.readings[other]:
                if one.server == two.server == part:
                    for node, offer in sorted(self.takes(one) ^ self.takes(two), key=lambda wait: (wait[0], sorted(wait[1]))):
                        missing = sorted((one.requests | two.requests) - offer)
                        return Fault("S4", f"{self.network.short(part)} {self.after(part, node)} waits for {listed(sorted(offer))} and not for {listed(missing)}")
        return None


def asked(network, reading):
    """`USER(0) asks STORE by read.0 and gets data.0`."""
    answers = f" and gets {in_order(network, reading.client, reading.answers)}" if reading.answers else " without answers"
    return f"{network.short(reading.client)} asks {network.short(reading.server)} by {in_order(network, reading.client, reading.requests)}{answers}"


def in_order(network, part, events):
    return listed([event for event in network.alphabet(part) if event in events])


def read_link(network, left, right):
    """The most natural reading of a link, or nothing; and the readings that are none, each with its fault, the most natural first."""
    place = next((place for place, link in enumerate(network.links()) if (link.left, link.right) == (left, right)), None)
    if place is None or not network.table(left) or not network.table(right):
        return None, []
    roles = Roles(network, [place])
    return next(iter(roles.readings[place]), None), [dropped for dropped in roles.faults[place] if dropped[0]] or roles.faults[place]


class Search:
    """Takes one candidate of each variable, a reading for each of some links, such that each server is the same to all that it serves, and, where this is
    asked for, nobody is a client of itself by others."""

    def __init__(self, variables, takes, acyclic):
        self.left, self.takes, self.acyclic, self.tries = dict(enumerate(variables)), takes, acyclic, 0
        self.served, self.asks, self.touching, self.kept = {}, collections.defaultdict(collections.Counter), collections.defaultdict(set), {}
        for variable, candidates in self.left.items():
            for candidate in candidates:
                for reading in candidate.values():
                    self.touching[reading.server].add(variable)

    def taken_at(self, reading):
        if reading not in self.kept:
            self.kept[reading] = self.takes(reading)
        return self.kept[reading]

    def fits(self, candidate):
        served = {}
        for reading in candidate.values():
            wanted = self.served.get(reading.server, served.get(reading.server))
            if wanted is not None and wanted != self.taken_at(reading):
                return False
            served[reading.server] = self.taken_at(reading)
        return True

    def reaches(self, start, end):
        seen, waiting = {start}, [start]
        while waiting:
            part = waiting.pop()
            if part == end:
                return True
            for server, count in self.asks[part].items():
                if count and server not in seen:
                    seen.add(server)
                    waiting.append(server)
        return False

    def solve(self):
        """The candidates that are taken, or nothing."""
        if not self.left:
            return []
        variable = min(self.left, key=lambda number: (len(self.left[number]), number))
        candidates = self.left.pop(variable)
        for candidate in candidates:
            self.tries += 1
            if self.tries > MOST_TRIES:
                raise TooLong
            undo = []
            if self.fits(candidate) and self.take(candidate, undo):
                rest = self.solve()
                if rest is not None:
                    return [candidate, *rest]
            for step in reversed(undo):
                step()
        self.left[variable] = candidates
        return None

    def take(self, candidate, undo):
        """Takes a candidate; each change leaves how it is taken back. Whether every other variable still has one."""
        for reading in candidate.values():
            if self.acyclic and self.reaches(reading.server, reading.client):
                return False
            self.asks[reading.client][reading.server] += 1
            undo.append(lambda reading=reading: self.asks[reading.client].subtract([reading.server]))
            if reading.server not in self.served:
                self.served[reading.server] = self.taken_at(reading)
                undo.append(lambda reading=reading: self.served.pop(reading.server))
        for other in set().union(*(self.touching[reading.server] for reading in candidate.values())):
            if other in self.left:
                before = self.left[other]
                self.left[other] = [candidate for candidate in before if self.fits(candidate)]
                undo.append(lambda other=other, before=before: self.left.__setitem__(other, before))
                if not self.left[other]:
                    return False
        return True
