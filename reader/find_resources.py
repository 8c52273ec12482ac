"""Who uses what: which components are resources and which events acquire and release them, by the conditions U1 to U5 of the rule resource, found from
the components' tables.

It proves nothing: whether an annotation meets the rule is told by `check`."""
import collections

from find_roles import Fault, Turns, circle_of
from searches import Reached
from texts import listed, trace_text

# The events that acquire a resource, and those that release it.
Use = collections.namedtuple("Use", "acquire release")


class Held:
    """A component's table beside who holds it, if it is a resource: the link of the event by which it was acquired, or nothing."""

    def __init__(self, table, link_of):
        def steps(state):
            for event, to in table.nodes[state[0]].steps:
                link, holder = link_of.get(event), state[1]
                yield event, (to, holder if link is None else link if holder is None else None)

        self.reached, self.possible, self.foreign = Reached((0, None), steps), ({}, {}), None
        for state in self.reached:
            for event, _ in table.nodes[state[0]].steps:
                link = link_of.get(event)
                if link is not None:
                    self.possible[state[1] is not None].setdefault(event, state)
                    if state[1] not in (None, link):
                        self.foreign = self.foreign or (event, state)

    def trace(self, state):
        return trace_text(self.reached.trace(state))


class Uses:
    """The components that can be resources, by the links that they have."""

    def __init__(self, network):
        self.network, self.links = network, network.links()
        self.shared = [{} for _ in range(network.count)]
        for place, link in enumerate(self.links):
            for part in (link.left, link.right):
                self.shared[part].update(dict.fromkeys(link.events, place))
        self.waits = [
            [(node, frozenset(offer)) for node, at in enumerate(network.table(part).nodes) for offer in at.accepts if offer and self.shared[part].keys() >= set(offer)]
            for part in range(network.count)
        ]
        self.turns, self.uses, self.faults = {}, {}, {}
        for part in range(network.count):
            self.look(part)

    def turn(self, part, place):
        if (part, place) not in self.turns:
            self.turns[part, place] = Turns(self.network.table(part), set(self.links[place].events))
        return self.turns[part, place]

    def other(self, part, place):
        link = self.links[place]
        return link.right if part == link.left else link.left

    # one component as a resource

    def look(self, part):
        """What acquires and releases a component, if it can be a resource, or why it can't."""
        held = Held(self.network.table(part), self.shared[part])
        use = self.noted(part) or self.parted(part, held)
        fault = self.holding_fault(part, held, use) or self.waiting_fault(part, held, use) or self.user_fault(part, use)
        self.uses[part], self.faults[part] = use, fault

    def noted(self, part):
        sets = self.network.sets(part, "resource")
        return Use(*(frozenset(noted.events) for noted in sets)) if sets else None

    def parted(self, part, held):
        """Events that are possible while it is free acquire it; of those that it never does, the user's turns tell."""
        acquire, release = set(held.possible[False]), set(held.possible[True])
        for event, place in self.shared[part].items():
            if event not in acquire | release:
                idle_first = event in self.turn(self.other(part, place), place).possible[0]
                (acquire if idle_first else release).add(event)
        return Use(frozenset(acquire), frozenset(release))

    def holding_fault(self, part, held, use):
        name = self.network.short(part)
        if self.network.components[part].chosen or not self.network.name(part):
            return Fault("U1", f"{name} is no call of a definition where it stands in the network: name it by one, and call that")
        both = sorted(use.acquire & use.release)
        if both:
            free, taken = (held.trace(held.possible[way][both[0]]) if both[0] in held.possible[way] else "" for way in (False, True))
            return Fault("U2", f"{both[0]} is possible of {name} while it is free, after {free}, and while it is held, after {taken}")
        if held.foreign:
            event, state = held.foreign
            return Fault("U2", f"after {held.trace(state)}, {event} is possible of {name}, which isn't of the user that holds it")
        return None

    def waiting_fault(self, part, held, use):
        """Whether it waits and doesn't offer all that it has to."""
        offers = collections.defaultdict(list)
        for node, offer in self.waits[part]:
            offers[node].append(offer)
        for node, holder in held.reached:
            wanted = use.acquire if holder is None else use.release & set(self.links[holder].events)
            for offer in offers[node]:
                if not offer >= wanted:
                    return Fault("U3", f"{self.network.short(part)} after {held.trace((node, holder))} waits for {listed(sorted(offer))} and not for {listed(sorted(wanted - offer))}")
        return None

    def user_fault(self, part, use):
        """Whether a neighbour acquires it while it has it, or releases it while it hasn't."""
        for place in sorted(set(self.shared[part].values())):
            user = self.other(part, place)
            turns = self.turn(user, place)
            for odd, allowed in ((0, use.acquire), (1, use.release)):
                for event, state in turns.possible[odd].items():
                    if event not in allowed:
                        return Fault("U4", f"{self.network.short(user)} can do {event} after {turns.trace(state)}")
        return None

    # all components

    def pieces(self):
        """The components that links and common definitions join, each with its side, 0 or 1; of a piece without two sides the component where it fails."""
        beside = collections.defaultdict(set)
        for link in self.links:
            beside[link.left].add((link.right, 1))
            beside[link.right].add((link.left, 1))
        callers = collections.defaultdict(list)
        for part, component in enumerate(self.network.components):
            if component.name and not component.chosen and self.shared[part]:
                callers[component.name].append(part)
        for parts in callers.values():
            for part in parts[1:]:
                beside[parts[0]].add((part, 0))
                beside[part].add((parts[0], 0))
        found, done = [], set()
        for start in sorted(beside):
            if start not in done:
                sides, odd = self.sides_from(start, beside)
                done |= set(sides)
                found.append((sides, odd))
        return found

    def sides_from(self, start, beside):
        sides, odd, waiting = {start: 0}, None, collections.deque([start])
        while waiting:
            part = waiting.popleft()
            for other, apart in sorted(beside[part]):
                if other not in sides:
                    sides[other] = sides[part] ^ apart
                    waiting.append(other)
                elif sides[other] != sides[part] ^ apart:
                    odd = odd or (part, other)
        return sides, odd

    def choice(self):
        """The components that are resources, or nothing; and of each piece without a choice its sides with what breaks them."""
        resources, faults = [], []
        noted = {part for part in self.uses if self.network.sets(part, "resource")}
        for sides, odd in self.pieces():
            if odd:
                faults.append((sides, odd))
                continue
            ways = []
            for side in (1, 0):
                own = [part for part in sides if sides[part] == side]
                broken = [part for part in own if self.faults[part]] + [part for part in noted if part in sides and part not in own]
                if not broken:
                    ways.append((bool(self.circle(own)), self.dislike(own, [part for part in sides if part not in own]), own))
            if ways:
                resources += min(ways, key=lambda way: way[:2])[2]
            else:
                faults.append((sides, None))
        return sorted(resources), faults

    def dislike(self, own, others):
        """How unnatural it is that these are the resources: a resource has no events of its own, several users, and one at a time."""
        works = sum(not self.shared[part].keys() >= set(self.network.does(part)) for part in own)
        shared = [sum(len(self.network.links_of(part)) for part in parts) / len(parts) for parts in (own, others)]
        return works > 0, shared[0] < shared[1], min(own, default=0) < min(others, default=0)

    def circle(self, resources):
        """Resources each of which is held while the next is wanted, the last while the first is; nothing where there are none."""
        above = collections.defaultdict(set)
        for user in {self.other(part, place) for part in resources for place in set(self.shared[part].values())}:
            places = sorted(set(self.shared[user].values()))
            for held in places:
                at = set(self.turn(user, held).open_nodes())
                for node, offer in self.waits[user]:
                    if node in at:
                        wanted = {self.shared[user][event] for event in offer if event in self.uses[self.other(user, self.shared[user][event])].acquire}
                        above[self.other(user, held)] |= {self.other(user, place) for place in wanted}
        return circle_of(above)

