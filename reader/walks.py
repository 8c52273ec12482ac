"""A run of the network, followed on the tables of its components, and who waits for whom where it is stuck. It proves nothing."""
from reports import node_after

MOST_TRIES = 20_000


class Walk:
    """The steps of a run with the node of each component after them."""

    def __init__(self, network, steps):
        self.network, self.steps = network, steps
        self.events = [step.event for step in steps if step.event is not None]
        self.traces = {part: self.own_events(part) for part in range(network.count)}
        # the node of each component after the run, or nothing where its table is not there
        self.nodes = [node_after(network.table(part), self.traces[part]) if network.table(part) else None for part in range(network.count)]

    def own_events(self, part):
        alphabet = set(self.network.alphabet(part))
        return [event for event in self.events if event in alphabet]

    def silent(self):
        """How many steps are silent."""
        return len(self.steps) - len(self.events)

    def last(self, part):
        """The last event that a component did, or nothing."""
        return self.traces[part][-1] if self.traces[part] else None


class Standstill:
    """A state in which nothing can happen: of each component what it waits for, and of whom.

    A table tells the least sets of events that a component may wait for at a node. Where there are several, a choice is taken by which the network as a whole
    is at a stand, and `settled` says whether there was one."""

    def __init__(self, network, nodes):
        self.network, self.nodes = network, nodes
        self.choices = [self.offers(part) for part in range(network.count)]
        self.narrow()
        self.left = MOST_TRIES
        self.picked = self.pick([], 0)
        self.settled = self.picked is not None
        if not self.settled:
            self.picked = [offers[0] if offers else [] for offers in self.choices]

    def offers(self, part):
        table, node = self.network.table(part), self.nodes[part]
        return list(table.nodes[node].accepts) if table and node is not None else []

    def others(self, part, event):
        return [other for other in self.network.owners(event) if other != part]

    def fits(self, part, offer):
        """Whether each event of the offer may be refused by another component."""
        return all(any(not self.choices[other] or any(event not in kept for kept in self.choices[other]) for other in self.others(part, event)) for event in offer)

    def narrow(self):
        """Leaves out the offers of which some event could happen whatever the others chose."""
        changed = True
        while changed:
            changed = False
            for part, offers in enumerate(self.choices):
                kept = [offer for offer in offers if self.fits(part, offer)]
                if kept and len(kept) < len(offers):
                    self.choices[part], changed = kept, True

    def pick(self, picked, part):
        """One offer of each component so that no event is in the offers of all that have it; nothing where none is found."""
        stack = [iter(self.choices[0] or [[]])] if self.choices else []
        while stack:
            self.left -= 1
            offer = next(stack[-1], None)
            if self.left < 0 or (offer is None and len(stack) == 1):
                return None
            if offer is None:
                stack.pop()
                picked.pop()
                continue
            picked.append(offer)
            if self.happens(picked):
                picked.pop()
            elif len(picked) == len(self.choices):
                return picked
            else:
                stack.append(iter(self.choices[len(picked)] or [[]]))
        return picked

    def happens(self, picked):
        """Whether an event of the last offer is in those of all that have it, as far as they are picked."""
        last = len(picked) - 1
        for event in picked[last]:
            owners = self.network.owners(event)
            if owners and all(part <= last and event in picked[part] for part in owners):
                return True
        return False

    def waits(self, part):
        """What a component waits for: each event with the components that don't offer it."""
        return [(event, [other for other in self.others(part, event) if event not in self.picked[other]]) for event in self.picked[part]]

    def circle(self):
        """Components of which each waits for the next, and the last for the first: a shortest one of three or more, else one of two, else none."""
        after = [sorted({other for _, others in self.waits(part) for other in others}) for part in range(self.network.count)]
        found = [circle for circle in (shortest_circle(after, part) for part in range(self.network.count)) if circle]
        longer = [circle for circle in found if len(circle) > 2]
        return min(longer or found, key=len, default=[])


def shortest_circle(after, first):
    """A shortest way from a place back to it, of three steps or more where there is one."""
    best = []
    before, todo = {first: None}, [first]
    for place in todo:
        for other in after[place]:
            if other == first and place != first:
                way = [place]
                while before[way[-1]] is not None:
                    way.append(before[way[-1]])
                way.reverse()
                if len(way) > 2:
                    return way
                best = best or way
            elif other not in before:
                before[other] = place
                todo.append(other)
    return best
