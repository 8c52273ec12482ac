"""What breaks the rule `cyclic` (C1, the order, C2), read from the tables of the components. It proves nothing."""
from find_roles import asked, read_link
from reports import node_after
from searches import Reached
from texts import MOST_NAMED, listed, trace_text


class Rounds:
    """The shared events of a component, as it comes to them: at which link each lies, and at which place of the round it is possible."""

    def __init__(self, network, part):
        self.network, self.part, self.table = network, part, network.table(part)
        self.links = network.links_of(part)
        self.at = {event: number for number, link in enumerate(self.links) for event in link.events}
        # every (node, place of the round), those with the shortest traces first
        self.reached = Reached((0, 0), self.following)

    def following(self, state):
        node, place = state
        for event, to in self.table.nodes[node].steps:
            yield event, (to, (place + (event in self.at)) % max(len(self.links), 1))

    def places(self):
        """Each place of the round with its links: of each link an event and a trace after which it is possible there."""
        found = [{} for _ in self.links]
        for node, place in self.reached:
            for event, _ in self.table.nodes[node].steps:
                if event in self.at and self.at[event] not in found[place]:
                    found[place][self.at[event]] = event, self.reached.trace((node, place))
        return found

    def place_after(self, trace):
        return sum(event in self.at for event in trace) % max(len(self.links), 1)

    def round_of(self, trace):
        """The shared events of the round that is under way after a trace."""
        shared = [event for event in trace if event in self.at]
        return shared[len(shared) - self.place_after(trace) :]

    def link(self, number):
        link = self.links[number]
        return f"{link.left} - {link.right}"

    def neighbour(self, number):
        link = self.links[number]
        return self.network.short(link.right if link.left == self.part else link.left)


def about_order(network, told):
    """23: which part of a fixed order the event breaks, and by what."""
    part, event = told.components[0], told.event
    if not network.table(part):
        return []
    rounds, trace = Rounds(network, part), told.traces[part]
    if event not in rounds.at:
        return []
    who, own = network.short(part), rounds.at[event]
    found = ["", f"{who} has {len(rounds.links)} links, and a round of it is one event on each, in one order. After {trace_text(trace)}:"]
    way, reasons = reason_of(rounds, trace, event)
    found += [f"  {reason}" for reason in reasons or [f"{event} is of link {rounds.link(own)}, with {rounds.neighbour(own)}"]]
    return found + (orders_of(rounds) if way == "order" else [])


def reason_of(rounds, trace, event):
    """Which way of breaking the order it is, by the page's word for it, and the reasons."""
    for way, find in (("once", at_once), ("Twice", used_before), ("order", elsewhere)):
        reasons = find(rounds, trace, event)
        if reasons:
            return way, reasons
    return None, []


def way_of(network, told):
    """23: the page's word for the way in which the order is broken, or nothing."""
    part = told.components[0]
    if not network.table(part):
        return None
    rounds = Rounds(network, part)
    return reason_of(rounds, told.traces[part], told.event)[0] if told.event in rounds.at else None


def at_once(rounds, trace, event):
    """Events of two links are possible at one moment."""
    node, own = node_after(rounds.table, trace), rounds.at[event]
    if node is None:
        return []
    others = {}
    for other, _ in rounds.table.nodes[node].steps:
        if other in rounds.at and rounds.at[other] != own:
            others.setdefault(rounds.at[other], []).append(other)
    if not others:
        return []
    number, events = min(others.items())
    links = f"links {rounds.link(min(own, number))} and {rounds.link(max(own, number))} are possible at once"
    return [f"{links}: {event} (with {rounds.neighbour(own)}) and {listed(events)} (with {rounds.neighbour(number)})"]


def used_before(rounds, trace, event):
    """The link was used in this round."""
    own = rounds.at[event]
    before = [other for other in rounds.round_of(trace) if rounds.at[other] == own]
    if not before:
        return []
    left = [number for number in range(len(rounds.links)) if number not in {rounds.at[other] for other in rounds.round_of(trace)}]
    reasons = [f"{event} is of link {rounds.link(own)}, which {before[-1]} used in this round"]
    return reasons + ([f"not used in it: {', '.join(f'link {rounds.link(number)}, with {rounds.neighbour(number)}' for number in left)}"] if left else [])


def elsewhere(rounds, trace, event):
    """At this place of the round another link stands after another trace, or the link stands at another place."""
    own, place = rounds.at[event], rounds.place_after(trace)
    for number, (other, run) in rounds.places()[place].items():
        if number != own and len(run) <= len(trace):
            return [f"{event} is of link {rounds.link(own)}, as event {place + 1} of a round; after {trace_text(run)} event {place + 1} is {other}, of link {rounds.link(number)}"]
    for later, links in enumerate(rounds.places()):
        if later != place and own in links and len(links[own][1]) <= len(trace):
            other, run = links[own]
            return [f"{event} is of link {rounds.link(own)}, as event {place + 1} of a round; after {trace_text(run)} {other} of this link is event {later + 1}"]
    return []


def orders_of(rounds):
    """What the component is seen to do at each place of its round, where that fits in a few lines."""
    if not 1 < len(rounds.links) <= 8:
        return []
    found = ["  what it can do as event 1, 2 .. of a round:"]
    for place, links in enumerate(rounds.places()):
        found.append(f"    {place + 1}: " + ("; ".join(f"{event} on {rounds.link(number)}" for number, (event, _) in sorted(links.items())) or "nothing"))
    return found


def about_circle(network, told):
    """24: the links in their order, with what each comes before, and for whom."""
    found = ["", "The links of the circle, in its order:"]
    for place, (one, other) in enumerate(told.links[:MOST_NAMED]):
        following = told.links[(place + 1) % len(told.links)]
        between = [part for part in (one, other) if part in following]
        found.append(f"  {one} - {other}, {network.short(one)} with {network.short(other)}: {listed(network.shared(one, other), 8)}")
        found.append(f"    comes before {following[0]} - {following[1]}" + (f" for {network.short(between[0])}" if between else ""))
        found += order_lines(network, between[0], (one, other), following) if between else []
    found += [f"  and so on, {len(told.links)} links in all"] if len(told.links) > MOST_NAMED else []
    return found + ["  To break the circle, let one of them take its two links the other way round."]


def order_lines(network, part, link, following):
    """The events by which a component comes to the one link before the other."""
    table = network.table(part)
    if not table:
        return []
    events = [set(network.shared(*sorted(ends))) for ends in (link, following)]
    # with each node, whether the first link was used before it
    reached = Reached((0, False), lambda state: ((event, (to, state[1] or event in events[0])) for event, to in table.nodes[state[0]].steps),
                      lambda state: state[1] and any(event in events[1] for event, _ in table.nodes[state[0]].steps))
    if not reached.found:
        return []
    first = next(event for event in reached.trace(reached.found) if event in events[0])
    later = next(event for event, _ in table.nodes[reached.found[0]].steps if event in events[1])
    return [f"      it does {first} before {later}"]


def about_ends(network, told):
    """25: what each end may wait for on the link, and what it lacks; and which of three causes that has."""
    (left, right), found = told.links[0], []
    shared = network.shared(left, right)
    found = ["", f"Link {left} - {right} has {listed(shared)}. When it is its turn, neither end waits for all of them:"]
    for part in (left, right):
        found += short_ends(network, part, shared, told.traces.get(part, []))
    cause = cause_of(network, told)
    if cause == "several":
        who = ", ".join(network.short(part) for part in collectors(network, left, right))
        return found + [f"  {who} does one event with each of several before the next with any of them: it collects. Let one component collect and another answer (examples/barrier.csp)."]
    if cause == "handshake":
        found.append("  The link has different events at different moments: one goes there, the other comes back.")
    return found + link_reading(network, left, right)


def link_reading(network, left, right):
    """How the link reads as one of a client and a server, or why it doesn't: each end is looked at by itself."""
    reading, dropped = read_link(network, left, right)
    if reading:
        return [f"  As a client and a server it is in order: {asked(network, reading)}."]
    return [f"  Nor are the two a client and a server: {fault.condition}, {fault.what}." for _, fault in dropped[:1]]


def short_ends(network, part, shared, trace):
    node = network.node_after(part, trace)
    if node is None:
        return []
    for offer in node.accepts:
        have, lack = [event for event in shared if event in offer], [event for event in shared if event not in offer]
        if have and lack:
            able = [event for event in lack if event in dict(node.steps)]
            more = f"; {listed(able, 8)} it can do there too, but chooses" if able else ""
            return [f"  {network.short(part)} after {trace_text(trace)} may wait for {listed(have, 8)}, and not for {listed(lack, 8)}{more}"]
    return []


def chooses(network, part, shared, trace):
    """Whether an end may refuse there an event of the link that it can do there."""
    node = network.node_after(part, trace)
    able = {event for event, _ in node.steps} & shared if node else set()
    return any(set(offer) & shared and not able <= set(offer) for offer in node.accepts) if node else False


def cause_of(network, told):
    """25: `choose` where both ends choose, or what one offers is not what the other waits for; `several` where one collects from several; else `handshake`.

    Each end is looked at by itself: its table, and the count of the link's events in it."""
    left, right = told.links[0]
    shared = set(network.shared(left, right))
    ends = [(network.node_after(part, told.traces.get(part, [])), chooses(network, part, shared, told.traces.get(part, []))) for part in (left, right)]
    if all(choice for _, choice in ends) or any(node and shared <= {event for event, _ in node.steps} for node, _ in ends):
        return "choose"
    if collectors(network, left, right):
        return "several"
    return "handshake" if read_link(network, left, right)[0] else "choose"


def collectors(network, *ends):
    """The ends that have two links or more on which different events come at different moments."""
    found = []
    for part in ends:
        table = network.table(part)
        links = [set(link.events) for link in network.links_of(part)]
        phased = [events for events in links if table and any(own and own != events for own in (events & {event for event, _ in node.steps} for node in table.nodes))]
        if len(phased) > 1:
            found.append(part)
    return found
