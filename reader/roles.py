"""What breaks the rule `client-server` (S1 to S6), read from annotations and tables. It proves nothing."""
import collections

from network import MEANINGS
from reports import node_after
from searches import Reached
from texts import MOST_NAMED, listed, trace_text

KIND = "roles"


class Roles:
    """The four sets of each component, and who is client and server on each link."""

    def __init__(self, network):
        self.network = network
        self.kept = {}

    def sets(self, part):
        """Requests made, answers got, requests taken, answers given."""
        if part not in self.kept:
            found = [set(noted.events) for noted in self.network.sets(part, KIND)]
            self.kept[part] = found or [set(), set(), set(), set()]
        return self.kept[part]

    def of(self, part, event):
        """The meaning of an event for a component: `requests made` and so on, or nothing."""
        return next((meaning for meaning, events in zip(MEANINGS[KIND], self.sets(part)) if event in events), None)

    def is_client(self, client, server, shared):
        asks, serves = self.sets(client), self.sets(server)
        besides = asks[2] | asks[3] | serves[0] | serves[1]
        return all((event in asks[0]) == (event in serves[2]) and (event in asks[1]) == (event in serves[3]) and event not in besides for event in shared)

    def client_of(self, link):
        """The client of a link, or nothing where the ends don't agree."""
        for client, server in ((link.left, link.right), (link.right, link.left)):
            if self.is_client(client, server, link.events):
                return client
        return None

    def has_answers(self, link):
        return any(event in self.sets(part)[1] for part in (link.left, link.right) for event in link.events)

    def is_open(self, link, trace):
        return self.has_answers(link) and sum(event in link.events for event in trace) % 2 == 1

    def open_by(self, link, trace):
        return [event for event in trace if event in link.events][-1]

    def is_request(self, part, event):
        return event in self.sets(part)[0] | self.sets(part)[2]


def offers_after(network, part, trace):
    """What a component may wait for after a trace, of its shared events alone, and what it can do there."""
    table = network.table(part)
    node = node_after(table, trace) if table else None
    if node is None:
        return [], []
    shared = {event for link in network.links_of(part) for event in link.events}
    return [offer for offer in table.nodes[node].accepts if set(offer) <= shared], [event for event, _ in table.nodes[node].steps if event in shared]


def other_end(link, part):
    return link.right if link.left == part else link.left


def about_roles(network, told):
    """26: by what the condition is broken."""
    part, roles = told.components[0], Roles(network)
    trace = told.traces.get(part, [])
    find = {"S1": broken_sets, "S2": broken_link, "S3": broken_turn, "S4": choosy, "S5": untaken}.get(told.condition)
    return find(network, roles, part, trace) if find else []


def broken_sets(network, roles, part, trace):
    """S1: what is shared and in none or two of the sets, and what is in them and not shared."""
    return ["", *annotation_lines(network, part, KIND)]


def annotation_lines(network, part, kind):
    """A component's sets, and what is not as it should be in them."""
    sets = network.sets(part, kind)
    if not sets:
        return unannotated(network, part, kind)
    shared = {event for link in network.links_of(part) for event in link.events}
    order = network.alphabet(part)
    found = [f"{network.short(part)} is annotated by {', '.join(noted.name for noted in sets)}:"]
    found += [f"  {noted.meaning}, {noted.name}: {listed(noted.events)}" for noted in sets]
    inside = collections.Counter(event for noted in sets for event in noted.events)
    missing = [event for event in order if event in shared and not inside[event]]
    double = [event for event in inside if inside[event] > 1]
    besides = [event for event in inside if event not in shared]
    for events, what in ((missing, "shared, and in none of these sets"), (double, "in two of these sets"), (besides, "in one of these sets, and shared with nobody")):
        if events:
            found.append(f"  {what}: {', '.join(with_partner(network, part, event) for event in events[:12])}{f' and {len(events) - 12} more' if len(events) > 12 else ''}")
    return found


def with_partner(network, part, event):
    others = [network.short(other) for other in network.owners(event) if other != part]
    return event + (f" (with {', '.join(others)})" if others else "")


def unannotated(network, part, kind):
    """Why no annotation speaks of a component."""
    component = network.components[part] if part < len(network.components) else None
    names = [note[1] for note in network.script.notes if note[0] == kind] if network.script else []
    shares = [link for link in network.links_of(part)]
    found = [f"{network.short(part)} has no annotation --@ {kind}; annotated are: {listed(names)}"]
    if not names:
        found.append(f"  `--annotate {kind} SCRIPT` looks for annotations, and prints the script with them")
    if component and component.chosen:
        of_it = f", though it comes to {component.call}" + (", which is annotated" if component.name in names else "") if component.call else ""
        found += [f"  where the network calls it stands an `if`, and an annotation speaks of a component that is called by its name alone{of_it}",
                  f"  give the `if` a definition of its own, as NODE(k) = if .., call that in the network, and annotate it: --@ {kind} NODE .., with sets that hold the same `if`"]
    elif component and not component.call:
        found.append("  it is written out where it stands in the network: give it a name, and annotate that")
    elif component and component.name in network.script.definitions:
        found += by_another_name(network, component.name, names, kind)
    found += [f"  it shares with {network.short(other_end(link, part))}: {listed(link.events, 12)}" for link in shares[:12]]
    return found


def by_another_name(network, name, names, kind):
    """The component's definition leads to an annotated one."""
    tree = network.script.body_of(name)[1]
    inner = [tree] if tree[0] != "if" else [tree[2], tree[3]]
    called = [one[1] for one in inner if one[0] in ("name", "call") and one[1] in names]
    if not called:
        return [f"  write --@ {kind} {name} .. with its sets"]
    names = list(dict.fromkeys(called))
    return [f"  {name} comes to {' or '.join(names)}, and annotations of {'that' if len(names) == 1 else 'those'} don't speak of it: annotate {name}, by which the network calls it"]


def broken_link(network, roles, part, trace):
    """S2: the first link of this left end on which the ends don't agree, with both ends' sets."""
    for link in network.links_of(part):
        if link.left != part or roles.client_of(link) is not None:
            continue
        left, right = link.left, link.right
        found = ["", f"{left} - {right}, {network.short(left)} with {network.short(right)}: {disagreement(network, roles, link)}"]
        for event in link.events[:12]:
            found.append(f"  {event}: {network.short(left)} has it in {roles.of(left, event)}, {network.short(right)} in {roles.of(right, event)}")
        return found + ([f"  and {len(link.events) - 12} more"] if len(link.events) > 12 else [])
    return []


def disagreement(network, roles, link):
    """How the ends of a link disagree."""
    ends = (link.left, link.right)
    makes, takes = ([[event for event in link.events if event in roles.sets(part)[which]] for part in ends] for which in (0, 2))
    if all(makes):
        return "both ends ask: " + ", ".join(f"{listed(own, 6)} by {network.short(part)}" for own, part in zip(makes, ends))
    if all(takes):
        return "both ends wait to be asked: " + ", ".join(f"{listed(own, 6)} by {network.short(part)}" for own, part in zip(takes, ends))
    if any(makes) and any(takes):
        return "one asks and the other is asked, but not by the same events"
    return "what one end has as requests or answers, the other has not"


def broken_turn(network, roles, part, trace):
    """S3: a request where an answer is due, or the other way round."""
    able = offers_after(network, part, trace)[1]
    found = []
    for link in network.links_of(part):
        for event in able:
            if event not in link.events:
                continue
            request, who = roles.is_request(part, event), network.short(other_end(link, part))
            if roles.is_open(link, trace) and request:
                found.append(f"  {event} is a request, and on the link with {who} the request {roles.open_by(link, trace)} has no answer yet")
            elif not roles.is_open(link, trace) and not request:
                due = "no request is open" if roles.has_answers(link) else "the link has no answers"
                found.append(f"  {event} is an answer, and on the link with {who} {due}")
    return ["", f"{network.short(part)} after {trace_text(trace)}:", *found] if found else []


def choosy(network, roles, part, trace):
    """S4: requests that a waiting server leaves out, or takes while it owes an answer."""
    taken = roles.sets(part)[2]
    found = []
    for offer in offers_after(network, part, trace)[0]:
        if not taken & set(offer):
            continue
        missing = [event for event in network.alphabet(part) if event in taken - set(offer)]
        own = [event for event in offer if event in taken]
        if missing:
            found.append(f"  where it waits for {listed(own, 12)}, it doesn't take the requests {listed(missing, 12)}{of_whom(network, part, missing)}")
        for link in network.links_of(part):
            if roles.client_of(link) not in (part, None) and roles.is_open(link, trace):
                found.append(f"  it owes {network.short(other_end(link, part))} an answer to {roles.open_by(link, trace)}, and takes the requests {listed(own, 12)}")
    return ["", f"{network.short(part)} after {trace_text(trace)}:", *dict.fromkeys(found)] if found else []


def of_whom(network, part, events):
    others = sorted({other for event in events for other in network.owners(event) if other != part})
    return f", of {listed([network.short(other) for other in others], 6)}" if others else ""


def untaken(network, roles, part, trace):
    """S5: answers that a client doesn't take where it waits for one."""
    found = []
    for link in network.links_of(part):
        if roles.client_of(link) != part or not roles.is_open(link, trace):
            continue
        answers = [event for event in link.events if event in roles.sets(part)[1]]
        for offer in offers_after(network, part, trace)[0]:
            missing = [event for event in answers if event not in offer]
            asked = f"it has asked {network.short(other_end(link, part))} by {roles.open_by(link, trace)}"
            if missing:
                found.append(f"  where it waits for {listed(offer, 12)}, {asked} and doesn't take the answers {listed(missing, 12)}")
    return ["", f"{network.short(part)} after {trace_text(trace)}:", *found] if found else []


# S6


def about_clients(network, told):
    """27: each with the next, links without answers marked, and where the circle can be cut."""
    roles, parts = Roles(network), told.components
    found = ["", "The circle, each a client of the next:"]
    silent = []
    for client, server in list(zip(parts, parts[1:] + parts[:1]))[:MOST_NAMED]:
        link = next((one for one in network.links() if {one.left, one.right} == {client, server}), None)
        if not link:
            return []
        asks = [event for event in link.events if roles.is_request(client, event)]
        answers = [event for event in link.events if event not in asks]
        silent += [] if answers else [link]
        how = f"and gets {listed(answers, 6)}" if answers else "without an answer"
        found.append(f"  {client} - {server}, {network.short(client)} asks {network.short(server)} by {listed(asks, 6)}, {how}")
    found += [f"  and so on, {len(parts)} components in all"] if len(parts) > MOST_NAMED else []
    if len(silent) == min(len(parts), MOST_NAMED):
        return found + ["  No link of it has answers: it is a ring in which things are handed on. Where fewer are under way than there is room for, it can't be stuck, which this rule",
                        "  doesn't see: look whether `cyclic` fits, or let them go down a line and not round; or put a mailbox between two of them (docs/RULES.md, \"A mailbox\")."]
    return found + cuts(network, roles, parts)


def answers_of(network, told):
    """27: `With` where a link of the circle has answers, else `Without`."""
    roles, parts = Roles(network), told.components
    ends = [set(pair) for pair in zip(parts, parts[1:] + parts[:1])]
    return "With" if any(roles.has_answers(link) for link in network.links() if {link.left, link.right} in ends) else "Without"


def cuts(network, roles, parts):
    """Where the circle can be cut: of each component whether it asks the next while it owes an answer to the one before."""
    found = []
    for place, part in enumerate(parts[:MOST_NAMED]):
        before, after = parts[place - 1], parts[(place + 1) % len(parts)]
        trace = owing(network, roles, part, before, after)
        who, client, server = (network.short(one) for one in (part, before, after))
        if trace is None:
            split = "it may be two components, one that is asked and one that asks, which cuts the circle"
            found.append(f"  {who} never asks {server} while it owes {client} an answer: {split}")
        elif trace:
            cut = "to cut here, it must answer before it asks, or without asking"
            found.append(f"  {who} after {trace_text(trace[:-1])} owes {client} an answer and may ask {server} by {trace[-1]}: {cut}")
    return found


def owing(network, roles, part, before, after):
    """A shortest trace that ends with a question to the one while an answer to the other is due; nothing where there is none, empty where it can't be told."""
    table = network.table(part)
    taken = set(network.shared(before, part))
    asked = {event for event in network.shared(part, after) if event in roles.sets(part)[0]}
    link = next(one for one in network.links_of(part) if other_end(one, part) == before)
    if not table or not roles.has_answers(link):
        return []

    def asks(state):
        return next((event for event, _ in table.nodes[state[0]].steps if state[1] and event in asked), None)

    reached = Reached((0, False), lambda state: ((event, (to, state[1] != (event in taken))) for event, to in table.nodes[state[0]].steps), asks)
    return [*reached.trace(reached.found), asks(reached.found)] if reached.found else None
