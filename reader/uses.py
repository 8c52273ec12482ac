"""What breaks the rule `resource` (U1 to U5), read from annotations and tables. It proves nothing."""
from roles import annotation_lines, offers_after, other_end, unannotated
from searches import Reached
from texts import MOST_NAMED, listed, trace_text

KIND = "resource"


class Uses:
    """Which components are resources, and by which events they are acquired and released."""

    def __init__(self, network):
        self.network, self.kept = network, {}

    def sets(self, part):
        """Acquire and release, or nothing for a user."""
        if part not in self.kept:
            self.kept[part] = [set(noted.events) for noted in self.network.sets(part, KIND)]
        return self.kept[part]

    def acquires(self, part, event):
        return bool(self.sets(part)) and event in self.sets(part)[0]

    def meaning(self, part, event):
        sets = self.sets(part)
        return "acquires" if sets and event in sets[0] else "releases" if sets and event in sets[1] else "is in no set of"


def about_uses(network, told):
    """28: by what the condition is broken."""
    part, uses = told.components[0], Uses(network)
    find = {"U1": broken_kinds, "U2": broken_hold, "U3": ungranted, "U4": broken_use}.get(told.condition)
    return find(network, uses, part, told.traces.get(part, [])) if find else []


def broken_kinds(network, uses, part, trace):
    """U1: a link of this left end between two users or two resources, or sets that are not what the resource shares."""
    found = []
    for link in network.links_of(part):
        ends = bool(uses.sets(link.left)), bool(uses.sets(link.right))
        if link.left != part or ends[0] != ends[1]:
            continue
        kind = "resources" if ends[0] else "users"
        found += ["", f"{link.left} - {link.right}, {network.short(link.left)} with {network.short(link.right)}: both ends are {kind}, and share {listed(link.events, 12)}"]
        if not ends[0]:
            for end in (link.left, link.right):
                found += [f"  {line}" if place else f"  {line.split('; annotated')[0]}" for place, line in enumerate(unannotated(network, end, KIND)) if not line.startswith("  it shares")]
            found.append("  Users share events with resources alone: let one of the two be a resource, annotated, or put a resource between them.")
        else:
            found.append("  Resources share events with users alone: a component that uses a resource is a user.")
        break
    return found or ["", *annotation_lines(network, part, KIND)]


def holder_of(network, part, trace):
    """The user that holds a resource after a trace, with the event by which it came to, or nothing."""
    shared = [event for event in trace if len(network.owners(event)) > 1]
    if len(shared) % 2 == 0:
        return None
    return next(other for other in network.owners(shared[-1]) if other != part), shared[-1]


def broken_hold(network, uses, part, trace):
    """U2: what is possible on a resource that is held, or free, and should not be."""
    held, able = holder_of(network, part, trace), offers_after(network, part, trace)[1]
    found = []
    for event in able:
        user = next((other for other in network.owners(event) if other != part), None)
        by = f" by {network.short(user)}" if user is not None else ""
        if held and uses.acquires(part, event):
            found.append(f"  it is held by {network.short(held[0])}, since {held[1]}, and can be acquired{by}: {event}")
        elif held and user != held[0]:
            found.append(f"  it is held by {network.short(held[0])}, since {held[1]}, and can be released{by}: {event}")
        elif not held and not uses.acquires(part, event):
            found.append(f"  it is free, and can be released{by}: {event}")
    return ["", f"{network.short(part)} after {trace_text(trace)}:", *found] if found else []


def ungranted(network, uses, part, trace):
    """U3: what a free resource doesn't grant, or a held one doesn't take back."""
    held, offers = holder_of(network, part, trace), offers_after(network, part, trace)[0]
    found, sets = [], uses.sets(part)
    for offer in offers if sets else []:
        if held:
            missing = [event for event in network.shared(part, held[0]) if event in sets[1] - set(offer)]
            text = f"it is held by {network.short(held[0])}, since {held[1]}, and doesn't wait for its release by {listed(missing, 12)}"
        else:
            missing = [event for event in network.alphabet(part) if event in sets[0] - set(offer)]
            users = sorted({other for event in missing for other in network.owners(event) if other != part})
            text = f"it is free, waits for {listed(offer, 12)}, and can't be acquired by {listed(missing, 12)}, of {listed([network.short(user) for user in users], 6)}"
        if missing:
            found.append("  " + text)
    return ["", f"{network.short(part)} after {trace_text(trace)}:", *dict.fromkeys(found)] if found else []


def broken_use(network, uses, part, trace):
    """U4: a user acquires what it holds, or releases what it doesn't."""
    able, found = offers_after(network, part, trace)[1], []
    for link in network.links_of(part):
        resource = other_end(link, part)
        done = [event for event in trace if event in link.events]
        for event in able:
            if event not in link.events:
                continue
            if len(done) % 2 and uses.acquires(resource, event):
                found.append(f"  it holds {network.short(resource)}, since {done[-1]}, and can acquire it again: {event}")
            elif len(done) % 2 == 0 and not uses.acquires(resource, event):
                found.append(f"  it doesn't hold {network.short(resource)}, and can release it: {event}")
    return ["", f"{network.short(part)} after {trace_text(trace)}:", *found] if found else []


def about_resources(network, told):
    """29: for each resource of the circle a user that holds it and may want the next, and after what."""
    uses, parts = Uses(network), told.components
    found = ["", "The circle: each resource is held while the next is wanted."]
    for one, other in list(zip(parts, parts[1:] + parts[:1]))[:MOST_NAMED]:
        users = [part for part in range(network.count) if part not in parts and network.shared(part, one) and network.shared(part, other)]
        lines = []
        for user in users:
            trace = held_while(network, uses, user, one, other)
            if trace is not None:
                lines.append(f"  {one} - {other}: {network.short(user)} after {trace_text(trace)} holds {network.short(one)} and may want {network.short(other)}")
        found += lines[:2] + ([f"    and so may {len(lines) - 2} more users"] if len(lines) > 2 else [])
    return found + ["  Number the resources, and let every user take them in rising order; who must take them otherwise lets go of the one before it takes the other."]


def held_while(network, uses, user, one, other):
    """A shortest trace after which a user holds the one resource and may wait for the other; nothing where there is none."""
    table, link = network.table(user), set(network.shared(user, one))
    wanted = {event for event in network.shared(user, other) if uses.acquires(other, event)}
    shared = {event for own in network.links_of(user) for event in own.events}
    if not table:
        return None

    def waits(state):
        return state[1] and any(wanted & set(offer) and set(offer) <= shared for offer in table.nodes[state[0]].accepts)

    reached = Reached((0, False), lambda state: ((event, (to, state[1] != (event in link))) for event, to in table.nodes[state[0]].steps), waits)
    return reached.trace(reached.found) if reached.found else None
