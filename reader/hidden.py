"""What is told of `livelock`: which events are hidden of whom, and the rounds that never come to an end."""
import collections

from network import NOT_FOLLOWED
from searches import Reached
from texts import MOST_NAMED, listed, trace_text
from values import Event


def hidden_events(network, name):
    """The events of the hidden set, as texts in their order; nothing where they can't be told."""
    try:
        return network.script.texts(network.script.set_of(("name", name), {}))
    except NOT_FOLLOWED:
        return None


def about_no_order(network, told):
    """39: of each component that is left, a round of hidden events that no other ends."""
    hidden = hidden_events(network, told.words[2])
    if hidden is None:
        return []
    left = set(told.components)
    found = ["", "Of the components that are left, each can go round by hidden events that no component before it takes part in:"]
    for part in told.components[:MOST_NAMED]:
        free = {event for event in network.alphabet(part) if event in hidden and all(other in left for other in network.owners(event))}
        way = round_of(network.table(part), free) if network.table(part) else None
        if way:
            others = sorted({other for event in way[1] for other in network.owners(event) if other != part})
            withs = f", with {listed([network.short(other) for other in others])}" if others else ""
            found.append(f"  {network.called(part)}, after {trace_text(way[0])}, does {trace_text(way[1])} again and again{withs}")
    found.append("  What ends a round: an event in it that is not in the set, or one with a component that comes to an end by itself.")
    return found


def round_of(table, free):
    """A shortest trace to a node from which a round of these events leads, and a shortest such round; nothing where there is none."""
    own = [[(event, to) for event, to in node.steps if event in free] for node in table.nodes]
    rounds = on_rounds(own)
    begins = Reached(0, lambda node: table.nodes[node].steps, lambda node: node in rounds)
    if begins.found is None:
        return None
    # the first node counts as another one until it is come back to
    back = Reached((begins.found, False), lambda state: ((event, (to, True)) for event, to in own[state[0]]), lambda state: state == (begins.found, True))
    return begins.trace(begins.found), back.trace(back.found)


def on_rounds(steps):
    """The nodes from which these steps lead back to themselves: those of a strongly connected component with a step within it."""
    order, seen = [], set()
    for first in range(len(steps)):
        todo = [(first, iter(steps[first]))] if first not in seen else []
        seen.add(first)
        while todo:
            node, rest = todo[-1]
            to = next((to for _, to in rest if to not in seen), None)
            if to is None:
                order.append(node)
                todo.pop()
            else:
                seen.add(to)
                todo.append((to, iter(steps[to])))
    into = collections.defaultdict(list)
    for node, own in enumerate(steps):
        for _, to in own:
            into[to].append(node)
    leader = {}
    for first in reversed(order):
        todo = [first] if first not in leader else []
        for node in todo:
            if node not in leader:
                leader[node] = first
                todo += [before for before in into[node] if before not in leader]
    return {node for node, own in enumerate(steps) if any(leader[to] == leader[node] for _, to in own)}


def about_hidden(network, told):
    """0: which hidden events each component takes part in."""
    hidden = hidden_events(network, told.words[2])
    if hidden is None:
        return []
    found = ["", f"{told.words[2]} hides {listed(hidden, 12)}. Of these"]
    for part in range(min(network.count, MOST_NAMED)):
        own = [event for event in network.alphabet(part) if event in hidden]
        seen = [event for event in network.alphabet(part) if event not in hidden]
        found.append(f"  {network.called(part)} has {listed(own, 8)}; to be seen stay {listed(seen, 8)}")
    if network.count > MOST_NAMED:
        found.append(f"  and {network.count - MOST_NAMED} more components")
    return found


def about_no_set(network, told):
    """37: the sets of events that the script defines without parameters."""
    script, name, found = network.script, told.words[2], []
    if not script:
        return []
    for other, (parameters, _) in script.definitions.items():
        try:
            if not parameters and all(type(element) is Event for element in script.set_of(("name", other), {})):
                found.append(f"  {other}, {network.place(script.names[other])}")
        except NOT_FOLLOWED:
            continue
    own = "nothing" if name not in script.names else "a channel" if name in script.channels else "a set with parameters" if script.definitions.get(name, ([],))[0] else "no set"
    return ["", f"{name} is {own} here. Sets of events that the script defines:", *(found or ["  none"])]


def about_bound(network, told):
    """38: how far the chain goes."""
    return ["", f"The bounds multiply from one component to the next; there are {network.count}, and up to {network.called(told.components[0])} they pass 64 bits."]
