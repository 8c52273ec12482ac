"""What the argument of a rule goes by in a network that meets it: an order of the links, layers of clients and servers, or numbers of the resources.

All of it is read from the tables of single components. It proves nothing: the report says what is proved."""
import collections

from texts import MOST_NAMED, listed
from uses import Uses

MOST_IN_ROW = 8
# so many (node, resources that are held) of all users together are looked at
MOST_HELD = 50_000


def used(network, rule, links):
    """The lines that tell the order, first what it is; nothing where it can't be told. `links` are (one, other, whether from client to server or from user to resource, events)."""
    if not network.components or not links:
        return []
    find = {"cyclic": link_order, "client-server": server_layers, "resource": resource_numbers}[rule]
    return find(network, links)


def ranks(nodes, arcs):
    """For each node the length of a longest chain of arcs that leads to it, from 1 on; nothing where arcs form a circle."""
    after, before = collections.defaultdict(list), collections.Counter()
    for one, other in arcs:
        after[one].append(other)
        before[other] += 1
    rank = {node: 1 for node in nodes}
    todo = [node for node in nodes if not before[node]]
    for node in todo:
        for other in after[node]:
            rank[other] = max(rank[other], rank[node] + 1)
            before[other] -= 1
            if not before[other]:
                todo.append(other)
    return rank if len(todo) == len(rank) else None


def rows(rank, called):
    """A line for each rank, with what has it."""
    by_rank = collections.defaultdict(list)
    for node, number in rank.items():
        by_rank[number].append(called(node))
    found = [f"  {number}: {listed(by_rank[number], MOST_IN_ROW)}" for number in sorted(by_rank)[:MOST_NAMED]]
    return found + ([f"  and so on, up to {len(by_rank)}"] if len(by_rank) > MOST_NAMED else [])


def link_order(network, links):
    """`cyclic`: numbers of the links, so that every component comes to its links in rising order, round after round."""
    own, arcs = collections.defaultdict(list), set()
    for one, other, _, events in links:
        for part in (one, other):
            own[part].append(((one, other), events))
    for part, mine in own.items():
        order = round_of(network.table(part), mine)
        if order is None:
            return []
        arcs |= set(zip(order, order[1:]))
    rank = ranks([(one, other) for one, other, _, _ in links], arcs)
    if not rank:
        return []
    return ["Each component uses its links in rising order of these numbers, round after round:", *rows(rank, lambda link: f"{network.short(link[0])} with {network.short(link[1])}")]


def round_of(table, links):
    """The links of a component in the order of its round, or nothing where a place of the round isn't found."""
    if not table:
        return None
    at = {event: link for link, events in links for event in events}
    found, seen, todo = [None] * len(links), {(0, 0)}, collections.deque([(0, 0)])
    while todo and None in found:
        node, place = todo.popleft()
        for event, to in table.nodes[node].steps:
            if event in at:
                found[place] = found[place] or at[event]
            following = (to, (place + (event in at)) % len(links))
            if following not in seen:
                seen.add(following)
                todo.append(following)
    return None if None in found else found


def server_layers(network, links):
    """`client-server`: layers, so that each component asks those of lower layers alone."""
    asks = [(other, one) for one, other, directed, _ in links if directed]
    layers = ranks(range(network.count), asks)
    if not asks or not layers:
        return []
    return ["Each component asks only components of lower layers; those of layer 1 ask nobody:", *rows(layers, network.short)]


def resource_numbers(network, links):
    """`resource`: numbers of the resources, so that each user acquires them in rising order."""
    uses, own = Uses(network), collections.defaultdict(dict)
    for user, resource, directed, events in links:
        if directed:
            for event in events:
                own[user][event] = (resource, uses.acquires(resource, event))
    arcs, budget = set(), MOST_HELD
    for user, meant in own.items():
        budget = add_arcs(network.table(user), meant, arcs, budget)
        if budget is None:
            return []
    numbers = ranks(sorted({resource for meant in own.values() for resource, _ in meant.values()}), arcs)
    if not numbers:
        return []
    return ["Each user acquires resources in rising order of these numbers:", *rows(numbers, network.short)]


def add_arcs(table, meant, arcs, budget):
    """Adds (what is held, what is acquired then) for each run of a user; what is left of the budget, or nothing where it is used up."""
    if not table:
        return None
    start = (0, frozenset())
    seen, todo = {start}, [start]
    for node, held in todo:
        for event, to in table.nodes[node].steps:
            resource, acquires = meant.get(event, (None, False))
            if acquires:
                arcs |= {(other, resource) for other in held}
            following = (to, held if resource is None else held | {resource} if acquires else held - {resource})
            if following not in seen:
                seen.add(following)
                todo.append(following)
        if len(seen) > budget:
            return None
    return budget - len(seen)
