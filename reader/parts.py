"""What is told of a component and of a link: how it is written, its events, where it stands after a trace, and what it can do there."""
from reports import node_after
from texts import MOST_NAMED, listed, trace_text

INDENT = "  "


def about_part(network, part, told):
    """A component: what it is, its events, and where it stands after a told trace."""
    found = ["", f"{network.called(part)}:", *written(network, part)]
    table = network.table(part)
    if not table:
        if part < len(network.components) and network.components[part].alphabet is not None:
            found.append(f"  alphabet: {listed(network.alphabet(part))}")
        if told.number not in ("14", "20"):
            found.append("  has no table: the program refuses it")
        return found
    own = network.does(part)
    found += [f"  its table has {len(table.nodes)} nodes", f"  does: {listed(own)}"]
    done = set(own)
    idle = [event for event in network.alphabet(part) if event not in done]
    if idle:
        found.append(f"  has in its alphabet and never does: {listed(idle)}")
    if part in told.traces:
        found += stand(network, part, told.traces[part])
    return found


def written(network, part):
    """Where the component's definition stands."""
    defined = network.defined(part)
    return [f"  {network.place(defined)}: {network.text(defined)[0].strip()}"] if defined is not None else []


def stand(network, part, trace):
    """Where a component stands after a trace, and what it can do and wait for there."""
    table = network.table(part)
    node = node_after(table, trace)
    if node is None:
        return ["  the trace is none of its table"]
    after = f"after <{', '.join(trace)}> " if trace else "at its start "
    found = [f"  {after}it stands at node {node}"]
    steps = table.nodes[node].steps
    for event, to in steps[:MOST_NAMED]:
        others = [network.short(other) for other in network.owners(event) if other != part]
        found.append(f"    can do {event}, and is then at node {to}" + (f" (with {', '.join(others)})" if others else ""))
    if len(steps) > MOST_NAMED:
        found.append(f"    and {len(steps) - MOST_NAMED} more")
    for offer in table.nodes[node].accepts[:MOST_NAMED]:
        found.append(f"    may wait for {listed(offer)}" if offer else "    may wait for nothing at all: it stops")
    return found


def about_stop(network, told):
    """21: what the component would go on by."""
    part = told.components[0]
    trace, who = told.traces[part], network.short(part)
    blocked = blocked_events(network, part, trace)
    if blocked:
        owners = [network.short(other) for event in blocked for other in network.owners(event)]
        also = f" (it is in that of {', '.join(dict.fromkeys(owners))})" if owners else ""
        return ["", f"{who} after {trace_text(trace)} would go on by {listed(blocked)}: not in its alphabet{also}, so blocked. Put it there, or do something else here."]
    table = network.table(part)
    node = node_after(table, trace) if table else None
    able = [event for event, _ in table.nodes[node].steps] if node is not None else []
    how = f"may choose to offer nothing, and else can do {listed(able)}" if able else "offers nothing: STOP, guards that are false, or a choice over an empty set"
    return ["", f"{who} after {trace_text(trace)} {how}."]


def blocked_events(network, part, trace):
    """What a component would do after a trace if its alphabet held all events: it is asked for alone."""
    if part >= len(network.components) or network.components[part].alphabet is None:
        return []
    table = network.table_alone(part)
    node = node_after(table, trace) if table else None
    if node is None:
        return []
    within = set(network.alphabet(part))
    return [event for event, _ in table.nodes[node].steps if event not in within]


def about_links(network, links, head):
    """Links with what their ends share, and what an end never does."""
    found = ["", head] if links else []
    for one, other in links:
        found += about_link(network, one, other)
    return found


def about_link(network, one, other):
    left, right = sorted((one, other))
    shared = network.shared(left, right)
    found = [f"  {one} - {other}, {network.short(one)} with {network.short(other)}: {listed(shared)}"]
    if network.table(left) and network.table(right):
        for part in (left, right):
            done = set(network.does(part))
            idle = [event for event in shared if event not in done]
            if idle:
                found.append(f"    {network.short(part)} never does {listed(idle)}")
    return found
