"""What is told of `conform`: where a component does what its specification can't, or offers too little."""
from reports import node_after
from texts import listed, trace_text


def about_outside(network, specification, told):
    """43: what the specification can do in place of the last event."""
    part = told.components[0]
    trace = told.traces[part]
    table = specification.table(part)
    node = node_after(table, trace[:-1]) if table and trace else None
    if node is None:
        return []
    able = [event for event, _ in table.nodes[node].steps]
    own, other = network.short(part), specification.short(part)
    found = ["", f"{own} after {trace_text(trace[:-1])} can do {trace[-1]}; {other} of the specification, at its node {node}, can do {listed(able)}."]
    return found + definitions(network, specification, part)


def about_refusal(network, specification, told):
    """44: what the component may wait for, and what each acceptance of the specification has beside it."""
    part = told.components[0]
    trace = told.traces[part]
    nodes = [node_after(one.table(part), trace) if one.table(part) else None for one in (network, specification)]
    if None in nodes:
        return []
    own, wanted = network.table(part).nodes[nodes[0]].accepts, specification.table(part).nodes[nodes[1]].accepts
    found = ["", f"{network.short(part)} after {trace_text(trace)} is at node {nodes[0]}, and its specification at node {nodes[1]}:"]
    for offer in own:
        if any(set(one) <= set(offer) for one in wanted):
            continue
        found.append(f"  it may come to rest offering {listed(offer)}")
        for one in wanted[:8]:
            found.append(f"    the specification offers {listed(one)}: of these it lacks {listed([event for event in one if event not in offer])}")
    return found + definitions(network, specification, part)


def definitions(network, specification, part):
    found = []
    for who, one in (("SCRIPT", network), ("SPEC", specification)):
        declaration = one.defined(part)
        if declaration is not None:
            found += [f"  {who}, {one.place(declaration)}:", *("    " + line for line in one.text(declaration)[:8])]
    return found
