"""Pictures for Graphviz: a component's table, and the components and links of a network."""
import re

from network import Network
from outputs import pass_on, say
from reports import ask, table_of
from texts import TOP_LINE, listed, quoted


def draw_table(program, script, index):
    network = Network(program, script)
    report = ask(program, ["table", network.file, index])
    table = table_of(report)
    if not table:
        pass_on(report)
        return report.status
    say(f"// {TOP_LINE}", "digraph table {", "  rankdir=LR;", f"  label={quoted(network.called(int(index)))};", '  start [shape=point, label=""];', "  start -> 0;")
    for number, node in enumerate(table.nodes):
        # what it may wait for is written where that is not simply all that it can do
        offers = ["{" + listed(offer, 6) + "}" for offer in node.accepts[:6]]
        plain = len(node.accepts) == 1 and set(node.accepts[0]) == {event for event, _ in node.steps}
        label = str(number) if plain else f"{number}\nmay wait for\n" + "\nor ".join(offer if offer != "{none}" else "{}" for offer in offers)
        shape = "doublecircle" if [] in node.accepts else "circle" if plain else "box"
        say(f"  {number} [shape={shape}, label={quoted(label)}];")
        ways = {}
        for event, to in node.steps:
            ways.setdefault(to, []).append(event)
        for to, events in ways.items():
            say(f"  {number} -> {to} [label={quoted(listed(events, 6))}];")
    say("}")
    return 0


def draw_network(program, script):
    network = Network(program, script)
    report = ask(program, ["table", network.file, "0"])
    table = table_of(report)
    if not table:
        pass_on(report)
        return report.status
    say(f"// {TOP_LINE}", "graph network {", "  node [shape=box];")
    for part in range(table.count):
        own = network.name(part)
        say(f"  {part} [label={quoted(f'{part}: {own}' if own else str(part))}];")
    for link in network.links():
        say(f"  {link.left} -- {link.right} [label={quoted(listed(link.events, 4))}];")
    say("}")
    return 0


def command(program, words):
    """`--draw SCRIPT INDEX` or `--draw SCRIPT`."""
    if len(words) == 2 and re.fullmatch(r"0|[1-9]\d{0,5}", words[1]):
        return draw_table(program, words[0], words[1])
    return draw_network(program, words[0]) if len(words) == 1 else None
