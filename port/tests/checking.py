"""Compares an original with its port, state by state: each component by itself, and the whole networks where they are small. For the tests alone: the port
itself never forms the product of components."""
import collections, pathlib, sys

sys.dont_write_bytecode = True
sys.path.insert(0, str(pathlib.Path(__file__).resolve().parent.parent))
from cspm_parser import Script
from cspm_steps import TAU, Processes, rank
from cspm_tokens import Refused
from cspm_values import spelled
from graphs import classes, endless_states, reduced
from networks import Network
from ways import Ways

MOST_STATES, MOST_SETS = 20_000, 20_000


class Differs(Exception):
    """The port is not the original."""


def compared(composer, text):
    """What was compared: the number of states of the whole original and whether one of them is a deadlock; None and None where it is too large."""
    try:
        script = Script(text)
        processes = Processes(script)
        network = Network(processes, script.asserted[0].value, lambda tree, texts: None)
        ways = Ways(network)
    except Refused as fault:
        raise Differs(f"the port is refused: {fault}") from None
    compare_components(composer, network, ways)
    first = composer.processes.graph(composer.processes.process(composer.tree, {}), MOST_STATES)
    second = processes.graph(processes.process(script.asserted[0].value, {}), MOST_STATES)
    if first is None or second is None:
        return None, None
    encode, meaning = composer.channels.encode, composer.events.meaning
    original = [[(label if label == TAU else encode(label), to) for label, to in own] for own in first]
    ported = [[(TAU if label == TAU or meaning[label][1] else meaning[label][0], to) for label, to in own] for own in second]
    stops = [any(not own for own in graph) for graph in (original, ported)]
    if stops[0] != stops[1]:
        raise Differs("one of the two networks has a deadlock")
    is_same = are_equal(reduced(original), reduced(ported))
    if is_same is False:
        raise Differs("the networks differ as a whole")
    return (len(first), stops[0]) if is_same else (None, None)


def compare_components(composer, network, ways):
    """Components are in the same order, except where a sequence became a set."""
    for event, own in ways.of.items():
        if len(own) > 1:
            raise Differs(f"the port does {event} in several ways")
    alphabets = [frozenset() for _ in network.leaves]
    for event, (way,) in ways.of.items():
        for index, _ in way:
            alphabets[index] |= {event}
    left = {leaf.index: reduced([[step for step in own if step[0] == TAU or step[0] in alphabets[leaf.index]] for own in leaf.steps]) for leaf in network.leaves}
    if len(left) != len(composer.network.leaves):
        raise Differs(f"{len(composer.network.leaves)} components became {len(left)}")
    for leaf in composer.network.leaves:
        graph, alphabet = reduced(composer.events.renamed(leaf)), composer.events.alphabets[leaf.index]
        order = sorted(left, key=lambda at: at != leaf.index)
        at = next((at for at in order if alphabets[at] == alphabet and are_equal(graph, left[at])), None)
        if at is None:
            raise Differs(f"{composer.network.title(leaf)} differs in {'what it does' if alphabets[leaf.index] == alphabet else 'its events'}")
        del left[at]


def are_equal(one, other):
    """Whether two graphs are strongly bisimilar, or else have the same traces, refusals and divergences; None where a normal form is too large to tell."""
    if are_bisimilar(one, other):
        return True
    first, second = normal_form(one), normal_form(other)
    return None if first is None or second is None else are_bisimilar(first, second)


def are_bisimilar(one, other):
    blocks = classes([*one, *([(label, to + len(one)) for label, to in own] for own in other)])
    return blocks[0] == blocks[len(one)]


def normal_form(steps):
    """The sets of states behind each trace, each with a loop that tells its minimal acceptances and whether it can diverge; None where there are too many."""
    first, endless = closed(steps, [0]), endless_states(steps)
    numbers, todo, made = {first: 0}, [first], []
    for states in todo:
        targets = collections.defaultdict(set)
        for label, to in (step for state in states for step in steps[state] if step[0] != TAU):
            targets[label].add(to)
        own = [(("tells", acceptances(steps, states), not endless.isdisjoint(states)), len(made))]
        for label in sorted(targets, key=rank):
            to = closed(steps, targets[label])
            if to not in numbers:
                numbers[to] = len(todo)
                todo.append(to)
            own.append((label, numbers[to]))
        if len(todo) > MOST_SETS:
            return None
        made.append(own)
    return made


def closed(steps, states):
    """These states, and those that silent steps lead to."""
    seen = set(states)
    todo = list(seen)
    while todo:
        for label, to in steps[todo.pop()]:
            if label == TAU and to not in seen:
                seen.add(to)
                todo.append(to)
    return frozenset(seen)


def acceptances(steps, states):
    offers = {frozenset(label for label, _ in steps[state]) for state in states if all(label != TAU for label, _ in steps[state])}
    return frozenset(offer for offer in offers if not any(other < offer for other in offers))


def has_table(steps, report):
    """Whether the program's table of a component is the normal form of a graph."""
    return are_bisimilar(tabulated(report), [[(in_words(label), to) for label, to in own] for own in normal_form(steps)])


def tabulated(report):
    """A table as it is printed, as a graph of the kind that `normal_form` gives."""
    made = collections.defaultdict(list)
    offers = collections.defaultdict(set)
    for line in report.splitlines()[2:]:
        state, rest = line.split(" ", 1)
        if rest.startswith("accepts "):
            offers[int(state)].add(frozenset(event for event in rest[len("accepts {") : -1].split(", ") if event))
        else:
            event, to = rest.split(" -> ")
            made[int(state)].append((event, int(to)))
    return [[*made[state], (("tells", frozenset(offers[state]), False), state)] for state in range(len(offers))]


def in_words(label):
    if label[0] != "tells":
        return spelled(label)
    return "tells", frozenset(frozenset(map(spelled, offer)) for offer in label[1]), label[2]
