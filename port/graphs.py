"""Finite graphs of components: made smaller, taken together where they differ by a parameter alone, and written as definitions, one for each state.

A graph has of each state its steps (label, number of a state); 0 is the first one."""
import collections, itertools

from cspm_steps import TAU, rank
from cspm_values import spelled_field

MOST_TERMS = 5


def reduced(steps):
    """The graph without states that do nothing but one silent step, and with one state for those that are strongly bisimilar."""
    smaller = merged(steps)
    return smaller if len(smaller) == len(steps) else reduced(smaller)


def merged(steps):
    def end(state):
        seen = set()
        while len(steps[state]) == 1 and steps[state][0][0] == TAU and state not in seen:
            seen.add(state)
            state = steps[state][0][1]
        return state

    own = [sorted({(label, end(to)) for label, to in found}, key=lambda step: (rank(step[0]), step[1])) for found in steps]
    blocks = classes(own)
    numbers, todo, made = {blocks[end(0)]: 0}, [end(0)], []
    for state in todo:
        found = {}
        for label, to in own[state]:
            if blocks[to] not in numbers:
                numbers[blocks[to]] = len(todo)
                todo.append(to)
            found[label, numbers[blocks[to]]] = None
        made.append(list(found))
    return made


def endless_states(steps):
    """The states from which silent steps can go on for ever."""
    before, open_steps = collections.defaultdict(list), []
    for state, own in enumerate(steps):
        silent = {to for label, to in own if label == TAU}
        open_steps.append(len(silent))
        for to in silent:
            before[to].append(state)
    ended = [state for state, count in enumerate(open_steps) if count == 0]
    for state in ended:
        for other in before[state]:
            open_steps[other] -= 1
            ended += [other] if open_steps[other] == 0 else []
    return set(range(len(steps))) - set(ended)


def classes(steps):
    """The class of each state under strong bisimulation."""
    blocks, count = [0] * len(steps), 1
    while True:
        seen, new = {}, []
        for state, found in enumerate(steps):
            key = (blocks[state], frozenset((label, blocks[to]) for label, to in found))
            new.append(seen.setdefault(key, len(seen)))
        if len(seen) == count:
            return new
        blocks, count = new, len(seen)


def grouped(graphs, terms):
    """Graphs that are alike up to `terms`, (text, value for each graph), as one: [(their numbers, one graph with labels (text of each field, label))]."""
    groups = []
    for at in range(len(graphs)):
        for group in groups:
            chosen = [*group[0], at]
            merged = aligned([graphs[place] for place in chosen], [(text, [values[place] for place in chosen]) for text, values in terms])
            if merged:
                group[:] = chosen, merged
                break
        else:
            groups.append([[at], aligned([graphs[at]], [])])
    return groups


def aligned(graphs, terms):
    """One graph for all, which has each one's labels where the terms have its values; None where the graphs don't go together."""
    constant = constant_fields(graphs)
    numbers, todo, made = {(0,) * len(graphs): 0}, [(0,) * len(graphs)], []
    for states in todo:
        left, steps = [dict.fromkeys(graph[state]) for graph, state in zip(graphs, states)], []
        if len(set(map(len, left))) > 1:
            return None
        for label, _ in graphs[0][states[0]]:
            text, labels = matched(label, left, terms, constant)
            targets = tuple(next((to for own, to in rest if own == wanted), None) for rest, wanted in zip(left, labels))
            if text is None or None in targets:
                return None
            for rest, wanted, to in zip(left, labels, targets):
                del rest[wanted, to]
            if targets not in numbers:
                numbers[targets] = len(todo)
                todo.append(targets)
            steps.append((TAU if label == TAU else (text, label), numbers[targets]))
        if len(todo) > 4 * len(graphs[0]) + 4:
            return None
        made.append(steps)
    return made


def constant_fields(graphs):
    """The fields (channel, place) that have the same values in all graphs: there a constant comes before a parameter."""
    seen = collections.defaultdict(lambda: [set() for _ in graphs])
    for at, graph in enumerate(graphs):
        for label in {label for own in graph for label, _ in own if label != TAU}:
            for place, value in enumerate(label[1:]):
                seen[label[0], place][at].add(value)
    return {key for key, sets in seen.items() if all(own == sets[0] for own in sets)}


def matched(label, left, terms, constant):
    """A label of the first graph as a text, and the label that it means in each graph."""
    if label == TAU:
        return [], [TAU] * len(left)
    choices = []
    for place, value in enumerate(label[1:]):
        same = spelled_field(value), [value] * len(left)
        fits = [(text, values) for text, values in terms if values[0] == value and isinstance(values[0], str) == isinstance(value, str)]
        near = [term for term in fits if term[0].isidentifier() and (label[0], place) not in constant]
        choices.append([*near, same, *(term for term in fits if term not in near)][:MOST_TERMS])
    for chosen in itertools.product(*choices):
        labels = [type(label)((label[0], *(values[at] for _, values in chosen))) for at in range(len(left))]
        if all(any(own == wanted for own, _ in rest) for wanted, rest in zip(labels, left)):
            return [label[0], *(text for text, _ in chosen)], labels
    return None, []


def definitions(graph, names, params, bound, last_values):
    """A line for each state of an aligned graph, with the parameters that all have. `bound` is a name for inputs, `last_values` gives the number of values of a
    channel's last field."""
    lines, given = [], f"({','.join(params)})" if params else ""
    for state, own in enumerate(graph):
        visible = [f"{text} -> {names[to]}{given}" for text, to in with_inputs([(*label, to) for label, to in own if label != TAU], bound, last_values)]
        silent = [names[to] + given for label, to in own if label == TAU]
        if silent and visible:
            # P [> Q is (P [] Q) |~| Q
            later = silent[0] if len(silent) == 1 else f"({' |~| '.join(silent)})"
            silent.insert(0, f"({' [] '.join([*visible, later])})")
        lines.append(f"{names[state]}{given} = {' |~| '.join(silent) or ' [] '.join(visible) or 'STOP'}")
    return lines


def with_inputs(steps, bound, last_values):
    """One input for steps that take all values of the last field to one state."""
    rows = collections.defaultdict(list)
    for text, label, to in steps:
        rows[tuple(text[:-1]), label[:-1], to].append(".".join(text))
    found = []
    for (front, label, to), texts in rows.items():
        is_input = len(front) > 0 and len(texts) > 1 and len(texts) == last_values(label[0])
        found += [(f"{'.'.join(front)}?{bound}", to)] if is_input else [(text, to) for text in texts]
    return found
