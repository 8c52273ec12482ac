"""The events that the text of each component does where nobody blocks it, beside the alphabet that the script gives it. It proves nothing.

What a component does is asked of the program: the `table` of the component alone, which then has every event in its alphabet."""
import collections

from faults import names_in
from layout import Layout
from network import Network
from outputs import pass_on, say, warn
from reports import ask, told_by
from script import NOT_FOLLOWED
from set_expressions import Finder, has_values
from texts import MOST_NAMED, listed
from trees import written

# Of a component: the events that its text does, or nothing where the program refuses it alone; its alphabet; how that is written, and where (a declaration).
Own = collections.namedtuple("Own", "part does alphabet text declaration")

# Refusals by which the alphabets can be told all the same: the components are known.
OF_COMPONENTS = ("10", "11", "12", "13", "14", "19")


class Places(Layout):
    """The network once more, with how the alphabet of each component is written and in which declaration."""

    def __init__(self, script):
        self.given, self.inside, self.texts = {}, [script.asserted_at], []
        super().__init__(script)

    def walk(self, tree, bound, alphabet):
        # of a tree that stands in two places this is what the place gives that is walked now
        if tree[0] == "pair":
            self.given[id(tree[1])], self.given[id(tree[4])] = (tree[2], self.inside[-1]), (tree[3], self.inside[-1])
        elif tree[0] == "each":
            self.given[id(tree[4])] = tree[3], self.inside[-1]
        elif tree[0] == "if":
            self.given[id(tree[2])] = self.given[id(tree[3])] = self.given.get(id(tree))
        super().walk(tree, bound, alphabet)

    def enter(self, tree, bound, alphabet):
        self.given[id(self.script.body_of(tree[1])[1])] = self.given.get(id(tree))
        self.inside.append(self.script.names[tree[1]])
        super().enter(tree, bound, alphabet)
        self.inside.pop()

    def component(self, tree, bound, alphabet):
        self.texts.append(self.given.get(id(tree)))
        return super().component(tree, bound, alphabet)


def own_alphabets(network, parts):
    """What each of these components does and has."""
    texts = Places(network.script).texts
    found = []
    for part in parts:
        component = network.components[part]
        text, declaration = texts[part] or (None, None)
        does = network.alone(part)
        found.append(Own(part, None if does is None else frozenset(network.event(own) for own in does), component.alphabet, text, declaration))
    return found


def lines_of(network, own):
    """The components at one place of the text, as a definition, with what is otherwise in the alphabet that is written."""
    first = network.components[own[0].part]
    parameters = [name for name in names_in(first.tree) if name in first.bound] or list(first.bound)
    place = network.defined(own[0].part)
    where = f", {network.place(place)}" if place is not None else ""
    head = (written(first.tree) if first.tree[0] in ("name", "call") else first.name or "a component") + where
    if own[0].text is not None:
        head += f"; its alphabet, {network.place(own[0].declaration)}: {written(own[0].text)}"
    known = [one for one in own if one.does is not None]
    lines = [f"-- {head}"]
    if known:
        name, calls = f"OWN_{first.name or 'COMPONENT'}".replace("'", "_"), [tuple(network.components[one.part].bound[each] for each in parameters) for one in known]
        text = expression(network.script, parameters, calls, [one.does for one in known])
        if text:
            is_same = all(one.alphabet is None or one.alphabet == one.does for one in own)
            lines.append(f"{name}{'(' + ','.join(parameters) + ')' if parameters else ''} = {text}" + ("  -- as it is written" if is_same and first.alphabet is not None else ""))
        else:
            lines += [f"-- {network.called(one.part)} does {listed(network.script.texts(one.does))}" for one in known]
    differing = [line for one in own for line in differences(network, one)]
    return lines + [f"--   {line}" for line in differing[:MOST_NAMED]] + ([f"--   and {len(differing) - MOST_NAMED} more such lines"] if len(differing) > MOST_NAMED else [])


def expression(script, parameters, calls, wanted):
    """An expression that has these sets at these calls, or the call of a definition that has; nothing where none is found."""
    kept = dict(zip(calls, wanted))
    finder = Finder(script, parameters, list(kept))
    name = finder.named(list(kept.values())) if any(wanted) else None
    if name:
        return name + (f"({','.join(parameters)})" if parameters else "")
    text = finder.expression(list(kept.values()))
    return text if text is not None and has_values(script, text, parameters, list(kept), list(kept.values())) else None


def differences(network, own):
    """What a component's text does and its alphabet lacks, and what is there and never done."""
    script, who = network.script, network.called(own.part)
    if own.does is None:
        return [f"{who}: the program tells no table of it alone, so what it does is not known"]
    if own.alphabet is None:
        return []
    lacks, idle = script.texts(own.does - own.alphabet), script.texts(own.alphabet - own.does)
    found = [f"{who}, does {listed(lacks, 8)}, and its alphabet lacks {'it' if len(lacks) == 1 else 'them'}: so that is blocked"] if lacks else []
    if idle:
        others = sorted({network.short(other) for event in idle for other in network.owners(event) if other != own.part})
        found.append(f"{who}, has in its alphabet and never does {listed(idle, 8)}" + (f": so it blocks {'that' if len(idle) == 1 else 'them'} for {listed(others, 6)}" if others else ""))
    return found


def command(program, words):
    """`--alphabets SCRIPT`."""
    return tell(program, words[0]) if len(words) == 1 else None


def tell(program, script):
    """Prints what each component does; 0 where that is what each alphabet has, else 1; the report of a script that is refused before it has components."""
    network = Network(program, script)
    words = ["table", network.file, "0"]
    report = ask(program, words)
    told = told_by(words, report)
    if report.status and told.number not in OF_COMPONENTS and told.site != "component":
        pass_on(report)
        return report.status
    try:
        places = collections.defaultdict(list)
        for own in own_alphabets(network, range(len(network.components))):
            places[id(network.components[own.part].tree)].append(own)
        found = [line for own in places.values() for line in lines_of(network, own)]
    except NOT_FOLLOWED:
        found = []
    if not found:
        warn("dlcheck: this program can't follow the network of the script")
        return 70
    say("-- The events that the text of each component does where nobody blocks it, as definitions. Read from reports of dlcheck; it proves nothing.", *found)
    return 1 if any(line.startswith("--   ") for line in found) else 0
