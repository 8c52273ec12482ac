"""The network that a script asserts: a tree of parallels, with the components as leaves.

A tree is a Leaf, a Group (a parallel), a Row (a replicated one), a Wrapped (a hiding or renaming round a network) or a Named (the one that a definition spells).
What each component does is explored by itself; the components are never multiplied with each other."""
import dataclasses

from cspm_steps import TAU, TICK
from cspm_tokens import Node, Refused, bare
from cspm_values import Closure, Local, in_order, spelled

PARALLEL = ("par", "apar", "inter")
SIGNS = ("|||", "||", "[|")
MOST_COMPONENTS = 512


@dataclasses.dataclass
class Leaf:
    """A component. `texts` are how the bound names are written in the port, `does` the events that it can do."""

    tree: Node
    bound: dict
    texts: dict
    index: int
    steps: list = None
    does: frozenset = frozenset()

    def name(self):
        """The name that stands in the component, also within a hiding or renaming; None where it is an expression."""
        tree = self.tree
        while tree.form in ("paren", "hide", "rename"):
            tree = tree.parts[0]
        head = tree.parts[0] if tree.form == "call" else tree
        return head.parts[0] if head.form == "name" else None


@dataclasses.dataclass
class Group:
    """A parallel of several: over the interface `shared`, or with `sets` by alphabets."""

    items: list
    shared: frozenset = None
    sets: list = None


@dataclasses.dataclass
class Row(Group):
    """A replicated parallel that stays one: `name` is its bound name in the port, and `source` the text of the set of its values."""

    node: Node = None
    name: str = None
    source: str = None
    values: list = None


@dataclasses.dataclass
class Wrapped:
    """A hiding of `events`, or a renaming by `pairs`."""

    child: object
    events: frozenset = frozenset()
    pairs: frozenset = frozenset()


@dataclasses.dataclass
class Named:
    """The network that a definition spells."""

    name: str
    child: object


class Network:
    """`write(tree, texts)` gives the text of an expression in the port, or None."""

    def __init__(self, processes, tree, write):
        self.processes, self.write, self.leaves = processes, write, []
        try:
            self.top = self.walk(tree, {}, {})
        except RecursionError:
            raise Refused("the network calls itself without end") from None
        for leaf in self.leaves:
            self.explore(leaf)
        if isinstance(self.top, Leaf) and any(proc[0] in PARALLEL for proc in processes.stepped):
            raise Refused("the asserted process has a parallel behind a prefix, a choice or `;`, and none at its top: let it stand at the top")

    def called(self, tree, bound):
        """The definition that a name or call uses, its clause that fits and the values of the names in it; None where it is none."""
        processes = self.processes
        head, arguments = (tree.parts[0], tree.parts[1]) if tree.form == "call" else (tree, [])
        name = head.parts[0] if head.form == "name" else None
        local = bound.get(name)
        if isinstance(local, Closure):
            definition, outer = local.definition, dict(local.bound)
        elif isinstance(local, Local):
            definition, outer = local.let.parts[0][name], processes.opened(local.let, dict(local.bound))
        elif local is None and name in processes.script.definitions:
            definition, outer = processes.script.definitions[name], {}
        else:
            return None
        clause, inner = processes.clause_for(definition, [processes.value(item, bound) for item in arguments], outer)
        return definition, clause, inner, arguments

    def identity(self, tree):
        """The process in a call of a function that leaves processes as they are; None where it is no such call."""
        is_one = tree.form == "call" and tree.parts[0].form == "name" and tree.parts[0].parts[0] in self.processes.script.transparent
        return tree.parts[1][0] if is_one else None

    def is_network(self, tree, bound):
        form, parts = tree.form, tree.parts
        if form in ("paren", "hide", "rename"):
            return self.is_network(parts[0], bound)
        if form == "if":
            return self.is_network(parts[1] if self.processes.truth(parts[0], bound) else parts[2], bound)
        if form == "guard":
            return self.is_network(parts[1], bound) and self.processes.truth(parts[0], bound)
        if form == "let":
            return self.is_network(parts[1], self.processes.opened(tree, bound))
        if form in ("name", "call"):
            if self.identity(tree):
                return self.is_network(self.identity(tree), bound)
            found = self.called(tree, bound)
            return bool(found) and self.is_network(found[1].body, found[2])
        return spells_network(tree)

    def walk(self, tree, bound, texts):
        form, parts, processes = tree.form, tree.parts, self.processes
        if not self.is_network(tree, bound):
            return self.leaf(tree, bound, texts)
        if form == "paren":
            return self.walk(parts[0], bound, texts)
        if form == "if":
            return self.walk(parts[1] if processes.truth(parts[0], bound) else parts[2], bound, texts)
        if form == "guard":
            return self.walk(parts[1], bound, texts)
        if form == "let":
            return self.walk(parts[1], processes.opened(tree, bound), {name: text for name, text in texts.items() if name not in parts[0]})
        if form == "hide":
            return Wrapped(self.walk(parts[0], bound, texts), events=processes.events(parts[1], bound))
        if form == "rename":
            return Wrapped(self.walk(parts[0], bound, texts), pairs=processes.pairs_of(tree, bound))
        if form == "each":
            return self.row(tree, bound, texts)
        if form in ("name", "call"):
            if self.identity(tree):
                return self.walk(self.identity(tree), bound, texts)
            definition, clause, inner, arguments = self.called(tree, bound)
            return Named(definition.name, self.walk(clause.body, inner, self.own_texts(clause, inner, arguments, texts)))
        items = [self.walk(part, bound, texts) for part in (parts[0], parts[-1])]
        if form == "apar":
            return Group(items, sets=[processes.events(part, bound) for part in parts[1:3]])
        return Group(items, shared=processes.events(parts[1], bound) if form == "par" else frozenset())

    def leaf(self, tree, bound, texts):
        if tree.form in ("name", "call"):
            found = self.called(tree, bound)
            if found and any(spells_network(clause.body) for clause in found[0].clauses):
                # the last call of a network that calls itself: what it stands for
                return self.walk(found[1].body, found[2], self.own_texts(found[1], found[2], found[3], texts))
        if len(self.leaves) == MOST_COMPONENTS:
            raise Refused(f"there are more than {MOST_COMPONENTS} components")
        self.leaves.append(Leaf(tree, bound, texts, len(self.leaves)))
        return self.leaves[-1]

    def own_texts(self, clause, inner, arguments, texts):
        """How a definition's parameters are written here: a value that depends on no replicated name as itself."""
        own = {}
        for param, argument in zip(clause.params, arguments):
            if param.form == "name" and param.parts[0] in inner:
                text = self.write(argument, texts)
                own[param.parts[0]] = text if text and any(sign.isalpha() for sign in text) else literal(inner[param.parts[0]])
        return own

    def row(self, tree, bound, texts):
        """A replicated parallel: a row where its operands are of one shape, else a group."""
        sign, gens, events, body = tree.parts
        processes = self.processes
        outer, rest = (gens, []) if all(gen.pattern is None for gen in gens[1:]) else (gens[:1], gens[1:])
        inner = list(processes.bindings(outer, bound))
        if not inner:
            raise Refused(f"a replicated {sign} has no operands")
        # several names: one replicated parallel within another
        body = Node("each", sign, rest, events, body) if rest else body
        shared = None if sign == "||" else processes.events(events, bound) if sign == "[|" else frozenset()
        sets = [frozenset().union(*(processes.events(events, own) for own in processes.bindings(rest, item))) for item in inner] if sign == "||" else None
        own = bare(gens[0].pattern).parts[0] if len(outer) == 1 and bare(gens[0].pattern).form == "name" else "_"
        values, begin = [item.get(own) for item in inner], len(self.leaves)
        if own != "_" and all(isinstance(value, (int, str)) for value in values) and len(set(values)) == len(values):
            name = own
            while any(name in text for text in texts.values() if text):
                name += "'"
            items = [self.walk(body, item, {**texts, own: name}) for item in inner]
            if len(set(map(shape, items))) == 1:
                source = self.write(gens[0].source, texts) or literal(frozenset(values))
                return Row(items, shared, sets, tree.parts[3], name, source, values)
            del self.leaves[begin:]
        return Group([self.walk(body, item, {**texts, **bound_literals(item, bound)}) for item in inner], shared, sets)

    def explore(self, leaf):
        """What a component can do by itself."""
        leaf.steps = self.processes.graph(self.processes.process(leaf.tree, leaf.bound))
        if leaf.steps is None:
            raise Refused(f"{self.title(leaf)} has more than 16384 states, or infinitely many")
        labels = {label for own in leaf.steps for label, _ in own}
        if TICK in labels:
            raise Refused(f"{self.title(leaf)} can end (SKIP), and dlcheck takes no component that ends: let it go round, or do an event of its own for ever")
        leaf.does = frozenset(labels - {TAU})

    def title(self, leaf):
        """A component as a refusal names it."""
        name = leaf.name()
        tree = leaf.tree
        while tree.form in ("paren", "hide", "rename"):
            tree = tree.parts[0]
        if name is None:
            return f"component {leaf.index}"
        given = [self.processes.value(item, leaf.bound) for item in tree.parts[1]] if tree.form == "call" else []
        return name + (f"({', '.join(map(spelled, given))})" if given else "")


def spells_network(tree):
    """Whether the text is a parallel at its top."""
    form, parts = tree.form, tree.parts
    if form in ("paren", "hide", "rename"):
        return spells_network(parts[0])
    if form in ("if", "guard", "let"):
        return any(spells_network(part) for part in parts[1:])
    return form in PARALLEL or (form == "each" and parts[0] in SIGNS)


def bound_literals(item, bound):
    """How the names that a replicated form binds are written where its operands are written out."""
    return {name: literal(value) for name, value in item.items() if name not in bound or bound[name] is not value}


def shape(tree):
    """What instances of a replicated parallel have in common if one text serves for all of them."""
    if isinstance(tree, Leaf):
        return tree.tree, frozenset(tree.texts.items())
    if isinstance(tree, Wrapped):
        return shape(tree.child)
    if isinstance(tree, Named):
        return tree.name, shape(tree.child)
    if isinstance(tree, Row):
        return tree.node, tree.name, tree.source, shape(tree.items[0])
    return tuple(map(shape, tree.items))


def literal(value):
    """A value as the port may have it: a number, a constant or a truth value, or a set of these; None for others."""
    if isinstance(value, int):
        return str(value) if value >= 0 else f"(-{-value})"
    if isinstance(value, str):
        return str(value)
    if isinstance(value, frozenset) and all(isinstance(item, (int, str)) for item in value):
        items = in_order(value)
        if len(items) > 2 and isinstance(items[0], int) and items[-1] - items[0] == len(items) - 1:
            return f"{{{' ' if items[0] < 0 else ''}{items[0]}..{items[-1]}}}"
        return "{" + ", ".join(map(literal, items)) + "}"
    return None
