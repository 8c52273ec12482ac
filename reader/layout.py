"""The components of the network that a script asserts, from left to right: how each is called, and its alphabet.

This serves the reader of reports alone, and it proves nothing."""
import collections

from script import NoScript
from trees import Parser, written
from values import NoValue

# How a component is written, as far as it is a name or a call; that name, with the values of its arguments; its alphabet; its tree with the values of the
# names that are bound. `chosen` where an `if` stands between the network and the name: to the program such a component is called by no name, so that no
# annotation speaks of it.
Component = collections.namedtuple("Component", "call name values alphabet chosen tree bound")
# A network within a network: its alphabet as it is written, and which components it has.
Operand = collections.namedtuple("Operand", "alphabet first end")
MOST_COMPONENTS = 512


class Layout:
    """The components of the asserted network, and the networks within it."""

    def __init__(self, script):
        self.script, self.components, self.operands = script, [], []
        if not script.asserted:
            raise NoScript("nothing is asserted")
        self.walk(Parser(script.asserted).tree(), {}, None)

    def is_network(self, name, seen=()):
        if name in seen or name not in self.script.definitions:
            return False
        return self.holds_parallel(self.script.body_of(name)[1], (*seen, name))

    def holds_parallel(self, tree, seen=()):
        if tree[0] in ("pair", "each"):
            return True
        if tree[0] == "if":
            return self.holds_parallel(tree[2], seen) or self.holds_parallel(tree[3], seen)
        return tree[0] in ("name", "call") and self.is_network(tree[1], seen)

    def walk(self, tree, bound, alphabet):
        script = self.script
        script.count()
        if len(self.components) > MOST_COMPONENTS:
            raise NoScript("too many components")
        if not self.holds_parallel(tree):
            self.components.append(self.component(tree, bound, alphabet))
            return
        first = len(self.components)
        if tree[0] == "pair":
            self.walk(tree[1], bound, script.set_of(tree[2], bound))
            self.walk(tree[4], bound, script.set_of(tree[3], bound))
        elif tree[0] == "each":
            for value in sorted(script.set_of(tree[2], bound)):
                self.operand(tree, {**bound, tree[1]: value})
        elif tree[0] == "if":
            self.walk(tree[2] if script.truth(tree[1], bound) else tree[3], bound, alphabet)
            return
        else:
            self.enter(tree, bound, alphabet)
            return
        if alphabet is not None:
            self.operands.append(Operand(alphabet, first, len(self.components)))

    def operand(self, tree, inner):
        """One operand of a replicated parallel; a fault in it is told with the value of its name."""
        try:
            self.walk(tree[4], inner, self.script.set_of(tree[3], inner))
        except NoValue as fault:
            fault.bound = {tree[1]: inner[tree[1]]} | fault.bound
            raise

    def enter(self, tree, bound, alphabet):
        """The network that a definition spells; a fault in it is told with its use."""
        parameters, body = self.script.body_of(tree[1])
        arguments = [self.script.value(item, bound) for item in (tree[2] if tree[0] == "call" else [])]
        try:
            self.walk(body, dict(zip(parameters, arguments)), alphabet)
        except NoValue as fault:
            fault.found_in(tree[1], arguments, dict(zip(parameters, arguments)))
            raise

    def component(self, tree, bound, alphabet):
        script, whole = self.script, tree
        while tree[0] == "if":
            tree = tree[2] if script.truth(tree[1], bound) else tree[3]
        chosen = whole[0] == "if"
        if tree[0] not in ("name", "call"):
            return Component(None, None, [], alphabet, chosen, whole, bound)
        try:
            values = [script.value(item, bound) for item in (tree[2] if tree[0] == "call" else [])]
        except NoValue:
            # the program meets this fault in the component, and so do its terms
            return Component(written(tree), tree[1], [], alphabet, chosen, whole, bound)
        return Component(script.use(tree[1], values), tree[1], values, alphabet, chosen, whole, bound)
