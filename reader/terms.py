"""The processes that a component may come to, as its definitions read: in which uses of definitions, and where a value that they need is not there.

More may be looked at than the component comes to: all values of an input, and what stands behind a `;`. It proves nothing."""
import collections

from script import NOT_FOLLOWED, NoScript
from values import Event, NoValue

MOST_TERMS = 40_000


class Terms:
    """What is reached from a component. `uses` has the values of the arguments of each definition, in the order in which they are met."""

    def __init__(self, script, component):
        self.script, self.uses, self.faults, self.seen = script, {}, [], set()
        self.todo = collections.deque()
        script.steps = 0
        self.add(component.tree, component.bound, None)
        self.complete = True
        while self.todo:
            if len(self.seen) > MOST_TERMS:
                self.complete = False
                return
            self.visit(*self.todo.popleft())

    def add(self, tree, bound, use):
        key = (id(tree), tuple(sorted(bound.items(), key=lambda item: item[0])))
        if key not in self.seen:
            self.seen.add(key)
            self.todo.append((tree, bound, use))

    def visit(self, tree, bound, use):
        try:
            getattr(self, "at_" + {"name": "call"}.get(tree[0], tree[0]), self.at_end)(tree, bound, use)
        except NoValue as fault:
            if use:
                fault.found_in(use[0], use[1], bound)
            else:
                fault.bound = bound
            self.faults.append(fault)

    def at_end(self, tree, bound, use):
        """STOP and SKIP, and what is no process."""

    def at_call(self, tree, bound, use):
        script, name = self.script, tree[1]
        values = [script.value(item, bound) for item in (tree[2] if tree[0] == "call" else [])]
        parameters, body = script.body_of(name)
        self.uses.setdefault(name, {})[tuple(values)] = use
        self.add(body, dict(zip(parameters, values)), (name, values))

    def at_prefix(self, tree, bound, use):
        head, fields = tree[1], tree[2]
        if head in bound:
            if type(bound[head]) is not Event:
                raise NoValue("Kind", ("name", head), "is no event")
            self.add(tree[3], bound, use)
            return
        for inner in self.filled(head, fields, 0, [], bound):
            self.add(tree[3], inner, use)

    def filled(self, channel, fields, place, values, bound):
        """The ways to fill the fields of an event from this one on: what is bound then."""
        script = self.script
        if place == len(fields):
            yield bound
            return
        sign, name, given = fields[place]
        if sign == "out":
            value = script.value(given, bound)
            script.within(("dot", channel, [field[2] if field[0] == "out" else ("name", field[1]) for field in fields[: place + 1]]), channel, [*values, value])
            yield from self.filled(channel, fields, place + 1, [*values, value], bound)
            return
        allowed = None if given is None else script.set_of(given, bound)
        for value in script.fields_of(channel)[place]:
            script.count()
            if allowed is None or value in allowed:
                yield from self.filled(channel, fields, place + 1, [*values, value], {**bound, name: value})

    def at_choice(self, tree, bound, use):
        for operand in tree[2]:
            self.add(operand, bound, use)

    def at_over(self, tree, bound, use):
        values = self.script.set_of(tree[3], bound)
        if not values and tree[1] == "|~|":
            raise NoValue("EmptyChoice", tree[3], f"is empty, and |~| {tree[2]} chooses from it")
        for value in sorted(values):
            self.add(tree[4], {**bound, tree[2]: value}, use)

    def at_then(self, tree, bound, use):
        self.add(tree[1], bound, use)
        self.add(tree[2], bound, use)

    def at_guard(self, tree, bound, use):
        if self.script.truth(tree[1], bound):
            self.add(tree[2], bound, use)

    def at_if(self, tree, bound, use):
        self.add(tree[2] if self.script.truth(tree[1], bound) else tree[3], bound, use)

    def at_hide(self, tree, bound, use):
        self.add(tree[1], bound, use)
        for element in self.script.set_of(tree[2], bound):
            if type(element) is not Event:
                raise NoValue("Kind", tree[2], "has an element that is no event, and is hidden")

    def at_rename(self, tree, bound, use):
        self.add(tree[1], bound, use)
        for inner in self.script.bindings(tree[3], bound):
            for old, new in tree[2]:
                for part in (old, new):
                    self.script.events_from(("name", part[0]), part, inner)


def terms_of(script, component):
    """The terms of a component, or nothing where they can't be followed."""
    try:
        return Terms(script, component)
    except NOT_FOLLOWED:
        return None
