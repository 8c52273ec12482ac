"""What processes do: the operational semantics of CSP, and the states that one component reaches.

A call is no step. The label of a step is an event, TAU or TICK."""
import collections

from cspm_tokens import Refused, names_in
from cspm_values import Dot, Proc, Values, atoms_of, frozen, in_order, joined_atoms, order, spelled

TAU, TICK = "tau", "tick"
MOST_STATES, MOST_NESTED = 16_384, 150
STOP, SKIP = Proc(("stop",)), Proc(("skip",))
NONE = frozenset()


def rank(label):
    """A key that puts labels in order."""
    return (0,) if label == TAU else (1,) if label == TICK else (2, order(label))


class Terms(Values):
    """Evaluates the expressions of processes."""

    def bound_of(self, tree, bound):
        """The values of the names that a tree uses."""
        names = names_in(tree)
        return frozen({name: value for name, value in bound.items() if name in names})

    def process(self, tree, bound):
        try:
            found = self.value(tree, bound)
        except RecursionError:
            raise Refused("a process or a function calls itself without end before it does anything") from None
        if not isinstance(found, Proc):
            raise Refused(f"{spelled(found)} stands where a process is needed")
        return found

    def events(self, tree, bound):
        found = self.set_of(tree, bound)
        for event in found:
            if type(event) is not Dot or self.following(event) is not None:
                raise Refused(f"{spelled(event)} stands in a set of events and is no whole event")
        return found

    def value(self, tree, bound):
        found = SHORT_PROCESSES.get(tree.form)
        return found(self, tree, tree.parts, bound) if found else super().value(tree, bound)

    def operands(self, tree, bound):
        return [self.process(part, bound) for part in tree.parts]

    def pairs_of(self, tree, bound):
        """The events that a renaming takes to others, as pairs."""
        found = set()
        for inner in self.bindings(tree.parts[2], bound):
            for left, right in tree.parts[1]:
                begun, new = atoms_of(self.value(left, inner)), atoms_of(self.value(right, inner))
                found.update((event, Dot(new + tuple(event[len(begun) :]))) for event in self.extensions(begun))
        return frozenset(found)

    def of_each(self, tree, bound):
        sign, gens, events, body = tree.parts
        inner = list(self.bindings(gens, bound))
        found = [self.process(body, own) for own in inner]
        if sign == "|~|" and not found:
            raise Refused("an internal choice over an empty set")
        if sign in ("[]", "|~|"):
            return choice("ext" if sign == "[]" else "int", found)
        if sign in ("|||", "[|") and found:
            shared, whole = self.events(events, bound) if events else NONE, found[-1]
            for one in reversed(found[:-1]):
                whole = Proc(("par", one, shared, whole))
            return whole
        whole, union = SKIP, NONE
        for one, own in zip(reversed(found), reversed(inner)):
            if sign == "||":
                own_set = self.events(events, own)
                whole, union = Proc(("apar", one, own_set, union, whole)), own_set | union
            else:
                whole = Proc(("after", one, whole))
        return whole


class Processes(Terms):
    """The steps of processes."""

    def __init__(self, script):
        super().__init__(script)
        self.stepped = {}

    def steps(self, proc):
        if proc not in self.stepped:
            found = SHORT_STEPS.get(proc[0])
            try:
                self.stepped[proc] = found(self, *proc[1:]) if found else getattr(self, "steps_" + proc[0])(*proc[1:])
            except RecursionError:
                raise Refused("a process calls itself without end before it does anything") from None
        return self.stepped[proc]

    def steps_prefix(self, tree, values):
        head, fields, body = tree.parts
        bound = dict(values)
        rows = [(atoms_of(self.value(head, bound)), bound)]
        for place, field in enumerate(fields):
            rows = [new for row in rows for new in self.extended(*row, *field, place + 1 == len(fields))]
        for row, _ in rows:
            if self.following(row) is not None:
                raise Refused(f"{spelled(Dot(row))} lacks fields")
        return [(Dot(row), self.process(body, inner)) for row, inner in rows]

    def extended(self, begun, bound, sign, tree, among, is_last):
        """The ways to fill the next field of an event: its atoms, and the bound names."""
        if sign in (".", "!") or (tree.form == "name" and self.script.constructors.get(tree.parts[0])):
            return [(begun + atoms_of(self.value(tree, bound)), bound)]
        allowed, rows = None if among is None else self.value(among, bound), []
        for new in self.filled(begun, is_last):
            value = joined_atoms(new[len(begun) :])
            inner = self.match(tree, value, bound)
            if inner is not None and (allowed is None or value in allowed):
                rows.append((new, inner))
        return rows

    def filled(self, begun, to_end):
        """What an input takes: one field, or at the end of an event all that are left."""
        found, todo = [], [begun]
        for now in todo:
            after = self.following(now)
            if after is None and now == begun:
                raise Refused(f"{spelled(Dot(begun))} takes no more fields")
            for value in after or []:
                new = now + atoms_of(value)
                (todo if to_end and self.following(new) is not None else found).append(new)
        return found

    def steps_ext(self, parts):
        found = []
        for at, part in enumerate(parts):
            for label, after in self.steps(part):
                found.append((TAU, choice("ext", [*parts[:at], after, *parts[at + 1 :]])) if label == TAU else (label, after))
        return found

    def steps_then(self, first, tree, bound):
        return [(TAU, self.process(tree, dict(bound))) if label == TICK else (label, Proc(("then", after, tree, bound))) for label, after in self.steps(first)]

    def steps_interrupt(self, left, right):
        found = [(label, after if label == TICK else Proc(("interrupt", after, right))) for label, after in self.steps(left)]
        return found + [(TAU, Proc(("interrupt", left, after))) if label == TAU else (label, after) for label, after in self.steps(right)]

    def steps_slide(self, left, right):
        return [(TAU, Proc(("slide", after, right))) if label == TAU else (label, after) for label, after in self.steps(left)] + [(TAU, right)]

    def steps_rename(self, inner, pairs):
        found = []
        for label, after in self.steps(inner):
            new = in_order(new for old, new in pairs if old == label) if type(label) is Dot else []
            found += [(own, after if label == TICK else Proc(("rename", after, pairs))) for own in new or [label]]
        return found

    def steps_par(self, left, events, right):
        return self.together(left, right, events, None, lambda one, other: Proc(("par", one, events, other)))

    def steps_apar(self, left, first, second, right):
        return self.together(left, right, first & second, (first, second), lambda one, other: Proc(("apar", one, first, second, other)))

    def together(self, left, right, shared, within, made):
        """The steps of two processes in parallel; both end together."""
        ours, theirs, found = self.steps(left), self.steps(right), []

        def is_alone(label, side):
            return label == TAU or (label != TICK and label not in shared and (within is None or label in within[side]))

        found += [(label, made(after, right)) for label, after in ours if is_alone(label, 0)]
        found += [(label, made(left, after)) for label, after in theirs if is_alone(label, 1)]
        by_label = collections.defaultdict(list)
        for label, after in theirs:
            by_label[label].append(after)
        for label, after in ours:
            if label == TICK or (label != TAU and label in shared):
                found += [(label, STOP if label == TICK else made(after, other)) for other in by_label[label]]
        return found

    def graph(self, first, most=MOST_STATES):
        """Of each state its steps as (label, number of a state), the first state is 0; None where there are more states than `most`."""
        numbers, procs, steps = {first: 0}, [first], []
        for proc in procs:
            own = []
            for label, after in sorted(dict.fromkeys(self.steps(proc)), key=lambda step: rank(step[0])):
                if after not in numbers:
                    if len(procs) == most or (len(procs) % 64 == 0 and is_nested(after)):
                        return None
                    numbers[after] = len(procs)
                    procs.append(after)
                own.append((label, numbers[after]))
            steps.append(own)
        return steps


def is_nested(proc):
    """Whether processes stand so deep within one another that there are probably infinitely many states."""
    depth, level = 0, [proc]
    while level and depth <= MOST_NESTED:
        depth += 1
        level = [item for part in level for item in part if isinstance(item, tuple)][:1000]
    return depth > MOST_NESTED


def choice(form, parts):
    """A choice without choices of the same form in it and without operands that are there twice."""
    flat = []
    for part in parts:
        flat += part[1] if part[0] == form else [part]
    kept = tuple(dict.fromkeys(part for part in flat if form == "int" or part != STOP))
    return Proc((form, kept)) if len(kept) > 1 else kept[0] if kept else STOP


def hidden(proc, events):
    """A hiding within a hiding is one: so a loop through a hiding does not grow."""
    return Proc(("hide", proc[1], proc[2] | events)) if proc[0] == "hide" else Proc(("hide", proc, events))


def parallel(own, left, shared, right, bound):
    return Proc(("par", own.process(left, bound), shared, own.process(right, bound)))


# The forms of processes that take one line.
SHORT_PROCESSES = {
    "stop": lambda own, tree, parts, bound: STOP,
    "skip": lambda own, tree, parts, bound: SKIP,
    "prefix": lambda own, tree, parts, bound: Proc(("prefix", tree, own.bound_of(tree, bound))),
    "guard": lambda own, tree, parts, bound: own.process(parts[1], bound) if own.truth(parts[0], bound) else STOP,
    "ext": lambda own, tree, parts, bound: choice("ext", own.operands(tree, bound)),
    "int": lambda own, tree, parts, bound: choice("int", own.operands(tree, bound)),
    "then": lambda own, tree, parts, bound: Proc(("then", own.process(parts[0], bound), parts[1], own.bound_of(parts[1], bound))),
    "interrupt": lambda own, tree, parts, bound: Proc(("interrupt", *own.operands(tree, bound))),
    "slide": lambda own, tree, parts, bound: Proc(("slide", *own.operands(tree, bound))),
    "hide": lambda own, tree, parts, bound: hidden(own.process(parts[0], bound), own.events(parts[1], bound)),
    "rename": lambda own, tree, parts, bound: Proc(("rename", own.process(parts[0], bound), own.pairs_of(tree, bound))),
    "inter": lambda own, tree, parts, bound: parallel(own, parts[0], NONE, parts[1], bound),
    "par": lambda own, tree, parts, bound: parallel(own, parts[0], own.events(parts[1], bound), parts[2], bound),
    "apar": lambda own, tree, parts, bound: Proc(("apar", own.process(parts[0], bound), *(own.events(part, bound) for part in parts[1:3]), own.process(parts[3], bound))),
}

# The forms of processes whose steps take one line.
SHORT_STEPS = {
    "stop": lambda own: [],
    "skip": lambda own: [(TICK, STOP)],
    "run": lambda own, events: [(event, Proc(("run", events))) for event in in_order(events)],
    "chaos": lambda own, events: [(TAU, STOP), *((TAU, Proc(("once", event, Proc(("chaos", events))))) for event in in_order(events))],
    "once": lambda own, event, after: [(event, after)],
    "int": lambda own, parts: [(TAU, part) for part in parts],
    "after": lambda own, first, then: [(TAU, then) if label == TICK else (label, Proc(("after", after, then))) for label, after in own.steps(first)],
    "hide": lambda own, inner, events: [(TAU if label in events else label, after if label == TICK else hidden(after, events)) for label, after in own.steps(inner)],
}
