"""What names and expressions of a CSPm script mean.

Numbers are `int`, truth values the strings true and false, constants `Const`, events and data with fields `Dot`, sets `frozenset`, sequences `Seq`, tuples `Tup`.
A process is a `Proc`, a tuple that begins with the name of its form; equal processes are one state."""
import collections, itertools

from cspm_tokens import Refused, names_in

BUILT_IN = set("card member union diff inter Union Inter empty set seq Set head tail null elem length concat Bool Events productions extensions RUN CHAOS".split())
# Functions of FDR that change how a process is explored and not what it does.
IDENTITIES = set("diamond normal sbisim wbisim dbisim tau_loop_factor explicate model_compress".split())
MOST_ELEMENTS = 16_384
TRUTHS = {True: "true", False: "false"}
# A function: its definition, and the values of the names round it.
Closure = collections.namedtuple("Closure", "definition bound")
# A name of a let: the tree of the let, the name, and the values of the names round the let.
Local = collections.namedtuple("Local", "let name bound")
BuiltIn = collections.namedtuple("BuiltIn", "name")


class Dot(tuple):
    """An event, or data with fields: its atoms in a row."""


class Seq(tuple):
    """A sequence."""


class Tup(tuple):
    """A tuple."""


class Proc(tuple):
    """A process."""


class Const(str):
    """A constant of a datatype; `rank` is its place in the order of the declarations, in which the program sorts constants."""

    def __new__(cls, name, rank):
        made = super().__new__(cls, name)
        made.rank = rank
        return made


def atoms_of(value):
    return tuple(value) if type(value) is Dot else (value,)


def joined_atoms(atoms):
    return atoms[0] if len(atoms) == 1 else Dot(atoms)


def order(value):
    """A key that puts values of all kinds in one order."""
    if isinstance(value, int):
        return (0, value)
    if isinstance(value, str):
        return (1, getattr(value, "rank", -1), value)
    if isinstance(value, (Closure, Local, BuiltIn)):
        return (4, str(id(value)))
    if isinstance(value, tuple):
        return (2, tuple(map(order, value)))
    return (3, len(value), sorted(map(order, value)))


def in_order(values):
    return sorted(values, key=order)


def spelled(value):
    """A value as a script has it."""
    if type(value) is Dot:
        return ".".join(map(spelled_field, value))
    if type(value) is Seq:
        return "<" + ",".join(map(spelled, value)) + ">"
    if type(value) is Tup:
        return "(" + ",".join(map(spelled, value)) + ")"
    if isinstance(value, frozenset):
        return "{" + ", ".join(map(spelled, in_order(value))) + "}"
    return "a function" if isinstance(value, (Closure, BuiltIn)) else str(value)


def spelled_field(value):
    return f"({value})" if isinstance(value, int) and value < 0 else spelled(value)


def frozen(bound):
    return tuple(sorted(bound.items(), key=lambda item: item[0]))


class Names:
    """What names mean: declarations, types and the events of channels."""

    def __init__(self, script):
        self.script = script
        self.constants = {name: Const(name, rank) for rank, name in enumerate(script.constructors)}
        self.cached, self.types, self.field_types = {}, {}, {}

    def look_up(self, name, bound):
        script = self.script
        if name in bound:
            return self.local(bound[name]) if isinstance(bound[name], Local) else bound[name]
        if name in script.definitions:
            return self.defined(name)
        if name in ("true", "false"):
            return name
        if name in script.channels:
            return Dot((name,))
        if name in script.constructors:
            return Dot((self.constants[name],)) if script.constructors[name] else self.constants[name]
        if name in script.datatypes or name in script.nametypes:
            return frozenset(self.type_named(name))
        if name == "Bool":
            return frozenset(TRUTHS.values())
        if name == "Events":
            return frozenset(event for channel in script.channels for event in self.extensions((channel,)))
        if name in BUILT_IN | IDENTITIES | script.transparent:
            return BuiltIn(name)
        raise Refused("the type Int is not finite: write a range" if name == "Int" else f"the name {name} isn't declared")

    def defined(self, name):
        definition = self.script.definitions[name]
        if definition.clauses[0].params:
            return Closure(definition, ())
        if name not in self.cached:
            self.cached[name] = self.value(definition.clauses[0].body, {})
        return self.cached[name]

    def local(self, value):
        definition, inside = value.let.parts[0][value.name], self.opened(value.let, dict(value.bound))
        if definition.clauses[0].params:
            return Closure(definition, frozen(inside))
        return self.value(definition.clauses[0].body, inside)

    def opened(self, let, bound):
        """The values of the names within a let."""
        groups = let.parts[0]
        needed = frozenset().union(*(names_in(part) for group in groups.values() for clause in group.clauses for part in (clause.body, *clause.params)))
        outer = frozen({name: value for name, value in bound.items() if name in needed and name not in groups})
        return {**bound, **{name: Local(let, name, outer) for name in groups}}

    def type_named(self, name):
        """The values of a nametype or datatype, in order."""
        script = self.script
        if name not in self.types:
            self.types[name] = None
            self.types[name] = self.members(script.nametypes[name]) if name in script.nametypes else list(self.data_values(script.datatypes[name]))
        if self.types[name] is None:
            raise Refused(f"the datatype {name} holds itself: it is not finite")
        return self.types[name]

    def data_values(self, members):
        for head, fields in members:
            for values in itertools.product(*map(self.members, fields)):
                yield joined_atoms((self.constants[head], *(atom for value in values for atom in atoms_of(value))))

    def members(self, tree):
        """The values of a type, in order."""
        if tree.form in ("dot", "tuple"):
            rows = itertools.product(*map(self.members, tree.parts[0]))
            return [Dot(atom for value in row for atom in atoms_of(value)) if tree.form == "dot" else Tup(row) for row in rows]
        if tree.form == "name" and (tree.parts[0] in self.script.datatypes or tree.parts[0] in self.script.nametypes):
            return self.type_named(tree.parts[0])
        value = self.value(tree, {})
        if not isinstance(value, frozenset):
            raise Refused(f"{spelled(value)} stands where a type is needed")
        return in_order(value)

    def fields(self, channel):
        """The values of each of a channel's fields."""
        if channel not in self.field_types:
            self.field_types[channel] = [self.members(part) for part in field_trees(self.script.channels[channel])]
        return self.field_types[channel]

    def following(self, row):
        """The values that may come next behind these atoms of an event; None where the event is whole."""
        head, rest = row[0], tuple(row[1:])
        if head not in self.script.channels:
            raise Refused(f"{spelled(Dot(row))} is no event: {spelled(head)} is no channel")
        for field in self.fields(head):
            if not rest:
                return field
            fitting = [len(atoms_of(value)) for value in field if rest[: len(atoms_of(value))] == atoms_of(value)]
            if fitting:
                rest = rest[max(fitting) :]
                continue
            begun = [atoms_of(value)[len(rest) :] for value in field if atoms_of(value)[: len(rest)] == rest]
            if not begun:
                raise Refused(f"{spelled(Dot(row))} is outside its channel")
            return list(map(joined_atoms, begun))
        if rest:
            raise Refused(f"{spelled(Dot(row))} has more fields than its channel")
        return None

    def extensions(self, row):
        """All whole events that begin with these atoms."""
        row = tuple(row)
        if ("events", row) not in self.cached:
            found, todo = [], [row]
            for now in todo:
                after = self.following(now)
                if after is None:
                    found.append(Dot(now))
                else:
                    todo += [now + atoms_of(value) for value in after]
            self.cached["events", row] = found
        return self.cached["events", row]


def field_trees(tree):
    """The types of a channel's fields, as they are written."""
    if tree is None:
        return []
    parts = []
    for part in tree.parts[0] if tree.form == "dot" else [tree]:
        inner = part
        while inner.form == "paren":
            inner = inner.parts[0]
        parts += inner.parts[0] if inner.form == "dot" else [part]
    return parts


class Patterns(Names):
    """How values fit patterns. A match gives the values of the bound names, or None."""

    def match(self, pattern, value, bound):
        form = pattern.form
        if form == "paren":
            return self.match(pattern.parts[0], value, bound)
        if form == "name":
            name = pattern.parts[0]
            if name in ("true", "false") or (name in self.script.constructors and not self.script.constructors[name]):
                return bound if value == name else None
            return bound if name == "_" else {**bound, name: value}
        if form in ("num", "neg"):
            return bound if value == self.value(pattern, {}) else None
        if form in ("seq", "tuple"):
            fits = type(value) is (Seq if form == "seq" else Tup) and len(value) == len(pattern.parts[0])
            return self.match_all(pattern.parts[0], value, bound) if fits else None
        if form == "cat":
            return self.match_sequence(pattern, value, bound)
        if form == "dot":
            return self.match_dot(pattern.parts[0], atoms_of(value), bound)
        if form == "set" and len(pattern.parts[0]) < 2:
            fits = isinstance(value, frozenset) and len(value) == len(pattern.parts[0])
            return self.match_all(pattern.parts[0], tuple(value), bound) if fits else None
        raise Refused(f"a pattern of the form {form} is not taken")

    def match_all(self, patterns, values, bound):
        for pattern, value in zip(patterns, values):
            bound = self.match(pattern, value, bound)
            if bound is None:
                return None
        return bound

    def match_sequence(self, pattern, value, bound):
        parts = []
        while pattern.form == "cat":
            parts.append(pattern.parts[0])
            pattern = pattern.parts[1]
        parts.append(pattern)
        lengths = [len(part.parts[0]) if part.form == "seq" else None for part in parts]
        if lengths.count(None) > 1:
            raise Refused("a pattern with two open sequences is not taken")
        rest = len(value) - sum(length or 0 for length in lengths) if type(value) is Seq else -1
        if rest < 0 or (rest and None not in lengths):
            return None
        pieces, at = [], 0
        for length in lengths:
            size = rest if length is None else length
            pieces.append(Seq(value[at : at + size]))
            at += size
        return self.match_all(parts, pieces, bound)

    def match_dot(self, patterns, row, bound):
        for at, pattern in enumerate(patterns):
            if not row or bound is None:
                return None
            is_last = at + 1 == len(patterns)
            if pattern.form == "name" and (pattern.parts[0] in self.script.constructors or pattern.parts[0] in self.script.channels):
                bound = bound if row[0] == pattern.parts[0] else None
                row = row[1:]
            else:
                bound = self.match(pattern, joined_atoms(row) if is_last else row[0], bound)
                row = () if is_last else row[1:]
        return bound if not row else None


class Values(Patterns):
    """Evaluates expressions."""

    def value(self, tree, bound):
        found = SHORT_FORMS.get(tree.form)
        return found(self, tree, tree.parts, bound) if found else getattr(self, "of_" + tree.form)(tree, bound)

    def truth(self, tree, bound):
        value = self.value(tree, bound)
        if value not in ("true", "false"):
            raise Refused(f"{spelled(value)} stands where a truth value is needed")
        return value == "true"

    def number(self, tree, bound):
        value = self.value(tree, bound)
        if not isinstance(value, int):
            raise Refused(f"{spelled(value)} stands where a number is needed")
        return value

    def set_of(self, tree, bound):
        value = self.value(tree, bound)
        if not isinstance(value, frozenset):
            raise Refused(f"{spelled(value)} stands where a set is needed")
        return value

    def apply(self, function, arguments):
        if isinstance(function, BuiltIn):
            return self.built_in(function.name, arguments)
        if not isinstance(function, Closure):
            raise Refused(f"{spelled(function)} is applied to arguments and is no function")
        clause, bound = self.clause_for(function.definition, arguments, dict(function.bound))
        return self.value(clause.body, bound)

    def clause_for(self, definition, arguments, outer):
        """The first clause that fits, with the values of its names."""
        for clause in definition.clauses:
            if len(clause.params) != len(arguments):
                raise Refused(f"{definition.name} is applied to {len(arguments)} arguments and takes {len(clause.params)}")
            bound = self.match_all(clause.params, arguments, outer)
            if bound is not None:
                return clause, bound
        raise Refused(f"no clause of {definition.name} fits the arguments {', '.join(map(spelled, arguments))}")

    def bindings(self, gens, bound):
        """The values of bound names for all values of generators."""
        if not gens:
            yield bound
        elif gens[0].pattern is None:
            if self.truth(gens[0].source, bound):
                yield from self.bindings(gens[1:], bound)
        else:
            source = self.value(gens[0].source, bound)
            if not isinstance(source, (frozenset, Seq)):
                raise Refused(f"{spelled(source)} stands where a set or a sequence is needed")
            for value in source if type(source) is Seq else in_order(source):
                inner = self.match(gens[0].pattern, value, bound)
                if inner is not None:
                    yield from self.bindings(gens[1:], inner)

    def all_items(self, tree, bound):
        """The values of the items of a display or a comprehension."""
        gens = tree.parts[1] if len(tree.parts) > 1 else []
        return [self.value(item, inner) for inner in self.bindings(gens, bound) for item in tree.parts[0]]

    def sequence(self, tree, bound):
        value = self.value(tree, bound)
        if type(value) is not Seq:
            raise Refused(f"{spelled(value)} stands where a sequence is needed")
        return value

    def of_op(self, tree, bound):
        sign, one, other = tree.parts
        if sign in ("and", "or"):
            left = self.truth(one, bound)
            return TRUTHS[left if left == (sign == "or") else self.truth(other, bound)]
        if sign in ("==", "!="):
            return TRUTHS[(self.value(one, bound) == self.value(other, bound)) == (sign == "==")]
        left, right = self.number(one, bound), self.number(other, bound)
        if sign in ("<", "<=", ">", ">="):
            return TRUTHS[{"<": left < right, "<=": left <= right, ">": left > right, ">=": left >= right}[sign]]
        if sign in "/%":
            if right < 1:
                raise Refused("a divisor is less than 1")
            return left // right if sign == "/" else left % right
        return {"+": left + right, "-": left - right, "*": left * right}[sign]

    def of_range(self, tree, bound):
        low, high = (self.number(part, bound) for part in tree.parts)
        if high - low >= MOST_ELEMENTS:
            raise Refused(f"the range from {low} to {high} has more than {MOST_ELEMENTS} elements")
        return frozenset(range(low, high + 1))

    def built_in(self, name, given):
        """A function of CSPm, or one of FDR that leaves a process as it is."""
        first, found = given[0], FUNCTIONS.get(name)
        if name in IDENTITIES or name in self.script.transparent:
            return first
        if found:
            kinds, function = found
            if len(given) != len(kinds) or any(kind is not object and type(value) is not kind for value, kind in zip(given, kinds)):
                raise Refused(f"{name} is applied to {', '.join(map(spelled, given))}")
            return function(*given)
        if name in ("head", "tail"):
            if not first:
                raise Refused(f"{name} of an empty sequence is asked for")
            return first[0] if name == "head" else Seq(first[1:])
        if name in ("productions", "extensions"):
            begun = atoms_of(first)
            events = self.extensions(begun)
            return frozenset(events if name == "productions" else (joined_atoms(event[len(begun) :]) for event in events))
        if name in ("RUN", "CHAOS"):
            return Proc((name.lower(), first))
        raise Refused(f"{name} is not taken")


def subsets(items):
    return frozenset(frozenset(part) for size in range(len(items) + 1) for part in itertools.combinations(in_order(items), size))


# The kinds that a function takes, and what it gives.
FUNCTIONS = {
    "union": ((frozenset, frozenset), lambda one, other: one | other),
    "inter": ((frozenset, frozenset), lambda one, other: one & other),
    "diff": ((frozenset, frozenset), lambda one, other: one - other),
    "member": ((object, frozenset), lambda item, items: TRUTHS[item in items]),
    "elem": ((object, Seq), lambda item, items: TRUTHS[item in items]),
    "card": ((frozenset,), len),
    "length": ((Seq,), len),
    "empty": ((frozenset,), lambda items: TRUTHS[not items]),
    "null": ((Seq,), lambda items: TRUTHS[not items]),
    "Union": ((frozenset,), lambda sets: frozenset().union(*sets)),
    "Inter": ((frozenset,), lambda sets: frozenset.intersection(*sets)),
    "set": ((Seq,), frozenset),
    "seq": ((frozenset,), lambda items: Seq(in_order(items))),
    "Set": ((frozenset,), subsets),
    "concat": ((Seq,), lambda parts: Seq(item for part in parts for item in part)),
}

# The forms of data whose value takes one line.
SHORT_FORMS = {
    "num": lambda own, tree, parts, bound: parts[0],
    "paren": lambda own, tree, parts, bound: own.value(parts[0], bound),
    "name": lambda own, tree, parts, bound: own.look_up(parts[0], bound),
    "call": lambda own, tree, parts, bound: own.apply(own.value(parts[0], bound), [own.value(item, bound) for item in parts[1]]),
    "let": lambda own, tree, parts, bound: own.value(parts[1], own.opened(tree, bound)),
    "if": lambda own, tree, parts, bound: own.value(parts[1] if own.truth(parts[0], bound) else parts[2], bound),
    "dot": lambda own, tree, parts, bound: Dot(atom for item in parts[0] for atom in atoms_of(own.value(item, bound))),
    "not": lambda own, tree, parts, bound: TRUTHS[not own.truth(parts[0], bound)],
    "neg": lambda own, tree, parts, bound: -own.number(parts[0], bound),
    "len": lambda own, tree, parts, bound: len(own.sequence(parts[0], bound)),
    "cat": lambda own, tree, parts, bound: Seq(own.sequence(parts[0], bound) + own.sequence(parts[1], bound)),
    "set": lambda own, tree, parts, bound: frozenset(own.all_items(tree, bound)),
    "comp": lambda own, tree, parts, bound: frozenset(own.all_items(tree, bound)),
    "seq": lambda own, tree, parts, bound: Seq(own.all_items(tree, bound)),
    "seqcomp": lambda own, tree, parts, bound: Seq(own.all_items(tree, bound)),
    "seqrange": lambda own, tree, parts, bound: Seq(in_order(own.of_range(tree, bound))),
    "tuple": lambda own, tree, parts, bound: Tup(own.all_items(tree, bound)),
    "prods": lambda own, tree, parts, bound: frozenset(event for value in own.all_items(tree, bound) for event in own.extensions(atoms_of(value))),
}
