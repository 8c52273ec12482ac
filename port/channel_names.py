"""How the events of the original are named in the port. dlcheck's channels carry numbers and constants, so

- a truth value becomes a constant of a new datatype,
- data with fields gets a channel for each constructor: `c.get.0` becomes `c_get.0`,
- other values (tuples, sequences, data within data) become a constant each."""
import collections, itertools

from cspm_values import Dot, TRUTHS, atoms_of

RESERVED = set(
    "and assert channel datatype diff else false if inter nametype not or then true union STOP SKIP"
    " external include lambda let module print subtype timed transparent within".split()
)
PLAIN, TRUTH = "plain", "truth"
# Of each constructor the values of each of its fields.
Split = collections.namedtuple("Split", "columns")
# A new datatype, and the constant for each value.
Coded = collections.namedtuple("Coded", "datatype constants")


class Names:
    """The names of the port, of which each is given once."""

    def __init__(self, taken):
        self.taken = set(taken)

    def fresh(self, name):
        name = "".join(sign if sign.isascii() and sign.isalnum() or sign in "_'" else "_" for sign in name).replace("'_", "_")
        name = name if name[0].isalpha() else f"v{name}"
        found, number = name, 1
        while found in self.taken or found in RESERVED:
            number += 1
            # a stroke stands at a name's end alone
            found = f"{name.rstrip(chr(39))}_{number}"
        self.taken.add(found)
        return found


class Channels:
    """The channels of the port. `kinds` has of each channel what its fields become, `parts` the name for each choice of constructors."""

    def __init__(self, processes, names):
        self.processes, self.names, self.truths, self.coded, self.codes = processes, names, None, {}, {}
        self.kinds, self.parts = {}, {}
        for channel in processes.script.channels:
            self.kinds[channel] = [self.kind(values) for values in processes.fields(channel)]
            for heads in itertools.product(*(kind.columns for kind in self.kinds[channel] if isinstance(kind, Split))):
                self.parts[channel, heads] = self.fresh("_".join([channel, *heads])) if heads else channel

    def fresh(self, name):
        return self.names.fresh(name)

    def kind(self, values):
        if values and set(values) <= set(TRUTHS.values()):
            self.truths = self.truths or (self.fresh("TRUTH"), self.fresh("yes"), self.fresh("no"))
            return TRUTH
        if all(is_plain(value) for value in values) and len(set(map(type, values))) < 2:
            return PLAIN
        return self.split(values) or self.constants(values)

    def split(self, values):
        """Data with plain fields; None where the values are other ones."""
        rows = collections.defaultdict(list)
        for value in values:
            head, *row = atoms_of(value)
            if head not in self.processes.script.constructors or len(self.processes.script.constructors[head]) != len(row):
                return None
            rows[head].append(tuple(row))
        columns = {head: [list(dict.fromkeys(column)) for column in zip(*own)] for head, own in rows.items()}
        for head, own in columns.items():
            is_whole = len(rows[head]) == len(list(itertools.product(*own)))
            if not is_whole or not all(len(set(map(type, column))) == 1 and is_plain(column[0]) for column in own):
                return None
        return Split(columns)

    def constants(self, values):
        key = tuple(values)
        if key not in self.coded:
            constants = {value: self.fresh("_".join(word_of(atom) for atom in atoms_of(value))) for value in values}
            self.coded[key] = Coded(self.fresh("DATA"), constants)
        return self.coded[key]

    def encode(self, event):
        """An event as the port has it."""
        if event not in self.codes:
            self.codes[event] = self.coded_event(event)
        return self.codes[event]

    def coded_event(self, event):
        row, found, heads = tuple(event[1:]), [], []
        for kind, values in zip(self.kinds[event[0]], self.processes.fields(event[0])):
            value = max((value for value in values if row[: len(atoms_of(value))] == atoms_of(value)), key=lambda value: len(atoms_of(value)))
            row = row[len(atoms_of(value)) :]
            if isinstance(kind, Split):
                heads.append(atoms_of(value)[0])
                found += atoms_of(value)[1:]
            else:
                found.append(self.truths[1 if value == "true" else 2] if kind == TRUTH else kind.constants[value] if isinstance(kind, Coded) else value)
        return Dot((self.parts[event[0], tuple(heads)], *found))

    def parts_of(self, channel, heads):
        """The channels for all constructors that go on from these ones, with their constructors."""
        return {own: name for (base, own), name in self.parts.items() if base == channel and own[: len(heads)] == tuple(heads)}

    def is_same(self, channel):
        """Whether the channel has the same events in the port."""
        return all(kind == PLAIN for kind in self.kinds[channel])


def is_plain(value):
    return isinstance(value, int) or (isinstance(value, str) and value not in TRUTHS.values())


def word_of(atom):
    """What of a value can stand in a name."""
    if isinstance(atom, (int, str)):
        return str(atom).replace("-", "m")
    return "_".join(map(word_of, atom)) or "empty"
