"""Writes the designer's expressions for data in dlcheck's language: as they stand where they are within it, else in other signs.

What has no form there raises NotKept with the reason."""
import collections

from channel_names import Coded, PLAIN, Split, TRUTH
from cspm_tokens import Refused, bare, names_in
from cspm_values import Dot, in_order, spelled
from networks import literal

# How tightly a text binds, so whether it needs parentheses.
LOOSE, DOTTED, OR, AND, NOT, COMPARED, SUM, PRODUCT, SIGNED, ATOM = range(10)
LEVELS = {"or": OR, "and": AND, **dict.fromkeys(("==", "!=", "<", "<=", ">", ">="), COMPARED), **dict.fromkeys("+-", SUM), **dict.fromkeys("*/%", PRODUCT)}
LACKING = {
    "interrupt": "an interrupt /\\", "slide": "a sliding choice [>", "tuple": "a tuple",
    **dict.fromkeys(("seq", "seqrange", "seqcomp", "cat", "len"), "a sequence"), **dict.fromkeys(("par", "apar", "inter"), "a parallel"),
}
GREATEST_NUMBER, MOST_LISTED = 1_000_000, 8
# A local definition that stands at the top of the port: its name there, and the names that it takes along.
Lifted = collections.namedtuple("Lifted", "name captured")
# Where a line may be broken.
BREAK = "\x01"


class NotKept(Exception):
    """Something for which dlcheck's language has no form."""


class Context:
    """What names mean at a place: how bound names are written, the local definitions, the bound names in their order, and in which definition it is."""

    def __init__(self, texts=None, lifted=None, scope=(), owner=""):
        self.texts, self.lifted, self.scope, self.owner = texts or {}, lifted or {}, tuple(scope), owner

    def bind(self, name, text):
        lifted = {key: value for key, value in self.lifted.items() if key != name}
        return Context({**self.texts, name: text}, lifted, (*(own for own in self.scope if own != name), name), self.owner)

    def binds(self, tree):
        return any(name in self.texts or name in self.lifted for name in names_in(tree))


class Record:
    """What was noticed while a text was written: reasons why it differs from the designer's, definitions that it uses, and lines that belong to it."""

    def __init__(self):
        self.is_changed, self.reasons, self.uses, self.pending = False, [], set(), []

    def note(self, reason):
        self.is_changed = True
        if reason not in self.reasons:
            self.reasons.append(reason)


class DataTexts:
    """Writes expressions. With `is_full` each operand that is no atom stands in parentheses, as the program prints them."""

    def __init__(self, processes, channels):
        self.processes, self.script, self.channels = processes, processes.script, channels
        self.record, self.is_full = Record(), False

    def note(self, reason):
        self.record.note(reason)

    def data(self, tree, context, need=LOOSE):
        try:
            text, level = getattr(self, "data_" + tree.form, self.no_data)(tree, context)
        except NotKept:
            # what depends on no bound name has a value
            value = None if context.binds(tree) else self.value_text(self.processes.value(tree, {}))
            if value is None:
                raise
            self.note("data for which the language has no form stand as their value")
            text, level = value, ATOM
        if level < (ATOM if self.is_full and need else need):
            self.record.is_changed = True
            text = f"({text})"
        return text

    def value_text(self, value):
        if isinstance(value, frozenset) and 0 < len(value) <= MOST_LISTED and all(type(item) is Dot and self.is_event(item) for item in value):
            return "{" + ", ".join(spelled(self.channels.encode(event)) for event in in_order(value)) + "}"
        return literal(value)

    def is_event(self, value):
        return value[0] in self.script.channels and self.processes.following(value) is None

    def no_data(self, tree, context):
        raise NotKept(LACKING.get(tree.form, f"the form {tree.form}"))

    def data_num(self, tree, context):
        if tree.parts[0] > GREATEST_NUMBER:
            raise NotKept(f"a number above {GREATEST_NUMBER}")
        return str(tree.parts[0]), ATOM

    def data_paren(self, tree, context):
        return f"({self.data(tree.parts[0], context)})", ATOM

    def data_name(self, tree, context):
        name, script = tree.parts[0], self.script
        if name in context.texts:
            text = context.texts[name]
            if text is None:
                raise NotKept(f"a form for what {name} stands for here")
            self.record.is_changed = self.record.is_changed or text != name
            return text, ATOM
        if name in context.lifted:
            return self.lifted_call(name, [], context), ATOM
        if name in script.definitions:
            if script.definitions[name].clauses[0].params:
                raise NotKept(f"the function {name} as a value")
            self.record.uses.add(name)
        elif name in script.channels:
            if any(isinstance(kind, Split) for kind in self.channels.kinds[name]):
                raise NotKept("a channel with data with fields as a value")
        elif script.constructors.get(name) or any(fields for _, fields in script.datatypes.get(name, [])):
            raise NotKept("data with fields")
        elif name in script.nametypes and literal(frozenset(self.processes.type_named(name))) is None:
            raise NotKept(f"the values of {name}")
        elif name not in ("true", "false") and not any(name in own for own in (script.constructors, script.nametypes, script.datatypes)):
            raise NotKept(f"{name} as a value")
        return name, ATOM

    def lifted_call(self, name, arguments, context):
        self.record.is_changed = True
        lifted = context.lifted[name]
        given = [context.texts.get(own) for own in lifted.captured] + arguments
        if None in given:
            raise NotKept("a value that a local definition takes along")
        return lifted.name + (f"({','.join(given)})" if given else "")

    def data_call(self, tree, context):
        head, given = tree.parts
        name = head.parts[0] if head.form == "name" else None
        if name is None or name in context.texts:
            raise NotKept(f"a form for what {name} stands for here" if name else "a function that is computed")
        if name in ("member", "elem") and name not in context.lifted and name not in self.script.definitions:
            return self.member(given, context)
        arguments = [self.data(item, context, DOTTED) for item in given]
        if name in context.lifted:
            return self.lifted_call(name, arguments, context), ATOM
        if name in self.script.definitions:
            self.record.uses.add(name)
        elif name not in ("union", "inter", "diff"):
            raise NotKept(f"the function {name}")
        return f"{name}({','.join(arguments) if name in self.script.definitions else ', '.join(arguments)})", ATOM

    def member(self, given, context):
        """Membership in a range, or in a set or sequence that is listed, as comparisons."""
        among = bare(given[1])
        own = self.data(given[0], context, SUM)
        self.note("membership became comparisons")
        if among.form == "range":
            low, high = (self.data(part, context, SUM) for part in among.parts)
            return f"({low} <= {own} and {own} <= {high})", ATOM
        texts = [self.data(item, context, SUM) for item in among.parts[0]] if among.form in ("set", "seq") else self.listed(among, context)
        return "(" + " or ".join(f"{own} == {text}" for text in texts) + ")" if texts else "false", ATOM

    def listed(self, tree, context):
        """The elements of a small set that depends on nothing."""
        values = None if context.binds(tree) else in_order(self.processes.value(tree, {}))
        texts = [literal(value) for value in values or []]
        if values is None or None in texts or len(texts) > MOST_LISTED:
            raise NotKept("membership in a set that is computed")
        return texts

    def data_if(self, tree, context):
        condition, one, other = (self.data(part, context, need) for part, need in zip(tree.parts, (OR, LOOSE, LOOSE)))
        return f"if {condition} then {one} else {other}", LOOSE

    def data_not(self, tree, context):
        return f"not {self.data(tree.parts[0], context, NOT)}", NOT

    def data_neg(self, tree, context):
        return f"-{self.data(tree.parts[0], context, SIGNED)}", SIGNED

    def data_op(self, tree, context):
        sign, left, right = tree.parts
        level = LEVELS[sign]
        if sign in ("==", "!=") and "set" in (left.form, right.form):
            raise NotKept("a comparison of sets")
        one = self.data(left, context, SUM if level == COMPARED else level)
        other = self.data(right, context, SUM if level == COMPARED else level + 1)
        space = "" if level in (SUM, PRODUCT) else " "
        return f"{one}{space}{sign}{space}{other}", level

    def displayed(self, text):
        """`{-` would open a comment."""
        return "{" + (" " if text.startswith("-") else "") + text + "}", ATOM

    def data_set(self, tree, context):
        return self.displayed(", ".join(self.data(item, context, DOTTED) for item in tree.parts[0]))

    def data_range(self, tree, context):
        return self.displayed("..".join(self.data(part, context, SUM) for part in tree.parts))

    def data_comp(self, tree, context):
        gens, inner = self.generators(tree.parts[1], context)
        return self.displayed(", ".join(self.data(item, inner, DOTTED) for item in tree.parts[0]) + f" | {gens}")

    def data_prods(self, tree, context):
        gens, inner = self.generators(tree.parts[1], context)
        items = [text for item in tree.parts[0] for text in self.begun(item, inner).values()]
        return "{| " + ", ".join(items) + (f" | {gens}" if gens else "") + " |}", ATOM

    def generators(self, gens, context):
        """Generators and conditions, and what names mean behind them."""
        texts = []
        for gen in gens:
            if gen.pattern is None:
                texts.append(self.data(gen.source, context, OR))
                continue
            if gen.pattern.form != "name":
                raise NotKept("a generator with a pattern")
            source, name = self.source(gen.source, context), gen.pattern.parts[0]
            if name == "_":
                name = self.unused(context, [])
                self.note("_ got a name")
            texts.append(f"{name} <- {source}")
            context = context.bind(gen.pattern.parts[0], name)
        return ", ".join(texts), context

    def unused(self, context, trees):
        """A name for what has none."""
        name, used = "x", {name for tree in trees for name in names_in(tree)}
        while name in used or name in self.channels.names.taken or any(name in (text or "") for text in context.texts.values()):
            name += "'"
        return name

    def source(self, tree, context):
        """The set of a generator or of a replicated form; a sequence is taken as the set of its items."""
        tree = bare(tree)
        if tree.form in ("seq", "seqrange"):
            self.note("a sequence became a set")
            return (self.data_set if tree.form == "seq" else self.data_range)(tree, context)[0]
        return self.data(tree, context, ATOM)

    # events

    def data_dot(self, tree, context):
        texts = self.begun(tree, context)
        if len(texts) > 1:
            raise NotKept("a part of an event with data with fields")
        return next(iter(texts.values())), DOTTED

    def begun(self, tree, context):
        """A part of an event, for each choice of the constructors that are left open."""
        head, *rest = tree.parts[0] if tree.form == "dot" else [tree]
        heads, fields = self.spread(head, [(".", item, None) for item in rest], context)
        texts = [self.field(item, kind, context) for _, item, _, kind in fields]
        return {own: ".".join([name, *texts]) for own, name in self.channels.parts_of(head.parts[0], heads).items()}

    def spread(self, head, fields, context):
        """The constructors among the fields of an event, and the other fields with their kinds: (sign, tree, values that are allowed or None, kind)."""
        name = head.parts[0] if head.form == "name" else None
        if name in context.texts or name not in self.script.channels:
            raise NotKept("data with fields" if name in self.script.constructors else "a channel that is computed")
        left, heads, found = list(fields), [], []
        for kind in self.channels.kinds[name]:
            if not left:
                break
            sign, item, among = left.pop(0)
            if not isinstance(kind, Split):
                found.append((sign, item, among, kind))
                continue
            item = bare(item)
            if item.form == "dot":
                left = [(sign if sign[0] == "?" else ".", own, None) for own in item.parts[0][1:]] + left
                item = item.parts[0][0]
            constructor = item.parts[0] if item.form == "name" else None
            if constructor not in kind.columns or constructor in context.texts or among is not None:
                raise NotKept("data with fields that is passed on as one value")
            self.note("data with fields on a channel: one channel for each constructor")
            heads.append(constructor)
            found += [(*left.pop(0), PLAIN) for _ in kind.columns[constructor] if left]
        if left:
            raise NotKept("a field within a field")
        return heads, found

    def count_of_fields(self, channel, heads):
        """How many fields an event with these constructors has in the port."""
        left = list(heads)
        return sum(len(kind.columns[left.pop(0)]) if isinstance(kind, Split) else 1 for kind in self.channels.kinds[channel])

    def field(self, tree, kind, context):
        """A value that is sent, as its field has it in the port."""
        if kind == PLAIN:
            return self.data(tree, context, SUM)
        if isinstance(kind, Coded):
            value = None if context.binds(tree) else self.processes.value(tree, {})
            if value not in kind.constants:
                raise NotKept("a tuple, a sequence or nested data on a channel")
            return kind.constants[value]
        _, yes, no = self.channels.truths
        self.note(f"truth values on channels became {yes} and {no}")
        plain = bare(tree)
        if plain.form == "name" and plain.parts[0] in ("true", "false"):
            return yes if plain.parts[0] == "true" else no
        return f"(if {self.data(tree, context, OR)} then {yes} else {no})"
