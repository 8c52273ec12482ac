"""The declarations of the port: what stays of the designer's text, in its order and with its comments, and what is declared anew."""
from channel_names import PLAIN, Split, TRUTH
from cspm_values import field_trees
from kept_data import ATOM, Context
from networks import literal


class Declarations:
    """Writes channels and types. `split` has of a channel with several ways the new one and the types of its first fields."""

    def __init__(self, keeper, split):
        self.keeper, self.channels, self.script, self.processes, self.split = keeper, keeper.channels, keeper.script, keeper.processes, split
        self.needed = set()

    def written(self, tree, values):
        """A type as the designer has it, else its values; and whether it is the designer's text."""
        text, fault, record = self.keeper.recorded(lambda: self.keeper.data(tree, Context(), ATOM))
        if fault or self.keeper.fault(record.uses):
            return literal(frozenset(values)), False
        self.needed |= record.uses
        return text, not record.is_changed

    def types_of(self, channel):
        """The types of the fields of a channel's parts, {name in the port: texts}; and whether all is as the designer has it."""
        trees, found, is_same = field_trees(self.script.channels[channel]), {}, self.channels.is_same(channel)
        for heads, name in self.channels.parts_of(channel, ()).items():
            texts, left = [], list(heads)
            for tree, kind, values in zip(trees, self.channels.kinds[channel], self.processes.fields(channel)):
                if isinstance(kind, Split):
                    head = left.pop(0)
                    texts += [self.written(own, column)[0] for own, column in zip(self.script.constructors[head], kind.columns[head])]
                elif kind == PLAIN:
                    text, is_kept = self.written(tree, values)
                    is_same = is_same and is_kept
                    texts.append(text)
                else:
                    texts.append(self.channels.truths[0] if kind == TRUTH else kind.datatype)
            found[name] = texts
        return found, is_same

    def lines_of(self, item):
        """A declaration of channels or of a type in the port."""
        if item.kind == "channel":
            return self.channel_lines(item)
        if item.kind == "nametype":
            values = self.processes.type_named(item.names[0])
            text, is_same = self.written(item.value, values)
            return [self.own(item) if is_same else f"nametype {item.names[0]} = {text}"] if text and literal(frozenset(values)) else []
        constants = [head for head, fields in item.value if not fields]
        if item.kind == "subtype":
            return [f"{item.names[0]} = {{{', '.join(constants)}}}"] if len(constants) == len(item.value) else []
        if len(constants) == len(item.value):
            return [self.own(item)]
        return [f"datatype {item.names[0]} = {' | '.join(constants)}"] if constants else []

    def own(self, item):
        return self.script.text[item.at : item.end]

    def parts(self, name):
        """The channels that a channel becomes, with the types of their fields; those for the ways of its events behind them."""
        parts = list(self.types_of(name)[0].items())
        return parts + [(self.split[part][0], [*self.split[part][1], *types]) for part, types in parts if part in self.split]

    def channel_lines(self, item):
        """The declarations of channels."""
        by_types = {}
        for name in item.names:
            for part, types in self.parts(name):
                by_types.setdefault(tuple(types), []).append(part)
        if self.types_of(item.names[0])[1]:
            added = {types: [part for part in parts if part not in item.names] for types, parts in by_types.items()}
            return [self.own(item), *(declared(parts, types) for types, parts in added.items() if parts)]
        return [declared(parts, types) for types, parts in by_types.items()]

    def new_types(self):
        """The datatypes for truth values and for what else a channel can't carry."""
        lines = ["datatype {} = {} | {}".format(*self.channels.truths)] if self.channels.truths else []
        return lines + [f"datatype {own.datatype} = {' | '.join(own.constants.values())}" for own in self.channels.coded.values()]

    def shown(self):
        """The types, channels and data of the port as the program prints them: each on a line, with parentheses round each operand."""
        keeper, lines = self.keeper, self.new_types()
        keeper.is_full = True
        for item in self.script.declared:
            if item.kind in ("datatype", "nametype", "subtype"):
                lines += [" ".join(line.split()) for line in self.lines_of(item)]
            elif item.kind == "channel":
                lines += [declared([part], types) for name in item.names for part, types in self.parts(name)]
        for name, definition in self.script.definitions.items():
            if keeper.is_data(name) and not keeper.fault([name]):
                head, _, body = keeper.entry(name).lines[0].partition(" = ")
                lines.append(head.replace("(", " ( ").replace(")", " )").replace(",", " , ") + " = " + body)
        keeper.is_full = False
        keeper.entries.clear()
        return lines


def declared(names, types):
    return f"channel {', '.join(names)}" + (f" : {'.'.join(types)}" if types else "")


def script_text(composer):
    """The whole port."""
    keeper, script, declarations = composer.keeper, composer.script, composer.declarations
    kept = keeper.closure(composer.needed | declarations.needed)
    body, done, at = [], set(), 0
    for item in script.declared:
        gap, at, lines = script.text[at : item.at], item.end, []
        name = item.names[0] if item.names else ""
        if item.kind in ("channel", "datatype", "subtype", "nametype"):
            lines = declarations.lines_of(item)
        elif item.kind == "clause" and name in kept:
            lines = [declarations.own(item)] if not kept[name].is_changed else kept[name].lines if name not in done else []
            done.add(name)
        if lines:
            add_comments(body, gap)
            body += lines
    heads = [f"-- {note}." for note in composer.notes]
    heads += [f"-- {name} was rewritten: {'; '.join(entry.reasons) or 'in other signs'}." for name, entry in ((name, kept[name]) for name in script.definitions if name in kept) if entry.is_changed]
    lines = ["-- Ported by `dlcheck --port`, which proves nothing.", *heads, *declarations.new_types(), *body, "", "-- The network, with each component's events.", *composer.lines]
    return "\n".join(lines).replace("\n\n\n", "\n\n") + "\n"


def add_comments(body, gap):
    """The comments before a declaration stay with it, without annotations: these are of the old network."""
    lines = [line.rstrip() for line in gap.split("\n")]
    if lines[0].strip() and body:
        body[-1] += "  " + lines[0].strip()
    if len(lines) > 2 and body:
        body.append("")
    body += [line for line in lines[1:] if line and not line.lstrip().startswith("--@")]
