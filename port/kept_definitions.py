"""Which definitions of the designer can stand in the port, and their lines there."""
import collections

from channel_names import RESERVED
from cspm_tokens import Node, Refused, bare, names_in
from kept_data import BREAK, Context, LACKING, NotKept, Record
from kept_processes import FORMS, ProcessTexts

# A definition in the port: its lines, whether they differ from the designer's, why, the definitions that it uses, or the reason why it can't stand there.
Entry = collections.namedtuple("Entry", "lines is_changed reasons uses fault")
LONGEST = 110


class Definitions(ProcessTexts):
    """The definitions of a script, each written once."""

    def __init__(self, processes, channels):
        super().__init__(processes, channels)
        self.entries, self.lifted_names = {}, {}

    def recorded(self, write):
        """What `write` gives, or why it can't, and what was noticed meanwhile."""
        kept, self.record = self.record, Record()
        try:
            found, fault = write(), None
        except (NotKept, Refused) as why:
            found, fault = None, str(why)
        record, self.record = self.record, kept
        return found, fault, record

    def entry(self, name):
        """The definition by itself; `fault` asks for those that it uses as well."""
        if name not in self.entries:
            definition = self.script.definitions[name]
            lines, fault, record = self.recorded(lambda: self.defined(definition, Context(owner=name), name, []))
            self.entries[name] = Entry((lines or []) + record.pending, record.is_changed, record.reasons, frozenset(record.uses), fault)
        return self.entries[name]

    def closure(self, names):
        """These definitions and all that they use."""
        found, todo = {}, sorted(names)
        for name in todo:
            if name not in found and name in self.script.definitions:
                found[name] = self.entry(name)
                todo += sorted(found[name].uses)
        return found

    def fault(self, names):
        """Why these definitions can't stand in the port, or None."""
        found = self.closure(names)
        for name, entry in found.items():
            if entry.fault:
                return f"{entry.fault} (in {name})"
            wrapped = set(self.wrapped_names(name)) & set(self.script.definitions)
            if wrapped and name in self.closure(wrapped):
                return f"a hiding or renaming round the own call (in {name})"
            if self.is_data(name) and name in self.closure(entry.uses):
                return f"a function of data that uses itself ({name})"
        return None

    def wrapped_names(self, name):
        """The names under hidings and renamings: round the own call states would pile up."""
        todo = [clause.body for clause in self.script.definitions[name].clauses]
        for part in todo:
            if isinstance(part, Node) and part.form in ("hide", "rename"):
                yield from names_in(part.parts[0])
            if isinstance(part, (Node, list, tuple)):
                todo += part.parts if isinstance(part, Node) else part

    def is_data(self, name, seen=()):
        """Whether a definition stands for data, as far as its text tells."""
        if name in seen or name not in self.script.definitions:
            return name not in seen and name not in ("RUN", "CHAOS")
        return all(self.tree_is_data(clause.body, (*seen, name)) for clause in self.script.definitions[name].clauses)

    def tree_is_data(self, tree, seen=()):
        if tree.form == "if":
            return self.tree_is_data(tree.parts[1], seen)
        if tree.form in ("paren", "let"):
            return self.tree_is_data(tree.parts[-1], seen)
        head = tree.parts[0] if tree.form == "call" else tree
        return self.is_data(head.parts[0], seen) if head.form == "name" else tree.form not in FORMS

    def is_process(self, tree, context):
        """Whether a body is a process, as far as its text tells; local definitions are taken for processes."""
        groups = {}
        while tree.form in ("paren", "if", "let"):
            groups = tree.parts[0] if tree.form == "let" else groups
            tree = tree.parts[1] if tree.form == "if" else tree.parts[-1]
        head = tree.parts[0] if tree.form == "call" else tree
        name = head.parts[0] if head.form == "name" else None
        if name in groups:
            return self.is_process(groups[name].clauses[-1].body, context)
        return name in context.lifted or (name not in context.texts and not self.tree_is_data(tree))

    def defined(self, definition, context, new, captured):
        """The lines `new(captured, params) = body`; several clauses become one with ifs."""
        clauses = definition.clauses
        if len({len(clause.params) for clause in clauses}) > 1:
            raise NotKept("clauses with different numbers of parameters")
        params, texts = self.parameters(clauses, captured), []
        if len(clauses) > 1:
            self.note("several clauses became one with if")
        for clause in clauses:
            conditions, inner = [], context
            for name in captured:
                inner = inner.bind(name, name)
            for pattern, param in zip(clause.params, params):
                condition = self.condition(bare(pattern), param)
                conditions += [condition] if condition else []
                if condition is None:
                    inner = inner.bind(bare(pattern).parts[0], param)
            text = self.process(clause.body, inner) if self.is_process(clause.body, inner) else self.data(clause.body, inner)
            if not conditions or clause is clauses[-1]:
                if conditions:
                    self.note("the last clause stands for all that the others leave")
                texts.append(text)
                break
            texts.append(f"if {' and '.join(conditions)} then {text} else ")
        head = new + (f"({','.join([*captured, *params])})" if captured or params else "")
        return [broken(f"{head} = {''.join(texts)}")]

    def parameters(self, clauses, captured):
        """A name for each parameter: the last one that a clause has."""
        found = []
        for place in range(len(clauses[0].params)):
            names = [clause.params[place].parts[0] for clause in clauses if clause.params[place].form == "name"]
            names = [name for name in names if name not in ("_", "true", "false") and name not in self.script.constructors]
            name = names[-1] if names else f"x{place + 1}"
            while name in found or name in captured or name in RESERVED or name in self.script.constructors:
                name += "'"
            found.append(name)
        return found

    def condition(self, pattern, param):
        """The condition that a parameter fits a pattern; empty where any does, None where the pattern binds a name."""
        name = pattern.parts[0]
        if pattern.form == "num" or (pattern.form == "neg" and name.form == "num"):
            return f"{param} == {name if pattern.form == 'num' else f'-{name.parts[0]}'}"
        if pattern.form != "name":
            raise NotKept(LACKING.get(pattern.form, f"a pattern of the form {pattern.form}"))
        if name == "_":
            self.note("_ got a name")
            return ""
        if name in ("true", "false"):
            return param if name == "true" else f"not {param}"
        return f"{param} == {name}" if name in self.script.constructors else None

    def lifted_name(self, let, name, context):
        """The name that a local definition has at the top."""
        if (let, name) not in self.lifted_names:
            is_free = name not in self.channels.names.taken and name not in RESERVED
            self.lifted_names[let, name] = self.channels.fresh(name if is_free else f"{context.owner}_{name}")
        return self.lifted_names[let, name]


def broken(text):
    """A definition; where it is long, the operands of its outermost choice and its ifs stand on lines of their own."""
    if len(text) <= LONGEST:
        return text.replace(BREAK, " ")
    depth, found = 0, ""
    for sign in text:
        depth += (sign in "({[") - (sign in ")}]")
        found += sign if sign != BREAK else "\n  " if depth == 0 else " "
        if depth == 0 and found.endswith(" else "):
            found = found[: -len(" else ")] + "\n  else "
    return found
