"""Writes the designer's processes in dlcheck's language: as they stand where they are within it, else in other signs."""
from channel_names import Coded, PLAIN, RESERVED, TRUTH
from cspm_tokens import bare, names_in
from cspm_values import in_order
from kept_data import ATOM, BREAK, Context, DataTexts, LACKING, LOOSE, Lifted, NotKept, OR
from networks import literal

# How tightly a text binds: what reaches as far right as it can, a choice or hiding, an operand of one, `;`, a prefix.
OPEN, CHOICE, OPERAND, SEQUENCE, PREFIX = range(5)
FORMS = {"stop", "skip", "prefix", "guard", "ext", "int", "then", "interrupt", "slide", "hide", "rename", "par", "apar", "inter", "each"}


class ProcessTexts(DataTexts):
    """Writes processes. `is_last` says that a text stands at the right end, where an `if` needs no parentheses."""

    def process(self, tree, context, need=OPEN, is_last=True):
        text, level = getattr(self, "process_" + tree.form, self.no_process)(tree, context, is_last)
        if level < need and not (level == OPEN and is_last and need in (CHOICE, OPERAND, PREFIX)):
            self.record.is_changed = True
            text = f"({text})"
        return text

    def no_process(self, tree, context, is_last):
        raise NotKept(LACKING.get(tree.form, f"the form {tree.form}"))

    def process_stop(self, tree, context, is_last):
        return tree.form.upper(), ATOM

    process_skip = process_stop

    def process_paren(self, tree, context, is_last):
        return f"({self.process(tree.parts[0], context)})", ATOM

    def process_name(self, tree, context, is_last):
        if tree.parts[0] in context.texts:
            raise NotKept(f"a form for what {tree.parts[0]} stands for here")
        return self.data(tree, context, ATOM), ATOM

    def process_call(self, tree, context, is_last):
        if tree.parts[0].form == "name" and tree.parts[0].parts[0] in self.script.transparent:
            self.note("functions that change no meaning were left out")
            return self.process(tree.parts[1][0], context, ATOM, False), ATOM
        return self.data(tree, context, ATOM), ATOM

    def process_if(self, tree, context, is_last):
        return f"if {self.data(tree.parts[0], context, OR)} then {self.process(tree.parts[1], context)} else {self.process(tree.parts[2], context)}", OPEN

    def process_guard(self, tree, context, is_last):
        return f"{self.data(tree.parts[0], context, OR)} & {self.process(tree.parts[1], context, PREFIX, is_last)}", PREFIX

    def process_ext(self, tree, context, is_last):
        operands, rest = [], tree
        while rest.form == tree.form:
            operands.insert(0, rest.parts[1])
            rest = rest.parts[0]
        operands.insert(0, rest)
        texts = [self.process(part, context, OPERAND, is_last and part is operands[-1]) for part in operands]
        return f"{BREAK}{'[]' if tree.form == 'ext' else '|~|'} ".join(texts), CHOICE

    process_int = process_ext

    def process_then(self, tree, context, is_last):
        return " ; ".join(self.process(part, context, SEQUENCE, False) for part in tree.parts), SEQUENCE

    def process_hide(self, tree, context, is_last):
        inner, events = tree.parts
        return f"{self.process(inner, context, CHOICE if inner.form == 'hide' else ATOM, False)} \\ {self.data(events, context, ATOM)}", CHOICE

    def process_rename(self, tree, context, is_last):
        left, pairs, gens = tree.parts
        generated, inner = self.generators(gens, context)
        texts = []
        for old, new in pairs:
            olds, news = self.begun(old, inner), self.begun(new, inner)
            if olds.keys() != news.keys():
                raise NotKept("a renaming of some data with fields to others")
            texts += [f"{olds[heads]} <- {news[heads]}" for heads in olds]
        return f"{self.process(left, context, ATOM, False)}[[{', '.join(texts)}{f' | {generated}' if generated else ''}]]", ATOM

    def process_each(self, tree, context, is_last):
        sign, gens, _, body = tree.parts
        if sign not in ("[]", "|~|"):
            raise NotKept("a parallel" if sign != ";" else "a replicated ;")
        heads = []
        for gen in gens:
            if gen.pattern is None or gen.pattern.form != "name":
                raise NotKept("a replicated form with a pattern or a condition")
            heads.append(f"{sign} {gen.pattern.parts[0]}:{self.source(gen.source, context)} @ ")
            context = context.bind(gen.pattern.parts[0], gen.pattern.parts[0])
        if len(gens) > 1:
            self.note("a replicated form over several names became several")
        return "".join(heads) + self.process(body, context), OPEN

    def process_let(self, tree, context, is_last):
        """Local definitions go to the top, with the names that they use as parameters."""
        groups, body = tree.parts
        self.note("local definitions went to the top")
        used = frozenset().union(*(names_in(clause.body) for group in groups.values() for clause in group.clauses))
        captured = [name for name in context.scope if name in used and name not in groups]
        lifted = {**context.lifted, **{name: Lifted(self.lifted_name(tree, name, context), captured) for name in groups}}
        plain = Context({}, lifted, (), context.owner)
        lines = [line for name, group in groups.items() for line in self.defined(group, plain, lifted[name].name, captured)]
        texts = {name: text for name, text in context.texts.items() if name not in groups}
        text = self.process(body, Context(texts, lifted, context.scope, context.owner), OPEN, is_last)
        self.record.pending += lines
        return text, ATOM if body.form in ("name", "call", "paren") else OPEN

    def process_prefix(self, tree, context, is_last):
        head, fields, body = tree.parts
        if head.form == "name" and head.parts[0] in context.texts and not fields:
            return f"{self.data(head, context, ATOM)} -> {self.process(body, context, PREFIX, is_last)}", PREFIX
        if head.form == "dot":
            head, fields = head.parts[0][0], [(".", item, None) for item in head.parts[0][1:]] + list(fields)
        heads, spread = self.spread(head, fields, context)
        names = self.channels.parts_of(head.parts[0], heads)
        if len(names) > 1 or len(spread) < self.count_of_fields(head.parts[0], heads):
            raise NotKept("an input of several fields under one name")
        text, is_input = next(iter(names.values())), False
        for sign, item, among, kind in spread:
            if sign[0] == "?" and not self.is_constant(item):
                field, context = self.input(sign, item, among, kind, context, body)
                is_input = True
            else:
                if sign[0] == "?" or (is_input and sign == "."):
                    self.note("an output behind an input has !" if sign == "." else "an input of one value became an output")
                field = ("!" if is_input else sign if sign in ".!" else ".") + self.field(item, kind, context)
            text += field
        return f"{text} -> {self.process(body, context, PREFIX, is_last)}", PREFIX

    def input(self, sign, item, among, kind, context, body):
        """An input field, and what names mean behind it."""
        if item.form != "name":
            raise NotKept(LACKING.get(item.form, "a pattern in an input"))
        name = own = item.parts[0]
        if "." in sign:
            self.note("each input has its sign")
        if name == "_":
            own = self.unused(context, [body])
            self.note("_ got a name")
        if isinstance(kind, Coded) or (kind == TRUTH and among is not None):
            raise NotKept("a tuple, a sequence or nested data on a channel" if kind != TRUTH else "an input of some truth values")
        if kind == TRUTH:
            self.note("truth values on channels became constants")
            return f"?{own}", context.bind(name, f"({own} == {self.channels.truths[1]})")
        return f"?{own}" + (f":{self.data(among, context, ATOM)}" if among is not None else ""), context.bind(name, own)

    def is_constant(self, item):
        item = bare(item)
        return item.form in ("num", "neg") or (item.form == "name" and (item.parts[0] in ("true", "false") or item.parts[0] in self.script.constructors))
