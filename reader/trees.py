"""Trees of what `show` prints, in which each operand that is no atom stands in parentheses: tuples that begin with the name of their form.

Data: ("number", n), ("truth", b), ("name", x), ("call", x, arguments), ("dot", channel, fields), ("not", a), ("-", a), (operator, a, b), ("if", c, a, b),
("display", items), ("range", a, b), ("those", items, generators), ("production", parts, generators), ("union", a, b), ("inter", a, b), ("diff", a, b).
Processes: ("stop",), ("skip",), ("prefix", head, fields, p), ("choice", sign, operands), ("over", sign, x, set, p), ("then", p, q), ("guard", c, p),
("hide", p, set), ("rename", p, pairs, generators). Networks: ("pair", p, a, b, q), ("each", x, set, a, p). A field is ("out", sign, a) or ("in", x, set or
nothing), a generator ("from", x, set) or ("where", c), a part (channel, fields)."""
import re

from script import NoScript, tokens_of

BINARY = {"or", "and", "==", "!=", "<", "<=", ">", ">=", "+", "-", "*", "/", "%"}
SETS = ("union", "inter", "diff")
MOST_DIGITS = 9


class Parser:
    """Reads one tree."""

    def __init__(self, text):
        self.tokens = [token for token, _ in tokens_of(text + "\n")] + [""]
        self.at = 0

    def peek(self):
        return self.tokens[self.at]

    def take(self, wanted=None):
        token = self.tokens[self.at]
        if token == "" or (wanted is not None and token != wanted):
            raise NoScript(f"{token or 'the end'} and not {wanted}")
        self.at += 1
        return token

    def items(self, end, item):
        found = []
        while self.peek() != end:
            found.append(item())
            if self.peek() != ",":
                break
            self.take()
        return found

    def tree(self):
        token = self.peek()
        if token == "if":
            self.take()
            condition = self.tree()
            self.take("then")
            first = self.tree()
            self.take("else")
            return ("if", condition, first, self.tree())
        if token in ("[]", "|~|", "||"):
            return self.indexed(self.take())
        if token in ("not", "-"):
            self.take()
            return (token, self.atom())
        return self.operation(self.atom())

    def indexed(self, token):
        name = self.take()
        self.take(":")
        values = self.atom()
        self.take("@")
        if token != "||":
            return ("over", token, name, values, self.tree())
        self.take("[")
        alphabet = self.atom()
        self.take("]")
        return ("each", name, values, alphabet, self.tree())

    def operation(self, left):
        token = self.peek()
        if token in (".", "!", "?"):
            return self.event(left)
        if token == "->":
            self.take()
            return ("prefix", name_of(left), [], self.atom())
        if token in BINARY:
            self.take()
            return (token, left, self.atom())
        if token in ("[]", "|~|"):
            operands = [left]
            while self.peek() == token:
                self.take()
                operands.append(self.atom())
            return ("choice", token, operands)
        if token in (";", "&", "\\"):
            return self.chain(left)
        return self.bracketed(left, token)

    def chain(self, left):
        forms = {";": "then", "&": "guard", "\\": "hide"}
        while self.peek() in forms:
            left = (forms[self.take()], left, self.atom())
        return left

    def bracketed(self, left, token):
        if token == "[[":
            self.take()
            pairs = self.items("]]", self.pair)
            found = self.generators("]]") if self.peek() == "|" else []
            self.take("]]")
            return ("rename", left, pairs, found)
        if token == "[":
            self.take()
            first = self.atom()
            self.take("||")
            second = self.atom()
            self.take("]")
            return ("pair", left, first, second, self.atom())
        return left

    def event(self, head):
        fields = []
        while self.peek() in (".", "!", "?"):
            sign = self.take()
            if sign != "?":
                fields.append(("out", sign, self.atom()))
                continue
            name, values = self.take(), None
            if self.peek() == ":":
                self.take()
                values = self.atom()
            fields.append(("in", name, values))
        if self.peek() == "->":
            self.take()
            return ("prefix", name_of(head), fields, self.atom())
        if any(field[0] == "in" for field in fields):
            raise NoScript("an input in an expression")
        return ("dot", name_of(head), [field[2] for field in fields])

    def part(self):
        """A channel with some of its fields, as in a production."""
        name, fields = self.take(), []
        while self.peek() == ".":
            self.take()
            fields.append(self.atom())
        return (name, fields)

    def pair(self):
        first = self.part()
        self.take("<-")
        return (first, self.part())

    def generators(self, end):
        self.take("|")
        return self.items(end, self.generator)

    def generator(self):
        if re.match(r"[A-Za-z]", self.peek()) and self.tokens[self.at + 1] == "<-":
            name = self.take()
            self.take()
            return ("from", name, self.atom())
        return ("where", self.tree())

    def atom(self):
        token = self.take()
        if token == "(":
            inner = self.tree()
            self.take(")")
            return inner
        if token in SETS:
            self.take("(")
            first = self.tree()
            self.take(",")
            second = self.tree()
            self.take(")")
            return (token, first, second)
        if token == "{|":
            parts = self.items("|}", self.part)
            found = self.generators("|}") if self.peek() == "|" else []
            self.take("|}")
            return ("production", parts, found)
        if token == "{":
            return self.braces()
        if token.isdigit():
            return ("number", number_of(token))
        if token in ("true", "false"):
            return ("truth", token == "true")
        if token in ("STOP", "SKIP"):
            return (token.lower(),)
        if not re.match(r"[A-Za-z]", token):
            raise NoScript(token)
        if self.peek() == "(":
            self.take()
            arguments = self.items(")", self.tree)
            self.take(")")
            return ("call", token, arguments)
        return ("name", token)

    def braces(self):
        if self.peek() == "}":
            self.take()
            return ("display", [])
        first = self.tree()
        if self.peek() == "..":
            self.take()
            last = self.tree()
            self.take("}")
            return ("range", first, last)
        items = [first]
        while self.peek() == ",":
            self.take()
            items.append(self.tree())
        if self.peek() == "|":
            found = self.generators("}")
            self.take("}")
            return ("those", items, found)
        self.take("}")
        return ("display", items)


def number_of(numeral):
    """The value of a numeral; those that are longer are beyond any number of the language."""
    if len(numeral) > MOST_DIGITS:
        raise NoScript("a numeral that is too long")
    return int(numeral)


def name_of(tree):
    if tree[0] != "name":
        raise NoScript("no name")
    return tree[1]


def written(tree):
    """An expression as somebody writes it."""
    form = tree[0]
    if form == "number":
        return str(tree[1])
    if form == "truth":
        return "true" if tree[1] else "false"
    if form == "name":
        return tree[1]
    if form == "call":
        return f"{tree[1]}({', '.join(written(item) for item in tree[2])})"
    if form == "dot":
        return ".".join([tree[1], *(operand(field) for field in tree[2])])
    if form == "if":
        return f"if {written(tree[1])} then {written(tree[2])} else {written(tree[3])}"
    if form == "display":
        return "{" + ", ".join(written(item) for item in tree[1]) + "}"
    if form == "range":
        return "{" + f"{written(tree[1])}..{written(tree[2])}" + "}"
    if form == "those":
        return "{" + ", ".join(written(item) for item in tree[1]) + f" | {drawn_from(tree[2])}" + "}"
    if form == "production":
        parts = ", ".join(part_text(part) for part in tree[1])
        return "{| " + parts + (f" | {drawn_from(tree[2])}" if tree[2] else "") + " |}"
    if form in SETS:
        return f"{form}({written(tree[1])}, {written(tree[2])})"
    if form == "not" or (form == "-" and len(tree) == 2):
        return (form + " " if form == "not" else form) + operand(tree[1])
    return f"{operand(tree[1])}{form}{operand(tree[2])}" if form in ("+", "-", "*", "/", "%") else f"{operand(tree[1])} {form} {operand(tree[2])}"


def process_text(tree):
    """A process as `show` prints it."""
    form = tree[0]
    if form in ("stop", "skip"):
        return form.upper()
    if form in ("name", "call"):
        return written(tree)
    if form == "prefix":
        return f"{tree[1]}{''.join(field_text(field) for field in tree[2])} -> {inner_text(tree[3])}"
    if form == "choice":
        return f" {tree[1]} ".join(inner_text(part) for part in tree[2])
    if form == "over":
        return f"{tree[1]} {tree[2]}:{operand(tree[3])} @ {process_text(tree[4])}"
    if form == "then":
        return f"{inner_text(tree[1])} ; {inner_text(tree[2])}"
    if form == "guard":
        return f"{operand(tree[1])} & {inner_text(tree[2])}"
    if form == "if":
        return f"if {written(tree[1])} then {process_text(tree[2])} else {process_text(tree[3])}"
    if form == "hide":
        return f"{inner_text(tree[1])} \\ {operand(tree[2])}"
    if form == "rename":
        pairs = ", ".join(f"{part_text(old)} <- {part_text(new)}" for old, new in tree[2])
        return f"{inner_text(tree[1])}[[{pairs}{f' | {drawn_from(tree[3])}' if tree[3] else ''}]]"
    raise NoScript(f"{form} is no process")


def inner_text(tree):
    return process_text(tree) if tree[0] in ("stop", "skip", "name", "call") else f"({process_text(tree)})"


def field_text(field):
    if field[0] == "out":
        return field[1] + operand(field[2])
    return f"?{field[1]}" + (f":{operand(field[2])}" if field[2] else "")


def part_text(part):
    return ".".join([part[0], *(operand(field) for field in part[1])])


def operand(tree):
    atoms = ("number", "truth", "name", "call", "display", "range", "those", "production", *SETS)
    return written(tree) if tree[0] in atoms else f"({written(tree)})"


def drawn_from(generators):
    return ", ".join(f"{item[1]} <- {written(item[2])}" if item[0] == "from" else written(item[1]) for item in generators)
