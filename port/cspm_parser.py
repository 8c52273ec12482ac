"""Reads CSPm: expressions, processes and declarations."""
from cspm_tokens import Clause, Declared, Definition, Gen, Node, Refused, tokens_of

WORDS = set("channel datatype subtype nametype assert external transparent include print module endmodule exports let within if then else and or not STOP SKIP".split())
# Signs between two processes, the loosest first.
LEVELS = [("\\",), ("|||",), ("[|", "["), ("|~|",), ("[]",), ("/\\",), ("[>",), (";",)]
FORMS = {"\\": "hide", "|||": "inter", "|~|": "int", "[]": "ext", "/\\": "interrupt", "[>": "slide", ";": "then"}
# Signs between two data, the loosest first; `not` stands between the second level and the third.
DATA_LEVELS = [("or",), ("and",), ("==", "!=", "<", "<=", ">", ">="), ("+", "-"), ("*", "/", "%")]
COMPARED, SUM = 2, 3
LACKING = {
    "<->": "a linked parallel [a <-> b] is not taken: give both ends one name and use [| |]",
    "|>": "an exception [|X|> is not taken",
    "$": "a nondeterministic field $ is not taken: write an internal choice over its values",
    "\\": "a lambda is not taken: give the function a name",
}
# How brackets close, and the forms that stand in them: a list, a range, a comprehension.
DISPLAYED = {"(": (")", "tuple", None, None), "{": ("}", "set", "range", "comp"), "<": (">", "seq", "seqrange", "seqcomp"), "{|": ("|}", "prods", None, "prods")}
REPLICATED = ("[]", "|~|", "|||", "||", ";", "[|")


class Tokens:
    """A place in a list of tokens."""

    def __init__(self, tokens):
        self.tokens, self.at = tokens, 0
        # whether a `>` closes a sequence here
        self.closing = False

    def peek(self, ahead=0):
        at = self.at + ahead
        return self.tokens[at].text if at < len(self.tokens) else ""

    def kind(self):
        return self.tokens[self.at].kind if self.at < len(self.tokens) else ""

    def line(self):
        return self.tokens[min(self.at, len(self.tokens) - 1)].line

    def take(self, wanted=None):
        if self.at >= len(self.tokens):
            raise Refused(f"the text ends where {wanted or 'more'} is expected")
        token = self.tokens[self.at]
        if wanted is not None and token.text != wanted:
            raise Refused(f"line {token.line}: {token.text} stands where {wanted} is expected")
        self.at += 1
        return token.text

    def taken(self, sign):
        """Whether this sign stands here; then it is taken."""
        if self.peek() != sign:
            return False
        self.at += 1
        return True

    def listed(self, item, end=None):
        """Items between commas, up to a closing sign."""
        found = [] if self.peek() == end else [item()]
        while found and self.taken(","):
            found.append(item())
        return found

    def within(self, closing, read):
        """Reads with another meaning of `>`."""
        kept, self.closing = self.closing, closing
        found = read()
        self.closing = kept
        return found


class Expressions(Tokens):
    """Reads expressions and processes, which have one grammar."""

    def tree(self, level=0):
        if level == len(LEVELS):
            return self.prefixed()
        left = self.tree(level + 1)
        while self.peek() in LEVELS[level]:
            left = self.joined(self.take(), left, level + 1)
        return left

    def inner(self):
        return self.within(False, self.tree)

    def joined(self, sign, left, level):
        if sign in FORMS:
            return Node(FORMS[sign], left, self.tree(level))
        sets = [self.inner()]
        if self.peek() in LACKING:
            raise Refused(f"line {self.line()}: {LACKING[self.peek()]}")
        if sign == "[":
            self.take("||")
            sets.append(self.inner())
        self.take("]" if sign == "[" else "|]")
        return Node("apar" if sign == "[" else "par", left, *sets, self.tree(level))

    def prefixed(self):
        left = self.communicated()
        if self.taken("->"):
            head, fields = left.parts if left.form == "event" else (left, [])
            return Node("prefix", head, fields, self.prefixed())
        if left.form == "event":
            raise Refused(f"line {self.line()}: an arrow is expected behind an event")
        if self.taken("&"):
            return Node("guard", left, self.prefixed())
        return left

    def communicated(self):
        """An expression with fields: `.` and `!` for values, `?` for inputs, and `.` behind an input for another one."""
        left = self.data()
        if self.peek() not in (".", "!", "?"):
            return left
        fields = []
        while self.peek() in (".", "!", "?"):
            sign = self.take()
            if sign == "." and fields and fields[-1][0][0] == "?":
                sign = "?."
            pattern = self.concatenated() if sign[0] == "?" else self.data(SUM)
            fields.append((sign, pattern, self.data() if sign[0] == "?" and self.taken(":") else None))
        if self.peek() == "$":
            raise Refused(f"line {self.line()}: {LACKING['$']}")
        if all(sign == "." for sign, _, _ in fields) and self.peek() != "->":
            return Node("dot", [left, *(item for _, item, _ in fields)])
        return Node("event", left, fields)

    def data(self, level=0):
        if level == len(DATA_LEVELS):
            return self.signed()
        if level == COMPARED and self.taken("not"):
            return Node("not", self.data(COMPARED))
        left = self.data(level + 1)
        while self.peek() in DATA_LEVELS[level] and not (self.closing and self.peek() in (">", ">=")):
            left = Node("op", self.take(), left, self.data(level + 1))
        return left

    def signed(self):
        if self.taken("-"):
            return Node("neg", self.signed())
        if self.taken("#"):
            return Node("len", self.signed())
        return self.concatenated()

    def concatenated(self):
        left = self.applied()
        return Node("cat", left, self.concatenated()) if self.taken("^") else left

    def applied(self):
        left = self.atom()
        while self.peek() in ("(", "[["):
            if self.taken("("):
                arguments = self.within(False, lambda: self.listed(self.tree, ")"))
                self.take(")")
                left = Node("call", left, arguments)
            else:
                self.take()
                left = Node("rename", left, self.within(False, lambda: self.listed(self.pair)), self.generators())
                self.take("]]")
        return left

    def pair(self):
        first = self.tree()
        self.take("<-")
        return first, self.tree()

    def generators(self):
        """What stands behind `|` in a display, if anything does."""
        return self.listed(self.generator) if self.taken("|") else []

    def generator(self):
        first = self.tree()
        return Gen(first, self.tree()) if self.taken("<-") or self.taken(":") else Gen(None, first)

    def atom(self):
        token = self.peek()
        if token in ("if", "let") or token in REPLICATED:
            return self.opened()
        if self.kind() == "number":
            return Node("num", int(self.take()))
        if token in ("STOP", "SKIP"):
            return Node(self.take().lower())
        if self.taken("<>"):
            return Node("seq", [])
        if token in DISPLAYED:
            return self.within(token == "<", lambda: self.displayed(self.take(), *DISPLAYED[token]))
        if self.kind() == "name" and token not in WORDS:
            return Node("name", self.take())
        raise Refused(f"line {self.line()}: {LACKING.get(token, f'{token or chr(39) * 2} stands where an expression is expected')}")

    def opened(self):
        """What reaches as far right as it can: if, let, a replicated form."""
        sign = self.take()
        if sign == "if":
            condition = self.inner()
            self.take("then")
            first = self.inner()
            self.take("else")
            return Node("if", condition, first, self.tree())
        if sign == "let":
            groups = self.within(False, self.local)
            self.take("within")
            return Node("let", groups, self.tree())
        events = None
        if sign == "[|":
            events = self.inner()
            self.take("|]")
        gens = self.within(False, lambda: self.listed(self.ranged))
        self.take("@")
        if sign == "||":
            self.take("[")
            events = self.inner()
            self.take("]")
        return Node("each", sign, gens, events, self.tree())

    def ranged(self):
        first = self.communicated()
        return Gen(first, self.communicated()) if self.taken(":") or self.taken("<-") else Gen(None, first)

    def displayed(self, begin, end, plain, ranged, comprehended):
        """What stands in brackets."""
        items = self.listed(self.communicated if begin == "{|" else self.tree, end)
        if begin == "(" and len(items) == 1:
            found = Node("paren", items[0])
        elif ranged and self.taken(".."):
            if self.peek() == end:
                raise Refused(f"line {self.line()}: a range without an end is not finite")
            found = Node(ranged, items[0], self.tree())
        elif comprehended and (begin == "{|" or self.peek() == "|"):
            found = Node(comprehended, items, self.generators())
        else:
            found = Node(plain, items)
        self.take(end)
        return found

    def local(self):
        """The definitions of a let, by name."""
        groups = {}
        while self.peek() != "within":
            name, clause = self.clause()
            groups.setdefault(name, Definition(name)).clauses.append(clause)
        return groups

    def clause(self):
        if self.at >= len(self.tokens):
            raise Refused("the text ends where a definition is expected")
        first = self.tokens[self.at]
        if first.kind != "name" or first.text in WORDS:
            raise Refused(f"line {first.line}: {first.text} begins no definition that is taken")
        name, params = self.take(), []
        while self.taken("("):
            params += self.listed(self.tree, ")")
            self.take(")")
        self.take("=")
        body = self.tree()
        return name, Clause(params, body, first.at, self.tokens[self.at - 1].end, first.line)


class Declarations(Expressions):
    """Reads declarations."""

    def script(self):
        found = []
        while self.at < len(self.tokens):
            begin = self.at
            kind, names, value = self.declaration()
            found.append(Declared(kind, names, value, self.tokens[begin].at, self.tokens[self.at - 1].end, self.tokens[begin].line))
        return found

    def declaration(self):
        word = self.peek()
        if word in ("assert", "print"):
            return self.asserted()
        if word in ("include", "module"):
            raise Refused(f"line {self.line()}: {word} is not taken: put the text itself there")
        if self.peek(1) == "::":
            line = self.line()
            while self.at < len(self.tokens) and self.tokens[self.at].line == line:
                self.at += 1
            return "type", [word], None
        if word not in ("channel", "datatype", "subtype", "nametype", "transparent", "external"):
            name, clause = self.clause()
            return "clause", [name], clause
        self.take()
        names = self.listed(self.take)
        if word == "channel":
            return word, names, self.communicated() if self.taken(":") else None
        if word in ("transparent", "external"):
            return "transparent", names, None
        self.take("=")
        return word, names, self.communicated() if word == "nametype" else self.constructors()

    def constructors(self):
        members = []
        while not members or self.taken("|"):
            head, fields = self.take(), []
            while self.taken("."):
                fields.append(self.applied())
            members.append((head, fields))
        return members

    def asserted(self):
        """An assertion ends with its line, or with the line of its `:[..]` or of what it refines."""
        first, whole = self.at, False
        word = self.take()
        while self.at < len(self.tokens):
            token, is_new = self.tokens[self.at], self.tokens[self.at].line != self.tokens[self.at - 1].line
            if is_new and (whole or word == "print" or token.text in WORDS - {"STOP", "SKIP"}):
                break
            whole = whole or (token.text == ":" and self.peek(1) == "[") or (token.text == "[" and self.peek(2) == "=")
            self.at += 1
        own = self.tokens[first + 1 : self.at]
        texts = [token.text for token in own]
        for at in range(len(texts) - 3):
            if texts[0] != "not" and texts[at : at + 2] == [":", "["] and [text for text in texts[at + 2 : at + 5] if text != "-"][:2] == ["deadlock", "free"]:
                return "deadlock", [], Expressions(own[:at]).tree()
        return "other", [], None


class Script:
    """The declarations of a text, by kind."""

    def __init__(self, text):
        self.text, self.declared = text, Declarations(tokens_of(text)).script()
        self.channels, self.datatypes, self.nametypes, self.definitions = {}, {}, {}, {}
        self.constructors, self.transparent, self.asserted = {}, set(), []
        for item in self.declared:
            self.sort_in(item)

    def sort_in(self, item):
        if item.kind == "channel":
            self.channels.update((name, item.value) for name in item.names)
        elif item.kind in ("datatype", "subtype"):
            self.datatypes[item.names[0]] = item.value
            for head, fields in item.value:
                self.constructors.setdefault(head, fields)
        elif item.kind == "nametype":
            self.nametypes[item.names[0]] = item.value
        elif item.kind == "transparent":
            self.transparent.update(item.names)
        elif item.kind == "deadlock":
            self.asserted.append(item)
        elif item.kind == "clause":
            self.definitions.setdefault(item.names[0], Definition(item.names[0])).clauses.append(item.value)
