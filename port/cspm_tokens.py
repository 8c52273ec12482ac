"""The tokens of a CSPm script as FDR reads it, and the trees that the parser makes of them.

A tree is a `Node`: `form` names it, `parts` are its parts. Data: num(n) name(x) call(f, args) dot(items) not(a) neg(a) len(a) op(sign, a, b) cat(a, b)
if(c, a, b) set(items) range(m, n) comp(items, gens) prods(items, gens) seq(items) seqrange(m, n) seqcomp(items, gens) tuple(items) let(groups, body) paren(a).
Processes: stop skip prefix(head, fields, p) guard(c, p) ext(a, b) int(a, b) then(a, b) interrupt(a, b) slide(a, b) hide(p, set)
rename(p, pairs, gens) par(p, set, q) apar(p, a, b, q) inter(p, q) each(sign, gens, set or None, p). A pattern is a data tree."""
import collections, re

TOKEN = re.compile(
    r"(?P<blank>\s+)|(?P<comment>--[^\n]*)|(?P<open>\{-)|(?P<string>\"[^\"\n]*\")|(?P<name>[A-Za-z_][A-Za-z0-9_]*'*)|(?P<number>[0-9]+)"
    r"|(?P<symbol>\|~\||\|\|\||<->|->|/\\|\[\]|\|\||\[\[|\]\]|\[\||\|\]|\|>|\[>|\{\||\|\}|<-|<>|\.\.|==|!=|<=|>=|::|[-.!?$:@=<>+*/%^#(){}\[\],&|\\;])"
)
COMMENT_END = re.compile(r"\{-|-\}")
Token = collections.namedtuple("Token", "kind text at end line")
Clause = collections.namedtuple("Clause", "params body at end line")
# A generator `pattern <- source`; a condition has no pattern.
Gen = collections.namedtuple("Gen", "pattern source")
Declared = collections.namedtuple("Declared", "kind names value at end line")


class Refused(Exception):
    """What the port does not take, in a sentence for the designer."""


class Node:
    """A tree. Two nodes are equal only if they are the same object, so that a node can name its place in the text."""

    __slots__ = ("form", "parts", "names")

    def __init__(self, form, *parts):
        self.form, self.parts, self.names = form, parts, None


class Definition:
    """All clauses of a name, in the order of the text."""

    def __init__(self, name):
        self.name, self.clauses = name, []


def tokens_of(text):
    """The tokens of a text, with their places and lines."""
    found, at, line = [], 0, 1
    while at < len(text):
        match = TOKEN.match(text, at)
        if not match:
            raise Refused(f"line {line}: no token begins with {text[at]!r}")
        end = comment_end(text, at, line) if match.lastgroup == "open" else match.end()
        if match.lastgroup not in ("blank", "comment", "open"):
            found.append(Token(match.lastgroup, match[0], at, end, line))
        line += text.count("\n", at, end)
        at = end
    return found


def comment_end(text, at, line):
    """Where the comment `{- .. -}` that opens here ends; such comments nest."""
    depth = 0
    for sign in COMMENT_END.finditer(text, at):
        depth += 1 if sign[0] == "{-" else -1
        if depth == 0:
            return sign.end()
    raise Refused(f"line {line}: a comment is not closed")


def names_in(node):
    """All names that stand in a tree, bound or free."""
    if node.names is None:
        found = set()
        collect_names(node.parts, found)
        node.names = frozenset(found | {node.parts[0]} if node.form == "name" else found)
    return node.names


def collect_names(part, found):
    if isinstance(part, Node):
        found |= names_in(part)
    elif isinstance(part, Definition):
        for clause in part.clauses:
            collect_names(clause.params, found)
            found |= names_in(clause.body)
    elif isinstance(part, (dict, list, tuple)):
        for item in part.values() if isinstance(part, dict) else part:
            collect_names(item, found)


def bare(tree):
    """A tree without the parentheses round it."""
    while tree.form == "paren":
        tree = tree.parts[0]
    return tree
