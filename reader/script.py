"""The text of a script: its tokens with their lines, its declarations as `show` prints them, and where each stands in the source.

This serves the reader of reports alone. It proves nothing: what a text spells is told by the program."""
import re

PIECE = re.compile(
    r"(?P<blank>[ \t\r\n]+)|(?P<note>--@[ \t\r]*(?:roles|resource)(?=[ \t\r\n])[^\n]*)|(?P<comment>--[^\n]*)|(?P<open>\{-)"
    r"|(?P<name>[A-Za-z][A-Za-z0-9_]*'*)|(?P<number>[0-9]+)"
    r"|(?P<symbol>\|~\||->|\[\]|\|\||\[\[|\]\]|\{\||\|\}|<-|\.\.|==|!=|<=|>=|[-.!?:@=<>+*/%(){}\[\],&|\\;])|(?P<other>(?s:.))"
)
FENCE = re.compile(r"\{-|-\}")
NAME = re.compile(r"[A-Za-z][A-Za-z0-9_]*'*")
ASSERTED = re.compile(r"\s*[A-Za-z][A-Za-z0-9_]*'*\s*(?:\(.*\)\s*)?:\s*\[\s*deadlock\s+free\s*(?:\[\s*(?:FD|F)\s*\]\s*)?\]\s*$")
# The words that are reserved: those of the language, and those that stand for something in the languages of other checkers alone.
RESERVED = frozenset("and assert channel datatype diff else false if inter nametype not or then true union STOP SKIP".split())
FOREIGN = frozenset("external include lambda let module print subtype timed transparent within".split())


class NoScript(Exception):
    """The text is none that this file can follow."""


# What is raised where a script can't be followed: then the reports of the program stand alone. Whatever else is raised is a fault of the reader's own.
NOT_FOLLOWED = (NoScript, RecursionError)


def piece_at(text, at):
    """The kind of the piece of a text that begins here, and where it ends. A comment that nests is one piece, a `fence`; one that is never closed is `open`."""
    match = PIECE.match(text, at)
    if match.lastgroup != "open":
        return match.lastgroup, match.end()
    end = end_of_comment(text, at)
    return ("fence", end) if end else ("open", len(text))


def pieces_of(text):
    """The pieces of any text: (kind, piece)."""
    at = 0
    while at < len(text):
        kind, end = piece_at(text, at)
        yield kind, text[at:end]
        at = end


def tokens_of(text):
    """The tokens of a text with the line of each, without comments and without assertions that are skipped."""
    at, line, found = 0, 1, []
    while at < len(text):
        kind, end = piece_at(text, at)
        piece = text[at:end]
        if kind in ("other", "open"):
            raise NoScript(f"line {line}")
        if kind == "note":
            found += [("--@", line)] + [(word, line) for word in piece[3:].split()]
        elif kind == "number":
            # Python reads no numeral of more than some thousand digits
            found.append((piece.lstrip("0") or "0", line))
        elif piece == "assert":
            found += [(token, line) for token in assertion(text, end)]
            end = end_of_assertion(text, end)
        elif kind in ("name", "symbol"):
            found.append((piece, line))
        line += piece.count("\n")
        at = end
    return found


def end_of_assertion(text, at):
    """Where the rest of an assertion's line ends: at the line's end or at a comment, whatever stands before it."""
    return re.compile(r"[^\n]*?(?=\n|--|\{-|$)").match(text, at).end()


def assertion(text, at):
    """The tokens of the assertion whose word ends here, or none where it is skipped."""
    rest = text[at : end_of_assertion(text, at)]
    if not ASSERTED.match(rest):
        return []
    return ["assert", *re.findall(r"[A-Za-z0-9_']+|[^\sA-Za-z0-9_']", re.sub(r"\[\s*(?:FD|F)\s*\]\s*\]", "]", rest))]


def end_of_comment(text, at):
    """Where the comment that opens here ends, since such comments nest; nothing where it doesn't."""
    depth = 0
    for fence in FENCE.finditer(text, at):
        depth += 1 if fence[0] == "{-" else -1
        if depth == 0:
            return fence.end()
    return None


def without_brackets(tokens):
    """Printing adds parentheses and changes no other token; the symbols of an assertion stand one by one."""
    kept = []
    for token, line in tokens:
        if token in ("(", ")"):
            continue
        kept += [(token, line)] if re.match(r"[A-Za-z0-9]", token) else [(sign, line) for sign in token]
    return kept


def lines_of(source, shown):
    """The source's line of each declaration that is shown, or nothing where the two texts are not the same script."""
    try:
        written = without_brackets(tokens_of(source))
        at, lines = 0, []
        for declaration in shown:
            own = without_brackets(tokens_of(declaration + "\n"))
            if not own or [token for token, _ in own] != [token for token, _ in written[at : at + len(own)]]:
                return []
            lines.append(written[at][1])
            at += len(own)
        return lines if at == len(written) else []
    except NoScript:
        return []
