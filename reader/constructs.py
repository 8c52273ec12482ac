"""What a script says that is outside of the language: all of it at once, by line. It proves nothing, and looks at signs alone: what is refused first is told by the program."""
import collections, re

from script import FOREIGN, NAME, RESERVED, pieces_of

# A construct: the line on which it stands, the row of the table of the language that is about it (its first words), and the line's text.
Construct = collections.namedtuple("Construct", "line row text")
# Signs in a declaration without its comments, and the rows that they lead to.
SIGNS = tuple((re.compile(sign), row) for sign, row in (
    (r"\|\|\|", "interleaving"), (r"\[\|[^|]*\|>", "interrupt"), (r"\[\|(?![^|]*\|>)", "parallel over"), (r"<->", "linked parallel"), (r"\b(?:let|within)\b", "local definitions"),
    (r"^\s*\w+\([^)=]*\b\d+\b[^)=]*\)\s*=(?!=)", "definitions by cases"), (r"<\s*>|<\w+(?:,\s*\w+)*>|\^|#", "sequences"), (r"\?_", "an input that doesn't"), (r"\?\w+\.(?!\.)", "several fields"),
    (r"^\s*datatype\b.*\.", "fields in a datatype"), (r"\b(?:union|inter|diff)\([^()]*,?\s*if\b", "an if within"), (r"/\\|\[>", "interrupt"),
    (r"(?<![\w'])\(\s*\w+\s*(?:,\s*\w+\s*)+\)", "tuples"), (r"^\s*(?:include|print)\b", "files and print"), (r"[^\x00-\x7f]", "signs that are no ASCII"),
    (r"\]\s*\w+(?:\([^()]*\))?\s*\[[^\]]*\|\|", "three in one"), (r"(?:\[|\|\|)\s*if\b", "an if as an alphabet"),
))
# Names that other checkers know, and the rows about them.
KNOWN = {
    "Bool": "Bool", "Int": "Int", "Union": "Union of a family", "Inter": "Union of a family", "RUN": "RUN and CHAOS", "CHAOS": "RUN and CHAOS", "member": "sets", "card": "sets", "empty": "sets",
    "head": "sequences", "tail": "sequences", "length": "sequences", "null": "sequences", "concat": "sequences", "elem": "sequences",
}
# How many words stand behind `roles` and `resource`.
NOTE_WORDS = {"roles": 5, "resource": 3}
MOST_CONSTRUCTS = 40


def constructs_of(source):
    """All constructs of a script that are outside of the language, in the order of their lines."""
    code, found = without_comments(source)
    lines, declared = source.split("\n"), declared_names(code)
    for first, text in declarations(code):
        for sign, row in SIGNS:
            for match in sign.finditer(text):
                # `?get.x` where `get` is a constructor
                own = "fields in a datatype" if row == "several fields" and match[0][1:-1] in declared else row
                found.append((first + text.count("\n", 0, match.start() + len(match[0]) - len(match[0].lstrip())), own))
        found += [(first + text.count("\n", 0, match.start()), KNOWN[match[0]]) for match in NAME.finditer(text) if match[0] in KNOWN and match[0] not in declared]
        found += [(first + at, row) for at, row in (*mixed(text), *lonely(text))]
    seen = sorted(dict.fromkeys(found))
    return [Construct(line, row, lines[line - 1].strip()) for line, row in seen if line <= len(lines)]


def without_comments(source):
    """The text with blanks in the place of comments and annotations, and the places of comments that are none, and of annotations that are wrong."""
    kept, found, line = [], [], 1
    for kind, piece in pieces_of(source):
        if kind in ("open", "fence") and re.match(r"\{-\s*\d", piece):
            found.append((line, "negative numbers"))
        if kind == "note" and not is_right(piece[3:].split()):
            found.append((line, "an annotation:"))
        kept.append(re.sub(r"[^\n]", " ", piece) if kind in ("comment", "note", "fence", "open") else piece)
        line += piece.count("\n")
    return "".join(kept), found


def is_right(words):
    """Whether an annotation has its names, and nothing else."""
    return len(words) == 1 + NOTE_WORDS[words[0]] and all(NAME.fullmatch(word) and word not in RESERVED | FOREIGN for word in words[1:])


def declarations(code):
    """The declarations of a text, each with the number of its first line: one begins where a line begins without a blank."""
    first, kept = 1, []
    for number, line in enumerate(code.split("\n"), 1):
        if kept and re.match(r"\S", line) and not re.match(r"(?:within|then|else|\[\]|\|~\||[)}\]@])", line):
            yield first, "\n".join(kept)
            kept = []
        first = first if kept else number
        kept.append(line)
    yield first, "\n".join(kept)


def declared_names(code):
    """The names that a text declares, as far as its lines tell."""
    found = set()
    for line in code.split("\n"):
        head = re.match(r"\s*(?:datatype|nametype)?\s*([A-Za-z]\w*)[^=\n]*=(?!=)", line)
        found |= set(NAME.findall(line)) if re.match(r"\s*(?:channel|datatype)\b", line) and ":" not in line else {head[1]} if head else set()
    return found


def mixed(text):
    """Where `[]` and `|~|` stand between the same brackets: (line within the text, row)."""
    levels, found, before = [set()], [], ""
    for match in re.finditer(r"\[\]|\|~\||\[\[|\]\]|->|[A-Za-z]\w*'*|\d+|\n|\s+|.", text):
        piece = match[0]
        if piece.isspace():
            continue
        if piece in ("(", "{", "[", "[["):
            levels.append(set())
        elif piece in (")", "}", "]", "]]") and len(levels) > 1:
            levels.pop()
        elif piece in ("then", "else", ",", "@"):
            levels[-1] = set()
        elif piece in ("[]", "|~|") and re.fullmatch(r"[\w')}\]]+", before) and before not in ("then", "else"):
            levels[-1].add(piece)
            if len(levels[-1]) > 1:
                return [(text.count("\n", 0, match.start()), "mixed choices")]
        before = piece
    return found


def lonely(text):
    """An `if` of a declaration in which there are fewer `else`."""
    words = [(match[0], match.start()) for match in re.finditer(r"\b(?:if|else)\b", text)]
    if sum(word == "if" for word, _ in words) > sum(word == "else" for word, _ in words):
        return [(text.count("\n", 0, next(at for word, at in words if word == "if")), "an if without else")]
    return []
