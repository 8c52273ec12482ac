"""How what is told is written: lists of lines."""
import re, unicodedata

TOP_LINE = "What follows is read from reports of dlcheck by a program beside it. It proves nothing."
MOST_NAMED = 24
# Signs that may be hidden, or change how others are seen: some of these are.
DOUBTFUL = re.compile(r"[^\x20-\x7e\t\n]")
HIDDEN = ("Cc", "Cf", "Cs", "Co", "Cn", "Zl", "Zp")


def plain(text):
    """A text in which each sign that is not seen, or that changes how others are seen, stands by its number."""
    return DOUBTFUL.sub(lambda found: f"\u27e8{ord(found[0]):X}\u27e9" if unicodedata.category(found[0]) in HIDDEN else found[0], text)


def listed(events, most=MOST_NAMED):
    """Events in a row, and how many more there are."""
    if not events:
        return "none"
    return ", ".join(events[:most]) + (f" and {len(events) - most} more" if len(events) > most else "")


def counted(number, what):
    """`1 event`, `2 events`."""
    return f"{number} {what}{'' if number == 1 else 's'}"


def quoted(text):
    """A text in quotes for Graphviz."""
    return '"' + text.replace("\\", "\\\\").replace('"', '\\"').replace("\n", "\\n") + '"'


def trace_text(events, most=MOST_NAMED):
    """`<a, b>`, of a long trace its end."""
    kept = events[-most:]
    return "<" + ("..., " if len(kept) < len(events) else "") + ", ".join(kept) + ">"


def indented(text, blanks="  "):
    return "\n".join(blanks + line if line else "" for line in text.splitlines())
