"""Expressions for sets of events that depend on the name of a replicated parallel: found by the reader, which finds those of annotations.

This is the only module that knows the reader's modules."""
import pathlib, sys

# behind the port's own folder, so that no name is taken from it
sys.path.append(str(pathlib.Path(__file__).resolve().parent.parent / "reader"))
import set_expressions
import values as reader_values

from cspm_tokens import Refused
from cspm_values import Dot, in_order, spelled
from networks import literal

MOST_LISTED = 150


class Finder:
    """Finds expressions over declarations as the program prints them."""

    def __init__(self, lines):
        self.script = reader_values.Script(lines)

    def event(self, event):
        return reader_values.Event(list(self.script.channels).index(event[0]), tuple(map(self.value, event[1:])))

    def value(self, value):
        """A value as the reader has it."""
        if isinstance(value, int):
            return value
        if type(value) is Dot:
            return self.event(value)
        return value == "true" if value in ("true", "false") else self.script.consts[value]

    def calls(self, calls):
        return [tuple(map(self.value, call)) for call in calls]

    def terms(self, params, calls):
        """What can be said of the params: (text, value at each call), the plainest first."""
        try:
            found = set_expressions.Terms(self.script, list(params), self.calls(calls)).fields
        except set_expressions.NO_VALUE:
            return []
        own = {constant: name for name, constant in self.script.consts.items()}
        plain = [(term.text, [own.get(value, value) for value in term.values]) for term in sorted(found, key=lambda term: term.cost)]
        return [(text, values) for text, values in plain if None not in values]

    def find(self, params, calls, wanted):
        """An expression, or the use of a definition, that has these events at each call; and whether it is the latter."""
        try:
            given, events = self.calls(calls), [frozenset(map(self.event, own)) for own in wanted]
            finder = set_expressions.Finder(self.script, list(params), given)
            name = finder.named(events) if any(events) else None
            if name:
                return name + (f"({','.join(params)})" if params else ""), True
            text = finder.expression(events)
            if text is not None and set_expressions.has_values(self.script, text, list(params), given, events):
                return text, False
        except set_expressions.NO_VALUE:
            pass
        return listed(params, calls, wanted), False


def listed(params, calls, wanted):
    """The sets one by one."""
    texts = ["{" + ", ".join(map(spelled, in_order(own))) + "}" for own in wanted]
    if len(set(texts)) == 1:
        return texts[0]
    if len(texts) > MOST_LISTED:
        raise Refused("an alphabet of a replicated parallel has no expression that is short enough")
    return "".join(f"if {condition(params, call)} then {text} else " for call, text in zip(calls[:-1], texts)) + texts[-1]


def condition(params, call):
    """That the params have these values."""
    return " and ".join(f"{name} == {literal(value)}" for name, value in zip(params, call))
