"""Why a script is refused, as far as the script itself tells it: values that are not there (2), counts (7), what grows (10, 11, 13), what ends (19)."""
from layout import Layout
from network import NOT_FOLLOWED
from script import NoScript
from terms import terms_of
from texts import MOST_NAMED, counted, listed
from trees import Parser, operand, written
from values import KINDS, Event, NoValue


def about_value(network, told):
    """The value that is not there: the expression, what it comes to, and the definition that it stands in."""
    if not network.script:
        return []
    network.script.steps = 0
    try:
        faults = [fault for fault in faults_at(network, told) if fault.kind == told.kind]
    except NOT_FOLLOWED:
        faults = []
    found, seen = [], set()
    for fault in faults:
        key = written(fault.tree), fault.uses[0][0] if fault.uses else None
        if key not in seen and len(seen) < 3:
            seen.add(key)
            found += fault_lines(network, fault)
    return found


def faults_at(network, told):
    """The faults of values where the report says that there is one."""
    script = network.script
    if told.site == "component" and told.components[0] < len(network.components):
        terms = terms_of(script, network.components[told.components[0]])
        return terms.faults if terms else []
    try:
        if told.site == "network":
            Layout(script)
        elif told.site == "declaration":
            evaluate(script, told.declaration)
        elif told.site == "annotation" and told.components[0] < len(network.components):
            annotations(script, network.components[told.components[0]])
        elif told.site == "hidden set":
            name = told.words[2]
            for element in script.set_of(("name", name), {}):
                if type(element) is not Event:
                    raise NoValue("Kind", ("name", name), f"has {script.text(element)} in it, which is no event")
    except NoValue as fault:
        return [fault]
    return []


def evaluate(script, declaration):
    """Evaluates a declaration of channels, of a type, or of data without parameters."""
    line = script.shown[declaration]
    if line.startswith("channel "):
        for channel in line[8:].partition(" : ")[0].split(" , "):
            script.fields_of(channel)
        return
    head, _, body = (line[9:] if line.startswith("nametype ") else line).partition(" = ")
    if " (" not in head:
        script.value(Parser(body).tree(), {})


def annotations(script, component):
    for note in script.notes:
        if note[1] == component.name:
            for name in note[2:]:
                found = script.used(("name", name), component.values)
                if type(found) is not frozenset:
                    raise NoValue("Kind", ("name", name), f"is {KINDS[type(found)]}, and a set is needed")


def fault_lines(network, fault):
    """`OutsideChannel: c.(x+1) is c.4, and field 1 of c takes {0..3}`, and where that stands."""
    expression, why = written(fault.tree), fault.why
    text = f"{expression}: {why[len(expression) + 9:]}" if why.startswith(f"is {expression}, and ") else f"{expression} {why}"
    free = [name for name in names_in(fault.tree) if name in fault.bound]
    where = f", where {', '.join(f'{name} is {network.script.short(fault.bound[name])}' for name in free)}" if free else ""
    found = ["", f"{fault.kind}: {text}{where}"]
    for place, (name, values) in enumerate(fault.uses[:4]):
        declaration = network.script.names.get(name)
        found.append(f"  {'in' if place == 0 else 'which is used in'} {network.script.use(name, values)}, {network.place(declaration)}: {network.text(declaration)[0].strip()}")
    return found


def names_in(tree):
    """The names in an expression, each once."""
    if isinstance(tree, (list, tuple)):
        if len(tree) == 2 and tree[0] == "name":
            return [tree[1]]
        return list(dict.fromkeys(name for part in tree for name in names_in(part)))
    return []


# counts


def about_count(network, told):
    """What is called or sent with another number of parts than it is declared with."""
    script = network.script
    if not script or told.declaration >= len(network.shown):
        return []
    line, found = network.shown[told.declaration], []
    if line.startswith("--@"):
        return annotation_counts(script, line.split()[1:])
    body = line[7:].rsplit(" : [ deadlock free ]", 1)[0] if line.startswith("assert ") else line.partition(" = ")[2]
    try:
        tree = Parser(body).tree()
        for form, name, parts in uses_in(tree):
            if name == told.event:
                found += count_lines(network, form, name, parts)
        found += renaming_lines(script, tree) if told.event in script.channels else []
    except NoScript:
        return []
    return ["", *dict.fromkeys(found)] if found else []


def count_lines(network, form, name, parts):
    script = network.script
    declared = network.place(script.names[name]) if name in script.names else ""
    if name in script.channels:
        fields = len(script.field_trees(name))
        if parts > fields or (parts < fields and form != "part"):
            return [f"{name} has {counted(fields or 'no', 'field')} ({declared}: {network.text(script.names[name])[0].strip()}) and stands here with {parts}"]
    elif name in script.definitions:
        parameters = len(script.definitions[name][0])
        if parameters != parts:
            return [f"{name} has {counted(parameters or 'no', 'parameter')} ({declared}: {network.text(script.names[name])[0].strip()}) and is called here with {parts}"]
    return []


def renaming_lines(script, tree):
    """The sides of a renaming that leave different numbers of fields out."""
    if not isinstance(tree, (list, tuple)):
        return []
    found = []
    for old, new in tree[2] if isinstance(tree, tuple) and tree and tree[0] == "rename" else ():
        out = [len(script.field_trees(name)) - len(fields) for name, fields in (old, new) if name in script.channels]
        if len(out) == 2 and out[0] != out[1]:
            texts = [".".join([name, *(operand(field) for field in fields)]) for name, fields in (old, new)]
            found.append(f"{texts[0]} <- {texts[1]}: {texts[0]} leaves {counted(out[0] or 'no', 'field')} out, and {texts[1]} {out[1] or 'none'}")
    return found + [line for part in tree for line in renaming_lines(script, part)]


def annotation_counts(script, words):
    if len(words) < 2 or words[1] not in script.definitions:
        return []
    wanted = len(script.definitions[words[1]][0])
    own = [(name, len(script.definitions[name][0])) for name in words[2:] if name in script.definitions]
    return ["", *(f"{name} has {counted(have or 'no', 'parameter')}, and {words[1]}, which it is a set of, has {wanted}" for name, have in dict.fromkeys(own) if have != wanted)]


def uses_in(tree):
    """The uses of names in a tree: (form, name, how many parts stand with it)."""
    if isinstance(tree, list):
        return [use for part in tree for use in uses_in(part)]
    if not isinstance(tree, tuple) or not tree:
        return []
    if tree[0] == "name" and len(tree) == 2:
        return [("name", tree[1], 0)]
    if tree[0] == "call":
        return [("call", tree[1], len(tree[2])), *uses_in(tree[2])]
    if tree[0] in ("dot", "prefix"):
        return [(tree[0], tree[1], len(tree[2])), *uses_in(tree[2]), *uses_in(list(tree[3:]))]
    if tree[0] == "production":
        return parts_in(tree[1]) + uses_in(tree[2])
    if tree[0] == "rename":
        return uses_in(tree[1]) + [use for pair in tree[2] for use in parts_in(pair)] + uses_in(tree[3])
    return [use for part in tree[1:] if isinstance(part, (list, tuple)) for use in uses_in(part)]


def parts_in(parts):
    """The uses in the parts of a production or a renaming, where fields may be left out."""
    return [use for name, fields in parts for use in [("part", name, len(fields)), *uses_in(fields)]]


# what grows, and what ends


def terms_told(network, told):
    """The terms of the component that is told, or nothing."""
    part = told.components[0]
    return terms_of(network.script, network.components[part]) if part < len(network.components) else None


def about_growth(network, told):
    """10, 11, 13: the definitions that are used with the most different arguments, and which parameters make them so."""
    terms = terms_told(network, told)
    if not terms:
        return []
    found = about_piles(network, terms) if told.number == "10" and not told.line.endswith("terms") else []
    if found:
        return found
    for name, values in sorted(terms.uses.items(), key=lambda item: -len(item[1]))[:3]:
        parameters = network.script.definitions[name][0]
        if len(values) < 2:
            continue
        more = "" if terms.complete else " or more"
        columns = [sorted({row[place] for row in values}, key=repr) for place in range(len(parameters))]
        ranges = ", ".join(f"{parameter} takes {len(column)}: {span(network.script, column)}" for parameter, column in zip(parameters, columns))
        found.append(f"  {name}, {network.place(network.script.names[name])}, is used with {len(values)}{more} different arguments; {ranges}")
    found += CLAMP if found and told.number == "10" else []
    return ["", "What this component comes to, as its definitions read:", *found] if found else []


# What mends a counter without a bound, of which a partner sees to it that it never gets far.
CLAMP = ["  Bound what grows by its value and not by a guard, as COUNT((if n < 2 then n+1 else n)): so each request is still taken at any moment, which a server has to",
         "  (docs/RULES.md, \"A counter that only its partners bound\"; examples/level_crossing.csp)"]


def about_piles(network, terms):
    """10: definitions that use themselves without an event, or within what is then written round them again and again."""
    script, found = network.script, []
    for name in terms.uses:
        way = unguarded(script, name)
        if way:
            return ["", f"Uses without an event before them: {' uses '.join(way)}"]
        for form, tree in wrapped_in(script.body_of(name)[1]):
            if any(name in reached(script, other) for _, other, _ in uses_in(tree)):
                found.append(f"{name} uses itself within {form}: {network.place(script.names[name])}: {network.text(script.names[name])[0].strip()}")
    return ["", *found] if found else []


def wrapped_in(tree):
    """What stands within a hiding, a renaming, or before a `;`."""
    if not isinstance(tree, (list, tuple)):
        return []
    forms = {"hide": "a hiding", "rename": "a renaming", "then": "what stands before a `;`"}
    own = [(forms[tree[0]], tree[1])] if tree and isinstance(tree[0], str) and tree[0] in forms and isinstance(tree, tuple) else []
    return own + [found for part in tree for found in wrapped_in(part)]


def reached(script, name):
    """The definitions that a name leads to, itself among them."""
    seen, todo = {name}, [name]
    for one in todo:
        for _, other, _ in uses_in(script.body_of(one)[1]) if one in script.definitions else ():
            if other not in seen:
                seen.add(other)
                todo.append(other)
    return seen


def span(script, column):
    """What values there are, in short."""
    if all(type(value) is int for value in column):
        return f"{min(column)} to {max(column)}"
    texts = [script.short(value) for value in column[:3]]
    return ", ".join(text if len(text) < 60 else text[:57] + ".." for text in texts) + (", .." if len(column) > 3 else "")


def about_end(network, told):
    """The definitions of a component in which SKIP stands."""
    terms = terms_told(network, told)
    found = []
    for name in terms.uses if terms else ():
        if holds(network.script.body_of(name)[1], "skip"):
            declaration = network.script.names[name]
            found.append(f"  {network.place(declaration)}: {network.text(declaration)[0].strip()}")
    return ["", "SKIP stands in:", *found[:MOST_NAMED]] if found else []


def holds(tree, form):
    if isinstance(tree, tuple) and tree and tree[0] == form:
        return True
    return isinstance(tree, (list, tuple)) and any(holds(part, form) for part in tree)


def about_silence(network, told):
    """A component that goes round in silence: definitions that use one another without an event, or events that are hidden."""
    terms = terms_told(network, told)
    found = []
    for name in terms.uses if terms else ():
        way = unguarded(network.script, name)
        if way:
            return ["", f"Uses without an event before them: {' uses '.join(way)}"]
        hidden = [written(tree) for tree in hidden_in(network.script.body_of(name)[1])]
        if hidden:
            declaration = network.script.names[name]
            found.append(f"  {listed(hidden)} in {network.place(declaration)}: {network.text(declaration)[0].strip()}")
    return ["", "Hidden is:", *found[:MOST_NAMED]] if found else []


def hidden_in(tree):
    """The sets that are hidden in a tree."""
    if isinstance(tree, tuple) and tree and tree[0] == "hide":
        return [tree[2], *hidden_in(tree[1])]
    return [found for part in tree for found in hidden_in(part)] if isinstance(tree, (list, tuple)) else []


def unguarded(script, first):
    """A way from a definition to itself on which no event stands; nothing where there is none."""
    before, todo = {first: None}, [first]
    for name in todo:
        for other in openly(script.body_of(name)[1]):
            if other == first:
                way = [first, name]
                while before[way[-1]] is not None:
                    way.append(before[way[-1]])
                way.reverse()
                return way
            if other in script.definitions and other not in before:
                before[other] = name
                todo.append(other)
    return []


def openly(tree):
    """The definitions that a process may use before any event."""
    form = tree[0]
    if form in ("name", "call"):
        return [tree[1]]
    inner = {"choice": tree[2:3], "over": tree[4:5], "then": tree[1:2], "guard": tree[2:3], "if": tree[2:4], "hide": tree[1:2], "rename": tree[1:2]}.get(form, ())
    return [name for part in inner for one in (part if isinstance(part, list) else [part]) for name in openly(one)]
