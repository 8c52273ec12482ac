"""What a refusal names in the script: names, assertions, alphabets, sizes. It proves nothing."""
import difflib, re

from alphabets import own_alphabets
from faults import about_count, about_end, about_growth, about_silence, about_value, holds, uses_in
from layout import Layout
from network import NOT_FOLLOWED
from script import FOREIGN, RESERVED
from texts import MOST_NAMED, listed
from trees import Parser, written

MOST_LINES = 6
ASSERTION = re.compile(r"^\s*assert\b(.*)$")


def what_it_is(network, name):
    """What a declared name stands for, and where; nothing where it is not declared."""
    script = network.script
    if name in script.consts:
        types = [kind for kind, members in script.datatypes.items() if script.consts[name] in members]
        return f"a constant of {types[0]}" if types else "a constant"
    if name not in script.names:
        return None
    place = network.place(script.names[name])
    if name in script.channels:
        return f"a channel, {place}"
    if name in script.datatypes or network.shown[script.names[name]].startswith("nametype "):
        return f"a type, {place}"
    return f"{'a process' if is_process(script, name) else 'data'}, {place}"


def is_process(script, name, seen=()):
    """Whether a definition is one of a process: by its form, or by that of what it calls."""
    try:
        tree = script.body_of(name)[1]
    except NOT_FOLLOWED:
        return False
    while tree[0] == "if":
        tree = tree[2]
    if tree[0] in ("name", "call"):
        return tree[1] in script.definitions and tree[1] not in seen and is_process(script, tree[1], (*seen, name))
    return tree[0] in ("stop", "skip", "prefix", "choice", "over", "then", "guard", "hide", "rename", "pair", "each")


def declaration_before(lines):
    """The lines of the last declaration that begins in these, without comments."""
    found = []
    for line in reversed(lines):
        found += [line] if line.strip() and not re.match(r"\s*--(?!@)", line) else []
        if re.match(r"\S[^=]*=(?!=)|--@|(channel|assert)\b", line):
            break
    return found[::-1]


def about_slip(network, told):
    """1: a reserved word, or brackets that are not closed."""
    lines, (row, column) = network.source.split("\n"), told.place
    if row > len(lines):
        return []
    front = lines[row - 1].encode(errors="replace")[: column - 1].decode(errors="replace")
    word = re.match(r"\w*", lines[row - 1][len(front) :])[0]
    if word in RESERVED | FOREIGN:
        return ["", f"{word} is a reserved word, and no name" + ("; it stands for nothing here." if word in FOREIGN else ".")]
    # `assert` takes the rest of its line, so the slip is told behind it
    if re.search(r"\S.*\bassert\b", re.sub(r"--.*", "", next((line for line in reversed(lines[: row - 1]) if line.strip()), ""))):
        return ["", "assert is a reserved word, and no name: it takes the rest of its line."]
    end = row - 1 if not front.strip() else next((place for place in range(row, len(lines)) if not re.match(r"\s+\S", lines[place])), len(lines))
    # of forms of CSPm that are not taken, `[>` and `[|A|>` open what nothing closes, and `{-` is a comment
    text = re.sub(r"--(?!@).*|\{-(.|\n)*|\[[>|]|\|[\]>]", "", "\n".join(declaration_before(lines[:end])))
    counts = [(opens, text.count(opens), closes, text.count(closes)) for opens, closes in ("()", "{}", "[]")]
    found = [f"  {opens} stands there {counted}, and {closes} {closed}" for opens, many, closes, few in counts if many != few for counted, closed in [(times(many), times(few))]]
    return ["", "In the declaration of this place brackets are not closed, or not opened:", *found] if found else []


def times(number):
    return {0: "never", 1: "once", 2: "twice"}.get(number, f"{number} times")


def about_assertions(network, told):
    """3: the assertions that are skipped, and why."""
    found = []
    for number, line in enumerate(network.source.split("\n"), 1):
        match = ASSERTION.match(line)
        if not match:
            continue
        rest = match[1].strip()
        if re.search(r"deadlock-free", rest):
            why = "write `deadlock free`, two words"
        elif not re.search(r"deadlock\s+free", rest):
            why = "it does not ask for freedom from deadlock"
        elif re.search(r"\|\||\[\||;|\[\]|\\|->|\|~\|", rest.split(":[")[0]):
            why = "it holds an operator: give what is asserted a name of its own"
        else:
            why = "it ends neither in :[deadlock free] nor with [F] or [FD] before the last bracket"
        found.append(f"  line {number} is skipped, {why}: {line.strip()}")
    return ["", *found] if found else ["", "No line begins with `assert`."]


def about_unknown(network, told):
    """4: names that are spelled like the unknown one."""
    script = network.script
    if not script:
        return []
    known = [*script.names, *script.consts]
    near = [name for name in known if name.lower() == told.event.lower()] or difflib.get_close_matches(told.event, known, 4, 0.7)
    bound = [name for name, (parameters, _) in script.definitions.items() if told.event in parameters]
    found = [f"  {name}: {what_it_is(network, name)}" for name in near]
    if bound:
        found.append(f"  {told.event} is a parameter of {listed(bound)}, and stands for nothing outside of it")
    return ["", f"{told.event} is not declared. Spelled like it, or bound elsewhere:", *found] if found else ["", f"{told.event} is not declared, and no name is spelled like it."]


def about_twice(network, told):
    """5: all declarations of the name; of two annotations these alone."""
    found, annotated = [], network.shown[told.declaration].startswith("--@")
    for number, line in enumerate(network.shown):
        head = line.partition(" : " if line.startswith("channel ") else " = ")[0]
        names = line.partition(" = ")[2].split(" | ") + head.split() if line.startswith("datatype ") else re.findall(r"[A-Za-z]\w*'*", head)
        bound = re.findall(r"(?:\?|\[\]|\|~\||\|\||\||,) ([A-Za-z]\w*'*) (?::|<-|->|\?|!|\.)", line.partition(" = ")[2])
        if line.startswith("--@") or annotated:
            names = line.split()[2:3] if line.startswith("--@") else []
        if line.startswith("assert "):
            names = []
        if told.event in names or (told.event in network.script.consts and told.event in bound):
            found.append(f"  {network.place(number)}: {network.text(number)[0].strip()}")
    return ["", f"{told.event} stands in these declarations:", *found] if found else []


def about_kinds(network, told):
    """6: what the names of the declaration stand for."""
    if not network.script or told.declaration >= len(network.shown):
        return []
    line = network.shown[told.declaration]
    names = dict.fromkeys(re.findall(r"[A-Za-z]\w*'*", line.partition(" = ")[2] if " = " in line else line))
    known = [(name, what_it_is(network, name)) for name in names if what_it_is(network, name)]
    return ["", "What its names stand for:", *(f"  {name}: {what}" for name, what in known[:MOST_NAMED])] if known else []


def about_parallel(network, told):
    """8: behind what the parallel stands."""
    line = network.shown[told.declaration]
    body = line[7:].rsplit(" : [ deadlock free ]", 1)[0] if line.startswith("assert ") else line.partition(" = ")[2]
    layout = Layout.__new__(Layout)
    layout.script = network.script
    names = {"prefix": "a prefix", "choice": "a choice", "over": "a choice over a set", "then": "`;`", "guard": "a guard", "hide": "a hiding", "rename": "a renaming", "pair": "a parallel"}
    found = [f"  behind {names[form]}: {what}" for form, what in within(layout, Parser(body).tree(), None)]
    return ["", "A parallel stands", *found] if found else []


def within(layout, tree, form):
    """The parallels, and the names of networks, that stand within a form of processes."""
    if tree[0] in ("pair", "each") and form:
        return [(form, "written out there")]
    if tree[0] in ("name", "call"):
        return [(form, f"{tree[1]} is a network")] if form and layout.is_network(tree[1]) else []
    inner = {"choice": tree[2:3], "over": tree[4:5], "then": tree[1:3], "guard": tree[2:3], "if": tree[2:4], "hide": tree[1:2], "rename": tree[1:2], "prefix": tree[3:4],
             "pair": (tree[1], tree[4]) if tree[0] == "pair" else (), "each": tree[4:5]}.get(tree[0], ())
    own = form if tree[0] in ("if", "pair", "each") else tree[0]
    return [found for part in inner for one in (part if isinstance(part, list) else [part]) for found in within(layout, one, own)]


def about_events(network, told):
    """9: how many events each channel has."""
    script, found = network.script, []
    for channel in script.channels:
        count = 1
        for field in script.fields_of(channel):
            count *= len(field)
        found.append((count, channel))
    found.sort(key=lambda item: -item[0])
    return ["", "Events by channel, the greatest first:", *(f"  {channel}: {count}, {network.place(script.names[channel])}" for count, channel in found[:8])]


def about_nesting(network, told):
    """14: what the alphabet of a network within the network has, and what its components have."""
    script = network.script
    wanted = (told.components[0], told.components[-1] + 1) if told.components else None
    for operand in network.operands:
        if (operand.first, operand.end) != wanted and (told.components or operand.first != operand.end):
            continue
        own = set().union(*(network.components[part].alphabet or set() for part in range(operand.first, operand.end)), set())
        lacks, besides = script.texts(own - operand.alphabet), script.texts(operand.alphabet - own)
        if not lacks and not besides:
            continue
        who = f"components {operand.first} to {operand.end - 1}" if own else "an operand without components"
        found = ["", f"The network of {who} is given an alphabet that is not theirs:"]
        found += [f"  not in it: {listed(lacks)}, of {listed([network.short(part) for part in holders(network, operand, lacks[0])])}"] if lacks else []
        found += [f"  in it, and of none of them: {listed(besides)}"] if besides else []
        return found + [f"  all that they have: {listed(script.texts(own))}"] + text_lines(network, operand, set(lacks), set(besides))
    return []


def text_lines(network, operand, lacks, besides):
    """Of the components of an operand what their texts do of the events on which the alphabets differ: so it is seen which alphabet is meant."""
    found = []
    for own in own_alphabets(network, range(operand.first, operand.end)):
        if own.does is None or own.alphabet is None or len(found) >= MOST_LINES:
            continue
        who, texts = network.short(own.part), network.script.texts
        where, given = network.line_of(network.defined(own.part)), network.line_of(own.declaration)
        missing = [event for event in texts(own.does - own.alphabet) if event in besides]
        found += [f"  {who} does {listed(missing, 6)}{where}, its alphabet{given} lacks {them(missing)}: put {them(missing)} there"] if missing else []
        meant = [event for event in texts(own.does & own.alphabet) if event in lacks]
        found += [f"  {who} does {listed(meant, 6)}{where}: put {them(meant)} into the outer alphabet"] if meant else []
        idle = [event for event in texts(own.alphabet - own.does) if event in lacks]
        found += [f"  {who} never does {listed(idle, 6)}{where}: take {them(idle)} out of its alphabet{given}"] if idle else []
    return found


def them(events):
    return "it" if len(events) == 1 else "them"


def holders(network, operand, event):
    return [part for part in range(operand.first, operand.end) if event in network.alphabet(part)]


def about_empty(network, told):
    """15: the sets over which nothing is replicated."""
    found = []
    for number, line in enumerate(network.shown):
        if " || " in f" {line} " and " = " in line:
            for name, values in replicated(Parser(line.partition(" = ")[2]).tree()):
                found.append(f"  || {name}:{written(values)} in {network.place(number)}{worth(network, values)}")
    return ["", "Replicated is:", *found] if found else []


def replicated(tree):
    if not isinstance(tree, (list, tuple)):
        return []
    own = [(tree[1], tree[2])] if isinstance(tree, tuple) and tree and tree[0] == "each" else []
    return own + [found for part in tree for found in replicated(part)]


def worth(network, values):
    try:
        return f", which is {network.script.short(network.script.set_of(values, {}))}"
    except NOT_FOLLOWED:
        return ""


def about_owners(network, told):
    """20: who has the event."""
    return ["", f"{told.event} is an event of {', '.join(network.short(part) for part in network.owners(told.event) or told.components)}."]


def about_depth(network, told):
    """33: the definition of data that uses itself, and by which others."""
    script, name = network.script, network.shown[told.declaration].partition(" = ")[0].partition(" ( ")[0]
    before, todo = {name: None}, [name]
    for one in todo:
        for _, other, _ in uses_in(script.body_of(one)[1]):
            if other == name:
                way = [name, one]
                while before[way[-1]] is not None:
                    way.append(before[way[-1]])
                return ["", f"{' uses '.join(reversed(way))}"]
            if other in script.definitions and other not in before:
                before[other] = one
                todo.append(other)
    return []


def about_network_depth(network, told):
    """34: the network definitions that call themselves."""
    layout = Layout.__new__(Layout)
    layout.script, found = network.script, []
    for name in network.script.definitions:
        tree = network.script.body_of(name)[1]
        if (holds(tree, "pair") or holds(tree, "each")) and name in [other for _, other, _ in uses_in(tree)]:
            found.append(f"  {network.place(network.script.names[name])}: {network.text(network.script.names[name])[0].strip()}")
    return ["", "These networks call themselves:", *found] if found else []


def about_index(network, told):
    """35: the components that there are."""
    return ["", "The components are:", *(f"  {part}: {network.short(part)}" for part in range(min(network.count, MOST_NAMED)))]


def about_length(network, told):
    return ["", f"The script has {len(network.content)} bytes or more."]


def about_events_differ(network, specification, told):
    """41: the two events at the number that is told."""
    try:
        first, second = (one.script.all_events() for one in (network, specification))
    except NOT_FOLLOWED:
        return []
    number = int(told.line.split()[-1])
    texts = [one.script.text(events[number]) if number < len(events) else "nothing more" for one, events in ((network, first), (specification, second))]
    lines = ["", f"At number {number} SCRIPT has {texts[0]}, and SPEC {texts[1]}. The lines of their channels, types and data:"]
    for who, one in (("SCRIPT", network), ("SPEC", specification)):
        lines += [f"  {who}, {one.place(place)}: {one.text(place)[0].strip()}" for place, line in enumerate(one.shown) if line.startswith("channel ")][:MOST_NAMED]
    return lines


def about_components_differ(network, specification, told):
    """42: the alphabets of the component in both networks."""
    part, found = told.components[0], ["", f"SCRIPT has {network.count} components, and SPEC {specification.count}."]
    for who, one in (("SCRIPT", network), ("SPEC", specification)):
        if part < one.count:
            found.append(f"  {one.called(part)}, of {who}: {listed(one.alphabet(part))}")
    if part < min(network.count, specification.count):
        first, second = network.alphabet(part), specification.alphabet(part)
        for who, events in (("SCRIPT", [event for event in first if event not in second]), ("SPEC", [event for event in second if event not in first])):
            found += [f"  in {who} alone: {listed(events)}"] if events else []
    return found


ABOUT = {
    "1": about_slip, "2": about_value, "3": about_assertions, "4": about_unknown, "5": about_twice, "6": about_kinds, "7": about_count, "8": about_parallel, "9": about_events,
    "10": about_growth, "11": about_growth, "12": about_silence, "13": about_growth, "14": about_nesting, "15": about_empty, "19": about_end, "20": about_owners,
    "33": about_depth, "34": about_network_depth, "35": about_index, "36": about_length,
}
