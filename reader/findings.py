"""Answers that a machine reads: behind --json an object for each script, behind --lines a line for each finding. The schema is in docs/COMMANDS.md.

The objects are made of what the program reports, with names and lines beside it as the model of the network has them. They prove nothing."""
import json, os, re, stat

from explain import explanation
from forms import PROGRAM, RULES, is_of_program, script_places
from network import Network
from outputs import flush, say
from repairs import repair_of
from reports import ask, text_of, told_by
from script import NOT_FOLLOWED
from texts import MOST_NAMED
from walks import Standstill, Walk

# What an answer is called that the first line of the report doesn't name.
BY_STATUS = {3: "no command", 4: "outside fault", 5: "memory ran out"}
FIRST_LINES = ("deadlock-free", "not proved", "refused", "livelock-free", "conforms")
COUNTS = ("components", "nodes", "silent bound", "greatest rank", "hidden bound")


def answer(program, words, explains=False):
    """What a command of the program answers, as an object."""
    files = [words[place] for place in script_places(words)]
    # a pipe is read once
    networks = [None if is_plain(file) else Network(program, file) for file in files]
    asked = list(words)
    for place, file, network in zip(script_places(words), files, networks):
        asked[place] = network.file if network else file
    report = ask(program, asked)
    told = told_by(asked, report)
    if explains or told.status in (1, 2) or told.stuck:
        networks = [network or Network(program, file) for network, file in zip(networks, files)]
    own = networks[-1] if told.specification and networks else networks[0] if networks else None
    found = blank(words[0], files, told.rule, told.status, called(told, report))
    found.update(number=int(told.number) if told.number.isdigit() else None, condition=told.condition, reason=reason_of(told, report), name=told.event)
    found.update(counts=counts_of(report) if told.status == 0 else None,
                 repair=repair_of(told), explanation=explanation(told, *networks) if explains and networks else [])
    if own and told.status in (1, 2):
        found.update(declaration=told.declaration, components=[component(own, part, told) for part in told.components], links=[link(own, *ends) for ends in told.links],
                     circle=told.components if told.circle else None, file=files[-1] if told.specification else files[0])
        found["line"], found["column"] = place_of(own, told)
    if words[0] == "run" and told.status in (0, 1):
        found["run"] = run_of(own, told)
    return found


def blank(command, files, rule, status, name):
    """An object with what every one has; nothing elsewhere."""
    return {
        "command": command, "script": files[0] if files else None, "specification": files[1] if len(files) > 1 else None, "rule": rule, "status": status, "answer": name,
        "number": None, "condition": None, "reason": None, "file": None, "line": None, "column": None, "declaration": None, "name": None, "components": [], "links": [], "circle": None, "counts": None, "repair": None, "run": None,
        "explanation": [], "rules": [],
    }


def is_plain(file):
    try:
        return stat.S_ISREG(os.stat(file).st_mode)
    except (OSError, ValueError):
        return True


def called(told, report):
    """What the answer is called."""
    if told.status >= 128:
        return "ended by signal"
    if told.status in BY_STATUS:
        return BY_STATUS[told.status]
    if told.command in ("show", "table") and told.status == 0:
        return "shown"
    if told.command == "run" and told.status in (0, 1):
        return "stuck" if told.stuck else "goes on"
    # `trial` says first which network it judges
    return next((line for line in text_of(report).splitlines()[:2] if line in FIRST_LINES), "")


def reason_of(told, report):
    """The line of the report that has the reason, or nothing."""
    if told.status == 4:
        return next(iter(text_of(report).splitlines()), "").removeprefix("outside fault: ") or None
    return told.line or None


def counts_of(report):
    """The counts of a proof, by their names with `_` for a blank."""
    found = [re.fullmatch(rf"({'|'.join(COUNTS)}) (\d+)", line) for line in text_of(report).splitlines()]
    return {match[1].replace(" ", "_"): int(match[2]) for match in found if match} or None


def component(network, part, told):
    declaration = network.defined(part)
    return {"index": part, "name": network.name(part), "line": network.line(declaration) if declaration is not None else None, "trace": told.traces.get(part)}


def link(network, one, other):
    left, right = sorted((one, other))
    return {"left": left, "right": right, "events": network.shared(left, right)}


def place_of(network, told):
    """The line and column of a slip, of a declaration, or of the definition of the component that is told first; nothing where there is none."""
    if told.place:
        return told.place
    declaration = told.declaration if told.declaration is not None else network.defined(told.components[0]) if told.components else None
    line = network.line(declaration) if declaration is not None else None
    if line is None:
        return None, None
    written, head = network.source.split("\n")[line - 1], re.match(r"[^\s(]+", network.shown[declaration])[0]
    return line, max(written.find(head), 0) + 1


def run_of(network, told):
    """A run, and where it is stuck who waits for whom."""
    found = {"steps": len(told.steps), "events": [step.event for step in told.steps if step.event is not None], "waits": [], "circle": []}
    if told.stuck and network:
        try:
            walk = Walk(network, told.steps)
            if None not in walk.nodes and walk.nodes:
                stand = Standstill(network, walk.nodes)
                found["circle"] = stand.circle()
                found["waits"] = [{"index": part, "name": network.name(part), "for": [{"event": event, "of": others} for event, others in stand.waits(part)]} for part in range(network.count)]
        except NOT_FOLLOWED:
            pass
    return found


def by_any(program, script):
    """All three rules as one object: that of the first that proves the network, else of the first."""
    own = Network(program, script) if not is_plain(script) else None
    rules = [answer(program, ["check", rule, own.file if own else script]) for rule in RULES]
    for one in rules:
        one["script"], one["file"] = script, script if one["file"] else None
    best = next((one for one in rules if one["status"] == 0), max(rules, key=lambda one: one["status"]))
    return {**best, "command": "--any", "rules": rules}


# the commands


def answers(program, words):
    """The objects of a command's words, one at a time; nothing where the words are none."""
    if words[:1] == ["check"] and len(words) > 2 and words[1] in RULES:
        return (answer(program, ["check", words[1], script]) for script in words[2:])
    if words[:1] == ["--any"] and len(words) > 1:
        return (by_any(program, script) for script in words[1:])
    if words[:1] == ["--explain"]:
        own = words[1:] if words[1:2] and words[1] in PROGRAM else ["check", *words[1:]]
        return (answer(program, own, True) for _ in (0,)) if is_of_program(own) and (own[0] != "check" or own[1] in RULES) else None
    return (answer(program, words) for _ in (0,)) if is_of_program(words) else None


def told_each(program, words, tell):
    found, statuses = answers(program, words), []
    if found is None:
        return None
    for one in found:
        statuses.append(one["status"])
        tell(one)
        flush()
    return max(statuses)


def as_json(program, words):
    """`--json` and the words of a command: an object a line."""
    return told_each(program, words, lambda found: say(json.dumps(found)))


def as_lines(program, words):
    """`--lines` and the words of a command: `FILE:LINE:COLUMN: MESSAGE`."""
    return told_each(program, words, lambda found: say(*lines_of(found)))


def lines_of(found):
    """The findings of an object as lines; of what is proved there are none."""
    if found["status"] == 0:
        return []
    rules = [one for one in found["rules"] if one["answer"] == "not proved"]
    if rules:
        return [line for one in rules for line in own_lines(one, f"{one['rule']}: ")]
    return own_lines(found, "")


def own_lines(found, before):
    """The line of an answer, and one for each component or link of a circle beyond the first."""
    file = (found["file"] or found["script"] or "dlcheck").replace("\n", "?")
    names = {one["index"]: one["name"] for one in found["components"] if one["name"]}
    reason = re.sub(r"\bcomponent (\d+)\b", lambda part: part[0] + (f", {names[int(part[1])]}," if int(part[1]) in names else ""), found["reason"] or "").rstrip(",")
    message = f"{before}{found['answer']}{': ' + reason if reason else ''}{'; ' + found['repair'] if found['repair'] else ''}"
    lines = [f"{file}:{found['line'] or 1}:{found['column'] or 1}: {message}"]
    if found["run"]:
        return [f"{lines[0]} after {found['run']['steps']} steps", *waiting_lines(found, file)]
    more = found["components"][1:] if found["circle"] or len(found["components"]) > 1 else []
    lines += [f"{file}:{one['line'] or 1}:1: {before}{found['number']}, component {one['index']}{', ' + one['name'] if one['name'] else ''} too" for one in more[:MOST_NAMED]]
    return lines


def waiting_lines(found, file):
    """Of a run that is stuck the circle of waiting."""
    waits, circle = {one["index"]: one for one in found["run"]["waits"]}, found["run"]["circle"]
    lines = []
    for part, other in zip(circle, circle[1:] + circle[:1]):
        events = [one["event"] for one in waits[part]["for"] if other in one["of"]]
        who, whom = (waits[each]["name"] or f"component {each}" for each in (part, other))
        lines.append(f"{file}:1:1: stuck: {who} waits for {whom}: {', '.join(events[:MOST_NAMED])}")
    return lines
