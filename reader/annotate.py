"""Proposes annotations for a script: who asks and who answers, or what is a resource, with the sets that this needs, found from the components' tables.

It proves nothing: `check` judges the script that it prints."""
import collections, concurrent.futures, os, pathlib

from network import KINDS, Network
from fresh import without_annotations
from outputs import say, send, warn
from reports import ask, text_of
from rooms import make_room
from find_roles import Roles, asked, in_order, named_events
from script import NoScript, tokens_of
from set_expressions import NO_VALUE, Finder, has_values
from patterns import mended_by, unread_lines, unread_links
from texts import MOST_NAMED, counted, listed
from find_resources import Uses

TOP_LINE = "read from the components' tables by a program beside dlcheck. It proves nothing: judge what it prints by `check {}`"
RULE = {kind: rule for rule, kind in KINDS.items()}
MOST_LINKS = 4
# How the annotations of a kind are called in a sentence.
WORDS = {"roles": "roles", "resource": "resources"}
# What stands behind a definition's name in the names of its sets.
ENDINGS = {"roles": ("ASKS", "GETS", "TAKES", "GIVES"), "resource": ("ACQUIRE", "RELEASE")}


class NoAnnotation(Exception):
    """No annotation can be written; each argument is a line that tells why."""


def told(*lines):
    warn(*(line if line.startswith(" ") else f"dlcheck: {line}" for line in lines))


# what the sets hold


def looked_at(network, kind):
    """What no annotation mends: an event of three components, a component that can stop, and an annotation that is there and is wrong by itself."""
    for part in range(network.count):
        for event in network.alphabet(part):
            if len(network.owners(event)) > 2:
                raise NoAnnotation(f"{event} is in the alphabets of {', '.join(network.called(owner) for owner in network.owners(event)[:MOST_NAMED])} (20): no rule takes it")
        if any([] in node.accepts for node in network.table(part).nodes):
            raise NoAnnotation(f"{network.called(part)} can stop (21): no rule takes it")
        wrong = wrong_sets(network, part, kind)
        if wrong:
            raise NoAnnotation(f"{network.called(part)}, has an annotation that {wrong}: take it out, or mend it, or propose anew by --annotate --fresh {kind}")


def wrong_sets(network, part, kind):
    """What is wrong with the sets of a component's annotation, if it has one."""
    component = network.components[part]
    if component.chosen or not any(note[0] == kind and note[1] == component.name for note in network.script.notes):
        return None
    sets = network.sets(part, kind)
    if not sets:
        return "has no value"
    shared = [event for link in network.links_of(part) for event in link.events]
    counts = collections.Counter(event for noted in sets for event in noted.events)
    for events, what in (
        ([event for event in shared if not counts[event]], "lacks"),
        ([event for event in counts if counts[event] > 1], "holds twice"),
        ([event for event in counts if event not in shared], "holds, though nobody shares it,"),
    ):
        if events:
            return f"{what} {listed(sorted(events))}"
    return None


def unnamed(network, parts):
    """Lines on components that are no call of a definition where they stand in the network."""
    chosen = [part for part in parts if network.components[part].chosen]
    bare = [part for part in parts if not network.components[part].chosen and not network.components[part].name]
    lines = []
    if chosen:
        lines.append(f"annotations don't speak of an `if`, as component {listed([str(part) for part in chosen])} is where it stands in the network: name it by a definition, and call that")
    if bare:
        lines.append(f"annotations don't speak of a process without a name, as component {listed([str(part) for part in bare])} is where it stands in the network: name it by a definition, and call that")
    return lines


def roles_of(network):
    """Of each component the four sets, and whether no circle is in the way."""
    found = Roles(network)
    missing = unnamed(network, [part for part in range(network.count) if network.links_of(part)])
    if missing:
        raise NoAnnotation(*missing)
    choice = found.choice()
    if choice is None:
        raise NoAnnotation(*without_roles(network, found))
    chosen, acyclic = choice
    sets = {part: (set(), set(), set(), set()) for part in range(network.count)}
    for place, reading in sorted(chosen.items()):
        sets[reading.client][0].update(reading.requests)
        sets[reading.client][1].update(reading.answers)
        sets[reading.server][2].update(reading.requests)
        sets[reading.server][3].update(reading.answers)
    lines = [
        f"  {network.short(reading.client)} asks {network.short(reading.server)}: {in_order(network, reading.client, reading.requests)}; "
        + (f"is answered: {in_order(network, reading.client, reading.answers)}" if reading.answers else "without answers")
        for _, reading in sorted(chosen.items())
    ]
    if not acyclic:
        lines.append(f"clients in a circle: {listed([network.called(part) for part in found.circle(chosen)])}; so `check` answers 27")
    return sets, lines, acyclic


def without_roles(network, found):
    """Lines on the links that have no reading, each with why."""
    bare, clash = found.untold()
    unread, lines = unread_links(network, found, range(len(found.links))), []
    faults = {(found.links[place].left, found.links[place].right): own for place, own in bare}
    for one in unread[:MOST_LINKS] if bare else ():
        link = one.link
        lines.append(f"link {link.left} - {link.right}, {network.short(link.left)} with {network.short(link.right)}, has no reading: {listed(link.events)}")
        for reading, fault in faults[link.left, link.right]:
            lines.append(f"  {asked(network, reading)}: {fault.condition}, {fault.what}" if reading else f"  requests and answers in turns: {fault.condition}, {fault.what}")
        lines += [f"  {line}" for line in mended_by(network, one)]
        lines += [f"  {counted(one.alike, 'more link')} alike"] if one.alike else []
    if bare and len(unread) > MOST_LINKS:
        lines.append(f"and {len(unread) - MOST_LINKS} more that are not alike")
    if clash:
        part, places, fault = clash
        others = [network.short(found.other(part, place)) for place in places]
        lines.append(f"the links of {network.called(part)}, with {listed(others)} have no readings together")
        for place in places:
            lines += [f"  {asked(network, reading)}, or" for reading in found.readings[place]]
        lines += [f"  {fault.condition}, {fault.what}"] if fault else []
        for one in unread[:MOST_LINKS]:
            told_of, *rest = unread_lines(network, one)
            lines += [f"  more natural is: {told_of}", *(f"  {line}" for line in rest)]
    return lines or ["no choice of who asks was found that fits all links together"]


def uses_of(network):
    """Of each resource the two sets, and whether no circle is in the way."""
    found = Uses(network)
    resources, faults = found.choice()
    if faults:
        raise NoAnnotation(*without_uses(network, found, faults))
    sets = {part: (set(found.uses[part].acquire), set(found.uses[part].release)) for part in resources}
    lines = [
        f"  {network.short(part)} is a resource, acquired by {in_order(network, part, found.uses[part].acquire)} and released by {in_order(network, part, found.uses[part].release)}"
        for part in resources
    ]
    circle = found.circle(resources)
    if circle:
        lines.append(f"resources in a circle: {listed([network.called(part) for part in circle])}; so `check` answers 29")
    return sets, lines, not circle


def without_uses(network, found, faults):
    """Lines on the components that can't be parted into users and resources, each with why."""
    lines = []
    for sides, odd in faults:
        if odd:
            lines.append(f"{network.called(odd[0])} and {network.called(odd[1])} are both users or both resources, and share {listed(network.shared(*odd))} (U1)"
                         if network.shared(*odd) else f"{network.called(odd[0])} and {network.called(odd[1])} are called alike, and would be a user and a resource (U1)")
            continue
        for side in (0, 1):
            own = sorted(part for part in sides if sides[part] == side)
            lines.append(f"with {listed([network.short(part) for part in own], 8)} as resources there is no reading")
            broken = [part for part in own if found.faults[part]]
            lines += [f"  {found.faults[part].condition}, {found.faults[part].what}" for part in broken[:3]]
            lines += [f"  and {len(broken) - 3} more"] if len(broken) > 3 else []
            lines += [] if broken else ["  an annotation says otherwise"]
    return lines


# the text of the sets


class Proposal:
    """The declarations that a script lacks, by the definition behind which they stand."""

    def __init__(self, network, kind, sets):
        self.network, self.kind, self.script = network, kind, network.script
        self.taken = set(self.script.definitions) | set(self.script.channels) | set(self.script.consts) | set(self.script.datatypes)
        self.texts = [named_events(network, part) for part in range(network.count)]
        self.added, self.empty = {}, {}
        self.noted = {note[1] for note in self.script.notes if note[0] == kind}
        named = collections.defaultdict(list)
        for part, component in enumerate(network.components):
            if component.name and not component.chosen:
                named[component.name].append(part)
        for name, parts in named.items():
            if name not in self.noted and any(sets.get(part) and any(sets[part]) for part in parts):
                self.added[name] = self.annotated(name, parts, [sets.get(part, tuple(set() for _ in ENDINGS[kind])) for part in parts])

    def annotated(self, name, parts, sets):
        """The sets of a definition's annotation, and the annotation."""
        calls, wanted = [], []
        for part, own in zip(parts, sets):
            call, events = tuple(self.network.components[part].values), [frozenset(self.texts[part][event] for event in events) for events in own]
            if call not in calls:
                calls.append(call)
                wanted.append(events)
            elif wanted[calls.index(call)] != events:
                other = parts[[tuple(self.network.components[part].values) for part in parts].index(call)]
                raise NoAnnotation(f"{self.network.called(other)} and {self.network.called(part)} are the same call and need other sets: give {name} a parameter that tells them apart")
        # a parameter that hides a declared name would hide it in the sets too
        parameters = [self.free_name(own) if own in self.taken else own for own in self.script.body_of(name)[0]]
        finder = Finder(self.script, parameters, calls)
        lines, names = [], []
        for place, ending in enumerate(ENDINGS[self.kind]):
            column = [events[place] for events in wanted]
            found = finder.named(column) or (None if any(column) else self.empty.get(len(parameters)))
            if not found:
                found = self.free_name(f"{name}_{ending}" if any(column) else f"NONE{len(parameters) or ''}")
                text = finder.expression(column)
                if text is None or not has_values(self.script, text, parameters, calls, column):
                    raise NoAnnotation(f"no expression was found for the sets of {name}, which are told apart by a parameter that can't be compared")
                lines.append(f"{found}({','.join(parameters)}) = {text}" if parameters else f"{found} = {text}")
                if not any(column):
                    self.empty[len(parameters)] = found
            names.append(found)
        return [*lines, f"--@ {self.kind} {name} {' '.join(names)}"]

    def free_name(self, wanted):
        name = wanted.replace("'", "_")
        while name in self.taken:
            name += "_"
        self.taken.add(name)
        return name

    def text(self):
        """The script with what it lacks: behind the definitions where this can be, else at its end."""
        lines = self.network.content.split(b"\n")
        behind = collections.defaultdict(list)
        for name, added in self.added.items():
            behind[self.last_line(self.script.names[name])] += added
        if None not in behind:
            made = []
            for number, line in enumerate(lines, 1):
                made.append(line)
                made += [text.encode() for text in behind.get(number, ())]
            if self.reads_as_meant(b"\n".join(made)):
                return b"\n".join(made)
        return b"\n".join([self.network.content.rstrip(b"\n"), *(text.encode() for added in self.added.values() for text in added), b""])

    def last_line(self, declaration):
        """The last line of a declaration, or nothing where it is not known."""
        lines = self.network.lines
        if declaration >= len(lines):
            return None
        following = [line for line in lines[declaration + 1 :] if line > lines[declaration]]
        try:
            tokens = [line for _, line in tokens_of(self.network.source)]
        except NoScript:
            return None
        return max(line for line in tokens if not following or line < following[0])

    def reads_as_meant(self, content):
        """Whether the program reads the text as the script with the added declarations."""
        with make_room() as room:
            file = pathlib.Path(room) / "script.csp"
            file.write_bytes(content)
            shown = ask(self.network.program, ["show", str(file)], quiet=True)
        kept = text_of(shown).splitlines()
        return shown.status == 0 and len(kept) == len(self.network.shown) + sum(len(added) for added in self.added.values()) and set(self.network.shown) <= set(kept)


# the command


def network_of(program, script):
    """The network of a script with all tables, or the report by which the program refuses it."""
    network = Network(program, script)
    with concurrent.futures.ThreadPoolExecutor(os.cpu_count()) as pool:
        list(pool.map(network.table, range(network.count)))
    for part in range(max(network.count, 1)):
        if network.count == 0 or not network.table(part):
            return network, ask(program, ["table", network.file, str(part)])
    return network, None


# What comes of looking for annotations: the status, the script with them or as it is (nothing where none is proposed), and lines of standard error.
Found = collections.namedtuple("Found", "status content lines")


def proposal_for(program, kind, script, fresh=False):
    """Looks for annotations of a kind; `fresh` leaves out those that are there."""
    network, refusal = network_of(program, script)
    if not refusal and fresh and network.script:
        with make_room() as room:
            bare = pathlib.Path(room) / "bare.csp"
            bare.write_bytes(without_annotations(network, kind))
            network, refusal = network_of(program, str(bare))
    if refusal:
        return Found(refusal.status, refusal.sent, [])
    if not network.components or (network.count > 1 and any(component.alphabet is None for component in network.components)):
        return Found(70, None, ["this program can't follow the network of the script"])
    try:
        looked_at(network, kind)
        if not network.links():
            return Found(0, network.content, ["no two components share an event, so no annotation is needed"])
        sets, lines, fits = roles_of(network) if kind == "roles" else uses_of(network)
        proposal = Proposal(network, kind, sets)
    except NoAnnotation as fault:
        return Found(1, None, list(fault.args))
    except NO_VALUE:
        return Found(70, None, ["this program can't follow the data of the script"])
    readings = [line for line in lines if line.startswith(" ")]
    more = [f"  and {len(readings) - MOST_NAMED} more"] if len(readings) > MOST_NAMED else []
    return Found(0 if fits else 1, proposal.text(), [*readings[:MOST_NAMED], *more, *lines[len(readings) :]])


def annotate(program, kind, script, fresh):
    found = proposal_for(program, kind, script, fresh)
    if found.status != 2 and found.status != 4:
        told(TOP_LINE.format(RULE[kind]))
    told(*found.lines)
    if found.content is not None:
        send(found.content)
    return found.status


def command(program, words):
    """`--annotate roles SCRIPT` or `--annotate resource SCRIPT`; behind `--fresh` anew, whatever is annotated."""
    fresh = words[:1] == ["--fresh"]
    words = words[fresh:]
    return annotate(program, words[0], words[1], fresh) if len(words) == 2 and words[0] in ENDINGS else None


def proposals(program, words):
    """`--proposals SCRIPT`: a line for each rule that proves the script with the annotations that are proposed for it; 0 where there is one, else 1."""
    if len(words) != 1:
        return None
    network = Network(program, words[0])
    proved = False
    for kind, rule in RULE.items():
        found = proposal_for(program, kind, network.file)
        if found.status or found.content == network.content:
            continue
        with make_room() as room:
            noted = pathlib.Path(room) / "noted.csp"
            noted.write_bytes(found.content)
            if ask(program, ["check", rule, str(noted)], quiet=True).status == 0:
                say(f"{rule}: deadlock-free with the {WORDS[kind]} that --annotate {kind} proposes")
                proved = True
    return 0 if proved else 1
