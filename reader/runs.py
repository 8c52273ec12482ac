"""What is told of a run: its events with silent steps folded, and where it is stuck who waits for whom; and whether a few runs come to a standstill."""
import collections, time

from reports import ask, told_by
from texts import MOST_NAMED, counted, listed
from walks import Standstill, Walk

LAST_EVENTS = 40
SEEDS = 20
STEPS = 1000
MOST_SECONDS = 3


def about_run(network, told):
    walk = Walk(network, told.steps)
    found = folded(network, walk, told.stuck)
    return found + (about_standstill(network, walk) if told.stuck else about_movers(network, walk))


def folded(network, walk, stuck):
    """The events of a run in their order, with who does each; silent steps are counted."""
    lines, silent = [], 0
    for step in walk.steps:
        if step.event is None:
            silent += 1
            continue
        who = listed([network.short(part) for part in network.owners(step.event)], 4)
        lines.append(f"  {step.event}  ({who})" + (f", {silent} silent before it" if silent else ""))
        silent = 0
    lines += [f"  {silent} silent"] if silent else []
    head = f"The run has {counted(len(walk.events), 'event')} and {counted(walk.silent(), 'silent step')}"
    most = LAST_EVENTS if stuck else LAST_EVENTS // 4
    if len(lines) > most:
        return ["", f"{head}; its last {most} lines, silent steps counted:", *lines[-most:]]
    return ["", f"{head}, which are counted here:", *lines]


def about_standstill(network, walk):
    """Where each component is, and what it waits for and of whom."""
    if None in walk.nodes or not walk.nodes:
        return []
    stand = Standstill(network, walk.nodes)
    found = ["", "Stuck. Where each component stands, what it waits for, and of whom:"]
    circle = stand.circle()
    first = circle + [part for part in range(network.count) if part not in circle]
    for part in sorted(first[:MOST_NAMED]):
        found.append(f"  {network.called(part)}, at node {walk.nodes[part]}{after_last(walk, part)}: {waiting(network, stand, part)}")
    if network.count > MOST_NAMED:
        found.append(f"  and {network.count - MOST_NAMED} more components")
    if not stand.settled:
        found.append("  (which of several sets a component waits for, the tables don't tell; the first is taken)")
    return found + circle_lines(network, stand, circle)


def after_last(walk, part):
    return f" after {walk.last(part)}" if walk.last(part) else ", where it began"


def waiting(network, stand, part):
    if not stand.picked[part]:
        return "waits for nothing at all: it has stopped"
    texts = []
    for event, others in stand.waits(part)[:8]:
        texts.append(f"{event} of {listed([network.short(other) for other in others], 3)}" if others else event)
    more = len(stand.picked[part]) - 8
    return "waits for " + " or ".join(texts) + (f" and {more} more" if more > 0 else "")


def circle_lines(network, stand, circle):
    """The circle of waiting, each with the event that it waits for of the next."""
    if not circle:
        return []
    found = ["", "A circle of waiting:"]
    for part, other in list(zip(circle, circle[1:] + circle[:1]))[:MOST_NAMED]:
        events = [event for event, others in stand.waits(part) if other in others]
        found.append(f"  {network.short(part)} waits for {network.short(other)}: {listed(events, 6)}")
    return found + ([f"  and so on, {len(circle)} components in all"] if len(circle) > MOST_NAMED else [])


def about_movers(network, walk):
    """What a run that goes on was made of, and who did nothing in it."""
    idle = [part for part in range(network.count) if not walk.traces[part]]
    counts = collections.Counter(walk.events).most_common(12)
    found = ["", "How often each event was done: " + ", ".join(f"{event} {count}" for event, count in counts) + (", .." if len(set(walk.events)) > 12 else "")] if counts else []
    if idle and walk.events:
        found.append(f"Without an event in this run: {listed([network.short(part) for part in idle])}")
    return found


def about_tries(network):
    """Whether a few runs come to a standstill, where a network is not proved."""
    began, tried = time.monotonic(), 0
    if network.is_slow:
        return []
    for seed in range(SEEDS):
        words = ["run", network.file, str(seed), str(STEPS)]
        told = told_by(words, ask(network.program, words, quiet=True))
        if told.status not in (0, 1):
            return []
        tried += 1
        if told.stuck:
            return ["", f"It can be stuck: `run SCRIPT {seed} {STEPS}` is after {len(told.steps)} steps (`--explain run SCRIPT {seed} {STEPS}` tells who waits for whom).", *circle_of(network, told)]
        if time.monotonic() - began > MOST_SECONDS:
            break
    seeds = f"seeds 0 to {tried - 1}" if tried > 1 else "seed 0"
    return ["", f"{counted(tried, 'run')} of {STEPS} steps ({seeds}) went on, which proves nothing."]


def circle_of(network, told):
    walk = Walk(network, told.steps)
    if None in walk.nodes or not walk.nodes:
        return []
    stand = Standstill(network, walk.nodes)
    return circle_lines(network, stand, stand.circle())[1:]
