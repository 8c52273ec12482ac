"""From a fault to the pattern that mends it, with an example of that pattern. It proves nothing.

A link that has no reading as one of a client and a server mostly carries two conversations. Which ones is found from the tables of its two ends, each by itself: the
link's channels are parted in two, and each part is read alone."""
import collections, itertools

from find_roles import Roles, asked
from network import Link
from searches import Reached
from texts import listed

# A link that has no reading: the best of the readings that were dropped, with its fault, and two readings of parts of it where there are any.
Unread = collections.namedtuple("Unread", "link reading fault split alike")
MOST_CHANNELS = 6
MOST_PARTS = 64
MOST_TOLD = 3


def channel_of(event):
    return event.split(".")[0]


def split_of(network, link):
    """Two readings that together have the events of a link, parted by channels: the most natural pair, or nothing."""
    channels = list(dict.fromkeys(channel_of(event) for event in link.events))
    first, best = first_events(network, link), None
    for own in partings(channels):
        found = [read_part(network, link, [event for event in link.events if (channel_of(event) in own) == side]) for side in (True, False)]
        if all(found):
            # of two that are as natural the one in which what comes first is answered
            cost = sum(dislike for dislike, _ in found), not any(reading.answers and reading.requests & first for _, reading in found)
            best = best if best and best[0] <= cost else (cost, [reading for _, reading in found])
    return best[1] if best else None


def first_events(network, link):
    """The events of a link that may come first on it, as its ends tell by themselves."""
    found, own = set(), set(link.events)
    for part in (link.left, link.right):
        nodes = network.table(part).nodes
        for node in Reached(0, lambda node, nodes=nodes: ((event, to) for event, to in nodes[node].steps if event not in own)):
            found |= {event for event, _ in nodes[node].steps if event in own}
    return found


def partings(channels):
    """The ways to part channels in two: each a half with the first of them in it."""
    if 1 < len(channels) <= MOST_CHANNELS:
        for count in range(len(channels) - 1):
            for more in itertools.combinations(channels[1:], count):
                yield {channels[0], *more}


def read_part(network, link, events):
    """The most natural reading of some events of a link, with how unnatural it is; nothing where there is none."""
    roles = Roles(network, [0], [Link(link.left, link.right, events)])
    return next(((roles.dislike(0, reading)[0], reading) for reading in roles.readings[0]), None)


def unread_links(network, roles, places):
    """The links that have no reading; where each has one, but none fit together, those of which a more natural one was dropped. Links that are alike are told once."""
    bare = [place for place in places if not roles.readings[place]]
    found = {}
    for place in bare or [place for place in places if is_backward(roles, place)]:
        dropped = next(((reading, fault) for reading, fault in roles.faults[place] if reading), None)
        if dropped:
            reading, fault = dropped
            key = (kind_of(network, reading.client), kind_of(network, reading.server), fault.condition, *sorted({channel_of(event) for event in reading.requests | reading.answers}))
            if key in found:
                found[key] = found[key]._replace(alike=found[key].alike + 1)
            else:
                found[key] = Unread(roles.links[place], reading, fault, None if collects(roles.links[place], fault) else split_of(network, roles.links[place]), 0)
    return list(found.values())


def is_backward(roles, place):
    """Whether a more natural reading of a link was dropped than those that it has."""
    dropped = [roles.dislike(place, reading)[:2] for reading, _ in roles.faults[place] if reading]
    return bool(dropped) and min(dropped) < roles.dislike(place, roles.readings[place][0])[:2]


def collects(link, fault):
    """Whether who has asked goes on to other links before it takes the answer."""
    return fault.condition == "S5" and not fault.offer & set(link.events)


def kind_of(network, part):
    return network.components[part].name or str(part)


def mended_by(network, unread):
    """The pattern that mends a link without a reading: lines."""
    if unread.split:
        return mended_split(network, *unread.split)
    if collects(unread.link, unread.fault):
        return [f"{network.short(unread.reading.client)} collects: it goes on to others before it takes the answer",
                "  ask one after another, or take answers as they come while it asks (docs/RULES.md, \"Asking all and then collecting\"; examples/quorum_read.csp)"]
    if unread.fault.condition == "S4":
        return ["a server that waits takes every request of all its clients, and answers those out of turn by `busy` (docs/RULES.md, \"A lock manager\")"]
    return []


def mended_split(network, one, other):
    """The pattern for a link on which there are two conversations."""
    both = f"{asked(network, one)}, and {asked(network, other)}"
    if one.client != other.client and (one.answers or other.answers):
        return [f"each asks the other: {both}",
                "  let what one of the two is asked be taken by a component of its own (examples/callback_cache.csp; callback_cache_naive.csp is the one without it)"]
    if one.client != other.client:
        return [f"each sends to the other: {both}",
                "  so each may wait to send while the other does; let one of the ways go through a mailbox, which takes at any moment (docs/RULES.md, \"A mailbox\"; examples/can_gateway.csp)"]
    if one.answers and other.answers:
        return [f"two sorts of answers: {both}", "  a client that waits takes every answer of its link: give them one channel, with a field that tells which it is (examples/paxos.csp)"]
    if one.answers or other.answers:
        return [f"a message without an answer on a link that has answers: {both}", "  answer it too, or send it by way of a component of its own (examples/usb_polling.csp)"]
    return [f"taken at different moments: {both}",
            "  what is taken and given back is a resource, whose users share events with resources alone; a server takes every request at any moment, and answers it"]


def unread_lines(network, unread):
    """What is told of a link without a reading."""
    more = f"; so {'is 1 link' if unread.alike == 1 else f'are {unread.alike} links'} more, alike" if unread.alike else ""
    found = [f"{asked(network, unread.reading)}: {unread.fault.condition}, {unread.fault.what}{more}"]
    return found + [f"  {line}" for line in mended_by(network, unread)]


# what is told beside a report


def about_mending(network, told):
    """26 with S3, S4 or S5: what mends the first link of the component that has no reading, whatever its annotation says."""
    if told.number != "26" or told.condition not in ("S3", "S4", "S5") or not network.components:
        return []
    for link in network.links_of(told.components[0]):
        if network.table(link.left) and network.table(link.right):
            unread = unread_links(network, Roles(network, [0], [link]), [0])
            lines = mended_by(network, unread[0]) if unread else []
            if lines:
                return ["", f"What mends the link of {network.short(link.left)} and {network.short(link.right)}: {lines[0]}", *lines[1:]]
    return []


def about_readings(network, told):
    """Of a network that is not proved, and that nobody annotated: how it reads as clients and servers, or what is in the way."""
    if any(note[0] == "roles" for note in network.script.notes) or not network.components:
        return []
    # of a large network the links of the components that are told
    places = [place for place, link in enumerate(network.links()) if network.count <= MOST_PARTS or link.left in told.components or link.right in told.components]
    ends = {part for place in places for part in (network.links()[place].left, network.links()[place].right)}
    if not places or not all(network.table(part) for part in ends):
        return []
    roles = Roles(network, places)
    choice = roles.choice() if len(places) == len(network.links()) else None
    unread = unread_links(network, roles, places) if not choice or not choice[1] else []
    found = ["", "Read as clients and servers (docs/RULES.md):"]
    for one in unread[:MOST_TOLD]:
        found += [f"  {line}" for line in unread_lines(network, one)]
    found += [f"  and {len(unread) - MOST_TOLD} more such links"] if len(unread) > MOST_TOLD else []
    return found if unread else found + readable(network, roles, choice)


def readable(network, roles, choice):
    """Where each link has a reading: how they fit together."""
    if not choice:
        return ["  each link has a reading; `--annotate roles SCRIPT` tells whether they fit together"]
    chosen, acyclic = choice
    kinds = dict.fromkeys(f"{kind_of(network, reading.client)} asks {kind_of(network, reading.server)}" for reading in chosen.values())
    found = [f"  {listed(list(kinds), 6)}: `--annotate roles SCRIPT` prints the script with these roles, for `check client-server`"]
    if acyclic:
        return found
    found.append(f"  but clients are in a circle, {listed([network.short(part) for part in roles.circle(chosen)], 8)}, so that answers 27")
    return found
