"""A script without its annotations of one kind, and without the definitions that only these used: so they can be proposed anew. It proves nothing."""
from script import NAME, NoScript, tokens_of
from set_expressions import is_data


def without_annotations(network, kind):
    """The text of the script as bytes, with the lines of such annotations taken out, and the lines of sets that nothing else uses."""
    gone = {note[1]: note[2:] for note in network.script.notes if note[0] == kind}
    if not gone:
        return network.content
    loose = {name for names in gone.values() for name in names if is_set(network.script, name)}
    dropped = {number for number, line in enumerate(network.shown) if line.startswith(f"--@ {kind} ")}
    while True:
        more = {name for name in loose if network.script.names[name] not in dropped and not is_used(network, name, dropped)}
        if not more:
            break
        dropped |= {network.script.names[name] for name in more}
        loose |= {name for own in more for name in NAME.findall(network.script.definitions[own][1]) if is_set(network.script, name)}
    lines = network.content.split(b"\n")
    for number in sorted(dropped):
        for at in own_lines(network, number, dropped):
            lines[at - 1] = None
    return b"\n".join(line for line in lines if line is not None)


def is_set(script, name):
    return name in script.definitions and is_data(script, name)


def is_used(network, name, dropped):
    """Whether a declaration that stays uses a definition."""
    own = network.script.names[name]
    return any(name in NAME.findall(line) for number, line in enumerate(network.shown) if number != own and number not in dropped)


def own_lines(network, declaration, dropped):
    """The lines of a declaration where it shares none of them with one that stays."""
    if declaration >= len(network.lines):
        return []
    first = network.lines[declaration]
    following = next((network.lines[number] for number in range(declaration + 1, len(network.lines)) if network.lines[number] >= first), None)
    try:
        last = max(line for _, line in tokens_of(network.source) if line >= first and (following is None or line < max(following, first + 1)))
    except NoScript:
        return []
    others = {network.lines[number] for number in range(len(network.lines)) if number not in dropped and number != declaration}
    own = range(first, last + 1)
    return [] if others & set(own) else list(own)
