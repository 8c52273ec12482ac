"""Random networks: each is ported, and the port compared with it state by state and judged by the program, which must not prove one that deadlocks."""
import collections, multiprocessing, os, pathlib, random, subprocess, sys, tempfile

sys.dont_write_bytecode = True
sys.path.insert(0, str(pathlib.Path(__file__).resolve().parent))
import checking
import port
from cspm_tokens import Refused

EVENTS = ["a", "b", "c", "d", "e", "f.0", "f.1", "g.0", "g.1"]
HEAD = "datatype M = m | n.{0..1}\nchannel a, b, c, d, e\nchannel f, g : {0..2}\nchannel h : M.Bool\n"


def process(choose, name, mine, depth):
    """A random sequential process that comes back to its name."""
    kind = choose.random()
    if depth == 0:
        return name
    rest = [process(choose, name, mine, depth - 1) for _ in range(2)]
    one, other = (f"{choose.choice(mine)} -> {after}" for after in rest)
    if kind < 0.55:
        return one
    if kind < 0.85:
        return f"({one} {choose.choice(['[]', '[]', '|~|', '[>'])} {other})"
    if kind < 0.9:
        return f"(({choose.choice(mine)} -> SKIP ||| {choose.choice(mine)} -> SKIP); {rest[0]})"
    if kind < 0.95:
        return f"h?{choose.choice(['m', 'n.x', '_'])}?y -> (if y then {one} else {other})"
    return f"{choose.choice('fg')}?x -> {rest[0]}"


def component(choose, number, lines):
    """A component of the network, with the events that it may do."""
    name, mine = f"P{number}", choose.sample(EVENTS, choose.randint(2, 4))
    body = process(choose, name, mine, choose.randint(1, 3))
    lines.append(f"{name} = {mine[0]} -> {body}" if body == name else f"{name} = {body}")
    kind = choose.random()
    if kind < 0.1:
        return f"({name} \\ {{{choose.choice(mine)}}})", set(mine)
    if kind < 0.15:
        return f"{name}[[{mine[0]} <- {mine[1]}]]", set(mine[1:])
    if kind < 0.3:
        lines.append(f"R{number}(0) = {mine[0]} -> R{number}(1)\nR{number}(i) = let Q(j) = f.j -> R{number}(i) within [] j:{{0..i}} @ Q(j) [] {mine[-1]} -> R{number}((i+1)%3)")
        return f"({choose.choice(['|||', '|||', '[| {f.0} |]'])} i:{{0..{choose.randint(1, 2)}}} @ R{number}(i))", {mine[0], mine[-1], "f.0", "f.1"}
    return name, set(mine)


def spelled(events):
    return "{" + ", ".join(sorted(events)) + "}"


def joined(choose, one, other):
    """Two parts in a random parallel, in some cases with an event more or fewer than their own."""
    (left, mine), (right, theirs) = one, other
    kind = choose.random()
    if kind < 0.25:
        text = f"({left} ||| {right})"
    elif kind < 0.65:
        shared = mine & theirs if choose.random() < 0.8 else set(choose.sample(sorted(mine | theirs), 1))
        shared |= {choose.choice(EVENTS)} if choose.random() < 0.2 else set()
        text = f"({left} [| {spelled(shared)} |] {right})"
    else:
        ours = mine | ({choose.choice(EVENTS)} if choose.random() < 0.3 else set())
        ours -= {choose.choice(sorted(ours))} if choose.random() < 0.2 else set()
        text = f"({left} [ {spelled(ours)} || {spelled(theirs)} ] {right})"
    if choose.random() < 0.25:
        text = f"({text} \\ {{{choose.choice(sorted(mine | theirs))}}})"
    elif choose.random() < 0.1:
        text = f"({text}[[{choose.choice(sorted(mine | theirs))} <- {choose.choice(EVENTS)}]])"
    return text, mine | theirs


def script(seed):
    choose, lines = random.Random(seed), []
    parts = [component(choose, number, lines) for number in range(choose.randint(2, 4))]
    while len(parts) > 1:
        at = choose.randrange(len(parts) - 1)
        parts[at : at + 2] = [joined(choose, parts[at], parts[at + 1])]
    return HEAD + "\n".join(lines) + f"\nS = {parts[0][0]}\nassert S :[deadlock free]\n"


def outcome(job):
    """What became of a random network, in words; those that begin with a capital are faults."""
    program, folder, seed = job
    text, file = script(seed), os.path.join(folder, f"{seed}.csp")
    try:
        ported, composer = port.ported(text)
        states, is_dead = checking.compared(composer, ported)
    except Refused as fault:
        return "refused: " + " ".join(word for word in str(fault).split() if word.islower())[:60], seed
    except checking.Differs as fault:
        return f"DIFFERS: {fault}", seed
    except Exception as fault:
        return f"FAILS: {type(fault).__name__} {fault}", seed
    pathlib.Path(file).write_text(ported)
    heads = [subprocess.run([program, "check", rule, file], capture_output=True, text=True).stdout.split("\n")[:2] for rule in ("cyclic",)]
    os.remove(file)
    if any(head[0] == "refused" for head in heads):
        return f"{'refused' if heads[0][1][:2] == '12' else 'REFUSED'} by the program: {heads[0][1][:60]}", seed
    is_proved = any(head[0] == "deadlock-free" for head in heads)
    if is_dead and is_proved:
        return "PROVED though it deadlocks", seed
    return f"ported, {'too large to compare' if states is None else 'deadlocks' if is_dead else 'proved' if is_proved else 'free, not proved'}", seed


def run(program, begin, end):
    """Random networks by their seeds: how often each outcome was, with an example of it."""
    counts, examples = collections.Counter(), {}
    with tempfile.TemporaryDirectory() as folder, multiprocessing.Pool(min(4, os.cpu_count())) as pool:
        for what, seed in pool.imap_unordered(outcome, [(program, folder, seed) for seed in range(begin, end)], 16):
            counts[what] += 1
            examples.setdefault(what, seed)
    return counts, examples


if __name__ == "__main__":
    sys.setrecursionlimit(20000)
    if len(sys.argv) == 2:
        print(script(int(sys.argv[1])))
    else:
        counts, examples = run(sys.argv[1], int(sys.argv[2]), int(sys.argv[3]))
        for what, count in counts.most_common():
            print(count, what, examples[what])
