"""What mends an answer, in a sentence: what docs/ANSWERS.md and docs/RULES.md have at length. It proves nothing."""

# By the number of the answer; by its condition or its kind where it has several.
REPAIRS = {
    "1": "write it in the language of docs/LANGUAGE.md, which has a table of what stands there for what",
    "2": {"Range": "keep numbers between -1000000 and 1000000", "Division": "divide by 1 or more alone", "OutsideChannel": "close the range of the field, or give the channel the value",
          "Kind": "give it a value of the kind that is needed", "EmptyChoice": "put an `if` before the choice over a set that can be empty", "SetLimit": "make the set smaller"},
    "3": "assert a definition of the network, as `assert S :[deadlock free]`",
    "4": "declare the name, or write it as it is declared",
    "5": "give one of the two declarations another name",
    "6": "use a process, a set or a value where it is one that is needed",
    "7": "give it as many parts as it is declared with",
    "8": "let parallels stand outside of all processes",
    "9": "give the channels fewer values",
    "10": "bound what grows by its value, as `P((if n < 9 then n+1 else n))`, or hide round the whole loop",
    "11": "give the component fewer states, or narrower inputs",
    "12": "let an event stand in each round",
    "13": "let choices of the same event differ at once",
    "14": "give each network within the network just the events that its components have",
    "15": "replicate over a set that is not empty",
    "16": "have at most 512 components",
    "19": "let the component go round, or do an event of its own for ever",
    "20": "give each pair of components an event of its own",
    "21": "let the component offer an event after this trace, and have its events in its alphabet",
    "23": "let each round do one event on each link, in one order",
    "24": "let one component take its two links the other way round",
    "25": "let one end choose and the other take all events of the link",
    "26": {"S1": "put each shared event into one set of an annotation; `--annotate roles` proposes them", "S2": "let what one end requests be what the other serves",
           "S3": "let request and answer take turns; what has no answer gets a link of its own",
           "S4": "let the server take every request of all its clients wherever it waits, and none while it owes an answer",
           "S5": "let the client take every answer of the link wherever it waits for one"},
    "27": "let one of them answer without asking the next, or put a mailbox between two of them",
    "28": {"U1": "annotate each resource, and let users share events with resources alone; `--annotate resource` proposes them",
           "U2": "let the user that acquired the resource release it before anybody acquires it again",
           "U3": "let the free resource serve every user, and the held one take its release", "U4": "let each user acquire and release in turn"},
    "29": "let every user take the resources in one order",
    "33": "write the data without using itself",
    "34": "write a replicated parallel in place of a network that calls itself",
    "35": "take an index that is less than the number of components",
    "36": "say what repeats by replicated parallels, comprehensions and parameters",
    "37": "define the set by a name without parameters",
    "38": "hide less",
    "39": "let something that is not hidden happen in each round",
    "41": "declare the same events in the same order in both scripts",
    "42": "give both networks the same components, with the same alphabets",
    "43": "leave the event out, or allow it in the specification",
    "44": "offer what the specification promises there",
}


def repair_of(told):
    """The sentence, or nothing."""
    found = REPAIRS.get(told.number)
    return found.get(told.condition or told.kind) if isinstance(found, dict) else found
