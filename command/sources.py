"""What the program is made of: the sum of its sources, and the kit that makes it."""
import hashlib, os, re, shutil, subprocess

from places import TOP


def crates_below(name="dlcheck"):
    """The crates of the repository that one stands on, and itself, lowest first."""
    lower = {}
    for line in (TOP / "crates.txt").read_text().splitlines():
        named, found, uses = line.partition(":")
        if found and re.match("[a-z]", line):
            lower[named.split()[0]] = uses.split()
    done = []

    def add(crate):
        if crate not in done:
            for below in lower.get(crate, ()):
                if (TOP / "crates" / below).is_dir():
                    add(below)
            done.append(crate)

    add(name)
    return done


def sum_of(path):
    with open(path, "rb") as file:
        return hashlib.file_digest(file, "sha256").hexdigest()


def files_below(folder):
    """All plain files below a folder, by their paths from the top."""
    for place, _, names in os.walk(os.fsencode(TOP / folder)):
        for name in names:
            path = os.path.join(place, name)
            if os.path.isfile(path) and not os.path.islink(path):
                yield os.path.relpath(path, os.fsencode(TOP))


def sources_sum():
    """The sum of all sources that the program is made of: their names, what they have, and which crate stands on which."""
    crates = crates_below()
    total = hashlib.sha256()
    for line in (TOP / "crates.txt").read_text().splitlines():
        if re.match(f"({'|'.join(crates)})[: ]", line):
            total.update(f"{line}\n".encode())
    files = [file for crate in crates for part in ("src", "specs", "proofs") for file in files_below(f"crates/{crate}/{part}")]
    for file in sorted(files):
        total.update(sum_of(os.path.join(os.fsencode(TOP), file)).encode() + b"  " + file + b"\n")
    return total.hexdigest()


def kit_command():
    """The command of the kit that is on the PATH, as ./dlcheck finds it: a file and no link; or nothing."""
    found = shutil.which("rt") or ""
    return os.path.realpath(found) if os.path.islink(found) else found


def kit_version():
    """The line by which the kit says which it is, or nothing where there is none."""
    if not kit_command():
        return ""
    done = subprocess.run(["rt", "version"], stdin=subprocess.DEVNULL, stdout=subprocess.PIPE, stderr=subprocess.DEVNULL)
    return done.stdout.decode(errors="replace").strip()


def measured_seconds():
    """The processor seconds of each crate's proof, as they were measured."""
    file = TOP / "bench/proof_seconds"
    if not file.is_file():
        return {}
    rows = (line.split() for line in file.read_text().splitlines() if re.match("[a-z]", line))
    return {row[0]: int(row[1]) for row in rows}


def what_a_proof_takes():
    return f"{minutes_left(crates_below())} minutes or more on {processors()} processors, with 2 GB of memory for each and 3 GB of disk"


def minutes_left(crates):
    """The minutes that the proofs of these crates take at least, where all processors are busy with them all the time."""
    measured = measured_seconds()
    seconds = sum(measured.get(crate, 30) for crate in crates)
    return -(-seconds // (60 * processors()))


def processors():
    return len(os.sched_getaffinity(0))
