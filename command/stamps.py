"""The stamp beside a program: of which sources and by which kit it was made, and which file it is.

Its lines: the sum of the sources, the program's own sum, the kit, the kit's command, the place; of an unproved program also what is said where it runs, and the stack that
it needs. The place is the program's device, inode and time of change, and the time of the stamp itself. So a copy of both, a program that was written again and a stamp that was touched
are seen. ./dlcheck reads the same lines and asks the file system alone; where it can't decide by that, sums decide here."""
import contextlib, os, pathlib, time
from typing import NamedTuple

from console import Fault
from places import IS_REPOSITORY
from sources import kit_command, kit_version, sources_sum, sum_of


# the name of the stamp beside an unproved program that is kept
KEPT = "sources"


class Stamp(NamedTuple):
    sources: str
    program: str
    kit: str
    kit_command: str
    place: str = ""
    said: str = ""
    # in KiB
    stack: str = ""


def place_of(program, second):
    """Which file the program is, with the second of which its stamp is dated, as ./dlcheck has it from `stat`."""
    found = os.stat(program)
    whole, rest = divmod(found.st_ctime_ns, 10**9)
    return f"{found.st_dev}:{found.st_ino}:{whole}.{rest:09d} {second}"


def read(file):
    """The stamp, or nothing where there is none."""
    try:
        lines = pathlib.Path(file).read_text(errors="replace").splitlines()
    except OSError:
        return None
    return Stamp(*lines[:7]) if len(lines) >= 4 else None


def of_kept(program):
    return read(pathlib.Path(program).parent / KEPT)


def write(file, program, stamp, began):
    """Writes the stamp beside its place and moves it there. It is dated before the second at which the sources were read: what changes from then on is newer."""
    second = int(began) - 1
    beside = f"{file}.{os.getpid()}"
    try:
        pathlib.Path(beside).write_text("".join(f"{line}\n" for line in stamp._replace(place=place_of(program, second))))
        os.utime(beside, (second, second))
        os.replace(beside, file)
    except OSError:
        with contextlib.suppress(OSError):
            os.unlink(beside)
        raise


def made_now(program, sources):
    """The stamp of a program that was made of sources with this sum."""
    return Stamp(sources, sum_of(program), kit_version(), kit_command())


def note_proved(program, file, sources, began):
    try:
        write(file, program, made_now(program, sources), began)
    except OSError as fault:
        raise Fault(f"could not write {file}: {fault.strerror}") from None


def is_of_these_sources(program, file):
    """Whether the program is the one of its stamp and the sources are those of it, by their sums. Then the stamp is dated anew where it can be written."""
    stamp = read(file)
    if not stamp or not os.access(program, os.X_OK):
        return False
    began = time.time()
    if sum_of(program) != stamp.program:
        return False
    if IS_REPOSITORY:
        # without a kit on the PATH nothing is known of another one
        kit = kit_command()
        if (kit and kit_version() != stamp.kit) or sources_sum() != stamp.sources:
            return False
        stamp = stamp._replace(kit_command=kit or stamp.kit_command)
    # where it can't be written, the next call adds up again
    with contextlib.suppress(OSError):
        write(file, program, stamp, began)
    return True
