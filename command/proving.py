"""Proves the crates and builds the program; and notes what the gate has proved."""
import os, signal, subprocess, time

import sources, stamps
from console import Fault, say
from places import CRATE, PROVED, PROVED_STAMP
from program import PROVEN

LOG = CRATE / "out/prove.log"


def prove(program):
    """`--prove`: proves and builds the program where it isn't there yet."""
    program.settle()
    if program.state != PROVEN:
        look_first()
        prove_all()
    say(f"the proved program is {PROVED}")


def look_first():
    """What would end the proof after minutes is looked at before it."""
    if not sources.kit_command():
        raise Fault("the command rt of the Rattle kit is not on the PATH")
    try:
        PROVED.parent.mkdir(exist_ok=True)
        LOG.write_bytes(b"")
    except OSError as fault:
        raise Fault(f"could not write {LOG}: {fault.strerror}") from None


def prove_all():
    """Proves the crates side by side, each once those below it are proved, and builds the program."""
    before, crates = sources.sources_sum(), sources.crates_below()
    say(f"proves {len(crates)} crates, in {sources.minutes_left(crates)} minutes or more on {sources.processors()} processors")
    with open(LOG, "wb") as log:
        if run_kit(["all", "check", "--jobs", str(sources.processors())], log, crates):
            raise Fault(f"not every crate is proved; see {LOG}")
        PROVED.unlink(missing_ok=True)
        # without words the program prints its usage line and ends with status 3
        run_kit(["run"], log, [])
    if not os.access(PROVED, os.X_OK):
        raise Fault(f"the program is not built; see {LOG}")
    began = time.time()
    if sources.sources_sum() != before:
        raise Fault("the sources changed while they were proved; prove them again")
    stamps.note_proved(PROVED, PROVED_STAMP, before, began)


def run_kit(words, log, crates):
    """Runs a command of the kit, and says of each crate that is done what is left; the status."""
    left = list(crates)
    kit = subprocess.Popen([sources.kit_command(), *words], cwd=CRATE, stdin=subprocess.DEVNULL, stdout=subprocess.PIPE, stderr=subprocess.STDOUT, start_new_session=True)
    try:
        for line in kit.stdout:
            log.write(line)
            log.flush()
            # a line with a crate's name comes before what its proof printed
            name = line.decode(errors="replace").removeprefix("== ").strip()
            if line.startswith(b"== ") and name in left:
                left.remove(name)
                say(f"{name} is done; {len(left)} of {len(crates)} crates left, {sources.minutes_left(left)} minutes or more")
        return kit.wait()
    finally:
        end(kit)


def end(kit):
    """Ends the kit as it is where it still runs, and what it started."""
    if kit.poll() is None:
        kit.send_signal(signal.SIGTERM)
        try:
            kit.wait(20)
        except subprocess.TimeoutExpired:
            os.killpg(kit.pid, signal.SIGKILL)
            kit.wait()


def note_gate(_, version):
    """`--proved-by-gate`: the gate proves the sources as they are when it begins, which the version of then tells."""
    if not os.access(PROVED, os.X_OK):
        raise Fault("the gate left no program")
    began, found = time.time(), sources.sources_sum()
    if not version.startswith(f"dlcheck {found[:12]}, "):
        raise Fault("the sources changed while the gate ran")
    stamps.note_proved(PROVED, PROVED_STAMP, found, began)
