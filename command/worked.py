#!/usr/bin/env python3
"""command/worked.py [--unproved] PROGRAM: judges the texts and rows of crates/worked_scripts with that program, and compares with the answers that the gate wants.

An unproved program is much slower: a row for which it takes more than two seconds of processor time is left to the gate. It prints each title whose answer is another one, and how many are as they should be. What that crate asks of single functions, and of devices that fail, is no
command of the program; the gate alone runs it."""
import concurrent.futures, os, pathlib, re, resource, signal, subprocess, sys, tempfile

HOME = pathlib.Path(__file__).resolve().parent.parent / "crates/worked_scripts"
SPECIFICATION = b"\n--- specification\n"
FRONTS = b"each front of the script"
MOST_SECONDS = 2


class TakesLong(Exception):
    """An unproved program takes more than the seconds for it."""


class Asked:
    """The program, asked about texts, each in a folder of its own."""

    def __init__(self, program, room, is_unproved):
        self.program, self.room, self.is_unproved = program, room, is_unproved

    def answer(self, command, text):
        """The status, and what is printed."""
        with tempfile.TemporaryDirectory(dir=self.room) as folder:
            script, found, specification = text.partition(SPECIFICATION)
            pathlib.Path(folder, "text").write_bytes(script)
            if found:
                pathlib.Path(folder, "specification").write_bytes(specification)
            words = [{b"SCRIPT": b"text", b"SPEC": b"specification"}.get(word, word) for word in command.split(b" ") if word]
            child = subprocess.Popen([self.program, *words], cwd=folder, stdin=subprocess.DEVNULL, stdout=subprocess.PIPE)
            if self.is_unproved:
                resource.prlimit(child.pid, resource.RLIMIT_CPU, (MOST_SECONDS, MOST_SECONDS + 1))
            sent = child.communicate()[0]
        if child.returncode == -signal.SIGXCPU:
            raise TakesLong
        return child.returncode, sent

    def shown(self, title, text):
        """What is told of a text: it is shown, what was shown is shown again, and it is judged."""
        status, sent = self.answer(b"show SCRIPT", text)
        lines = b"show %d\n%s" % (status, sent)
        if status == 0:
            again, other = self.answer(b"show SCRIPT", sent)
            lines += b"show again %d\n" % again + (other if other != sent else b"")
        return b"=== %s\n%scheck %d\n%s" % (title, lines, *self.answer(b"check cyclic SCRIPT", text))

    def fronts(self, title, text):
        """How many fronts of the text are neither shown nor refused, and how many are refused and proved."""
        shown = [self.answer(b"show SCRIPT", text[:length]) for length in range(len(text))]
        judged = [self.answer(b"check resource SCRIPT", text[:length])[0] for length in range(len(text))]
        others = sum(not (status == 0 or (status == 2 and sent.startswith(b"refused\n1 no script near line "))) for status, sent in shown)
        return b"=== %s\nfronts %d others %d refused %d proved %d\n" % (title, len(text), others, judged.count(2), judged.count(0))

    def row(self, title, text):
        return b"=== %s\nstatus %d\n%s" % (title, *self.answer(title.split(b" : ")[0], text))


def titled(name):
    """The titles of a file, each with its text."""
    for part in (HOME / "data" / name).read_bytes().split(b"\n=== ")[1:]:
        title, _, text = part.partition(b"\n")
        yield title, text


def main(words):
    is_unproved, program = words[0] == "--unproved", os.path.abspath(words[-1])
    wanted = re.split(rb"(?m)^(?==== )", (HOME / "stdout").read_bytes())[1:]
    with tempfile.TemporaryDirectory() as room, concurrent.futures.ThreadPoolExecutor(os.cpu_count()) as pool:
        asked = Asked(program, room, is_unproved)
        jobs = [pool.submit(asked.shown, *own) for own in titled("texts")]
        jobs.append(pool.submit(asked.fronts, FRONTS, (HOME / "data/forks.csp").read_bytes()))
        jobs += [pool.submit(asked.row, *own) for name in ("rows", "pairs") for own in titled(name)]
    told = [(job.result(), other) for job, other in zip(jobs, wanted) if not isinstance(job.exception(), TakesLong)]
    others = [(one, other) for one, other in told if one != other]
    for one, other in others:
        print(f"{one.decode(errors='replace')}  and not\n{other.decode(errors='replace')}")
    left = f"; {len(jobs) - len(told)} take long and are left to the gate" if len(told) < len(jobs) else ""
    print(f"{len(told) - len(others)} rows as they should be, {len(others)} not{left}")
    return 1 if others else 0


if __name__ == "__main__":
    sys.exit(main(sys.argv[1:]))
