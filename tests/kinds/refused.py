"""Each call for memory of a run refused in turn, and each of its reads and of its writes, beside a run in which none is.

words: [PROGRAM [NAME ..]]; PROGRAM is a program by itself, as ./splinter-build makes it

The schedules are the examples of these names, or some of different kinds; of a case whose name begins with resumed what `resume` does over
its files, which are laid out for each run. A run with one call refused has to end with the status 12, 5 or 6 and its line on standard error,
after a prefix of the output; with answers to whole lines alone where it is a read. Where the memory isn't needed for anything, it may end as
if nothing was refused. In a run over files memory that the system needs for a call of a file or a socket may be missing too: then a disk or
the link has failed. After such a run an audit of its files has to agree. tests/refuse.c, which cc builds, refuses the calls.
"""
import os
import pathlib
import re
import shutil
import subprocess
import tempfile

from common import EXAMPLES, MAIN, TESTS, Unfit, command_of, needs

GATE = None
CASES = TESTS / "cases"
USUAL = ["proposal", "cut-commit", "four-nodes", "traced", "resumed-over-old-circuits"]
SECONDS = 60
ENDS = {"memory": (12, b"out of memory\n"), "read": (5, b"read failed\n"), "write": (6, b"write failed\n")}
# How a run over files may end besides.
ENDS_OF_DEVICES = {7: rb"disk of [a-z]+ failed\n", 8: rb"link failed\n"}
# Schedules by hand, with the call that is refused and what is written then. The registry takes the first two reads.
BY_HAND = [
    (b"roll alpha\n", "read 4", b"1 ok roll 0\n"),
    (b"roll alpha\nroll al", "read 4", b"1 ok roll 0\n"),
    (b"roll alpha\n", "read 3", b""),
    (b"roll alpha\n", "read 2", b""),
    (b"roll alpha\n", "write 1", b""),
]


class Refusing:
    """A program whose calls can be refused."""

    def __init__(self, program, folder):
        self.program, self.counts, self.disks = program, folder / "counts", folder / "disks"
        self.library = folder / "refuse.so"
        subprocess.run(["cc", "-O1", "-shared", "-fPIC", "-o", self.library, TESTS / "refuse.c", "-ldl"], check=True)

    def run(self, schedule, refused):
        """Output, status and standard error, with a call refused, and how many calls of each kind there were."""
        words = self.words(schedule)
        self.counts.unlink(missing_ok=True)
        known = {"LD_PRELOAD": str(self.library), "REFUSE": refused, "REFUSED": str(self.counts)}
        how = {"stdin": subprocess.DEVNULL, "capture_output": True, "timeout": SECONDS, "env": {**os.environ, **known}}
        done = subprocess.run([*self.program, *words], **how)
        return (done.stdout, done.returncode, done.stderr), self.calls()

    def words(self, schedule):
        """The words of a run; its files are laid out."""
        if schedule.parent.parent == CASES:
            shutil.rmtree(self.disks, ignore_errors=True)
            shutil.copytree(schedule.parent / "dir", self.disks)
            return ["resume", EXAMPLES / "registry.toml", schedule, self.disks]
        own = schedule.with_suffix(".toml")
        word = "trace" if schedule.stem.startswith("traced") else "replay"
        return [word, own if own.exists() else EXAMPLES / "registry.toml", schedule]

    def is_agreed(self):
        """Whether the files of the last run, where it had any, agree."""
        words = [*self.program, "audit", EXAMPLES / "registry.toml", self.disks]
        return not self.disks.exists() or subprocess.run(words, capture_output=True, timeout=SECONDS).returncode == 0

    def calls(self):
        """How many calls of each kind the last run made."""
        if not self.counts.exists():
            raise Unfit("the program doesn't take the calls of tests/refuse.c")
        return dict(zip(ENDS, map(int, self.counts.read_text().split())))


def is_good(kind, came, whole, has_files):
    """Whether a run with a call of this kind refused ends as it may."""
    output, *end = came
    is_of_devices = has_files and end[0] in ENDS_OF_DEVICES and re.fullmatch(ENDS_OF_DEVICES[end[0]], end[1])
    if kind == "memory" and (came == whole or is_of_devices and whole[0].startswith(output)):
        return True
    lines = kind != "read" or output.endswith(b"\n") or not output
    return tuple(end) == ENDS[kind] and whole[0].startswith(output) and lines


def refuse_each(refusing, name):
    """Runs a schedule with each call refused; how many of these runs are good, and how many there are."""
    schedule = CASES / name / "schedule" if name.startswith("resumed-") else EXAMPLES / f"{name}.schedule"
    whole, calls = refusing.run(schedule, "")
    good, told = 0, []
    for kind, count in calls.items():
        unlike = 0
        for call in range(1, count + 1):
            came, _ = refusing.run(schedule, f"{kind} {call}")
            unlike += came != whole
            if is_good(kind, came, whole, schedule.parent.parent == CASES) and refusing.is_agreed():
                good += 1
            else:
                print(f"{name}, {kind} {call}: status {came[1]}, {came[2]!r:.200}, {len(came[0])} bytes of {len(whole[0])}")
        told.append(f"{kind} {count}, of which {unlike} end the run")
    print(f"{name}: {'; '.join(told)}", flush=True)
    return good, sum(calls.values())


def by_hand(refusing, folder):
    """Runs the schedules by hand; how many of these runs are as wanted, and how many there are."""
    schedule, good = folder / "by-hand.schedule", 0
    for lines, refused, written in BY_HAND:
        schedule.write_bytes(lines)
        (output, *end), _ = refusing.run(schedule, refused)
        if (output, tuple(end)) == (written, ENDS[refused.split()[0]]):
            good += 1
        else:
            print(f"{lines!r:.40}, {refused}: {output!r:.200}, {end}, wanted {written!r:.200}")
    return good, len(BY_HAND)


def run(words, tally):
    needs("cc")
    with tempfile.TemporaryDirectory() as folder:
        refusing = Refusing(command_of(words, MAIN), pathlib.Path(folder))
        counts = [by_hand(refusing, pathlib.Path(folder)), *(refuse_each(refusing, name) for name in words[1:] or USUAL)]
    for good, all_of_them in counts:
        tally.many(good, all_of_them - good)
