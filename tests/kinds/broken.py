"""Broken registries, schedules and journals: those of examples, cases and drawn runs with bytes, words and lines changed, cut off,
repeated or exchanged, as seeds have it. No coverage leads it.

words: [PROGRAM [FIRST [COUNT [FOLDER]]]]; 20,000 seeds where no number of them is given

Of each ten seeds one is a run by `links`, one by `resume`, one by `audit` and one by `trace`. Each run has to end within ten seconds by
itself, with a status that a run over readable files may have and exactly the line of that status on standard error; and output, status,
line and the files of a folder have to be those of the plain program of tests/oracle, so that everything before a bad line is answered, a
folder with broken journals stays as it is under `links`, and `audit` changes none. Where a FOLDER is given, the files of each seed that
fails stay there. The plain program reads TOML 1.0, the program 1.1.
"""
import collections
import functools
import pathlib
import re
import shutil
import subprocess

from common import TOP, by_seed, files_in, parting
from mutations import broken, broken_for_links, broken_for_resume, sources
from program import ended

GATE = None
SECONDS = 10
# The commands other than replay, by the last digit of a seed.
WORDS = {6: "trace", 7: "audit", 8: "resume", 9: "links"}
# The statuses of a run whose words are a command, whose files can be read, and whose answers can be written.
LINES = {
    0: "",
    2: "bad registry: (not TOML|entry [1-9][0-9]*|repeated [1-9][0-9]*|[1-9][0-9]* entries)\n",
    3: "bad schedule: line [1-9][0-9]*\n",
    4: "too many (events|stops)\n",
    10: "disk of [a-z0-9-]+ not blank\n",
    11: "input too long\n",
    13: "disk of [a-z0-9-]+ is not a journal at (0|[1-9][0-9]*)\n",
    14: "journals disagree\n",
}


def run(program, words):
    """Output, status and standard error; a status that is a text where there was none in time."""
    try:
        done = subprocess.run(program + words, stdin=subprocess.DEVNULL, capture_output=True, timeout=SECONDS)
    except subprocess.TimeoutExpired:
        return "", f"none in {SECONDS} seconds", ""
    return done.stdout.decode("latin-1"), done.returncode, done.stderr.decode("latin-1")


def fault(came, wanted):
    """What is wrong with a run; nothing where it is as wanted."""
    output, status, said = came
    if status not in LINES:
        return f"status {status}, {said!r:.200}"
    if not re.fullmatch(LINES[status], said):
        return f"status {status} with {said!r:.200}"
    if (status, said) != wanted[1:]:
        return f"status {status} with {said!r}, wanted {wanted[1:]}"
    if output != wanted[0]:
        return parting(came, wanted)
    return None


def write(folder, contents):
    folder.mkdir()
    for name, content in contents.items():
        (folder / name).write_bytes(content)


class Broken:
    """The inputs of a seed, and two runs over them."""

    def __init__(self, seed, pairs, top):
        self.top, self.word, self.left = top, WORDS.get(seed % 10, "replay"), None
        if self.word in ("replay", "trace"):
            self.registry, self.schedule = broken(seed, pairs)
        else:
            draws = broken_for_links if self.word == "links" else broken_for_resume
            self.registry, self.schedule, self.left = draws(seed, pairs)
        write(top, {"registry": self.registry, "schedule": self.schedule})
        names = ["registry"] if self.word == "audit" else ["registry", "schedule"]
        self.words = [self.word, *(str(top / name) for name in names)]

    def ran(self, end, name):
        """How a run ends, and the files that it leaves."""
        if self.left is None:
            return end(self.words), {}
        folder = self.top / name
        write(folder, self.left)
        return end([*self.words, str(folder)]), files_in(folder)

    def fault(self, program):
        """The status, and what is wrong with the run."""
        came, have = self.ran(lambda words: run(program, words), "own")
        wanted, want = self.ran(ended, "plain")
        return came[1], fault(came, wanted) or (None if have == want else "other files")


@functools.cache
def pairs():
    return sources(TOP)


def judged(kept, program, seed, room):
    """The status of a seed, and what is wrong with it."""
    status, wrong = Broken(seed, pairs(), room / "run").fault(program)
    if wrong and kept:
        shutil.copytree(room / "run", kept / str(seed))
    return status, [wrong] if wrong else []


def run(words, tally):
    kept = pathlib.Path(words[3]) if len(words) > 3 else None
    statuses = collections.Counter()
    for seed, (status, faults) in by_seed(functools.partial(judged, kept), words, 20000):
        statuses[status] += 1
        tally.add(f"seed {seed}", faults)
    print(", ".join(f"status {status}: {times}" for status, times in sorted(statuses.items(), key=str)))
