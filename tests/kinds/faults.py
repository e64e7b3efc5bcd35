"""Single system calls of runs over links and files that fail, or at which the program is killed. What each run leaves is judged by the
plain program of tests/oracle: a status of the rules with its text, a prefix of the output, and files of one moment that is not before the
last answer. Each call of a short run first, of one that goes on with it, of two that go on with journals of the old form, and of an audit,
which may change no file; then calls of drawn schedules, every second of which goes on where a run of its first half has ended, half of
these with journals of the old form.

words: [PROGRAM [FIRST [COUNT]]]; 200 seeds where no number of them is given, six runs each; PROGRAM runs no other program. It takes strace.
2,000 seeds take some six minutes.
"""
import collections
import pathlib
import random
import re
import shutil
import subprocess
import tempfile

from audits import audit
from common import EXAMPLES, MAIN, TESTS, by_seed, command_of, files_in, needs
from draws import drawn_for_links
import judge
from judge import TEXTS, Whole
from mutations import halves, journals, old_journals
from registries import BadRegistry

GATE = None
# The calls that the program makes of its files, sockets and output, each with an error that the system has for it.
ERRORS = {
    "pwrite64": "ENOSPC", "fdatasync": "EIO", "fsync": "EIO", "ftruncate": "EIO", "pread64": "EIO", "read": "EIO", "write": "EPIPE",
    "openat": "EMFILE", "flock": "EAGAIN", "fstat": "EIO", "statx": "EIO", "socket": "EMFILE", "bind": "EADDRINUSE",
    "listen": "EADDRINUSE", "connect": "ECONNREFUSED", "accept4": "EMFILE", "sendto": "ECONNRESET", "recvfrom": "ECONNRESET",
    "getsockname": "ENOBUFS", "setsockopt": "ENOBUFS",
}
# The loader makes the first of these calls, before the program runs.
OF_LOADER = {"openat": 3, "read": 3, "pread64": 3, "fstat": 4, "statx": 1}
SECONDS = 60


def without_empty(files):
    return {name: content for name, content in files.items() if content}


class Faulty:
    """A command over files that hold this at first, with one call that fails or at which it is killed."""

    def __init__(self, program, word, files, held, room):
        self.room, self.folder, self.held = room, room / "disks", held
        for name, content in files.items():
            (room / name).write_bytes(content)
        self.command = [*program, word, *(str(room / name) for name in files), str(self.folder)]
        self.counts = self.count_calls()

    def lay_out(self):
        shutil.rmtree(self.folder, ignore_errors=True)
        self.folder.mkdir()
        for name, content in self.held.items():
            (self.folder / name).write_bytes(content)

    def count_calls(self):
        """How often a run that nothing disturbs makes each call."""
        self.lay_out()
        trace = self.room / "trace"
        subprocess.run(["strace", "-f", "-o", trace, *self.command], capture_output=True, timeout=SECONDS)
        return collections.Counter(re.findall(r"(?m)^\d+ +(\w+)\(", trace.read_text(errors="replace")))

    def calls(self):
        """The calls, from the first of the program's own on, each with its number."""
        return [(call, n) for call in sorted(ERRORS) for n in range(OF_LOADER.get(call, 0) + 1, self.counts[call] + 1)]

    def run(self, call, number, kills):
        """What is wrong with a run whose call of this number fails, or kills it."""
        self.lay_out()
        how = "signal=KILL" if kills else f"error={ERRORS[call]}"
        strace = ["strace", "-f", "-o", "/dev/null", "-e", f"trace={call}", "-e", f"inject={call}:{how}:when={number}"]
        try:
            done = subprocess.run([*strace, *self.command], stdin=subprocess.DEVNULL, capture_output=True, timeout=SECONDS)
        except subprocess.TimeoutExpired:
            return [f"it hung for {SECONDS} seconds"]
        killed = kills and done.returncode in (-9, 137)
        output, said = done.stdout.decode("latin-1"), done.stderr.decode("latin-1")
        return list(self.faults(done.returncode, output, said, killed, call == "write"))


class FaultyRun(Faulty):
    """A run of a schedule by `links`, or by `resume` where the files hold something."""

    def __init__(self, program, registry, schedule, held, room):
        self.whole = Whole(registry, schedule, held)
        super().__init__(program, "resume" if held else "links", {"registry": registry, "schedule": schedule}, held, room)

    def faults(self, status, output, said, killed, is_cut):
        return judge.faults(self.whole, self.folder, status, output, said, killed, is_cut)


class FaultyAudit(Faulty):
    def __init__(self, program, registry, held, room):
        super().__init__(program, "audit", {"registry": registry}, held, room)
        self.whole = audit(registry, str(self.folder))

    def faults(self, status, output, said, killed, is_cut):
        if files_in(self.folder) != self.held:
            yield "an audit has changed files"
        if not self.whole[0].startswith(output):
            yield f"the report is no prefix: {output[-80:]!r}"
        is_as_ever = (output, status, said) == self.whole
        if not killed and not is_as_ever and not (status in TEXTS and (is_cut or re.fullmatch(TEXTS[status] + "\n", said))):
            yield f"status {status} with the text {said!r:.80}"


def each_call(program, room, tally):
    """Each call of a short run, of one that goes on with it and of an audit of it fails once, and kills it once."""
    read = lambda name: (EXAMPLES / name).read_bytes()
    registry, short = read("registry.toml"), (read("registry.toml"), read("linked.schedule"))
    held, old = without_empty(journals(*short)), without_empty(old_journals(*short))
    checkpoint = files_in(TESTS / "cases" / "audit-of-an-old-checkpoint" / "dir")
    runs = {
        "linked.schedule": lambda: FaultyRun(program, registry, read("linked.schedule"), {}, room),
        "resumed.schedule": lambda: FaultyRun(program, registry, read("resumed.schedule"), held, room),
        "resumed.schedule over old journals": lambda: FaultyRun(program, registry, read("resumed.schedule"), old, room),
        "an old checkpoint": lambda: FaultyRun(program, registry, b"history alpha Ab3dE-00001\n", checkpoint, room),
        "an audit": lambda: FaultyAudit(program, registry, held, room),
    }
    for name, made in runs.items():
        faulty = made()
        for call, number in faulty.calls():
            for kills in (False, True):
                tally.add(f"{name}, {call} {number}, {'killed' if kills else 'failed'}", faulty.run(call, number, kills))


def drawn_calls(program, seed, room):
    """Six calls of a drawn schedule, each with what is wrong then."""
    registry, schedule = drawn_for_links(seed)
    first, rest = halves(schedule) if seed % 2 else (b"", schedule)
    left_by = old_journals if seed % 4 == 3 else journals
    try:
        faulty = FaultyRun(program, registry, rest, without_empty(left_by(registry, first)) if first else {}, room)
    except BadRegistry:
        return []
    if faulty.whole.world.fault:
        # A record is longer than the old form has it.
        return []
    rng, calls, found = random.Random(seed), faulty.calls(), []
    names = sorted({call for call, _ in calls})
    for _ in range(6 if names else 0):
        call = rng.choice([*names, *(name for name in ("pwrite64", "fdatasync") if name in names)])
        number, kills = rng.choice([number for name, number in calls if name == call]), rng.random() < 0.5
        found.append((f"{call} {number}, {'killed' if kills else 'failed'}", faulty.run(call, number, kills)))
    return found


def run(words, tally):
    needs("strace")
    with tempfile.TemporaryDirectory() as room:
        each_call(command_of(words, MAIN), pathlib.Path(room), tally)
    for seed, found in by_seed(drawn_calls, words, 200, MAIN):
        for what, faults in found:
            tally.add(f"seed {seed}, {what}", faults)
