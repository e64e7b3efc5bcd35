"""What the kinds of tests share: where things are, the words that are given, seeds side by side, and what passed."""
import concurrent.futures
import functools
import os
import pathlib
import shlex
import shutil
import subprocess
import tempfile

TOP = pathlib.Path(__file__).resolve().parent.parent
TESTS, EXAMPLES, CRATES = TOP / "tests", TOP / "examples", TOP / "crates"
REGISTRY = EXAMPLES / "registry.toml"
# What runs any build, and the two programs that the proofs built.
SPLINTER = str(TOP / "splinter")
MAIN = str(CRATES / "spl_main" / "out" / "spl_main")
OPERATOR = str(CRATES / "spl_operator" / "out" / "spl_operator")
SECONDS = 120


class Tally:
    """How many cases passed and failed; each that fails is told at once."""

    def __init__(self):
        self.passed = self.failed = 0

    def add(self, name, faults):
        """A case: its name, and what is wrong with it."""
        for fault in faults:
            print(f"{name}: {fault}", flush=True)
        self.failed += bool(faults)
        self.passed += not faults

    def many(self, passed, failed):
        self.passed += passed
        self.failed += failed


class Unfit(Exception):
    """The words of a test aren't those that it takes, or it takes what isn't here."""


def command_of(words, usual=SPLINTER):
    """The command that is tested, its files by their whole paths."""
    found = shlex.split(words[0]) if words else [usual]
    if "/" in found[0] and not os.path.exists(found[0]):
        raise Unfit(f"{found[0]} isn't there")
    return [os.path.abspath(word) if os.path.exists(word) else word for word in found]


def numbers_of(words, first, count):
    """FIRST and COUNT behind the program."""
    try:
        numbers = [int(word) for word in words[1:3]]
    except ValueError as error:
        raise Unfit(f"no number: {error}") from error
    return (*numbers, *(first, count)[len(numbers):])


def in_a_room(judge, program, room, seed):
    own = pathlib.Path(room) / str(seed)
    own.mkdir()
    try:
        return judge(program, seed, own)
    finally:
        shutil.rmtree(own, ignore_errors=True)


def listed(judge, program, seed, room):
    return list(judge(program, seed, room) or ())


def by_seed(judge, words, count, usual=SPLINTER):
    """Each seed that the words PROGRAM FIRST COUNT name, with what `judge` gives for the program, the seed and a folder of its own; as
    many at once as there are processors."""
    program = command_of(words, usual)
    first, count = numbers_of(words, 0, count)
    with tempfile.TemporaryDirectory() as room, concurrent.futures.ProcessPoolExecutor(len(os.sched_getaffinity(0))) as workers:
        numbers = range(first, first + count)
        yield from zip(numbers, workers.map(functools.partial(in_a_room, judge, program, room), numbers, chunksize=2))


def seeds(judge, words, count, tally, usual=SPLINTER):
    """Judges seeds: `judge` gives what is wrong with each."""
    for seed, faults in by_seed(functools.partial(listed, judge), words, count, usual):
        tally.add(f"seed {seed}", faults)


def ended(command, **how):
    """Output, status and standard error of a command, as bytes."""
    done = subprocess.run(list(map(str, command)), **{"stdin": subprocess.DEVNULL, "capture_output": True, "timeout": SECONDS, **how})
    return done.stdout, done.returncode, done.stderr


def ended_in_text(command, **how):
    output, status, said = ended(command, **how)
    return output.decode(), status, said.decode()


def needs(name):
    """Refuses to run where a program of the system isn't here."""
    if not shutil.which(name):
        raise Unfit(f"it takes {name}, which isn't here")


def traced_first_calls(trace):
    """The words before a command by which its syncs and reads of files are traced; none where strace isn't here."""
    if not shutil.which("strace"):
        print("strace isn't here: that files are synced before they are read isn't tried")
        return []
    return ["strace", "-f", "-y", "-qq", "-o", str(trace), "-e", "trace=fsync,fdatasync,pread64"]


def not_synced_first(trace, names):
    """Those of a folder's files that were read, by a trace, before they were synced, or not synced at all."""
    calls = trace.read_text(errors="replace").splitlines()
    first = {name: next((call for call in calls if f"/{name}>" in call), "") for name in names}
    return [name for name in names if "sync(" not in first[name]]


def files_in(folder):
    """What the files of a folder hold; an empty one counts as none."""
    return {path.name: path.read_bytes() for path in folder.iterdir() if path.stat().st_size}


def parting(came, wanted):
    """Where two ends of a run part: output, status and standard error."""
    lines = zip(came[0].splitlines(), wanted[0].splitlines())
    return next((f"{a!r:.300}, wanted {b!r:.300}" for a, b in lines if a != b), f"{came[1:]!r:.300}, wanted {wanted[1:]!r:.300}")
