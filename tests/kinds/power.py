"""Loss of power in runs over links and files: from a trace of a run's system calls, what its files may hold at each moment, judged by the
plain program of tests/oracle. Of each write since its file's last sync all is there, nothing, its first bytes, or some of its bytes; what
was printed by then has to be in the files.

words: [PROGRAM [FIRST [COUNT]]] [--without-syncs]; 20 seeds where no number of them is given, two images at each moment; PROGRAM runs no
other program. It takes strace.

With --without-syncs no sync counts, and images have to fail: a judge that passes them sees nothing. Every second run goes on with
journals of the old form, as a run of the first half of its lines left them. It counts images.
"""
import functools
import pathlib
import random
import re
import shutil
import subprocess

from common import MAIN, SECONDS, by_seed, needs
from draws import drawn_for_links
from judge import Whole, faults
from mutations import halves, old_journals
from outages import File
from registries import BadRegistry

GATE = None
CALLS = "openat,pwrite64,fsync,fdatasync,ftruncate,write"
IMAGES = 2
# The place of a journal's first gate, which is open once the journal is made.
FIRST_GATE = 16


def spelled(text):
    """The bytes of a word of the trace."""
    return bytes.fromhex(text.replace("\\x", ""))


class Outage:
    """A run, followed call by call."""

    def __init__(self, whole, folder, rng, syncs):
        self.whole, self.folder, self.rng, self.syncs = whole, folder, rng, syncs
        self.names, self.output = {}, b""
        self.files = {name: File(content) for name, content in whole.held.items()}
        self.passed = self.failed = 0

    def call(self, name, words, result):
        if name == "openat":
            self.open(words, result)
        elif name == "write" and words.startswith("1,"):
            self.output += spelled(re.search(r'"((?:\\x..)*)"', words)[1])[:result]
            self.check()
        elif name != "write" and (file := self.files.get(self.names.get(int(re.match(r"\d+", words)[0])))):
            self.change(file, name, words, result)
            self.check()

    def open(self, words, number):
        path = re.search(r'"((?:\\x..)*)"', words)
        name = pathlib.Path(spelled(path[1]).decode("latin-1")).name if path else ""
        if re.fullmatch(r"d\d\d[ab]", name):
            self.names[number] = name
            self.files.setdefault(name, File(b""))
        else:
            self.names.pop(number, None)

    def change(self, file, name, words, result):
        if name == "pwrite64":
            piece = spelled(re.search(r'"((?:\\x..)*)"', words)[1])[:result]
            file.since.append((int(words.rsplit(", ", 1)[1]), piece))
        elif name == "ftruncate":
            file.since.append((int(words.rsplit(", ", 1)[1]), None))
        elif self.syncs:
            file.sync()

    def check(self):
        for _ in range(IMAGES if any(file.since for file in self.files.values()) else 1):
            for name, file in self.files.items():
                data = file.image(self.rng)
                # A first journal that isn't made yet may hold anything.
                is_made = file.synced[FIRST_GATE : FIRST_GATE + 1] == b"\1" or data[FIRST_GATE : FIRST_GATE + 1] == b"\1"
                (self.folder / name).write_bytes(data if is_made or not name.endswith("a") else b"")
            found = list(faults(self.whole, self.folder, None, self.output.decode(), "", True))
            self.passed += not found
            self.failed += bool(found)
            if found and self.syncs:
                print(f"after {len(self.output)} bytes of output: {'; '.join(found)}", flush=True)


def outage_of(program, seed, room, syncs):
    """The images of a drawn run, or None where its registry is none."""
    registry, schedule = drawn_for_links(seed)
    word, held = "links", {}
    if seed % 2:
        first, schedule = halves(schedule)
        word, held = "resume", old_journals(registry, first)
    try:
        whole = Whole(registry, schedule, held)
    except BadRegistry:
        return None
    if whole.world.fault:
        return None
    folder, trace = room / "disks", room / "trace"
    shutil.rmtree(folder, ignore_errors=True)
    folder.mkdir()
    for name, content in held.items():
        (folder / name).write_bytes(content)
    (room / "registry").write_bytes(registry)
    (room / "schedule").write_bytes(schedule)
    command = [*program, word, str(room / "registry"), str(room / "schedule"), str(folder)]
    strace = ["strace", "-f", "-xx", "-s", "300000", "-e", f"trace={CALLS}", "-o", str(trace)]
    done = subprocess.run([*strace, *command], stdin=subprocess.DEVNULL, capture_output=True, timeout=SECONDS)
    if done.stdout.decode() != whole.output:
        print(f"seed {seed}: another output")
        return None
    outage = Outage(whole, folder, random.Random(seed), syncs)
    for line in trace.read_text(errors="replace").splitlines():
        call = re.match(r"\d+ +(\w+)\((.*)\) += (\d+)", line)
        if call:
            outage.call(call[1], call[2], int(call[3]))
    return outage


def images(syncs, program, seed, room):
    """How many images of a seed passed, and how many failed."""
    outage = outage_of(program, seed, room, syncs)
    return (outage.passed, outage.failed) if outage else (0, 0)


def run(words, tally):
    needs("strace")
    without = "--without-syncs" in words
    for _, counts in by_seed(functools.partial(images, not without), [word for word in words if word != "--without-syncs"], 20, MAIN):
        tally.many(*counts)
