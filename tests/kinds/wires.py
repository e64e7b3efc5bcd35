"""The bytes that runs over links put on their sockets, as a trace of system calls has them, beside what the plain program of tests/oracle
puts on each ordered pair of nodes: a greeting, and the frames of each message that was delivered, in order. A run by a case whose messages
go in parts first, and then runs of drawn schedules.

words: [PROGRAM [FIRST [COUNT]]]; 50 seeds where no number of them is given; PROGRAM runs no other program. It takes strace.
"""
import collections
import pathlib
import re
import shutil
import subprocess
import sys
import tempfile

from common import MAIN, REGISTRY, SECONDS, TESTS, command_of, needs, seeds
from draws import drawn_for_links
from registries import BadRegistry
from wires import put_by

GATE = None
CASE = TESTS / "cases" / "linked-messages-in-parts" / "schedule.py"


def sent_by(program, registry, schedule, room):
    """What was sent on each socket of a run. A piece that wasn't taken whole counts as far as it was."""
    disks, trace = room / "disks", room / "trace"
    shutil.rmtree(disks, ignore_errors=True)
    disks.mkdir()
    for name, content in (("registry", registry), ("schedule", schedule)):
        (room / name).write_bytes(content)
    command = [*program, "links", room / "registry", room / "schedule", disks]
    strace = ["strace", "-f", "-xx", "-s", "100000", "-e", "trace=sendto", "-o", trace]
    subprocess.run([*strace, *command], stdin=subprocess.DEVNULL, capture_output=True, timeout=SECONDS)
    sent = collections.defaultdict(bytes)
    calls = re.findall(r'(?m)^\d+ +sendto\((\d+), "((?:\\x[0-9a-f]{2})*)".*\) += (\d+)$', trace.read_text(errors="replace"))
    for socket, spelled, count in calls:
        sent[socket] += bytes.fromhex(spelled.replace("\\x", ""))[: int(count)]
    return sorted(sent.values())


def difference(program, registry, schedule, room):
    """What differs, or None."""
    wanted = sorted(put_by(registry, schedule).values())
    came = sent_by(program, registry, schedule, room)
    if came == wanted:
        return None
    both = zip(came, wanted)
    which = next(((a, b) for a, b in both if a != b), None)
    if len(came) != len(wanted) or which is None:
        return f"bytes on {len(came)} sockets, wanted on {len(wanted)} pairs"
    a, b = which
    at = next((i for i, (x, y) in enumerate(zip(a, b)) if x != y), min(len(a), len(b)))
    return f"from byte {at} on {a[at:at + 20].hex()} of {len(a)} bytes, wanted {b[at:at + 20].hex()} of {len(b)}"


def faults(program, seed, room):
    try:
        wrong = difference(program, *drawn_for_links(seed), room)
    except BadRegistry:
        return []
    return [wrong] if wrong else []


def run(words, tally):
    needs("strace")
    parts = subprocess.run([sys.executable, CASE], capture_output=True, check=True).stdout
    with tempfile.TemporaryDirectory() as room:
        wrong = difference(command_of(words, MAIN), REGISTRY.read_bytes(), parts, pathlib.Path(room))
    tally.add("messages in parts", [wrong] if wrong else [])
    seeds(faults, words, 50, tally, MAIN)
