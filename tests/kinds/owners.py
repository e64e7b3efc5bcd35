"""Files of a folder that are another node's than the registry has at their position: `owners`, `look` and `serve` find them, and the
script before `resume` and `audit`.

words: [PROGRAM [SCHEDULES]]; PROGRAM takes these words, SCHEDULES `links`, `resume` and `audit`

- Four nodes, and what a run over links left of them: under registries whose tables are exchanged, or have a new one in the middle, each
  command ends with 7 and the same line, and nothing in the folder changes; by what the journals bind, and by the list that a node that
  served left.
- Under registries of the same order, with a node more, and where there is nothing to find, all goes on as without the script.
"""
import fcntl
import os
import pathlib
import shlex
import shutil
import socket
import subprocess
import tempfile
import time

from common import MAIN, OPERATOR, SPLINTER, TOP, command_of

GATE = (OPERATOR, MAIN)
PROGRAM, SCHEDULES = [SPLINTER], [SPLINTER]
ADDRESS = "00" * 35
NODES = ("north", "south", "east", "west")
TRIO, QUAD = "Trio0-00001", "Quad0-00001"
NOTHING = (0, "", "")


def ran(command, *words, **how):
    """Status, output and what is said on standard error."""
    done = subprocess.run([*command, *map(str, words)], **{"stdin": subprocess.DEVNULL, "capture_output": True, "timeout": 60, **how})
    return done.returncode, done.stdout.decode(), done.stderr.decode()


def free_port():
    with socket.socket() as found:
        found.bind(("127.0.0.1", 0))
        return found.getsockname()[1]


def lines_about(circuit, members):
    """Its members agree to the circuit, and on a batch."""
    first, *others = sorted(members)
    services = ",".join(f"{letter * 4}:scabbard:{node}" for letter, node in zip("abcd", (first, *others)))
    proposed = f"propose {first} {circuit} 1 1 grid trade {','.join((first, *others))} {services}"
    return [proposed, *(f"vote {node} {circuit} accept" for node in others), f"submit {first} {circuit} 1 tx out: set:{ADDRESS}=01"]


def files_in(folder):
    return {path.name: (path.read_bytes(), path.stat().st_mtime_ns, path.stat().st_mode) for path in folder.iterdir() if path.is_file()}


class Four:
    """Four nodes and what a run over links left of them; registries that have them in any order."""

    def __init__(self, top):
        self.top, self.folder, self.ask = top, top / "four", top / "ask"
        self.tables = {node: f'[[node]]\nidentity = "{node}"\ndisplay_name = "x"\nendpoints = ["127.0.0.1:{free_port()}"]\n' for node in (*NODES, "more")}
        self.right, self.longer = self.registry(*NODES), self.registry(*NODES, "more")
        self.folder.mkdir()
        schedule = top / "schedule"
        schedule.write_text("\n".join([*lines_about(TRIO, NODES[:3]), *lines_about(QUAD, NODES), ""]))
        self.ask.write_text(f"show north {TRIO}\nshow west {QUAD}\nroll south\n")
        self.script = script_over_programs(top)
        self.left = ran(SCHEDULES, "links", self.right, schedule, self.folder)

    def registry(self, *order):
        path = self.top / "-".join(order)
        path.write_text("".join(self.tables[node] for node in order))
        return path

    def copy(self):
        copy = pathlib.Path(tempfile.mkdtemp(dir=self.top))
        return shutil.copytree(self.folder, copy, dirs_exist_ok=True)


def script_over_programs(top):
    """The script over the programs that are tested, in a clone of its own."""
    if PROGRAM == [SPLINTER]:
        return [SPLINTER]
    clone = top / "clone"
    clone.mkdir()
    (clone / "crates.txt").touch()  # no build is older than what it is of
    for command, crate in ((PROGRAM, "spl_operator"), (SCHEDULES, "spl_main")):
        for part in ("src", "specs", "proofs", "out"):
            (clone / "crates" / crate / part).mkdir(parents=True)
        build = clone / "crates" / crate / "out" / crate
        build.write_text(f'#!/bin/bash\nexec {shlex.join(command)} "$@"\n')
        build.chmod(0o755)
    shutil.copytree(TOP / "docs", clone / "docs")
    shutil.copy(SPLINTER, clone / "splinter")
    return [str(clone / "splinter")]


def refused(four, registry, first, folder, wanted):
    """By each command, without a change."""
    before = files_in(folder), sorted(os.listdir(folder))
    calls = {
        "owners": (PROGRAM, registry, folder), "look": (PROGRAM, registry, folder, "roll", "south"), "serve": (PROGRAM, registry, first, folder),
        "resume": (four.script, registry, four.ask, folder), "audit": (four.script, registry, folder),
    }
    for name, (command, *words) in calls.items():
        if ran(command, name, *words) != (7, "", wanted):
            yield f"{name} {registry.name}: {ran(command, name, *words)}"
    if (files_in(folder), sorted(os.listdir(folder))) != before:
        yield f"{registry.name}: what the folder has changed"


def files_of_another_node(top):
    """By what the journals bind: tables that were exchanged, and a new one in the middle; and behind what a shorter list has."""
    four = Four(top)
    if four.left[0] != 0:
        yield f"links: {four.left}"
    held = "files at position {} hold circuit {}, of which {} is no member\n".format
    yield from refused(four, four.registry("west", "south", "east", "north"), "west", four.folder, held(0, TRIO, "west"))
    yield from refused(four, four.registry("north", "more", "south", "east", "west"), "north", four.folder, held(1, TRIO, "more"))
    yield from refused(four, four.registry("north", "south", "east", "more"), "north", four.folder, held(3, QUAD, "more"))
    (four.folder / "nodes").write_text("north\n")
    yield from refused(four, four.registry("north", "west", "east", "south"), "north", four.folder, held(1, TRIO, "west"))


def files_of_a_node_that_served(top):
    """A right registry serves and makes the list, by which the others are refused then."""
    four = Four(top)
    process = subprocess.Popen([*PROGRAM, "serve", str(four.right), "north", str(four.folder)], stderr=subprocess.DEVNULL)
    latest = time.monotonic() + 30
    while ran(PROGRAM, "ask", four.folder, "stop")[0] != 0 and time.monotonic() < latest:
        time.sleep(0.05)
    if process.wait(30) != 0 or (four.folder / "nodes").read_text().split() != list(NODES):
        yield f"served: {process.returncode}, {sorted(files_in(four.folder))}"
    listed = "files of north at position 0, where the registry has another node\n"
    yield from refused(four, four.registry("west", "south", "east", "north"), "west", four.folder, listed)
    for registry in (four.right, four.longer):
        if ran(PROGRAM, "owners", registry, four.folder) != NOTHING:
            yield f"owners {registry.name}: {ran(PROGRAM, 'owners', registry, four.folder)}"


def files_of_their_own(top):
    """Runs and audits go on as they do without the script, and nothing is said where there is nothing to find."""
    four = Four(top)
    exchanged = four.registry("west", "south", "east", "north")
    empty, damaged = top / "empty", four.copy()
    empty.mkdir()
    for path in damaged.iterdir():
        path.write_bytes(path.read_bytes()[:60])
    quiet = [(registry, four.folder) for registry in (four.right, four.longer, top / "none", four.ask, "/dev/null")]
    quiet += [(exchanged, folder) for folder in (empty, damaged, top / "none", four.right)]
    before = files_in(four.folder)
    for registry, folder in quiet:
        if ran(PROGRAM, "owners", registry, folder) != NOTHING:
            yield f"owners {registry} {folder}: {ran(PROGRAM, 'owners', registry, folder)}"
    holder = os.open(four.folder, os.O_RDONLY)
    fcntl.flock(holder, fcntl.LOCK_EX)
    in_use = ran(PROGRAM, "owners", exchanged, four.folder), ran(four.script, "audit", exchanged, four.folder)
    fcntl.flock(holder, fcntl.LOCK_SH)
    beside = ran(PROGRAM, "owners", exchanged, four.folder)[0]
    os.close(holder)
    if (*in_use, beside) != (NOTHING, (7, "", "disk of west failed\n"), 7):
        yield f"in use: {in_use}, beside a reader: {beside}"
    if files_in(four.folder) != before or any(empty.iterdir()):
        yield "what a folder has changed"
    for registry in (four.right, four.longer):
        audits = [ran(command, "audit", registry, four.folder) for command in (four.script, SCHEDULES)]
        runs = [ran(command, "resume", registry, four.ask, four.copy()) for command in (four.script, SCHEDULES)]
        for came, wanted in (audits, runs):
            if came != wanted or wanted[0] != 0:
                yield f"{registry.name}: {came}, wanted {wanted}"
    if ran(four.script, "resume", exchanged, four.ask, empty)[:2] != (0, "1 refused 2\n2 refused 2\n3 ok roll 0\n"):
        yield f"a registry of another order without files: {ran(four.script, 'resume', exchanged, four.ask, empty)}"


CHECKS = (files_of_another_node, files_of_a_node_that_served, files_of_their_own)


def run(words, tally):
    PROGRAM[:], SCHEDULES[:] = command_of(words), command_of(words[1:])
    for check in CHECKS:
        with tempfile.TemporaryDirectory() as top:
            tally.add(check.__name__, [f"{what:.600}" for what in check(pathlib.Path(top))])
