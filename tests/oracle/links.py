"""A run over links and files, as docs/RULES.md has it (Links, Resuming, Statuses): what it writes, and what the disks hold."""
import os

from changes import sites_of
from disks import LAST_EPOCH, Disk, NotAJournal, make, read
from readings import is_record
from records import changes_of, copied, packed, record_of
from runs import over_nodes, run_in
from schedules import UNTAKEN, BadLine, World

PASSES = 8
NAMES_NO_CIRCUIT = ("stop", "start", "roll", "check")


def names_of(position):
    """The names of the files of the node at a position."""
    return [f"d{position:02}{letter}" for letter in "ab"]


class Files(World):
    """All nodes, each over two disks, which hold these bytes by the names of their files, or nothing. A node whose disks hold
    bytes has the cells that they stand for. `fault` is the status of the first node whose disks can't be read or are no
    journal, and what is said of it, or None; that node and those after it have no journal."""

    def __init__(self, nodes, held={}):
        super().__init__(nodes)
        # The records of each node's journal at each moment so far.
        self.journals, self.kept, self.records = {}, {}, {}
        self.appends = self.checkpoints = 0
        # The base of each node's journal that was of the old form, and was written again before the node answers.
        self.rebased = {}
        self.fault = next(filter(None, (self.begin(node, held, names_of(i)) for i, node in enumerate(nodes))), None)

    def begin(self, node, held, names):
        """A journal on two blank disks, or the one that they hold; what is wrong with them, or None."""
        contents = [held.get(name, b"") for name in names]
        if None in contents:
            return disk_failed(node)
        disks = list(map(Disk, contents))
        try:
            self.journals[node], records = read(disks, is_record) if any(contents) else (make(disks), [])
        except NotAJournal as why:
            return 13, f"disk of {node} is {why}\n"
        self.kept[node] = set()
        self.hold(node, tuple(records))
        self.sites |= {(node, circuit): site for circuit, site in sites_of(node, records).items()}
        if self.journals[node].is_old():
            self.checkpoint(node)
            self.rebased[node] = self.journals[node].base
        return None

    def happens(self, site, does):
        before = copied(site.cell)
        answer = super().happens(site, does)
        changes = changes_of(before, site.cell)
        if changes:
            self.keep(site, record_of(site.circuit, changes))
        return answer

    def keep(self, site, record):
        """The record of an event, and a checkpoint where there is no room after it."""
        journal = self.journals[site.here]
        journal.append(record)
        self.appends += 1
        self.hold(site.here, self.records[site.here] + (record,))
        if not journal.has_room() and journal.epoch < LAST_EPOCH:
            self.checkpoint(site.here)
            self.checkpoints += 1

    def checkpoint(self, node):
        records = self.packed_cells(node)
        self.journals[node].checkpoint(records)
        self.hold(node, tuple(records))

    def hold(self, node, records):
        self.records[node] = records
        self.kept[node].add(hash(records))

    def packed_cells(self, node):
        kept = {s.circuit: s.cell for s in self.sites_at(node) if s.cell is not None}
        return [one for circuit in sorted(kept) for one in packed(circuit, kept[circuit])]

    def run_start(self, rest):
        down = set(self.down)
        answer = super().run_start(rest)
        if rest[0] in down:
            self.journals[rest[0]].base = 18
        return answer

    def disks(self):
        """The bytes of each disk, by its file's name."""
        each = ((names_of(i), self.journals[node].disks) for i, node in enumerate(self.nodes) if node in self.journals)
        return {name: disk.bytes for names, disks in each for name, disk in zip(names, disks)}


def answer(world, count, line):
    """The answer to a line, and then the calm about its circuit."""
    word, *rest = line.split(" ")
    if word in UNTAKEN:
        raise BadLine
    yield f"{count} {world.run(line)}\n"
    if word not in NAMES_NO_CIRCUIT:
        world.calm(rest[1], PASSES)


def run(nodes, schedule, held={}):
    """What is written over these nodes, whose disks hold these bytes at first, the status, what is said of that, and the
    nodes."""
    world = Files(nodes, held)
    return *(("", *world.fault) if world.fault else run_in(world, schedule, answer)), world


# ---- Files


def held_in(folder, nodes):
    """What the files of these nodes in a folder hold, by their names; None where that can't be read."""
    return {name: content(folder, name) for i in range(len(nodes)) for name in names_of(i)}


def content(folder, name):
    try:
        with open(os.path.join(folder, name), "rb") as file:
            return file.read()
    except FileNotFoundError:
        return b"" if os.path.isdir(folder) else None
    except OSError:
        return None


def disk_failed(node):
    return 7, f"disk of {node} failed\n"


def not_blank(nodes, held):
    """What is wrong with the first node whose disks aren't blank, or None."""
    for i, node in enumerate(nodes):
        for name in names_of(i):
            if held[name] is None:
                return disk_failed(node)
            if held[name]:
                return 10, f"disk of {node} not blank\n"
    return None


def over_files(nodes, schedule, folder, resumes):
    held = held_in(folder, nodes)
    fault = None if resumes else not_blank(nodes, held)
    if fault:
        return "", *fault
    written, status, said, world = run(nodes, schedule, held)
    for name, now in world.disks().items():
        if now != held[name]:
            with open(os.path.join(folder, name), "wb") as file:
                file.write(now)
    return written, status, said


def links(registry, schedule, folder):
    """What a run over links writes, its status, and what it says of that; the files are written."""
    return over_nodes(registry, lambda nodes: over_files(nodes, schedule, folder, False))


def resume(registry, schedule, folder):
    """The same of a run that goes on with what the files hold."""
    return over_nodes(registry, lambda nodes: over_files(nodes, schedule, folder, True))
