"""Answers the rows of disks and nodes by what disks and journals are in docs/RULES.md (Disks, Journals, Cells, Byte forms), written here again
without the program or its definitions; events at a node are those of this folder.
"""
import hashlib

import rows_of_checks
from cells import Message, Refused, Site
from disks import ROOM, Disk, Failed, NotAJournal, make, read
from groups import Body
from records import changes_of, copied, packed, record_of
from schedules import World
from values import Act


# ---- Words


def part_of(word):
    digits, _, times = word.partition("x")
    return rows_of_checks.content_of(digits) * int(times or 1)


def content_of(word):
    first, *changes = word.split("/")
    content = b"".join(map(part_of, first.split("+")))
    for change in changes:
        at, _, what = change.partition("=")
        if at == "cut":
            content = content[: int(what)]
        else:
            piece = bytes.fromhex(what)
            content = (content[: int(at)] + piece + content[int(at) + len(piece) :])[: len(content)]
    return content


def told(content):
    if len(content) <= 300:
        return content.hex() or "-"
    return f"{len(content)} bytes {hashlib.sha256(content).hexdigest()}"


def told_both(disks):
    return " and ".join(told(disk.bytes) for disk in disks)


# ---- The table of disks


class Desk:
    def __init__(self, first, second):
        self.disks = [Disk(content_of(first)), Disk(content_of(second))]
        self.kept = None

    def format(self, _):
        self.kept = make(self.disks)
        return "ok"

    def append(self, word):
        self.kept.append(content_of(word))
        return "ok"

    def checkpoint(self, words):
        self.kept.checkpoint([] if words == "-" else [content_of(word) for word in words.split(",")])
        return "ok"

    def open(self, _):
        self.kept, records = read(self.disks, lambda record: record[0] != 255)
        if self.kept.is_old():
            self.kept.checkpoint(records)
        return " ".join(["records", *map(told, records)])

    def stop(self, words):
        for disk, calls in zip(self.disks, words.split(",")):
            disk.left = int(calls)
        return "armed"

    def pick(self, fill):
        for disk in self.disks:
            disk.pick(fill)
        return "picked"

    def bytes(self, _):
        return told_both(self.disks)

    def tell(self, _):
        return self.kept.tell()

    def step(self, word):
        name, _, rest = word.partition("=")
        try:
            return getattr(self, name)(rest)
        except Failed:
            return "the disk failed"
        except NotAJournal as fault:
            return str(fault)


def disks(first, second, *steps):
    desk = Desk(first, second)
    return ", ".join(map(desk.step, steps))


# ---- The table of nodes


def is_record(content):
    try:
        return rows_of_checks.record(content, 0) == len(content)
    except rows_of_checks.Unreadable:
        return False


def heard(words):
    """What another node says: FROM CIRCUIT GENERATION and accept TURN, yes-act ROUND or yes-batch ROUND SENDER RECIPIENT."""
    sender, circuit, generation, what, number, *services = words
    generation, number = int(generation), int(number)
    if what == "accept":
        body = Body("Forward", generation, value=Act(sender, number, "Accept"))
    else:
        body = Body("Vote", generation, number, yes=True)
    lane = "service" if what == "yes-batch" else "admin"
    return circuit, lambda site: site.deliver(sender, Message(lane, circuit, body, *services))


def stopped(cell):
    """The same after a stop."""
    cell = copied(cell)
    if cell is not None:
        cell.restart()
    return cell


class Seat:
    """A node over its disks, with one circuit."""

    def __init__(self, here, first, second):
        self.here = here
        self.disks = [Disk(content_of(first)), Disk(content_of(second))]
        self.pairing = self.site = None
        self.made = {}
        self.records = []
        self.checkpoints = self.longest = 0
        self.within = True

    def remember(self, records, cell):
        """Remembers which cell these records make."""
        self.made[tuple(records)] = stopped(cell)

    def create(self):
        self.pairing = make(self.disks)
        self.records = []
        return "ok"

    def open(self):
        self.pairing, self.records = read(self.disks, is_record)
        cell = self.made[tuple(self.records)] if self.records else None
        self.site = Site(self.here, "Ab3dE-00001", stopped(cell))
        if self.pairing.is_old():
            self.records = packed("Ab3dE-00001", self.site.cell)
            self.remember(self.records, self.site.cell)
            self.pairing.checkpoint(self.records)
        return "ok"

    def event(self, circuit, does):
        if self.site is None:
            self.site = Site(self.here, circuit)
        before = copied(self.site.cell)
        try:
            answer = does(self.site)
        except Refused as refused:
            return str(refused)
        changes = changes_of(before, self.site.cell)
        if changes:
            self.write(record_of(circuit, changes), circuit)
        return answer

    def write(self, record, circuit):
        pairing, contents = self.pairing, None
        self.remember(self.records + [record], self.site.cell)
        if pairing.end + 6 + len(record) > 2 * pairing.base + ROOM:
            contents = packed(circuit, self.site.cell)
            self.remember(contents, self.site.cell)
        pairing.append(record)
        self.records = self.records + [record]
        if contents:
            pairing.checkpoint(contents)
            self.records = contents
            self.checkpoints += 1

    def line(self, line):
        answer = self.answer(line)
        self.longest = max(self.longest, len(self.pairing.disk().bytes))
        self.within = self.within and self.pairing.has_room()
        return answer

    def answer(self, line):
        if line.startswith("hear "):
            return self.event(*heard(line.split()[1:]))
        word, node, circuit, *words = line.split(" ")
        assert node == self.here
        does, arguments = World(["alpha", "beta"]).event(word, circuit, words)
        return self.event(circuit, lambda site: does(site, *arguments))

    def stop(self, rest):
        calls, fill, line = rest.split(" ", 2)
        counting = self.disks[self.pairing.counting]
        other = self.disks[1 - self.pairing.counting]
        counting.left, other.left = min(int(calls), 4), max(int(calls) - 4, 0)
        try:
            answer = self.line(line)
        except Failed:
            answer = "the disk failed"
        for disk in self.disks:
            disk.pick(fill)
        self.pairing = None
        return answer

    def repeat(self, rest):
        times, lines = rest.split(" ", 1)
        for number in range(1, int(times) + 1):
            for line in lines.split(" / "):
                answer = self.line(line.replace("#", str(number)))
        return answer

    def tell(self):
        lengths = " and ".join(str(len(disk.bytes)) for disk in self.disks)
        bound = "within its bound" if self.within else "beyond its bound"
        return f"counting {self.pairing.counting}, {lengths} bytes, {self.checkpoints} checkpoints, at most {self.longest} bytes, {bound}"

    def step(self, step):
        name, _, rest = step.partition(" ")
        ways = {"create": self.create, "open": self.open, "tell": self.tell, "bytes": lambda: told_both(self.disks)}
        ways |= {"stop": lambda: self.stop(rest), "repeat": lambda: self.repeat(rest)}
        try:
            return ways[name]() if name in ways else self.line(step)
        except Failed:
            return "the disk failed"
        except NotAJournal as fault:
            return str(fault)


def node(here, first, second, *words):
    seat = Seat(here, first, second)
    proposal = Seat(here, "-", "-")
    proposal.create()
    proposal.line(PROPOSAL)
    seat.made |= proposal.made
    return "\n  ".join(map(seat.step, " ".join(words).split(" ; ")))


# The proposal of which some rows have the bytes.
PROPOSAL = "propose alpha Ab3dE-00001 1 1 grid trade alpha,beta aaaa:scabbard:alpha,bbbb:scabbard:beta"

TABLES = {"disks": disks, "node": node}
NAMES = ("disks", "nodes")


def answered(row):
    """A row with its answer after it; the row alone where its table isn't one of these."""
    table, _, rest = row.partition(" ")
    return f"{row}\n  {TABLES[table](*rest.split())}" if table in TABLES else row
