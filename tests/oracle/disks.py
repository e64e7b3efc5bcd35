"""Disks that stop, and journals on two of them, as docs/RULES.md has them (Disks, Journals)."""


class Failed(Exception):
    """A call of a disk that is made to stop."""


class Disk:
    """The bytes of the last sync, those of now, and the ranges written since."""

    def __init__(self, content=b""):
        self.synced = self.bytes = content
        self.touched = []
        self.left = None

    def call(self):
        if self.left == 0:
            raise Failed
        if self.left is not None:
            self.left -= 1

    def write(self, at, piece):
        self.call()
        assert at <= len(self.bytes)
        self.bytes = self.bytes[:at] + piece + self.bytes[at + len(piece) :]
        self.touched.append((at, len(piece)))

    def cut(self, size):
        self.call()
        assert size <= len(self.bytes)
        self.bytes = self.bytes[:size]

    def sync(self):
        self.call()
        self.synced, self.touched = self.bytes, []

    def pick(self, fill):
        if fill == "old":
            self.bytes = self.synced
        elif fill != "new":
            written = lambda place: any(at <= place < at + size for at, size in self.touched)
            self.bytes = bytes(int(fill, 16) if written(i) else b for i, b in enumerate(self.bytes))
        self.synced, self.touched, self.left = self.bytes, [], None


# The eight bytes with which a journal of each form begins, and how long its records are at most; new ones are of the second.
OLD, MAGIC = b"SPLJRN01", b"SPLJRN02"
LONGEST = {OLD: 16384, MAGIC: 65536}
ROOM = 65536
LAST_EPOCH = 2**64 - 1


class NotAJournal(Exception):
    """Bytes that are no journal, by the place."""

    def __init__(self, at):
        super().__init__(f"not a journal at {at}")
        self.at = at


def big(value, size):
    return value.to_bytes(size, "big")


def head(epoch):
    """The first 17 bytes, with the gate closed."""
    return MAGIC + big(epoch, 8) + b"\0"


def block(record):
    return b"\1" + big(len(record), 4) + record


def head_fault(content):
    if len(content) < 18 or content[:8] not in LONGEST:
        return 0
    return None if content[16] == 1 else 16


def epoch_of(content):
    return int.from_bytes(content[8:16], "big")


def records_in(content, fits):
    """The records of an open disk, and the place of the first closed gate."""
    if content[:8] == OLD and epoch_of(content) == LAST_EPOCH:
        # No journal of today's form could follow it.
        raise NotAJournal(8)
    longest, found, at = LONGEST[content[:8]], [], 17
    while content[at] == 1:
        size = int.from_bytes(content[at + 1 : at + 5], "big")
        record = content[at + 5 : at + 5 + size]
        if len(content) < at + 5 or not 1 <= size <= longest or len(content) < at + 6 + size or not fits(record):
            raise NotAJournal(at)
        found.append(record)
        at += 5 + size
    return found, at


class Pairing:
    """The journal of two disks."""

    def __init__(self, disks, counting, end, base, epoch):
        self.disks, self.counting, self.end, self.base, self.epoch = disks, counting, end, base, epoch

    def disk(self):
        return self.disks[self.counting]

    def is_old(self):
        return self.disk().bytes[:8] == OLD

    def has_room(self):
        return self.end + 1 <= 2 * self.base + ROOM

    def append(self, record):
        disk, gate = self.disk(), self.end
        disk.write(gate + 1, big(len(record), 4) + record + b"\0")
        disk.sync()
        disk.write(gate, b"\1")
        disk.sync()
        self.end = gate + 5 + len(record)

    def checkpoint(self, records):
        disk = self.disks[1 - self.counting]
        disk.cut(min(17, len(disk.bytes)))
        disk.sync()
        disk.write(0, head(self.epoch + 1))
        disk.sync()
        content = b"".join(map(block, records)) + b"\0"
        disk.write(17, content)
        disk.sync()
        disk.write(16, b"\1")
        disk.sync()
        self.counting, self.epoch = 1 - self.counting, self.epoch + 1
        self.base, self.end = 17 + len(content), 16 + len(content)

    def tell(self):
        room = "room" if self.has_room() else "no room"
        return f"len {self.end + 1} base {self.base} {room} epoch {self.epoch} counting {self.counting}"


def make(disks):
    """A journal on the first disk."""
    disks[0].write(0, head(1) + b"\0")
    disks[0].sync()
    disks[0].write(16, b"\1")
    disks[0].sync()
    return Pairing(disks, 0, 17, 18, 1)


def read(disks, fits):
    """The journal that counts, and its records."""
    faults = [head_fault(disk.bytes) for disk in disks]
    if faults[0] is not None and faults[1] is not None:
        raise NotAJournal(faults[0])
    epochs = [epoch_of(disk.bytes) if fault is None else -1 for disk, fault in zip(disks, faults)]
    counting = 1 if epochs[0] < epochs[1] else 0
    records, end = records_in(disks[counting].bytes, fits)
    return Pairing(disks, counting, end, 18, epochs[counting]), records


def aged(content):
    """The bytes of a journal, or of a part of one, as one of the old form has them."""
    return OLD[: len(content)] + content[8:]
