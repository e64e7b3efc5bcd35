"""What the bytes of a record say, as docs/RULES.md has them (Byte forms): a circuit, and its changes as tuples of a name and
what it has."""
import re

from groups import Reason
from records import ACTS, COMMANDS, MOST_CHANGES
from values import Act, Batch, Command, Definition, Service, Transaction

NODE = "[a-z0-9-]{1,32}"
LABEL = "[!-~]{0,128}"
CIRCUIT = "[0-9A-Za-z]{5}-[0-9A-Za-z]{5}"
SERVICE = "[0-9A-Za-z]{4}"
MOST_NODES = 16
MOST_ITEMS, LONGEST_STRING = 1024, 8192
LONGEST_PREFIX = 35
GROUPS = (1, 2)


class Unreadable(Exception):
    """The bytes aren't of the form."""


class Reader:
    """Bytes, and the place up to which they are read."""

    def __init__(self, content):
        self.content, self.at = content, 0

    def take(self, size):
        piece = self.content[self.at : self.at + size]
        if len(piece) < size:
            raise Unreadable
        self.at += size
        return piece

    def number(self, size):
        return int.from_bytes(self.take(size), "big")

    def one_of(self, tags):
        tag = self.number(1)
        if tag not in tags:
            raise Unreadable
        return tag

    def counted(self, width, most):
        size = self.number(width)
        if size > most:
            raise Unreadable
        return size

    def word(self, pattern, size):
        found = self.take(size).decode("latin-1")
        if not re.fullmatch(pattern, found):
            raise Unreadable
        return found

    def text(self, pattern):
        return self.word(pattern, self.number(2))

    def string(self):
        return self.take(self.counted(2, LONGEST_STRING))

    def several(self, one, most):
        return tuple(one() for _ in range(self.counted(2, most)))

    # ---- Values

    def definition(self):
        head = self.word(CIRCUIT, 11), self.number(4), self.number(1), self.text(LABEL), self.text(LABEL)
        members = self.several(lambda: self.text(NODE), MOST_NODES)
        return Definition(*head, members, self.several(self.service, MOST_NODES))

    def service(self):
        return Service(self.word(SERVICE, 4), self.text(LABEL), self.text(NODE))

    def act(self):
        node, turn, kind = self.text(NODE), self.number(4), self.one_of(range(1, 9))
        definition = self.definition() if kind == 1 else None
        return Act(node, turn, ACTS[kind - 1], definition, self.number(4) if kind > 5 else None)

    def command(self):
        kind = COMMANDS[self.one_of(range(1, 8)) - 1]
        name = None
        if kind in ("Set", "Get", "Delete"):
            name = self.take(LONGEST_PREFIX)
        elif kind != "Data":
            name = self.text(LABEL)
        return Command(kind, name, self.string() if kind in ("Set", "Event", "Data") else b"")

    def prefix(self):
        return self.take(self.counted(1, LONGEST_PREFIX))

    def transaction(self):
        return Transaction(*(self.several(one, MOST_ITEMS) for one in (self.prefix, self.prefix, self.command)))

    def batch(self):
        return Batch(self.number(8), self.several(self.transaction, MOST_ITEMS))

    # ---- Changes

    def group_and(self, *fields):
        """A group, and what a change of it has; a value is one of that group."""
        group = self.one_of(GROUPS)
        value = self.act if group == 1 else self.batch
        ways = {"value": value, "round": lambda: self.number(8), "reason": lambda: Reason(self.number(1), self.number(1))}
        return (group, *(ways[field]() for field in fields))

    def change(self):
        tag = self.one_of(range(1, 15))
        if tag == 1:
            return "Bind", self.definition()
        if tag in (9, 10):
            return ("Abandon" if tag == 9 else "Purge",)
        if tag in (13, 14):
            return "Turn" if tag == 13 else "Gone", self.number(4)
        name, *fields = OF_GROUPS[tag]
        return name, *self.group_and(*fields)

    def record(self):
        return self.word(CIRCUIT, 11), self.several(self.change, MOST_CHANGES)


OF_GROUPS = {
    2: ("Queue", "value"),
    3: ("Refuse", "value", "reason"),
    4: ("Begin", "round"),
    5: ("Seen", "round"),
    6: ("Promise", "round", "value"),
    7: ("Abort",),
    8: ("Commit", "round", "value"),
    11: ("Restore", "round", "round"),
    12: ("Kept", "value", "reason"),
}


def record(content):
    """The circuit and the changes of bytes that are one record."""
    reader = Reader(content)
    found = reader.record()
    if reader.at < len(content):
        raise Unreadable
    return found


def is_record(content):
    try:
        record(content)
    except Unreadable:
        return False
    return True
