"""Schedules of Paxos Commit drawn from a seed: few rounds, so that lines meet each other; messages that mostly come soon and
in order, some again, some late; processes that stop and mostly start soon; a few broken lines, and runs that pass a limit."""
import random

from paxos import MOST_ROUND, Paxos
from schedules import BadLine, TooMany

BROKEN = ["vote m1 0 yes", "vote m9 1 yes", "vote m1 1 maybe", "vote c1 1 yes", "vote m1 01 yes", "vote m1 1 yes ", " vote m1 1 yes"]
BROKEN += ["lead m1 1", "lead l4 1", "lead l1 18446744073709551616", "lead l1", "deliver m1 c1 0", "deliver m1 c1 4294967296"]
BROKEN += ["deliver m1 c6 1", "deliver m1 c1", "show l1 1", "show m1", "stop m0", "stop", "start c1 1", "start l01", "calm m1 1", "Vote m1 1 yes"]


class Draw:
    """Draws lines, and runs them along."""

    def __init__(self, seed):
        self.random = random.Random(seed)
        self.size = self.one([2, 2, 3, 3, 5, 8]), self.one([0, 1, 1, 2])
        self.world = Paxos(*self.size)
        self.leaders = ["l1", "l2", "l3"]
        self.rounds = self.one([[1], [1, 2], [1, 2, 3], [7, MOST_ROUND]])
        # How many messages of a pair deliveries in turn have handed over.
        self.handed = {}

    def one(self, things):
        return self.random.choice(things)

    def lines(self):
        found = [self.ran(self.line()) for _ in range(self.random.randint(20, 300))]
        found += [self.ran(f"show {member} {round_}") for member in self.world.members for round_ in self.rounds]
        found += [self.ran(line) for line in self.beyond()]
        if self.random.random() < 0.15:
            found.insert(self.random.randrange(len(found) + 1), self.one([*BROKEN, "", "# a comment"]))
        return found

    def ran(self, line):
        try:
            self.world.run(line)
        except (BadLine, TooMany):
            pass
        return line

    def beyond(self):
        """Lines at the end that come near a limit of runs, or pass it; mostly none."""
        kind = self.random.random()
        if kind < 0.03:
            return [f"stop {self.one(self.world.names)}" for _ in range(self.random.randint(23, 34))]
        if kind < 0.04:
            return [f"show m1 {self.one(self.rounds)}"] * self.random.randint(32400, 32800)
        return []

    def line(self):
        kind = self.random.random()
        if kind < 0.10:
            return f"vote {self.one(self.world.members)} {self.one(self.rounds)} {self.one(['yes'] * 9 + ['no'])}"
        if kind < 0.13:
            return f"lead {self.one(self.leaders)} {self.one(self.rounds)}"
        if kind < 0.15:
            return f"show {self.one(self.world.members)} {self.one(self.rounds)}"
        if kind < 0.18:
            return self.power()
        return self.delivery()

    def power(self):
        """A stop or a start, the latter mostly of a process that is down."""
        down = sorted(self.world.down)
        if down and self.random.random() < 0.7:
            return f"start {self.one(down)}"
        return f"{self.one(['stop', 'stop', 'start'])} {self.one(self.world.names)}"

    def delivery(self):
        """A message: mostly the next of a pair, or one that came before, or one that wasn't sent."""
        waiting = [pair for pair, sent in self.world.sent.items() if self.handed.get(pair, 0) < len(sent)]
        kind = self.random.random()
        if waiting and kind < 0.85:
            pair = self.one(waiting)
            self.handed[pair] = self.handed.get(pair, 0) + 1
            return self.handing(pair, self.handed[pair])
        if self.world.sent and kind < 0.97:
            pair = self.one(list(self.world.sent))
            return self.handing(pair, self.random.randint(1, len(self.world.sent[pair])))
        pair = self.one(self.world.names), self.one(self.world.names)
        return self.handing(pair, self.one([1, 2, 2**32 - 1]))

    def handing(self, pair, count):
        return f"deliver {pair[0]} {pair[1]} {count}"


def drawn(seed):
    """How many members and faults a run of a seed has, and the bytes of its schedule."""
    draw = Draw(seed)
    text = "".join(line + "\n" for line in draw.lines())
    members, faults = draw.size
    return members, faults, text.encode()
