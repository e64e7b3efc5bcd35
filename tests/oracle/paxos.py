"""Paxos Commit, as docs/RULES.md has it: what a run of a schedule answers."""
from dataclasses import dataclass, field

from runs import run_in
from schedules import MOST_EVENTS, MOST_STOPS, BadLine, TooMany, number

LEADERS = 3
MOST_ROUND = 2**64 - 1
MOST_NUMBER = 2**32 - 1


class Refused(Exception):
    """A line is refused for this reason."""


def leader_of(ballot):
    """The number of the leader that a ballot above 0 belongs to."""
    return ballot % LEADERS or LEADERS


@dataclass
class Member:
    """One round at a member."""

    vote: bool | None = None
    decision: bool | None = None
    # The acceptors that accepted so, by member, ballot and whether it is prepared.
    counted: dict = field(default_factory=dict)

    def forget(self):
        self.counted = {}


@dataclass
class Acceptor:
    promised: int = 0
    # The ballot, and whether it is prepared, by member.
    accepted: dict = field(default_factory=dict)

    def forget(self):
        pass


@dataclass
class Leader:
    used: int = 0
    ballot: int | None = None
    # The accepted pairs that each acceptor promised with.
    promises: dict = field(default_factory=dict)

    def forget(self):
        self.ballot, self.promises = None, {}


KINDS = {"m": Member, "c": Acceptor, "l": Leader}


class Paxos:
    """Members, acceptors and leaders, and all messages that were ever sent."""

    def __init__(self, members, faults):
        self.quorum = faults + 1
        self.members = [f"m{i}" for i in range(1, members + 1)]
        self.acceptors = [f"c{i}" for i in range(1, 2 * faults + 2)]
        self.names = [*self.members, *self.acceptors, *(f"l{i}" for i in range(1, LEADERS + 1))]
        self.rounds = {name: {} for name in self.names}
        self.sent = {}
        self.down = set()
        self.events = self.stops = 0

    def at(self, name, round_):
        """What a process has of a round."""
        return self.rounds[name].setdefault(round_, KINDS[name[0]]())

    def send(self, here, to, *message):
        self.sent.setdefault((here, to), []).append(message)

    def to_acceptors(self, here, *message):
        for acceptor in self.acceptors:
            self.send(here, acceptor, *message)

    # ---- lines

    def name(self, word, kinds="mcl"):
        if word not in self.names or word[0] not in kinds:
            raise BadLine
        return word

    def line(self, text):
        """What a line does, as a function without arguments, and whether it stops a process."""
        words = text.split(" ")
        match words:
            case ["vote", member, round_, vote] if vote in ("yes", "no"):
                member, round_ = self.name(member, "m"), number(round_, 1, MOST_ROUND)
                return lambda: self.vote(member, round_, vote == "yes")
            case ["lead", leader, round_]:
                leader, round_ = self.name(leader, "l"), number(round_, 1, MOST_ROUND)
                return lambda: self.lead(leader, round_)
            case ["deliver", sender, to, count]:
                sender, to, count = self.name(sender), self.name(to), number(count, 1, MOST_NUMBER)
                return lambda: self.deliver(sender, to, count)
            case ["show", member, round_]:
                member, round_ = self.name(member, "m"), number(round_, 1, MOST_ROUND)
                return lambda: self.show(member, round_)
            case ["stop", name]:
                return lambda name=self.name(name): self.stop(name)
            case ["start", name]:
                return lambda name=self.name(name): self.start(name)
        raise BadLine

    def run(self, text):
        """The answer to a line."""
        does = self.line(text)
        if self.events == MOST_EVENTS:
            raise TooMany("too many events")
        self.events += 1
        if text.startswith("stop "):
            if self.stops == MOST_STOPS:
                raise TooMany("too many stops")
            self.stops += 1
        try:
            return f"ok {does()}"
        except Refused as why:
            return f"refused {why}"

    def up(self, name):
        if name in self.down:
            raise Refused(1)

    def stop(self, name):
        if name not in self.down:
            self.down.add(name)
            for round_ in self.rounds[name].values():
                round_.forget()
        return "down"

    def start(self, name):
        self.down.discard(name)
        return "up"

    def show(self, member, round_):
        self.up(member)
        return {None: "undecided", True: "commit", False: "abort"}[self.at(member, round_).decision]

    def vote(self, here, round_, yes):
        self.up(here)
        own = self.at(here, round_)
        if own.vote is not None:
            raise Refused(2)
        own.vote = yes
        self.to_acceptors(here, "accept", round_, int(here[1:]), 0, yes)
        return "voted"

    def lead(self, here, round_):
        self.up(here)
        own, number_ = self.at(here, round_), int(here[1:])
        ballot = next(b for b in range(own.used + 1, own.used + LEADERS + 1) if leader_of(b) == number_)
        if ballot > MOST_ROUND:
            return "spent"
        own.used = own.ballot = ballot
        own.promises = {}
        self.to_acceptors(here, "ask", round_, ballot)
        return f"ballot {ballot}"

    def deliver(self, sender, to, count):
        self.up(to)
        messages = self.sent.get((sender, to), [])
        if len(messages) < count:
            raise Refused(3)
        kind, *rest = messages[count - 1]
        hears = {"c": self.acceptor_hears, "l": self.leader_hears, "m": self.member_hears}[to[0]]
        return hears(to, sender, kind, *rest) or "ignored"

    # ---- the table

    def acceptor_hears(self, here, sender, kind, round_, *rest):
        own = self.at(here, round_)
        if kind == "ask":
            (ballot,) = rest
            if sender != f"l{leader_of(ballot)}" or ballot == 0:
                return None
            if ballot < own.promised:
                self.send(here, sender, "higher", round_, own.promised)
                return f"higher {own.promised}"
            own.promised = ballot
            self.send(here, sender, "promise", round_, ballot, dict(own.accepted))
            return f"promised {ballot}"
        if kind == "accept":
            member, ballot, prepared = rest
            if sender != (f"l{leader_of(ballot)}" if ballot else f"m{member}") or ballot < own.promised:
                return None
            own.promised = ballot
            own.accepted[member] = (ballot, prepared)
            for to in self.members:
                self.send(here, to, "accepted", round_, member, ballot, prepared)
            return "accepted"
        return None

    def leader_hears(self, here, sender, kind, round_, *rest):
        own = self.at(here, round_)
        if kind == "higher" and rest[0] > own.used:
            own.used = rest[0]
            return f"noted {own.used}"
        if kind == "promise" and rest[0] == own.ballot and sender not in own.promises:
            own.promises[sender] = rest[1]
            if len(own.promises) < self.quorum:
                return "counted"
            return self.orders(here, round_, own)
        return None

    def orders(self, here, round_, own):
        ballot, own.ballot = own.ballot, None
        for member in range(1, len(self.members) + 1):
            pairs = [pairs[member] for pairs in own.promises.values() if member in pairs]
            self.to_acceptors(here, "accept", round_, member, ballot, max(pairs)[1] if pairs else False)
        return f"sent {ballot}"

    def member_hears(self, here, sender, kind, round_, *rest):
        own = self.at(here, round_)
        if kind != "accepted" or own.decision is not None:
            return None
        key = tuple(rest)
        heard = {**own.counted, key: own.counted.get(key, set()) | {sender}}
        member, ballot, prepared = key
        if not prepared and len(heard[key]) >= self.quorum:
            own.decision = False
            return "abort"
        chosen = {m for (m, _, p), by in heard.items() if p and len(by) >= self.quorum}
        if len(chosen) == len(self.members):
            own.decision = True
            return "commit"
        if sender in own.counted.get(key, ()):
            return None
        own.counted = heard
        return "counted"


def run(members, faults, schedule):
    """What is written of a schedule, the status, and what is said of that. A file that can't be read is None."""
    return run_in(Paxos(members, faults), schedule)
