"""Groups, their members and their messages, as docs/RULES.md has them (Groups, Messages)."""
from dataclasses import dataclass, field
from typing import Any, NamedTuple

LAST_ROUND = 2**64 - 1
MOST_PENDING = 64
NO_POSITION = 255


class Reason(NamedTuple):
    code: int
    at: int = 0

    def text(self):
        return f"{self.code} {self.at}"


class Body(NamedTuple):
    """What a message says: its kind, the generation and what its kind has."""

    kind: str
    generation: int
    round: int = 0
    place: int = 0
    value: Any = None
    yes: bool = False
    reason: Reason = None


@dataclass
class Group:
    """A group as one of its members sees it. `content` judges values by those committed so far."""

    generation: int
    members: tuple
    coordinator: int
    here: int
    content: Any

    @property
    def leads(self):
        return self.here == self.coordinator

    @property
    def others(self):
        return [i for i in range(len(self.members)) if i != self.here]


@dataclass
class Member:
    history: list = field(default_factory=list)
    pending: list = field(default_factory=list)
    refused: list = field(default_factory=list)
    promise: tuple = None
    seen: int = 0
    next: int = 1
    open: int = None
    missing: set = field(default_factory=set)

    def values(self):
        return [value for _, value in self.history]

    def known(self, content, value):
        """Where the key of a value is found first, with the value there, or with the value and its reason."""
        for place, found in (("history", self.values()), ("pending", self.pending)):
            for other in found:
                if content.key(other) == content.key(value):
                    return place, other, None
        for other, reason in self.refused:
            if content.key(other) == content.key(value):
                return "refused", other, reason
        return None

    def commit(self, content, round, value):
        self.history.append((round, value))
        self.promise = None
        self.drop(content, value)

    def drop(self, content, value):
        self.pending = [v for v in self.pending if content.key(v) != content.key(value)]

    def refuse(self, content, value, reason):
        self.drop(content, value)
        self.refused.append((value, reason))

    def decision(self, round):
        if any(r == round for r, _ in self.history):
            return True
        if round < self.next and self.open != round:
            return False
        return None


def tick(group, member):
    """The note, and what is sent: pairs of a position and a body."""
    if not group.leads:
        if member.promise:
            asked = member.promise[0]
            return f"asked {asked}", [(group.coordinator, Body("DecisionRequest", group.generation, asked))]
        if member.pending:
            return "forwarded", [(group.coordinator, Body("Forward", group.generation, value=member.pending[0]))]
        return "idle", []
    if member.open is not None:
        return f"asked {member.open}", request(group, member, sorted(member.missing))
    if not member.pending or member.next == LAST_ROUND:
        return "idle", []
    value = member.pending[0]
    reason = group.content.check(member.values(), value)
    if reason:
        member.refuse(group.content, value, reason)
        return f"refused {reason.text()}", to_others(group, Body("Refused", group.generation, value=value, reason=reason))
    member.open, member.missing = member.next, set(group.others)
    member.next += 1
    return f"begun {member.open}", request(group, member, group.others)


def request(group, member, positions):
    body = Body("VoteRequest", group.generation, member.open, len(member.history), member.pending[0])
    return [(i, body) for i in positions]


def to_others(group, *bodies):
    return [(i, body) for i in group.others for body in bodies]


def expire(group, member):
    if not group.leads or member.open is None:
        return "idle", []
    round, member.open = member.open, None
    return f"expired {round}", to_others(group, Body("Decision", group.generation, round, yes=False))


def submit(group, member, value):
    member.pending.append(value)
    if group.leads:
        return "queued", []
    return "queued", [(group.coordinator, Body("Forward", group.generation, value=value))]


def hear(group, member, sender, body):
    """The first case of the table that a message meets, from the member at a position."""
    return HEARD[body.kind](group, member, sender, body)


def vote(sender, body, yes):
    return [(sender, Body("Vote", body.generation, body.round, yes=yes))]


def on_request(group, member, sender, body):
    r = body.round
    if sender != group.coordinator:
        return f"declined {r}", vote(sender, body, False)
    if member.promise:
        q = member.promise[0]
        if q == r:
            return f"again {r}", vote(sender, body, True)
        return f"asked {q}", [(sender, Body("DecisionRequest", body.generation, q))]
    if r < member.seen or (r == member.seen and any(r == h for h, _ in member.history)):
        return "ignored", []
    if r == member.seen:
        return f"declined {r}", vote(sender, body, False)
    member.seen = r
    if body.place == len(member.history) and not group.content.check(member.values(), body.value):
        member.promise = (r, body.value)
        return f"promised {r}", vote(sender, body, True)
    return f"declined {r}", vote(sender, body, False)


def on_vote(group, member, sender, body):
    r = body.round
    if not group.leads or member.open != r or sender not in group.others:
        return "ignored", []
    value = member.pending[0]
    if not body.yes:
        member.open = None
        reason = Reason(7)
        member.refuse(group.content, value, reason)
        decision = Body("Decision", body.generation, r, yes=False)
        return f"aborted {r}", to_others(group, decision, Body("Refused", body.generation, value=value, reason=reason))
    if sender not in member.missing:
        return "ignored", []
    member.missing.discard(sender)
    if member.missing:
        return f"counted {r}", []
    member.open = None
    member.commit(group.content, r, value)
    return f"committed {r}", to_others(group, Body("Decision", body.generation, r, yes=True))


def on_decision(group, member, sender, body):
    r = body.round
    if sender != group.coordinator or not member.promise or member.promise[0] != r:
        return "ignored", []
    if body.yes:
        member.commit(group.content, r, member.promise[1])
        return f"committed {r}", []
    member.promise = None
    return f"aborted {r}", []


def on_decision_request(group, member, sender, body):
    decision = member.decision(body.round) if group.leads and sender in group.others else None
    if decision is None:
        return "ignored", []
    word = "commit" if decision else "abort"
    return f"told {body.round} {word}", [(sender, Body("Decision", body.generation, body.round, yes=decision))]


def returned(sender, body, reason):
    refusal = Body("Refused", body.generation, value=body.value, reason=reason)
    return f"returned {reason.text()}", [(sender, refusal)]


def on_forward(group, member, sender, body):
    value = body.value
    if not group.leads:
        reason = group.content.stray(value)
        return returned(sender, body, reason) if reason else ("ignored", [])
    if sender not in group.others or not group.content.may_come_from(value, group.members[sender]):
        return "ignored", []
    reason = group.content.sent_back(value)
    if reason:
        return returned(sender, body, reason)
    known = member.known(group.content, value)
    if known:
        place, other, reason = known
        if other != value:
            return returned(sender, body, Reason(8))
        return returned(sender, body, reason) if place == "refused" else ("ignored", [])
    if len(member.pending) == MOST_PENDING:
        return "ignored", []
    member.pending.append(value)
    return "queued", []


def on_refused(group, member, sender, body):
    if sender != group.coordinator or body.value not in member.pending:
        return "ignored", []
    member.refuse(group.content, body.value, body.reason)
    return f"refused {body.reason.text()}", []


HEARD = {
    "VoteRequest": on_request,
    "Vote": on_vote,
    "Decision": on_decision,
    "DecisionRequest": on_decision_request,
    "Forward": on_forward,
    "Refused": on_refused,
}
