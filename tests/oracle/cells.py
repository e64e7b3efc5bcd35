"""A cell, and what an event does there, as docs/RULES.md has it (Cells, Routing)."""
import json
from dataclasses import dataclass, field
from typing import Any, NamedTuple

from groups import LAST_ROUND, MOST_PENDING, NO_POSITION, Body, Group, Member, Reason, expire, hear, submit, tick
from proofs import proof_of, root_of, written
from values import Act, Acts, Batches, Definition, life, receipts_of, state_of

LAST_TURN = 2**32 - 1


class Refused(Exception):
    """A refusal, with its text."""

    def __init__(self, *words):
        super().__init__(" ".join(map(str, ("refused", *words))))


def in_json(value):
    """Compact, with the keys of each object in byte order."""
    return json.dumps(value, separators=(",", ":"), sort_keys=True)


class Message(NamedTuple):
    """A message about a circuit; one of the service group has the sending and the receiving service."""

    lane: str
    circuit: str
    body: Body
    sender: str = None
    recipient: str = None


@dataclass
class Purged:
    generation: int


@dataclass
class Bound:
    definition: Definition
    turn: int = 0
    is_open: bool = True
    acts: Member = field(default_factory=Member)
    batches: Member = field(default_factory=Member)

    @property
    def generation(self):
        return self.definition.generation

    def life(self):
        return life(self.definition, self.acts.values())

    def runs(self):
        return self.life().runs()

    def has_run(self):
        return self.runs() or self.life().state == "disbanded"

    def admin(self, here):
        d = self.definition
        return Group(d.generation, d.members, 0, d.members.index(here), Acts(d))

    def service(self, here):
        d = self.definition
        return Group(d.generation, d.members, d.members.index(d.services[0].node), d.members.index(here), Batches())

    def restart(self):
        """Forgets the open rounds."""
        for member in (self.acts, self.batches):
            member.open, member.missing = None, set()


@dataclass
class Site:
    """One circuit at one node: the cell, and what its last event sends, pairs of a node and a message."""

    here: str
    circuit: str
    cell: Any = None
    sends: list = field(default_factory=list)

    # ---- what is sent

    def post_admin(self, definition, back, sends):
        for position, body in sends:
            to = back if position == NO_POSITION else definition.members[position]
            self.sends.append((to, Message("admin", self.circuit, body)))

    def post_service(self, definition, back, sends):
        for position, body in sends:
            to = definition.members[position]
            services = definition.service_of(self.here), definition.service_of(to)
            self.sends.append((to, Message("service", self.circuit, body, *services)))

    # ---- what is asked of a cell

    def bound(self):
        if not isinstance(self.cell, Bound):
            raise Refused(2)
        return self.cell

    def running(self):
        cell = self.bound()
        if not cell.runs():
            raise Refused(11)
        return cell

    def can_bind(self, definition, generation):
        free = self.cell is None or (isinstance(self.cell, Purged) and self.cell.generation < definition.generation)
        fits = definition.id == self.circuit and definition.generation == generation and not definition.broken()
        return free and fits and self.here in definition.members

    # ---- acts

    def propose(self, definition):
        rule = definition.broken()
        if rule:
            raise Refused(3, rule)
        if self.here not in definition.members:
            raise Refused(4)
        if self.cell is not None and self.cell.generation >= definition.generation:
            raise Refused(5, self.cell.generation)
        if isinstance(self.cell, Bound):
            raise Refused(6)
        self.cell = Bound(definition)
        return self.queue_act(self.cell, Act(self.here, 1, "Propose", definition))

    def queue_act(self, cell, act):
        cell.turn = act.turn
        _, sends = submit(cell.admin(self.here), cell.acts, act)
        self.post_admin(cell.definition, None, sends)
        return "ok queued"

    def next_act(self):
        cell = self.bound()
        act = Act(self.here, cell.turn + 1, "Accept")
        own_pending = any(a.node == self.here for a in cell.acts.pending)
        known = cell.acts.known(Acts(cell.definition), act)
        if own_pending or len(cell.acts.pending) == MOST_PENDING or known or cell.turn == LAST_TURN:
            raise Refused(7)
        return cell, act

    def answer(self, kind, refusal, is_refused):
        """An act about what is open: the circuit's proposal, or the disband at its place."""
        cell, act = self.next_act()
        now = cell.life()
        if now.state not in ("proposed", "disbanding"):
            raise Refused(8)
        if is_refused(now):
            raise Refused(refusal)
        if not cell.is_open:
            raise Refused(12)
        if now.state == "disbanding":
            return self.queue_act(cell, act._replace(kind="Disband" + kind, place=now.place))
        return self.queue_act(cell, act._replace(kind=kind))

    def vote(self, kind):
        return self.answer(kind, 9, lambda now: self.here in now.told())

    def remove(self):
        return self.answer("Remove", 10, lambda now: self.here != now.asker())

    def disband(self):
        cell, act = self.next_act()
        if cell.life().state != "active":
            raise Refused(11)
        if not cell.is_open:
            raise Refused(12)
        if cell.definition.version == 1:
            raise Refused(20)
        return self.queue_act(cell, act._replace(kind="Disband"))

    # ---- leaving

    def abandon(self):
        cell = self.running()
        if not cell.is_open:
            raise Refused(12)
        cell.is_open = False
        cell.restart()
        return "ok abandoned"

    def purge(self):
        cell = self.bound()
        state = cell.life().state
        waits = state == "none" and (cell.acts.pending or cell.acts.promise is not None)
        if cell.is_open and (state in ("proposed", "active", "disbanding") or waits):
            raise Refused(16)
        self.cell = Purged(cell.generation)
        return "ok purged"

    # ---- batches and reading

    def submit(self, batch):
        cell = self.running()
        if not cell.is_open:
            raise Refused(12)
        rule = batch.broken()
        if rule:
            raise Refused(13, rule)
        known = cell.batches.known(Batches(), batch)
        if known:
            if known[1] != batch:
                raise Refused(14)
            return "ok known"
        if len(cell.batches.pending) == MOST_PENDING:
            raise Refused(15)
        _, sends = submit(cell.service(self.here), cell.batches, batch)
        self.post_service(cell.definition, None, sends)
        return "ok queued"

    def show(self):
        cell = self.bound()
        now = cell.life()
        accepted = ",".join(m for m in cell.definition.members if m in now.told()) or "-"
        mark = "open" if cell.is_open else "abandoned"
        counts = [len(part) for m in (cell.acts, cell.batches) for part in (m.history, m.pending)]
        return "ok circuit generation {} lifecycle {} mark {} accepted {} acts {} {} batches {} {}".format(
            cell.generation, now.state, mark, accepted, *counts
        )

    def detail(self):
        cell = self.bound()
        d, now = cell.definition, cell.life()
        return "ok detail " + in_json(
            {
                "accepted": [m for m in d.members if m in now.told()],
                "generation": d.generation,
                "hash": d.hash(),
                "id": d.id,
                "lifecycle": now.state,
                "management": d.management,
                "mark": "open" if cell.is_open else "abandoned",
                "members": list(d.members),
                "name": d.name,
                "requester": now.requester,
                "services": [{"node": s.node, "service": s.id, "type": s.kind} for s in d.services],
                "version": d.version,
            }
        )

    def receipt(self, id):
        batches = self.running().batches.values()
        place = next((place for place, batch in enumerate(batches) if batch.id == id), None)
        if place is None:
            raise Refused(19)
        receipts = receipts_of(state_of(batches[:place]), batches[place])
        return "ok receipt " + in_json({"batch": id, "place": place, "transactions": receipts})

    def root(self):
        batches = self.running().batches.values()
        return f"ok root {len(batches)} {root_of(state_of(batches)).hex()}"

    def prove(self, address):
        state = state_of(self.running().batches.values())
        return f"ok proof {root_of(state).hex()} {written(proof_of(state, address)).hex()}"

    def history(self):
        batches = self.running().batches.values()
        return " ".join(["ok history", str(len(batches)), *(str(b.id) for b in batches)])

    def get(self, address):
        value = state_of(self.running().batches.values()).get(address)
        return "ok none" if value is None else f"ok value {value.hex()}"

    def list(self, prefix):
        state = state_of(self.running().batches.values())
        found = [f"{a.hex()}={v.hex()}" for a, v in sorted(state.items()) if a.startswith(prefix)]
        return " ".join(["ok entries", str(len(found)), *found])

    def status(self, id):
        batches = self.running().batches
        for place, batch in enumerate(batches.values()):
            if batch.id == id:
                return f"ok status committed {place}"
        if any(b.id == id for b in batches.pending):
            return "ok status pending"
        reason = next((r for b, r in batches.refused if b.id == id), None)
        if reason is None:
            raise Refused(19)
        return f"ok status refused {reason.text()}"

    # ---- routing

    def routing_fault(self, node, sender, recipient):
        cell = self.cell
        if not isinstance(cell, Bound) or not cell.is_open or not cell.runs():
            return 1
        from_node, to_node = cell.definition.node_of(sender), cell.definition.node_of(recipient)
        tests = (from_node, to_node, from_node == node, to_node == self.here)
        return next((i for i, holds in enumerate(tests, 2) if not holds), None)

    def route(self, node, sender, recipient):
        fault = self.routing_fault(node, sender, recipient)
        if fault:
            raise Refused(18, fault)
        return "ok routed"

    # ---- ticks, expires and messages

    def both(self, does):
        cell = self.bound()
        if not cell.is_open:
            raise Refused(12)
        notes = []
        runs = cell.runs()
        note, sends = does(cell.admin(self.here), cell.acts)
        self.post_admin(cell.definition, None, sends)
        notes.append(note)
        if runs:
            note, sends = does(cell.service(self.here), cell.batches)
            self.post_service(cell.definition, None, sends)
        notes.append(note if runs else "-")
        return "ok " + " / ".join(notes)

    def tick(self):
        return self.both(tick)

    def expire(self):
        return self.both(expire)

    def deliver(self, back, message):
        hears = self.hear_admin if message.lane == "admin" else self.hear_service
        return "ok " + hears(back, message)

    def hear_service(self, back, message):
        fault = self.routing_fault(back, message.sender, message.recipient)
        if fault:
            raise Refused(18, fault)
        cell, body = self.cell, message.body
        if body.generation != cell.generation:
            if body.kind != "VoteRequest":
                return "ignored"
            no = Body("Vote", body.generation, body.round, yes=False)
            self.sends.append((back, Message("service", self.circuit, no, message.recipient, message.sender)))
            return f"declined {body.round}"
        group = cell.service(self.here)
        note, sends = hear(group, cell.batches, group.members.index(back), body)
        self.post_service(cell.definition, back, sends)
        return note

    def hear_admin(self, back, message):
        cell, body = self.cell, message.body
        if isinstance(cell, Bound) and cell.is_open and cell.generation == body.generation:
            return self.hear_bound(back, body)
        return self.hear_elsewhere(back, body)

    def hear_bound(self, back, body):
        group = self.cell.admin(self.here)
        sender = group.members.index(back) if back in group.members else NO_POSITION
        note, sends = hear(group, self.cell.acts, sender, body)
        self.post_admin(self.cell.definition, back, sends)
        return note

    def hear_elsewhere(self, back, body):
        act = body.value
        proposes = act is not None and act.kind == "Propose"
        binds = proposes and self.can_bind(act.definition, body.generation)
        reply = lambda answer: self.sends.append((back, Message("admin", self.circuit, answer)))
        if body.kind == "VoteRequest":
            if binds and body.place == 0 and back == act.definition.members[0]:
                self.cell = Bound(act.definition)
                return self.hear_bound(back, body)
            reply(Body("Vote", body.generation, body.round, yes=False))
            return f"declined {body.round}"
        if body.kind == "Forward" and proposes:
            if binds and self.here == act.definition.members[0] and back == act.node and back in act.definition.members and back != self.here:
                self.cell = Bound(act.definition)
                self.cell.acts.pending.append(act)
                return "queued"
            reply(Body("Refused", body.generation, value=act, reason=Reason(6)))
            return f"returned {Reason(6).text()}"
        return "ignored"
