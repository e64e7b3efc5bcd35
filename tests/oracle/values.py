"""What groups agree on: acts with definitions, and batches with the state, as docs/RULES.md has them."""
import hashlib
from typing import NamedTuple

from groups import Reason


class Service(NamedTuple):
    id: str
    kind: str
    node: str


class Definition(NamedTuple):
    id: str
    generation: int
    version: int
    management: str
    name: str
    members: tuple
    services: tuple

    def broken(self):
        """The first broken rule, or None."""
        ascends = lambda xs: all(a < b for a, b in zip(xs, xs[1:]))
        rules = (
            self.version in (1, 2),
            self.generation >= 1,
            1 <= len(self.management) <= 32,
            1 <= len(self.name) <= 64,
            2 <= len(self.members) <= 8,
            ascends(self.members),
            all(s.kind == "scabbard" for s in self.services),
            ascends([s.id for s in self.services]),
            sorted(s.node for s in self.services) == sorted(set(self.members)) == list(self.members),
        )
        return next((i for i, holds in enumerate(rules, 1) if not holds), None)

    def service_of(self, node):
        return next((s.id for s in self.services if s.node == node), None)

    def node_of(self, service):
        return next((s.node for s in self.services if s.id == service), None)

    def hash(self):
        """SHA-256 of the byte form, in digits."""
        text = lambda t: len(t).to_bytes(2, "big") + t.encode()
        many = lambda items: len(items).to_bytes(2, "big") + b"".join(items)
        head = self.id.encode() + self.generation.to_bytes(4, "big") + bytes([self.version])
        roster = many([s.id.encode() + text(s.kind) + text(s.node) for s in self.services])
        members = many([text(m) for m in self.members])
        return hashlib.sha256(head + text(self.management) + text(self.name) + members + roster).hexdigest()


class Act(NamedTuple):
    node: str
    turn: int
    kind: str
    definition: Definition = None
    place: int = None


class Life(NamedTuple):
    """Where a circuit stands, who asked for it and who has accepted that; of its last disband the place and the same."""

    state: str = "none"
    requester: str = None
    accepted: tuple = ()
    place: int = None
    disbander: str = None
    leaving: tuple = ()

    def runs(self):
        return self.state in ("active", "disbanding")

    def told(self):
        """Those that have accepted what is told of: the disband, in two states, or the circuit."""
        return self.leaving if self.state in ("disbanding", "disbanded") else self.accepted

    def asker(self):
        """The one that asked for what is open."""
        return self.disbander if self.state == "disbanding" else self.requester


def life(definition, acts):
    """What a list of acts has brought the circuit to."""
    now = Life()
    everyone = set(definition.members)
    for place, act in enumerate(acts):
        if act.kind == "Propose":
            now = Life("proposed", act.node, (act.node,))
        elif act.kind == "Accept":
            accepted = now.accepted + (act.node,)
            now = now._replace(accepted=accepted, state="active" if everyone <= set(accepted) else now.state)
        elif act.kind == "Disband":
            now = now._replace(state="disbanding", place=place, disbander=act.node, leaving=(act.node,))
        elif act.kind == "DisbandAccept":
            leaving = now.leaving + (act.node,)
            now = now._replace(leaving=leaving, state="disbanded" if everyone <= set(leaving) else now.state)
        else:
            ends = {"Reject": "rejected", "Remove": "removed", "DisbandReject": "active", "DisbandRemove": "active"}
            now = now._replace(state=ends[act.kind])
    return now


class Acts:
    """The content of an admin group."""

    def __init__(self, definition):
        self.definition = definition

    def key(self, act):
        return act.node, act.turn

    def check(self, acts, act):
        now = life(self.definition, acts)
        if act.node not in self.definition.members:
            return Reason(1)
        if act.kind == "Propose":
            if act.definition != self.definition:
                return Reason(5)
            return Reason(2) if acts else None
        if act.kind == "Disband":
            if self.definition.version != 2:
                return Reason(14)
            return None if now.state == "active" else Reason(2)
        if act.kind in ("Accept", "Reject", "Remove"):
            admitted = now.state == "proposed"
        else:
            admitted = now.state == "disbanding" and act.place == now.place
        if not admitted:
            return Reason(2)
        if act.kind in ("Remove", "DisbandRemove"):
            return None if act.node == now.asker() else Reason(4)
        return Reason(3) if act.node in now.told() else None

    def stray(self, act):
        return Reason(6) if act.kind == "Propose" else None

    def may_come_from(self, act, node):
        return act.node == node

    def sent_back(self, act):
        return Reason(5) if act.kind == "Propose" and act.definition != self.definition else None


class Transaction(NamedTuple):
    inputs: tuple
    outputs: tuple
    commands: tuple


class Command(NamedTuple):
    """A kind, and an address or a text, and bytes: of each what the kind has."""

    kind: str
    name: object = None
    data: bytes = b""

    def size(self):
        parts = {"Set": 37, "Get": 35, "Delete": 35, "Event": 4, "Data": 2, "Invalid": 2, "Error": 2}
        name = len(self.name) if self.kind in ("Event", "Invalid", "Error") else 0
        return 1 + parts[self.kind] + name + len(self.data)


class Batch(NamedTuple):
    id: int
    transactions: tuple

    def broken(self):
        """The first broken rule, or None."""
        rules = (
            len(self.transactions) >= 1,
            len(self.transactions) <= 16,
            all(len(t.inputs) <= 8 and len(t.outputs) <= 8 for t in self.transactions),
            all(1 <= len(t.commands) <= 16 for t in self.transactions),
            all(len(c.data) <= 4096 for t in self.transactions for c in t.commands),
            self.size() <= 32768,
        )
        return next((i for i, holds in enumerate(rules, 1) if not holds), None)

    def size(self):
        prefixes = lambda ps: 2 + sum(1 + len(p) for p in ps)
        each = (prefixes(t.inputs) + prefixes(t.outputs) + 2 + sum(c.size() for c in t.commands) for t in self.transactions)
        return 10 + sum(each)

    def cause(self):
        """The first cause of invalidity, as a reason, or None."""
        for number, t in enumerate(self.transactions, 1):
            covers = lambda prefixes, address: any(address.startswith(p) for p in prefixes)
            for c in t.commands:
                if c.kind in ("Set", "Delete") and not covers(t.outputs, c.name):
                    return Reason(9, number)
                if c.kind == "Get" and not covers(t.inputs, c.name):
                    return Reason(10, number)
                if c.kind in ("Invalid", "Error"):
                    return Reason({"Invalid": 11, "Error": 12}[c.kind], number)
        return None


def state_of(batches):
    """The state of a list of batches."""
    state = {}
    for batch in batches:
        if batch.cause():
            continue
        for c in (c for t in batch.transactions for c in t.commands):
            if c.kind == "Set":
                state[c.name] = c.data
            elif c.kind == "Delete":
                state.pop(c.name, None)
    return state


def receipts_of(state, batch):
    """The receipts of a valid batch on a state, as JSON values."""
    found = []
    for t in batch.transactions:
        receipt = {"changes": [], "data": [], "events": []}
        for c in t.commands:
            if c.kind == "Set":
                state[c.name] = c.data
                receipt["changes"].append({"address": c.name.hex(), "value": c.data.hex()})
            elif c.kind == "Delete" and state.pop(c.name, None) is not None:
                receipt["changes"].append({"address": c.name.hex(), "value": None})
            elif c.kind == "Get" and c.name in state:
                receipt["data"].append(state[c.name].hex())
            elif c.kind == "Data":
                receipt["data"].append(c.data.hex())
            elif c.kind == "Event":
                receipt["events"].append({"data": c.data.hex(), "type": c.name})
        found.append(receipt)
    return found


class Batches:
    """The content of a service group."""

    def key(self, batch):
        return batch.id

    def check(self, batches, batch):
        rule = batch.broken()
        if rule:
            return Reason(13, rule)
        if any(b.id == batch.id for b in batches):
            return Reason(8)
        return batch.cause()

    def stray(self, batch):
        return None

    def may_come_from(self, batch, node):
        return True

    def sent_back(self, batch):
        return None
