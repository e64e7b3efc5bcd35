"""What goes over links, as docs/RULES.md has it (Byte forms, Frames, Handshake, Links): the byte forms of messages, their bodies,
and what is put on each ordered pair of nodes."""
from disks import big
from links import Files, answer
from records import VALUE, reason_form, text
from registries import nodes_of
from runs import run_in

LONGEST_BODY = 16384
BODIES = ("VoteRequest", "Vote", "Decision", "DecisionRequest", "Forward", "Refused")


def message_form(message):
    body, spell = message.body, VALUE[1 if message.lane == "admin" else 2]
    services = (message.sender + message.recipient).encode() if message.lane == "service" else b""
    round = big(body.round, 8)
    fields = {
        "VoteRequest": lambda: round + big(body.place, 4) + spell(body.value),
        "Vote": lambda: round + bytes([body.yes]),
        "Decision": lambda: round + bytes([body.yes]),
        "DecisionRequest": lambda: round,
        "Forward": lambda: spell(body.value),
        "Refused": lambda: spell(body.value) + reason_form(body.reason),
    }
    head = bytes([1 if message.lane == "admin" else 2]) + message.circuit.encode() + services
    return head + bytes([BODIES.index(body.kind) + 1]) + big(body.generation, 4) + fields[body.kind]()


def bodies(content):
    """A message in one body, or its parts."""
    if len(content) <= LONGEST_BODY:
        return [content]
    size = LONGEST_BODY - 1
    *parts, last = (content[at : at + size] for at in range(0, len(content), size))
    return [*(b"\5" + part for part in parts), b"\6" + last]


def frame(body):
    return big(1, 2) + big(len(body), 4) + body


def greeting(position, other, node):
    return frame((b"\3" if position < other else b"\4") + big(1, 2) + text(node))


class Wires(Files):
    """All nodes over their disks, and the bytes that were put on each ordered pair of them."""

    def __init__(self, nodes, held={}):
        self.put = {}
        super().__init__(nodes, held)

    def handed(self, site, sender, index):
        messages = self.sent.get((site.circuit, sender, site.here), [])
        if index <= len(messages):
            self.greet(sender, site.here)
            self.put[sender, site.here] += b"".join(map(frame, bodies(message_form(messages[index - 1]))))
        return super().handed(site, sender, index)

    def greet(self, sender, to):
        """The greetings of both, before the first message between them."""
        if (sender, to) not in self.put:
            for one, other in ((sender, to), (to, sender)):
                self.put[one, other] = greeting(self.nodes.index(one), self.nodes.index(other), one)


def put_by(registry, schedule, held={}):
    """What a run over links puts on each ordered pair of nodes, by the pair."""
    world = Wires(nodes_of(registry), held)
    if not world.fault:
        run_in(world, schedule, answer)
    return world.put
