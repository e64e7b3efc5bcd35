"""Generated schedules, by docs/RULES.md (Generated schedules)."""

MULTIPLIER = 6364136223846793005
INCREMENT = 1442695040888963407
CIRCUITS = [
    ("Gener-00001", "first", [1, 2]),
    ("Gener-00002", "second", [2, 3, 4]),
    ("Gener-00003", "third", [1, 2, 3, 4]),
]


class Draws:
    def __init__(self, seed):
        self.state = seed

    def draw(self):
        self.state = (self.state * MULTIPLIER + INCREMENT) % 2**64
        return self.state // 2**33


def opening(circuit):
    """The proposal, and the votes of the other members, each with a calm after it."""
    name, display, members = circuit
    nodes = ",".join(f"n{m}" for m in members)
    services = ",".join(f"s00{m}:scabbard:n{m}" for m in members)
    yield f"propose n{members[0]} {name} 1 1 gen {display} {nodes} {services}"
    yield f"calm {name} 8"
    for member in members[1:]:
        yield f"vote n{member} {name} accept"
        yield f"calm {name} 8"


def submitted(number, draws):
    name, _, members = CIRCUITS[(number - 1) % 3]
    member = members[draws.draw() % len(members)]
    address = bytes(34) + bytes([draws.draw() % 16])
    value = draws.draw().to_bytes(4, "big")
    yield f"submit n{member} {name} {number} tx out: set:{address.hex()}={value.hex()}"
    yield f"calm {name} 8"


def lines(batches, seed):
    """The lines of the schedule with so many batches that is made from the seed."""
    draws = Draws(seed)
    for circuit in CIRCUITS:
        yield from opening(circuit)
    for number in range(1, batches + 1):
        yield from submitted(number, draws)
        if number % 50 == 0:
            node = 1 + draws.draw() % 4
            yield f"stop n{node}"
            yield f"start n{node}"
    for name, _, members in CIRCUITS:
        for member in members:
            yield f"root n{member} {name}"


def schedule(batches, seed):
    """Its text."""
    return "".join(line + "\n" for line in lines(batches, seed))
