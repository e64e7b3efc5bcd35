"""Roots and proofs of drawn states, beside the plain program's of tests/oracle: true claims, others and falsified ones.

words: [PROGRAM [FIRST [COUNT]]]; 24 seeds where no number of them is given

From each seed the state of a circuit is drawn; the program proves some of its addresses, and the root and each proof are compared with those
of the plain program. Then the program checks each proof, with its claim and with others, and falsified: with another bit in a level, without
its end or its last level, with the leaf of another address, with bytes after it, and cut off. Nothing but the claims that are true may be
accepted. It counts answers.
"""
import random

from common import MAIN, REGISTRY, by_seed, ended_in_text
from proofs import checked, proof_of, root_of, written

GATE = (MAIN, "0", "12")
CIRCUIT = "Ab3dE-00001"
ACTIVE = [
    f"propose alpha {CIRCUIT} 1 1 grid trade alpha,beta aaaa:scabbard:alpha,bbbb:scabbard:beta",
    f"calm {CIRCUIT} 8",
    f"vote beta {CIRCUIT} accept",
    f"calm {CIRCUIT} 8",
]
# As many commands as a transaction may have, and entries of a line of 2,048 bytes.
MOST_COMMANDS = 16
MOST_LEVELS_CHANGED = 8


def claim_text(claim):
    return "-" if claim is None else f"={claim.hex()}"


# ---- What is drawn


class Draw:
    """A state, and addresses to ask about."""

    def __init__(self, seed):
        self.random = random.Random(seed)
        self.state = {}
        for _ in range(self.random.choice([0, 1, 2, 3, 10, 60])):
            self.state[self.near()] = self.random.randbytes(self.random.choice([0, 1, 1, 4, 20]))

    def near(self):
        """An address that has some first digits in common with an entry, or none."""
        digits, shared = self.random.randbytes(35).hex(), self.random.choice([0, 0, 1, 2, 5, self.random.randrange(70)])
        if self.state:
            digits = self.random.choice(list(self.state)).hex()[:shared] + digits[shared:]
        return bytes.fromhex(digits)

    def asked(self):
        """Some addresses with an entry, some beside one, and one anywhere."""
        there = self.random.sample(sorted(self.state), min(3, len(self.state)))
        return [*there, *(self.near() for _ in range(3)), self.random.randbytes(35)]

    def lines(self):
        """A schedule that makes the state, and asks for the root and the proofs."""
        words = [f"set:{address.hex()}={value.hex()}" for address, value in self.state.items()]
        groups = [words[at : at + MOST_COMMANDS] for at in range(0, len(words), MOST_COMMANDS)]
        for number, group in enumerate(groups):
            yield f"submit {self.random.choice(['alpha', 'beta'])} {CIRCUIT} {number} tx out: {' '.join(group)}"
            yield f"calm {CIRCUIT} 8"

    def falsified(self, content):
        """The bytes of a proof, changed in ways of which none may be accepted."""
        count, end = content[0], content[1 + 512 * content[0] :]
        levels = self.random.sample(range(count), min(count, MOST_LEVELS_CHANGED))
        for level in {0, count - 1, *levels} if count else ():
            at = 1 + 512 * level + self.random.randrange(512)
            yield content[:at] + bytes([content[at] ^ 1 << self.random.randrange(8)]) + content[at + 1 :]
        if count:
            yield bytes([count - 1]) + content[1 : 1 + 512 * (count - 1)] + end
        if end != b"\0":
            yield content[: -len(end)] + b"\0"
            at = len(content) - len(end) + 1 + self.random.randrange(35)
            yield content[:at] + bytes([content[at] ^ 1]) + content[at + 1 :]
        yield content + b"\0"
        yield content + content[:40]
        yield from (content[:size] for size in {1, len(content) - 1, self.random.randrange(1, len(content))})


# ---- What the program answers


def answers(program, room, lines):
    """What the program answers to these lines, without their numbers."""
    schedule = room / "schedule"
    schedule.write_text("".join(line + "\n" for line in lines))
    output, status, said = ended_in_text([*program, "replay", REGISTRY, schedule])
    return [line.split(" ", 1)[1] for line in output.splitlines()] if status == 0 else [f"status {status}, {said}"] * len(lines)


def proofs_differ(program, room, draw, asked):
    """Compares the root and the proofs of a state: which differ, and how many were compared."""
    lines = [*ACTIVE, *draw.lines(), f"root beta {CIRCUIT}", *(f"prove beta {CIRCUIT} {address.hex()}" for address in asked)]
    came = answers(program, room, lines)[-1 - len(asked) :]
    root = root_of(draw.state).hex()
    wanted = [f"ok proof {root} {written(proof_of(draw.state, address)).hex()}" for address in asked]
    pairs = zip(lines[-len(asked) :], came[1:], wanted)
    differ = [(line, have, want) for line, have, want in pairs if have != want]
    if came[0].split(" ")[-1] != root:
        differ.append(("root", came[0], root))
    return differ, len(asked) + 1


def checks_of(draw, asked):
    """Root, address, claim and bytes of the lines that are checked, and whether each is true."""
    root, found = root_of(draw.state), []
    for address in asked:
        value, content = draw.state.get(address), written(proof_of(draw.state, address))
        for claim in (value, None, b"", b"\x2a", (value or b"") + b"\0"):
            found.append((root, address, claim, content, claim == value))
        found += [(root, address, value, other, False) for other in draw.falsified(content)]
        found.append((bytes(32) if draw.state else bytes([1] * 32), address, value, content, False))
    return found


def checks_differ(program, room, draw, asked):
    """Compares the answers to checks: which differ, and how many were compared. What is true alone may be accepted."""
    found = checks_of(draw, asked)
    lines = [f"check {root.hex()} {address.hex()} {claim_text(claim)} {content.hex()}" for root, address, claim, content, _ in found]
    differ = []
    for line, (*parts, is_true), came in zip(lines, found, answers(program, room, lines)):
        wanted = checked(*parts)
        if (wanted == "ok yes") != is_true or came != wanted:
            differ.append((line, came, wanted))
    return differ, len(found)


def compared(program, seed, room):
    """What differs, and how many answers were compared."""
    draw = Draw(seed)
    asked = draw.asked()
    found = [differ(program, room, draw, asked) for differ in (proofs_differ, checks_differ)]
    return [it for differ, _ in found for it in differ], sum(size for _, size in found)


def run(words, tally):
    for seed, (differ, size) in by_seed(compared, words, 24):
        tally.many(size - len(differ), 0)
        for line, came, wanted in differ:
            tally.add(f"seed {seed}", [f"{line:.300}: {came:.300}, wanted {wanted:.300}"])
