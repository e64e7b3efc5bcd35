"""A run by its words, as docs/RULES.md has it (Statuses, Generated schedules, Traces, Resuming, Audit, Paxos Commit)."""
import re

import generated
import paxos
from audits import audit
from links import links, resume
from runs import replay, run
from schedules import MOST_BYTES
from traces import trace

COMMANDS = [
    "replay REGISTRY SCHEDULE",
    "links REGISTRY SCHEDULE DIR",
    "gen N SEED",
    "trace REGISTRY SCHEDULE",
    "resume REGISTRY SCHEDULE DIR",
    "audit REGISTRY DIR",
    "paxos MEMBERS F SCHEDULE",
]
USAGE = f"usage: splinter {' or '.join(COMMANDS)}\n"
NODES = ["n1", "n2", "n3", "n4"]
ANSWERS_OF_GEN = 9


def content(name):
    """The bytes of a file, no more of them than tell that there are too many; None where it can't be read."""
    try:
        with open(name, "rb") as file:
            return file.read(MOST_BYTES + 1)
    except OSError:
        return None


def is_number(word, least, most):
    return re.fullmatch("0|[1-9][0-9]*", word) is not None and least <= int(word) <= most


def generate(batches, seed):
    """What the run of a generated schedule writes: the last answers alone."""
    written, status, said = run(NODES, generated.schedule(batches, seed).encode())
    return "".join(written.splitlines(True)[-ANSWERS_OF_GEN:]), status, said


def ended(words):
    """What a run with these words writes, its status, and what it says of that."""
    match words:
        case ["replay", registry, schedule]:
            return replay(content(registry), content(schedule))
        case ["links", registry, schedule, folder]:
            return links(content(registry), content(schedule), folder)
        case ["gen", batches, seed] if is_number(batches, 1, 400) and is_number(seed, 0, 2**64 - 1):
            return generate(int(batches), int(seed))
        case ["trace", registry, schedule]:
            return trace(content(registry), content(schedule))
        case ["resume", registry, schedule, folder]:
            return resume(content(registry), content(schedule), folder)
        case ["audit", registry, folder]:
            return audit(content(registry), folder)
        case ["paxos", members, faults, schedule] if is_number(members, 2, 8) and is_number(faults, 0, 2):
            return paxos.run(int(members), int(faults), content(schedule))
    return "", 1, USAGE

