"""The trace of a schedule, as docs/RULES.md has it (Traces)."""
from runs import over_nodes, run_in
from schedules import World


class Traced(World):
    """All nodes; what happens in a calm is noted."""

    def hears(self, line):
        self.heard.append(line)


def lines_of(world, count, text):
    """A line without its calm: itself, or what happens in the calm."""
    world.heard = []
    world.run(text)
    lines = world.heard if text.startswith("calm ") else [text]
    yield "".join(f"{line}\n" for line in lines)


def trace(registry, schedule):
    """What the trace of a schedule over a registry is, the status, and what is said of that."""
    return over_nodes(registry, lambda nodes: run_in(Traced(nodes), schedule, lines_of))
