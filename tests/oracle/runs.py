"""Runs of a schedule, as docs/RULES.md has them (Schedules, Limits, Statuses): what is written, and how they end."""
from registries import BadRegistry, nodes_of
from schedules import MOST_BYTES, BadLine, TooMany, World, is_too_long


def run(nodes, schedule):
    """What is written over these nodes, the status, and what is said of that."""
    return run_in(World(nodes), schedule)


def answer(world, count, line):
    yield f"{count} {world.run(line)}\n"


def run_in(world, schedule, tell=answer):
    """What a world writes of a schedule, of each line what `tell` gives, the status, and what is said of that."""
    if schedule is None:
        return "", 5, "read failed\n"
    written = []
    *lines, rest = schedule[:MOST_BYTES].split(b"\n")
    for count, line in enumerate(lines, 1):
        try:
            if is_too_long(line):
                raise BadLine
            if line and not line.startswith(b"#"):
                for text in tell(world, count, line.decode("latin-1")):
                    written.append(text)
        except BadLine:
            return "".join(written), 3, f"bad schedule: line {count}\n"
        except TooMany as which:
            return "".join(written), 4, f"{which}\n"
    if len(schedule) > MOST_BYTES and not is_too_long(rest):
        return "".join(written), 11, "input too long\n"
    if rest:
        return "".join(written), 3, f"bad schedule: line {len(lines) + 1}\n"
    return "".join(written), 0, ""


def over_nodes(registry, runs):
    """What a run writes, its status, and what it says of that, by the nodes of a registry. A file that can't be read is
    None."""
    if registry is None:
        return "", 5, "read failed\n"
    if len(registry) > MOST_BYTES:
        return "", 11, "input too long\n"
    try:
        nodes = nodes_of(registry)
    except BadRegistry as why:
        return "", 2, f"bad registry: {why}\n"
    return runs(nodes)


def replay(registry, schedule):
    """What a run over a registry writes, its status, and what it says of that."""
    return over_nodes(registry, lambda nodes: run(nodes, schedule))
