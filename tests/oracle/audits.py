"""An audit of what nodes keep, as docs/RULES.md has it (Audit)."""
from cells import Bound
from links import Files, held_in
from runs import over_nodes

KINDS = ("definitions", "acts", "batches")


def differences(ours, theirs):
    return [place for place, (one, other) in enumerate(zip(ours, theirs)) if one != other]


def clashes_of(one, other):
    """The kinds and places at which two cells of one circuit and generation clash."""
    acts, batches = one.acts.values(), one.batches.values()
    if one.definition == other.definition:
        found = [(1, place) for place in differences(acts, other.acts.values())]
        return found + [(2, place) for place in differences(batches, other.batches.values())]
    shared = set(one.definition.members) & set(other.definition.members)
    return [(0, 0)] if shared and acts and other.acts.values() else []


def clashes(keepers):
    """All clashes: id, generation, kind, the positions of the two nodes, and place. A keeper is a node and its bound cells by
    their circuits."""
    pairs = [(i, j) for j in range(len(keepers)) for i in range(j)]
    for first, second in pairs:
        ours, theirs = keepers[first][1], keepers[second][1]
        for circuit in ours.keys() & theirs.keys():
            one, other = ours[circuit], theirs[circuit]
            if one.generation == other.generation:
                for kind, place in clashes_of(one, other):
                    yield circuit, one.generation, kind, first, second, place


def report(keepers):
    """A line for each definition that a cell is bound to."""
    found = {}
    for position, (_, cells) in enumerate(keepers):
        for circuit, cell in cells.items():
            one = found.setdefault(cell.definition, [circuit, cell.generation, position, 0, 0])
            one[3] = max(one[3], len(cell.acts.history))
            one[4] = max(one[4], len(cell.batches.history))
    return [f"{id} {generation} acts {acts} batches {batches}" for id, generation, _, acts, batches in sorted(found.values())]


def told(keepers):
    """The lines that an audit writes, and whether a clash was found."""
    least = min(clashes(keepers), default=None)
    if least is None:
        return report(keepers) + ["agreed"], False
    circuit, generation, kind, first, second, place = least
    return [f"disagreed {circuit} {generation} {KINDS[kind]} {keepers[first][0]} {keepers[second][0]} {place}"], True


def bound(sites):
    """The cells of these sites that are bound, by their circuits in order."""
    return {s.circuit: s.cell for s in sorted(sites, key=lambda s: s.circuit) if isinstance(s.cell, Bound)}


def over_files(nodes, folder):
    world = Files(nodes, held_in(folder, nodes))
    if world.fault:
        return "", *world.fault
    lines, clash = told([(node, bound(world.sites_at(node))) for node in nodes])
    written = "".join(f"{line}\n" for line in lines)
    return (written, 14, "journals disagree\n") if clash else (written, 0, "")


def audit(registry, folder):
    """What an audit of the files in a folder writes, its status, and what it says of that. No file is written."""
    return over_nodes(registry, lambda nodes: over_files(nodes, folder))
