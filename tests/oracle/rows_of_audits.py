"""Answers the rows of audits by what an audit is in docs/RULES.md (Audit), as audits.py has it; runs, journals and what records make are those of
this folder too.
"""
import rows_of_disks
from audits import bound, told
from changes import sites_of
from disks import Disk, NotAJournal, read
from links import Files
from readings import is_record
from records import changes_of, copied, record_of


# ---- What nodes keep


class Runs(Files):
    """All nodes over their disks, where a line may stop a node in an event."""

    def ends(self, site, does):
        self.around = copied(site.cell), *super().ends(site, does)
        return self.around[1:]

    def broken_off(self, word, words, keeps):
        site, _ = self.step(word, words)
        outcome = super().broken_off(word, words, keeps)
        if outcome == "kept":
            self.keep(site, record_of(site.circuit, changes_of(self.around[0], self.around[2])))
        return outcome


def again(text="0 "):
    """The lines that come so many times."""
    times, _, lines = text.partition(" ")
    return int(times) * lines.split(";")


def run_part(part):
    """The nodes of a run with their cells and their disks."""
    head, lines, *rest = part.split(" | ")
    kept, nodes = head.split(" of ")
    world = Runs(nodes.split(","))
    for line in lines.split(";") + again(*rest):
        world.run(line)
    return [(node, bound(world.sites_at(node)), world.journals[node].disks) for node in kept.split(",")]


def disks_part(part):
    """A node with the cells that its disks make, and the disks."""
    node, contents = part.split(" has ")
    disks = [Disk(rows_of_disks.content_of(word)) for word in contents.split(" ")]
    if not any(disk.bytes for disk in disks):
        return [(node, {}, disks)]
    try:
        _, records = read(disks, is_record)
    except NotAJournal as fault:
        raise Untold(f"{node} {fault}")
    return [(node, bound(sites_of(node, records).values()), disks)]


class Untold(Exception):
    """What a row answers where disks are no journal."""


def seats(row):
    parts = row.split(" & ")
    return [seat for part in parts for seat in (disks_part(part) if " has " in part else run_part(part))]


# ---- Audits


def audit(row):
    return told([(node, cells) for node, cells, _ in seats(row)])[0]


def keeps(row):
    kept = lambda cell: f"{cell.generation} acts {len(cell.acts.history)} batches {len(cell.batches.history)}"
    return [
        " ".join([node, *(f"{circuit} {kept(cell)}" for circuit, cell in cells.items())]) + f", on {rows_of_disks.told_both(disks)}"
        for node, cells, disks in seats(row)
    ]


TABLES = {"audit": audit, "keeps": keeps}
NAMES = ("audits",)


def answered(row):
    """A row with its answer after it; the row alone where its table isn't one of these."""
    table, _, rest = row.partition(" ")
    if table not in TABLES:
        return row
    try:
        return "\n  ".join([row, *TABLES[table](rest)])
    except Untold as told:
        return f"{row}\n  {told}"
