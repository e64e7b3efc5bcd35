"""The cells that records make, as docs/RULES.md has them (Cells, Durable changes): a change that doesn't fit changes nothing."""
from cells import Bound, Purged, Site
from groups import LAST_ROUND, MOST_PENDING, Member
from readings import record
from values import Acts, Batches

MOST_VALUES = 2**32 - 1


class GroupHere:
    """A group of a site's cell, in which changes are made."""

    def __init__(self, site, group):
        self.site, self.is_acts = site, group == 1
        cell = site.cell
        self.member, self.content = (cell.acts, Acts(cell.definition)) if self.is_acts else (cell.batches, Batches())

    def is_good(self, value):
        """Whether it may stand in the list next."""
        return len(self.member.history) < MOST_VALUES and not self.content.check(self.member.values(), value)

    def breaks_no_rule(self, value):
        return self.is_acts or not value.broken()

    def is_own(self, value):
        return self.is_acts and value.node == self.site.here

    # ---- Changes

    def queue(self, value):
        member, cell = self.member, self.site.cell
        if member.known(self.content, value) or len(member.pending) >= MOST_PENDING or not self.breaks_no_rule(value):
            return
        if self.is_own(value):
            if any(map(self.is_own, member.pending)) or value.turn < cell.turn:
                return
            cell.turn = value.turn
        member.pending.append(value)

    def refuse(self, value, reason):
        if value in self.member.pending:
            self.member.refuse(self.content, value, reason)

    def begin(self, round):
        if round == self.member.next < LAST_ROUND:
            self.member.next = round + 1

    def can_see(self, round):
        return round > self.member.seen and self.member.promise is None

    def see(self, round):
        if self.can_see(round):
            self.member.seen = round

    def promise(self, round, value):
        if self.can_see(round) and self.is_good(value):
            self.member.promise, self.member.seen = (round, value), round

    def abort(self):
        self.member.promise = None

    def commit(self, round, value):
        if self.is_good(value):
            self.member.commit(self.content, round, value)

    def restore(self, next, seen):
        if self.member == Member() and 1 <= next:
            self.member.next, self.member.seen = next, seen

    def keep(self, value, reason):
        member = self.member
        is_first = not member.history and not member.pending and member.promise is None
        if is_first and not member.known(self.content, value) and self.breaks_no_rule(value):
            member.refused.append((value, reason))


IN_GROUPS = {
    "Queue": GroupHere.queue,
    "Refuse": GroupHere.refuse,
    "Begin": GroupHere.begin,
    "Seen": GroupHere.see,
    "Promise": GroupHere.promise,
    "Abort": GroupHere.abort,
    "Commit": GroupHere.commit,
    "Restore": GroupHere.restore,
    "Kept": GroupHere.keep,
}


def change_group(site, name, group, fields):
    cell = site.cell
    if isinstance(cell, Bound) and cell.is_open and (group == 1 or cell.has_run()):
        IN_GROUPS[name](GroupHere(site, group), *fields)


def change(site, name, *fields):
    """Makes a change in a site's cell, if it fits there."""
    cell = site.cell
    is_bound = isinstance(cell, Bound)
    if name in IN_GROUPS:
        change_group(site, name, fields[0], fields[1:])
    elif name == "Bind":
        if site.can_bind(fields[0], fields[0].generation):
            site.cell = Bound(fields[0])
    elif name == "Gone":
        if cell is None and fields[0] >= 1:
            site.cell = Purged(fields[0])
    elif name == "Purge":
        site.cell = Purged(cell.generation) if is_bound else cell
    elif name == "Turn":
        if is_bound and cell.acts == Member():
            cell.turn = fields[0]
    elif is_bound and cell.is_open and cell.runs():
        # Abandon.
        cell.is_open = False


def sites_of(here, records):
    """The sites of a node whose journal has these records, by their circuits."""
    found = {}
    for circuit, changes in map(record, records):
        site = found.setdefault(circuit, Site(here, circuit))
        for name, *fields in changes:
            change(site, name, *fields)
    return found
