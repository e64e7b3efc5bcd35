"""Byte forms of what a node keeps, the changes of an event, and packed cells, as docs/RULES.md has them (Byte forms,
Cells, Journals)."""
from cells import Bound, Purged
from disks import big
from groups import Member

MOST_CHANGES = 64
LONGEST = 65536
ACTS = ("Propose", "Accept", "Reject", "Remove", "Disband", "DisbandAccept", "DisbandReject", "DisbandRemove")
COMMANDS = ("Set", "Get", "Delete", "Event", "Data", "Invalid", "Error")


def text(word):
    return big(len(word), 2) + word.encode()


def listed(items):
    return big(len(items), 2) + b"".join(items)


def string(content):
    return big(len(content), 2) + content


def definition_form(d):
    services = [s.id.encode() + text(s.kind) + text(s.node) for s in d.services]
    fields = d.id.encode() + big(d.generation, 4) + bytes([d.version]) + text(d.management) + text(d.name)
    return fields + listed(list(map(text, d.members))) + listed(services)


def act_form(act):
    kind = ACTS.index(act.kind) + 1
    about = definition_form(act.definition) if kind == 1 else big(act.place, 4) if kind > 5 else b""
    return text(act.node) + big(act.turn, 4) + bytes([kind]) + about


def command_form(c):
    tag = bytes([COMMANDS.index(c.kind) + 1])
    if c.kind in ("Set", "Get", "Delete"):
        return tag + c.name + (string(c.data) if c.kind == "Set" else b"")
    if c.kind == "Data":
        return tag + string(c.data)
    return tag + text(c.name) + (string(c.data) if c.kind == "Event" else b"")


def batch_form(batch):
    prefixes = lambda ps: listed([bytes([len(p)]) + p for p in ps])
    one = lambda t: prefixes(t.inputs) + prefixes(t.outputs) + listed(list(map(command_form, t.commands)))
    return big(batch.id, 8) + listed(list(map(one, batch.transactions)))


VALUE = {1: act_form, 2: batch_form}


def reason_form(reason):
    return bytes([reason.code, reason.at])


def group_changes(group, before, after):
    """What an event changed of what is kept in a group, in order."""
    code, spell = bytes([group]), VALUE[group]
    done = []
    if before.next < after.next:
        done.append(b"\4" + code + big(before.next, 8))
    if after.promise is not None and after.promise != before.promise:
        # It sets what was seen, too.
        done.append(b"\6" + code + big(after.promise[0], 8) + spell(after.promise[1]))
    elif before.seen < after.seen:
        done.append(b"\5" + code + big(after.seen, 8))
    commits = after.history[len(before.history) :]
    if before.promise is not None and after.promise is None and not commits:
        done.append(b"\7" + code)
    done += [b"\x08" + code + big(round, 8) + spell(value) for round, value in commits]
    done += [b"\3" + code + spell(value) + reason_form(why) for value, why in after.refused[len(before.refused) :]]
    done += [b"\2" + code + spell(value) for value in after.pending if value not in before.pending]
    return done


def changes_of(before, after):
    """What an event changed of a cell, in order."""
    if isinstance(after, Purged) and isinstance(before, Bound):
        return [b"\x0a"]
    if not isinstance(after, Bound):
        return []
    done = []
    if not isinstance(before, Bound):
        done.append(b"\1" + definition_form(after.definition))
        before = Bound(after.definition)
    done += group_changes(1, before.acts, after.acts) + group_changes(2, before.batches, after.batches)
    return done + ([b"\x09"] if before.is_open and not after.is_open else [])


def packed_group(group, member):
    code, spell = bytes([group]), VALUE[group]
    seen = 0 if member.promise else member.seen
    done = [b"\x0b" + code + big(member.next, 8) + big(seen, 8)]
    done += [b"\x0c" + code + spell(value) + reason_form(why) for value, why in member.refused]
    done += [b"\x08" + code + big(round, 8) + spell(value) for round, value in member.history]
    done += [b"\2" + code + spell(value) for value in member.pending]
    if member.promise:
        done.append(b"\6" + code + big(member.promise[0], 8) + spell(member.promise[1]))
    return done


def packed(circuit, cell):
    """The records of a packed cell."""
    if cell is None:
        return []
    if isinstance(cell, Purged):
        return [record_of(circuit, [b"\x0e" + big(cell.generation, 4)])]
    changes = [b"\1" + definition_form(cell.definition), b"\x0d" + big(cell.turn, 4)] + packed_group(1, cell.acts)
    if cell.has_run():
        changes += packed_group(2, cell.batches)
    changes += [] if cell.is_open else [b"\x09"]
    records, held = [], []
    for change in changes:
        if held and (len(held) == MOST_CHANGES or 13 + sum(map(len, held)) + len(change) > LONGEST):
            records.append(record_of(circuit, held))
            held = []
        held.append(change)
    return records + [record_of(circuit, held)]


def record_of(circuit, changes):
    return circuit.encode() + listed(changes)


def copied(cell):
    """The same, which no event changes."""
    if not isinstance(cell, Bound):
        return cell
    member = lambda m: Member(list(m.history), list(m.pending), list(m.refused), m.promise, m.seen, m.next, m.open, set(m.missing))
    return Bound(cell.definition, cell.turn, cell.is_open, member(cell.acts), member(cell.batches))
