"""The lines of a schedule, and their run over all nodes, as docs/RULES.md has them (Schedules, Circuits as worlds, Stops
in an event, Subscriptions)."""
import copy
import re
from dataclasses import dataclass, field

import proofs
from cells import Bound, Refused, Site
from values import Batch, Command, Definition, Service, Transaction, receipts_of, state_of

LONGEST_LINE = 32768
LONGEST_CHECK = 98304
MOST_BYTES = 67108864
MOST_EVENTS = 32768
MOST_STOPS = 32
MOST_WATCHERS = 16
MOST_PULLED = 64
# The lines that a run over links doesn't take.
UNTAKEN = ("deliver", "tick", "expire", "calm", "cut", "fail")
# An event writes its record by calls 1 to 4; the third opens the gate, which the fourth makes last.
CALLS_OF_A_RECORD = 4
# The line about a circuit at a node that isn't taken in a cut or a fail.
UNCUT = "prove"
NODE = "[a-z0-9-]{1,32}"
CIRCUIT = "[0-9A-Za-z]{5}-[0-9A-Za-z]{5}"
SERVICE = "[0-9A-Za-z]{4}"
LABEL = "[!-~]{1,128}"
KIND = "[a-z0-9-]{1,32}"
HEX = "(?:[0-9a-f]{2})*"
FILL = "old|new|byte:[0-9a-f]{2}"
ADDRESS = "[0-9a-f]{70}"
ROOT = "[0-9a-f]{64}"
TEXT = "[!-<>-~]{1,64}"
WATCHER = "[a-z0-9]{1,8}"


class BadLine(Exception):
    """The line isn't one of a schedule."""


class TooMany(Exception):
    """An event, or a line that stops a node, more than a run has."""


def match(pattern, word):
    found = re.fullmatch(pattern, word)
    if not found:
        raise BadLine
    return found


def number(word, least, most):
    match("0|[1-9][0-9]*", word)
    if not least <= int(word) <= most:
        raise BadLine
    return int(word)


def few(word, separator):
    parts = word.split(separator)
    if not 1 <= len(parts) <= 16:
        raise BadLine
    return parts


def definition(id, generation, version, management, name, members, services):
    roster = [Service(*match(f"({SERVICE}):({KIND}):({NODE})", s).groups()) for s in few(services, ",")]
    return Definition(
        id,
        number(generation, 0, 2**32 - 1),
        number(version, 0, 255),
        match(LABEL, management)[0],
        match(LABEL, name)[0],
        tuple(match(NODE, m)[0] for m in few(members, ",")),
        tuple(roster),
    )


COMMANDS = [
    (f"set:({ADDRESS})=({HEX})", lambda a, v: Command("Set", bytes.fromhex(a), bytes.fromhex(v))),
    (f"get:({ADDRESS})", lambda a: Command("Get", bytes.fromhex(a))),
    (f"del:({ADDRESS})", lambda a: Command("Delete", bytes.fromhex(a))),
    (f"event:({TEXT})=({HEX})", lambda t, v: Command("Event", t, bytes.fromhex(v))),
    (f"data:({HEX})", lambda v: Command("Data", None, bytes.fromhex(v))),
    (f"invalid:({TEXT})", lambda t: Command("Invalid", t)),
    (f"error:({TEXT})", lambda t: Command("Error", t)),
]


def command(word):
    for pattern, made in COMMANDS:
        found = re.fullmatch(pattern, word)
        if found:
            return made(*found.groups())
    raise BadLine


def prefixes(words, name):
    """The prefixes at the front of some words, and what is after them."""
    found = []
    while words and words[0].startswith(name):
        digits = match(HEX, words[0][len(name) :])[0]
        if len(digits) > 70:
            raise BadLine
        found.append(bytes.fromhex(digits))
        words = words[1:]
    return tuple(found), words


def transactions(words):
    found = []
    while words:
        if words[0] != "tx":
            raise BadLine
        inputs, words = prefixes(words[1:], "in:")
        outputs, words = prefixes(words, "out:")
        end = words.index("tx") if "tx" in words else len(words)
        found.append(Transaction(inputs, outputs, tuple(command(w) for w in words[:end])))
        words = words[end:]
    return tuple(found)


def prefix(word):
    if word == "-":
        return b""
    digits = match(HEX, word)[0]
    if not 2 <= len(digits) <= 70:
        raise BadLine
    return bytes.fromhex(digits)


def batch_id(word):
    return number(word, 0, 2**64 - 1)


def address(word):
    return bytes.fromhex(match(ADDRESS, word)[0])


def is_too_long(line):
    return len(line) > (LONGEST_CHECK if line.startswith(b"check ") else LONGEST_LINE)


# What an event of a cell asks: the readers of its words, and what is called.
EVENTS = {
    "remove": ([], Site.remove),
    "disband": ([], Site.disband),
    "abandon": ([], Site.abandon),
    "purge": ([], Site.purge),
    "show": ([], Site.show),
    "detail": ([], Site.detail),
    "root": ([], Site.root),
    "history": ([], Site.history),
    "get": ([address], Site.get),
    "prove": ([address], Site.prove),
    "list": ([prefix], Site.list),
    "status": ([batch_id], Site.status),
    "receipt": ([batch_id], Site.receipt),
    "route": ([lambda w: match(NODE, w)[0], lambda w: match(SERVICE, w)[0], lambda w: match(SERVICE, w)[0]], Site.route),
    "tick": ([], Site.tick),
    "expire": ([], Site.expire),
}


@dataclass
class Watcher:
    """Of which definition it takes, and the place of what it takes next."""

    definition: Definition
    next: int


def changes_at(batches, place):
    """What the batch at a place changed, as a pull prints it."""
    receipts = receipts_of(state_of(batches[:place]), batches[place])
    found = [c["address"] + ("!" if c["value"] is None else f"={c['value']}") for r in receipts for c in r["changes"]]
    return ",".join(found) or "-"


@dataclass
class World:
    """All nodes: their sites by node and circuit, which of them are down, every message ever sent, by circuit and
    pair, and the watchers by circuit and name."""

    nodes: list
    sites: dict = field(default_factory=dict)
    down: set = field(default_factory=set)
    sent: dict = field(default_factory=dict)
    watchers: dict = field(default_factory=dict)
    events: int = 0
    stops: int = 0

    def known(self, *names):
        for name in names:
            if name not in self.nodes:
                raise BadLine
        return names[0]

    def at(self, node, circuit):
        return self.sites.setdefault((node, circuit), Site(node, circuit))

    def sites_at(self, node):
        return [site for site in self.sites.values() if site.here == node]

    def counted(self):
        """One event more."""
        if self.events == MOST_EVENTS:
            raise TooMany("too many events")
        self.events += 1

    def counted_stop(self):
        """One line more that stops a node, which is an event too."""
        self.counted()
        if self.stops == MOST_STOPS:
            raise TooMany("too many stops")
        self.stops += 1

    def happens(self, site, does):
        """An event at a site: its answer; what it sends is posted."""
        if site.here in self.down:
            return str(Refused(1))
        try:
            return does()
        except Refused as refused:
            return str(refused)
        finally:
            for to, message in site.sends:
                if to in self.nodes and to != site.here:
                    self.sent.setdefault((site.circuit, site.here, to), []).append(message)
            site.sends = []

    # ---- lines

    def run(self, text):
        """The answer to a line."""
        if any(not "!" <= c <= "~" for c in text.replace(" ", "")) or "" in text.split(" "):
            raise BadLine
        word, *rest = text.split(" ")
        ways = {"calm": self.run_calm, "stop": self.run_stop, "start": self.run_start, "roll": self.run_roll}
        ways |= {"check": self.run_check, "cut": self.run_cut, "fail": self.run_fail}
        ways |= {"watch": self.run_watch, "pull": self.run_pull}
        if word in ways:
            try:
                return ways[word](rest)
            except Refused as refused:
                return str(refused)
        site, does = self.step(word, rest)
        self.counted()
        return self.happens(site, does)

    def exactly(self, words, count):
        if len(words) != count:
            raise BadLine
        return words

    def more_than(self, words, count):
        if len(words) <= count:
            raise BadLine
        return words

    def step(self, word, rest):
        """The site of a line's event, and the event."""
        if word == "deliver":
            return self.delivery(*self.exactly(rest, 4))
        if len(rest) < 2:
            raise BadLine
        node, circuit, *words = rest
        match(NODE, node), match(CIRCUIT, circuit)
        does, arguments = self.event(word, circuit, words)
        site = self.at(self.known(node), circuit)
        return site, lambda: does(site, *arguments)

    def event(self, word, circuit, words):
        if word == "propose":
            proposed = definition(circuit, *self.exactly(words, 6))
            self.known(*proposed.members, *(s.node for s in proposed.services))
            return Site.propose, [proposed]
        if word == "vote" and words in (["accept"], ["reject"]):
            return Site.vote, [words[0].capitalize()]
        if word == "submit" and words:
            return Site.submit, [Batch(batch_id(words[0]), transactions(words[1:]))]
        if word not in EVENTS:
            raise BadLine
        readers, does = EVENTS[word]
        arguments = [read(w) for read, w in zip(readers, self.exactly(words, len(readers)))]
        if word == "route":
            self.known(arguments[0])
        return does, arguments

    # ---- deliveries and calms

    def delivery(self, sender, to, circuit, place):
        match(NODE, sender), match(NODE, to), match(CIRCUIT, circuit)
        index = number(place, 1, 2**32 - 1)
        if sender == to:
            raise BadLine
        self.known(sender, to)
        site = self.at(to, circuit)
        return site, lambda: self.handed(site, sender, index)

    def handed(self, site, sender, index):
        messages = self.sent.get((site.circuit, sender, site.here), [])
        if index > len(messages):
            raise Refused(17)
        return site.deliver(sender, messages[index - 1])

    def run_calm(self, rest):
        circuit, passes = self.exactly(rest, 2)
        match(CIRCUIT, circuit)
        self.calm(circuit, number(passes, 1, 64))
        return f"ok calm {passes}"

    def hears(self, line):
        """A tick or a delivery of a calm has happened, as a line."""

    def calm(self, circuit, passes):
        order = sorted(self.nodes)
        count = lambda a, b: len(self.sent.get((circuit, a, b), []))
        handed = {(a, b): count(a, b) for a in order for b in order if a != b}
        sites = {n: self.at(n, circuit) for n in order if n not in self.down}
        for _ in range(passes):
            for site in [s for s in sites.values() if isinstance(s.cell, Bound) and s.cell.is_open]:
                self.counted()
                self.happens(site, site.tick)
                self.hears(f"tick {site.here} {circuit}")
            for a, b in handed:
                while b in sites and handed[a, b] < count(a, b):
                    handed[a, b] += 1
                    self.counted()
                    self.happens(sites[b], lambda: self.handed(sites[b], a, handed[a, b]))
                    self.hears(f"deliver {a} {b} {circuit} {handed[a, b]}")

    # ---- stops, starts and rolls

    def named(self, rest):
        """The node of a line that has no other word."""
        return self.known(match(NODE, self.exactly(rest, 1)[0])[0])

    def run_stop(self, rest):
        node = self.named(rest)
        self.counted_stop()
        self.stop(node)
        return "ok down"

    def stop(self, node):
        self.down.add(node)
        for site in self.sites_at(node):
            if isinstance(site.cell, Bound):
                site.cell.restart()

    def run_start(self, rest):
        node = self.named(rest)
        self.counted()
        self.down.discard(node)
        return "ok up"

    def run_roll(self, rest):
        node = self.named(rest)
        self.counted()
        if node in self.down:
            raise Refused(1)
        found = sorted(s.circuit for s in self.sites_at(node) if isinstance(s.cell, Bound))
        return " ".join(["ok roll", str(len(found)), *found])

    # ---- proofs

    def run_check(self, rest):
        root, at, claim, found = self.exactly(rest, 4)
        root, at = bytes.fromhex(match(ROOT, root)[0]), address(at)
        claim = None if claim == "-" else bytes.fromhex(match(f"=({HEX})", claim)[1])
        found = bytes.fromhex(match(HEX, found)[0])
        self.counted()
        try:
            return "ok yes" if proofs.accepts(root, at, claim, proofs.read(found)) else "ok no"
        except proofs.Unreadable as fault:
            raise Refused(26, *fault.args)

    # ---- watchers

    def asked(self, rest, least, most):
        """The cell that a watcher asks, where its circuit runs; the watchers of that circuit, and the line's name and
        number."""
        node, circuit, name, amount = self.exactly(rest, 4)
        match(NODE, node), match(CIRCUIT, circuit), match(WATCHER, name)
        amount = number(amount, least, most)
        site = self.at(self.known(node), circuit)
        self.counted()
        if node in self.down:
            raise Refused(1)
        return site.running(), self.watchers.setdefault(circuit, {}), name, amount

    def run_watch(self, rest):
        cell, watchers, name, place = self.asked(rest, 0, 2**32 - 1)
        committed = len(cell.batches.values())
        if name in watchers:
            raise Refused(21)
        if place > committed:
            raise Refused(22, committed)
        if len(watchers) == MOST_WATCHERS:
            raise Refused(25)
        watchers[name] = Watcher(cell.definition, place)
        return f"ok watching {place}"

    def run_pull(self, rest):
        cell, watchers, name, count = self.asked(rest, 1, MOST_PULLED)
        if name not in watchers:
            raise Refused(23)
        watcher, batches = watchers[name], cell.batches.values()
        if watcher.definition != cell.definition:
            raise Refused(24)
        places = range(watcher.next, min(watcher.next + count, len(batches)))
        watcher.next += len(places)
        deltas = [f"{place}:{batches[place].id}:{changes_at(batches, place)}" for place in places]
        return " ".join(["ok delta", str(len(deltas)), *deltas])

    # ---- stops in an event

    def run_cut(self, rest):
        calls, fill, word, *words = self.more_than(rest, 2)
        calls, fill = number(calls, 0, 255), match(FILL, fill)[0]
        opened = calls == CALLS_OF_A_RECORD - 1 and fill in ("new", "byte:01")
        return f"cut {self.broken_off(word, words, calls >= CALLS_OF_A_RECORD or opened)}"

    def run_fail(self, rest):
        call, word, *words = self.more_than(rest, 1)
        return f"fault {self.broken_off(word, words, number(call, 1, 255) > CALLS_OF_A_RECORD)}"

    def broken_off(self, word, words, keeps):
        """An event in which its node goes down: nothing is sent, and its changes are made where it keeps them."""
        if word == UNCUT:
            raise BadLine
        site, does = self.step(word, words)
        self.counted_stop()
        if site.here in self.down:
            raise Refused(1)
        before, after = self.ends(site, does)
        self.stop(site.here)
        if before == after:
            return "none"
        site.cell = after if keeps else before
        return "kept" if keeps else "lost"

    def ends(self, site, does):
        """What a stop leaves of a cell before an event and after it. The event doesn't happen."""
        now = site.cell
        before, site.cell = copy.deepcopy(now), copy.deepcopy(now)
        try:
            does()
        except Refused:
            pass
        after, site.cell, site.sends = site.cell, now, []
        for cell in (before, after):
            if isinstance(cell, Bound):
                cell.restart()
        return before, after
