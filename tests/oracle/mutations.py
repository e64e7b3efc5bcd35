"""Registries, schedules and files of journals that are broken, drawn from a seed: those of examples and cases, and of
drawn runs over links, with a few of their bytes, words and lines changed, cut off, repeated or exchanged."""
import random

from disks import aged
from draws import drawn_for_links
from links import run
from registries import BadRegistry, nodes_of

LONGEST = 20000
BYTES = [b"\0", b"\t", b"\n", b"\r", b" ", b"  ", b"\x7f", b"\x80", b"\xff", b"\xc3\xa9", b"\xe2\x82"]
BYTES += [b"#", b'"', b"\\", b"-", b",", b":", b"=", b"0", b"[", b"]"]
NUMBERS = [b"0", b"00", b"1", b"01", b"-1", b"64", b"65", b"255", b"256", b"4294967295", b"4294967296"]
NUMBERS += [b"18446744073709551615", b"18446744073709551616"]


def sources(top):
    """The pairs of registry and schedule of the examples of circuits, and of the cases, that are short and not broken already."""
    usual, found = top / "examples" / "registry.toml", []
    for schedule in sorted([*top.glob("examples/*.schedule"), *top.glob("tests/cases/*/schedule")]):
        beside = lambda suffix, name: schedule.with_suffix(suffix) if schedule.suffix else schedule.parent / name
        own = beside(".toml", "registry")
        if not beside(".status", "status").exists() and schedule.stem != "paxos" and schedule.stat().st_size <= LONGEST:
            found.append(((own if own.exists() else usual).read_bytes(), schedule.read_bytes()))
    return found


class Breaker:
    """Draws what is broken, and how."""

    def __init__(self, seed, pairs):
        self.random, self.pairs = random.Random(seed), pairs

    def span(self, length, most):
        """The ends of a piece of so many things, of at most so many of them."""
        start = self.random.randint(0, length)
        return start, min(length, start + self.random.randint(1, most))

    def exchanged(self, parts):
        """Two of them change places."""
        if len(parts) > 1:
            a, b = self.random.sample(range(len(parts)), 2)
            parts[a], parts[b] = parts[b], parts[a]
        return parts

    # ---- Bytes

    def flip(self, text):
        at = self.random.randrange(len(text))
        return text[:at] + bytes([text[at] ^ 1 << self.random.randrange(8)]) + text[at + 1 :]

    def put(self, text):
        """A few bytes more, or in place of one."""
        at = self.random.randrange(len(text))
        return text[:at] + self.random.choice(BYTES) + text[at + self.random.randrange(2) :]

    def take_out(self, text):
        start, end = self.span(len(text), 8)
        return text[:start] + text[end:]

    def repeat(self, text):
        """A piece again and again, at times beyond what a line may have."""
        start, end = self.span(len(text), 40)
        return text[:end] + text[start:end] * self.random.choice([1, 1, 2, 16, 200, 1000]) + text[end:]

    def cut(self, text):
        return text[: self.random.randrange(len(text))]

    # ---- Words and lines

    def in_words(self, text):
        """In one line a word leaves, comes twice, is another one or a number at an edge, or two change places."""
        lines = text.split(b"\n")
        at = self.random.randrange(len(lines))
        words = lines[at].split(b" ")
        place = self.random.randrange(len(words))
        other = self.random.choice(self.random.choice(lines).split(b" "))
        ways = [[], [words[place]] * 2, [other], [self.random.choice(NUMBERS)]]
        words[place : place + 1] = self.random.choice(ways)
        lines[at] = b" ".join(self.exchanged(words) if self.random.random() < 0.2 else words)
        return b"\n".join(lines)

    def in_lines(self, text):
        """A few lines leave, come again or come from another file, or two change places."""
        lines = text.split(b"\n")
        if self.random.random() < 0.3:
            return b"\n".join(self.exchanged(lines))
        start, end = self.span(len(lines), 4)
        others = self.random.choice(self.pairs)[self.random.randrange(2)].split(b"\n")
        place, after = self.span(len(others), 4)
        lines[start:end] = self.random.choice([[], lines[start:end] * 2, lines[start:end] + others[place:after]])
        return b"\n".join(lines)

    def files(self, contents, shares):
        """Files that are kept as they are, are broken, or are empty or gone, in such shares."""
        ways = [lambda content: content, self.broken, lambda content: self.random.choice([b"", None])]
        changed = {name: self.random.choices(ways, shares)[0](content) for name, content in contents.items()}
        return {name: content for name, content in changed.items() if content is not None}

    def broken(self, text):
        """The bytes of a file with one to four changes."""
        ways = [self.flip, self.put, self.take_out, self.repeat, self.cut, self.in_words, self.in_words, self.in_lines]
        for _ in range(self.random.choice([1, 1, 1, 2, 4])):
            text = self.random.choice(ways)(text) if text else self.random.choice(BYTES)
        return text


def broken(seed, pairs):
    """The bytes of a registry and of a schedule."""
    breaker = Breaker(seed, pairs)
    registry, schedule = breaker.random.choice(pairs)
    which = breaker.random.random()
    if which < 0.25:
        registry = breaker.broken(registry)
    if which > 0.2:
        schedule = breaker.broken(schedule)
    return registry, schedule


def journals(registry, schedule):
    """What the files hold that a run over links leaves; none where the registry is broken already."""
    try:
        *_, world = run(nodes_of(registry), schedule)
    except BadRegistry:
        return {}
    return world.disks()


def old_journals(registry, schedule):
    """The same as an earlier program leaves it, in journals of the old form. One with a longer record than these may have is no
    journal."""
    return {name: aged(content) for name, content in journals(registry, schedule).items()}


def halves(schedule):
    """The first lines of a schedule, and the rest."""
    lines = schedule.splitlines(True)
    return b"".join(lines[: len(lines) // 2]), b"".join(lines[len(lines) // 2 :])


def broken_for_links(seed, pairs):
    """The bytes of a registry, which isn't broken, of a schedule for a run over links, and of the files of its folder by
    their names: each third time what a run left, with bytes changed, else none."""
    breaker = Breaker(seed, pairs)
    registry, schedule = drawn_for_links(seed)
    left = {}
    if breaker.random.random() < 1 / 3:
        left = breaker.files(journals(registry, schedule), [1, 1, 1])
    return registry, breaker.broken(schedule), left


def broken_for_resume(seed, pairs):
    """The same for a run that goes on, or an audit: always over what a run left, few bytes of it changed. Some of the journals are
    of the old form."""
    breaker = Breaker(seed, pairs)
    registry, schedule = drawn_for_links(seed)
    share = breaker.random.choice([0, 0.5, 1])
    left = {name: aged(held) if breaker.random.random() < share else held for name, held in journals(registry, schedule).items()}
    left = breaker.files(left, [9, 1, 1])
    return registry, breaker.broken(schedule) if breaker.random.random() < 0.5 else schedule, left
