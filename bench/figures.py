"""The figures that bench/run keeps, by how much those of a run differ, and how many times those of a plain program they are.

bench/plain has what a plain Rust program takes that does the same work over the same journals, without contracts: it was measured once, by
callgrind too, and isn't part of this repository.
"""
import pathlib
import re

KEPT = pathlib.Path(__file__).resolve().parent / "figures"
PLAIN = KEPT.with_name("plain")
# What a line measured, by the word after it. What is compared are instructions and memory.
MEASURED = re.compile(r"([\d,]*\.?\d+)(?= (instructions|million|microseconds|ms|KB|checked|hashed|a digest|more over|of that|times)\b)")
COMPARED = {"instructions", "a digest", "KB", "checked", "hashed", "more over"}

told = []


def key_of(line):
    """The line without what it measured."""
    return MEASURED.sub("_", line)


def read():
    """The kept lines, by their keys."""
    return {key_of(line): line for line in KEPT.read_text().splitlines()} if KEPT.exists() else {}


def numbers_in(line):
    return [float(found[1].replace(",", "")) for found in MEASURED.finditer(line) if found[2] in COMPARED]


def changes(old, new):
    """By how many percent each figure changed."""
    return [f"{(b - a) / a * 100:+.1f} %" if a else "new" for a, b in zip(numbers_in(old), numbers_in(new))]


def times_plain(line):
    """How many times the plain program's the instructions of a line are, where the plain program was measured."""
    found = MEASURED.search(line)
    for known in PLAIN.read_text().splitlines():
        workload, _, figure = known.rpartition(", ")
        if line[:found.start()] == f"{workload}, ":
            return [f"{float(found[1].replace(',', '')) / float(figure.replace(',', '')):.2f} times plain"]
    return []


def tell(line):
    """Prints a line with what changed since it was kept, and how far from a plain program it is."""
    old = read().get(key_of(line))
    told.append(line)
    print(f"{line} ({', '.join((changes(old, line) if old else ['not kept']) + times_plain(line))})", flush=True)


def keep():
    """Keeps the lines of this run, in place of those with their keys."""
    kept = read() | {key_of(line): line for line in told}
    KEPT.write_text("".join(f"{line}\n" for line in kept.values()))
