"""Drawn runs over links and files, gone on with and audited, beside the plain program of tests/oracle: a schedule up to a drawn line by
`links`, the rest by `resume` over the files that are left, and then an `audit` of these. After each of them what is written, the
status, and the bytes of every file have to be the same. Lines that such a run doesn't take are left out, but in each twentieth seed.
In each third seed the files are given the old form before the rest runs.

words: [PROGRAM [FIRST [COUNT]]]; 100 seeds where no number of them is given
"""
import random

from common import MAIN, ended_in_text, files_in, parting, seeds
from disks import aged
from draws import drawn_for_links
from program import ended


GATE = (MAIN, "0", "200")


def runs(seed, top):
    """The words of each run of a seed, without its folder; the files that they name are written."""
    registry, schedule = drawn_for_links(seed)
    lines = schedule.splitlines(True)
    middle = random.Random(seed).randint(0, len(lines))
    for name, content in (("registry", registry), ("first", b"".join(lines[:middle])), ("rest", b"".join(lines[middle:]))):
        (top / name).write_bytes(content)
    words = lambda word, *names: [word, *(str(top / name) for name in names)]
    return words("links", "registry", "first"), words("resume", "registry", "rest"), words("audit", "registry")


def make_old(folder):
    """Gives the journals of a folder the old form."""
    for name, content in files_in(folder).items():
        (folder / name).write_bytes(aged(content))


def faults(program, seed, top):
    """What differs between the program and the plain one."""
    own, plain = top / "own", top / "plain"
    own.mkdir(), plain.mkdir()
    for words in runs(seed, top):
        if words[0] == "resume" and seed % 3 == 2:
            make_old(own), make_old(plain)
        came, wanted = ended_in_text([*program, *words, own]), ended([*words, str(plain)])
        if came != wanted:
            yield f"{words[0]}: {parting(came, wanted)}"
        have, want = files_in(own), files_in(plain)
        different = sorted(name for name in have.keys() | want.keys() if have.get(name) != want.get(name))
        if different:
            yield f"{words[0]}: files {' '.join(different)}"


def run(words, tally):
    seeds(faults, words, 100, tally)
