"""Drawn schedules of circuits, and generated ones of drawn numbers (each fiftieth seed), beside the plain program of tests/oracle, which
was written from docs/RULES.md alone and shares nothing with the program.

words: [PROGRAM [FIRST [COUNT]]]; 400 seeds where no number of them is given
"""
from common import MAIN, seeds
from compared import differences
from draws import drawn, drawn_numbers

GATE = (MAIN, "0", "1500")


def words_of(seed, room):
    """The words of a seed; files in the folder get what it draws."""
    if seed % 50 == 49:
        return ["gen", *map(str, drawn_numbers(seed))]
    files = [room / name for name in ("registry", "schedule")]
    for path, text in zip(files, drawn(seed)):
        path.write_bytes(text)
    return ["replay", *map(str, files)]


def faults(program, seed, room):
    return differences(program, words_of(seed, room))


def run(words, tally):
    seeds(faults, words, 400, tally)
