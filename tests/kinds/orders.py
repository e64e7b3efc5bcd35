"""A generated schedule over its nodes in each of the 24 orders of a registry: the answers to its last nine lines have to be those that
`gen` writes. The schedule is that of the plain program of tests/oracle.

words: [PROGRAM [BATCHES SEED]]; 200 batches of seed 7 where none are given
"""
import itertools
import pathlib
import tempfile

from common import MAIN, command_of, ended, numbers_of
from generated import schedule

GATE = (MAIN,)

NODES = ("n1", "n2", "n3", "n4")


def registry(nodes):
    return "".join(f'[[node]]\nidentity = "{node}"\ndisplay_name = "{node}"\nendpoints = ["127.0.0.1:0"]\n' for node in nodes)


def run(words, tally):
    program, (batches, seed) = command_of(words), numbers_of(words, 200, 7)
    wanted, status, _ = ended([*program, "gen", batches, seed])
    tally.add("gen", [f"status {status}"] if status else [])
    with tempfile.TemporaryDirectory() as folder:
        nodes, lines = pathlib.Path(folder, "registry"), pathlib.Path(folder, "schedule")
        lines.write_text(schedule(batches, seed))
        for order in itertools.permutations(NODES):
            nodes.write_text(registry(order))
            written, status, _ = ended([*program, "replay", nodes, lines])
            last = b"".join(written.splitlines(keepends=True)[-9:])
            tally.add(",".join(order), [] if (status, last) == (0, wanted) else ["other answers"])
