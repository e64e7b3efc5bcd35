"""Drawn schedules of Paxos Commit, beside the plain program of tests/oracle.

words: [PROGRAM [FIRST [COUNT]]]; 300 seeds where no number of them is given
"""
from common import MAIN, seeds
from compared import differences
from paxos_draws import drawn

GATE = (MAIN, "0", "300")


def faults(program, seed, room):
    members, acceptors, schedule = drawn(seed)
    path = room / "schedule"
    path.write_bytes(schedule)
    return differences(program, ["paxos", str(members), str(acceptors), str(path)])


def run(words, tally):
    seeds(faults, words, 300, tally)
