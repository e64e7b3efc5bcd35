"""Compares a program with the plain one."""
from common import ended_in_text, parting
from program import ended


def differences(program, words):
    """Where a run of the program with these words parts from that of the plain one."""
    came, wanted = ended_in_text([*program, *words]), ended(words)
    if came != wanted:
        yield parting(came, wanted)
