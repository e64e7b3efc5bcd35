"""Traces of drawn schedules, beside those of the plain program of tests/oracle; and each trace replayed: every line but the calms has to
be answered as in the schedule, and every `show` at the end too.

words: [PROGRAM [FIRST [COUNT]]]; 300 seeds where no number of them is given
"""
from common import MAIN, ended_in_text, parting, seeds
from draws import CIRCUITS, drawn
from registries import nodes_of
from runs import over_nodes, run_in
from traces import Traced, lines_of

GATE = (MAIN, "0", "300")


def traced(registry, schedule):
    """What the plain program ends with; and the number of each line of a schedule that has a part in the trace, the line, and how
    many lines its part has."""
    parts = []

    def noted(world, count, line):
        for part in lines_of(world, count, line):
            parts.append((count, line, part.count("\n")))
            yield part

    return over_nodes(registry, lambda nodes: run_in(Traced(nodes), schedule, noted)), parts


class Traces:
    """A seed, whose files are in a folder."""

    def __init__(self, program, seed, top):
        self.program, self.top = program, top
        self.registry, self.schedule = drawn(seed)
        (top / "registry").write_bytes(self.registry)

    def ran(self, word, schedule):
        """Output, status and standard error."""
        (self.top / "schedule").write_bytes(schedule)
        words = [word, str(self.top / "registry"), str(self.top / "schedule")]
        return ended_in_text([*self.program, *words])

    def texts(self, schedule):
        """The texts of answers, by the numbers of their lines."""
        return {int(number): text for number, _, text in (line.partition(" ") for line in self.ran("replay", schedule)[0].splitlines())}

    def fault(self):
        """What is wrong, or None."""
        came, (wanted, parts) = self.ran("trace", self.schedule), traced(self.registry, self.schedule)
        if came != wanted:
            return parting(came, wanted)
        return self.another_answer(parts, came[0].encode()) if parts else None

    def another_answer(self, parts, flat):
        """The first line that is answered otherwise in the trace, or None."""
        ran = b"".join(self.schedule.splitlines(True)[: parts[-1][0]])
        shows = [f"show {node} {circuit}" for circuit in CIRCUITS for node in nodes_of(self.registry)]
        asked = "".join(f"{line}\n" for line in shows).encode()
        own, again = self.texts(ran + asked), self.texts(flat + asked)
        pairs, at = [], 0
        for number, line, length in parts:
            at += length
            if not line.startswith("calm "):
                pairs.append((line, number, at))
        end = ran.count(b"\n")
        pairs += [(line, end + i, at + i) for i, line in enumerate(shows, 1)]
        different = ((line, own.get(number), again.get(place)) for line, number, place in pairs)
        return next((f"{line:.80}: {b!r:.200} in the trace, {a!r:.200} in the schedule" for line, a, b in different if a != b), None)


def faults(program, seed, room):
    wrong = Traces(program, seed, room).fault()
    return [wrong] if wrong else []


def run(words, tally):
    seeds(faults, words, 300, tally)
