"""What a run over links may leave, wherever it ended (docs/RULES.md, Links, Journals, Statuses): files of one moment of the run, a
prefix of its output that the files have caught up with, and a status with its text."""
import re

from disks import Disk, NotAJournal, head, read
from links import NAMES_NO_CIRCUIT, PASSES, Files, answer, names_of, run
from readings import is_record
from registries import nodes_of
from runs import run_in
from schedules import BadLine, TooMany

TEXTS = {
    4: r"too many (events|stops)",
    5: r"read failed",
    6: r"write failed",
    7: r"disk of ([a-z0-9-]+) failed",
    8: r"link failed",
    9: r"link from [a-z0-9-]+ to [a-z0-9-]+ lied",
    10: r"disk of [a-z0-9-]+ not blank",
    12: r"out of memory",
    13: r"disk of [a-z0-9-]+ is not a journal at \d+",
}


class Moments(Files):
    """All nodes, and the records of each journal at each moment so far, from what the disks hold at first on."""

    def __init__(self, nodes, held):
        self.moments = None
        self.first, self.again = {}, []
        super().__init__(nodes, held)
        self.moments = [self.first]
        for node, records in self.again:
            self.moments.append(self.moments[-1] | {node: records})

    def hold(self, node, records):
        super().hold(node, records)
        if self.moments is not None:
            self.moments.append(dict(self.records))
        elif node in self.first:
            # Its journal is written again.
            self.again.append((node, records))
        else:
            self.first[node] = records


class Reached(Exception):
    """A run has come to a moment."""


class GoesOn(Files):
    """All nodes, which go on where a run over a schedule was at a moment: each has stopped and started since."""

    def __init__(self, nodes, schedule, held, moment):
        self.left = None
        super().__init__(nodes, held)
        # The first moments are those of the journals that are written again when their nodes are opened.
        later = list(self.rebased)[moment:]
        self.left = moment - len(self.rebased)
        try:
            if self.left > 0:
                run_in(self, schedule, answer)
        except Reached:
            self.left = None
        self.events = self.stops = 0
        for node in nodes:
            self.run(f"stop {node}")
            self.run(f"start {node}")
        for node in later:
            self.journals[node].base = self.rebased[node]
        # What a run counts, and its watchers, end with it.
        self.events = self.stops = 0
        self.watchers = {}

    def hold(self, node, records):
        super().hold(node, records)
        if self.left is not None:
            self.left -= 1
            if not self.left:
                raise Reached


class Whole:
    """A run to its end over what its disks hold at first, by the plain program: its nodes, output, status and what is said of
    that, its moments, and at which of them each line was answered."""

    def __init__(self, registry, schedule, held={}):
        self.nodes, self.schedule, self.held = nodes_of(registry), schedule, held
        self.output, self.status, self.said, _ = run(self.nodes, schedule, held)
        self.world = Moments(self.nodes, held)
        self.answered = {}
        lines = schedule.split(b"\n")
        try:
            for number in (int(answer.split(" ")[0]) for answer in self.output.splitlines()):
                self.answer(number, lines[number - 1].decode("latin-1").split(" "))
        except (BadLine, TooMany):
            # A calm passed a limit.
            pass

    def answer(self, number, words):
        self.world.run(" ".join(words))
        self.answered[number] = len(self.world.moments) - 1
        if words[0] not in NAMES_NO_CIRCUIT:
            self.world.calm(words[2], PASSES)

    def moments_of(self, records, left_out=None):
        """The moments at which these were the records of all nodes, one of which may be left out."""
        return [
            i
            for i, moment in enumerate(self.world.moments)
            if all(node == left_out or tuple(records[node]) == tuple(moment[node]) for node in self.nodes)
        ]


    def gone_on(self, moment, rest):
        """What is written of a further schedule, where this run ended at a moment, the status, and what is said of that; and
        the nodes."""
        world = GoesOn(self.nodes, self.schedule, self.held, moment)
        return *run_in(world, rest, answer), world


def content_of(folder, name):
    path = folder / name
    return path.read_bytes() if path.exists() else b""


def records_in(folder, position):
    """The records of a node's two files; none where they are blank or a journal is half made."""
    first, second = (content_of(folder, name) for name in names_of(position))
    if not second and (head(1) + b"\0").startswith(first):
        return ()
    return tuple(read([Disk(first), Disk(second)], is_record)[1])


def status_faults(whole, status, output, error, is_cut):
    """What is wrong with a status, where the run wasn't killed. The line on standard error may be cut short."""
    if status == whole.status:
        if output != whole.output:
            yield f"status {status} with a part of the output"
        if error != whole.said and not (is_cut and whole.said.startswith(error)):
            yield f"status {status}, and on standard error {error!r:.80}"
    elif status not in TEXTS:
        yield f"status {status}, which no run over links has: {error!r:.80}"
    elif not is_cut and not re.fullmatch(TEXTS[status] + "\n", error):
        yield f"status {status} with the text {error!r:.80}"


def faults(whole, folder, status, output, error, killed, is_cut=False):
    """What is wrong with a run that ended, or was killed; `is_cut` where a write failed, of which one is that of the text."""
    if not killed:
        yield from status_faults(whole, status, output, error, is_cut)
    if not whole.output.startswith(output):
        yield f"the output is no prefix: {output[-80:]!r}"
    named = re.fullmatch(TEXTS[7] + "\n", error) if status == 7 else None
    try:
        records = {node: records_in(folder, i) for i, node in enumerate(whole.nodes)}
    except NotAJournal as why:
        yield f"a file is {why}"
        return
    moments = whole.moments_of(records, named and named[1])
    if not moments:
        yield "the files are of no common moment"
        return
    last = re.findall(r"(?m)^(\d+) .*\n", output)
    if last and max(moments) < whole.answered[int(last[-1])]:
        yield f"line {last[-1]} was answered, and the files are of a moment before"
    if status == whole.status and not killed and max(moments) != len(whole.world.moments) - 1:
        yield f"status {status}, and the files are of a moment before the end"
