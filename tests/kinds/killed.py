"""Drawn runs over links and files, killed at drawn times or at drawn system calls, and gone on with. The plain program of tests/oracle
judges what they leave: the two files of each node are blank or half made, or a journal whose records the node had at some moment of the
run, the same for all nodes and not before the last answer; and what was written is a prefix of what the plain program writes. Then

- a run by `links` over files that hold bytes is refused as not blank, and changes none;
- `resume` goes on with the lines after the last answered one. It writes what the plain program does for the schedule up to
  that moment, a stop and a start of each node, and these lines, and leaves the records that it has then. Where a node's
  journal is half made, no line was run, and the files are refused as no journal;
- `audit` finds that the files agree.

Every third run that is killed isn't one by `links` but one by `resume`, which goes on with journals of the old form: those of the
first half of its lines.

words: [--calls] [PROGRAM [FIRST [COUNT]]]; 200 seeds where no number of them is given

With --calls the runs are killed at system calls, which takes strace, and a PROGRAM that runs no other.
"""
import functools
import random
import re
import subprocess
import time

import judge
from common import MAIN, SECONDS, by_seed, ended_in_text, files_in, needs, parting
from draws import drawn_for_links
from links import Files, held_in
from mutations import halves, old_journals
from registries import BadRegistry


GATE = (MAIN, "0", "50")


class Killing:
    """A run that is killed."""

    def __init__(self, program, seed, top):
        self.program, self.random, self.top = program, random.Random(seed), top
        self.registry, self.schedule = drawn_for_links(seed)
        self.word, self.held = "links", {}
        if seed % 3 == 2:
            first, self.schedule = halves(self.schedule)
            self.word, self.held = "resume", old_journals(self.registry, first)
        (top / "registry").write_bytes(self.registry)
        self.folders = [top / f"whole{seed}", top / f"killed{seed}"]
        for folder in self.folders:
            folder.mkdir()
            for name, content in self.held.items():
                (folder / name).write_bytes(content)

    def command(self, word, folder, schedule=None):
        """The program with these words; the schedule is written."""
        files = [self.top / "registry"]
        if schedule is not None:
            files.append(self.top / "schedule")
            files[-1].write_bytes(schedule)
        return [*self.program, word, *map(str, files), str(folder)]

    def ended(self, word, folder, schedule=None):
        """Output, status and standard error of a run to its end."""
        return ended_in_text(self.command(word, folder, schedule))

    def lasts(self):
        """How long a run takes that isn't killed."""
        begun = time.monotonic()
        self.ended(self.word, self.folders[0], self.schedule)
        return time.monotonic() - begun

    def kill_at_a_time(self):
        """What was written, and whether the run was on its way."""
        after = self.random.random() * self.lasts()
        command = self.command(self.word, self.folders[1], self.schedule)
        running = subprocess.Popen(command, stdin=subprocess.DEVNULL, stdout=subprocess.PIPE, stderr=subprocess.PIPE)
        time.sleep(after)
        was_running = running.poll() is None
        running.kill()
        return running.communicate()[0].decode(), was_running

    def strace(self, folder, *options):
        command = ["strace", "-f", *options, *self.command(self.word, folder, self.schedule)]
        return subprocess.run(command, stdin=subprocess.DEVNULL, capture_output=True, timeout=SECONDS)

    def calls(self):
        """The system calls of a run that isn't killed, from the first that names its folder on, each with its number."""
        folder, trace = self.folders[0], self.top / "trace"
        self.strace(folder, "-o", trace)
        lines = trace.read_text(errors="replace").splitlines()
        names = [found[1] if (found := re.match(r"\d+ +(\w+)\(", line)) else "" for line in lines]
        begun = next((i for i, line in enumerate(lines) if names[i] == "openat" and str(folder) in line), len(lines))
        return [(name, names[: i + 1].count(name)) for i, name in enumerate(names) if i >= begun and name]

    def kill_at_a_call(self):
        """The same, at a system call."""
        call, number = self.random.choice(self.calls() or [("execve", 1)])
        inject = f"inject={call}:signal=KILL:when={number}"
        done = self.strace(self.folders[1], "-o", "/dev/null", "-e", f"trace={call}", "-e", inject)
        return done.stdout.decode(), done.returncode in (-9, 137)

    # ---- What is wrong

    def faults(self, written):
        """What is wrong after the kill."""
        try:
            whole = judge.Whole(self.registry, self.schedule, self.held)
        except BadRegistry:
            return
        if whole.world.fault:
            # A record is longer than the old form has it.
            return
        found = list(judge.faults(whole, self.folders[1], None, written, "", True))
        yield from found
        yield from self.again(whole.nodes)
        if not found:
            yield from self.gone_on(whole, written)

    def again(self, nodes):
        """What is wrong with a run by `links` over the files that were left."""
        left = files_in(self.folders[1])
        held = [node for i, node in enumerate(nodes) if any(left.get(f"d{i:02}{letter}") for letter in "ab")]
        if held:
            came = self.ended("links", self.folders[1], self.schedule)
            if came != ("", 10, f"disk of {held[0]} not blank\n"):
                yield f"files that hold bytes: {came!r:.200}"
            if files_in(self.folders[1]) != left:
                yield "files that hold bytes were changed"

    def gone_on(self, whole, written):
        """What is wrong with a run by `resume` over the files that were left, with the rest of the schedule."""
        folder, nodes = self.folders[1], whole.nodes
        answered = re.findall(r"(?m)^(\d+) .*\n", written)
        rest = b"".join(self.schedule.splitlines(True)[int(answered[-1]) if answered else 0 :])
        fault = Files(nodes, held_in(folder, nodes)).fault
        moment = max(whole.moments_of({node: judge.records_in(folder, i) for i, node in enumerate(nodes)}))
        *wanted, world = whole.gone_on(moment, rest)
        came, wanted = self.ended("resume", folder, rest), ("", *fault) if fault else tuple(wanted)
        if came != wanted:
            line = len(self.schedule.splitlines()) - len(rest.splitlines()) + 1
            yield f"gone on with line {line}: {parting(came, wanted)}"
        elif not fault:
            if any(judge.records_in(folder, i) != tuple(world.records[node]) for i, node in enumerate(nodes)):
                yield "gone on, the files have other records"
            output, *how = self.ended("audit", folder)
            if how != [0, ""] or not output.endswith("agreed\n"):
                yield f"gone on, an audit ends with {how}"


def killed(kill, program, seed, room):
    """What is wrong with a seed, and whether its run was on its way."""
    killing = Killing(program, seed, room)
    written, was_running = kill(killing)
    return list(killing.faults(written)), was_running


def run(words, tally):
    kill = Killing.kill_at_a_time
    if words[:1] == ["--calls"]:
        needs("strace")
        kill, words = Killing.kill_at_a_call, words[1:]
    on_their_way = 0
    for seed, (faults, was_running) in by_seed(functools.partial(killed, kill), words, 200):
        tally.add(f"seed {seed}", faults)
        on_their_way += was_running
    print(f"{on_their_way} killed on their way")
