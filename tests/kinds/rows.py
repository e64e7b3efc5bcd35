"""Rows of calls, which no line of a schedule can show, and what each call answers.

words: [NAME ..]; all of tests/rows/cases where none is named

The program that answers rows is tests/rows/src. It is Rattle, but no crate of crates.txt: nothing proves it, and it ships nowhere, so its
files end in .rs, which the gate passes over. Here it is put beside a copy of the crates, and `rt try` compiles it over them, with checks of
each index, sum and access in place of proofs. The file tests/rows/cases/NAME has rows, NAME.args says whose tables they are of, and
NAME.stdout has each row with the answer that has to come. tests/rows/uses names the crates that it calls.

What `rt try` compiled is kept, and answers the rows in pieces, as many at once as there are processors. Where it stops at a fault in a piece,
`rt try` runs that piece again, and says where. A line for each NAME, with the first row that differs; it counts rows.
"""
import concurrent.futures
import contextlib
import os
import pathlib
import shutil
import subprocess
import tempfile
import time
from dataclasses import dataclass

from common import CRATES, TESTS, TOP, Unfit

GATE = ()
ROWS = TESTS / "rows"
CASES = ROWS / "cases"
PROGRAM = "spl_rows_of_calls"
# A piece may take so long, compiled with checks.
SECONDS = 900
# A piece has at most so many rows. One of so many bytes is a piece of its own, since the longest take the longest.
PIECE_ROWS = 8
LONG_ROW = 1000
# Rows for `rt try`, which removes the program when they are answered: they leave time to keep it.
WHILE_KEPT = "generated 400 7\n" * 10


def say(text):
    print(f"rows: {text}", flush=True)


def put_together(room):
    """The crates and the program of rows, in a folder."""
    shutil.copytree(CRATES, room / "crates", ignore=shutil.ignore_patterns("out"))
    shutil.copy(TOP / "HANDLES", room)
    crates = (TOP / "crates.txt").read_text()
    (room / "crates.txt").write_text(f"{crates}\n{PROGRAM}: {(ROWS / 'uses').read_text()}")
    for file in sorted((ROWS / "src").rglob("*.rs")):
        to = (room / "crates" / PROGRAM / "src" / file.relative_to(ROWS / "src")).with_suffix(".rt")
        to.parent.mkdir(parents=True, exist_ok=True)
        shutil.copy(file, to)


@dataclass
class Piece:
    """Rows of a set that come after one another, and what the program answered."""

    name: str
    rows: list
    answered: str = ""
    status: int = 0

    def text(self):
        return "".join(f"{row}\n" for row in self.rows)

    def longest(self):
        return max(map(len, self.rows))

    def takes(self, row):
        return len(self.rows) < PIECE_ROWS and max(len(row), self.longest()) < LONG_ROW

    def words(self):
        return (CASES / f"{self.name}.args").read_text().split()


def pieces_of(name):
    """The rows of a set, in its order."""
    pieces = []
    for row in rows_in(name):
        if pieces and pieces[-1].takes(row):
            pieces[-1].rows.append(row)
        else:
            pieces.append(Piece(name, [row]))
    return pieces


def try_cases(room, cases, **how):
    """Starts `rt try` on the cases of a folder."""
    # The interpreter runs nothing that reads arguments, so it gets no steps.
    command = ["rt", "try", "--steps", "1", "--seconds", str(SECONDS), "--cases", str(cases)]
    folder = room / "crates" / PROGRAM
    return subprocess.Popen(command, cwd=folder, stdin=subprocess.DEVNULL, stdout=subprocess.DEVNULL, **how)


def put_case(cases, name, text, words):
    cases.mkdir(exist_ok=True)
    (cases / name).write_text(text)
    (cases / f"{name}.args").write_text("".join(f"{word}\n" for word in words))


def keep_program(files, program):
    """Gives the program a second name once it runs, if it is among the files of `rt try`."""
    for output in files.glob("*/*/stdout"):
        with contextlib.suppress(OSError):
            if output.stat().st_size:
                os.link(output.with_name("program"), program)


def compiled(room):
    """The program of rows, or None where `rt try` doesn't compile it."""
    program, files = room / "program", room / "files"
    files.mkdir()
    put_case(room / "kept", "generated", WHILE_KEPT, ["checks"])
    tried = try_cases(room, room / "kept", env={**os.environ, "TMPDIR": str(files)})
    while tried.poll() is None:
        if not program.exists():
            keep_program(files, program)
        time.sleep(0.05)
    if tried.returncode:
        say(f"rt try ended with status {tried.returncode}")
    return program if program.exists() else None


def answer(program, piece):
    """Runs the program on a piece, in a folder of its own and without an environment, as `rt try` does."""
    command = [program, *piece.words()]
    with tempfile.TemporaryDirectory(prefix="rows-") as folder:
        how = {"cwd": folder, "env": {}, "stdout": subprocess.PIPE, "stderr": subprocess.DEVNULL}
        try:
            ran = subprocess.run(command, input=piece.text().encode(), timeout=SECONDS, check=False, **how)
        except subprocess.TimeoutExpired as late:
            ran = subprocess.CompletedProcess(command, -1, late.stdout or b"")
    piece.answered, piece.status = ran.stdout.decode(errors="replace"), ran.returncode


def answer_all(program, pieces):
    """Runs the program on each piece, from that with the longest row on."""
    longest_first = sorted(pieces, key=Piece.longest, reverse=True)
    with concurrent.futures.ThreadPoolExecutor(len(os.sched_getaffinity(0))) as runs:
        for run in [runs.submit(answer, program, piece) for piece in longest_first]:
            run.result()


def tell_faults(room, pieces):
    """Has `rt try` say where the program stopped, for each piece in which it did."""
    faults = [piece for piece in pieces if piece.status]
    for at, piece in enumerate(faults):
        say(f"{piece.name}: the program ended with status {piece.status}, and {len(piece.rows)} rows from here on run again: {piece.rows[0][:200]}")
        put_case(room / "faults", f"{piece.name}-{at}", piece.text(), piece.words())
    if faults:
        try_cases(room, room / "faults").wait()


def is_row(line):
    return line != "" and not line.startswith(("#", "  "))


def rows_in(name):
    return [line for line in (CASES / name).read_text().splitlines() if is_row(line)]


def rows_of(text):
    """Each row with the lines of its answer after it."""
    rows = []
    for line in text.splitlines():
        if is_row(line):
            rows.append([line])
        elif line.startswith("  ") and rows:
            rows[-1].append(line)
    return rows


def apart(want, got):
    """What stands around the place where two answers part."""
    want, got = "\n".join(want), "\n".join(got)
    at = next((at for at, pair in enumerate(zip(want, got)) if pair[0] != pair[1]), min(len(want), len(got)))
    return (text[max(0, at - 60) : at + 100].strip() or "nothing" for text in (want, got))


def differing(name, pieces):
    """The rows of a set that have to come, with the answers that came instead."""
    due = iter(rows_of((CASES / f"{name}.stdout").read_text()))
    bad = []
    for piece in pieces:
        came = rows_of(piece.answered)
        for at in range(len(piece.rows)):
            want, got = next(due), came[at] if at < len(came) else []
            if want != got:
                bad.append((want, got))
    return bad


def compare(name, pieces):
    """How many rows of a name agree, and how many don't."""
    rows = rows_in(name)
    due = rows_of((CASES / f"{name}.stdout").read_text())
    if [it[0] for it in due] != rows or any(len(it) == 1 for it in due):
        say(f"{name}.stdout doesn't have the rows of {name}, each with an answer")
        return 0, len(rows)
    bad = differing(name, pieces)
    say(f"{name}: {len(due) - len(bad)} rows agree, {len(bad)} differ")
    if bad:
        want, got = bad[0]
        due_there, came_there = apart(want[1:], got[1:])
        print(f"  first: {want[0][:200]}\n  has to answer: {due_there}\n  answers:       {came_there}", flush=True)
    return len(due) - len(bad), len(bad)


def run(words, tally):
    all_names = sorted(it.name for it in CASES.iterdir() if not it.suffix)
    names = words or all_names
    for name in names:
        if name not in all_names:
            raise Unfit(f"no rows are called {name}")
    began = time.monotonic()
    pieces = {name: pieces_of(name) for name in names}
    with tempfile.TemporaryDirectory(prefix="rows-") as folder:
        room = pathlib.Path(folder)
        put_together(room)
        say("compiles the program of rows and the crates below it, which takes a minute or two, and then runs it")
        program = compiled(room)
        if program:
            say(f"compiled for {time.monotonic() - began:.0f} s")
            answer_all(program, sum(pieces.values(), []))
            tell_faults(room, sum(pieces.values(), []))
    say(f"ran for {time.monotonic() - began:.0f} s")
    for name in names:
        tally.many(*compare(name, pieces[name]))
