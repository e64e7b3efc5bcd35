"""The cases of tests/cases and the schedules of examples: what the program writes, its status, its standard error, and the files it leaves.

words: [PROGRAM [NAME ..]]; a NAME is a case, a table, one of its rows by TABLE/ROW, or examples/NAME

A case is a folder with a `schedule` and the `output` that has
to come. Where they aren't the usual ones it has besides: `words`, one a line, of which `registry` and `schedule` stand
for the case's files, and `dir` for a folder that is made for the run, with what the case's folder `dir` has, if it has one
(without words: replay registry schedule); `registry` (examples/registry.toml); `status` (0); `error` (nothing). Where it
has a folder `dir-after`, its files are what the run has to leave; an empty file counts as none. `schedule.py` and `output.py` stand in place of a file that is too long to be kept: what such a program prints
is the file.
An example, by the name examples/NAME, is a file NAME.schedule with its NAME.output, and, where they aren't the usual
ones, NAME.toml, NAME.status and NAME.error. One whose name begins with linked runs over links, one whose name begins with
resumed goes on where the example linked has ended, one whose name begins with traced is traced, and one whose name begins
with paxos is run by `paxos 2 1`.

A folder with a `table` has many small cases, by the names FOLDER/ROW. Each line of a table is a key and a text. `row`
begins a case and names it. `registry`, `schedule`, `output`, `error` and `words` are the files of the case, a line of the
file each; `status` is its status. `sink full` stands for a standard output that takes nothing. What stands before the
first row is at the front of each, with a status and an error for those that have none; what stands there after `rest`
is at the end of each. In a text \\{HEX} stands for bytes and \\{HEX*TIMES} for so many of them; \\{} at its end leaves
out the line feed. Empty lines and lines that begin with # are passed over.
"""
import functools
import pathlib
import re
import subprocess
import sys
import tempfile

from common import EXAMPLES, MAIN, REGISTRY, SECONDS, TESTS, Unfit, command_of

GATE = (MAIN,)
FILES = ("registry", "schedule", "output", "error", "words")


def content(path, usual):
    """What a file has, or the usual where there is none."""
    return path.read_bytes() if path.exists() else usual


def made(folder, name, scratch):
    """A file of a case, made where a program makes it."""
    maker = folder / f"{name}.py"
    if not maker.exists():
        return folder / name
    path = pathlib.Path(scratch) / name
    with open(path, "wb") as file:
        subprocess.run([sys.executable, maker], stdout=file, check=True)
    return path


def disks_of(folder, scratch):
    """The folder for the disks of a run, with what is on them before it."""
    made = pathlib.Path(scratch) / "disks"
    made.mkdir()
    for name, held in held_in(folder / "dir").items():
        (made / name).write_bytes(held)
    return made


def held_in(folder):
    """What the files of a folder hold; an empty one counts as none."""
    paths = sorted(folder.iterdir()) if folder.exists() else []
    return {path.name: path.read_bytes() for path in paths if path.stat().st_size}


def left_in(folder, scratch):
    """The names of files that don't hold what they have to after the run."""
    if not (folder / "dir-after").exists():
        return []
    have, want = held_in(pathlib.Path(scratch) / "disks"), held_in(folder / "dir-after")
    return sorted(name for name in have.keys() | want.keys() if have.get(name) != want.get(name))


def words_of(folder, scratch):
    """The words of a case, with the paths of its files in place of their names."""
    own = folder / "registry"
    paths = {"registry": own if own.exists() else REGISTRY, "schedule": made(folder, "schedule", scratch)}
    words = content(folder / "words", b"replay\nregistry\nschedule\n").split(b"\n")[:-1]
    paths["dir"] = disks_of(folder, scratch)
    paths = {name.encode(): bytes(path) for name, path in paths.items() if path.exists()}
    return [paths.get(word, word) for word in words]


def ended(command, sink=subprocess.PIPE):
    """Output, status and standard error."""
    try:
        done = subprocess.run(command, stdin=subprocess.DEVNULL, stdout=sink, stderr=subprocess.PIPE, timeout=SECONDS)
    except subprocess.TimeoutExpired:
        return b"", f"none in {SECONDS} seconds", b""
    return done.stdout or b"", done.returncode, done.stderr


def run_case(program, folder):
    """What came and what was wanted."""
    with tempfile.TemporaryDirectory() as scratch, open("/dev/full", "wb") as full:
        came = ended(program + words_of(folder, scratch), full if (folder / "sink").exists() else subprocess.PIPE)
        output = made(folder, "output", scratch).read_bytes()
        came += (left_in(folder, scratch),)
    return came, (output, int(content(folder / "status", b"0")), content(folder / "error", b""), [])


def run_example(program, schedule):
    """What came and what was wanted."""
    own = schedule.with_suffix(".toml")
    files = [str(own if own.exists() else REGISTRY), str(schedule)]
    with tempfile.TemporaryDirectory() as disks:
        ways = {"linked": ["links", *files, disks], "paxos": ["paxos", "2", "1", str(schedule)]}
        ways |= {"resumed": ["resume", *files, disks], "traced": ["trace", *files]}
        if schedule.stem.startswith("resumed"):
            ended([*program, "links", files[0], str(EXAMPLES / "linked.schedule"), disks])
        came = ended(program + next((words for start, words in ways.items() if schedule.stem.startswith(start)), ["replay", *files]))
    status, error = content(schedule.with_suffix(".status"), b"0"), content(schedule.with_suffix(".error"), b"")
    return came, (schedule.with_suffix(".output").read_bytes(), int(status), error)


# ---- Tables


def bytes_of(text):
    """The bytes that a text of a table stands for, with its line feed."""
    end = b"" if text.endswith(r"\{}") else b"\n"
    hexes = lambda found: bytes.fromhex(found[1].decode()) * int(found[2] or 1)
    return re.sub(rb"\\\{([0-9a-f]*)(?:\*([0-9]+))?\}", hexes, text.encode()) + end


def rows_of(table):
    """The rows of a table: what stands before the first, and each by its name. A row is the lines of its keys."""
    front, rest, rows = {}, {}, {}
    row = front
    for line in table.read_text().splitlines():
        key, _, text = line.partition(" ")
        if key == "row":
            assert text not in rows, f"{table} has two rows {text}"
            row = rows.setdefault(text, {})
        elif key == "rest":
            row = rest
        elif key in (*FILES, "status", "sink"):
            row.setdefault(key, []).append(text)
        else:
            assert key in ("", "#"), f"{table} has no key {key}"
    return front, rest, rows


def run_row(front, rest, row, program):
    """Runs a row as the folder that it stands for."""
    ends = row if "status" in row else front
    lines = {key: front.get(key, []) + row.get(key, []) + rest.get(key, []) for key in (*FILES, "sink")}
    lines |= {"output": lines["output"] or [r"\{}"], "status": ends.get("status", []), "error": ends.get("error", [])}
    with tempfile.TemporaryDirectory() as scratch:
        for name, texts in lines.items():
            if texts or name == "schedule":
                (pathlib.Path(scratch) / name).write_bytes(b"".join(map(bytes_of, texts)))
        return run_case(program, pathlib.Path(scratch))


def runs_of_table(folder):
    """A way to run each row of a table, by its name."""
    front, rest, rows = rows_of(folder / "table")
    return {f"{folder.name}/{name}": functools.partial(run_row, front, rest, row) for name, row in rows.items()}


def runs():
    """A way to run each case and each example, by its name."""
    found = {}
    for folder in sorted((TESTS / "cases").iterdir()):
        whole = {folder.name: lambda program, folder=folder: run_case(program, folder)}
        found |= runs_of_table(folder) if (folder / "table").exists() else whole
    for path in sorted(EXAMPLES.glob("*.schedule")):
        found[f"examples/{path.stem}"] = lambda program, path=path: run_example(program, path)
    return found


def named(word, ways):
    """The cases of a word: the one of that name, or all rows of the table of that name."""
    found = [word] if word in ways else [name for name in ways if name.startswith(f"{word}/")]
    if not found:
        raise Unfit(f"no case is called {word}")
    return found


PARTS = ("output", "status", "standard error", "the files that differ")


def run(words, tally):
    program, ways = command_of(words), runs()
    for name in [name for word in words[1:] for name in named(word, ways)] or list(ways):
        came, wanted = ways[name](program)
        tally.add(name, [f"{part} is {have!r:.300}, wanted {want!r:.300}" for part, have, want in zip(PARTS, came, wanted) if have != want])
