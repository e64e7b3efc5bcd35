"""The scripts of this repository where their surroundings aren't as they should be: no room for temporary files, a folder that can't be
written, few descriptors, another shell, a signal, words that they don't take. A stand-in for the toolchain is first on the path, so nothing
is proved or compiled here.

words: none
"""
import os
import pathlib
import resource
import shutil
import signal
import subprocess
import sys
import tempfile
import time

from common import EXAMPLES, TESTS, TOP

GATE = ()
EMPTY_ROOT, ADDRESS = "00" * 32, "00" * 35
NO_PROGRAM = "splinter: no build of these sources"
PROGRAMS = ("spl_main", "spl_operator")


class Clone:
    """A copy of the scripts with two crates, and a toolchain that does what it is told."""

    def __init__(self, folder):
        self.top, self.tools = folder / "clone", folder / "tools"
        for crate in PROGRAMS:
            for part in ("src", "specs", "proofs"):
                (self.top / "crates" / crate / part).mkdir(parents=True)
            (self.top / "crates" / crate / "src" / "main.rt").write_text("")
        (self.top / "crates.txt").write_text("spl_base:\nspl_main: spl_base\nspl_operator: spl_base\n")
        (self.top / "docs").mkdir()
        (self.top / "deploy").mkdir()
        for name in ("splinter", "splinter-build", "deploy/serve"):
            shutil.copy(TOP / name, self.top / name)
        self.tools.mkdir()
        self.toolchain("exit 1")

    def toolchain(self, text):
        (self.tools / "rt").write_text(f"#!/bin/bash\n{text}\n")
        (self.tools / "rt").chmod(0o755)

    def build(self):
        """The proved programs: that of schedules prints the words that it is given, and that of nodes an `s` after each."""
        for crate in PROGRAMS:
            program = self.top / "crates" / crate / "out" / crate
            program.parent.mkdir()
            if crate == "spl_main":
                shutil.copy("/bin/echo", program)
            else:
                program.write_text('#!/bin/bash\nprintf "%ss " "$@"\n')
                program.chmod(0o755)
            os.utime(program)

    def run(self, *command, **how):
        environment = {**os.environ, "PATH": f"{self.tools}:/usr/bin:/bin", **how.pop("environment", {})}
        done = subprocess.run(
            [str(word) for word in command], stdin=subprocess.DEVNULL, capture_output=True, text=True, timeout=60, env=environment, **how
        )
        return done.returncode, done.stdout, done.stderr


def few_descriptors(clone):
    clone.build()
    ended = []
    for most in (4, 5, 8, 20):
        limit = lambda: resource.setrlimit(resource.RLIMIT_NOFILE, (most, most))
        ended.append(clone.run(clone.top / "splinter", "a", "b", preexec_fn=limit)[:2])
    return ended == [(0, "a b\n")] * 4


def words_name_the_program(clone):
    clone.build()
    operator = [clone.run(clone.top / "splinter", word, "a")[1] for word in ("serve", "ask", "status", "look", "lint", "check")]
    others = [clone.run(clone.top / "splinter", *words)[1] for words in (["replay", "a"], ["served"])]
    return operator == ["serves as ", "asks as ", "statuss as ", "looks as ", "lints as ", "checks as "] and others == ["replay a\n", "served\n"]


def another_shell(clone):
    clone.build()
    by_name = clone.run("sh", clone.top / "splinter", "a")
    beside = clone.run("sh", "splinter", "a", cwd=clone.top)
    link = clone.top.parent / "link"
    link.symlink_to(clone.top / "splinter")
    return [by_name, beside, clone.run(link, "a")] == [(0, "a\n", "")] * 3


def no_room_for_temporary_files(clone):
    """Nothing is written elsewhere in place of it."""
    before = sorted(os.listdir("/"))
    status, output, said = clone.run(clone.top / "splinter", "gen", "1", "1", environment={"TMPDIR": "/nonexistent"})
    return (status, output) == (70, "") and "temporary files" in said and sorted(os.listdir("/")) == before


def clone_that_cannot_be_written(clone):
    """It is told before anything is compiled."""
    clone.toolchain(f"touch {clone.top.parent}/compiled; exit 1")
    (clone.top / "crates" / "spl_main" / "out").write_text("")
    status, output, said = clone.run(clone.top / "splinter", "gen", "1", "1")
    return (status, output) == (70, "") and said.startswith(NO_PROGRAM) and not (clone.top.parent / "compiled").exists()


def kept_build_is_for_all(clone):
    """What is compiled is kept where every user of the clone may run it, and is compiled once."""
    program = "printf '#!/bin/bash\\necho ran\\n' > $TMPDIR/try/program; chmod 700 $TMPDIR/try/program"
    clone.toolchain(f'mkdir $TMPDIR/try; {program}; cat "$4" > /dev/null; echo . >> {clone.top.parent}/compiled; echo "run=ended now" >&2')
    ended = [clone.run(clone.top / "splinter", "gen", "1", "1")[:2] for _ in range(2)]
    kept = clone.top / "crates" / "spl_main" / "out" / "unproved" / "splinter"
    return ended == [(0, "ran\n")] * 2 and kept.stat().st_mode & 0o777 == 0o755 and (clone.top.parent / "compiled").read_text() == ".\n"


def version_names_the_build(clone):
    version = lambda: clone.run(clone.top / "splinter", "--version")[1]
    first = version()
    clone.build()
    second = version()
    time.sleep(0.05)
    (clone.top / "crates" / "spl_main" / "src" / "main.rt").write_text(" ")
    return [", not built, " in first, ", proved, " in second, ", not built, " in version()] == [True] * 3


def build_takes_no_words(clone):
    clone.toolchain(f"touch {clone.top.parent}/proved; exit 1")
    told, refused = clone.run(clone.top / "splinter-build", "--help"), clone.run(clone.top / "splinter-build", "all")
    is_told = told[0] == 0 and told[1].startswith("Builds the proved program")
    return is_told and refused == (1, "", "usage: ./splinter-build\n") and not (clone.top.parent / "proved").exists()


def build_by_a_link(clone):
    """It builds where the script is, from whatever folder and by whatever name it is called."""
    clone.toolchain(f"pwd > {clone.top.parent}/built; exit 1")
    link = clone.top.parent / "build"
    link.symlink_to(clone.top / "splinter-build")
    status = clone.run(link, cwd="/")[0]
    return status == 1 and (clone.top.parent / "built").read_text() == f"{clone.top}/crates/spl_main\n"


def build_says_what_is_left(clone):
    clone.toolchain('if [ "$1" = all ]; then echo "== spl_base"; echo "2 of 2 crates ok"; else name=$(basename $PWD); touch out/$name; chmod +x out/$name; exit 1; fi')
    for crate in PROGRAMS:
        (clone.top / "crates" / crate / "out").mkdir()
    status, output, _ = clone.run(clone.top / "splinter-build")
    said = [f"spl_base is done, left: {crate}\nsplinter-build: built crates/{crate}/out/{crate}\n" for crate in PROGRAMS]
    return status == 0 and all(text in output for text in said) and output.endswith(said[-1])


def hear_signals():
    """Whoever started this may have had signals ignored, which a shell then can't hear."""
    for number in (signal.SIGTERM, signal.SIGINT, signal.SIGHUP):
        signal.signal(number, signal.SIG_DFL)


def build_ends_what_it_started(clone):
    """Each signal ends the prover too, and what that started."""
    mark = clone.top.parent / "process"
    clone.toolchain(f"sleep 300 & echo $! > {mark}; wait")
    found = []
    for number, status in ((signal.SIGTERM, 143), (signal.SIGINT, 130), (signal.SIGHUP, 129)):
        building = subprocess.Popen(
            [clone.top / "splinter-build"], stdout=subprocess.DEVNULL, preexec_fn=hear_signals,
            env={**os.environ, "PATH": f"{clone.tools}:/usr/bin:/bin"},
        )
        found.append(waited(lambda: mark.exists() and mark.read_text().strip()))
        building.send_signal(number)
        found.append(building.wait(10) == status)
        process = pathlib.Path("/proc") / mark.read_text().strip()
        found.append(waited(lambda: not process.exists() or "(sleep) Z" in (process / "stat").read_text()))
        mark.unlink()
    return all(found)


def waited(is_so):
    """Whether it becomes so within some seconds."""
    for _ in range(100):
        if is_so():
            return True
        time.sleep(0.05)
    return False


def check_of_a_proof(clone):
    """The check that trusts no program takes words as a schedule has them, and says no with its status."""
    wanted = {
        (EMPTY_ROOT, ADDRESS, "-", "0000"): (0, "yes\n"), (EMPTY_ROOT, ADDRESS, "=64", "0000"): (1, "no\n"),
        (EMPTY_ROOT, ADDRESS, "-", "00"): (2, "refused 26 1\n"),
    }
    # An address of another length, no root, a value without its sign, capitals, half a byte, no bytes.
    bad = [
        (EMPTY_ROOT, ADDRESS + "00", "-", "0000"), (EMPTY_ROOT, "0a", "-", "0000"), (EMPTY_ROOT, "", "-", "0000"), ("", ADDRESS, "-", "0000"),
        (EMPTY_ROOT, ADDRESS, "64", "0000"), (EMPTY_ROOT, ADDRESS, "=6", "0000"), (EMPTY_ROOT, ADDRESS[:-2] + "0A", "-", "0000"),
        (EMPTY_ROOT, ADDRESS, "-", "000"), (EMPTY_ROOT, ADDRESS, "-", ""),
    ]
    check = lambda words: clone.run(sys.executable, TESTS / "check-proof", *words)
    told = [check(words) for words in bad]
    one_line = all(status == 2 and output == "" and said.count("\n") == 1 and "Traceback" not in said for status, output, said in told)
    return one_line and all(check(words)[:2] == answer for words, answer in wanted.items())


def help_of_a_topic(clone):
    """A number, a line, a word; what there is where none is called so. No build is made for it."""
    for name in ("help.txt", "topics.txt"):
        shutil.copy(TOP / "docs" / name, clone.top / "docs")
    status, five, _ = clone.run(clone.top / "splinter", "help", "5")
    told = [five.startswith("status 5: ") and "\nrefused 5 N: " in five and "\nreason 5: " in five, status == 0]
    told += [clone.run(clone.top / "splinter", "help", word)[0] == 0 for word in ("submit", "address", "waits", "26")]
    status, output, said = clone.run(clone.top / "splinter", "help", "nothing")
    told.append((status, output) == (1, "") and said.startswith("splinter: no topic is called nothing; the topics are: 0 1 "))
    told.append(clone.run(clone.top / "splinter", "help")[:2] == (0, (TOP / "docs" / "help.txt").read_text()))
    return all(told)


def telling(clone, program):
    """The program of schedules is this script, and the other one puts its first word behind each line that it reads."""
    clone.build()
    shutil.copytree(TOP / "docs", clone.top / "docs", dirs_exist_ok=True)
    shutil.copy(EXAMPLES / "registry.toml", clone.top)
    (clone.top / "schedule").write_text("# a comment\ncalm x 1\n\nshow y\n")
    for crate, text in (("spl_main", program), ("spl_operator", TELLER)):
        (clone.top / "crates" / crate / "out" / crate).write_text(f"#!/bin/bash\n{text}\n")
    return lambda *words: clone.run(clone.top / "splinter", *words)


TELLER = """
if [ "$1" = owners ]; then exit 0; fi
if [ "$1" = lint ]; then echo "bad schedule: line 4, column 6: a node wanted" >&2; exit 3; fi
last=0
while IFS= read -r line; do echo "$line $1" || exit; last=${line%% *}; done
echo "$last" > "$2"
"""


def answers_are_told(clone):
    """Behind the flag alone; standard error and the status stay, but for a line more about a status other than 0."""
    run = telling(clone, 'echo "1 ok"; echo "2 refused 5 1"; echo said >&2; exit "${2:-0}"')
    answers = "1 ok{0}\n2 refused 5 1{0}\n"
    five = "splinter: status 5: a file can't be opened or read. Do: look at its name and rights.\n"
    return (
        run("replay", "5") == (5, answers.format(""), "said\n")
        and run("--explain", "replay") == (0, answers.format(" explain"), "said\n")
        and run("--explain", "replay", "5") == (5, answers.format(" explain"), "said\n" + five)
        and run("--explain", "paxos", "0") == (0, answers.format(" explain-paxos"), "said\n")
        and run("--json", "replay", "5") == (5, answers.format(" json"), "said\n")
    )


def bad_lines_are_told(clone):
    """Where the line goes wrong, or that it isn't taken over links, and that the folder's files are made."""
    run = telling(clone, "exit 3")
    (clone.top / "d00a").write_text("")
    words = [str(clone.top / "registry.toml"), str(clone.top / "schedule")]
    status, output, said = run("--explain", "replay", *words)
    linked = run("--explain", "links", *words, clone.top)[2]
    return (
        (status, output) == (3, "") and said.startswith("splinter: status 3: ") and said.endswith("\nsplinter: line 4, column 6: a node wanted\n")
        and "\nsplinter: line 2: over links there is no calm, " in linked and "go on by resume" in linked
        and run("replay", *words) == (3, "", "")
    )


def ends_over_links_are_told(clone):
    """The line with which a run goes on, the endpoints of a registry, and a folder without files."""
    run = telling(clone, 'echo "2 ok"; exit "${SPLINTER_ENDS:-0}"')
    words = [str(clone.top / "registry.toml"), str(clone.top / "schedule"), str(clone.top)]
    ends = {}
    for status in ("0", "4", "8"):
        os.environ["SPLINTER_ENDS"] = status
        ends[status] = run("--explain", "resume", *words)[2]
    os.environ["SPLINTER_ENDS"] = "0"
    audited = run("--explain", "audit", words[0], clone.top)[2]
    del os.environ["SPLINTER_ENDS"]
    (clone.top / "d00a").write_text("")
    return (
        ends["0"] == "splinter: the folder had no file of these nodes: the run began with none\n"
        and ends["4"].endswith("splinter: line 4 has no answer: go on by resume, with this line and those behind it\n")
        and "splinter: the endpoints of the registry: alpha " in ends["8"]
        and audited == "splinter: the folder has no file of these nodes: nothing was compared\n"
        and run("--explain", "audit", words[0], clone.top)[2] == run("audit", words[0], clone.top)[2] == ""
    )


def files_of_another_node_end_a_run(clone):
    """Before its program is called; it is called where they are none, the registry is a pipe, or no program is there that finds them."""
    run = telling(clone, 'echo "1 ok $1"')
    registry, pipe, operator = clone.top / "registry.toml", clone.top / "pipe", clone.top / "crates" / "spl_operator" / "out" / "spl_operator"
    os.mkfifo(pipe)
    operator.write_text('#!/bin/bash\n[ $1 != owners ] && exec cat\necho "$1 ${2##*/} ${3##*/}" >&2\nexit ${SPLINTER_ENDS:-0}\n')
    calls = {"resume": (clone.top / "schedule", "dir"), "audit": ("dir",)}
    came = {}
    for status in ("0", "7", "12"):
        os.environ["SPLINTER_ENDS"] = status
        came[status] = [run(word, registry, *rest) for word, rest in calls.items()] + [run("links", registry, clone.top / "schedule", "dir")]
    os.environ["SPLINTER_ENDS"] = "7"
    piped, explained = run("audit", pipe, "dir"), run("--explain", "audit", registry, "dir")
    operator.unlink()
    alone = run("audit", registry, "dir")
    del os.environ["SPLINTER_ENDS"]
    said = "owners registry.toml dir\n"
    goes_on = [(0, "1 ok resume\n", said), (0, "1 ok audit\n", said), (0, "1 ok links\n", "")]
    return (
        came == {"0": goes_on, "7": [(7, "", said), (7, "", said), goes_on[2]], "12": goes_on}
        and piped == alone == (0, "1 ok audit\n", "")
        and explained[:2] == (7, "") and explained[2].startswith(said + "splinter: status 7: ")
    )


def told_answers_end_with_the_program(clone):
    """A signal that the script is sent reaches the program, whose end is its own; and what it wrote before is told."""
    telling(clone, 'echo "1 ok"; exec sleep 300')
    found = []
    for number in (signal.SIGTERM, signal.SIGINT, signal.SIGHUP):
        running = subprocess.Popen([clone.top / "splinter", "--explain", "links"], stdout=subprocess.PIPE, preexec_fn=hear_signals)
        found.append(running.stdout.readline() == b"1 ok explain\n")
        running.send_signal(number)
        found.append(running.wait(10) == -number)
        found.append(running.stdout.read() == b"")
    return all(found)


def told_input_is_the_callers(clone):
    """Standard input goes to the program, and a reader that goes away ends it."""
    telling(clone, "if [ $1 = copy ]; then exec cat; fi; while echo 1 ok; do :; done; exit 6")
    command = [clone.top / "splinter", "--explain"]
    copied = subprocess.run([*command, "copy"], input=b"3 ok\n", capture_output=True, timeout=60)
    running = subprocess.Popen([*command, "links"], stdout=subprocess.PIPE, stderr=subprocess.DEVNULL)
    first = running.stdout.readline()
    running.stdout.close()
    return copied.stdout == b"3 ok explain\n" and first == b"1 ok explain\n" and running.wait(20) in (6, -signal.SIGPIPE)


def terminals_are_told(clone):
    """Without a flag too; and where no program is there that tells, the answers come as they are."""
    telling(clone, 'echo "1 ok"')
    told = [terminal_of([clone.top / "splinter", "replay"])]
    (clone.top / "crates" / "spl_operator" / "out" / "spl_operator").unlink()
    told.append(terminal_of([clone.top / "splinter", "replay"]))
    return told == [b"1 ok explain\r\n", b"1 ok\r\n"]


def terminal_of(command):
    """What a command writes to a terminal that is its standard output."""
    ours, theirs = os.openpty()
    running = subprocess.Popen(command, stdin=subprocess.DEVNULL, stdout=theirs, stderr=subprocess.DEVNULL)
    os.close(theirs)
    output = b""
    try:
        while more := os.read(ours, 4096):
            output += more
    except OSError:
        pass  # The other end is closed.
    os.close(ours)
    running.wait(20)
    return output


def drawing_of_links(clone):
    """A schedule in which nothing is delivered is drawn, and standard error says with which word it is one of links."""
    schedule = clone.top / "schedule"
    schedule.write_text("show alpha Ab3dE-00001\n")
    draw = [sys.executable, TOP / "docs" / "draw"]
    words = [EXAMPLES / "registry.toml", schedule, f"{sys.executable} {TESTS / 'oracle'}"]
    plain, linked = clone.run(*draw, *words), clone.run(*draw, "--links", *words)
    said = "draw: no line delivers a message; a schedule of links is drawn with --links\n"
    return plain[::2] == (0, said) and linked[::2] == (0, "") and plain[1].startswith("<svg ") and linked[1].startswith("<svg ")


def drawing_without_a_schedule(clone):
    drawn = clone.run(sys.executable, TOP / "docs" / "draw", EXAMPLES / "registry.toml", clone.top / "none")
    return drawn == (1, "", f"draw: {clone.top}/none: No such file or directory\n")


def gate_runs_each_part(clone):
    shutil.copytree(TOP / ".ci", clone.top / ".ci")
    (clone.top / "tests").mkdir()
    ended = []
    for proofs, documents in ((0, 0), (1, 0), (0, 1)):
        clone.toolchain(f"echo 'rt: spl_base proved'; echo '2 passed, {proofs} failed'; exit {proofs}")
        parts = f'[ "$2" = --list ] && exec echo proofs docs; echo "1 passed, 0 failed"; [ "$2" = proofs ] || exit {documents}'
        (clone.top / "tests" / "run").write_text(f"#!/bin/bash\n{parts}\n")
        (clone.top / "tests" / "run").chmod(0o755)
        status, output, _ = clone.run(clone.top / ".ci" / "run")
        ended.append((status, output.splitlines()[-1]))
    figures = (clone.top / "out" / "GATE.md").read_text()
    told = all(f"\n| {row} | 0:00 |\n" in figures for row in ("rt ci | 2 | 0", "proofs | 1 | 0", "docs | 1 | 0"))
    return told and ended == [(0, "ci: 3 passed, 0 failed"), (1, "ci: 2 passed, 1 failed"), (1, "ci: 2 passed, 1 failed")]


CHECKS = (
    few_descriptors, words_name_the_program, another_shell, no_room_for_temporary_files, clone_that_cannot_be_written, kept_build_is_for_all,
    version_names_the_build, build_takes_no_words, build_by_a_link, build_says_what_is_left, build_ends_what_it_started, check_of_a_proof,
    help_of_a_topic, drawing_of_links, drawing_without_a_schedule,
    answers_are_told, bad_lines_are_told, ends_over_links_are_told, files_of_another_node_end_a_run, told_answers_end_with_the_program,
    told_input_is_the_callers, terminals_are_told, gate_runs_each_part,
)


def run(words, tally):
    for check in CHECKS:
        with tempfile.TemporaryDirectory() as folder:
            try:
                is_good = check(Clone(pathlib.Path(folder)))
            except subprocess.TimeoutExpired:
                is_good = False
            tally.add(check.__name__, [] if is_good else ["not as it should be"])
