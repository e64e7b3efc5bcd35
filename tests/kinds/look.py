"""Commands that run nothing: `check` of proofs, `lint` of schedules, and `look` at the files of a folder.

words: [PROGRAM [SCHEDULES [CHECK ..]]]; PROGRAM takes these words, SCHEDULES replays and links; a CHECK is one of CHECKS below

- `check`: the proofs of drawn states, with true claims, others and falsified ones, beside the plain program's answers; and words
  that no check has.
- `lint`: every example and drawn broken schedules, beside the status and the line of a replay by the plain program; of each kind of
  line each word made a bad one, a line cut off behind each word, and words more: the column has to be that of the first bad word.
- `look`: what each question is answered over the files of drawn runs, beside what a run that goes on with a copy of them answers;
  over those of a node that served; lines that aren't questions; folders that are missing, in use, damaged and can't be written. No
  file may change.
- These and `help` take less than a tenth of a second, the quickest of five, whatever else the machine does.
"""
import fcntl
import os
import pathlib
import random
import shutil
import socket
import subprocess
import tempfile
import time

from common import EXAMPLES, MAIN, OPERATOR, REGISTRY, SPLINTER, TOP, command_of
from draws import drawn_for_links
from kinds import proofs as plain
from mutations import Breaker, sources
from program import ended

GATE = (OPERATOR, MAIN)
LINKED = EXAMPLES / "linked.schedule"
PROGRAM, SCHEDULES = [SPLINTER], [SPLINTER]
CIRCUIT = "Ab3dE-00001"
ROOT, ADDRESS = "00" * 32, "00" * 35
KINDS = ("show", "detail", "root", "history")
NOT_ASKED = (
    f"vote alpha {CIRCUIT} accept", f"tick alpha {CIRCUIT}", f"submit alpha {CIRCUIT} 9 tx out:", f"calm {CIRCUIT} 8", "stop alpha", "start alpha",
    f"show delta {CIRCUIT}", f"show {CIRCUIT}", f"show  alpha {CIRCUIT}", f"route alpha {CIRCUIT} beta aaaa bbbb", f"purge alpha {CIRCUIT}",
    f"check {ROOT} {ADDRESS} - 0000", f"watch alpha {CIRCUIT} w 0", "# a comment", "roll", "roll delta", f"get alpha {CIRCUIT} 00", "",
    f"cut 0 old show alpha {CIRCUIT}", f"deliver alpha beta {CIRCUIT} 1", f"expire alpha {CIRCUIT}", f"abandon alpha {CIRCUIT}",
)


def ran(command, *words, **how):
    """Status, output and what is said on standard error."""
    done = subprocess.run([*command, *map(str, words)], **{"stdin": subprocess.DEVNULL, "capture_output": True, "timeout": 60, **how})
    return done.returncode, done.stdout.decode(), done.stderr.decode()


# ---- check


def proofs_are_checked(top):
    """Of drawn states; what the program proves itself is accepted."""
    for seed in range(6):
        draw = plain.Draw(seed)
        asked = draw.asked()
        found = random.Random(seed).sample(plain.checks_of(draw, asked), 12)
        for root, address, claim, content, _ in found:
            came = ran(PROGRAM, "check", root.hex(), address.hex(), plain.claim_text(claim), content.hex())
            answer = plain.checked(root, address, claim, content)
            wanted = {"ok yes": (0, "yes\n", ""), "ok no": (1, "no\n", "")}.get(answer)
            wanted = wanted or (2, "", f"not a proof, from its byte {answer.split()[-1]} on\n")
            if came != wanted:
                yield f"seed {seed}, {address.hex()} {plain.claim_text(claim):.40}: {came}, wanted {wanted}"
        lines = [*plain.ACTIVE, *draw.lines(), *(f"prove alpha {CIRCUIT} {address.hex()}" for address in asked[:3])]
        for address, line in zip(asked, plain.answers(SCHEDULES, top, lines)[-len(asked[:3]) :]):
            _, _, root, content = line.split(" ")
            if ran(PROGRAM, "check", root, address.hex(), plain.claim_text(draw.state.get(address)), content) != (0, "yes\n", ""):
                yield f"seed {seed}, {address.hex()}: what is proved isn't accepted"


def words_of_a_check(top):
    """A false absence among them: an address that is longer or shorter than one is none."""
    bad = [
        (ROOT, ADDRESS + "00", "-", "0000"), (ROOT, "0a", "-", "0000"), (ROOT, "", "-", "0000"), ("", ADDRESS, "-", "0000"),
        (ROOT, ADDRESS, "64", "0000"), (ROOT, ADDRESS, "=6", "0000"), (ROOT, ADDRESS[:-2] + "0A", "-", "0000"), (ROOT, ADDRESS, "-", "000"),
        (ROOT, ADDRESS, "-", ""), (ROOT, ADDRESS, "", "0000"), (f"{ROOT} {ADDRESS}", "-", "00", "00"), (ROOT, ADDRESS, "- 00", "0000"),
        (ROOT + "\n", ADDRESS, "-", "0000"), (ROOT, ADDRESS, "-", "0000 "),
    ]
    for words in bad:
        status, output, said = ran(PROGRAM, "check", *words)
        if (status, output) != (2, "") or not said.startswith("bad word: ") or said.count("\n") != 1:
            yield f"{words}: {status, output, said}"
    for words in [(), (ROOT,), (ROOT, ADDRESS, "-"), (ROOT, ADDRESS, "-", "0000", "x")]:
        came = ran(PROGRAM, "check", *words)
        if came != (2, "", "usage: splinter check ROOT ADDRESS CLAIM HEX\n"):
            yield f"{words}: {came}"
    if ran(PROGRAM, "check", ROOT, ADDRESS, "-", "0000") != (0, "yes\n", ""):
        yield "an empty state has a value"
    with open("/dev/full", "w") as full:
        done = subprocess.run([*PROGRAM, "check", ROOT, ADDRESS, "-", "0000"], stdout=full, stderr=subprocess.PIPE)
    if (done.returncode, done.stderr) != (6, b"write failed\n"):
        yield f"nothing can be written: {done.returncode}"


# ---- lint


def linted(top, registry, schedule):
    (top / "registry").write_bytes(registry), (top / "schedule").write_bytes(schedule)
    return ran(PROGRAM, "lint", top / "registry", top / "schedule")


def fits_replay(came, replayed):
    """The first bad line is that of a replay, whose line is told with more behind it."""
    _, status, said = replayed
    if status == 4:
        return True
    if status != 3:
        return came == (status, "", said)
    return came[:2] == (3, "") and came[2].startswith(said.rstrip("\n") + ("," if ", column" in came[2] else ":")) and came[2].endswith(" wanted\n")


def replayed(top, registry, schedule):
    (top / "registry").write_bytes(registry), (top / "schedule").write_bytes(schedule)
    return ended(["replay", str(top / "registry"), str(top / "schedule")])


def schedules_are_linted(top):
    """Those of the examples and of the cases, and such with drawn changes."""
    pairs = sources(TOP)
    for number, (registry, schedule) in enumerate(pairs[::4]):
        if not fits_replay(linted(top, registry, schedule), replayed(top, registry, schedule)):
            yield f"source {4 * number}: {linted(top, registry, schedule)}"
    for seed in range(120):
        breaker = Breaker(seed, pairs)
        registry, schedule = breaker.random.choice(pairs)
        schedule = breaker.broken(schedule)
        came, wanted = linted(top, registry, schedule), replayed(top, registry, schedule)
        if not fits_replay(came, wanted):
            yield f"seed {seed}: {came}, replay {wanted[1:]}"


def registries_are_linted(top):
    for registry in (b"x", b"[[node]]\n", REGISTRY.read_bytes() + b'[[node]]\nidentity = "alpha"\ndisplay_name = "a"\nendpoints = ["x:1"]\n'):
        came, wanted = linted(top, registry, b"\n"), replayed(top, registry, b"\n")
        if came != (2, "", wanted[2]):
            yield f"{registry[-20:]}: {came}, replay {wanted[1:]}"
    for words in ((REGISTRY, top / "none"), (top / "none", LINKED), (top, LINKED)):
        if ran(PROGRAM, "lint", *words) != (5, "", "read failed\n"):
            yield f"{words}: {ran(PROGRAM, 'lint', *words)}"
    for words in ((), (REGISTRY,), (REGISTRY, LINKED, "x")):
        status, output, said = ran(PROGRAM, "lint", *words)
        if (status, output) != (1, "") or not said.startswith("usage: "):
            yield f"{words}: {status, output, said}"


def lines_of_each_kind():
    """A good line of each kind, with its words; a step in a cut and in a fail is one besides."""
    found = {}
    for _, schedule in sources(TOP):
        for line in schedule.decode("latin-1").split("\n"):
            words = line.split(" ")
            if line and not line.startswith("#") and len(line) < 2000:
                name = " ".join([words[0], *(words[3:4] if words[0] == "cut" else words[2:3] if words[0] == "fail" else ())])
                found.setdefault(name, line)
    return sorted(found.items())


def column_of(top, registry, line):
    """The column that is told of a line, and what is wanted there; none where the line is good."""
    status, _, said = linted(top, registry, line.encode("latin-1") + b"\n")
    if status == 0:
        return None
    start, _, wanted = said.partition(": line 1, column ")[2].partition(": ")
    return int(start) if start.isdigit() else said, wanted.rstrip("\n")


def columns_are_of_the_first_bad_word(top):
    registry = (TOP / "examples" / "four-nodes.toml").read_bytes()
    good = [(kind, line) for kind, line in lines_of_each_kind() if column_of(top, registry, line) is None]
    if len(good) < 20:
        yield f"only {len(good)} kinds of lines"
    for kind, line in good:
        words = line.split(" ")
        for place in range(len(words)):
            start = len(" ".join(words[:place])) + (place > 0) + 1
            broken = " ".join(words[:place] + ["\x01"] + words[place + 1 :])
            if (column_of(top, registry, broken) or [None])[0] != start:
                yield f"{kind}, word {place} a bad one: {column_of(top, registry, broken)}, wanted {start}"
            cut = " ".join(words[:place])
            came = column_of(top, registry, cut)
            if place and came and came[0] != len(cut) + 1:
                yield f"{kind}, without word {place}: {came}, wanted {len(cut) + 1}"
        for more, column in ((" \x01", len(line) + 2), ("  ", len(line) + 2), ("\r", len(line) + 1)):
            came = column_of(top, registry, line + more)
            is_free = more == "\r" and came and came[0] == len(" ".join(words[:-1])) + 2
            if (came or [None])[0] != column and not is_free:
                yield f"{kind}, {more!r} more: {came}, wanted {column}"


def ends_of_lines(top):
    usual = REGISTRY.read_bytes()
    for text, wanted in (
        (b"roll alpha", "bad schedule: line 1: a line feed at the end of the last line wanted\n"),
        (b"roll alpha\n\n# x\nroll alpha\r\n", "bad schedule: line 4, column 11: a line feed alone, without a carriage return wanted\n"),
        (b"roll alpha\n" + b"x" * 40000 + b"\n", "bad schedule: line 2: at most 32768 bytes, and 98304 in a line that begins with check wanted\n"),
        (b"roll  alpha\n", "bad schedule: line 1, column 6: one space between words and none at either end wanted\n"),
        (b"roll delta\n", "bad schedule: line 1, column 6: a node of the registry wanted\n"),
        (b"roll alpha x\n", "bad schedule: line 1, column 12: the end of the line wanted\n"),
        (b"rolls alpha\n", "bad schedule: line 1, column 1: the name of a line, as show wanted\n"),
    ):
        if linted(top, usual, text) != (3, "", wanted):
            yield f"{text[:40]}: {linted(top, usual, text)}"


# ---- look


def files_in(folder):
    return {path.name: (path.read_bytes(), path.stat().st_mtime_ns, path.stat().st_mode) for path in folder.iterdir() if path.is_file()}


def looked(folder, line, registry=REGISTRY):
    """What a line is answered, with the number of a schedule's first line."""
    status, output, said = ran(PROGRAM, "look", registry, folder, *line.split(" "))
    return output.rstrip("\n"), status, said


def questions(registry, schedule, drawn):
    """Lines that ask the nodes of drawn circuits what a schedule was about."""
    nodes = [line.split('"')[1] for line in registry.decode().split("\n") if line.startswith("identity")]
    words = [line.split(" ") for line in schedule.decode("latin-1").split("\n")]
    circuits = sorted({line[2] for line in words if line[0] == "propose" and len(line) > 2})[:3]
    addresses = sorted({part[4:74] for line in words for part in line if part.startswith("set:")}) or [ADDRESS]
    batches = sorted({line[3] for line in words if line[0] == "submit" and len(line) > 3}) or ["1"]
    found = [f"roll {node}" for node in nodes]
    for circuit in [*circuits, "zzzzz-zzzzz"]:
        for node in nodes:
            at = f"{node} {circuit}"
            found += [f"{kind} {at}" for kind in KINDS] + [f"list {at} -", f"get {at} {drawn.choice(addresses)}", f"prove {at} {drawn.choice(addresses)}"]
            found += [f"status {at} {drawn.choice(batches)}", f"receipt {at} {drawn.choice(batches)}"]
    return drawn.sample(found, min(len(found), 25))


def folders_answer_as_their_nodes(top):
    """Over what a run left, beside a run that goes on with a copy of it and is asked the same."""
    for seed in range(8):
        registry, schedule = drawn_for_links(seed)
        folder, copy = top / f"run{seed}", top / f"copy{seed}"
        folder.mkdir()
        (top / "registry").write_bytes(registry), (top / "first").write_bytes(schedule)
        ran(SCHEDULES, "links", top / "registry", top / "first", folder)
        asked = questions(registry, schedule, random.Random(seed))
        before = files_in(folder)
        for line in asked:
            shutil.copytree(folder, copy)
            (top / "rest").write_text(line + "\n")
            answer = ran(SCHEDULES, "resume", top / "registry", top / "rest", copy)[1].rstrip("\n").partition(" ")[2]
            shutil.rmtree(copy)
            came = looked(folder, line, top / "registry")
            if came[0] != answer or came[1] != (0 if answer.startswith("ok") else 15):
                yield f"seed {seed}, {line}: {came}, wanted {answer}"
        if files_in(folder) != before:
            yield f"seed {seed}: files changed"


def linked(top):
    folder = top / "linked"
    folder.mkdir()
    ran(SCHEDULES, "links", REGISTRY, LINKED, folder)
    return folder


def other_lines_are_bad(top):
    folder = linked(top)
    before = files_in(folder)
    for line in NOT_ASKED:
        if looked(folder, line) != ("bad line", 15, "refused\n"):
            yield f"{line}: {looked(folder, line)}"
    if files_in(folder) != before:
        yield "files changed"
    for words in ((), (REGISTRY,), (REGISTRY, folder)):
        if ran(PROGRAM, "look", *words)[0] != 1:
            yield f"{words}: {ran(PROGRAM, 'look', *words)}"
    if ran(PROGRAM, "look", top / "none", folder, "roll", "alpha") != (5, "", "read failed\n"):
        yield "without a registry"


def folders_that_are_not_whole(top):
    folder = linked(top)
    show = f"show alpha {CIRCUIT}"
    good = looked(folder, show)
    failed = ("", 7, "disk of alpha failed\n")
    for other in (top / "none", REGISTRY):
        if looked(other, show) != failed:
            yield f"{other.name}: {looked(other, show)}"
    empty = top / "empty"
    empty.mkdir()
    if looked(empty, show) != ("refused 2", 15, "refused: the node has no such circuit\n") or any(empty.iterdir()):
        yield f"empty: {looked(empty, show)}"
    for size in (0, 5, 60, 100):
        damaged = top / f"damaged{size}"
        shutil.copytree(folder, damaged)
        whole = (folder / "d00a").read_bytes()
        (damaged / "d00a").write_bytes(b"x" * 9 + whole[9:] if size == 0 else whole[:size])
        audited = ran(SCHEDULES, "audit", REGISTRY, damaged)
        came = looked(damaged, show)
        if audited[0] == 13 and came != ("", 13, audited[2]):
            yield f"damaged at {size}: {came}, an audit {audited}"
        if audited[0] in (0, 14) and came[1] not in (0, 15):
            yield f"damaged at {size}: {came}, an audit {audited}"
        if looked(damaged, f"show beta {CIRCUIT}")[1] != 0:
            yield "a node whose files are whole isn't answered"
    holder = os.open(folder, os.O_RDONLY)
    fcntl.flock(holder, fcntl.LOCK_EX)
    if looked(folder, show) != failed:
        yield f"in use: {looked(folder, show)}"
    fcntl.flock(holder, fcntl.LOCK_SH)
    if looked(folder, show) != good:
        yield f"beside a reader: {looked(folder, show)}"
    os.close(holder)
    for path in folder.iterdir():
        path.chmod(0o444)
    folder.chmod(0o555)
    if looked(folder, show) != good:
        yield f"read only: {looked(folder, show)}"
    folder.chmod(0o755)


def free_port():
    with socket.socket() as found:
        found.bind(("127.0.0.1", 0))
        return found.getsockname()[1]


def node_that_served(top):
    """While it serves the folder is in use; then the files answer as it did."""
    registry, folder = top / "one.toml", top / "served"
    registry.write_text(f'[[node]]\nidentity = "alpha"\ndisplay_name = "a"\nendpoints = ["127.0.0.1:{free_port()}"]\n'
                        f'[[node]]\nidentity = "beta"\ndisplay_name = "b"\nendpoints = ["127.0.0.1:{free_port()}"]\n')
    folder.mkdir()
    process = subprocess.Popen([*PROGRAM, "serve", str(registry), "alpha", str(folder), "new"], stderr=subprocess.DEVNULL)
    latest = time.monotonic() + 30
    while ran(PROGRAM, "ask", folder, "roll")[0] != 0 and time.monotonic() < latest:
        time.sleep(0.05)
    ran(PROGRAM, "ask", folder, "propose", CIRCUIT, "1", "1", "grid", "trade", "alpha,beta", "aaaa:scabbard:alpha,bbbb:scabbard:beta")
    asked = [ran(PROGRAM, "ask", folder, kind, CIRCUIT)[1] for kind in KINDS]
    if looked(folder, "roll alpha", registry) != ("", 7, "disk of alpha failed\n"):
        yield f"while it serves: {looked(folder, 'roll alpha', registry)}"
    process.kill()
    process.wait()
    came = [looked(folder, f"{kind} alpha {CIRCUIT}", registry)[0] + "\n" for kind in KINDS]
    if came != asked:
        yield f"{came}, asked {asked}"
    first, second = registry.read_text().split("[[node]]")[1:]
    registry.write_text(f"[[node]]{second}[[node]]{first}")
    if looked(folder, "roll alpha", registry) != ("", 7, "files of alpha at position 0, where the registry has another node\n"):
        yield f"with a registry of another order: {looked(folder, 'roll alpha', registry)}"


# ---- all


def answers_are_quick(top):
    """Each in a tenth of a second: `help` by the script, the others by the program, which the script has to find first."""
    folder = linked(top)
    asked = {
        "help": ([SPLINTER], "help", "5"), "check": (PROGRAM, "check", ROOT, ADDRESS, "-", "0000"), "lint": (PROGRAM, "lint", REGISTRY, LINKED),
        "look": (PROGRAM, "look", REGISTRY, folder, "show", "alpha", CIRCUIT),
    }
    for name, words in asked.items():
        took = []
        for _ in range(5):
            start = time.monotonic()
            if ran(*words)[0] != 0:
                yield f"{name} isn't answered"
            took.append(time.monotonic() - start)
        if min(took) > 0.1:
            yield f"{name} took {min(took):.2f} s at least"


CHECKS = (
    proofs_are_checked, words_of_a_check, schedules_are_linted, registries_are_linted, columns_are_of_the_first_bad_word, ends_of_lines,
    folders_answer_as_their_nodes, other_lines_are_bad, folders_that_are_not_whole, node_that_served, answers_are_quick,
)


def run(words, tally):
    PROGRAM[:], SCHEDULES[:] = command_of(words), command_of(words[1:])
    for check in CHECKS:
        if check.__name__ in words[2:] or not words[2:]:
            with tempfile.TemporaryDirectory() as top:
                tally.add(check.__name__, [f"{what:.600}" for what in list(check(pathlib.Path(top)))[:20]])
