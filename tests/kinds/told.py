"""Answers in words and as objects, and short addresses: what the program of nodes makes of answers, beside the answers themselves and the
tables of docs/RULES.md.

words: [PROGRAM [SCHEDULES]]; PROGRAM takes the words explain, json and look, SCHEDULES those of schedules

- `words`: of every answer of the examples and cases: the answer comes first, whole, and words behind it, unless it is none; of each
  refusal, reason and lifecycle its own.
- `objects`: of the same and of drawn lines: what the rules say of each, by this file's own reading of them; each is one JSON text.
- lines come as they are written, a last one that isn't whole stays so, and a reader that goes away ends the program.
- `names`: short addresses in what a folder is asked, beside whole ones, and in lists.
- `banks`: the commands of examples/banks/README.md, typed one after another, answer what stands there; by ./splinter.
"""
import json
import os
import pathlib
import random
import re
import shutil
import signal
import subprocess
import tempfile
import time

from common import EXAMPLES, MAIN, OPERATOR, REGISTRY, SPLINTER, TESTS, command_of
from kinds.nodes import free_port

GATE = (OPERATOR, MAIN)
PROGRAM, SCHEDULES = [SPLINTER], [SPLINTER]
CIRCUIT = "Ab3dE-00001"
NOTE = r"-|[a-z]+(?: [0-9]+(?: [a-z0-9]+)?)?"
# What an answer is called, and its members in order. Those of one kind of value have its letter behind a `__`: l a list between commas,
# n and t a list of numbers and of texts after spaces, j an object.
FORMS = [
    ("refused", r"refused (?P<number>\S*)"), ("refused", r"refused (?P<number>\S*) (?P<detail>\S*)"),
    *((word, f"ok {word}") for word in "queued known abandoned purged none yes no routed down up".split()),
    *((word, word) for word in ("yes", "no", "agreed", "bad line")),
    ("circuit", r"ok circuit generation (?P<generation>\S*) lifecycle (?P<lifecycle>\S*) mark (?P<mark>\S*) accepted (?P<accepted__l>\S*) "
                r"acts (?P<acts>\S*) (?P<acts_pending>\S*) batches (?P<batches>\S*) (?P<batches_pending>\S*)"),
    ("detail", r"ok detail (?P<circuit__j>\S*)"), ("receipt", r"ok receipt (?P<receipt__j>\S*)"),
    ("root", r"ok root (?P<batches>\S*) (?P<root__s>\S*)"), ("history", r"ok history (?P<count>\S*)(?P<batches__n>(?: \S*)*)"),
    ("value", r"ok value (?P<value__s>\S*)"), ("proof", r"ok proof (?P<root__s>\S*) (?P<proof__s>\S*)"),
    ("entries", r"ok entries (?P<count>\S*)(?P<entries__t>(?: \S*)*)"), ("status", r"ok status (?P<status>\S*)"),
    ("status", r"ok status (?P<status>\S*) (?P<place>\S*)"), ("status", r"ok status (?P<status>\S*) (?P<reason>\S*) (?P<transaction>\S*)"),
    ("calm", r"ok calm (?P<passes>\S*)"), ("roll", r"ok roll (?P<count>\S*)(?P<circuits__t>(?: \S*)*)"),
    ("watching", r"ok watching (?P<place>\S*)"), ("delta", r"ok delta (?P<count>\S*)(?P<deltas__t>(?: \S*)*)"),
    ("peers", r"ok peers(?P<peers__t>(?: \S*)*)"), ("waits", r"ok waits(?P<waits__t>(?: \S*)*)"),
    *((word, f"ok {word}") for word in "idle forwarded ignored - voted spent accepted counted undecided commit abort".split()),
    *((word, rf"ok {word} (?P<round>\S*)") for word in "asked begun expired declined again promised counted committed aborted".split()),
    *((word, rf"ok {word} (?P<ballot>\S*)") for word in "ballot higher sent noted".split()),
    *((word, rf"ok {word} (?P<reason>\S*) (?P<transaction>\S*)") for word in ("refused", "returned")),
    ("told", r"ok told (?P<round>\S*) (?P<decision>\S*)"),
    ("notes", r"ok (?P<admin__s>\S*)(?: (?P<admin_number>\S*))?(?: (?P<admin_detail>\S*))? / "
              r"(?P<service__s>\S*)(?: (?P<service_number>\S*))?(?: (?P<service_detail>\S*))?"),
    ("cut", r"cut (?P<outcome>\S*)"), ("fault", r"fault (?P<outcome>\S*)"),
    ("disagreed", r"disagreed (?P<circuit>\S*) (?P<generation>\S*) (?P<list>\S*) (?P<first>\S*) (?P<second>\S*) (?P<place>\S*)"),
    ("lists", r"(?P<circuit>\S*) (?P<generation>\S*) acts (?P<acts>\S*) batches (?P<batches>\S*)"),
]
FORMS = [(name, re.compile(form)) for name, form in FORMS]
TEXTS = set("lifecycle mark status decision outcome circuit list first second".split())
SAID = {
    "refused 1": "the node is down", "refused 5 1": "the generation has to be above this one", "refused 26 3": "the bytes aren't a proof",
    "ok status refused 9 0": "a transaction writes outside its outputs", "ok status refused 12 1": "the command error ran",
    "ok status refused 10 2": "the transaction at fault, from 1 on", "ok refused 7 0": "a member voted no",
    "ok status pending": "not decided yet", "cut lost": "its record isn't on the disks",
    "ok circuit generation 1 lifecycle disbanding mark abandoned accepted alpha acts 1 0 batches 0 0": "this node takes no part in it any more",
    "ok begun 1 / -": "begins this round", "12 ok committed 3": "is committed here", "agreed": "no two nodes disagree",
}


def made(how, content):
    """What the program makes of output, and the number that it leaves."""
    with tempfile.TemporaryDirectory() as top:
        (pathlib.Path(top) / "answers").write_bytes(content)
        with open(pathlib.Path(top) / "answers", "rb") as answers:
            done = subprocess.run([*PROGRAM, how, f"{top}/number"], stdin=answers, capture_output=True, timeout=60)
        number = (pathlib.Path(top) / "number").read_bytes() if (pathlib.Path(top) / "number").exists() else None
    return done.returncode, done.stdout, done.stderr, number


def outputs():
    """Those of the examples and cases, by their names; those of Paxos Commit apart."""
    for path in sorted([*EXAMPLES.glob("*.output"), *TESTS.glob("cases/*/output")]):
        words = path.parent / "words"
        yield path, "paxos" in path.stem or words.exists() and words.read_text().startswith("paxos")


def value_of(name, word):
    """The value of a member: a number where it is one, but for words that are texts."""
    name, _, kind = name.partition("__")
    number = lambda text: int(text) if re.fullmatch(r"0|[1-9][0-9]*", text) else text
    if kind == "l":
        return [] if word == "-" else word.split(",")
    if kind in ("n", "t"):
        return [number(item) if kind == "n" else item for item in word.split(" ")[1:]]
    if kind == "j":
        return json.loads(word)
    return word if kind == "s" or name in TEXTS else number(word)


def object_of(line):
    """The object of a line of output, by the rules, as the pairs of its members."""
    number, answer = re.fullmatch(r"(?:(0|[1-9][0-9]*) )?(.*)", line, re.S).groups()
    pairs = [] if number is None else [("line", int(number))]
    for name, form in FORMS:
        found = form.fullmatch(answer)
        if found and (name != "notes" or " / " in answer):
            given = [(key, word) for key, word in found.groupdict().items() if word is not None]
            return [*pairs, ("answer", name), *((key.partition("__")[0], value_of(key, word)) for key, word in given)]
    return [*pairs, ("text", answer)]


def answers_have_words(top):
    known = 0
    for path, is_paxos in outputs():
        content = path.read_bytes()
        status, output, said, number = made("explain-paxos" if is_paxos else "explain", content)
        lines, told = content.decode().split("\n")[:-1], output.decode().split("\n")[:-1]
        if (status, said) != (0, b"") or len(lines) != len(told):
            yield f"{path}: status {status}, {len(told)} lines of {len(lines)}, {said}"
            continue
        for line, came in zip(lines, told):
            behind = came[len(line) :]
            is_known = object_of(line)[-1][0] != "text"
            known += is_known
            if not came.startswith(line) or not (re.fullmatch(r"  \(.+\)", behind) if is_known else behind == ""):
                yield f"{path}: {line:.80} -> {came[-200:]}"
        numbers = [line.split(" ")[0] for line in lines if line[:1].isdigit()]
        if number is None or number.decode() != (re.match("[0-9]*", numbers[-1]).group() if numbers else "") + "\n":
            yield f"{path}: it leaves {number}"
    if known < 1000:
        yield f"only {known} answers"


def answers_have_their_own_words(top):
    for line, words in SAID.items():
        output = made("explain", line.encode() + b"\n")[1].decode()
        if words not in output or not output.startswith(line + "  ("):
            yield f"{line}: {output}"
    for line, words in {"3 refused 2": "the member has voted", "3 refused 3": "no such message"}.items():
        if words not in made("explain-paxos", line.encode() + b"\n")[1].decode():
            yield f"{line} of Paxos Commit"
    said = [made("explain", f"refused {number}\n".encode())[1] for number in range(1, 27)]
    if len(set(said)) != 26 or any(b"; " not in text for text in said):
        yield "a refusal has no words, or those of another"


def compared(lines):
    status, output, said, _ = made("json", "".join(f"{line}\n" for line in lines).encode("latin-1"))
    told = output.decode("ascii").split("\n")[:-1]
    if (status, said) != (0, b"") or len(told) != len(lines):
        yield f"status {status}, {len(told)} lines of {len(lines)}, {said}"
    for line, text in zip(lines, told):
        try:
            came = json.loads(text, object_pairs_hook=list)
        except ValueError as error:
            yield f"{line!r:.200} -> {text:.200}: {error}"
            continue
        wanted = json.loads(json.dumps(dict(object_of(line))), object_pairs_hook=list)
        if came != wanted:
            yield f"{line!r:.200} -> {text:.300}, wanted {wanted!r:.300}"


def answers_are_objects(top):
    for path, _ in outputs():
        yield from (f"{path}: {what}" for what in compared(path.read_text().split("\n")[:-1]))


def drawn_lines_are_objects(top):
    """Words of answers in another order, with bytes that no answer has."""
    draw = random.Random(11)
    pieces = "1 ok 22 refused 3 queued circuit generation lifecycle active - / idle asked 01 status committed \" \\ \x01 \x7f \xe9 {} , a,b =".split(" ")
    lines = [" ".join(draw.choices(pieces, k=draw.randint(1, 7))) for _ in range(3000)]
    # An object in a line that no program writes is taken as it is, which this file's reading doesn't.
    yield from compared([line for line in lines if "detail" not in line and "receipt" not in line])


def lines_come_one_by_one(top):
    """Each at once; the last one may lack its line feed; a reader that goes away is an end."""
    running = subprocess.Popen([*PROGRAM, "explain", "/dev/null"], stdin=subprocess.PIPE, stdout=subprocess.PIPE)
    for number in range(3):
        running.stdin.write(b"%d ok queued\n" % number)
        running.stdin.flush()
        began = time.monotonic()
        if not running.stdout.readline().startswith(b"%d ok queued  (" % number) or time.monotonic() - began > 5:
            yield f"line {number}"
    running.stdin.write(b"4 ok que")
    running.stdin.close()
    if running.stdout.read() != b"4 ok que" or running.wait(20) != 0:
        yield "a line that isn't whole"
    running = subprocess.Popen([*PROGRAM, "json", "/dev/null"], stdin=subprocess.PIPE, stdout=subprocess.PIPE, stderr=subprocess.PIPE)
    running.stdout.close()
    try:
        for _ in range(1000):
            running.stdin.write(b"1 ok queued\n" * 100)
            running.stdin.flush()
    except BrokenPipeError:
        pass
    else:
        yield "it reads on without a reader"
    running.stdin = None
    if running.communicate(timeout=20)[1] != b"":
        yield "it says something without a reader"


NAMES = ("loan", "a", "Z9-", "x" * 35)


def whole(name):
    return name.encode().hex().ljust(70, "0")


def names_stand_for_addresses(top):
    """In what a folder is asked, and behind lists."""
    lines = [f"propose alpha {CIRCUIT} 1 2 splinter first alpha,beta aaaa:scabbard:alpha,bbbb:scabbard:beta", f"vote beta {CIRCUIT} accept"]
    lines += [f"submit alpha {CIRCUIT} {number} tx out: set:{whole(name)}={number:02x}" for number, name in enumerate(NAMES)]
    lines.append(f"submit alpha {CIRCUIT} 9 tx out: set:{'00' * 35}=77")
    (top / "schedule").write_text("\n".join(lines) + "\n")
    (top / "run").mkdir()
    subprocess.run([*SCHEDULES, "links", str(REGISTRY), str(top / "schedule"), str(top / "run")], capture_output=True, timeout=60)

    def looked(*words):
        done = subprocess.run([*PROGRAM, "look", str(REGISTRY), str(top / "run"), *words], capture_output=True, timeout=60, stdin=subprocess.DEVNULL)
        return done.returncode, done.stdout.decode().rstrip("\n")

    for number, name in enumerate(NAMES):
        wanted = looked("get", "alpha", CIRCUIT, whole(name))
        if wanted != (0, f"ok value {number:02x}") or looked("get", "alpha", CIRCUIT, f"'{name}") != wanted:
            yield f"get of {name}: {wanted}, {looked('get', 'alpha', CIRCUIT, f'{chr(39)}{name}')}"
        if looked("prove", "alpha", CIRCUIT, f"'{name}") != looked("prove", "alpha", CIRCUIT, whole(name)):
            yield f"prove of {name}"
    if looked("list", "alpha", CIRCUIT, "'lo") != looked("list", "alpha", CIRCUIT, b"lo".hex()):
        yield "a prefix"
    for word in ("'", "'a_b", "'" + "x" * 36, "loan", "''a"):
        if looked("get", "alpha", CIRCUIT, word) != (15, "bad line"):
            yield f"{word} is an address"
    entries = looked("list", "alpha", CIRCUIT, "-")[1]
    told = made("explain", f"{entries}\n".encode())[1].decode()
    short = "".join(f"; '{name}={number:02x}" for number, name in sorted(enumerate(NAMES), key=lambda pair: whole(pair[1])))
    if not entries.startswith("ok entries 5 ") or not told.endswith(f"with its own{short})\n"):
        yield f"a list: {told[-200:]}"


BANKS = EXAMPLES / "banks"
# What the shell says of its jobs.
OF_JOBS = re.compile(r"\[\d+\].*|bash: line \d+: +\d+ (?:Terminated|Killed) .*")


class Shell:
    """One in which commands are typed."""

    def __init__(self, folder):
        self.process = subprocess.Popen(
            ["bash"], cwd=folder, stdin=subprocess.PIPE, stdout=subprocess.PIPE, stderr=subprocess.STDOUT, text=True, start_new_session=True
        )

    def answer(self, command):
        """What a command prints."""
        self.process.stdin.write(f"{command}\nprintf '\\n=%s=\\n' end\n")
        self.process.stdin.flush()
        lines = []
        for line in self.process.stdout:
            if line == "=end=\n":
                break
            lines.append(line.rstrip("\n"))
        text = "\n".join(line for line in lines if not OF_JOBS.fullmatch(line))
        return text[:-1] if text.endswith("\n") else text

    def close(self):
        os.killpg(self.process.pid, signal.SIGKILL)
        self.process.communicate()


def typed_in(text):
    """The commands of a document, each with what it answers."""
    for block in re.findall(r"^```console\n(.*?)^```$", text, re.M | re.S):
        for part in re.split(r"^\$ ", block, flags=re.M)[1:]:
            command, _, answer = part.partition("\n")
            yield command, answer.rstrip("\n")


def is_answered(shell, command, wanted):
    """What is asked of a node comes to be so; what else is typed is so at once. None where it is, else what came."""
    form = re.compile(".*".join(map(re.escape, wanted.split(".."))))
    latest = time.monotonic() + 30
    while not form.fullmatch(came := shell.answer(command)):
        is_question = re.search(r"splinter (--\w+ )?(ask|status) |^head ", command)
        if not is_question or time.monotonic() > latest:
            return came
        time.sleep(0.1)
    return None


def banks_are_as_typed(top):
    """The ports of the registry are others here, which are free."""
    shutil.copytree(BANKS, top / "examples" / "banks")
    (top / "splinter").symlink_to(SPLINTER)
    registry = top / "examples" / "banks" / "registry.toml"
    registry.write_text(re.sub(r"(?<=127\.0\.0\.1:)\d+", lambda _: str(free_port()), registry.read_text()))
    commands = list(typed_in((BANKS / "README.md").read_text()))
    shell = Shell(top)
    try:
        for command, wanted in commands:
            came = is_answered(shell, command, wanted)
            if came is not None:
                yield f"{command}: {came}, wanted {wanted}"
                return
    finally:
        shell.close()
    if len(commands) < 30:
        yield f"only {len(commands)} commands"


CHECKS = (
    answers_have_words, answers_have_their_own_words, answers_are_objects, drawn_lines_are_objects, lines_come_one_by_one, names_stand_for_addresses,
    banks_are_as_typed,
)


def run(words, tally):
    PROGRAM[:], SCHEDULES[:] = command_of(words), command_of(words[1:])
    for check in CHECKS:
        with tempfile.TemporaryDirectory() as top:
            tally.add(check.__name__, [f"{what:.600}" for what in list(check(pathlib.Path(top)))[:20]])
