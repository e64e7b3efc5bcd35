"""A node that goes down in each of 64 ways at an event that makes a checkpoint, and what it answers after the start.

words: [PROGRAM [NAME ..]]

The ways are those of `stops`: sixty-four, twice as many as a run may have. The runs are `queue 1` to `queue 3`, in which the node that leads
goes down while it queues a batch, each with a third of the ways; `member 1` to `member 3`, in which the other one goes down while it
promises or commits; and `commit 1` to `commit 64`, in which the first one goes down in each way while it commits.
"""
import pathlib
import tempfile

from common import MAIN, REGISTRY, Unfit, command_of, ended

GATE = (MAIN,)
ID = "Ab3dE-00001"
FILLS = ["old", "new", "byte:01", "byte:07"]


def stops():
    """Each way to go down: its words, how its answer begins, and whether the event's record is kept."""
    for calls in range(13):
        for fill in FILLS:
            yield f"cut {calls} {fill}", "cut", calls >= 4 or (calls == 3 and fill in ("new", "byte:01"))
    for call in range(1, 13):
        yield f"fail {call}", "fault", call >= 5


# How many ways a run takes, after the first one.
WAYS_OF_A_RUN = 21


def thirds():
    """The ways in three parts. Each begins with the first way, which lets no call pass: the event with which a node goes down
    for the first time makes no checkpoint, those after a start do."""
    first, *others = stops()
    return [[first, *others[at : at + WAYS_OF_A_RUN]] for at in range(0, len(others), WAYS_OF_A_RUN)]


# ---- Lines and their answers

# A batch with these commands has 1,010 bytes, and its line fits.
FULL = " ".join(["data:" + "5a" * 139] * 7)


def active():
    """A circuit of alpha, which leads, and beta."""
    yield f"propose alpha {ID} 1 1 grid trade alpha,beta aaaa:scabbard:alpha,bbbb:scabbard:beta", "ok queued"
    yield f"calm {ID} 8", "ok calm 8"
    yield f"vote beta {ID} accept", "ok queued"
    yield f"calm {ID} 8", "ok calm 8"


def filled(batches):
    """The same with so many full batches committed, in as many rounds."""
    yield from active()
    for batch in range(1, batches + 1):
        yield f"submit alpha {ID} {batch} tx {FULL}", "ok queued"
        yield f"calm {ID} 2", "ok calm 2"


def history(node, batches):
    return f"history {node} {ID}", " ".join(map(str, ["ok history", len(batches), *batches]))


class Post:
    """How many messages were sent from alpha to beta and back. The proposal and the vote take 6 and 7, each batch by its
    calm 3 and 2: a request, a decision and one told; a vote and a question."""

    def __init__(self, batches):
        self.sent = {"alpha beta": 6 + 3 * batches, "beta alpha": 7 + 2 * batches}

    def deliver(self, pair):
        """The delivery of the next message on a pair."""
        self.sent[pair] += 1
        return f"deliver {pair} {ID} {self.sent[pair]}"


# ---- Runs

# What is packed of so many batches has 76,500 bytes and more: a journal of it has no room once it is read at a start
# (65,572 bytes), so the first event with changes after a start makes a checkpoint.
MANY = 75


def queue(ways):
    """Alpha goes down while it queues a batch. After the start it has those that were kept, and both commit them."""
    yield from filled(MANY)
    known = list(range(1, MANY + 1))
    for batch, (words, answer, kept) in enumerate(ways, 1001):
        yield f"{words} submit alpha {ID} {batch} tx data:01", f"{answer} {'kept' if kept else 'lost'}"
        yield "start alpha", "ok up"
        yield f"status alpha {ID} {batch}", "ok status pending" if kept else "refused 19"
        known += [batch] * kept
    yield f"calm {ID} 64", "ok calm 64"
    yield history("alpha", known)
    yield history("beta", known)


def histories(alpha, beta):
    """Both hold so many batches, from 1 on."""
    yield history("alpha", list(range(1, alpha + 1)))
    yield history("beta", list(range(1, beta + 1)))


def member(ways):
    """Beta goes down while it promises, until a promise is kept; then while it commits, until that is kept; and so on."""
    yield from filled(MANY)
    post, round, ways = Post(MANY), MANY, iter(ways)
    while True:
        round += 1
        yield f"submit alpha {ID} {round} tx data:01", "ok queued"
        yield f"tick alpha {ID}", f"ok idle / begun {round}"
        request = post.deliver("alpha beta")
        asks = f"ok idle / asked {round}"
        if not (yield from went_down(ways, request, (f"tick beta {ID}", asks, "ok idle / idle"))):
            yield from histories(round - 1, round - 1)
            return
        post.deliver("beta alpha")
        yield request, f"ok again {round}"
        yield post.deliver("beta alpha"), f"ok committed {round}"
        asked = f"status beta {ID} {round}", f"ok status committed {round - 1}", "refused 19"
        if not (yield from went_down(ways, post.deliver("alpha beta"), asked)):
            yield from histories(round, round - 1)
            return


def went_down(ways, line, asked):
    """Beta goes down in the event of a line, until that is kept; false where no way is left. After each start it is
    asked something, with the answers where the event was kept and where it was lost."""
    question, if_kept, if_lost = asked
    for words, answer, kept in ways:
        yield f"{words} {line}", f"{answer} {'kept' if kept else 'lost'}"
        yield "start beta", "ok up"
        yield question, if_kept if kept else if_lost
        if kept:
            return True
    return False


# The journal of alpha has 478 bytes once the circuit is active, and 2,096 more after each full batch: 65,454. A batch of
# 23 bytes brings 43 bytes when it is queued, 28 when its round begins and 51 when it is committed: 65,576 in the end,
# which is more than the 65,572 that a journal may have that was made with 18.
FEW = 31
SMALL = "tx data:01020304"


def commit(words, answer, kept):
    """Alpha goes down while it commits, in the event with which its journal has no more room for the first time."""
    yield from filled(FEW)
    post, batch, round = Post(FEW), FEW + 1, FEW + 1
    yield f"submit alpha {ID} {batch} {SMALL}", "ok queued"
    yield f"tick alpha {ID}", f"ok idle / begun {round}"
    yield post.deliver("alpha beta"), f"ok promised {round}"
    yield f"{words} {post.deliver('beta alpha')}", f"{answer} {'kept' if kept else 'lost'}"
    yield "start alpha", "ok up"
    yield f"status alpha {ID} {batch}", f"ok status committed {batch - 1}" if kept else "ok status pending"
    yield f"tick beta {ID}", f"ok idle / asked {round}"
    yield post.deliver("beta alpha"), f"ok told {round} {'commit' if kept else 'abort'}"
    yield post.deliver("alpha beta"), f"ok {'committed' if kept else 'aborted'} {round}"
    yield f"calm {ID} 2", "ok calm 2"
    yield history("alpha", list(range(1, batch + 1)))
    yield history("beta", list(range(1, batch + 1)))


def differences(program, pairs):
    """The first line whose answer differs, or how the run ended, where that isn't as it has to be."""
    with tempfile.TemporaryDirectory() as folder:
        schedule = pathlib.Path(folder) / "schedule"
        schedule.write_text("".join(line + "\n" for line, _ in pairs))
        output, status, said = ended([*program, "replay", REGISTRY, schedule])
    answers = output.decode().splitlines()
    for number, (came, (line, answer)) in enumerate(zip(answers, pairs), 1):
        if came != f"{number} {answer}":
            return f"{line:.100} is answered {came:.200}, wanted {number} {answer:.200}"
    if status or len(answers) != len(pairs):
        return f"status {status} after {len(answers)} answers of {len(pairs)}: {said.decode():.200}"
    return None


def run(words, tally):
    program = command_of(words)
    runs = {f"queue {number}": list(queue(ways)) for number, ways in enumerate(thirds(), 1)}
    runs |= {f"member {number}": list(member(ways)) for number, ways in enumerate(thirds(), 1)}
    runs |= {f"commit {number}": list(commit(*way)) for number, way in enumerate(stops(), 1)}
    for name in words[1:] or runs:
        if name not in runs:
            raise Unfit(f"no run is called {name}")
        found = differences(program, runs[name])
        tally.add(name, [found] if found else [])
