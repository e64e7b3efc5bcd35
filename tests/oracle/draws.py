"""Registries and schedules drawn from a seed: few circuits and addresses, so that lines meet each other; nodes that stop
and mostly start soon, so that runs go on; a few broken lines, broken registries, and runs that pass a limit."""
import random

from cells import Bound
from proofs import proof_of, root_of, written
from schedules import UNTAKEN, BadLine, TooMany, World
from values import state_of

NAMES = ["alpha", "beta", "gamma", "a", "a-1", "b", "omega", "0", "alphabet"]
CIRCUITS = ["Ab3dE-00001", "Ab3dE-00002", "Zz9zZ-00000"]
ADDRESSES = ["00" * 34 + "01", "00" * 34 + "02", "00" * 33 + "0102", "ff" * 35]
SERVICES = ["aaaa", "bbbb", "cccc", "dddd", "eeee"]
FILLS = ["old", "new", "byte:01", "byte:07"]
BROKEN = ["show alpha", "show delta Ab3dE-00001", "calm Ab3dE-00001 0", "vote alpha Ab3dE-00001 maybe", "show  alpha Ab3dE-00001"]
BROKEN += ["stop delta", "start", "roll alpha beta", "cut 256 new", "fail 0", "cut 3 byte:1", "fail 1 calm Ab3dE-00001 1", "cut 1 old stop"]
BROKEN += [f"cut 3 new prove alpha Ab3dE-00001 {ADDRESSES[0]}", f"fail 1 check {'00' * 32} {ADDRESSES[0]} - 0000", "prove alpha Ab3dE-00001 00"]
BROKEN += [f"check {'00' * 32} {ADDRESSES[0]} {end}" for end in ("-", "- ", "- 0", "2a 0000", "=2 0000", "- 00 00")]
BROKEN += ["watch alpha Ab3dE-00001 W 0", "pull alpha Ab3dE-00001 w 0", "pull alpha Ab3dE-00001 w 65", "cut 1 old pull alpha Ab3dE-00001 w 1"]


class Draw:
    """Draws lines, and runs them along, so that most deliveries are of messages that were just sent."""

    def __init__(self, seed):
        self.random = random.Random(seed)
        self.nodes = sorted(self.random.sample(NAMES, self.one([3, 3, 4, 5])))
        self.spare = self.random.sample([n for n in NAMES if n not in self.nodes], self.one([0, 0, 1, 3]))
        self.world = World(self.nodes + self.spare)
        self.circuits = CIRCUITS[: self.random.choice([1, 1, 2, 3])]
        self.members = {}
        # Whether some batches have many bytes.
        self.is_long = self.random.random() < 0.1
        # How many messages of a circuit and pair calms and deliveries in turn have handed over.
        self.handed = {}

    def one(self, things):
        return self.random.choice(things)

    def lines(self):
        """A schedule's lines: most circuits are brought to active first, so that batches run."""
        found = []
        for circuit in self.circuits:
            if self.random.random() < 0.85:
                found += [self.ran(line) for line in self.accepted(circuit)]
        found += [self.ran(self.line()) for _ in range(self.random.randint(20, 120))]
        found += [self.ran(line) for line in self.beyond()]
        if self.random.random() < 0.1:
            found.insert(self.random.randrange(len(found) + 1), self.one([*BROKEN, "", "# a comment"]))
        return found

    def ran(self, line):
        try:
            self.world.run(line)
        except (BadLine, TooMany):
            pass
        if line.startswith("calm "):
            self.handed |= {key: len(messages) for key, messages in self.world.sent.items() if key[0] in line}
        return line

    def beyond(self):
        """Lines at the end that come near a limit of runs, or pass it; mostly none."""
        kind = self.random.random()
        if kind < 0.02:
            return [self.stop_line() for _ in range(self.random.randint(20, 34))]
        if kind < 0.03:
            return [f"calm {self.one(self.circuits)} 64" for _ in range(self.random.randint(80, 300))]
        return []

    def some(self, least):
        """Some of the nodes, in their order."""
        return sorted(self.random.sample(self.nodes, self.random.randint(least, len(self.nodes))))

    def accepted(self, circuit):
        members = self.one([self.nodes, self.nodes[:2], self.nodes[1:], self.nodes[::2], self.some(2)])
        first, *others = self.random.sample(members, len(members))
        found = [self.propose(circuit, first, members, 1), f"calm {circuit} 8"]
        for node in others:
            found += [f"vote {node} {circuit} accept", f"calm {circuit} {self.one([2, 4, 8])}"]
        return found

    def propose(self, circuit, node, members, generation):
        self.members[circuit] = members
        ids = self.random.sample(SERVICES[: max(3, len(members))], len(members))
        roster = sorted(zip(ids, members))
        services = ",".join(f"{id}:scabbard:{member}" for id, member in roster)
        name = self.one(["trade", "trade", "trio"])
        return f"propose {node} {circuit} {generation} {self.one([1, 2, 2])} grid {name} {','.join(members)} {services}"

    def line(self):
        circuit = self.one(self.circuits)
        node = self.one(self.members.get(circuit, self.nodes) if self.random.random() < 0.9 else self.nodes + self.spare)
        kinds = {
            self.drawn_propose: 4,
            self.vote: 7,
            self.submit: 12,
            self.ask: 20,
            self.prove: 2,
            self.check: 1,
            self.step: 20,
            self.deliver: 30,
            self.calm: 3,
            self.leave: 2,
            self.roll: 3,
            self.stop: 4,
            self.break_off: 7,
            self.watch: 4,
        }
        down = sorted(self.world.down)
        if down and self.random.random() < 0.3:
            return f"start {self.one(down)}"
        return self.random.choices(list(kinds), list(kinds.values()))[0](circuit, node)

    def drawn_propose(self, circuit, node):
        if self.random.random() < 0.2:
            a, b, c, *_ = self.nodes
            version, members = self.one([(3, f"{a},{b}"), (1, f"{b},{a}"), (1, a), (1, f"{a},{c}")])
            return f"propose {node} {circuit} 1 {version} grid trade {members} aaaa:scabbard:{a},bbbb:scabbard:{b}"
        return self.propose(circuit, node, self.one([self.nodes, self.nodes[:2], self.some(2)]), self.one([1, 1, 1, 2, 2, 3]))

    def vote(self, circuit, node):
        rare = [f"vote {node} {circuit} reject", f"remove {node} {circuit}", f"disband {node} {circuit}", f"disband {node} {circuit}"]
        return self.one([f"vote {node} {circuit} accept"] * 5 + rare)

    def submit(self, circuit, node):
        is_long = self.is_long and self.random.random() < 0.4
        body = self.long_batch() if is_long else self.batch()
        return f"submit {node} {circuit} {self.random.randint(1, 9)} {body}".rstrip()

    def batch(self):
        count = self.random.choices([0, 1, 2, 3, 17], [1, 40, 12, 6, 1])[0]
        return " ".join(self.transaction() for _ in range(count))

    def long_batch(self):
        """Values of many bytes; or as many events as a batch may have but a few, and data of many bytes, so that its
        messages go over links in parts."""
        if self.random.random() < 0.6:
            sizes = self.one([[300], [4096], [4096], [4097], [300, 4095], [4096, 4096, 3500], [2000] * 7, [4096] * 4])
            return " ".join(["tx in: out:", *map(self.long_command, sizes)])
        events = " ".join(["tx", *[f"event:{'k' * 64}="] * 16])
        data = self.one([[], [1500], [4000, 3000]])
        return " ".join([*[events] * 15, "tx", *(f"data:{'5a' * size}" for size in [1, *data])])

    def long_command(self, size):
        data = self.one(["00", "a5", "ff"]) * size
        return self.one([f"set:{self.one(ADDRESSES)}={data}", f"set:{self.one(ADDRESSES)}={data}", f"event:kind={data}", f"data:{data}"])

    def transaction(self):
        inputs = self.one(["in:"] * 4 + ["in:00", ""])
        outputs = self.one(["out:"] * 8 + ["out:00", "out:ff out:00", ""])
        commands = [self.command() for _ in range(self.random.choices([0, 1, 2, 4], [1, 40, 20, 10])[0])]
        return " ".join(word for word in ["tx", inputs, outputs, *commands] if word)

    def command(self):
        address, data = self.one(ADDRESSES), self.one(["", "2a", "2a", "00ff", "01"] * 8 + ["2a" * 257, "2a" * 4097])
        usual = [f"set:{address}={data}"] * 6 + [f"get:{address}"] * 2 + [f"del:{address}"] * 3
        rare = self.one(["invalid:no", "error:no", f"event:kind={data}"])
        return self.one(usual + [f"event:kind={data}", f"data:{data}", rare])

    def ask(self, circuit, node):
        asked = [f"{word} {node} {circuit}" for word in ("show", "show", "root", "root", "history")]
        asked += [f"get {node} {circuit} {self.one(ADDRESSES)}", f"list {node} {circuit} {self.one(['-', '00', 'ff'])}"]
        asked += [f"{word} {node} {circuit} {self.random.randint(1, 9)}" for word in ("status", "receipt")]
        asked.append(f"detail {node} {circuit}")
        services = self.one([*SERVICES[:3], "zzzz"]), self.one(SERVICES[:3])
        asked.append(f"route {node} {circuit} {self.one(self.nodes)} {services[0]} {services[1]}")
        return self.one(asked)

    def prove(self, circuit, node):
        return f"prove {node} {circuit} {self.one(ADDRESSES)}"

    def check(self, circuit, node):
        """What a node has at an address, or something else, by its own proof; in some of them a byte is another one, or the
        last ones are cut off, or more follow."""
        cell = self.world.at(node, circuit).cell
        state = state_of(cell.batches.values()) if isinstance(cell, Bound) else {}
        address = bytes.fromhex(self.one(ADDRESSES))
        value, found = state.get(address), bytearray(written(proof_of(state, address)))
        claim = "-" if value is None else f"={value.hex()}"
        change = self.random.random()
        if change < 0.2:
            found[self.random.randrange(len(found))] ^= 1 << self.random.randrange(8)
        elif change < 0.3:
            found = found[: self.random.randint(1, len(found))]
        elif change < 0.4:
            found += bytes(self.random.randint(1, 3))
        return f"check {root_of(state).hex()} {address.hex()} {self.one([claim, claim, claim, '-', '=', '=2a'])} {found.hex()}"

    def step(self, circuit, node):
        return self.one([f"tick {node} {circuit}"] * 6 + [f"expire {node} {circuit}"])

    def deliver(self, circuit, node):
        pairs = [(a, b) for a in self.nodes for b in self.nodes if a != b]
        count = lambda pair: len(self.world.sent.get((circuit, *pair), []))
        fresh = [pair for pair in pairs if self.handed.get((circuit, *pair), 0) < count(pair)]
        if fresh and self.random.random() < 0.7:
            sender, to = self.one(fresh)
            self.handed[circuit, sender, to] = self.handed.get((circuit, sender, to), 0) + 1
            return f"deliver {sender} {to} {circuit} {self.handed[circuit, sender, to]}"
        sender, to = self.one([pair for pair in pairs if count(pair)] or pairs)
        back = self.random.choices([0, 1, 2, 5, -1], [10, 4, 2, 2, 1])[0]
        return f"deliver {sender} {to} {circuit} {max(1, count((sender, to)) - back)}"

    def leave(self, circuit, node):
        return self.one([f"abandon {node} {circuit}", f"purge {node} {circuit}", f"purge {node} {circuit}"])

    def calm(self, circuit, node):
        return f"calm {circuit} {self.one([1, 1, 2, 4, 8])}"

    def roll(self, circuit, node):
        return f"roll {node}"

    def watch(self, circuit, node):
        name = self.one(["w", "w", "v", "09az"])
        if self.random.random() < 0.35:
            return f"watch {node} {circuit} {name} {self.one([0, 0, 0, 1, 2, 9])}"
        return f"pull {node} {circuit} {name} {self.one([1, 2, 3, 64])}"

    def stop(self, circuit, node):
        return self.one([f"stop {node}"] * 4 + [f"start {node}"])

    def break_off(self, circuit, node):
        """A cut or a fail, mostly of an event with changes."""
        ways = [self.step] * 3 + [self.deliver] * 4 + [self.submit, self.vote, self.drawn_propose, self.ask, self.leave]
        lines = [self.one(ways)(circuit, self.one(self.nodes)) for _ in range(8)]
        line = next((line for line in lines if self.changes(line)), lines[0])
        if self.random.random() < 0.3:
            return f"fail {self.one([1, 2, 3, 4, 5, 6, 8, 12, 255])} {line}"
        calls = self.one([0, 1, 2, 3, 3, 3, 4, 4, 5, 8, 12, 255])
        return f"cut {calls} {self.one(FILLS)} {line}"

    def changes(self, line):
        """Whether the event of a line would change something."""
        word, *rest = line.split(" ")
        site, does = self.world.step(word, rest)
        before, after = self.world.ends(site, does)
        return before != after and site.here not in self.world.down

    def stop_line(self):
        circuit, node = self.one(self.circuits), self.one(self.nodes)
        return self.one([lambda c, n: f"stop {n}", self.break_off])(circuit, node)

    def registry(self):
        """A registry of the nodes in any order; a few are broken."""
        names = self.random.sample(self.nodes + self.spare, len(self.nodes + self.spare))
        tables = [table(name) for name in names]
        if self.random.random() < 0.05:
            at = self.random.randrange(len(tables) + 1)
            broken = [table(names[0]), table("Beta"), table("late", name=""), table("late", endpoints=[]), "[[node]]\n", "=\n"]
            tables[at:at] = self.one([[one] for one in broken] + [[table(f"node-{k}") for k in range(17)]])
        return "\n".join(tables)


def table(identity, name="A node", endpoints=["127.0.0.1:0"]):
    """The lines of one node."""
    listed = ", ".join(f'"{endpoint}"' for endpoint in endpoints)
    return f'[[node]]\nidentity = "{identity}"\ndisplay_name = "{name}"\nendpoints = [{listed}]\n'


def drawn(seed):
    """The bytes of the registry and of the schedule of a seed."""
    draw = Draw(seed)
    lines = draw.lines()
    return draw.registry().encode(), "".join(line + "\n" for line in lines).encode()


def drawn_for_links(seed):
    """The same for a run over links, whose nodes listen on any free port: without the lines that such a run doesn't take,
    but in each twentieth seed."""
    draw = Draw(seed)
    lines = draw.lines()
    if seed % 20 != 19:
        lines = [line for line in lines if line.split(" ")[0] not in UNTAKEN]
    nodes = draw.random.sample(draw.world.nodes, len(draw.world.nodes))
    return "".join(map(table, nodes)).encode(), "".join(line + "\n" for line in lines).encode()


def drawn_numbers(seed):
    """How many batches a generated schedule has, and its own seed."""
    numbers = random.Random(seed)
    return numbers.choice([1, 2, 3, 49, 50, 51, 100, numbers.randint(1, 120)]), numbers.choice([0, 7, 2**64 - 1, numbers.getrandbits(64)])
