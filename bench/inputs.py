"""What bench/run measures over, from fixed seeds: schedules, and bytes for parts of the program."""
import random
import struct

NODES = ("alpha", "beta", "gamma")
BASE62 = "0123456789ABCDEFGHIJKLMNOPQRSTUVWXYZabcdefghijklmnopqrstuvwxyz"


def circuit(draw):
    """A circuit id."""
    part = lambda: "".join(draw.choice(BASE62) for _ in range(5))
    return f"{part()}-{part()}"


def proposal(draw, node, name):
    """A proposal of a valid definition of two members at one of them."""
    other = draw.choice([n for n in NODES if n != node])
    first, second = sorted((node, other))
    return f"propose {node} {name} 1 1 grid trade {first},{second} aaaa:scabbard:{first},bbbb:scabbard:{second}"


def shows(draw):
    """30,000 shows of circuits that nobody keeps."""
    return [f"show {draw.choice(NODES)} {circuit(draw)}" for _ in range(30000)]


def proposals(draw):
    """10,000 proposals of different circuits."""
    return [proposal(draw, draw.choice(NODES), circuit(draw)) for _ in range(10000)]


SCHEDULES = {"shows": shows, "proposals": proposals}


def accepting(name):
    """A circuit of three members that each of them accepts, and a show at each."""
    terms = "1 1 grid trio alpha,beta,gamma aaaa:scabbard:alpha,bbbb:scabbard:beta,cccc:scabbard:gamma"
    votes = [line for node in NODES[1:] for line in (f"vote {node} {name} accept", f"calm {name} 8")]
    return [f"propose alpha {name} {terms}", f"calm {name} 8", *votes, *(f"show {node} {name}" for node in NODES)]


TRADE = "Ab3dE-00001"


def active():
    """A circuit of two members that is active."""
    terms = "1 1 grid trade alpha,beta aaaa:scabbard:alpha,bbbb:scabbard:beta"
    return [f"propose alpha {TRADE} {terms}", f"calm {TRADE} 8", f"vote beta {TRADE} accept", f"calm {TRADE} 8"]


def batches(number):
    """So many batches, at each member in turn, each with a calm that commits it at both."""
    for index, key in enumerate(random.Random(5).sample(addresses(5000), number)):
        yield f"submit {NODES[index % 2]} {TRADE} {index + 1} tx out: set:{key.hex()}={index:08x}"
        yield f"calm {TRADE} 4"


def entries(keys):
    """Batches of 24 entries each, as many as a line lets in, each with its calm."""
    for index in range(0, len(keys), 24):
        sets = [f"set:{key.hex()}=01" for key in keys[index : index + 24]]
        second = ["tx out: " + " ".join(sets[16:])] if sets[16:] else []
        yield " ".join([f"submit alpha {TRADE} {index + 1} tx out:", *sets[:16], *second])
        yield f"calm {TRADE} 4"


def text(content):
    """A text: a length of two bytes, and its bytes."""
    return struct.pack(">H", len(content)) + content

# Pairs of node ids, short and of a common length: what a change costs hardly hangs on how long they are.
MEMBERS = ((b"alpha", b"beta"), (b"acme-trading-01", b"globex-trade-02"))


def definition(first, second):
    """The byte form of a definition of these two members."""
    services = b"aaaa" + text(b"scabbard") + text(first) + b"bbbb" + text(b"scabbard") + text(second)
    head = b"Ab3dE-00001" + struct.pack(">IB", 1, 1) + text(b"grid") + text(b"trade")
    return head + struct.pack(">H", 2) + text(first) + text(second) + struct.pack(">H", 2) + services


def record(first, second):
    """A record of 64 changes: the binding, the proposal, and 62 commits."""
    bound = definition(first, second)
    proposal = text(first) + struct.pack(">IB", 1, 1) + bound
    commit = lambda r: b"\x08\x01" + struct.pack(">Q", r) + text(second) + struct.pack(">IB", r, 2)
    changes = [b"\x01" + bound, b"\x02\x01" + proposal] + [commit(r) for r in range(1, 63)]
    return b"Ab3dE-00001" + struct.pack(">H", len(changes)) + b"".join(changes)


def stream(size=200):
    """1 MiB of frames with bodies of so many bytes, the last one cut off."""
    frame = struct.pack(">HI", 1, size) + (bytes(range(256)) * 64)[:size]
    return (frame * ((1 << 20) // len(frame) + 1))[: 1 << 20]


def listing(*items):
    """A list: a count of two bytes, and its items."""
    return struct.pack(">H", len(items)) + b"".join(items)


def crowded():
    """Records whose lists have as many items as the reader lets in, of the smallest kinds, by what the lists are of."""
    queue = lambda transactions: b"Ab3dE-00001" + listing(b"\x02\x02" + struct.pack(">Q", 1) + listing(*transactions))
    small = [b"\x00"] * 1024
    yield "1,024 transactions without anything", queue([listing() * 3] * 1024)
    yield "1,024 empty prefixes", queue([listing(*small) + listing() * 2])
    yield "1,024 empty inputs, outputs and data, twice", queue([listing(*small) * 2 + listing(*[b"\x05" + text(b"")] * 1024)] * 2)
    nodes = [text(b"%c" % letter) for letter in range(97, 113)]
    services = [b"aaa%c" % letter + text(b"") + node for letter, node in zip(range(97, 113), nodes)]
    bound = b"\x01Ab3dE-00001" + struct.pack(">IB", 1, 1) + text(b"") * 2 + listing(*nodes) + listing(*services)
    yield "64 definitions of 16 members and services", b"Ab3dE-00001" + listing(*[bound] * 64)
    yield "64 changes of two bytes", b"Ab3dE-00001" + listing(*[b"\x07\x01"] * 64)


def addresses(number):
    """Different addresses of 35 bytes, as random ones."""
    draw = random.Random(7)
    return sorted({draw.randbytes(35) for _ in range(number)})


def digests(keys, at=0):
    """How many digests the root of these sorted addresses takes: one for each node that isn't empty."""
    if len(keys) < 2:
        return len(keys)
    digit = lambda key: key[at // 2] >> 4 if at % 2 == 0 else key[at // 2] & 15
    return 1 + sum(digests([key for key in keys if digit(key) == d], at + 1) for d in range(16))


def batch(keys, each):
    """The byte form of a batch of 16 transactions, each of which sets so many of these addresses to nothing."""
    commands = lambda t: b"".join(b"\x01" + key + text(b"") for key in keys[each * t : each * t + each])
    transaction = lambda t: struct.pack(">H", 0) + struct.pack(">HB", 1, 0) + struct.pack(">H", each) + commands(t)
    return struct.pack(">QH", 1, 16) + b"".join(transaction(t) for t in range(16))


ROOTS = [f"root {node} {TRADE}" for node in NODES[:2]]


def trade():
    """1,487 batches of one entry, each with its calm, and the root at the end: 32,761 events."""
    keys = random.Random(5).sample(addresses(5000), 1487)
    for index, key in enumerate(keys):
        yield f"submit alpha {TRADE} {index + 1} tx out: set:{key.hex()}={index:08x}"
        yield f"calm {TRADE} 8"
    yield from ROOTS


def sized_batches(size, number):
    """So many batches of so many bytes, each with a calm: events whose types have 64 bytes, and data."""
    event = f" event:{'k' * 64}="
    for index in range(number):
        # Of a batch 10 bytes are its own, 6 of each transaction, 69 of each event, and 3 of data more.
        left, whole = size - 10, min(15, max(0, (size - 10 - 9) // (6 + 16 * 69) - 1))
        left -= whole * (6 + 16 * 69) + 6
        data = [min(4096, left - at - 3) for at in range(0, left, 4099)]
        yield f"submit alpha {TRADE} {index + 1}" + f" tx{event * 16}" * whole + " tx" + "".join(f" data:{'5a' * n}" for n in data)
        yield f"calm {TRADE} 8"


def growth(number):
    """So many batches of 22 new entries, each with its calm, and the root after each 50 of them."""
    keys = random.Random(5).sample(addresses(40000), 22 * number)
    for index in range(number):
        sets = [f"set:{key.hex()}={index:08x}" for key in keys[22 * index : 22 * index + 22]]
        yield " ".join([f"submit alpha {TRADE} {index + 1} tx out:", *sets[:16], "tx out:", *sets[16:]])
        yield f"calm {TRADE} 8"
        if index % 50 == 49:
            yield from ROOTS


def low_address(draw):
    """An address of 66 zeros and four digits: the way down to it is long."""
    return f"{draw.randrange(1 << 16):070x}"


def mixture(number, rounds):
    """So many circuits of three members, which take a batch each in turn, and tell a root and a value."""
    draw = random.Random(7)
    names = [circuit(draw) for _ in range(number)]
    lines = [line for name in names for line in accepting(name)]
    for index in range(rounds):
        for name in names:
            first, second, third = draw.sample(NODES, 3)
            key = low_address(draw)
            lines += [f"submit {first} {name} {index + 1} tx out: set:{key}=2a", f"calm {name} 8"]
            lines += [f"root {second} {name}", f"get {third} {name} {key}"]
    return lines


SIXTEEN = [f"n{number:02}" for number in range(1, 17)]


def rounds(members, faults, number):
    """So many rounds of Paxos Commit that commit: every member votes yes, F + 1 acceptors hear each vote, and member 1 hears
    what they accepted."""
    lines = []
    for round_ in range(1, number + 1):
        votes = range(1, members + 1)
        lines += [f"vote m{member} {round_} yes" for member in votes]
        heard = [(acceptor, member) for acceptor in range(1, faults + 2) for member in votes]
        lines += [f"deliver m{member} c{acceptor} {round_}" for acceptor, member in heard]
        lines += [f"deliver c{acceptor} m1 {(round_ - 1) * members + member}" for acceptor, member in heard]
    return lines


def agreed(members, number):
    """A circuit of so many nodes that is active, and so many batches in it, each with a calm that commits it at all of them."""
    nodes = SIXTEEN[:members]
    services = ",".join(f"s{index:03}:scabbard:{node}" for index, node in enumerate(nodes))
    lines = [f"propose {nodes[0]} {TRADE} 1 1 grid crowd {','.join(nodes)} {services}", f"calm {TRADE} 8"]
    lines += [line for node in nodes[1:] for line in (f"vote {node} {TRADE} accept", f"calm {TRADE} 8")]
    for index, key in enumerate(random.Random(5).sample(addresses(5000), number)):
        lines += [f"submit {nodes[index % members]} {TRADE} {index + 1} tx out: set:{key.hex()}={index:08x}", f"calm {TRADE} 4"]
    return lines


def gathering(draw, number):
    """Circuits of two to eight of sixteen nodes, and the lines that make them active."""
    circuits = [(circuit(draw), sorted(draw.sample(SIXTEEN, draw.randrange(2, 9)))) for _ in range(number)]
    lines = []
    for name, members in circuits:
        services = ",".join(f"s{index:03}:scabbard:{node}" for index, node in enumerate(members))
        lines += [f"propose {members[0]} {name} 1 1 grid crowd {','.join(members)} {services}", f"calm {name} 8"]
        lines += [line for node in members[1:] for line in (f"vote {node} {name} accept", f"calm {name} 8")]
    return circuits, lines


def crowd(number, rounds, stops):
    """Circuits of two to eight of sixteen nodes that take a batch each in turn; each round tells a root and a value of each
    circuit. So many times in it a node stops and starts again."""
    draw = random.Random(13)
    circuits, lines = gathering(draw, number)
    life = []
    for index in range(rounds):
        for name, members in circuits:
            key = low_address(draw)
            life += [f"submit {draw.choice(members)} {name} {index + 1} tx out: set:{key}=2a", f"calm {name} 8"]
            life += [f"root {draw.choice(members)} {name}", f"get {draw.choice(members)} {name} {key}"]
    for place in sorted(draw.sample(range(len(life)), stops), reverse=True):
        node = draw.choice(SIXTEEN)
        life[place:place] = [f"stop {node}", f"start {node}"]
    return lines + life


def cut(draw, lines, cuts, members):
    """These lines, and so many times among them a node of a circuit that goes down in a tick and starts again."""
    for place in sorted(draw.sample(range(len(lines)), cuts), reverse=True):
        name = draw.choice(sorted(members))
        node, fill = draw.choice(members[name]), draw.choice(("old", "new", "byte:01"))
        lines[place:place] = [f"cut {draw.randrange(6)} {fill} tick {node} {name}", f"start {node}"]
    return lines


def cut_crowd(number, rounds, cuts):
    """Circuits of two to eight of sixteen nodes that take a batch each in turn, and so many times a node that goes down in it."""
    draw = random.Random(17)
    circuits, lines = gathering(draw, number)
    life = []
    for index in range(rounds):
        for name, members in circuits:
            life += [f"submit {draw.choice(members)} {name} {index + 1} tx out: set:{low_address(draw)}=2a", f"calm {name} 8"]
    return lines + cut(draw, life, cuts, dict(circuits))


def interrupted(number, rounds, cuts):
    """A mixture without what is asked of it, and so many times in it a node that goes down in a tick and starts again."""
    lines = [line for line in mixture(number, rounds) if line.split()[0] not in ("root", "get")]
    names = {line.split()[1] for line in lines if line.startswith("calm")}
    return cut(random.Random(11), lines, cuts, dict.fromkeys(names, NODES))


def restarted():
    """A circuit of two members with 10,000 entries, each of which stops 16 times and starts again."""
    lines = [*active(), *entries(addresses(10000))]
    return lines + [f"{word} {NODES[index % 2]}" for index in range(32) for word in ("stop", "start")]


def life(value, batches=0):
    """The byte forms of a definition, and of a batch that sets one entry to a value of so many bytes; and a number of batches."""
    command = b"\x01" + bytes(34) + b"\x01" + text(bytes([42] * value))
    transaction = struct.pack(">HHB", 0, 1, 0) + struct.pack(">H", 1) + command
    return definition(*MEMBERS[0]) + struct.pack(">QH", 1, 1) + transaction + struct.pack(">I", batches)


def large():
    """The byte forms of a definition, and of 400 batches of 25 different entries each."""
    keys = addresses(10000)
    commands = lambda some: struct.pack(">HHB", 0, 1, 0) + struct.pack(">H", len(some)) + b"".join(b"\x01" + key + text(b"\x01") for key in some)
    batches = (keys[at : at + 25] for at in range(0, len(keys), 25))
    each = (struct.pack(">QH", number + 1, 2) + commands(some[:16]) + commands(some[16:]) for number, some in enumerate(batches))
    return definition(*MEMBERS[0]) + b"".join(each)
