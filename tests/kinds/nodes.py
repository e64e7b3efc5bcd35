"""Three nodes as processes of their own: they are asked, killed at random and started again, and what they answer and keep is compared; in every
third run through proxies that lose and repeat messages and cut connections. In each run

- a batch that was answered `ok queued` or `ok known` isn't unknown after a kill, and all nodes have it in the end, once;
- each history that was answered is a first part of the last one, and a root goes with each number of batches;
- `audit` finds that the files of all nodes agree.

Then, of nodes that aren't killed at random: how `serve` and `ask` end, also in order and under load, endpoints that are names, who else may
come and what becomes of him, a peer that reads nothing, what waits and for whom, the overview for people, the counters, and what watchers are
told.

words: [PROGRAM [FIRST [COUNT]]]; 3 seeds where no number of them is given

PROGRAM is a command that takes the words serve and ask; the audits are by ./splinter.
"""
import os
import pathlib
import random
import shutil
import signal
import socket
import subprocess
import tempfile
import threading
import time

from common import SPLINTER, TOP, command_of, not_synced_first, numbers_of, traced_first_calls

GATE = (SPLINTER, "0", "3")
NAMES = ("alpha", "beta", "gamma")
CIRCUIT = "Ab3dE-00001"
PAIR = "Ab3dE-00002"
THIRD = "Ab3dE-00003"
WATCHED = "Ab3dE-00004"
RENEWED = "Ab3dE-00005"
STOPPED = "Ab3dE-00006"
BATCHES = 25
LATEST = 60


class Wrong(Exception):
    """What isn't as it should be."""


def demand(is_so, what):
    if not is_so:
        raise Wrong(what)


def wait_for(is_so, what):
    """Waits until it becomes so."""
    latest = time.monotonic() + LATEST
    while not is_so():
        demand(time.monotonic() < latest, f"not within {LATEST} s: {what}")
        time.sleep(0.03)


def free_port():
    with socket.socket() as found:
        found.bind(("127.0.0.1", 0))
        return found.getsockname()[1]


def registry_of(ports):
    entry = '[[node]]\nidentity = "{0}"\ndisplay_name = "{0}"\nendpoints = ["127.0.0.1:{1}"]\n'
    return "".join(entry.format(name, port) for name, port in ports.items())


class Proxy(threading.Thread):
    """Carries connections to a port. It loses a fifth of the messages, repeats a fifth, and cuts a connection at each hundredth."""

    LOSES, CUTS = 0.2, 0.01

    def __init__(self, port, to, drawn):
        super().__init__(daemon=True)
        self.to, self.drawn = to, drawn
        self.server = socket.socket()
        self.server.setsockopt(socket.SOL_SOCKET, socket.SO_REUSEADDR, 1)
        self.server.bind(("127.0.0.1", port))
        self.server.listen(64)

    def run(self):
        while True:
            try:
                near, _ = self.server.accept()
            except OSError:
                return
            try:
                far = socket.create_connection(("127.0.0.1", self.to), 2)
            except OSError:
                near.close()
                continue
            for ends in ((near, far), (far, near)):
                threading.Thread(target=self.carry, args=ends, daemon=True).start()

    def times(self, frame):
        """How often a frame goes on. One that isn't a whole message goes on once."""
        if frame[6] not in (1, 2):
            return 1
        if self.drawn.random() < self.LOSES:
            return 0
        return 2 if self.drawn.random() < self.LOSES else 1

    def carry(self, near, far):
        held, is_first = b"", True
        try:
            while piece := near.recv(65536):
                held += piece
                while len(held) >= 6 and len(held) >= (size := 6 + int.from_bytes(held[2:6], "big")):
                    frame, held = held[:size], held[size:]
                    if not is_first and self.drawn.random() < self.CUTS:
                        raise OSError
                    far.sendall(frame * (1 if is_first else self.times(frame)))
                    is_first = False
        except OSError:
            pass
        for end in (near, far):
            try:
                # The other direction waits for what comes: this wakes it.
                end.shutdown(socket.SHUT_RDWR)
            except OSError:
                pass
            end.close()

    def end(self):
        self.server.close()


class Node:
    """A node, its folder, and its process."""

    def __init__(self, program, name, registry, folder):
        self.program, self.name, self.registry, self.folder = program, name, registry, folder
        folder.mkdir()
        self.process = None
        self.log = open(folder.parent / f"{name}.log", "ab")

    def start(self, *last):
        command = [*self.program, "serve", str(self.registry), self.name, str(self.folder), *last]
        self.process = subprocess.Popen(command, stdin=subprocess.DEVNULL, stdout=self.log, stderr=self.log, start_new_session=True)
        wait_for(lambda: self.process.poll() is not None or self.ask("roll"), f"{self.name} serves")
        demand(self.process.poll() is None, f"{self.name} ended with {self.process.poll()}")

    def send(self, number):
        """A signal to the node, and to the script that waits for it."""
        os.killpg(self.process.pid, number)

    def kill(self):
        if self.process and self.process.poll() is None:
            self.send(signal.SIGKILL)
            self.process.wait()
            wait_for(lambda: not self.ask("roll"), f"{self.name} is gone")

    def end(self):
        """Ends it in order, as who started it would; its status."""
        self.process.terminate()
        return self.process.wait(LATEST)

    def connect(self):
        connection = socket.socket(socket.AF_UNIX)
        connection.settimeout(10)
        connection.connect(str(self.folder / "socket"))
        return connection

    def ask(self, line):
        """The answer to a line, without its line feed; none where the node is gone."""
        try:
            with self.connect() as connection:
                connection.sendall(line.encode() + b"\n")
                return read_line(connection)
        except OSError:
            return None

    def said(self):
        return (self.folder.parent / f"{self.name}.log").read_text()


def read_line(connection):
    got = b""
    while not got.endswith(b"\n"):
        piece = connection.recv(65536)
        if not piece:
            raise OSError("gone")
        got += piece
    return got.decode()[:-1]


class Nodes:
    """Three nodes, which start for the first time."""

    def __init__(self, program, top, seed=None):
        self.top, self.proxies = top, []
        ports = {name: free_port() for name in NAMES}
        shown = dict(ports)
        if seed is not None:
            shown = {name: free_port() for name in NAMES}
            self.proxies = [Proxy(shown[name], ports[name], random.Random(f"{seed} {name}")) for name in NAMES]
        for proxy in self.proxies:
            proxy.start()
        self.of, self.ports = {}, ports
        for name in NAMES:
            registry = top / f"{name}.toml"
            registry.write_text(registry_of({**shown, name: ports[name]}))
            self.of[name] = Node(program, name, registry, top / name)
        for node in self.of.values():
            node.start("new")

    def __enter__(self):
        return self

    def __exit__(self, *_):
        for node in self.of.values():
            node.kill()
            node.log.close()
        for proxy in self.proxies:
            proxy.end()

    def ask(self, name, line):
        return self.of[name].ask(line) or ""

    def all_say(self, names, line, words):
        return all(words in self.ask(name, line) for name in names)

    def propose(self, circuit, members, generation=1):
        """The first member proposes a circuit, and all of them know of it."""
        services = ",".join(f"{name[0]}000:scabbard:{name}" for name in members)
        said = self.ask(members[0], f"propose {circuit} {generation} 2 splinter first {','.join(members)} {services}")
        demand(said == "ok queued", f"propose: {said}")
        wait_for(lambda: self.all_say(members, f"show {circuit}", f"generation {generation} lifecycle proposed"), "proposed everywhere")

    def accept(self, circuit, members, lifecycle):
        """The others accept what the first member proposed, which brings the circuit there."""
        show = f"show {circuit}"
        for name in members[1:]:
            said = self.ask(name, f"vote {circuit} accept")
            demand(said == "ok queued", f"vote: {said}")
            wait_for(lambda: name in self.ask(name, show) or lifecycle in self.ask(name, show), f"{name} accepted")
        wait_for(lambda: self.all_say(members, show, f"lifecycle {lifecycle}"), f"{lifecycle} everywhere")

    def make(self, circuit, members, generation=1):
        """A circuit that runs: its first member proposes it, the others accept."""
        self.propose(circuit, members, generation)
        self.accept(circuit, members, "active")

    def submit(self, name, circuit, batch, drawn):
        address = f"{drawn.randrange(256):02x}" + "00" * 34
        return self.ask(name, f"submit {circuit} {batch} tx out:{address[:2]} set:{address}={batch:04x}")

    def history(self, name, circuit):
        """The batches that a node has committed, in order; none where it doesn't answer."""
        said = self.ask(name, f"history {circuit}").split()
        return said[3:] if said[:2] == ["ok", "history"] else None

    def wait_for_batches(self, members, circuit, batches):
        has_all = lambda name: set(map(str, batches)) <= set(self.history(name, circuit) or [])
        wait_for(lambda: all(has_all(name) for name in members), f"{len(batches)} batches at each member")

    def audited(self):
        """What an audit says of copies of all files."""
        copies = self.top / "copies"
        copies.mkdir()
        for position, name in enumerate(NAMES):
            for letter in "ab":
                shutil.copy(self.of[name].folder / f"d{position:02}{letter}", copies)
        done = subprocess.run([TOP / "splinter", "audit", self.of["alpha"].registry, copies], capture_output=True, text=True)
        return done.returncode, done.stdout.splitlines()[-1:]


class Run:
    """One run with kills."""

    def __init__(self, nodes, seed):
        self.nodes, self.drawn = nodes, random.Random(seed)
        self.told, self.histories, self.roots, self.kills = {}, [], {}, 0

    def kill_one(self):
        victim = self.drawn.choice(NAMES)
        node = self.nodes.of[victim]
        node.kill()
        self.kills += 1
        time.sleep(self.drawn.choice((0, 0.3)) * self.drawn.random())
        node.start()
        for batch, name in self.told.items():
            if name == victim:
                said = node.ask(f"status {CIRCUIT} {batch}")
                demand(said and not said.startswith("refused 19"), f"{victim} forgot batch {batch}: {said}")

    def look(self, name):
        history = self.nodes.history(name, CIRCUIT)
        if history is not None:
            self.histories.append(history)
        said = self.nodes.ask(name, f"root {CIRCUIT}").split()
        if said[:2] == ["ok", "root"]:
            demand(self.roots.setdefault(said[2], said[3]) == said[3], f"two roots of {said[2]} batches")

    def run(self):
        self.nodes.make(CIRCUIT, NAMES)
        for batch in range(1, BATCHES + 1):
            name = self.drawn.choice(NAMES)
            if self.nodes.submit(name, CIRCUIT, batch, self.drawn) in ("ok queued", "ok known"):
                self.told[batch] = name
            if self.drawn.random() < 0.15:
                self.kill_one()
            if self.drawn.random() < 0.5:
                self.look(self.drawn.choice(NAMES))
        self.nodes.wait_for_batches(NAMES, CIRCUIT, self.told)
        self.compare()

    def compare(self):
        settled = lambda: len({tuple(self.nodes.history(name, CIRCUIT) or [name]) for name in NAMES}) == 1
        wait_for(settled, "one history")
        last = self.nodes.history("alpha", CIRCUIT)
        for name in NAMES:
            self.look(name)
        demand(len(set(last)) == len(last), f"a batch twice: {last}")
        for history in self.histories:
            demand(last[: len(history)] == history, f"{history} isn't a first part of {last}")
        for node in self.nodes.of.values():
            node.kill()
        audited = self.nodes.audited()
        demand(audited == (0, ["agreed"]), f"an audit says {audited}")


# ---- Nodes that aren't killed


def ended(nodes, *words, **how):
    """Status, output and standard error of the program with these words."""
    how = {"stdin": subprocess.DEVNULL, **how}
    if "input" in how:
        del how["stdin"]
    command = [*nodes.of["alpha"].program, *map(str, words)]
    done = subprocess.run(command, stdout=subprocess.PIPE, stderr=subprocess.PIPE, timeout=LATEST, text=True, **how)
    return done.returncode, done.stdout, done.stderr


def ends_of_ask(nodes):
    alpha, gamma = (nodes.of[name].folder for name in ("alpha", "gamma"))
    demand(ended(nodes, "ask", alpha, "roll") == (0, "ok roll 0\n", ""), "a line that is answered ok")
    refused = ended(nodes, "ask", alpha, "show", "Ab3dE-99999")
    demand(refused == (15, "refused 2\n", "refused: the node has no such circuit\n"), f"a line that is refused: {refused}")
    lines = "roll\n# a comment\n\nshow Ab3dE-99999\nroll\n"
    typed = ended(nodes, "ask", alpha, input=lines)
    demand(typed == (15, "ok roll 0\nrefused 2\nok roll 0\n", "refused\n"), f"typed lines: {typed}")
    for line in ("tick Ab3dE-00001", "roll alpha", "calm Ab3dE-00001 1", "stop alpha", "nonsense"):
        said = ended(nodes, "ask", alpha, *line.split())
        demand(said == (15, "bad line\n", "refused\n"), f"{line}: {said}")
    demand(ended(nodes, "ask", gamma / "none", "roll")[0] == 8, "a folder that isn't there")
    demand(ended(nodes, "ask", alpha)[:2] == (0, ""), "no lines")


def ends_of_serve(nodes):
    registry, folder = nodes.of["alpha"].registry, nodes.of["alpha"].folder
    other = nodes.top / "other"
    other.mkdir()
    serve = lambda *words: ended(nodes, "serve", *words)[::2]
    demand(serve(registry, "alpha", folder) == (7, "disk of alpha failed\n"), "a folder that another process uses")
    demand(serve(registry, "alpha", nodes.top / "none", "new") == (7, "disk of alpha failed\n"), "a folder that isn't there")
    blank = serve(registry, "alpha", other)
    demand(blank[0] == 13 and "not a journal at 0" in blank[1] and "new" in blank[1], f"blank files: {blank}")
    demand(not list(other.iterdir()), "files were made without the word new")
    taken = serve(registry, "alpha", other, "new")
    demand(taken[0] == 8 and taken[1].startswith("endpoint of alpha"), f"an endpoint that is in use: {taken}")
    demand(serve(registry, "delta", other)[0] == 1, "a node that the registry lacks")
    demand(serve(nodes.top / "none", "alpha", other) == (5, "read failed\n"), "a registry that isn't there")
    (nodes.top / "bad").write_text("[")
    demand(serve(nodes.top / "bad", "alpha", other) == (2, "bad registry: not TOML\n"), "a registry that isn't TOML")
    for bad in ("127.0.0.1", "127.0.0.1:", "alpha", "two words:9001", "::1:9001", "alpha:90010"):
        (nodes.top / "bad").write_text(registry.read_text().replace(f"127.0.0.1:{nodes.ports['beta']}", bad))
        said = serve(nodes.top / "bad", "alpha", other, "new")
        demand(said[0] == 8 and said[1].startswith("endpoint of beta can't be had"), f"the endpoint {bad!r}: {said}")
    demand(ended(nodes, "serve", registry, "alpha")[0] == 1, "a word too few")
    demand(ended(nodes, "serve", registry, "alpha", other, "old")[0] == 1, "another word than new")


def ends_over_files(nodes):
    """A node that was there is started with `new`, then with a file that is missing, and with one that is no journal."""
    node = nodes.of["gamma"]
    serve = lambda *words: ended(nodes, "serve", node.registry, "gamma", node.folder, *words)[::2]
    node.kill()
    demand(serve("new") == (10, "disk of gamma not blank\n"), "files that hold something")
    (node.folder / "d02b").rename(node.folder / "kept")
    demand(serve() == (7, "disk of gamma failed\n"), "a file that is missing")
    (node.folder / "kept").rename(node.folder / "d02b")
    both = {letter: (node.folder / f"d02{letter}").read_bytes() for letter in "ab"}
    for letter in "ab":
        (node.folder / f"d02{letter}").write_bytes(b"no journal at all")
    demand(serve() == (13, "disk of gamma is not a journal at 0\n"), "files that are no journal")
    for letter, content in both.items():
        (node.folder / f"d02{letter}").write_bytes(content)
    node.start()


class Load(threading.Thread):
    """Submits batches to a node, one after another, until it doesn't answer any more."""

    def __init__(self, nodes, name, circuit, batches):
        super().__init__(daemon=True)
        self.nodes, self.name, self.circuit, self.batches, self.queued = nodes, name, circuit, batches, []

    def run(self):
        drawn = random.Random(0)
        for batch in self.batches:
            # A queue that is full has room again once batches were decided.
            while (said := self.nodes.submit(self.name, self.circuit, batch, drawn)) == "refused 15":
                time.sleep(0.01)
            if not said:
                return
            if said == "ok queued":
                self.queued.append(batch)


def ends_in_order(nodes):
    """At SIGTERM, under load, and where it is asked to stop, a node ends after the turn under way, with status 0 and a line that says so; what it
    answered before is kept."""
    node = nodes.of["alpha"]
    nodes.make(STOPPED, NAMES)
    for at in range(3):
        loads = [Load(nodes, "alpha", STOPPED, range(first, first + 500)) for first in (1000 * at, 1000 * at + 500)]
        for load in loads:
            load.start()
        wait_for(lambda: all(len(load.queued) > 3 for load in loads), "batches are queued")
        status = node.end()
        demand(status == 0, f"a node ended at SIGTERM with {status}: {node.said()[-300:]}")
        demand(node.said().endswith("stopped alpha\n"), f"the last line of a node: {node.said()[-300:]}")
        for load in loads:
            load.join(LATEST)
        node.start()
        for batch in (batch for load in loads for batch in load.queued):
            said = node.ask(f"status {STOPPED} {batch}")
            demand(said and not said.startswith("refused 19"), f"batch {batch} was forgotten: {said}")
    asked = ended(nodes, "ask", node.folder, "stop")
    demand(asked == (0, "ok stopping\n", "") and node.process.wait(LATEST) == 0, f"a node that is asked to stop: {asked}")
    demand(ended(nodes, "ask", node.folder, "stop")[0] == 8, "a node that has ended is asked to stop")
    node.start()


def endpoints_by_name(nodes):
    """Nodes whose endpoints are names find each other, also after one of them was away."""
    kept = {node: node.registry.read_text() for node in nodes.of.values()}
    for node, text in kept.items():
        node.kill()
        node.registry.write_text(text.replace("127.0.0.1:", "localhost:"))
    for node in kept:
        node.start()
    all_up = lambda: all(nodes.ask(name, "peers").count(" up ") == 2 for name in NAMES)
    wait_for(all_up, "peers by their names")
    nodes.of["gamma"].kill()
    nodes.of["gamma"].start()
    wait_for(all_up, "a peer by its name again")
    for node, text in kept.items():
        node.kill()
        node.registry.write_text(text)
        node.start()


def files_of_others(nodes):
    """A registry whose tables were exchanged, or that has a node in the middle, calls no disk; one with a node more at its end does."""
    node, order = nodes.of["gamma"], NAMES
    node.kill()
    before = {path.name: path.read_bytes() for path in node.folder.iterdir() if path.is_file()}
    demand(before["nodes"] == b"".join(f"{name}\n".encode() for name in order), "the list of nodes")
    tables = {text.split('"')[1]: f"[[node]]\n{text}" for text in node.registry.read_text().split("[[node]]\n") if text}
    middle = tables["alpha"].replace('"alpha"', '"aaa"').replace('127.0.0.1:', '127.0.0.2:')
    other = node.registry.with_name("other.toml")
    for text, wanted in (
        ("".join(tables[name] for name in ("gamma", "beta", "alpha")), "files of alpha at position 0, where the registry has another node\n"),
        (tables["alpha"] + middle + tables["beta"] + tables["gamma"], "files of beta at position 1, where the registry has another node\n"),
    ):
        other.write_text(text)
        for words in ((), ("new",)):
            demand(ended(nodes, "serve", other, "gamma", node.folder, *words)[::2] == (7, wanted), f"a registry of another order, {words}")
    demand({path.name: path.read_bytes() for path in node.folder.iterdir() if path.is_file()} == before, "files that were changed")
    kept = node.registry.read_text()
    node.registry.write_text("".join(tables[name] for name in order) + middle)
    node.start()
    demand((node.folder / "nodes").read_bytes() == before["nodes"] + b"aaa\n", "a node more at the end")
    node.kill()
    node.registry.write_text(kept)
    node.start()


def socket_is_the_owners(nodes):
    mode = (nodes.of["alpha"].folder / "socket").stat().st_mode & 0o777
    demand(mode == 0o600, f"others may open the socket: {mode:o}")


def one_line_at_a_time(nodes):
    """Many lines at once are answered one after another; one that is too long ends its connection, and no other."""
    with nodes.of["alpha"].connect() as one, nodes.of["alpha"].connect() as other:
        one.sendall(b"roll\nnonsense\n" * 100)
        demand(lines_of(one, 200) == ["ok roll 0", "bad line"] * 100, "200 lines at once")
        one.sendall(b"x" * 40_000)
        demand(lines_of(one, 1) == ["bad line"] and one.recv(1) == b"", "a line that is too long")
        other.sendall(b"roll\n")
        demand(lines_of(other, 1) == ["ok roll 0"], "a line beside one that is too long")
    with nodes.of["alpha"].connect() as half:
        half.sendall(b"roll\nroll\nro")
        half.shutdown(socket.SHUT_WR)
        demand(lines_of(half, 2) == ["ok roll 0"] * 2 and half.recv(1) == b"", "an operator who sends no more")


def lines_of(connection, count):
    got = b""
    while got.count(b"\n") < count:
        piece = connection.recv(65536)
        demand(piece, f"only {got.count(10)} of {count} answers")
        got += piece
    return got.decode().splitlines()


def words_of_peers(nodes):
    """Every other node by its name, in the order of the registry."""
    wait_for(lambda: nodes.ask("beta", "peers").count(" up ") == 2, "both peers up")
    words = nodes.ask("beta", "peers").split()
    demand(words[:2] == ["ok", "peers"] and len(words) == 28, f"peers: {words}")
    for name, at in (("alpha", 2), ("gamma", 15)):
        names = [words[at + k] for k in (0, 1, 3, 6, 9, 11)]
        demand(names == [name, "up", "out", "in", "dropped", "heard"], f"peers: {words}")
    nodes.of["gamma"].kill()
    wait_for(lambda: " gamma down " in nodes.ask("beta", "peers"), "gamma down")
    nodes.of["gamma"].start()
    wait_for(lambda: " gamma up " in nodes.ask("beta", "peers"), "gamma up again")
    wait_for(lambda: said_of(nodes, "beta", "gamma") == ["down", "up", "down", "up"], "beta said who came and went")
    for name in NAMES:
        first = "".join(f"peer {peer} down\n" for peer in NAMES if peer != name)
        demand(nodes.of[name].said().startswith(f"serving {name}\n{first}"), f"{name} said that it serves, and who isn't there")


def said_of(nodes, name, peer):
    """How a node said that a peer came and went."""
    lines = [line.split() for line in nodes.of[name].said().splitlines()]
    return [words[2] for words in lines if words[:2] == ["peer", peer] and len(words) == 3]


def strangers(nodes):
    """Who comes to the endpoint and is no peer is sent away, and disturbs nobody."""
    to = ("127.0.0.1", nodes.ports["gamma"])
    for said in (b"GET / HTTP/1.1\r\nHost: gamma\r\n\r\n", b"\x00" * 4096, b"\xff" * 64):
        with socket.create_connection(to, 10) as stranger:
            stranger.sendall(said)
            demand(is_closed(stranger), f"{said[:8]!r} wasn't sent away")
    silent = [socket.create_connection(to, 10) for _ in range(60)]
    begun = time.monotonic()
    demand(nodes.ask("gamma", "roll").startswith("ok roll"), "gamma with 60 strangers")
    demand(nodes.ask("beta", "peers").count(" up ") == 2, "peers of beta with 60 strangers")
    for stranger in silent:
        demand(is_closed(stranger), "a silent stranger stays")
        stranger.close()
    demand(4 < time.monotonic() - begun < 20, f"silent strangers went after {time.monotonic() - begun:.0f} s")
    idle = [nodes.of["gamma"].connect() for _ in range(40)]
    demand(nodes.ask("gamma", "roll").startswith("ok roll"), "gamma with 40 idle operators")
    for operator in idle:
        operator.close()


def is_closed(connection):
    connection.settimeout(LATEST)
    try:
        return connection.recv(1) == b""
    except ConnectionError:
        return True


def slow_peer(nodes):
    """One that reads nothing holds up nobody else, and goes on where it left off."""
    drawn = random.Random(0)
    nodes.make(CIRCUIT, NAMES)
    nodes.make(PAIR, NAMES[:2])
    gamma = nodes.of["gamma"]
    gamma.send(signal.SIGSTOP)
    try:
        for batch in range(1, 41):
            demand(nodes.submit("alpha", PAIR, batch, drawn) == "ok queued", f"batch {batch} of two")
        demand(nodes.submit("beta", CIRCUIT, 1, drawn) == "ok queued", "a batch of three")
        nodes.wait_for_batches(NAMES[:2], PAIR, range(1, 41))
        demand("1" not in (nodes.history("beta", CIRCUIT) or []), "a batch of three without the third")
    finally:
        gamma.send(signal.SIGCONT)
    nodes.wait_for_batches(NAMES, CIRCUIT, [1])


def what_waits(nodes):
    """What waits at a circuit, and for which member, while one or another of them is away."""
    waits = f"waits {THIRD}"
    says = lambda name, what: wait_for(lambda: nodes.ask(name, waits) == f"ok waits{what}", f"{name} says that{what or ' nothing'} waits")
    demand(nodes.ask("alpha", waits) == "refused 2", "what waits at a circuit that isn't there")
    for line in ("waits", "waits ", f"{waits} ", f"waits  {THIRD}", "waits Ab3dE", f"waits alpha {THIRD}", f"wait {THIRD}"):
        demand(nodes.ask("alpha", line) == "bad line", f"{line!r} is no line")
    nodes.of["gamma"].kill()
    services = ",".join(f"{name[0]}000:scabbard:{name}" for name in NAMES)
    demand(nodes.ask("beta", f"propose {THIRD} 1 2 splinter first {','.join(NAMES)} {services}") == "ok queued", "propose")
    says("alpha", " act:beta:vote:gamma")
    says("beta", " act:-:decision:alpha")
    nodes.of["gamma"].start()
    for others in (("alpha", "gamma"), ("alpha",), ()):
        for name in NAMES:
            says(name, "".join(f" circuit:proposal:accept:{other}" for other in others))
        if others:
            demand(nodes.ask(others[-1], f"vote {THIRD} accept") == "ok queued", f"{others[-1]} accepts")
    nodes.of["gamma"].kill()
    demand(nodes.submit("alpha", THIRD, 17, random.Random(0)) == "ok queued", "a batch without gamma")
    says("alpha", " batch:17:vote:gamma")
    says("beta", " batch:-:decision:alpha")
    nodes.of["gamma"].start()
    for name in NAMES:
        says(name, "")
    nodes.of["alpha"].kill()
    demand(nodes.submit("beta", THIRD, 18, random.Random(0)) == "ok queued", "a batch without the coordinator")
    demand(nodes.ask("gamma", f"disband {THIRD}") == "ok queued", "a disband without the coordinator")
    says("beta", " batch:18:round:alpha")
    says("gamma", " act:gamma:round:alpha")
    nodes.of["alpha"].start()
    for name in NAMES:
        says(name, " circuit:disband:accept:alpha circuit:disband:accept:beta")


def status_table(nodes):
    """What a node has, for people; behind `what_waits`, so one circuit waits for two members."""
    wait_for(lambda: nodes.ask("alpha", "peers").count(" up ") == 2, "both peers up")
    code, text, said = ended(nodes, "status", nodes.of["alpha"].folder)
    lines = text.splitlines()
    demand((code, said, lines[:2]) == (0, "", ["node alpha", ""]), f"status: {code} {text} {said}")
    demand([line.split()[:2] for line in lines[3:5]] == [["beta", "up"], ["gamma", "up"]], f"peers: {text}")
    circuits = nodes.ask("alpha", "roll").split()[3:]
    demand([line.split()[0] for line in lines[7:] if line[0] != " "] == circuits, f"circuits: {text}")
    for circuit in circuits:
        show = nodes.ask("alpha", f"show {circuit}").split()
        row = next(line.split() for line in lines if line.startswith(circuit))
        demand(row == [circuit, *(show[place] for place in (3, 5, 7, 11, 12, 14, 15))], f"{circuit}: {row}, {show}")
    after = lines[next(place for place, line in enumerate(lines) if line.startswith(THIRD)) + 1 :][:2]
    demand(after == [f"  waits for {name}: to accept the disband" for name in ("alpha", "beta")], f"what waits: {text}")
    demand(ended(nodes, "status", nodes.of["gamma"].folder / "none") == (8, "", "nobody serves the folder\n"), "a folder that isn't there")
    demand(ended(nodes, "status")[0] == 1, "no folder")


COUNTERS = ("turns events records syncs messages_out bytes_out messages_in bytes_in messages_dropped peer_connections "
            "operator_connections lines bad_lines").split()


def counters(nodes):
    """The counters of a node, which go up by what happened."""
    def counted():
        code, text, _ = ended(nodes, "ask", nodes.of["alpha"].folder, "metrics")
        lines = text.splitlines()
        demand(code == 0 and lines[::2] == [f"# TYPE splinter_{name}_total counter" for name in COUNTERS], f"metrics: {text}")
        demand([line.split()[0] for line in lines[1::2]] == [f"splinter_{name}_total" for name in COUNTERS], f"metrics: {text}")
        return {name: int(line.split()[1]) for name, line in zip(COUNTERS, lines[1::2])}

    before = counted()
    demand(nodes.ask("alpha", "nonsense") == "bad line", "nonsense")
    demand(nodes.submit("alpha", PAIR, 41, random.Random(0)) == "ok queued", "a batch")
    nodes.wait_for_batches(NAMES[:2], PAIR, [41])
    after = counted()
    more = {name: after[name] - before[name] for name in COUNTERS}
    demand(more["bad_lines"] == 1 and more["lines"] >= 4 and more["operator_connections"] == more["lines"], f"lines: {more}")
    for name in COUNTERS[:4] + COUNTERS[4:8]:
        demand(more[name] > 0, f"{name} stayed: {more}")
    demand(more["syncs"] % 2 == 0 and more["syncs"] <= 2 * min(more["turns"], more["records"]), f"syncs: {more}")
    demand(more["records"] <= more["events"], f"records: {more}")


class Follower:
    """Who follows a circuit under one name, and keeps what he was told and so the place that he has come to."""

    def __init__(self, nodes, circuit, name):
        self.nodes, self.circuit, self.name, self.taken = nodes, circuit, name, []

    def watch(self, at):
        place = len(self.taken)
        said = self.nodes.ask(at, f"watch {self.circuit} {self.name} {place}")
        demand(said == f"ok watching {place}", f"{self.name} watches at {at} from {place}: {said}")

    def pull(self, at, count):
        said = self.nodes.ask(at, f"pull {self.circuit} {self.name} {count}").split(" ")
        demand(said[:2] == ["ok", "delta"] and len(said) == 3 + int(said[2]) <= 3 + count, f"{self.name} pulls {count} at {at}: {said}")
        self.taken += said[3:]
        return len(said) - 3


def submit_known(nodes, name, batch):
    """A batch whose delta is known, but for its place."""
    address = f"{batch:02x}" + "00" * 34
    said = nodes.ask(name, f"submit {WATCHED} {batch} tx out:{batch:02x} set:{address}={batch:04x}")
    demand(said == "ok queued", f"batch {batch}: {said}")
    nodes.wait_for_batches(NAMES, WATCHED, [batch])
    return f":{batch}:{address}={batch:04x}"


def watchers_refused(nodes):
    """What a line of a watcher is refused with, and what is no such line. The watchers of a process are its own."""
    asks = lambda line, name="alpha": nodes.ask(name, line)
    says = lambda line, what, name="alpha": demand(asks(line, name) == what, f"{line!r} at {name}: {asks(line, name)}")
    for line in ("watch", f"watch {WATCHED}", f"watch {WATCHED} w", f"watch {WATCHED} w 0 ", f"watch {WATCHED} W 0", f"watch {WATCHED} ninebytes 0",
                 f"watch alpha {WATCHED} w 0", f"watch {WATCHED} w -1", f"watch {WATCHED} w 4294967296", "pull", f"pull {WATCHED} w", f"pull {WATCHED} w 0",
                 f"pull {WATCHED} w 65", f"pull beta {WATCHED} w 1", f"pull {WATCHED} w 1 1"):
        says(line, "bad line")
    for line in (f"watch {WATCHED} w 0", f"pull {WATCHED} w 1"):
        says(line, "refused 2")
    nodes.propose(WATCHED, NAMES)
    for line in (f"watch {WATCHED} w 0", f"pull {WATCHED} w 1"):
        says(line, "refused 11")
    nodes.accept(WATCHED, NAMES, "active")
    says(f"pull {WATCHED} w 1", "refused 23")
    says(f"watch {WATCHED} w 1", "refused 22 0")
    says(f"watch {WATCHED} w 0", "ok watching 0")
    says(f"watch {WATCHED} w 0", "refused 21")
    says(f"pull {WATCHED} w 64", "ok delta 0")
    says(f"pull {WATCHED} w 64", "refused 23", "beta")
    for n in range(15):
        says(f"watch {WATCHED} w{n} 0", "ok watching 0")
    says(f"watch {WATCHED} last 0", "refused 25")
    says(f"watch {WATCHED} last 0", "ok watching 0", "beta")


def watchers_of_another_generation(nodes):
    """A watcher of a circuit that was disbanded takes nothing of one that has its id."""
    members, show = NAMES[:2], f"show {RENEWED}"
    nodes.make(RENEWED, members)
    demand(nodes.ask("alpha", f"watch {RENEWED} w 0") == "ok watching 0", "a watcher of the first generation")
    demand(nodes.ask("alpha", f"disband {RENEWED}") == "ok queued", "a disband")
    wait_for(lambda: nodes.all_say(members, show, "lifecycle disbanding"), "disbanding everywhere")
    demand(nodes.ask("alpha", f"pull {RENEWED} w 1") == "ok delta 0", "a circuit that is disbanding runs")
    nodes.accept(RENEWED, members, "disbanded")
    demand(nodes.ask("alpha", f"pull {RENEWED} w 1") == "refused 11", "a circuit that was disbanded")
    for name in members:
        said = nodes.ask(name, f"purge {RENEWED}")
        demand(said == "ok purged", f"purge at {name}: {said}")
    demand(nodes.ask("alpha", f"pull {RENEWED} w 1") == "refused 2", "a circuit that was purged")
    nodes.make(RENEWED, members, 2)
    demand(nodes.ask("alpha", f"pull {RENEWED} w 1") == "refused 24", "a watcher of the generation before")
    demand(nodes.ask("alpha", f"watch {RENEWED} w 0") == "refused 21", "its name is taken")
    demand(nodes.ask("alpha", f"watch {RENEWED} v 0") == "ok watching 0", "a watcher of the second generation")


def watchers(nodes):
    """Who follows a circuit takes each delta once and in order: under two names, of two members, and over a kill of each, after which he watches
    again from the place that he has come to."""
    watchers_refused(nodes)
    watchers_of_another_generation(nodes)
    drawn, wanted = random.Random(0), []
    one, other = Follower(nodes, WATCHED, "one"), Follower(nodes, WATCHED, "other")
    for name, follower in (("beta", one), ("gamma", other)):
        follower.watch(name)
    for batch in range(1, 31):
        wanted.append(f"{batch - 1}{submit_known(nodes, drawn.choice(NAMES), batch)}")
        for name, follower in (("beta", one), ("gamma", other)):
            if drawn.random() < 0.5:
                follower.pull(name, drawn.choice((1, 2, 3, 64)))
        if batch % 10 == 0:
            for name, follower in (("beta", one), ("gamma", other)):
                nodes.of[name].kill()
                nodes.of[name].start()
                demand(nodes.ask(name, f"pull {WATCHED} {follower.name} 1") == "refused 23", f"a watcher of {name} outlived a kill")
                follower.watch(name)
    # One goes on at another member.
    one.watch("gamma")
    while one.pull("gamma", 7) + other.pull("gamma", 7):
        pass
    for follower in (one, other):
        demand(follower.taken == wanted, f"{follower.name} took {follower.taken} of {wanted}")


def synced_before_it_is_read(nodes):
    """What a node that was killed wrote and never synced is synced before it begins with it."""
    node, trace = nodes.of["gamma"], nodes.top / "trace"
    traced = traced_first_calls(trace)
    if not traced:
        return
    node.kill()
    program, node.program = node.program, [traced[0], "-D", *traced[1:], *node.program]
    try:
        node.start()
        demand(not_synced_first(trace, ("d02a", "d02b")) == [], "a file was read before it was synced")
        node.kill()
    finally:
        node.program = program
    node.start()


def old_copy(nodes):
    """A node that begins with an old copy of its files is told of, once, by a peer that it asks by a round that it used."""
    alpha, beta, drawn = nodes.of["alpha"], nodes.of["beta"], random.Random(0)
    said = "peer alpha asks for votes by a round below one that it used: its files are an old copy\n"
    alpha.kill()
    kept = {path: path.read_bytes() for path in alpha.folder.glob("d00?")}
    alpha.start()
    for batch in (61, 62, 63):
        demand(nodes.submit("alpha", PAIR, batch, drawn) == "ok queued", f"batch {batch}")
    nodes.wait_for_batches(NAMES[:2], PAIR, (61, 62, 63))
    demand(nodes.ask("beta", "peers").startswith("ok peers alpha up ") and said not in beta.said(), "alpha is told of too early")
    alpha.kill()
    for path, content in kept.items():
        path.write_bytes(content)
    alpha.start()
    demand(nodes.submit("alpha", PAIR, 64, drawn) == "ok queued", "a batch at an old copy")
    wait_for(lambda: nodes.ask("beta", "peers").startswith("ok peers alpha old "), "alpha is old at beta")
    demand(nodes.submit("alpha", PAIR, 65, drawn) == "ok queued", "another batch at an old copy")
    demand(beta.said().count(said) == 1, "what beta says of alpha")


CHECKS = (
    ends_of_ask, ends_of_serve, socket_is_the_owners, one_line_at_a_time, words_of_peers, strangers, ends_over_files, files_of_others, slow_peer,
    what_waits, status_table, counters, watchers, synced_before_it_is_read, ends_in_order, endpoints_by_name, old_copy,
)


def faults_of(action):
    try:
        action()
    except (Wrong, OSError, subprocess.TimeoutExpired) as fault:
        return [fault]
    return []


def ran(program, seed):
    with tempfile.TemporaryDirectory(prefix="nodes") as top:
        with Nodes(program, pathlib.Path(top), seed if seed % 3 == 2 else None) as nodes:
            Run(nodes, seed).run()


def run(words, tally):
    program, (first, count) = command_of(words), numbers_of(words, 0, 3)
    for seed in range(first, first + count):
        tally.add(f"seed {seed}", faults_of(lambda: ran(program, seed)))
    with tempfile.TemporaryDirectory(prefix="nodes") as top:
        with Nodes(program, pathlib.Path(top)) as nodes:
            for check in CHECKS:
                tally.add(check.__name__, faults_of(lambda: check(nodes)))
