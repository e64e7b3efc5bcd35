"""The files of deploy/ as an operator uses them: the unit for systemd and the container, over a backup, another machine and an upgrade.

words: [PROGRAM [SCHEDULES]]; PROGRAM takes the words serve and ask, SCHEDULES audit

`unit` runs systemd's own check of the unit, and serves three nodes by its words. `container` serves three nodes, each in a root folder with what the
Containerfile copies there and the libraries that the program names, in place of those of the image, with processes and mounts of its own and the
file's user. Where systemd-analyze isn't here, or a test may not do that, it says so and passes what it can't try.
"""
import contextlib
import os
import pathlib
import re
import shutil
import signal
import socket
import subprocess
import tempfile

from common import MAIN, OPERATOR, SPLINTER, TOP, command_of, ended_in_text
from kinds.nodes import LATEST, NAMES, demand, faults_of, free_port, read_line, registry_of, wait_for

GATE = (OPERATOR, MAIN)
UNIT, CONTAINER = TOP / "deploy" / "splinter@.service", TOP / "deploy" / "Containerfile"
CIRCUIT = "Ab3dE-00007"
COPIED = "crates/spl_operator/out/spl_operator"
# What of an image's own the script in it uses.
TOOLS = ("/bin/sh", "/bin/sleep")


class Node:
    """A node that is served by a command over a folder."""

    def __init__(self, name, folder, command):
        self.name, self.folder, self.command, self.process = name, folder, command, None

    def start(self, *last):
        command = [*map(str, self.command), *last]
        self.process = subprocess.Popen(command, stdin=subprocess.DEVNULL, stderr=subprocess.DEVNULL, start_new_session=True)
        wait_for(lambda: self.process.poll() is not None or self.ask("roll"), f"{self.name} serves")
        demand(self.process.poll() is None, f"{self.name} ended with {self.process.poll()}")

    def kill(self):
        if self.process and self.process.poll() is None:
            os.killpg(self.process.pid, signal.SIGKILL)
            self.process.wait()
        wait_for(lambda: not self.ask("roll"), f"{self.name} is gone")

    def ask(self, line):
        try:
            with socket.socket(socket.AF_UNIX) as connection:
                connection.settimeout(10)
                connection.connect(str(self.folder / "socket"))
                connection.sendall(line.encode() + b"\n")
                return read_line(connection)
        except OSError:
            return ""


@contextlib.contextmanager
def served(nodes):
    """Ends the nodes behind what is done with them."""
    try:
        yield
    finally:
        for node in nodes:
            node.kill()


def settled(nodes, batches):
    """All have committed so many batches, and have one root."""
    roots = lambda: {node.ask(f"root {CIRCUIT}") for node in nodes}
    wait_for(lambda: len(found := roots()) == 1 and min(found).startswith(f"ok root {batches} "), f"one root of {batches} batches")


def make_circuit(nodes):
    roster = ",".join(f"{node.name[0]}000:scabbard:{node.name}" for node in nodes)
    demand(nodes[0].ask(f"propose {CIRCUIT} 1 2 deployed first {','.join(NAMES)} {roster}") == "ok queued", "propose")
    for node in nodes[1:]:
        wait_for(lambda: "lifecycle proposed" in node.ask(f"show {CIRCUIT}"), f"{node.name} knows the proposal")
        demand(node.ask(f"vote {CIRCUIT} accept") == "ok queued", "vote")
        wait_for(lambda: node.name in node.ask(f"show {CIRCUIT}"), f"{node.name} accepted")
    wait_for(lambda: all("lifecycle active" in node.ask(f"show {CIRCUIT}") for node in nodes), "active")


def submit(node, batch):
    said = node.ask(f"submit {CIRCUIT} {batch} tx out: set:{'00' * 34}{batch:02x}=2a")
    demand(said == "ok queued", f"batch {batch}: {said}")


def audited(schedules, registry, nodes, room):
    """What an audit says of copies of the nodes' files, each taken one after the other."""
    room.mkdir()
    for position, node in enumerate(nodes):
        for letter in "ab":
            shutil.copy(node.folder / f"d{position:02}{letter}", room)
    output, status, _ = ended_in_text([*schedules, "audit", registry, room])
    demand((status, output.splitlines()[-1:]) == (0, ["agreed"]), f"an audit ends with {status}: {output}")


def faults_of_unit(top):
    """What systemd's own check says of the unit; that the program isn't where it is to be installed doesn't count."""
    copy = top / "splinter@.service"
    copy.write_text(UNIT.read_text().replace("/usr/local/bin/splinter-node", "/bin/true"))
    done = subprocess.run(["systemd-analyze", "verify", "--man=no", copy], capture_output=True, text=True)
    return [line for line in done.stderr.splitlines() if "splinter" in line]


def unit(program, schedules, top):
    if shutil.which("systemd-analyze"):
        said = faults_of_unit(top)
        demand(not said, f"systemd-analyze: {said}")
    else:
        print("deployed: systemd-analyze isn't here")
    registry, nodes = top / "nodes.toml", []
    registry.write_text(registry_of({name: free_port() for name in NAMES}))
    for name in NAMES:
        (top / name).mkdir()
        nodes.append(Node(name, top / name, [*program, *words_of_unit("ExecStart=", top, name)]))
    with served(nodes):
        live(nodes, schedules, registry, top)
        stop = [*program, *words_of_unit("ExecStop=-", top, nodes[0].name)]
        end_in_order(nodes, lambda: subprocess.run(stop, check=True, stdout=subprocess.DEVNULL, timeout=LATEST))


def words_of_unit(line, top, name):
    """The words of the program in a line of the unit, for a node in this folder."""
    words = re.search(rf"^{line}/usr/local/bin/splinter-node (.*)$", UNIT.read_text(), re.M)[1]
    return words.replace("/etc/splinter", str(top)).replace("/var/lib/splinter", str(top)).replace("%i", name).split()


def end_in_order(nodes, end):
    """The first node is ended and started again; what it was asked last is kept."""
    batches = int(nodes[0].ask(f"root {CIRCUIT}").split()[2])
    submit(nodes[0], batches + 1)
    end()
    status = nodes[0].process.wait(LATEST)
    demand(status == 0, f"a node that was ended in order ended with {status}")
    nodes[0].start()
    settled(nodes, batches + 1)


class Image:
    """What the Containerfile says."""

    def __init__(self):
        text = re.sub(r"\\\n\s*", "", "".join(line for line in CONTAINER.open() if not line.startswith("#")))
        said = lambda word: re.findall(rf"^{word} (.*)$", text, re.M)
        self.copies, self.runs = [it.split() for it in said("COPY")], said("RUN")
        self.user, self.volume = said("USER")[0], said("VOLUME")[0]
        self.entry = re.findall(r'"([^"]*)"', said("ENTRYPOINT")[0])

    def unpack(self, program, root):
        """A root folder of this image: files of this machine stand for those of the image that it begins with."""
        for source, place in self.copies:
            (root / place[1:]).parent.mkdir(parents=True, exist_ok=True)
            shutil.copy(program if source == COPIED else TOP / source, root / place[1:])
        for tool in TOOLS:
            (root / tool[1:]).parent.mkdir(parents=True, exist_ok=True)
            shutil.copy(tool, root / tool[1:])
        found = subprocess.run(["ldd", program, *TOOLS], capture_output=True, text=True, check=True).stdout
        for library in re.findall(r"(/\S+) \(", found):
            (root / library[1:]).parent.mkdir(parents=True, exist_ok=True)
            shutil.copy(library, root / library[1:])
        (root / "dev").mkdir()
        (root / "dev" / "null").touch(0o666)
        (root / "dev" / "null").chmod(0o666)
        for run in self.runs:
            words = run.split()
            subprocess.run([*words[:-1], root / words[-1][1:]], check=True)
        (root / "etc" / "splinter").mkdir(parents=True)

    def node(self, program, root, name):
        self.unpack(program, root)
        own = ["unshare", "--mount", "--pid", "--fork", "chroot", f"--userspec={self.user}", root]
        return Node(name, root / self.volume[1:], [*own, *self.entry, name, self.volume])


def container(program, schedules, top):
    try:
        subprocess.run(["unshare", "--mount", "--pid", "--fork", "chroot", "/", "true"], check=True, capture_output=True)
    except (OSError, subprocess.CalledProcessError):
        print("deployed: a test may not make a container here")
        return
    image, registry = Image(), top / "nodes.toml"
    registry.write_text(registry_of({name: free_port() for name in NAMES}))
    nodes = [image.node(program[0], top / name, name) for name in NAMES]
    for name in NAMES:
        shutil.copy(registry, top / name / "etc" / "splinter" / "nodes.toml")
    with served(nodes):
        live(nodes, schedules, registry, top)
        end_in_order(nodes, lambda: os.kill(first_of(nodes[0].process), signal.SIGTERM))
        move(image, program[0], nodes, registry, top)
        upgrade(program[0], nodes, top)
        audited(schedules, registry, nodes, top / "last")


def first_of(process):
    """The first process of a container, which its runtime ends by a signal."""
    return int(pathlib.Path(f"/proc/{process.pid}/task/{process.pid}/children").read_text().split()[0])


def live(nodes, schedules, registry, top):
    """A first start, a circuit, a backup of nodes that run, and a kill."""
    for node in nodes:
        node.start("new")
    make_circuit(nodes)
    for batch in range(1, 4):
        submit(nodes[batch % 3], batch)
    settled(nodes, 3)
    audited(schedules, registry, nodes, top / "backup")
    nodes[1].kill()
    submit(nodes[0], 4)
    nodes[1].start()
    settled(nodes, 4)


def move(image, program, nodes, registry, top):
    """The last node goes to another machine, with another address."""
    old = nodes[2]
    old.kill()
    ports = dict(zip(NAMES, re.findall(r"127\.0\.0\.1:(\d+)", registry.read_text())))
    registry.write_text(registry_of({**ports, old.name: free_port()}))
    new = image.node(program, top / "another", old.name)
    for path in old.folder.iterdir():
        if path.is_file():
            shutil.copy(path, new.folder)
            os.chown(new.folder / path.name, *map(int, image.user.split(":")))
    nodes[2] = new
    for node, root in zip(nodes, ("alpha", "beta", "another")):
        node.kill()
        shutil.copy(registry, top / root / "etc" / "splinter" / "nodes.toml")
    for node in nodes:
        node.start()
    submit(nodes[2], 6)
    settled(nodes, 6)


def upgrade(program, nodes, top):
    nodes[1].kill()
    placed = top / "beta" / "usr" / "local" / "bin" / "splinter-node"
    placed.unlink()
    shutil.copy(program, placed)
    nodes[1].start()
    submit(nodes[1], 7)
    settled(nodes, 7)


def run(words, tally):
    program, schedules = command_of(words), command_of(words[1:], SPLINTER)
    for case in (unit, container):
        with tempfile.TemporaryDirectory(prefix="deployed") as top:
            tally.add(case.__name__, faults_of(lambda: case(program, schedules, pathlib.Path(top))))
