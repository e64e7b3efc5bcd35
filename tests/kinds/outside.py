"""Surroundings that are none of the rules: a registry that can be read only once, a folder that another run uses or that isn't there,
standard descriptors that are closed, a limit of file size, connections from strangers, signals; and audits of files that can't be written, of
which none may change.

words: [PROGRAM]
"""
import fcntl
import os
import pathlib
import pty
import resource
import select
import signal
import socket
import subprocess
import tempfile
import threading
import time

from common import EXAMPLES, MAIN, REGISTRY, SPLINTER, command_of, not_synced_first, traced_first_calls

GATE = (MAIN,)
SCHEDULE = EXAMPLES / "linked.schedule"
PROGRAM = [SPLINTER]
NO_DISK = (7, "", "disk of alpha failed\n")
AGREED = "Ab3dE-00001 1 acts 2 batches 2\nagreed\n"
NOBODY = 65534


def ran(*words, **how):
    """Status, output and what is said on standard error; no status where it hangs."""
    how = {"stdin": subprocess.DEVNULL, "timeout": 20, **how}
    if "input" in how:
        del how["stdin"]
    try:
        done = subprocess.run([*PROGRAM, *map(str, words)], stdout=subprocess.PIPE, stderr=subprocess.PIPE, **how)
    except subprocess.TimeoutExpired:
        return None, "", ""
    return done.returncode, done.stdout.decode(), done.stderr.decode()


def files(folder):
    return sorted(os.listdir(folder))


def registry_from_a_pipe(folder, whole):
    return ran("links", "/dev/stdin", SCHEDULE, folder, input=REGISTRY.read_bytes()) == whole


def registry_from_a_named_pipe(folder, whole):
    pipe = folder.parent / "pipe"
    os.mkfifo(pipe)
    threading.Thread(target=lambda: pipe.write_bytes(REGISTRY.read_bytes()), daemon=True).start()
    return ran("links", pipe, SCHEDULE, folder) == whole


def empty_name_of_a_folder(folder, whole):
    before = files("/")
    return ran("links", REGISTRY, SCHEDULE, "") == NO_DISK and files("/") == before


def missing_folder(folder, whole):
    none = folder / "none"
    ended = [ran("links", REGISTRY, SCHEDULE, none), ran("resume", REGISTRY, SCHEDULE, none), ran("audit", REGISTRY, none)]
    return ended == [NO_DISK] * 3 and not none.exists()


def bad_registry_makes_no_file(folder, whole):
    status, output, said = ran("links", "/dev/null", SCHEDULE, folder)
    return (status, output) == (2, "") and said.startswith("bad registry: ") and files(folder) == []


def missing_registry_makes_no_file(folder, whole):
    return ran("links", folder / "none", SCHEDULE, folder) == (5, "", "read failed\n") and files(folder) == []


def answers_at_once(folder, whole):
    """Over links an answer comes before the next line is there, and what its line changed is in the files."""
    command = [*PROGRAM, "links", str(REGISTRY), "/dev/stdin", str(folder)]
    running = subprocess.Popen(command, stdin=subprocess.PIPE, stdout=subprocess.PIPE, stderr=subprocess.PIPE)
    first = next(line for line in SCHEDULE.read_bytes().splitlines(True) if not line.startswith((b"#", b"\n")))
    running.stdin.write(first)
    running.stdin.flush()
    is_there = bool(select.select([running.stdout], [], [], 10)[0])
    found = is_there and running.stdout.readline().startswith(b"1 ok ") and any((folder / name).stat().st_size > 20 for name in files(folder))
    running.kill()
    running.communicate()
    return found


def answers_at_a_terminal(folder, whole):
    """In memory an answer comes to a terminal before the next line is there, and to a pipe it waits for more."""
    came = []
    for ends in (pty.openpty(), os.pipe()):
        command = [*PROGRAM, "replay", str(REGISTRY), "/dev/stdin"]
        running = subprocess.Popen(command, stdin=subprocess.PIPE, stdout=ends[1], stderr=subprocess.DEVNULL)
        running.stdin.write(b"show alpha Ab3dE-00001\n")
        running.stdin.flush()
        readable, _, _ = select.select([ends[0]], [], [], 3)
        came.append(os.read(ends[0], 4096).split() if readable else [])
        running.stdin.close()
        running.wait()
        for end in ends:
            os.close(end)
    return came == [[b"1", b"refused", b"2"], []]


def folder_in_use(folder, whole):
    """A run that uses a folder keeps others from it, and audits; an audit keeps runs from it, and no other audit."""
    words = {"links": [REGISTRY, SCHEDULE], "resume": [REGISTRY, SCHEDULE], "audit": [REGISTRY]}
    ended = lambda: [ran(word, *names, folder) for word, names in words.items()]
    lock = os.open(folder, os.O_RDONLY)
    fcntl.flock(lock, fcntl.LOCK_EX)
    run_keeps = ended() == [NO_DISK] * 3
    fcntl.flock(lock, fcntl.LOCK_SH)
    audit_keeps = ended() == [NO_DISK, NO_DISK, (0, "agreed\n", "")]
    os.close(lock)
    return run_keeps and audit_keeps and files(folder) == [] and ran("links", REGISTRY, SCHEDULE, folder) == whole


def closed_input(folder, whole):
    close = lambda: os.close(0)
    return ran("replay", REGISTRY, "/dev/stdin", preexec_fn=close, close_fds=False) == (5, "", "read failed\n")


def closed_output(folder, whole):
    """A run that has answers to write can't, and no disk stands in for its output."""
    close = lambda: (os.close(0), os.close(1))
    status, _, said = ran("links", REGISTRY, SCHEDULE, folder, preexec_fn=close)
    return (status, said) == (6, "write failed\n") and b"ok" not in b"".join((folder / name).read_bytes()[:8] for name in files(folder))


def limit_of_file_size(folder, whole):
    limit = lambda: (signal.signal(signal.SIGXFSZ, signal.SIG_IGN), resource.setrlimit(resource.RLIMIT_FSIZE, (512, 512)))
    status, output, said = ran("links", REGISTRY, SCHEDULE, folder, preexec_fn=limit)
    return status == 7 and whole[1].startswith(output) and said in ("disk of alpha failed\n", "disk of beta failed\n")


def strangers(folder, whole):
    """A listener whose queue strangers fill ends the run in some seconds, or takes the node's own connection after all."""
    ports = []
    for _ in range(2):
        with socket.socket() as free:
            free.bind(("127.0.0.1", 0))
            ports.append(free.getsockname()[1])
    registry = folder.parent / "registry"
    entry = '[[node]]\nidentity = "{0}"\ndisplay_name = "{0}"\nendpoints = ["127.0.0.1:{1}"]\n'
    registry.write_text("".join(entry.format(name, port) for name, port in zip(("alpha", "beta"), ports)))
    reader, writer = os.pipe()
    running = subprocess.Popen(
        [*PROGRAM, "links", str(registry), "/dev/stdin", str(folder)], stdin=reader, stdout=subprocess.PIPE, stderr=subprocess.PIPE
    )
    time.sleep(1)
    queue = []
    for port in ports:
        for _ in range(160):
            queue.append(socket.socket())
            queue[-1].setblocking(False)
            queue[-1].connect_ex(("127.0.0.1", port))
    begun = time.monotonic()
    os.write(writer, SCHEDULE.read_bytes())
    os.close(writer)
    try:
        output, said = running.communicate(timeout=45)
    except subprocess.TimeoutExpired:
        running.kill()
        return False
    ended = (running.returncode, output.decode(), said.decode())
    return time.monotonic() - begun < 40 and (ended == whole or ended[0] == 8 and whole[1].startswith(ended[1]))


def state_of(folder):
    """What a folder has: of each file its name, its bytes, and when it was last written or changed."""
    return [(path.name, path.read_bytes(), path.stat().st_mtime_ns, path.stat().st_ctime_ns) for path in sorted(folder.iterdir())]


def as_nobody():
    os.setgroups([])
    os.setgid(NOBODY)
    os.setuid(NOBODY)


def without_rights():
    """How a run is started as a user that may write nothing, where that can be: root may write everything."""
    if os.geteuid():
        return {}
    try:
        can = ran(preexec_fn=as_nobody)[0] == 1
    except OSError:
        can = False
    return {"preexec_fn": as_nobody} if can else {}


def audited(folder, wanted, **how):
    """Whether an audit ends like this, and changes nothing."""
    before, at = state_of(folder), folder.stat().st_mtime_ns
    found = ran("audit", REGISTRY, folder, **how) == wanted
    return found and state_of(folder) == before and folder.stat().st_mtime_ns == at


def audit_of_read_only_files(folder, whole):
    ran("links", REGISTRY, SCHEDULE, folder)
    for path in folder.iterdir():
        path.chmod(0o444)
    folder.chmod(0o555)
    found = audited(folder, (0, AGREED, ""), **without_rights())
    folder.chmod(0o755)
    return found


def audit_of_no_files(folder, whole):
    """Nothing is made in a folder without files, where each node is one without cells."""
    return audited(folder, (0, "agreed\n", "")) and files(folder) == []


def audit_of_missing_files(folder, whole):
    """A node whose files aren't there is one without cells."""
    ran("links", REGISTRY, SCHEDULE, folder)
    for name in ("d01a", "d01b"):
        (folder / name).unlink()
    return audited(folder, (0, AGREED, ""))


def audit_of_what_is_no_file(folder, whole):
    ran("links", REGISTRY, SCHEDULE, folder)
    (folder / "d01b").unlink()
    (folder / "d01b").mkdir()
    return ran("audit", REGISTRY, folder) == (7, "", "disk of beta failed\n")


def audit_of_pipes(folder, whole):
    """What is opened to be read alone would wait for a pipe, in the place of a file or of the folder."""
    ran("links", REGISTRY, SCHEDULE, folder)
    (folder / "d01b").unlink()
    os.mkfifo(folder / "d01b")
    pipe = folder.parent / "pipe-for-a-folder"
    os.mkfifo(pipe)
    in_place_of_a_file = ran("audit", REGISTRY, folder) == (7, "", "disk of beta failed\n")
    return in_place_of_a_file and [ran("links", REGISTRY, SCHEDULE, pipe), ran("audit", REGISTRY, pipe)] == [NO_DISK, NO_DISK]


def audit_without_output(folder, whole):
    ran("links", REGISTRY, SCHEDULE, folder)
    before = state_of(folder)
    return ran("audit", REGISTRY, folder, preexec_fn=lambda: os.close(1))[::2] == (6, "write failed\n") and state_of(folder) == before


def resumed_at_once(folder, whole):
    """What a run left is gone on with: a line more is answered, by both nodes."""
    ran("links", REGISTRY, SCHEDULE, folder)
    asked = b"history alpha Ab3dE-00001\nhistory beta Ab3dE-00001\n"
    return ran("resume", REGISTRY, "/dev/stdin", folder, input=asked) == (0, "1 ok history 2 1 3\n2 ok history 2 1 3\n", "")


def synced_before_it_is_read(folder, whole):
    """What a run that was killed wrote and never synced is synced before a run goes on with it."""
    ran("links", REGISTRY, SCHEDULE, folder)
    trace = folder.parent / "trace"
    traced = traced_first_calls(trace)
    if not traced:
        return True
    subprocess.run([*traced, *PROGRAM, "resume", REGISTRY, "/dev/null", str(folder)], stdin=subprocess.DEVNULL, capture_output=True, timeout=20)
    return not_synced_first(trace, ("d00a", "d00b", "d01a", "d01b")) == []


CHECKS = (
    registry_from_a_pipe, registry_from_a_named_pipe, empty_name_of_a_folder, missing_folder, bad_registry_makes_no_file,
    missing_registry_makes_no_file, answers_at_once, answers_at_a_terminal, folder_in_use, closed_input, closed_output,
    limit_of_file_size, strangers, audit_of_read_only_files, audit_of_no_files, audit_of_missing_files, audit_of_what_is_no_file,
    audit_of_pipes, audit_without_output, resumed_at_once, synced_before_it_is_read,
)


def run(words, tally):
    PROGRAM[:] = command_of(words)
    with tempfile.TemporaryDirectory() as top:
        os.chmod(top, 0o755)
        first = pathlib.Path(top) / "whole"
        first.mkdir()
        whole = ran("links", REGISTRY, SCHEDULE, first)
        for check in CHECKS:
            folder = pathlib.Path(top) / check.__name__ / "disks"
            folder.mkdir(parents=True)
            tally.add(check.__name__, [] if check(folder, whole) else ["not as it should be"])
