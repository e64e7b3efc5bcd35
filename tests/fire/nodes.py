"""Node processes, the ways between them, and those who ask them."""
import json
import os
import random
import select
import shutil
import socket
import subprocess
import threading
import time

from diskfaults import Disk

now = time.monotonic

# The name of the socket in a node's folder, by which it is asked.
SOCKET = 'socket'

# How a node ends whose disk failed.
DISK_FAILED = 7


class Proxy(threading.Thread):
    """The way from one node to one peer: it carries whole connections, and can hurt them."""

    def __init__(self, port, to, rng):
        super().__init__(daemon=True)
        self.to, self.rng, self.open, self.server = to, rng, set(), socket.socket()
        self.before = ([], [])               # messages that went there and back, those of connections that ended too
        self.server.setsockopt(socket.SOL_SOCKET, socket.SO_REUSEADDR, 1)
        self.server.bind(('127.0.0.1', port))
        self.server.listen(64)
        self.heal()
        self.start()

    def heal(self):
        self.closed = self.stalled = 0       # until when connections are refused; until when nothing is carried
        self.delay, self.rate, self.odd = 0.0, 0, 0.0     # seconds a piece; bytes a second; share of messages hurt

    def cut(self):
        for s in list(self.open):
            try:
                s.shutdown(socket.SHUT_RDWR)
            except OSError:
                pass

    def run(self):
        while True:
            a, _ = self.server.accept()
            if now() < self.closed:
                a.close()
                continue
            try:
                b = socket.create_connection(('127.0.0.1', self.to), 2)
                b.settimeout(None)
            except OSError:
                a.close()
                continue
            left = [2]
            self.open |= {a, b}
            for x, y, before in ((a, b, self.before[0]), (b, a, self.before[1])):
                threading.Thread(target=self.pump, args=(x, y, left, random.Random(self.rng.random()), before), daemon=True).start()

    def hurt(self, frames, rng, held, before):
        """Whole messages are dropped, repeated, put after the next one, or an old one is put with them; parts and greetings never."""
        out = []
        for f in frames:
            is_message = len(f) > 6 and f[6] in (1, 2)
            if is_message and rng.random() < self.odd:
                kind = rng.randrange(4)
                out += [f, f] if kind == 1 else [rng.choice(before), f] if kind == 3 and before else []
                held += [f] if kind == 2 else []
            else:
                out += [f] + held
                held.clear()
            if is_message:
                before.append(f)
                del before[:-200]
        return b''.join(out)

    def pump(self, x, y, left, rng, before):
        data, held, raw = b'', [], False
        try:
            while piece := x.recv(65536):
                while now() < self.stalled:
                    time.sleep(0.02)
                if self.delay:
                    time.sleep(rng.uniform(0, self.delay))
                data += piece
                frames = []
                while not raw and len(data) >= 6:
                    n = int.from_bytes(data[2:6], 'big')
                    raw = data[:2] != b'\0\1' or n > 16384
                    if raw or len(data) < 6 + n:
                        break
                    frames.append(data[:6 + n])
                    data = data[6 + n:]
                put = self.hurt(frames, rng, held, before) if self.odd else b''.join(frames + held)
                if not self.odd:
                    held.clear()
                if raw:
                    put, data = put + data, b''
                while put:
                    step = max(1, self.rate // 20) if self.rate else len(put)
                    y.sendall(put[:step])
                    put = put[step:]
                    if self.rate:
                        time.sleep(0.05)
        except OSError:
            pass
        for s in (x, y):
            try:
                s.shutdown(socket.SHUT_RDWR)
            except OSError:
                pass
        left[0] -= 1
        if left[0] == 0:
            self.open -= {x, y}
            x.close()
            y.close()



class Node:
    def __init__(self, run, name, position):
        self.run, self.name, self.position = run, name, position
        self.dir = run.top / name
        self.dir.mkdir()
        self.registry = run.top / (name + '.toml')
        self.lock, self.process, self.up, self.doomed, self.restarts = threading.RLock(), None, False, False, 0
        self.rest, self.sizes, self.log = 0, [], open(run.top / (name + '.log'), 'ab')
        self.disk, self.failing = Disk(run.library, self.dir, position, run.top) if run.library else None, False

    def start(self, new=False, syscall=0):
        with self.lock:
            words = self.run.program + ['serve', str(self.registry), self.name, str(self.dir)] + (['new'] if new else [])
            if syscall:
                words = ['strace', '-D', '-f', '-qq', '-o', '/dev/null', '-e', 'trace=fsync,fdatasync', '-e',
                         'inject=fsync,fdatasync:signal=KILL:when=%d' % syscall] + words
            if 'old' in self.run.faults:         # not one that a program can stand: the judge has to see it
                saved = self.dir.with_suffix('.saved')
                if saved.exists() and self.restarts % 2 == 0:
                    for f in saved.iterdir():
                        shutil.copy(f, self.dir / f.name)
                shutil.rmtree(saved, ignore_errors=True)
                shutil.copytree(self.dir, saved, ignore=shutil.ignore_patterns(SOCKET))
            self.doomed, self.failing = bool(syscall), bool(self.disk and self.disk.order.exists())
            self.process = subprocess.Popen(words, stdin=subprocess.DEVNULL, stdout=self.log, stderr=self.log,
                                            env=self.disk and self.disk.environment())
            self.up = True

    def kill(self):
        with self.lock:
            if self.up:
                self.up = False
                self.process.kill()
                self.process.wait()
                self.follow()

    def follow(self):
        if self.disk:
            self.disk.follow()

    def lose_power(self, rng):
        with self.lock:
            self.kill()
            self.run.counts['writes not synced'] += self.disk.lose_power(rng)

    def fail(self, kind):
        """Its disk fails calls of a kind, until it is called with none."""
        with self.lock:
            self.disk.fail(kind)
            self.failing = self.failing or bool(kind)

    def again(self, syscall=0):
        with self.lock:
            if not self.up:
                self.restarts += 1
                self.start(syscall=syscall)

    def watch(self):
        """Called now and then: has the process ended by itself, and what does it use?"""
        with self.lock:
            if not self.up:
                return
            status = self.process.poll()
            if status is not None:
                self.up = False
                self.follow()
                if self.doomed and status == -9:
                    self.run.counts['kill at a sync'] += 1
                elif self.failing and status == DISK_FAILED:
                    self.run.counts['ended by its disk'] += 1
                    self.disk.fail('')
                else:
                    self.run.fault('ended', '%s ended by itself with %s: %s' % (self.name, status, self.tail()))
                self.again()
                return
            try:
                pid = self.process.pid
                pages = int(open('/proc/%d/statm' % pid).read().split()[1])
                self.sizes.append((pid, pages * 4 // 1024, len(os.listdir('/proc/%d/fd' % pid))))
            except OSError:
                pass

    def tail(self):
        return (self.run.top / (self.name + '.log')).read_bytes()[-300:].decode('latin-1').replace('\n', ' | ')


class Asker:
    """Asks a node: each line by `ask DIR LINE..`, or all of them by one `ask DIR`."""

    def __init__(self, run, node, session):
        self.run, self.node, self.session, self.p = run, node, session, None

    def close(self):
        if self.p:
            self.p.kill()
            self.p.wait()
            self.p.stdin.close()
            self.p.stdout.close()
            self.p = None

    def ask(self, circuit, line, final=False):
        timeout = 30 if final else self.run.args.patience
        op = dict(node=self.node.name, circuit=circuit, line=line, begin=now(), answer=None, code=None, final=final)
        if self.session:
            op['answer'] = self.typed(line, timeout)
        else:
            p = subprocess.Popen(self.run.program + ['ask', str(self.node.dir)] + line.split(' '), stdin=subprocess.DEVNULL,
                                 stdout=subprocess.PIPE, stderr=subprocess.DEVNULL)
            try:
                out, _ = p.communicate(timeout=timeout)
                op['code'] = p.returncode
                if out.endswith(b'\n'):
                    op['answer'] = out[:-1].decode('latin-1')
            except subprocess.TimeoutExpired:
                p.kill()
                p.communicate()
        op['end'] = now()
        self.run.ops.append(op)
        self.run.record.write(json.dumps(op) + '\n')
        return op['answer']

    def typed(self, line, timeout):
        try:
            if self.p is None:
                self.p = subprocess.Popen(self.run.program + ['ask', str(self.node.dir)], stdin=subprocess.PIPE,
                                          stdout=subprocess.PIPE, stderr=subprocess.DEVNULL, bufsize=0)
            self.p.stdin.write(line.encode() + b'\n')
            got, until, fd = b'', now() + timeout, self.p.stdout.fileno()
            while not got.endswith(b'\n'):
                if not select.select([fd], [], [], max(0, until - now()))[0] or not (piece := os.read(fd, 65536)):
                    self.close()
                    return None
                got += piece
            return got[:-1].decode('latin-1')
        except OSError:
            self.close()
            return None
