"""Node processes under fire: they are asked lines by many clients at once while processes, disks and links are hurt by a seed, all is healed,
and every answer is judged by the plain program of tests/oracle (tests/fire/judging.py).

words: [PROGRAM [FIRST [COUNT]]] [--OPTION VALUE ..], or --wrong all|NAME and these; --help has the options

PROGRAM is a command that takes the words serve and ask. A seed fixes the circuits, the batches that clients draw, and the kinds and lengths of
faults; real time makes the rest, so a seed that failed may pass again: what it left is kept. A line for each seed with what it counted, and one
for each fault. With --wrong the judge is judged: each wrong program of tests/fire/wrong is built, unproved, and run by seed after seed until a
fault is told; it fails where COUNT seeds tell none.

faults: kill (one, two or all nodes, and right after an answer `ok queued`), syscall (killed at the k-th sync after a start; takes strace),
pause, proxy (connections cut, refused, stalled, delayed), slow, frames (messages dropped, repeated, put after the next, and those of before a
cut put again), strangers (1, 3 or 70 connections that say nothing, nonsense or a half), power (the power of one, two or all nodes goes: of what
wasn't synced anything may be left), disk (each sync fails, or there is no room: the node ends, and is started again with a good disk), and old,
which no program stands: a node that begins with an old copy of its files, which the judge has to see. power and disk take a C compiler.
"""
import argparse
import collections
import functools
import json
import multiprocessing
import os
import pathlib
import random
import re
import shlex
import shutil
import signal
import socket
import subprocess
import tempfile
import threading
import time

import wrong
from clients import ADDRESSES, Circuit, Client, Manager, Watcher
from common import MAIN, OPERATOR, SPLINTER, Unfit
from diskfaults import built
from judging import SHOW, Known, judge
from nodes import SOCKET, Asker, Node, Proxy, now

GATE = (OPERATOR, "0", "2", "--audit", MAIN)


def is_free(port):
    with socket.socket() as s:
        try:
            s.bind(('127.0.0.1', port))
        except OSError:
            return False
    return True


class Run:
    def __init__(self, args):
        self.args, self.rng = args, random.Random(args.seed)
        self.program, self.audit = shlex.split(args.program), shlex.split(args.audit or args.program)
        self.faults, self.faulty, self.ops, self.hot, self.counts = set(args.faults.split(',')) - {''}, [], [], [], collections.Counter()
        self.over, self.ended, self.healed = threading.Event(), threading.Event(), threading.Event()
        self.top = pathlib.Path(tempfile.mkdtemp(prefix='fire'))
        self.record = open(self.top / 'ops.jsonl', 'w', buffering=1)
        self.library = built(self.top) if self.faults & {'power', 'disk'} else None
        if not self.library:
            self.faults -= {'power', 'disk'}
        names = ['node-%s' % 'abcdefghijklmnop'[i] for i in range(args.nodes)]
        order = self.rng.sample(names, len(names))             # positions aren't the order of ids
        self.nodes = {n: Node(self, n, order.index(n)) for n in names}
        ports = self.ports(len(names) ** 2)
        self.real = real = dict(zip(names, ports))
        rest = iter(ports[len(names):])
        self.proxies = {}
        for n in names:
            ends = {}
            for peer in names:
                ends[peer] = real[peer]
                if peer != n and self.faults & {'proxy', 'slow', 'frames'}:
                    ends[peer] = next(rest)
                    if order.index(n) < order.index(peer):      # the lower position dials
                        self.proxies[n, peer] = Proxy(ends[peer], real[peer], random.Random(self.rng.random()))
            self.write_registry(self.nodes[n].registry, order, ends)
        self.plain = self.top / 'registry.toml'
        self.write_registry(self.plain, order, real)
        self.circuits = []
        for i in range(args.circuits):
            kind = 'churn' if i == 2 else 'cycle' if i % 3 == 1 else 'steady'
            size = len(names) if i == 0 else self.rng.randint(2, len(names))
            self.circuits.append(Circuit(self, i, kind, self.rng.sample(names, min(8, size)), self.rng))

    def ports(self, n):
        """So many free ports, of a block that no seed run beside this one looks at."""
        first = 12000 + self.args.seed % (20000 // (2 * n)) * 2 * n
        free = [p for p in range(first, first + 2 * n) if is_free(p)]
        if len(free) < n:
            raise Unfit('too few free ports from %d on' % first)
        return free[:n]

    def write_registry(self, path, order, ends):
        path.write_text(''.join('[[node]]\nidentity = "%s"\ndisplay_name = "%s"\nendpoints = ["127.0.0.1:%d"]\n\n'
                                % (n, n, ends[n]) for n in order))

    def fault(self, kind, text):
        if sum(k == kind for k, _ in self.faulty) < 4:
            self.faulty.append((kind, text))

    def hurt(self, managers):
        """Faults by seed until the clients' time is over."""
        rng, nodes = random.Random('%d hurt' % self.args.seed), list(self.nodes.values())
        if self.args.seed % 3:                      # in one run of three the circuits are made under fire too
            for m in managers:
                m.join(10 if m.c.kind != 'churn' else 0)
        until, limit = now() + self.args.seconds, now() + 20
        strangers, back, tired, mended = [], [], [], []         # (when, node) to start again, to go on, to have a good disk
        while now() < until:
            time.sleep(0.02)
            if now() < limit and any(m.is_alive() for m in managers if m.c.kind != 'churn'):
                until = now() + self.args.seconds
            while self.hot:
                n = self.hot.pop()
                if n.up:
                    self.counts['kill after an answer'] += 1
                    n.kill()
                    back.append((now() + rng.uniform(0, 0.5), n))
            for at, n in [x for x in back if x[0] <= now()]:
                back.remove((at, n))
                n.again(rng.randint(1, 60) if 'syscall' in self.faults and rng.random() < 0.7 else 0)
            for at, n in [x for x in tired if x[0] <= now()]:
                tired.remove((at, n))
                self.signal(n, signal.SIGCONT)
            for at, n in [x for x in mended if x[0] <= now()]:
                mended.remove((at, n))
                n.fail('')
            if rng.random() > 0.02 / self.args.every:
                continue
            kind = rng.choice(sorted(self.faults - {'syscall', 'old'}) or [''])
            n, p = rng.choice(nodes), rng.choice(list(self.proxies.values()) or [None])
            self.counts[kind] += 1
            if kind == 'kill':
                for n in rng.sample(nodes, rng.choice((1, 1, 1, 2, len(nodes)))):
                    n.kill()
                    back.append((now() + rng.choice((0, rng.uniform(0, 1.5))), n))
            elif kind == 'power':
                for n in rng.sample(nodes, rng.choice((1, 1, 1, 2, len(nodes)))):
                    n.lose_power(rng)
                    back.append((now() + rng.choice((0, rng.uniform(0, 1.5))), n))
            elif kind == 'disk':
                n.fail(rng.choice(('sync', 'space')))
                mended.append((now() + rng.uniform(0.1, 2), n))
            elif kind == 'pause':
                self.signal(n, signal.SIGSTOP)
                tired.append((now() + rng.uniform(0.1, 2), n))
            elif kind == 'proxy':
                which = rng.randrange(4)
                if which == 0:
                    p.cut()
                elif which == 1:
                    p.closed = now() + rng.uniform(0.2, 3)
                    p.cut()
                elif which == 2:
                    p.stalled = now() + rng.uniform(0.2, 3)
                else:
                    p.delay = rng.choice((0, 0.01, 0.1))
            elif kind == 'slow':
                p.rate = rng.choice((0, 2000, 20000))
            elif kind == 'frames':
                p.odd = rng.choice((0, 0.05, 0.3))
            elif kind == 'strangers':
                strangers += self.strange(n, rng)
            while len(strangers) > 200:
                strangers.pop(0).close()
        for s in strangers:
            s.close()
        for p in self.proxies.values():
            p.heal()
        for n in nodes:
            if self.library:
                n.fail('')
            self.signal(n, signal.SIGCONT)
            with n.lock:
                if n.doomed:
                    n.kill()
                n.again()

    def strange(self, node, rng):
        """Connections to the node's port and to its desk that say nothing, nonsense, or a half of something."""
        got = []
        for _ in range(rng.choice((1, 3, 70))):
            s = socket.socket() if rng.random() < 0.8 else socket.socket(socket.AF_UNIX)
            s.settimeout(0.2)
            try:
                s.connect(('127.0.0.1', self.real[node.name]) if s.family == socket.AF_INET else str(node.dir / SOCKET))
                s.send(rng.choice((b'', b'', b'GET / HTTP/1.0\r\n\r\n', b'\0\1\0\0', b'\0\1\0\0\xff\xff', b'\0\1\0\0\0\3\3\0\1',
                                   rng.randbytes(300), b'show ', b'\n\n', b'x' * 200000)))
                got.append(s)
            except OSError:
                s.close()
        return got

    def signal(self, node, which):
        with node.lock:
            if node.up and node.process.poll() is None:
                node.process.send_signal(which)

    def watch(self):
        while not self.ended.is_set():
            for n in self.nodes.values():
                n.watch()
            time.sleep(0.1)

    def settle(self, askers):
        """Waits until nothing is pending and all members of each steady circuit are equal; says what isn't so."""
        until, waits = now() + self.args.settle, {}
        while now() < until:
            waits = {}
            for c in self.circuits:
                if c.kind != 'churn':
                    shows = {m: askers[m].ask(c.id, 'show ' + c.id) for m in c.members}
                    parts = [re.fullmatch(SHOW, a or '') for a in shows.values()]
                    if not all(x and x[2] in ('active', 'disbanding') and x[6] == '0' and x[8] == '0' for x in parts) \
                            or len({(x[5], x[7]) for x in parts}) != 1:
                        waits[c.id] = shows
            if not waits:
                return
            time.sleep(0.1)
        for c, shows in waits.items():
            self.fault('unsettled', '%s after %d s: %s' % (c, self.args.settle, shows))

    def everything(self, askers):
        for c in self.circuits:
            for m in c.members:
                a = askers[m]
                for line in ['show', 'detail', 'root', 'history', 'list']:
                    a.ask(c.id, '%s %s%s' % (line, c.id, ' -' if line == 'list' else ''), final=True)
                for n in sorted(c.lines):
                    a.ask(c.id, 'status %s %d' % (c.id, n), final=True)
                    if n % 3 == 0:
                        a.ask(c.id, 'receipt %s %d' % (c.id, n), final=True)
                for i, x in enumerate(ADDRESSES):
                    a.ask(c.id, 'get %s %s' % (c.id, x.hex()), final=True)
                    if i % 6 == 1 and self.args.proofs >= 1:
                        a.ask(c.id, 'prove %s %s' % (c.id, x.hex()), final=True)
        for a in askers.values():
            a.ask('', 'roll', final=True)

    def ready(self, askers):
        until = now() + 20
        for a in askers.values():
            while a.ask('', 'roll') is None:
                if now() > until:
                    self.fault('ended', '%s never answered: %s' % (a.node.name, a.node.tail()))
                    return False
                time.sleep(0.05)
        return True

    def go(self):
        self.begun = now()
        for n in self.nodes.values():
            n.start(new=True)
        askers = {n: Asker(self, x, session=True) for n, x in self.nodes.items()}
        if self.ready(askers):
            threading.Thread(target=self.watch, daemon=True).start()
            managers = [Manager(self, c) for c in self.circuits]
            clients = [Client(self, n, i) for n in self.nodes.values() for i in range(self.args.clients)]
            watchers = [Watcher(self, c, i) for c in self.circuits if c.kind != 'churn' for i in range(self.args.watchers)]
            for t in managers + clients + watchers:
                t.start()
            self.hurt(managers)
            self.over.set()
            for t in clients:
                t.join(30)
            self.ready(askers)
            until = now() + self.args.settle
            for m in managers:
                if m.c.kind != 'churn':
                    m.join(max(0, until - now()))
            begun = now()
            self.settle(askers)
            self.counts['ms to settle'] = int(1000 * (now() - begun))
            self.ended.set()
            for t in managers + watchers:
                t.join(10)
            for w in watchers:
                w.rest()
            self.everything(askers)
            for n in self.nodes.values():
                n.watch()
                n.rest = n.sizes[-1][2] if n.sizes else 0
            for n in self.nodes.values():      # all of it again, after a kill of all at once
                n.kill()
            for n in self.nodes.values():
                n.again()
            self.ready(askers)
            self.everything(askers)
            for n in self.nodes.values():
                n.watch()
        for a in askers.values():
            a.close()
        self.end()
        self.counts['s before the judge'] = int(now() - self.begun)
        kept = [dict(id=c.id, kind=c.kind, members=c.members, services=c.services, version=c.version, lines=c.lines, taken=c.taken)
                for c in self.circuits]
        (self.top / 'circuits.json').write_text(json.dumps(kept))
        for kind, text in judge([Known(**c) for c in kept], self.ops, self.counts):
            self.fault(kind, text)
        self.counts['s in all'] = int(now() - self.begun)

    def end(self):
        """SIGTERM, then the audit of copies of the folders, and what the processes used."""
        room = self.top / 'audit'
        room.mkdir(exist_ok=True)
        for n in self.nodes.values():
            if n.process and n.process.poll() is None:
                n.process.terminate()
                try:
                    status = n.process.wait(5)
                except subprocess.TimeoutExpired:
                    n.process.kill()
                    status = n.process.wait()
                if status not in (0, -15):
                    self.fault('ended', '%s ended by SIGTERM with %d: %s' % (n.name, status, n.tail()))
            for which in 'ab':
                f = 'd%02d%s' % (n.position, which)
                if (n.dir / f).exists():
                    shutil.copy(n.dir / f, room / f)
            if n.sizes:
                self.counts['most MB'] = max(self.counts['most MB'], max(x[1] for x in n.sizes))
                self.counts['files at rest'] = max(self.counts['files at rest'], n.rest)
                self.counts['most files'] = max(self.counts['most files'], max(x[2] for x in n.sizes))
                if n.rest > 14 + len(self.nodes) or max(x[2] for x in n.sizes) > 128:
                    self.fault('files', '%s has %d open files at rest, %d at most' % (
                        n.name, n.rest, max(x[2] for x in n.sizes)))
                if max(x[1] for x in n.sizes) > self.args.most_mb:
                    self.fault('memory', '%s used %d MB' % (n.name, max(x[1] for x in n.sizes)))
        done = subprocess.run(self.audit + ['audit', str(self.plain), str(room)], capture_output=True, text=True)
        if done.returncode != 0 or done.stdout.split('\n')[-2:] != ['agreed', '']:
            self.fault('audit', 'status %d: %s' % (done.returncode, (done.stdout + done.stderr).strip()[-300:]))
        for c in self.circuits:                # the disks have as much as was told
            found = re.findall(r'^%s \d+ acts \d+ batches (\d+)$' % c.id, done.stdout, re.M)
            told = max([len(o['answer'].split(' ')) - 3 for o in self.ops if o['circuit'] == c.id and
                        o['line'].startswith('history') and (o['answer'] or '').startswith('ok')], default=0)
            if c.kind != 'churn' and told and found != [str(told)]:
                self.fault('audit', '%s: %d batches were told, the disks have %s' % (c.id, told, found))


def parsed(words):
    p = argparse.ArgumentParser(prog='tests/run fire --')
    p.add_argument('program', nargs='?', default=SPLINTER)
    p.add_argument('first', nargs='?', type=int, default=0)
    p.add_argument('count', nargs='?', type=int, default=4)
    p.add_argument('--audit', help='the command that takes the word audit, where it is another one')
    p.add_argument('--beside', type=int, default=1, help='seeds that run side by side')
    p.add_argument('--nodes', type=int, default=3)
    p.add_argument('--circuits', type=int, default=3)
    p.add_argument('--clients', type=int, default=2, help='of each node')
    p.add_argument('--watchers', type=int, default=2, help='of each circuit that stays')
    p.add_argument('--seconds', type=float, default=10)
    p.add_argument('--settle', type=float, default=30, help='seconds within which all is decided once all is healed')
    p.add_argument('--faults', default='kill,power,disk,pause,proxy,slow,frames,strangers')
    p.add_argument('--every', type=float, default=0.5, help='seconds between two faults, on average')
    p.add_argument('--hot', type=float, default=0.03, help='share of `ok queued` after which the node is killed at once')
    p.add_argument('--pace', type=float, default=0.02, help='seconds between two lines of a client, on average')
    p.add_argument('--window', type=int, default=30, help='batches of a circuit that may be undecided')
    p.add_argument('--patience', type=float, default=4, help='seconds that an answer may take before it counts as none')
    p.add_argument('--proofs', type=float, default=4, help='weight of `prove` among about ninety of reading lines')
    p.add_argument('--most-mb', type=int, default=200)
    p.add_argument('--wrong', choices=['all', *wrong.EDITS], help='the wrong program that has to be caught')
    try:
        return p.parse_args(words)
    except SystemExit as ended:
        raise Unfit('words that it does not take' if ended.code else 'asked for its words') from ended


def faults_of(args, seed):
    """What was wrong with a seed."""
    fire = Run(argparse.Namespace(**{**vars(args), 'seed': seed}))
    try:
        fire.go()
    finally:
        for n in fire.nodes.values():
            n.up = False
            if n.process and n.process.poll() is None:
                n.process.kill()
                n.process.wait()
    counts = ', '.join('%s %d' % x for x in sorted(fire.counts.items()))
    print('seed %d %s: %s' % (seed, 'bad' if fire.faulty else 'good', counts), flush=True)
    if not fire.faulty:
        shutil.rmtree(fire.top)
        return []
    return ['%s: %s' % fault for fault in fire.faulty] + ['all of it in %s' % fire.top]


def is_caught(args, name):
    """Whether the judge tells a wrong program from a right one within the seeds."""
    with tempfile.TemporaryDirectory(prefix='wrong') as room:
        args = argparse.Namespace(**vars(args))
        args.audit, args.program = args.audit or args.program, str(wrong.built(name, pathlib.Path(room)))
        args.faults = wrong.FAULTS.get(name, args.faults)
        for seed in range(args.first, args.first + args.count):
            if found := faults_of(args, seed):
                print('%s: caught at seed %d: %s' % (name, seed, found[0][:200]), flush=True)
                return True
    return False


def run(words, tally):
    args = parsed(words)
    if args.wrong:
        for name in list(wrong.EDITS) if args.wrong == 'all' else [args.wrong]:
            tally.add(name, [] if is_caught(args, name) else ['not caught by %d seeds' % args.count])
        return
    seeds = range(args.first, args.first + args.count)
    # A process for each seed: its proxies and their sockets end with it.
    with multiprocessing.Pool(args.beside, maxtasksperchild=1) as workers:
        for seed, faults in zip(seeds, workers.imap(functools.partial(faults_of, args), seeds)):
            tally.add('seed %d' % seed, faults)
