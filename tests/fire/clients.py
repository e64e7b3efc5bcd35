"""Circuits, the clients that ask about them, and what brings them to active."""
import collections
import random
import re
import threading
import time

from judging import SHOW
from nodes import Asker

ADDRESSES = [bytes([a]) + bytes(33) + bytes([b]) for a in (0x10, 0x1f, 0x20) for b in range(4)]


class Circuit:
    """kind: steady (version 1), cycle (version 2; disbands are proposed and rejected) or churn (disbanded, purged, again)"""

    def __init__(self, run, i, kind, members, rng):
        self.id, self.kind, self.members = 'Cir%02d-%05d' % (i, run.args.seed % 100000), kind, sorted(members)
        ids = sorted(rng.sample(['%04x' % x for x in range(0xa000, 0xa100)], len(members)))
        at = rng.sample(self.members, len(members))
        self.services = list(zip(ids, at))
        self.generation, self.active, self.quiet = 1, False, False
        self.lines, self.next, self.lock = {}, 1, threading.Lock()     # lines: of each batch id the first that was made
        self.version = 1 if kind == 'steady' else 2
        self.queued, self.done, self.longest = collections.defaultdict(set), set(), 0
        self.taken = []                      # of each watcher what it took

    def propose(self):
        return 'propose %s %d %d test name %s %s' % (
            self.id, self.generation, self.version, ','.join(self.members),
            ','.join('%s:scabbard:%s' % x for x in self.services))


def transactions(rng):
    """The words of a batch after its id; most are valid."""
    if rng.random() < 0.015:          # a message in parts
        return ' tx' + ''.join(' data:' + rng.randbytes(n).hex() for n in (4096, 4096, 4096, 4062))
    out = ''
    for _ in range(rng.choice((1, 1, 1, 2, 3))):
        out += ' tx in: out:' + ('10' if rng.random() < 0.08 else '')
        for _ in range(rng.randint(1, 4)):
            a, k = rng.choice(ADDRESSES).hex(), rng.random()
            out += (' set:%s=%s' % (a, rng.randbytes(rng.choice((0, 1, 4, 40))).hex()) if k < 0.5 else ' del:' + a if k < 0.7
                    else ' get:' + a if k < 0.85 else ' event:made=%s' % rng.randbytes(2).hex() if k < 0.92
                    else ' data:%s' % rng.randbytes(3).hex() if k < 0.98 else ' invalid:no')
    return out


class Client(threading.Thread):
    def __init__(self, run, node, n):
        super().__init__(daemon=True)
        self.run_, self.node, self.rng = run, node, random.Random('%d %s %d' % (run.args.seed, node.name, n))
        self.asker = Asker(run, node, session=n % 2 == 0)

    def run(self):
        run, rng = self.run_, self.rng
        mine = [c for c in run.circuits if self.node.name in c.members]
        while not run.over.is_set():
            c = rng.choice(mine if mine and rng.random() < 0.98 else run.circuits)
            line = self.line(c)
            answer = self.asker.ask(c.id, line)
            self.note(c, line, answer)
            time.sleep(rng.uniform(0, 2 * run.args.pace) if answer is not None else 0.05)
        self.asker.close()

    def note(self, c, line, answer):
        words = line.split(' ')
        if answer is None:
            return
        if words[0] == 'submit' and answer in ('ok queued', 'ok known'):
            c.queued[self.node.name].add(int(words[2]))
            if 'kill' in self.run_.faults and self.rng.random() < self.run_.args.hot:
                self.run_.hot.append(self.node)       # killed as soon as it has answered
        if words[0] == 'status' and answer.startswith(('ok status c', 'ok status r')):
            c.done.add(int(words[2]))
        if words[0] == 'history' and answer.startswith('ok'):
            c.longest = max(c.longest, len(answer.split(' ')) - 3)
            c.done |= {int(x) for x in answer.split(' ')[3:]}

    def line(self, c):
        rng, here = self.rng, self.node.name
        k, open_ = rng.random(), [x for x in list(c.lines) if x not in c.done]
        if k < 0.42 and not c.quiet:
            with c.lock:
                k = rng.random()
                if c.kind != 'churn' and k < 0.2 and c.lines:
                    return c.lines[rng.choice(list(c.lines)[-40:])]            # once more, here or elsewhere
                if c.kind != 'churn' and k < 0.25 and c.queued[here]:          # the id is known here: other content
                    other = 'submit %s %d%s' % (c.id, rng.choice(list(c.queued[here])), transactions(rng))
                    return other
                if k < 0.27:
                    return 'submit %s %d' % (c.id, rng.randrange(1000))        # breaks rule 1
                if len(open_) < self.run_.args.window:
                    n, c.next = c.next, c.next + rng.choice((1, 1, 2))
                    c.lines[n] = line = 'submit %s %d%s' % (c.id, n, transactions(rng))
                    return line
        k = rng.random()
        n = rng.choice(open_ if open_ and rng.random() < 0.7 else list(c.lines) or [1])
        a = rng.choice(ADDRESSES).hex()
        if k < 0.06 and c.active:
            if c.kind == 'cycle':
                return rng.choice(('disband %s', 'vote %s reject', 'remove %s', 'expire %s')) % c.id
            if c.kind == 'steady':
                return rng.choice(('purge %s', 'disband %s', 'vote %s accept', 'remove %s', 'expire %s')) % c.id
        if k < 0.08:
            return rng.choice(('tick %s' % c.id, 'show', 'calm %s 8' % c.id, 'get %s 00' % c.id, 'nonsense', 'roll x'))
        return rng.choices(('status %s %d' % (c.id, n), 'history ' + c.id, 'root ' + c.id, 'show ' + c.id,
                            'get %s %s' % (c.id, a), 'list %s %s' % (c.id, rng.choice(('-', '10', '1f', '20'))),
                            'receipt %s %d' % (c.id, n), 'prove %s %s' % (c.id, a), 'detail ' + c.id, 'roll',
                            'route %s %s %s %s' % (c.id, c.services[0][1], c.services[0][0], c.services[-1][0])),
                           (20, 18, 12, 10, 8, 6, 6, self.run_.args.proofs, 2, 2, 1))[0]


class Manager(threading.Thread):
    """Brings a circuit to active, whatever happens; and a churn circuit to its end, and again."""

    def __init__(self, run, circuit):
        super().__init__(daemon=True)
        self.run_, self.c, self.rng = run, circuit, random.Random('%d %s' % (run.args.seed, circuit.id))
        self.askers = {m: Asker(run, run.nodes[m], session=True) for m in circuit.members}

    def ask(self, m, word, *rest):
        return self.askers[m].ask(self.c.id, ' '.join((word, self.c.id) + rest))

    def shown(self, m):
        a = self.ask(m, 'show')
        x = a and re.fullmatch(SHOW, a)
        return a, x and dict(generation=int(x[1]), life=x[2], accepted=x[4].split(','), acts=int(x[5]), waits=int(x[6]),
                             batches=int(x[7]), pending=int(x[8]))

    def run(self):
        c, first = self.c, self.rng.choice(self.c.members)
        while not self.run_.ended.is_set():
            shows = {m: self.shown(m) for m in c.members}
            lives = [x and x['life'] for _, x in shows.values()]
            c.active = all(x and x['generation'] == c.generation and x['life'] in ('active', 'disbanding')
                           for _, x in shows.values())
            if c.active and (c.kind != 'churn' or not self.end_of(shows, first)):
                if c.kind != 'churn':
                    break
                time.sleep(10 * self.run_.args.pace)
                continue
            if lives.count('disbanded') == len(lives) and c.kind == 'churn':
                for m in c.members:
                    self.ask(m, 'purge')
                c.generation, c.active, c.quiet = c.generation + 1, False, False
            at, x = shows[first]
            if at in ('refused 2',) or x and x['generation'] == c.generation and x['life'] == 'none' and x['acts'] + x['waits'] == 0:
                if at != 'refused 2':        # the proposal was refused: the next generation
                    self.ask(first, 'purge')
                    c.generation += 1
                a = self.askers[first].ask(c.id, c.propose())
                if a and a.startswith('refused 5'):
                    c.generation = int(a.split(' ')[2]) + 1
            for m, (_, x) in shows.items():
                if x and x['generation'] < c.generation:
                    self.ask(m, 'purge')
                elif x and x['life'] in ('proposed', 'disbanding') and m not in x['accepted'] and not x['waits']:
                    if x['life'] == 'proposed' or c.kind == 'churn':
                        self.ask(m, 'vote', 'accept')
            time.sleep(5 * self.run_.args.pace)
        for a in self.askers.values():
            a.close()

    def end_of(self, shows, first):
        """A churn circuit that has run for a while is disbanded, once its batches are settled."""
        c = self.c
        if any(x['life'] == 'disbanding' for _, x in shows.values()):
            return True
        if self.run_.over.is_set() or self.rng.random() > 0.1 and not c.quiet:
            return False
        c.quiet = True
        same = {(x['batches'], x['pending']) for _, x in shows.values()}
        if len(same) == 1 and same.pop()[1] == 0:
            for m in c.members:
                self.ask(m, 'history')
            self.ask(first, 'disband')
        return True


class Watcher(threading.Thread):
    """An application that follows a circuit: what it takes is each batch once and in order, whichever member it asks and whatever is killed.
    Where an answer is missing, it goes on with another watcher at the place that it has come to."""

    def __init__(self, run, circuit, n):
        super().__init__(daemon=True)
        self.run_, self.c, self.rng = run, circuit, random.Random('%d %s watcher %d' % (run.args.seed, circuit.id, n))
        self.askers = {m: Asker(run, run.nodes[m], session=True) for m in circuit.members}
        self.taken, self.made, self.n = [], 0, n
        circuit.taken.append(self.taken)
        self.again()

    def again(self):
        """Begins with another member, or with another name."""
        self.at, self.made = self.rng.choice(self.c.members), self.made + 1
        self.name, self.watching = 'w%d%03d' % (self.n, self.made % 1000), False

    def ask(self, *words, final=False):
        return self.askers[self.at].ask(self.c.id, ' '.join((words[0], self.c.id, self.name) + words[1:]), final=final)

    def step(self, final=False):
        """Whether something was taken."""
        if not self.watching:
            a = self.ask('watch', str(len(self.taken)), final=final)
            self.watching = a == 'ok watching %d' % len(self.taken)
            if not self.watching:
                self.again()
                return False
        a = self.ask('pull', str(self.rng.choice((1, 2, 7, 64))), final=final)
        if a is None or not a.startswith('ok delta '):
            self.again()
            return False
        self.taken += a.split(' ')[3:]
        return a != 'ok delta 0'

    def run(self):
        while not self.run_.ended.is_set():
            self.step()
            time.sleep(self.rng.uniform(0, 15 * self.run_.args.pace))
            if self.rng.random() < 0.02:
                self.again()

    def rest(self):
        """Takes what is left, once all is healed."""
        until = time.monotonic() + 20
        while (self.step(True) or not self.watching) and time.monotonic() < until:
            pass
        for a in self.askers.values():
            a.close()
