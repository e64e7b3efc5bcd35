"""Judges what node processes answered. It shares nothing with the program: it folds, executes and hashes by the plain program of
tests/oracle, which was written from docs/RULES.md alone.
"""
import collections
import heapq
import json
import re

import proofs
from cells import in_json
from schedules import transactions
from values import Batch, Definition, Service, receipts_of


class Known:
    """A circuit as the judge knows it: what a run kept of it."""

    def __init__(self, id, kind, members, services, version, lines, taken=()):
        self.id, self.kind, self.members, self.version, self.taken = id, kind, members, version, taken
        self.services = [tuple(x) for x in services]
        self.contents = {int(n): batch_of(line) for n, line in lines.items()}

    def definition(self, generation):
        return Definition(self.id, generation, self.version, 'test', 'name', tuple(self.members),
                            tuple(Service(s, 'scabbard', n) for s, n in self.services))


def batch_of(line):
    """The batch of a line `submit ID BATCH ..`."""
    words = line.split(' ')
    return Batch(int(words[2]), transactions(words[3:]))


SHOW = (r'ok circuit generation (\d+) lifecycle (none|proposed|active|rejected|removed|disbanding|disbanded) mark (open|abandoned)'
        r' accepted (\S+) acts (\d+) (\d+) batches (\d+) (\d+)')
FORMS = {'submit': r'ok (queued|known)', 'propose': 'ok queued', 'vote': 'ok queued', 'remove': 'ok queued', 'disband': 'ok queued',
         'purge': 'ok purged', 'show': SHOW, 'detail': r'ok detail \{.*\}', 'root': r'ok root \d+ [0-9a-f]{64}',
         'history': r'ok history \d+( \d+)*', 'get': r'ok none|ok value [0-9a-f]*', 'list': r'ok entries \d+( [0-9a-f]{70}=[0-9a-f]*)*',
         'prove': r'ok proof [0-9a-f]{64} [0-9a-f]+', 'status': r'ok status (committed \d+|pending|refused \d+ \d+)',
         'receipt': r'ok receipt \{.*\}', 'route': 'ok routed', 'roll': r'ok roll \d+( \S+)*', 'watch': r'ok watching \d+',
         'pull': r'ok delta \d+( \d+:\d+:\S+)*', 'waits': r'ok waits( \S+)*', 'expire': r'ok (idle|expired \d+) / (-|idle|expired \d+)'}
# what a line may be refused with at a member where the circuit runs, beside its own: of these kinds
REFUSED = {'submit': '13|14|15', 'vote': '7|8|9', 'remove': '7|8|10', 'disband': '7|11|20', 'purge': '16', 'status': '19',
           'receipt': '19', 'route': '18', 'propose': '5|6', 'watch': '21|22|25', 'pull': '23|24'}


class Lists:
    """The lists of a circuit's generations that were seen, the first of each batch is its name; states and roots of all prefixes."""

    def __init__(self, circuit, histories, say):
        best = {}
        for op, ids in histories:
            if len(set(ids)) != len(ids):
                say('twice', '%s has a batch twice' % op)
            if not ids:
                continue
            key = ids[0] if circuit.kind == 'churn' else 0
            if key not in best:
                best[key] = (op, ids)
            a, b = sorted((best[key], (op, ids)), key=lambda x: len(x[1]))
            if b[1][:len(a[1])] != a[1]:
                at = next(i for i, (x, y) in enumerate(zip(*(a[1], b[1]))) if x != y)
                say('lists', 'two lists at place %d: %s .. %s' % (at, a[0], b[0]))
            best[key] = b
        self.lists = [ids for _, ids in best.values()] or [[]]
        self.states, self.roots, self.receipts, self.place, self.deltas = [], [], [], {}, []
        for k, ids in enumerate(self.lists):
            m, states, roots, receipts, deltas = {}, [{}], [proofs.root_of({}).hex()], [], []
            for i, x in enumerate(ids):
                batch = circuit.contents.get(x)
                if batch is None:
                    say('stranger', '%s has the batch %d, which nobody submitted there' % (circuit.id, x))
                    batch = Batch(x, ())
                self.place.setdefault(x, (k, i))
                cause = batch.broken() or batch.cause()
                if cause:
                    say('invalid', '%s committed the batch %d, which is invalid: %s' % (circuit.id, x, cause))
                m, told, changed = dict(m), None, []
                if not cause:
                    made = receipts_of(m, batch)
                    told = in_json({'batch': x, 'place': i, 'transactions': made})
                    changed = [c['address'] + ('!' if c['value'] is None else '=' + c['value']) for t in made for c in t['changes']]
                deltas.append('%d:%d:%s' % (i, x, ','.join(changed) or '-'))
                states.append(m)
                roots.append(proofs.root_of(m).hex())
                receipts.append(told)
            self.states.append(states)
            self.roots.append(roots)
            self.receipts.append(receipts)
            self.deltas.append(deltas)
        self.proofs = {}

    def all(self, good=lambda k, n: True):
        return [(k, n) for k, ids in enumerate(self.lists) for n in range(len(ids) + 1) if good(k, n)]

    def explain(self, op):
        """The prefixes (list, length) that explain the answer, None if it says nothing of them; and a text of a fault."""
        words, a = op['line'].split(' '), op['answer']
        kind, told = words[0], a.split(' ')
        if told[0] != 'ok' and a != 'refused 19':
            return None
        if kind == 'history':
            ids = [int(x) for x in told[3:]]
            return self.all(lambda k, n: self.lists[k][:n] == ids)
        if kind == 'root':
            return self.all(lambda k, n: n == int(told[2]) and self.roots[k][n] == told[3])
        if kind == 'show':
            x = re.fullmatch(SHOW, a)
            return self.all(lambda k, n: n == int(x[7])) if x[2] in ('active', 'disbanding') else None
        if kind == 'get':
            x = bytes.fromhex(words[2])
            return self.all(lambda k, n: (self.states[k][n].get(x) is None) == (a == 'ok none') and
                            (a == 'ok none' or a == 'ok value ' + self.states[k][n][x].hex()))
        if kind == 'pull':
            found = [(int(x.split(':')[0]), x) for x in told[3:]]
            return self.all(lambda k, n: all(p < n and self.deltas[k][p] == x for p, x in found))
        if kind == 'list':
            p = b'' if words[2] == '-' else bytes.fromhex(words[2])

            def text(m):
                e = sorted((x, v) for x, v in m.items() if x.startswith(p))
                return ' '.join(['ok entries %d' % len(e)] + ['%s=%s' % (x.hex(), v.hex()) for x, v in e])
            return self.all(lambda k, n: text(self.states[k][n]) == a)
        if kind == 'prove':
            x = bytes.fromhex(words[2])

            def proof(k, n):
                key = (k, n, x)
                if key not in self.proofs:
                    self.proofs[key] = proofs.written(proofs.proof_of(self.states[k][n], x)).hex()
                return self.proofs[key]
            return self.all(lambda k, n: self.roots[k][n] == told[2] and proof(k, n) == told[3])
        if kind in ('status', 'receipt', 'submit'):
            x = int(words[2])
            k, p = self.place.get(x, (None, None))
            if a.startswith('ok status committed'):
                return self.all(lambda l, n: l == k and p == int(told[3]) and n > p)
            if a.startswith('ok receipt'):
                return self.all(lambda l, n: l == k and n > p and self.receipts[k][p] == a[len('ok receipt '):])
            if a.startswith('ok status') or a in ('refused 19', 'ok queued'):
                return self.all(lambda l, n: l != k or n <= p)
        return None


def is_detail(c, told):
    d = c.definition(told['generation'])
    return ({x: told[x] for x in ('hash', 'id', 'management', 'members', 'name', 'version')} == dict(
        hash=d.hash(), id=c.id, management='test', members=list(c.members), name='name', version=c.version)
        and [(x['service'], x['node'], x['type']) for x in told['services']] == [(s, n, 'scabbard') for s, n in c.services])


def about(op):
    return '[%.3f-%.3f %s %r -> %r]' % (op['begin'], op['end'], op['node'], op['line'][:70], (op['answer'] or '')[:150])


def judge(circuits, ops, counts):
    """Faults as (kind, text). An op begins and ends at moments of one clock; one that ended before another began came first."""
    faults, seen = [], collections.Counter()

    def say(kind, text):
        seen[kind] += 1
        if seen[kind] <= 3:
            faults.append((kind, text))
    by = {c.id: c for c in circuits}
    ops = sorted(ops, key=lambda o: o['begin'])
    counts['lines'], counts['answers'] = len(ops), sum(o['answer'] is not None for o in ops)
    for o in ops:
        a, word = o['answer'], o['line'].split(' ')[0]
        if o['code'] is not None and o['code'] != (8 if a is None else 0 if a.startswith('ok') else 15):
            say('code', 'ask ended with %s: %s' % (o['code'], about(o)))
        bad = word in ('tick', 'calm', 'nonsense') or o['line'] in ('show', 'roll x') or re.fullmatch('get \\S+ 00', o['line'])
        if a is not None and (a == 'bad line') != bool(bad):
            say('form', about(o))
        elif a is not None and not bad and not re.fullmatch(FORMS[word], a) and not re.fullmatch(r'refused \d+( \d+)?', a):
            say('form', about(o))
        if word == 'roll' and a and a.startswith('ok') and o['final']:
            ids = a.split(' ')[3:]
            if ids != sorted(ids) or not {c.id for c in circuits if c.kind != 'churn' and o['node'] in c.members} <= set(ids):
                say('roll', about(o))
        if a and a.startswith('ok detail') and not is_detail(by[o['circuit']], json.loads(a[len('ok detail '):])):
            say('detail', about(o))
        if word == 'roll' and a and a.startswith('ok') and any(o['node'] not in by[x].members for x in a.split(' ')[3:] if x in by):
            say('apart', about(o))
    asked, ops = ops, [o for o in ops if o['answer'] is not None and o['answer'] != 'bad line' and o['circuit'] in by]
    for c in circuits:
        mine = [o for o in ops if o['circuit'] == c.id and o['line'] != 'roll']
        lists = Lists(c, [(about(o), [int(x) for x in o['answer'].split(' ')[3:]]) for o in mine
                          if o['line'].startswith('history') and o['answer'].startswith('ok history')], say)
        counts['batches'] += sum(map(len, lists.lists))
        for taken in c.taken:
            counts['taken by watchers'] += len(taken)
            if list(taken) != lists.deltas[0]:
                say('watcher', 'took %d changes %s .. of %d' % (len(taken), next((x for x, y in zip(taken, lists.deltas[0]) if x != y), ''), len(lists.deltas[0])))
        acts, sent = {}, collections.defaultdict(list)          # sent: of each id what was asked, also without an answer
        for o in asked:
            if o['circuit'] == c.id and o['line'].startswith('submit'):
                sent[int(o['line'].split(' ')[2])].append(o)
        for o in mine:
            x = re.fullmatch(SHOW, o['answer'])
            if x and x[2] != 'none':
                key = (x[1], x[5])
                if acts.setdefault(key, (x[2], x[4], o))[:2] != (x[2], x[4]):
                    say('acts', 'after the same acts %s and %s' % (about(acts[key][2]), about(o)))
        for node in sorted({o['node'] for o in mine}):
            at = [o for o in mine if o['node'] == node]
            if node not in c.members:
                for o in at:
                    if not o['answer'].startswith(('refused 2', 'refused 18', 'refused 3', 'refused 4', 'refused 13')):
                        say('apart', 'no member: ' + about(o))
                continue
            judge_node(c, lists, at, sent, say, counts)
    for kind, n in seen.items():
        if n > 3:
            faults.append((kind, '%d more of this kind' % (n - 3)))
    return faults


def judge_node(c, lists, at, sent, say, counts):
    """All answers of one node about one circuit, in the order in which they were asked for."""
    low, acts, heap, runs = (-1, -1), (-1, -1), [], False
    known, fates, n = {}, {}, 0            # known: ids with the moment from which on the node has to know them
    for o in at:
        while heap and heap[0][0] < o['begin']:        # those that had ended before this one began
            _, _, what, value = heapq.heappop(heap)
            if what == 'low':
                low = max(low, value)
            elif what == 'acts':
                acts = max(acts, value)
            elif what == 'runs':
                runs = True
            elif what == 'known':
                known[value] = True
            elif fates.setdefault(value[0], value[1]) != value[1]:
                say('fate', 'a batch that was %s: %s' % (fates[value[0]], about(o)))

        def later(what, value):
            nonlocal n
            n += 1
            heapq.heappush(heap, (o['end'], n, what, value))
        words, a = o['line'].split(' '), o['answer']
        kind, steady = words[0], c.kind != 'churn'
        x = re.fullmatch(SHOW, a)
        if x:
            if (int(x[1]), int(x[5])) < acts:
                say('acts', 'fewer acts than before (%d %d): %s' % (acts + (about(o),)))
            later('acts', (int(x[1]), int(x[5])))
            if x[2] in ('active', 'disbanding'):
                later('runs', None)
        prefixes = lists.explain(o)
        if prefixes is not None:
            good = next((p for p in prefixes if p >= low), None)
            if good is not None:
                later('low', good)
            elif not steady:
                counts['not judged'] += 1
            else:
                say('prefix' if not prefixes else 'older', 'after %d batches %s' % (low[1], about(o)))
        if runs and steady and a.startswith('refused') and a.split(' ')[1] not in REFUSED.get(kind, '').split('|'):
            say('refusal', 'where the circuit runs: ' + about(o))
        if kind == 'submit':
            judge_submit(c, lists, o, int(words[2]), sent, known, say)
            if a in ('ok queued', 'ok known') and steady:
                later('known', int(words[2]))
        if kind == 'status':
            i = int(words[2])
            batch = c.contents.get(i)
            if a == 'refused 19' and i in known:
                say('lost', 'a batch that was queued or known is %s' % about(o))
            if a == 'ok status pending':
                counts['pending seen'] += 1
                if i in fates:
                    say('fate', 'a batch that was %s: %s' % (fates[i], about(o)))
                if o['final'] and steady:
                    say('undecided', about(o))
                later('known', i) if steady else None
            if a.startswith(('ok status r', 'ok status c')) and steady:
                later('known', i)
                later('fate', (i, a))
            if a.startswith('ok status refused') and batch is not None:
                told = tuple(map(int, a.split(' ')[3:]))
                counts['refused %d' % told[0]] += 1
                if told != tuple(batch.cause() or (7, 0)):
                    say('reason', about(o))
                if i in lists.place and steady:
                    say('fate', 'committed elsewhere: ' + about(o))


def judge_submit(c, lists, o, i, sent, known, say):
    a, batch = o['answer'], batch_of(o['line'])
    rule = batch.broken()
    same = [x for x in sent[i] if x is not o and x['begin'] < o['end'] and batch_of(x['line']) == batch]
    others = [x for x in sent[i] if batch_of(x['line']) != batch]
    if (rule is not None and not re.fullmatch('refused (2|11|12|13 %d)' % rule, a)) or (rule is None and a.startswith('refused 13')):
        say('refusal', about(o))
    if a == 'ok queued' and (i in known):
        say('queued', 'known here before: ' + about(o))
    if a in ('ok queued', 'ok known') and batch != c.contents.get(i):
        say('queued', 'another content was known here: ' + about(o))
    if a == 'ok known' and not same:
        say('queued', 'nobody had submitted it: ' + about(o))
    if a == 'refused 14' and not others:
        say('refusal', 'no other content: ' + about(o))
    if a == 'refused 15' and sum(1 for x in sent if sent[x][0]['begin'] < o['end']) < 64:
        say('refusal', 'not as many were submitted: ' + about(o))
