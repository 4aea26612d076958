#!/usr/bin/env python3
"""A second projection: says a report of hmmrun as a trace, beside `hmmtrace --of-report`.

    tools/protocol/of_report.py [FILE]      reads a report; a trace (docs/TRACE.md)

A report says when a mirror is told, and not what its driver does then. It is taken as right there: the sequence is set,
and the entries of the span are erased. of_driver.py asks a driver that leaves a rule out what it does.
"""
import os
import sys

sys.path.append(os.path.dirname(os.path.dirname(os.path.abspath(__file__))))
import words as given

ALL = 1 << 36
NAMES = 'names set erase use take free model'
# the words that end an operation, beside those of accesses
ENDS = {'mapped', 'unmapped', 'protected', 'forked', 'exited', 'attached', 'detached', 'refused', 'migrated', 'evicted',
        'removed', 'added'}
KINDS = {'unmap': 'unmap', 'protect': 'protect_vma', 'fork': 'protect_page', 'exit': 'release'}


def operations_of(lines):
    """The operations of each actor: a script's lines up to its schedule."""
    actors, actor = {}, None
    for text in lines:
        part = text.split()
        if part[:1] == ['actor']:
            actor = actors.setdefault(int(part[1]), [])
        elif part and actor is not None and part[0] not in ('turns', 'drain'):
            actor.append(part)
    return actors


class Projector:
    """Takes the entries of a history one after the other, and says the events."""

    def __init__(self, actors):
        self.actors, self.out, self.ended = actors, [], {a: 0 for a in actors}
        self.places, self.areas, self.mirrors, self.tables, self.seqs = {}, {0: []}, {}, {}, {}
        self.doing = {a: {} for a in actors}            # what each actor's operation has come to
        self.inside = {}                                # actor -> the invalidation that it is in

    def say(self, actor, *words):
        self.out.append(' '.join(map(str, (len(self.out), f'a{actor}', *words))))

    def text(self):
        return '\n'.join([NAMES, *self.out]) + '\n'

    def operation(self, a):
        ops = self.actors[a]
        return ops[self.ended[a]] if self.ended[a] < len(ops) else ['none']

    def right(self, p, page):
        """The right of a page's area, or none."""
        p = int(p[1:])
        return next((r for first, count, r in reversed(self.areas.get(p, [])) if first <= page < first + count), None)

    # ---- what the driver does, as a right one does it
    def erased(self, words):
        """The entries (mirror, page) that the driver erases at this entry."""
        if words[0] == 'told':
            m, first, count = words[1], int(words[2]), int(words[3])
            return [(m, page) for page in sorted(self.tables.get(m, ())) if first <= page < first + count]
        if words[0] in ('detaching', 'detached'):
            return [(words[1], page) for page in sorted(self.tables.get(words[1], ()))]
        return []

    def seq_after(self, words):
        """The sequence of the interval after its callback."""
        return words[4]

    def lock(self, a):
        """Whether the driver holds the mmap lock in its walk."""
        return 'locked'

    def say_erased(self, a, words):
        for m, page in self.erased(words):
            self.say(a, 'erase', m, page)
            self.tables.get(m, {}).pop(page, None)

    # ---- entries
    def entry(self, a, words):
        op, now = self.operation(a), self.doing[a]
        self.migration(a, op, now, words)
        getattr(self, 'at_' + words[0], lambda *_: None)(a, op, now, *words[1:])
        if words[0] not in ('told', 'detaching', 'detached'):
            self.say_erased(a, words)
        self.ends(a, op, now, words)

    def ends(self, a, op, now, words):
        """Counts the operation as ended, if this is its answer."""
        done = words[0] in ENDS or words[0] == 'excluded' and op[0] == 'exclusive' or words[0] == 'runlock' and op[0] == 'snap'
        if words[0] in ('loaded', 'stored', 'failed'):
            length = int(words[3]) if words[0] == 'failed' else len(words[3]) // 2
            now['done'] = now.get('done', 0) + length
            whole = 1 if op[0] == 'dadd' else int(op[3]) if op[0] in ('load', 'dload') else len(op[3]) // 2
            done = now['done'] >= whole
        if done:
            if 'home' in now:
                self.home_ends(a, now)
            self.ended[a] += 1
            self.doing[a] = {}

    def at_attached(self, a, op, now, m, d, p, first, count, seq):
        self.mirrors[m] = (d, p)
        self.tables[m] = {}
        self.say(a, 'insert', m, p, first, count, d)
        self.say(a, 'inserted', m, seq, 'done')

    def at_detaching(self, a, op, now, m, seq):
        now['removing'] = True
        self.say(a, 'remove', m)
        self.say_erased(a, ['detaching', m])

    def at_detached(self, a, op, now, m):
        if not now.get('removing'):
            self.say(a, 'remove', m)
        self.say_erased(a, ['detached', m])
        self.say(a, 'removed', m)

    # invalidations
    def kind(self, a, op, now, p, first):
        """What an invalidation is for, and the device whose driver asked for it."""
        if op[0] in KINDS:
            return KINDS[op[0]], '-'
        if op[0] in ('todev', 'tosys'):
            mine = not now.get('selected') or 'ready' in now
            return ('migrate', self.mirrors['m' + op[1]][0]) if mine else ('clear', '-')
        place = self.places.get((p, first), ['none'])
        if op[0] not in ('evict', 'remove') and place[0] == 'own' and 'home' not in now:
            return 'migrate', place[1].split('.')[0]
        if op[0] in ('exclusive', 'dadd') and place[0] == 'sys' and place[2] == 'w' and 'home' not in now:
            return 'exclusive', self.mirrors['m' + op[1]][0]
        return 'clear', '-'

    def at_start(self, a, op, now, p, first, count, seq):
        self.inside[a] = (p, first, count)
        self.say(a, 'start', p, first, count, *self.kind(a, op, now, p, int(first)))

    def at_told(self, a, op, now, m, first, count, seq):
        self.say(a, 'tell', m, first, count, seq)
        self.say_erased(a, ['told', m, first, count, seq])
        self.say(a, 'told', m, self.seq_after(['told', m, first, count, seq]), 'done')

    def at_end(self, a, op, now, p, first, count, seq):
        self.inside.pop(a, None)
        if op[0] in ('todev', 'tosys'):
            now['selected'] = True
        self.say(a, 'end', p, first, count)

    # look-ups
    def page_of_piece(self, op, now):
        return (int(op[2], 16) + now.get('done', 0)) // 4096

    def at_begin(self, a, op, now, m, seq):
        now['seq'] = seq
        self.say(a, 'begin', m, seq)

    def at_rlock(self, a, op, now, p):
        if op[0] in ('dload', 'dstore'):
            m, page = 'm' + op[1], self.page_of_piece(op, now)
            now['walk'] = (m, p, page)
            self.say(a, 'walk', m, page, 1, now.get('seq', 0), self.lock(a), self.mirrors[m][0])

    def at_runlock(self, a, op, now, p):
        if 'walk' in now:
            m, p, page = now.pop('walk')
            place = self.places.get((p, page), ['none'])
            if place[0] == 'zero':
                self.say(a, 'found', m, page, 'zero', 'r')
            elif place[0] in ('sys', 'own'):
                self.say(a, 'found', m, page, place[1], place[2])
            self.say(a, 'walked', m, 'done')

    def at_retry(self, a, op, now, m):
        if now.pop('walk', None):
            self.say(a, 'walked', m, 'failed')

    def at_failed(self, a, op, now, who, address, length, cause):
        if walk := now.pop('walk', None):
            self.say(a, 'walked', walk[0], 'failed')

    def at_set(self, a, op, now, m, page, frame, right, begun):
        self.tables.setdefault(m, {})[int(page)] = frame
        self.say(a, 'set', m, page, frame, right)

    # accesses
    def at_loaded(self, a, op, now, who, address, data):
        if who[0] == 'm':
            self.say(a, 'use', who, int(address, 16) // 4096, 1, 'r')

    def at_stored(self, a, op, now, who, address, data):
        if who[0] == 'm':
            self.say(a, 'use', who, int(address, 16) // 4096, 1, 'w')

    def at_fetched(self, a, op, now, m, address, data):
        self.say(a, 'fetch', m, int(address, 16) // 4096)

    def at_added(self, a, op, now, m, address, *data):
        self.say(a, 'add', m, int(address, 16) // 4096)

    # areas and places
    def area(self, p, first, count, right):
        self.areas[int(p[1:])].append((int(first), int(count), right))

    def at_mapped(self, a, op, now, p, first, count, right):
        self.area(p, first, count, right)

    at_protected = at_mapped

    def at_unmapped(self, a, op, now, p, first, count):
        self.area(p, first, count, None)

    def at_forked(self, a, op, now, p, child):
        self.areas[int(child[1:])] = list(self.areas.get(int(p[1:]), []))

    def at_place(self, a, op, now, p, page, *place):
        self.places[p, int(page)] = list(place)

    # a device's frames
    def at_take(self, a, op, now, frame):
        if frame[0] == 'd':
            self.say(a, 'take', frame)

    def at_drop(self, a, op, now, frame):
        if frame[0] == 'd':
            self.say(a, 'free', frame)

    def at_withdrawn(self, a, op, now, d):
        self.say(a, 'withdraw', d)

    def at_removed(self, a, op, now, d):
        self.say(a, 'gone', d)

    def at_kept(self, a, op, now, what, why, *by):
        if op[0] in ('evict', 'remove') and why == 'locked':
            self.say(a, 'pass', what)

    # ---- migrations: migrate_vma_setup, migrate_vma_pages, migrate_vma_finalize
    def migration(self, a, op, now, words):
        if op[0] in ('todev', 'tosys'):
            self.asked_for(a, op, now, words)
        elif op[0] not in ('evict', 'remove'):
            self.home(a, op, now, words)

    def asked_for(self, a, op, now, words):
        word, inside = words[0], a in self.inside
        if word in ('refused', 'rlock'):
            return
        m, first, count = 'm' + op[1], int(op[2]), int(op[3])
        d, p = self.mirrors[m]
        if not now.get('selected'):
            if word == 'place':
                now.setdefault('from', []).append((words[2], words[4], words[5]))
            elif word == 'fresh':
                now.setdefault('from', []).append((words[2], 'none', 'w' if self.right(p, int(words[2])) == 'rw' else 'r'))
            return
        if 'ready' not in now and not inside and word != 'start':
            now['ready'], now['to'] = True, []
            self.say(a, 'setup', p, first, count, op[0], d)
            for page, frame, right in now.get('from', ()):
                self.say(a, 'from', page, frame, right)
            self.say(a, 'ready', p)
        if 'ready' in now and 'moved' not in now:
            self.commits(a, now, words, inside, p)
        if word == 'migrated':
            self.say(a, 'finalize', p)

    def commits(self, a, now, words, inside, p):
        word = words[0]
        if word == 'committed':
            for page in [page for page, frame, _ in now['from'] if frame == words[1]]:
                self.to(a, now, 'moved', page, words[2])
        elif word == 'place' and inside:
            self.to(a, now, 'moved', words[2], words[4])
        elif word == 'take':
            now['taken'] = now.get('taken', []) + [words[1]]
        elif word == 'kept' and words[2] == 'lost':
            # the frames of fresh pages are taken in the order of the pages; the committed and placed ones are known
            fresh = [page for page, frame, _ in now['from'] if frame == 'none']
            used = {frame for _, _, frame in now['to']}
            free = [f for f in now.get('taken', []) if f not in used and f not in now.get('copied', ())]
            rest = [page for page in fresh if page not in {page for _, page, _ in now['to']}]
            if words[1] in rest and free:
                self.to(a, now, 'stayed', words[1], free[0])
        elif word == 'copied':
            now['copied'] = now.get('copied', set()) | {words[2]}
        elif word in ('set', 'place', 'done', 'migrated') or word == 'drop' and words[1] not in now.get('taken', ()):
            now['moved'] = True
            self.say(a, 'pages', p)

    def to(self, a, now, *said):
        """What became of a page."""
        now['to'].append(said)
        self.say(a, *said)

    def home(self, a, op, now, words):
        """A fault brings a page of device memory home."""
        word, home = words[0], now.get('home')
        if home is None:
            if word == 'place' and words[3] == 'moving' and a in self.inside:
                now['home'] = {'p': words[1], 'page': words[2], 'from': words[4], 'right': words[5], 'is_set_up': False}
            return
        if not home['is_set_up'] and word in ('take', 'kept'):
            home['is_set_up'] = True
            self.say(a, 'setup', home['p'], home['page'], 1, 'tosys', home['from'].split('.')[0])
            self.say(a, 'from', home['page'], home['from'], home['right'])
            self.say(a, 'ready', home['p'])
        if home['is_set_up'] and 'pages' not in home and word in ('committed', 'kept'):
            home['pages'] = True
            if word == 'committed':
                home['to'] = words[2]
                self.say(a, 'moved', home['page'], home['to'])
            self.say(a, 'pages', home['p'])
        if word == 'done' or word == 'drop' and words[1] == home.get('to'):
            self.home_ends(a, now)

    def home_ends(self, a, now):
        home = now.pop('home')
        if home['is_set_up']:
            self.say(a, 'finalize', home['p'])


def project(text):
    """The trace of a report."""
    lines = text.splitlines()
    at = lines.index('history')
    it = Projector(operations_of(lines[:at]))
    for line in lines[at + 1:]:
        part = line.split()
        if not part or not part[0].isdigit():
            break
        it.entry(int(part[1][1:]), part[2:])
    return it.text()


def main():
    given.begin(__doc__)
    sys.stdout.write(project(given.data_of(sys.argv[1:]).decode()))


if __name__ == '__main__':
    main()
