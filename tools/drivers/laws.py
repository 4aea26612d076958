"""What the history allows: the state that its entries give, and the parts of legality beside that an entry is due."""
from collections import defaultdict

from script import PAGE_BYTES, one_page
from state import NONE, ZERO

from drivers.world import Onward

PARTS = 'answers places frames sequences untold guarded kept'.split()


class Broken(Exception):
    """A part of legality that an entry breaks."""


class Laws(Onward):
    """The state that the history gives, and the seven parts of legality but that an entry is due."""

    def __init__(self, script):
        super().__init__(script)
        self.committed = {}                         # frame: where it was committed to since it was last taken
        self.begun, self.sets, self.told = {}, {}, defaultdict(list)
        self.short, self.fresh = {}, defaultdict(set)
        self.invalidations = {}                     # actor: process, span, mirrors met, mirrors told
        self.detaching = set()

    def stands_for(self, place):
        return self.committed.get(place.frame, place.frame) if place.kind == 'moving' else place.frame

    def cause_at(self, who, page, writes):
        if who[0] == 'm' and not self.in_window(who[1], one_page(page)):
            return 4
        process = self.process_of(who) if who[0] == 'p' or who[1] in self.mirrors else None
        right = self.right(process, page) if process is not None else None
        return 1 if right is None else 2 if writes and right == 'r' else None

    def test(self, actor, entry, operation, answers_alone):
        for part in PARTS[:1] if answers_alone else PARTS:
            if not getattr(self, part + '_stand')(actor, entry, operation):
                raise Broken(part)

    def answers_stand(self, actor, entry, operation):
        match entry:
            case ('loaded', who, at, data):
                return self.cause_at(who, at // PAGE_BYTES, False) is None and self.read(self.process_of(who), at, len(data)) == data
            case ('stored', who, at, _):
                return self.cause_at(who, at // PAGE_BYTES, True) is None
            case ('fetched', m, at, old) | ('added', m, at, old, _):
                who = ('m', m)
                return self.cause_at(who, at // PAGE_BYTES, True) is None and self.read(self.process_of(who), at, 1) == old
            case ('failed', who, at, _, 3):
                return self.right(self.process_of(who), at // PAGE_BYTES) is not None
            case ('failed', who, at, _, cause):
                return self.cause_at(who, at // PAGE_BYTES, cause == 2) == cause
            case ('mapped', p, span, right):
                return self.is_there(p) and not self.area_refusal(('map', p, span, right))
            case ('unmapped', p, span):
                return self.is_there(p) and not self.area_refusal(('unmap', p, span))
            case ('protected', p, span, right):
                return self.is_there(p) and not self.area_refusal(('protect', p, span, right))
            case ('named', p, child):
                return self.is_there(p) and child not in self.given
            case ('forked', p, child):
                return self.is_there(p) and child in self.given and child not in self.areas
            case ('exited', p):
                return self.is_there(p)
            case ('attached', m, _, p, _, _):
                return self.is_there(p) and m not in self.mirrors
            case ('detaching', m, _):
                return self.is_attached(m)
            case ('detached', m):
                return self.is_attached(m) or m in self.detaching
        return True

    def table_allows(self, m, page, writes):
        entry, place = self.tables.get(m, {}).get(page), self.place(self.mirrors[m].process, page)
        if entry is None or entry[1] == 'x' or place.kind in ('none', 'excl') or self.stands_for(place) != entry[0]:
            return False
        return not writes or entry[1] == 'w' and place.writable

    def one_writer(self, places, committed):
        stands = defaultdict(list)
        for place in places:
            frame = committed.get(place.frame, place.frame) if place.kind == 'moving' else place.frame
            if frame:
                stands[frame].append(place.writable)
        return all(len(x) == 1 or not any(x) for x in stands.values())

    def all_places(self, but=None, now=None):
        return [x for p, pages in self.places.items() for v, x in pages.items() if (p, v) != but] + ([now] if but else [])

    def is_held(self, frame):
        return frame.number in self.held[frame.device]

    def places_stand(self, actor, entry, operation):
        match entry:
            case ('loaded', ('p', p), at, _):
                return self.place(p, at // PAGE_BYTES).kind in ('zero', 'sys')
            case ('stored', ('p', p), at, _):
                place = self.place(p, at // PAGE_BYTES)
                return place.kind == 'sys' and place.writable
            case (('loaded' | 'stored') as word, ('m', m), at, _):
                return self.table_allows(m, at // PAGE_BYTES, word == 'stored')
            case ('fetched' | 'added', m, at, *_):
                page = at // PAGE_BYTES
                held, place = self.tables[m].get(page), self.place(self.mirrors[m].process, page)
                return bool(held) and held[1] == 'x' and place.kind == 'excl' and place.actor == actor and place.frame == held[0]
            case ('place', p, page, place):
                return (not place.frame or self.is_held(place.frame)) and self.one_writer(self.all_places((p, page), place), self.committed)
            case ('committed', source, to):
                return self.one_writer(self.all_places(), self.committed | {source: to})
            case ('take', frame):
                return self.lowest_free(frame.device) == frame and frame.device not in self.removed and self.one_writer(
                    self.all_places(), {f: g for f, g in self.committed.items() if f != frame})
            case ('drop', frame):
                return self.is_held(frame) and not self.users[frame]
            case ('set', m, _, frame, _, _):
                return frame is None or frame.device in (None, self.mirrors[m].device)
            case ('removed', d):
                return not self.held[d]
        return True

    def frames_stand(self, actor, entry, operation):
        if entry[0] == 'refused' and entry[1] == 3 or entry[0] == 'failed' and entry[4] == 3:
            return self.lowest_free(None) is None or self.short.get(actor, False)
        return True

    def sequences_stand(self, actor, entry, operation):
        under = self.invalidations.get(actor)
        match entry:
            case ('start', p, span, seq):
                return under is None and seq == self.seq_started(p, span)
            case ('told', m, span, seq):
                if not under or under[1] != span or not under[2]:
                    return False
                rest = [k for k in self.overlapping(under[0], span) if k not in under[3]]
                return rest[:1] == [m] and all(k < m for k in under[3]) and seq == self.seq[under[0]]
            case ('end', p, span, seq):
                return bool(under) and under[:2] == (p, span) and set(under[2]) <= set(under[3]) and seq == self.seq_ended(p)
            case ('attached', _, _, p, _, seq):
                return seq == self.seq_inserted(p)
            case ('detaching', m, seq):
                p = self.mirrors[m].process
                return self.seq[p] % 2 == 1 and self.in_tree(m) and seq == self.seq[p]
            case ('detached', m):
                x = self.mirrors[m]
                return (x.stage == 'inserting' or self.in_tree(m) and self.seq[x.process] % 2 == 0
                        or m in self.detaching and not self.in_tree(m))
            case ('begin', m, seq):
                return seq == self.mirrors[m].seq != self.seq[self.mirrors[m].process]
        return True

    def is_untold(self, m, page):
        if (m, page) not in self.sets:
            return False
        rightly, since = self.sets[m, page]
        return rightly and not any(at > since and span.has(page) for at, span in self.told[m])

    def untold_stand(self, actor, entry, operation):
        match entry:
            case ('loaded' | 'stored', ('m', m), at, _):
                return self.is_untold(m, at // PAGE_BYTES)
            case ('fetched' | 'added', m, at, *_):
                return self.is_untold(m, at // PAGE_BYTES)
        return True

    def guarded_stand(self, actor, entry, operation):
        if entry[0] != 'place':
            return True
        _, p, page, new = entry
        old, under = self.place(p, page), self.invalidations.get(actor)
        if old == NONE or old == new == ZERO:
            return True
        if old.kind == 'moving':
            loses = new == NONE or old.writable and not new.writable
        elif old.kind == new.kind and old.kind in ('sys', 'own'):
            loses = old.frame != new.frame or old.writable and not new.writable
        else:
            loses = True
        return not loses or bool(under) and under[0] == p and under[1].has(page) and set(under[2]) <= set(under[3])

    def kept_stand(self, actor, entry, operation):
        if entry[0] != 'kept':
            return True
        _, what, (why, *by) = entry
        m = operation[1] if operation[0] in ('todev', 'tosys', 'dload', 'dstore', 'dadd', 'exclusive') else None
        p = self.mirrors[m].process if m is not None else 0
        place = self.place(p, what) if isinstance(what, int) else None
        if why == 'nothere' and operation[0] == 'todev':
            return self.right(p, what) is None or place.kind in ('own', 'moving', 'excl')
        if why == 'nothere':
            return not (place.kind == 'own' and place.frame.device == self.mirrors[m].device)
        if why == 'locked':
            return by[0] != actor and self.locker.get(place.frame if place else what) == by[0]
        if why == 'noframe':
            return self.lowest_free(self.mirrors[m].device if operation[0] == 'todev' else None) is None
        if why == 'skipped':
            return operation[0] == 'todev' and bool(self.script.skip) and what % self.script.skip == 0
        return what in self.fresh[actor] and place not in (NONE, ZERO)

    def apply(self, actor, entry):
        at = self.length
        match entry:
            case ('start', p, span, _):
                self.invalidations[actor] = (p, span, tuple(self.overlapping(p, span)), ())
            case ('told', m, span, _) if actor in self.invalidations:
                p, s, met, told = self.invalidations[actor]
                self.invalidations[actor] = (p, s, met, told + (m,))
                self.told[m].append((at, span))
            case ('end', *_):
                self.invalidations.pop(actor, None)
            case ('begin', m, _):
                self.begun[actor, m] = at
            case ('set', m, page, _, _, since):
                self.sets[m, page] = (since == at or since == self.begun.get((actor, m)), since)
            case ('detaching', m, _):
                self.detaching.add(m)
            case ('detached', m):
                self.detaching.discard(m)
            case ('take', frame):
                self.committed.pop(frame, None)
            case ('committed', source, to):
                self.committed[source] = to
            case ('fresh', _, page):
                self.fresh[actor].add(page)
            case ('migrated', _):
                self.fresh[actor].clear()
        if entry[0] not in ('place', 'done', 'drop'):
            self.short[actor] = entry[0] == 'kept' and entry[2][0] == 'noframe' and self.lowest_free(None) is None
        super().apply(actor, entry)
