"""The state after a history: processes, page tables, frames, sequences and locks (docs/DEFINITIONS.md).

`State.apply` takes one more entry. An entry is a tuple of its word and its fields, in the order of docs/REPORT.md. WHO
is ('p', number) or ('m', number), FIRST COUNT is one Span.
"""
from bisect import bisect_left, insort
from collections import defaultdict
from dataclasses import dataclass
from heapq import heappop, heappush
from typing import NamedTuple, Optional

from script import PAGE_BYTES, Span

MOST_AREAS = 64


class Frame(NamedTuple):
    device: Optional[int]       # none: system memory
    number: int

    def __str__(self):
        return f's{self.number}' if self.device is None else f'd{self.device}.{self.number}'


class Place(NamedTuple):
    """A page table entry. It names its frame, and does so directly if it is no migration entry."""
    kind: str                   # none, zero, sys, own, moving, excl
    frame: Optional[Frame] = None
    writable: bool = False
    actor: Optional[int] = None

    @property
    def direct(self):
        return None if self.kind == 'moving' else self.frame

    def narrowed(self):
        return place_in(self.frame, False) if self.kind == 'excl' else self._replace(writable=False)

    def __str__(self):
        if self.frame is None:
            return self.kind
        last = f'a{self.actor}' if self.kind == 'excl' else 'w' if self.writable else 'r'
        return f'{self.kind} {self.frame} {last}'


NONE, ZERO = Place('none'), Place('zero')


def place_in(frame, writable):
    return Place('sys' if frame.device is None else 'own', frame, writable)


def moving(frame, writable):
    return Place('moving', frame, writable)


def exclusive(frame, actor):
    return Place('excl', frame, True, actor)


class Area(NamedTuple):
    span: Span
    right: str


def cut(areas, span, right=None):
    """The areas without the span, or with this right in it."""
    result = []
    for area in areas:
        low, high = max(area.span.first, span.first), min(area.span.end, span.end)
        if low >= high:
            result.append(area)
            continue
        parts = [(area.span.first, low, area.right), (low, high, right), (high, area.span.end, area.right)]
        result += [Area(Span(first, end - first), kept) for first, end, kept in parts if first < end and kept]
    return result


def all_mapped(areas, span):
    return sum(max(0, min(a.span.end, span.end) - max(a.span.first, span.first)) for a in areas) == span.count


@dataclass
class Mirror:
    device: int
    process: int
    window: Span
    seq: int                    # of its interval
    attached: bool = True
    stage: str = 'tree'         # of its interval: tree, inserting, removing (still in the tree), out


class State:
    def __init__(self, script):
        self.script, self.length = script, 0
        self.areas = {0: []}                        # of each process that is there
        self.bytes = {0: {}}                        # of each such process, by page, where not all zero
        self.given = {0}                            # the process numbers that were given
        self.mirrors, self.tables = {}, {}          # a table has for a page its frame or none, the right, and FROM
        self.places, self.pages = defaultdict(dict), defaultdict(list)      # of each process, what is not empty
        self.users = defaultdict(set)               # the process and page of each place that names a frame
        self.free = {None: list(range(script.frames))}                      # heaps of numbers
        self.free.update((d, list(range(size))) for d, size in enumerate(script.devices))
        self.held = {d: set() for d in self.free}
        self.withdrawn, self.removed = set(), set()
        self.seq, self.active = defaultdict(lambda: 2), defaultdict(int)
        self.guards = {}                            # the process of each actor's invalidation under way
        self.map_lock, self.locker = {}, {}         # actor: process and whether it writes; frame: actor

    # ---- processes
    def is_there(self, process):
        return process in self.areas

    def right(self, process, page):
        return next((a.right for a in self.areas.get(process, ()) if a.span.has(page)), None)

    def meets_area(self, process, span):
        return any(a.span.meets(span) for a in self.areas[process])

    def area_refusal(self, operation):
        """The cause 1, 5 or 6 of a map, unmap or protect."""
        word, process, span = operation[:3]
        areas = self.areas[process]
        if word == 'map':
            return 5 if self.meets_area(process, span) else 6 if len(areas) >= MOST_AREAS else None
        if word == 'protect' and not all_mapped(areas, span):
            return 1
        after = cut(areas, span, operation[3] if word == 'protect' else None)
        return 6 if len(after) > MOST_AREAS else None

    def read(self, process, address, length):
        page, offset = self.bytes[process].get(address // PAGE_BYTES), address % PAGE_BYTES
        return bytes(page[offset:offset + length]) if page else bytes(length)

    def write(self, process, address, data):
        while data:
            page = self.bytes[process].setdefault(address // PAGE_BYTES, bytearray(PAGE_BYTES))
            offset = address % PAGE_BYTES
            here = data[:PAGE_BYTES - offset]
            page[offset:offset + len(here)] = here
            address, data = address + len(here), data[len(here):]

    def process_of(self, who):
        return who[1] if who[0] == 'p' else self.mirrors[who[1]].process

    # ---- mirrors and sequences
    def is_attached(self, mirror):
        return mirror in self.mirrors and self.mirrors[mirror].attached

    def in_window(self, mirror, span):
        return self.is_attached(mirror) and span.lies_in(self.mirrors[mirror].window)

    def in_tree(self, mirror):
        return self.mirrors[mirror].stage in ('tree', 'removing')

    def is_invalidating(self, mirror):
        """The interval's and the process's sequences are equal."""
        return self.mirrors[mirror].seq == self.seq[self.mirrors[mirror].process]

    def overlapping(self, process, span, above=-1):
        """The mirrors in the tree whose windows meet the span, in rising number."""
        return [m for m, x in sorted(self.mirrors.items())
                if m > above and x.process == process and self.in_tree(m) and x.window.meets(span)]

    def seq_started(self, process, span):
        return self.seq[process] | 1 if self.overlapping(process, span) else self.seq[process]

    def seq_ended(self, process):
        return self.seq[process] + (self.active[process] == 1 and self.seq[process] % 2)

    def seq_inserted(self, process):
        """The interval's sequence after an insert."""
        seq = self.seq[process]
        return seq if seq % 2 else seq + 1 if self.active[process] else seq - 1

    # ---- places and frames
    def place(self, process, page):
        return self.places[process].get(page, NONE)

    def next_page(self, process, page):
        """The lowest page from there on where something is mapped."""
        pages = self.pages[process]
        at = bisect_left(pages, page)
        return pages[at] if at < len(pages) else None

    def lowest_user(self, frame, kinds=('sys', 'own', 'moving', 'excl')):
        """The lowest process and page whose place names the frame, and is of one of these kinds."""
        return min((u for u in self.users[frame] if self.place(*u).kind in kinds), default=None)

    def lowest_direct(self, frame):
        return self.lowest_user(frame, ('sys', 'own', 'excl'))

    def lowest_free(self, device):
        if device in self.withdrawn or not self.free[device]:
            return None
        return Frame(device, self.free[device][0])

    def left_behind(self, process, page, place):
        """The frame that nobody names or has locked once the page has this place."""
        frame = self.place(process, page).frame
        if frame and frame != place.frame and self.users[frame] == {(process, page)} and frame not in self.locker:
            return frame
        return None

    # ---- locks
    def writer(self, process):
        return next((b for b, lock in self.map_lock.items() if lock == (process, True)), None)

    def lowest_other(self, process, actor):
        return min((b for b, lock in self.map_lock.items() if lock[0] == process and b != actor), default=None)

    def other_locker(self, frame, actor):
        return None if self.locker.get(frame) == actor else self.locker.get(frame)

    # ---- one more entry
    def apply(self, actor, entry):
        self.length += 1
        match entry:
            case ('mapped', p, span, right):
                insort(self.areas[p], Area(span, right))
                for page in [v for v in self.bytes[p] if span.has(v)]:
                    del self.bytes[p][page]
            case ('unmapped', p, span):
                self.areas[p] = cut(self.areas[p], span)
            case ('protected', p, span, right):
                self.areas[p] = cut(self.areas[p], span, right)
            case ('stored', who, address, data):
                self.write(self.process_of(who), address, data)
            case ('added', m, address, _, now):
                self.write(self.mirrors[m].process, address, now)
            case ('named', _, child):
                self.given.add(child)
            case ('forked', p, child):
                self.areas[child] = list(self.areas[p])
                self.bytes[child] = {v: bytearray(data) for v, data in self.bytes[p].items()}
            case ('exited', p):
                del self.areas[p], self.bytes[p]
            case ('attached', m, d, p, window, seq):
                self.mirrors[m] = Mirror(d, p, window, seq, stage='inserting' if self.seq[p] % 2 else 'tree')
                self.seq[p] |= self.active[p] > 0
                self.tables[m] = {}
            case ('detaching', m, _):
                self.mirrors[m].attached, self.mirrors[m].stage = False, 'removing'
                self.tables[m].clear()
            case ('detached', m):
                self.mirrors[m].attached, self.mirrors[m].stage = False, 'out'
                self.tables[m].clear()
            case ('start', p, _, seq):
                self.seq[p] = seq
                self.active[p] += 1
                self.guards[actor] = p
            case ('told', m, span, seq):
                self.mirrors[m].seq = seq
                for page in [v for v in self.tables[m] if span.has(v)]:
                    del self.tables[m][page]
            case ('end', p, _, seq):
                if seq != self.seq[p]:
                    for mirror in self.mirrors.values():
                        if mirror.process == p:
                            mirror.stage = {'inserting': 'tree', 'removing': 'out'}.get(mirror.stage, mirror.stage)
                self.seq[p] = seq
                self.active[p] -= 1
                del self.guards[actor]
            case ('set', m, page, frame, right, since):
                self.tables[m][page] = (frame, right, since)
            case ('withdrawn', d):
                self.withdrawn.add(d)
            case ('removed', d):
                self.removed.add(d)
            case ('take', frame):
                heappop(self.free[frame.device])
                self.held[frame.device].add(frame.number)
                self.locker[frame] = actor
            case ('drop', frame):
                heappush(self.free[frame.device], frame.number)
                self.held[frame.device].remove(frame.number)
                self.locker.pop(frame, None)
            case ('done', frame):
                self.locker.pop(frame, None)
            case ('place', p, page, place):
                self.lock_placed(actor, p, page, place)
                self.put(p, page, place)
            case ('rlock' | 'wlock', p):
                self.map_lock[actor] = (p, entry[0] == 'wlock')
        if entry[0] in RELEASING:
            self.map_lock.pop(actor, None)

    def lock_placed(self, actor, process, page, place):
        """The frame locks that a `place` takes and releases."""
        left = self.left_behind(process, page, place)
        if place.kind == 'sys' and self.place(process, page).kind != 'moving' and self.locker.get(place.frame) == actor:
            del self.locker[place.frame]
        if place.kind == 'moving':
            self.locker.setdefault(place.frame, actor)
        if left:
            self.locker[left] = actor

    def put(self, process, page, place):
        old = self.place(process, page)
        if old.frame:
            self.users[old.frame].discard((process, page))
        if place.frame:
            self.users[place.frame].add((process, page))
        if old == NONE and place != NONE:
            insort(self.pages[process], page)
        if old != NONE and place == NONE:
            self.pages[process].remove(page)
        self.places[process][page] = place


RELEASING = {'loaded', 'stored', 'failed', 'refused', 'mapped', 'unmapped', 'protected', 'forked', 'exited', 'migrated',
             'retry', 'excluded', 'runlock'}
