"""What is due to an actor: an entry, or a wait.

Every operation is written here as its actor makes it, one turn after the other. It is a generator: a turn resumes it,
and it gives the entry that is due now, or a Wait. What it looks at between two turns it looks at in the later one. So
a decision and its entry are one step, and everything may have changed where the next step begins. The entry that ends
an operation, or a piece of an access, is what its generator returns.
"""
from typing import NamedTuple

from script import ALL_PAGES, PAGE_BYTES, one_page, pieces
from state import NONE, ZERO, Frame, exclusive, moving, place_in


class Wait(NamedTuple):
    """Nothing is due. What it is for, and which actors it waits for."""
    why: str                    # lock, moving, frame, invalidating
    what: tuple
    actors: tuple


class Record:
    """A page that a migration has frozen, or found fresh."""

    def __init__(self, page, source):
        self.page, self.source, self.taken, self.moved = page, source, None, False


class Actor:
    """The operations of one actor, over the state that all share."""

    def __init__(self, state, number):
        self.s, self.a = state, number

    # ---- locks
    def lock_wait(self, process, writes=False):
        """The wait for an mmap lock, or none where it is free."""
        b = self.s.lowest_other(process, self.a) if writes else self.s.writer(process)
        return None if b is None else Wait('lock', (process,), (b,))

    def rlock(self, process):
        while wait := self.lock_wait(process):
            yield wait
        yield 'rlock', process

    def invalidating(self, mirror, seq=None):
        """The wait for an interval: at the sequence that it has, or at that of its own detaching."""
        process = self.s.mirrors[mirror].process
        seq = self.s.mirrors[mirror].seq if seq is None else seq
        return Wait('invalidating', (mirror, seq), tuple(sorted(b for b, p in self.s.guards.items() if p == process)))

    # ---- the guard: an invalidation, and what is changed under it
    def guard(self, process, span, body):
        """Gives what the body returns."""
        s, told = self.s, -1
        met = s.overlapping(process, span)
        yield 'start', process, span, s.seq_started(process, span)
        while met and (rest := s.overlapping(process, span, told)):
            told = rest[0]
            yield 'told', told, span, s.seq[process]
        result = yield from body
        yield 'end', process, span, s.seq_ended(process)
        return result

    def put(self, process, page, place):
        """A place that may leave its old frame behind: then that is dropped next."""
        left = self.s.left_behind(process, page, place)
        yield 'place', process, page, place
        if left:
            yield 'drop', left

    def zap(self, process, span):
        page = span.first
        while (page := self.s.next_page(process, page)) is not None and page < span.end:
            yield from self.put(process, page, NONE)
            page += 1

    def narrow(self, process, span):
        page = span.first
        while (page := self.s.next_page(process, page)) is not None and page < span.end:
            place = self.s.place(process, page)
            if place.writable:
                yield from self.put(process, page, place.narrowed())
            page += 1

    def copy_pages(self, process, child):
        page = 0
        while (page := self.s.next_page(process, page)) is not None:
            place = self.s.place(process, page)
            if place.writable:
                yield from self.put(process, page, place.narrowed())
            yield from self.put(child, page, self.s.place(process, page))
            page += 1

    def if_still(self, test, process, page, make):
        """Places one page if its place passes the test still, and says whether."""
        place = self.s.place(process, page)
        if test(place):
            yield from self.put(process, page, make(place))
            return True
        return False

    def one_guard(self, test, process, page, make):
        return self.guard(process, one_page(page), self.if_still(test, process, page, make))

    # ---- faults, under the mmap lock
    def cause(self, process, page, writes):
        right = self.s.right(process, page)
        return 1 if right is None else 2 if writes and right == 'r' else None

    def fault(self, process, page, writes, no_frame):
        """One decision of a fault that has no cause against it, and what follows. Gives `no_frame` if it gives up."""
        s, place = self.s, self.s.place(process, page)
        if place.kind == 'moving':
            yield Wait('moving', (process, page), (s.locker[place.frame],))
        elif place.kind == 'own':
            b = s.other_locker(place.frame, self.a)
            if b is None:
                return (yield from self.bring_home(process, page, place.frame, no_frame))
            yield Wait('frame', (place.frame,), (b,))
        elif place.kind == 'excl':
            yield from self.one_guard(lambda x: x.kind == 'excl', process, page,
                                      lambda x: place_in(x.frame, True))
        elif place == NONE and not writes:
            yield 'place', process, page, ZERO
        elif place.kind == 'sys' and place.frame not in s.locker and len(s.users[place.frame]) == 1:
            yield 'place', process, page, place_in(place.frame, True)
        elif taken := s.lowest_free(None):
            yield 'take', taken
            yield from self.replace(process, page, place, taken)
        else:
            return no_frame
        return None

    def replace(self, process, page, over, taken):
        """Puts the taken frame under a page that had the place `over`; drops it where the page changed meanwhile."""
        s, new = self.s, place_in(taken, True)
        if over != ZERO and s.place(process, page) != over:
            yield 'drop', taken
        elif over == NONE:
            yield 'place', process, page, new
        else:
            if over != ZERO:
                yield 'copied', over.frame, taken, None
            if not (yield from self.one_guard(lambda x: x == over, process, page, lambda x: new)):
                yield 'drop', taken

    # ---- a frame is emptied
    def catch(self, process, page, frame):
        """Freezes the page of a frame that nobody has locked, and says whether."""
        return self.one_guard(lambda x: x.direct == frame and frame not in self.s.locker, process, page,
                              lambda x: moving(frame, x.writable))

    def freeze_others(self, frame):
        while user := self.s.lowest_direct(frame):
            yield from self.one_guard(lambda x: x.direct == frame, *user, lambda x: moving(frame, x.writable))

    def copy(self, source, taken):
        for part in range(8):
            yield 'copied', source, taken, part

    def settle(self, frame):
        yield ('done' if self.s.users[frame] else 'drop'), frame

    def finish(self, frame, to):
        """Migration entries become mappings again: of the frame that it was committed to, or of itself."""
        while user := self.s.lowest_user(frame, ('moving',)):
            yield 'place', *user, place_in(to or frame, self.s.place(*user).writable)
        if to:
            yield 'drop', frame
        yield from self.settle(to or frame)

    def empty(self, frame, at):
        """Moves a caught frame to system memory, and says whether there was a frame for it."""
        yield from self.freeze_others(frame)
        taken = self.s.lowest_free(None)
        if taken is None:
            yield 'kept', at, ('noframe',)
        else:
            yield 'take', taken
            yield from self.copy(frame, taken)
            yield 'committed', frame, taken
        yield from self.finish(frame, taken)
        return taken is not None

    def bring_home(self, process, page, frame, no_frame):
        if (yield from self.catch(process, page, frame)) and not (yield from self.empty(frame, page)):
            return no_frame
        return None

    # ---- accesses
    def access(self, who, address, length, data=None):
        for at, count in pieces(address, length):
            write = None if data is None else data[at - address:at - address + count]
            piece = self.cpu_piece if who[0] == 'p' else self.mirror_piece
            answer = yield from piece(who, at, count, write)
            if at + count == address + length:
                return answer
            yield answer

    def answer(self, who, at, count, write):
        if write is not None:
            return 'stored', who, at, write
        return 'loaded', who, at, self.s.read(self.s.process_of(who), at, count)

    def cpu_piece(self, who, at, count, write):
        s, process, page, writes = self.s, who[1], at // PAGE_BYTES, write is not None

        def suits():
            place = s.place(process, page)
            return place.kind == 'sys' and (place.writable or not writes) or place == ZERO and not writes

        while True:
            if not s.is_there(process):
                return 'failed', who, at, count, 1
            if suits():
                return self.answer(who, at, count, write)
            if wait := self.lock_wait(process):
                yield wait
                continue
            yield 'rlock', process
            while True:
                if cause := self.cause(process, page, writes):
                    return 'failed', who, at, count, cause
                if suits():
                    yield 'runlock', process
                    break
                if failure := (yield from self.fault(process, page, writes, ('failed', who, at, count, 3))):
                    return failure

    def mirror_piece(self, who, at, count, write):
        s, m, page, writes = self.s, who[1], at // PAGE_BYTES, write is not None
        while True:
            if not s.in_window(m, one_page(page)):
                return 'failed', who, at, count, 4
            right = s.tables[m].get(page, (None, None, None))[1]
            if right == 'w' or right == 'r' and not writes:
                return self.answer(who, at, count, write)
            if s.is_invalidating(m):
                yield self.invalidating(m)
                continue
            since, seq = s.length, s.mirrors[m].seq
            yield 'begin', m, seq
            yield from self.rlock(s.mirrors[m].process)
            if failure := (yield from self.walk(who, at, count, writes, since, seq)):
                return failure

    def walk(self, who, at, count, writes, since, seq):
        """From the lock of a look-up to its commit or its end; gives a failure, or none."""
        s, m, page = self.s, who[1], at // PAGE_BYTES
        mirror = s.mirrors[m]
        process = mirror.process

        def repeats():
            return not mirror.attached or mirror.seq != seq

        while not repeats():
            if cause := self.cause(process, page, writes):
                return 'failed', who, at, count, cause
            place = s.place(process, page)
            own = place.kind == 'own' and place.frame.device == mirror.device
            if (place.kind == 'sys' or own) and (place.writable or not writes) or place == ZERO and not writes:
                yield 'runlock', process
                if repeats():
                    break
                yield 'set', m, page, place.frame, 'w' if place.writable else 'r', since
                return None
            if failure := (yield from self.fault(process, page, writes, ('failed', who, at, count, 3))):
                return failure
        yield 'retry', m
        return None

    def load(self, process, address, length):
        return self.access(('p', process), address, length)

    def store(self, process, address, data):
        return self.access(('p', process), address, len(data), data)

    def dload(self, mirror, address, length):
        return self.access(('m', mirror), address, length)

    def dstore(self, mirror, address, data):
        return self.access(('m', mirror), address, len(data), data)

    # ---- a page for one actor alone
    def seize(self, mirror, page, fails):
        """Under the read lock: makes the page this actor's alone. Gives a failure, or none."""
        s, process = self.s, self.s.mirrors[mirror].process
        while True:
            if not s.is_attached(mirror):
                return fails(4)
            place = s.place(process, page)
            if place.kind == 'excl' and place.actor == self.a:
                if not (wait := self.sole_wait(mirror)):
                    yield 'set', mirror, page, place.frame, 'x', s.length
                    return None
                yield wait
            elif place.kind == 'sys' and place.writable:
                yield from self.one_guard(lambda x: x == place, process, page, lambda x: exclusive(x.frame, self.a))
            elif cause := self.cause(process, page, True):
                return fails(cause)
            elif failure := (yield from self.fault(process, page, True, fails(3))):
                return failure

    def sole_wait(self, mirror):
        """The wait before a page that is this actor's alone is set, or none."""
        return self.invalidating(mirror) if self.s.is_invalidating(mirror) else None

    def exclusive(self, mirror, page):
        if not (yield from self.rlock_in_window(mirror, one_page(page))):
            return 'refused', 4
        return (yield from self.seize(mirror, page, lambda cause: ('refused', cause))) or ('excluded', mirror, page)

    def dadd(self, mirror, address, amount):
        s, page = self.s, address // PAGE_BYTES

        def fails(cause):
            return 'failed', ('m', mirror), address, 1, cause

        def is_alone():
            place = s.place(s.mirrors[mirror].process, page)
            return s.tables[mirror].get(page, (None, None))[1] == 'x' and place.kind == 'excl' and place.actor == self.a

        while True:
            if not s.in_window(mirror, one_page(page)):
                return fails(4)
            process = s.mirrors[mirror].process
            if is_alone():
                old = s.read(process, address, 1)
                yield 'fetched', mirror, address, old
                if is_alone():
                    return 'added', mirror, address, old, bytes([(old[0] + amount) % 256])
            elif wait := self.lock_wait(process):
                yield wait
            else:
                yield 'rlock', process
                if failure := (yield from self.seize(mirror, page, fails)):
                    return failure
                yield 'runlock', process

    # ---- areas and processes
    def wlock(self, process):
        """Takes the lock for writing, and says whether the process is there."""
        while self.s.is_there(process):
            if wait := self.lock_wait(process, writes=True):
                yield wait
                continue
            yield 'wlock', process
            return True
        return False

    def map(self, process, span, right):
        if not (yield from self.wlock(process)):
            return 'refused', 8
        cause = self.s.area_refusal(('map', process, span))
        return ('refused', cause) if cause else ('mapped', process, span, right)

    def unmap(self, process, span):
        if not (yield from self.wlock(process)):
            return 'refused', 8
        if cause := self.s.area_refusal(('unmap', process, span)):
            return 'refused', cause
        if self.s.meets_area(process, span):
            yield from self.guard(process, span, self.zap(process, span))
        return 'unmapped', process, span

    def protect(self, process, span, right):
        if not (yield from self.wlock(process)):
            return 'refused', 8
        if cause := self.s.area_refusal(('protect', process, span, right)):
            return 'refused', cause
        yield from self.guard(process, span, self.narrow(process, span) if right == 'r' else iter(()))
        return 'protected', process, span, right

    def exit(self, process):
        if not (yield from self.wlock(process)):
            return 'refused', 8
        yield from self.guard(process, ALL_PAGES, self.zap(process, ALL_PAGES))
        return 'exited', process

    def fork(self, process, child):
        if not (yield from self.wlock(process)):
            return 'refused', 8
        if child in self.s.given:
            return 'refused', 7
        yield 'named', process, child
        yield from self.guard(process, ALL_PAGES, self.copy_pages(process, child))
        return 'forked', process, child

    # ---- mirrors
    def rlock_in_window(self, mirror, span):
        """Takes the lock for reading, and says whether the pages are in the mirror's window."""
        while self.s.in_window(mirror, span):
            process = self.s.mirrors[mirror].process
            if wait := self.lock_wait(process):
                yield wait
                continue
            yield 'rlock', process
            return True
        return False

    def attach(self, mirror, device, process, window):
        yield from ()           # it has one turn
        if mirror in self.s.mirrors:
            return 'refused', 9
        if not self.s.is_there(process):
            return 'refused', 8
        return 'attached', mirror, device, process, window, self.s.seq_inserted(process)

    def detach(self, mirror):
        s = self.s
        if not s.is_attached(mirror):
            return 'refused', 4
        seq = s.seq[s.mirrors[mirror].process]
        if seq % 2 and s.mirrors[mirror].stage != 'inserting':
            yield 'detaching', mirror, seq
            while s.in_tree(mirror):
                yield self.invalidating(mirror, seq)
        return 'detached', mirror

    def snap(self, mirror, span):
        if not (yield from self.rlock_in_window(mirror, span)):
            return 'refused', 4
        process, device = self.s.mirrors[mirror].process, self.s.mirrors[mirror].device
        for page in range(span.first, span.end):
            yield 'seen', mirror, page, snap_code(self.s.place(process, page), device)
        return 'runlock', process

    # ---- migrations
    def todev(self, mirror, span):
        return self.migrate(mirror, span, True)

    def tosys(self, mirror, span):
        return self.migrate(mirror, span, False)

    def migrate(self, mirror, span, to_device):
        s, records = self.s, []
        if not (yield from self.rlock_in_window(mirror, span)):
            return 'refused', 4
        process, device = s.mirrors[mirror].process, s.mirrors[mirror].device
        select = self.select(process, device, span, to_device, records)
        yield from self.guard(process, span, select)
        for x in records:
            if x.source:
                yield from self.freeze_others(x.source)
        for x in records:
            yield from self.take_and_copy(x, device if to_device else None, to_device)
        for x in records:
            if x.taken:
                yield from self.commit(process, x)
        for x in records:
            if to_device and x.moved and s.is_attached(mirror) and not s.is_invalidating(mirror):
                right = 'w' if s.place(process, x.page).writable else 'r'
                yield 'set', mirror, x.page, x.taken, right, s.length
        for x in records:
            if x.source:
                yield from self.finish(x.source, x.taken if x.moved else None)
            elif x.moved:
                yield 'done', x.taken
        return 'migrated', sum(x.moved for x in records)

    def select(self, process, device, span, to_device, records):
        s = self.s
        for page in range(span.first, span.end):
            place = s.place(process, page)
            if to_device and s.right(process, page) is not None and place in (NONE, ZERO):
                records.append(Record(page, None))
                yield 'fresh', process, page
            elif place.kind == ('sys' if to_device else 'own') and (to_device or place.frame.device == device):
                b = s.other_locker(place.frame, self.a)
                if b is None:
                    records.append(Record(page, place.frame))
                    yield 'place', process, page, moving(place.frame, place.writable)
                else:
                    yield 'kept', page, ('locked', b)
            else:
                yield 'kept', page, ('nothere',)

    def take_and_copy(self, x, device, to_device):
        skip = self.s.script.skip
        if to_device and skip and x.page % skip == 0:
            yield 'kept', x.page, ('skipped',)
        elif taken := self.s.lowest_free(device):
            yield 'take', taken
            x.taken = taken
            if x.source:
                yield from self.copy(x.source, taken)
        else:
            yield 'kept', x.page, ('noframe',)

    def commit(self, process, x):
        s = self.s
        if x.source:
            x.moved = True
            yield 'committed', x.source, x.taken
            return
        if s.place(process, x.page) in (NONE, ZERO):
            x.moved = yield from self.one_guard(
                lambda place: place in (NONE, ZERO), process, x.page,
                lambda place: place_in(x.taken, s.right(process, x.page) == 'rw'))
        if not x.moved:
            yield 'kept', x.page, ('lost',)
            yield 'drop', x.taken

    def evict(self, device):
        return self.clear(device, False)

    def remove(self, device):
        return self.clear(device, True)

    def clear(self, device, remove):
        s, number, moved = self.s, 0, 0
        if remove and device not in s.withdrawn:
            yield 'withdrawn', device
        while True:
            number = min((n for n in s.held[device] if n >= number), default=None)
            if number is None:
                break
            frame = Frame(device, number)
            b = s.other_locker(frame, self.a)
            if b is not None and remove:
                yield Wait('frame', (frame,), (b,))
            elif b is not None:
                yield 'kept', frame, ('locked', b)
                number += 1
            elif (yield from self.catch(*s.lowest_user(frame), frame)):
                number += 1
                if (yield from self.empty(frame, frame)):
                    moved += 1
                elif remove:
                    return 'refused', 3
        if not remove:
            return 'evicted', moved
        return ('refused', 10) if device in s.removed else ('removed', device)


def snap_code(place, device):
    code = {'zero': 0x11, 'excl': 0x31, 'sys': 0x02 if place.writable else 0x01}.get(place.kind, 0)
    if place.kind == 'own' and place.frame.device == device:
        code = 0x22 if place.writable else 0x21
    return bytes([code])
