"""An actor whose driver leaves a rule out, or whose memory manager does.

It asks at each turn whether the rule is left out, since a set-up by a right driver may end within an operation.
"""
from due import Actor, Record, Wait
from script import PAGE_BYTES, one_page
from state import NONE, ZERO, Frame, moving, place_in


class Driver(Actor):
    """An actor whose driver leaves a rule out, or whose memory manager does."""

    @property
    def rule(self):
        return self.s.rule

    def answer(self, who, at, count, write):
        return ('stored', who, at, write) if write is not None else ('loaded', who, at, self.s.read_by(who, at, count))

    # ---- the guard
    def guard(self, process, span, body):
        return self.invalidation(process, span, lambda: body)

    def one_guard(self, test, process, page, make):
        return self.invalidation(process, one_page(page), lambda: self.if_still(test, process, page, make))

    def invalidation(self, process, span, ask):
        """Asks a body what it has to place; if mirrors are told last, once more if it found its page changed."""
        s, told, done = self.s, -1, None
        met = s.overlapping(process, span)
        yield 'start', process, span, s.seq_started(process, span)
        while True:
            if self.rule == 'tell-first' or not (met and s.overlapping(process, span, told)):
                done = done or (yield from ask())
            rest = s.overlapping(process, span, told) if met else []
            if not rest:
                break
            told = rest[0]
            yield 'told', told, span, s.seq[process]
        seq = s.seq[process]
        yield 'end', process, span, seq + seq % 2 if self.rule == 'end-last' else s.seq_ended(process)
        return done

    def copy_pages(self, process, child):
        page = 0
        while (page := self.s.next_page(process, page)) is not None:
            place = self.s.place(process, page)
            if place.writable and self.rule != 'fork-narrows':
                yield from self.put(process, page, place.narrowed())
            yield from self.put(child, page, self.s.place(process, page))
            page += 1

    # ---- faults
    def replace(self, process, page, over, taken):
        s, new = self.s, place_in(taken, True)
        if over != ZERO and s.place(process, page) != over:
            yield 'drop', taken
        elif over == NONE:
            yield 'place', process, page, new
        else:
            if over != ZERO:
                yield 'copied', over.frame, taken, None
            if not (yield from self.one_guard(lambda x: x == over or self.rule == 'fault-looks-again', process, page,
                                              lambda x: new)):
                yield 'drop', taken

    # ---- a frame is emptied
    def catch(self, process, page, frame):
        # what an invalidation is for: a fault of a device's page
        self.s.caught = {**self.s.caught, self.a: frame.device}
        if self.rule == 'lock-page':
            caught = yield from self.one_guard(lambda x: x.frame == frame, process, page,
                                               lambda x: moving(frame, x.writable))
        else:
            caught = yield from super().catch(process, page, frame)
        self.s.caught = {a: d for a, d in self.s.caught.items() if a != self.a}
        return caught

    def freeze_others(self, frame):
        self.s.freezing = self.s.freezing | {self.a}
        yield from super().freeze_others(frame)
        self.s.freezing = self.s.freezing - {self.a}

    def copy(self, source, taken):
        for part in range(8):
            is_last = part == 7 or part == 6 and self.rule == 'copy-all'
            yield 'copied', source, taken, part
            if is_last:
                return

    def settle(self, frame):
        if self.rule == 'drop-unnamed':
            yield 'done', frame
        else:
            yield from super().settle(frame)

    def finish(self, frame, to):
        while (user := self.s.lowest_user(frame, ('moving',))) and not (self.rule == 'put-back' and to is None):
            writable = self.s.place(*user).writable or self.rule == 'back-right'
            yield 'place', *user, place_in(to or frame, writable)
        if to:
            yield 'drop', frame
        yield from self.settle(to or frame)

    # ---- accesses
    def cpu_piece(self, who, at, count, write):
        s, process, page, writes = self.s, who[1], at // PAGE_BYTES, write is not None

        def suits(kinds=('sys',)):
            place = s.place(process, page)
            return place.kind in kinds and (place.writable or not writes) or place == ZERO and not writes

        while True:
            if not s.is_there(process):
                return 'failed', who, at, count, 1
            if suits(('sys', 'own') if self.rule == 'bring-home' else ('sys',)):
                return self.answer(who, at, count, write)
            if wait := self.lock_wait(process):
                yield wait
                continue
            yield 'rlock', process
            while True:
                if cause := self.cause(process, page, writes):
                    return 'failed', who, at, count, cause
                if suits():
                    yield 'runlock', process
                    break
                if failure := (yield from self.fault(process, page, writes, ('failed', who, at, count, 3))):
                    return failure

    def mirror_piece(self, who, at, count, write):
        s, m, page, writes = self.s, who[1], at // PAGE_BYTES, write is not None
        while True:
            frame, right, _ = s.tables.get(m, {}).get(page, (None, None, None))
            usable = right == 'w' or right == 'r' and (not writes or self.rule == 'write-entry' and frame)
            if self.rule == 'stop-at-detach' and usable:
                return self.answer(who, at, count, write)
            if not s.in_window(m, one_page(page)):
                return 'failed', who, at, count, 4
            if usable:
                return self.answer(who, at, count, write)
            begun, process = self.rule != 'begin-first', s.mirrors[m].process
            since, seq = s.length, s.mirrors[m].seq
            if wait := self.begin_wait(m) if begun else self.lock_wait(process):
                yield wait
                continue
            if begun:
                yield 'begin', m, seq
                while self.rule != 'mmap-lock' and (wait := self.lock_wait(process)):
                    yield wait
            yield 'rlock', process
            if failure := (yield from self.walk(who, at, count, writes, begun, since, seq)):
                return failure

    def begin_wait(self, mirror):
        """The wait before a look-up begins, or none."""
        return self.invalidating(mirror) if self.s.is_invalidating(mirror) and self.rule != 'begin-waits' else None

    def walk(self, who, at, count, writes, begun, since, seq):
        s, m, page = self.s, who[1], at // PAGE_BYTES
        mirror = s.mirrors[m]
        while mirror.attached and (self.rule == 'begin-first' or mirror.seq == seq):
            if cause := self.cause(mirror.process, page, writes):
                return 'failed', who, at, count, cause
            place = s.place(mirror.process, page)
            own = place.kind == 'own' and (self.rule == 'own-device' or place.frame.device == mirror.device)
            if (place.kind == 'sys' or own) and (place.writable or not writes) or place == ZERO and not writes:
                yield 'runlock', mirror.process
                if not begun:
                    while mirror.attached and s.is_invalidating(m):
                        yield self.invalidating(m)
                    if not mirror.attached:
                        break
                    since, seq = s.length, mirror.seq
                    yield 'begin', m, seq
                if not mirror.attached or self.differs(m, seq):
                    break
                right = 'w' if place.writable or self.rule == 'entry-right' else 'r'
                yield 'set', m, page, place.frame, right, since
                return None
            if failure := (yield from self.fault(mirror.process, page, writes, ('failed', who, at, count, 3))):
                return failure
        yield 'retry', m
        return None

    def differs(self, mirror, seq):
        """What a look-up asks before its commit: whether the interval has another sequence than it noted."""
        if self.rule == 'compare-sequence':
            return self.s.is_invalidating(mirror)
        return self.rule != 'compare' and self.s.mirrors[mirror].seq != seq

    def dadd(self, mirror, address, amount):
        s, page = self.s, address // PAGE_BYTES

        def fails(cause):
            return 'failed', ('m', mirror), address, 1, cause

        def is_alone():
            place = s.place(s.mirrors[mirror].process, page)
            return s.tables[mirror].get(page, (None, None))[1] == 'x' and place.kind == 'excl' and place.actor == self.a

        while True:
            if not s.in_window(mirror, one_page(page)):
                return fails(4)
            process = s.mirrors[mirror].process
            if is_alone():
                old = s.read_by(('m', mirror), address, 1)
                yield 'fetched', mirror, address, old
                if self.rule == 'look-again' or is_alone():
                    return 'added', mirror, address, old, bytes([(old[0] + amount) % 256])
            elif wait := self.lock_wait(process):
                yield wait
            else:
                yield 'rlock', process
                if failure := (yield from self.seize(mirror, page, fails)):
                    return failure
                yield 'runlock', process

    def sole_wait(self, mirror):
        return None if self.rule == 'exclusive-waits' else super().sole_wait(mirror)

    # ---- mirrors
    def detach(self, mirror):
        if self.rule == 'detach-waits' and self.s.is_attached(mirror):
            return 'detached', mirror
        return (yield from super().detach(mirror))

    # ---- migrations
    def migrate(self, mirror, span, to_device):
        s, records = self.s, []
        if not (yield from self.rlock_in_window(mirror, span)):
            return 'refused', 4
        process, device = s.mirrors[mirror].process, s.mirrors[mirror].device
        yield from self.guard(process, span, self.select(process, device, span, to_device, records))
        for x in records:
            if x.source and self.rule not in ('freeze-others', 'freeze-first'):
                yield from self.freeze_others(x.source)
        for x in records:
            yield from self.take_and_copy(x, device if to_device else None, to_device)
        for x in records:
            if x.taken:
                yield from self.commit(process, x)
        for x in records if to_device else ():
            if self.sets_moved(mirror, x):
                right = 'w' if s.place(process, x.page).writable or self.rule == 'set-right' else 'r'
                yield 'set', mirror, x.page, x.taken, right, s.length
        for x in records:
            if x.source:
                yield from self.finish(x.source, x.taken if x.moved else None)
            elif x.moved:
                yield 'done', x.taken
        return 'migrated', sum(x.moved for x in records)

    def select(self, process, device, span, to_device, records):
        for page in range(span.first, span.end):
            place = self.s.place(process, page)
            is_kind = place.kind == ('sys' if to_device else 'own') and (to_device or place.frame.device == device)
            is_locked = is_kind and self.s.other_locker(place.frame, self.a) is not None
            if self.rule == 'lock-page' and (place.kind == 'moving' or is_locked):
                records.append(Record(page, place.frame))
                yield 'place', process, page, moving(place.frame, place.writable)
            elif self.rule == 'freeze-first' and is_kind and not is_locked:
                records.append(Record(page, place.frame))
                yield 'place', process, page, place
            else:
                yield from super().select(process, device, one_page(page), to_device, records)

    def sets_moved(self, mirror, x):
        """Whether the driver sets the new frame of a page in its own table."""
        moved = x.moved or self.rule == 'set-moved' and x.taken
        waits = self.rule != 'set-unless-invalidated' and self.s.is_invalidating(mirror)
        return moved and self.s.is_attached(mirror) and not waits

    def take_and_copy(self, x, device, to_device):
        skip = self.s.script.skip
        is_skipped = to_device and skip and x.page % skip == 0
        if self.rule == 'take-from-there' and device in self.s.withdrawn and self.s.free[device] and not is_skipped:
            x.taken = Frame(device, self.s.free[device][0])
            yield 'take', x.taken
            if x.source:
                yield from self.copy(x.source, x.taken)
        else:
            yield from super().take_and_copy(x, device, to_device)

    def commit(self, process, x):
        s = self.s
        if x.source:
            if self.rule == 'freeze-first':
                yield from self.freeze_others(x.source)
            x.moved = True
            yield 'committed', x.source, x.taken
            return
        if s.place(process, x.page) in (NONE, ZERO):
            x.moved = yield from self.one_guard(
                lambda place: place in (NONE, ZERO) or self.rule == 'fresh-looks-again', process, x.page,
                lambda place: place_in(x.taken, s.right(process, x.page) == 'rw' or self.rule == 'fresh-right'))
        if not x.moved:
            drops = self.rule != 'drop-lost'
            yield 'kept', x.page, ('lost',)
            if drops:
                yield 'drop', x.taken

    def clear(self, device, remove):
        s, number, moved = self.s, 0, 0
        if remove and device not in s.withdrawn and self.rule != 'withdraw-first':
            yield 'withdrawn', device
        while not (remove and self.rule == 'evict-first'):
            number = min((n for n in s.held[device] if n >= number), default=None)
            if number is None:
                break
            frame = Frame(device, number)
            b = None if self.rule == 'lock-page' and not remove else s.other_locker(frame, self.a)
            if b is not None and remove and self.rule != 'wait-for-locked':
                yield Wait('frame', (frame,), (b,))
            elif b is not None:
                yield 'kept', frame, ('locked', b)
                number += 1
            elif not s.users[frame]:
                yield 'drop', frame
                number += 1
            elif (yield from self.catch(*s.lowest_user(frame), frame)):
                number += 1
                if (yield from self.empty(frame, frame)):
                    moved += 1
                elif remove:
                    return 'refused', 3
        if not remove:
            return 'evicted', moved
        return ('refused', 10) if device in s.removed else ('removed', device)
