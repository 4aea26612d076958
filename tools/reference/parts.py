"""Which parts of legality an entry breaks after a legal history, each by its definition (docs/JUDGE.md)."""
from script import PAGE_BYTES, one_page
from state import Frame, State

NAMES = 'answers', 'places', 'frames', 'sequences', 'untold', 'guarded', 'kept'
OUTSIDE, UNMAPPED, FORBIDDEN, NO_FRAME = 4, 1, 2, 3
OF_MIRROR = {'attach', 'detach', 'dload', 'dstore', 'todev', 'tosys', 'snap', 'exclusive', 'dadd'}


class NotingState(State):
    """A state that also notes what no step asks for, and the definitions of the parts do."""

    def __init__(self, script):
        super().__init__(script)
        self.been, self.gone = {0}, set()       # processes that were there; mirrors whose detach has answered
        self.committed = {}                     # where a frame was committed to since it was last taken
        self.under = {}                         # of each actor's guard: process, span, mirrors met, mirrors told
        self.short = {}                         # whether an actor was short of a frame
        self.fresh = {}                         # pages that an actor's migration found without a frame
        self.entries = []

    def apply(self, actor, entry):
        self.note(actor, entry)
        super().apply(actor, entry)

    def note(self, actor, entry):
        self.entries.append((actor, entry))
        if entry[0] not in ('place', 'done', 'drop'):
            self.short[actor] = entry[0] == 'kept' and entry[2] == ('noframe',) and self.is_full()
        match entry:
            case ('forked', _, child):
                self.been.add(child)
            case ('detached', m):
                self.gone.add(m)
            case ('committed', frame, to):
                self.committed[frame] = to
            case ('take', frame):
                self.committed.pop(frame, None)
            case ('start', p, span, _):
                self.under[actor] = (p, span, self.overlapping(p, span), [])
            case ('told', m, _, _):
                self.under[actor][3].append(m)
            case ('end', *_):
                del self.under[actor]
            case ('fresh', _, page):
                self.fresh.setdefault(actor, set()).add(page)
            case ('migrated', _):
                self.fresh.pop(actor, None)

    def is_full(self):
        return self.lowest_free(None) is None

    # ---- the plain state
    def owner(self, who):
        """The process of an access, or none where its mirror was never attached."""
        return who[1] if who[0] == 'p' else self.mirrors[who[1]].process if who[1] in self.mirrors else None

    def byte(self, process, address):
        page = self.bytes.get(process, {}).get(address // PAGE_BYTES)
        return page[address % PAGE_BYTES] if page else 0

    def cause(self, who, address, writes):
        page = address // PAGE_BYTES
        if who[0] == 'm' and not self.in_window(who[1], one_page(page)):
            return OUTSIDE
        right = self.right(self.owner(who), page)
        return UNMAPPED if right is None else FORBIDDEN if writes and right == 'r' else None

    def holds(self, who, address, data):
        return all(self.byte(self.owner(who), address + at) == byte for at, byte in enumerate(data))

    def may_fail(self, who, address, cause):
        if cause == NO_FRAME:
            return self.owner(who) is not None and self.right(self.owner(who), address // PAGE_BYTES) is not None
        found = self.cause(who, address, cause == FORBIDDEN)
        return found is not None and found == cause

    def may_change(self, operation):
        return self.is_there(operation[1]) and self.area_refusal(operation) is None

    def meets_answers(self, actor, entry):
        match entry:
            case ('loaded', who, address, data):
                return self.cause(who, address, False) is None and self.holds(who, address, data)
            case ('stored', who, address, _):
                return self.cause(who, address, True) is None
            case ('failed', who, address, _, cause):
                return self.may_fail(who, address, cause)
            case ('fetched', m, address, data):
                who = 'm', m
                return self.cause(who, address, True) is None and len(data) == 1 and self.holds(who, address, data)
            case ('added', m, address, was, _):
                return self.cause(('m', m), address, True) is None and self.holds(('m', m), address, was)
            case ('mapped', p, span, right):
                return self.may_change(('map', p, span, right))
            case ('unmapped', p, span):
                return self.may_change(('unmap', p, span))
            case ('protected', p, span, right):
                return self.may_change(('protect', p, span, right))
            case ('named', p, child):
                return self.is_there(p) and child not in self.given
            case ('forked', p, child):
                return self.is_there(p) and child in self.given - {0} and child not in self.been
            case ('exited', p):
                return self.is_there(p)
            case ('attached', m, _, p, _, _):
                return self.is_there(p) and m not in self.mirrors
            case ('detaching', m, _):
                return self.is_attached(m)
            case ('detached', m):
                return m in self.mirrors and m not in self.gone
        return True

    # ---- places
    def stands_for(self, place):
        """A frame, or 'zero', or none."""
        if place.kind == 'moving':
            return self.committed.get(place.frame, place.frame)
        return 'zero' if place.kind == 'zero' else place.frame

    def has_one_writer(self):
        stands, writes = {}, set()
        for process, pages in self.places.items():
            for page, place in pages.items():
                target = self.stands_for(place)
                if isinstance(target, Frame):
                    stands.setdefault(target, set()).add((process, page))
                    if place.writable:
                        writes.add(target)
        return all(len(stands[frame]) == 1 for frame in writes)

    def with_place(self, process, page, place):
        old = self.places[process].get(page)
        self.places[process][page] = place
        one = self.has_one_writer()
        if old is None:
            del self.places[process][page]
        else:
            self.places[process][page] = old
        return one

    def with_committed(self, frame, to):
        old = self.committed.pop(frame, None)
        if to is not None:
            self.committed[frame] = to
        one = self.has_one_writer()
        self.committed.pop(frame, None)
        if old is not None:
            self.committed[frame] = old
        return one

    def has_frame(self, frame):
        return frame.number in self.held.get(frame.device, ())

    def table_reads(self, m, page):
        if m not in self.mirrors or page not in self.tables[m]:
            return False
        frame, right, _ = self.tables[m][page]
        place = self.place(self.mirrors[m].process, page)
        return right in 'rw' and place.kind != 'excl' and self.stands_for(place) == (frame or 'zero')

    def table_writes(self, m, page):
        return self.table_reads(m, page) and self.tables[m][page][1] == 'w' \
            and self.place(self.mirrors[m].process, page).writable

    def table_sole(self, actor, m, page):
        if m not in self.mirrors or page not in self.tables[m]:
            return False
        frame, right, _ = self.tables[m][page]
        place = self.place(self.mirrors[m].process, page)
        return right == 'x' and place.kind == 'excl' and place.actor == actor and place.frame == frame

    def meets_places(self, actor, entry):
        match entry:
            case ('loaded', ('p', p), address, _):
                return self.place(p, address // PAGE_BYTES).kind in ('zero', 'sys')
            case ('loaded', ('m', m), address, _):
                return self.table_reads(m, address // PAGE_BYTES)
            case ('stored', ('p', p), address, _):
                place = self.place(p, address // PAGE_BYTES)
                return place.kind == 'sys' and place.writable
            case ('stored', ('m', m), address, _):
                return self.table_writes(m, address // PAGE_BYTES)
            case ('fetched', m, address, _) | ('added', m, address, _, _):
                return self.table_sole(actor, m, address // PAGE_BYTES)
            case ('place', p, page, place):
                return (place.frame is None or self.has_frame(place.frame)) and self.with_place(p, page, place)
            case ('committed', frame, to):
                return self.with_committed(frame, to)
            case ('take', frame):
                known = frame.device is None or frame.device < len(self.script.devices)
                return known and self.lowest_free(frame.device) == frame and frame.device not in self.removed \
                    and self.with_committed(frame, None)
            case ('drop', frame):
                return self.has_frame(frame) and not self.users[frame]
            case ('set', m, _, frame, _, _):
                return m in self.mirrors and (frame is None or frame.device in (None, self.mirrors[m].device))
            case ('removed', d):
                return not self.held.get(d)
        return True

    # ---- frames
    def meets_frames(self, actor, entry):
        wants = entry[0] == 'failed' and entry[4] == NO_FRAME or entry == ('refused', NO_FRAME)
        return not wants or self.is_full() or self.short.get(actor, False)

    # ---- sequences
    def is_next_told(self, guard, m):
        p, span, _, told = guard
        met_now = self.overlapping(p, span)
        return all(k < m for k in told) and m in met_now and all(k >= m or k in told for k in met_now)

    def meets_sequences(self, actor, entry):
        guard = self.under.get(actor)
        match entry:
            case ('start', p, span, seq):
                return guard is None and seq == self.seq_started(p, span)
            case ('told', m, span, seq):
                return guard is not None and guard[1] == span and bool(guard[2]) and self.is_next_told(guard, m) \
                    and seq == self.seq[guard[0]]
            case ('end', p, span, seq):
                return guard is not None and guard[:2] == (p, span) and set(guard[2]) <= set(guard[3]) \
                    and seq == self.seq_ended(p)
            case ('attached', _, _, p, _, seq):
                return seq == self.seq_inserted(p)
            case ('detaching', m, seq):
                return m in self.mirrors and self.seq[self.mirrors[m].process] % 2 == 1 and self.in_tree(m) \
                    and seq == self.seq[self.mirrors[m].process]
            case ('detached', m):
                return m in self.mirrors and self.may_leave(m)
            case ('begin', m, seq):
                return m in self.mirrors and seq == self.mirrors[m].seq != self.seq[self.mirrors[m].process]
        return True

    def may_leave(self, m):
        mirror = self.mirrors[m]
        if mirror.stage == 'out':
            return m not in self.gone
        return mirror.stage == 'inserting' or self.seq[mirror.process] % 2 == 0

    # ---- look-ups
    def last(self, test, upto=None):
        entries = self.entries[:upto]
        return next((at for at in range(len(entries) - 1, -1, -1) if test(*entries[at])), None)

    def is_untold(self, m, page):
        at = self.last(lambda _, e: e[:3] == ('set', m, page))
        if at is None:
            return False
        actor, entry = self.entries[at]
        since = entry[5]
        if since != at and since != self.last(lambda a, e: a == actor and e[:2] == ('begin', m), at):
            return False
        return not any(e[:2] == ('told', m) and e[2].has(page) for _, e in self.entries[since + 1:])

    def meets_untold(self, actor, entry):
        match entry:
            case ('loaded' | 'stored', ('m', m), address, _) | ('fetched', m, address, _) | ('added', m, address, _, _):
                return self.is_untold(m, address // PAGE_BYTES)
        return True

    # ---- invalidate before the change
    def meets_guarded(self, actor, entry):
        if entry[0] != 'place' or not loses(self.place(entry[1], entry[2]), entry[3]):
            return True
        guard = self.under.get(actor)
        return guard is not None and guard[0] == entry[1] and guard[1].has(entry[2]) and set(guard[2]) <= set(guard[3])

    # ---- what was kept
    def kept_for(self, actor, operation, what, why):
        to_device, m = operation[0] == 'todev', operation[1] if operation[0] in OF_MIRROR else 0
        p, device = (self.mirrors[m].process, self.mirrors[m].device) if m in self.mirrors else (0, 0)
        if why[0] == 'locked':
            frame = what if isinstance(what, Frame) else self.place(p, what).frame
            return why[1] != actor and self.locker.get(frame) == why[1]
        if why[0] == 'noframe':
            pool = device if to_device else None
            return pool not in self.free or self.lowest_free(pool) is None
        if isinstance(what, Frame):
            return False
        place = self.place(p, what)
        if why[0] == 'nothere':
            if to_device:
                return self.right(p, what) is None or place.kind in ('own', 'moving', 'excl')
            return operation[0] == 'tosys' and not (place.kind == 'own' and place.frame.device == device)
        if why[0] == 'skipped':
            return to_device and self.script.skip != 0 and what % self.script.skip == 0
        return what in self.fresh.get(actor, ()) and place.kind not in ('none', 'zero')

    def meets_kept(self, actor, entry, operation):
        return entry[0] != 'kept' or operation is not None and self.kept_for(actor, operation, *entry[1:])


def loses(old, new):
    """Whether a page that had the old place loses a mapping, its frame, or its write right with the new one."""
    if old.kind == 'none':
        return False
    if old.kind == 'zero':
        return new.kind != 'zero'
    if old.kind == 'moving':
        return new.kind == 'none' or old.writable and not new.writable
    return old.kind == 'excl' or new.kind != old.kind or new.frame != old.frame or old.writable and not new.writable


def broken(state, actor, entry, operation):
    """The names of the parts that an entry which is not due breaks. The operation is the actor's, or none."""
    return ['due'] + [name for name in NAMES if not (
        state.meets_kept(actor, entry, operation) if name == 'kept' else getattr(state, 'meets_' + name)(actor, entry))]
