"""What all actors see: a state with the driver's own table and sequences, and frames with bytes."""
from collections import defaultdict

from script import PAGE_BYTES, one_page
from state import State


class Lockers(dict):
    """Who has each frame locked; nobody, if it is not locked: a page may move that nobody brings back."""

    def __missing__(self, frame):
        return None


class Onward(State):
    """A state that goes on after any entry, also after one that breaks a part of legality."""

    def __init__(self, script):
        super().__init__(script)
        self.locker = Lockers()

    def apply(self, actor, entry):
        match entry:
            case ('end', p, span, _):           # the sequence after it is not taken from the entry
                entry = 'end', p, span, self.seq_ended(p)
            case ('drop', frame) if frame.number not in self.held[frame.device]:
                self.length += 1
                self.locker.pop(frame, None)
                return
        super().apply(actor, entry)


class World(Onward):
    """The state that all actors see: the driver's own table and sequences, and frames with bytes."""

    def __init__(self, script, rule=None):
        super().__init__(script)
        self.rule, self.frame_bytes, self.late, self.running = rule, {}, defaultdict(list), None

    def contents(self, frame):
        return self.frame_bytes.setdefault(frame, bytearray(PAGE_BYTES)) if frame else bytes(PAGE_BYTES)

    def target(self, who, page):
        """The frame that an access goes to: that of the place, or of the mirror's entry."""
        if who[0] == 'p':
            return self.place(who[1], page).frame
        return self.tables[who[1]].get(page, (None,))[0]

    def read_by(self, who, at, count):
        offset = at % PAGE_BYTES
        return bytes(self.contents(self.target(who, at // PAGE_BYTES))[offset:offset + count])

    def is_own_event(self, actor, m):
        """An invalidation by a migration of the mirror's own device, also that of a fault that brings a page home."""
        operation, d = self.running(actor), self.mirrors[m].device
        if operation[0] in ('todev', 'tosys'):
            return self.mirrors[operation[1]].device == d and actor not in self.freezing
        return operation[0] not in ('evict', 'remove') and self.caught.get(actor) == d

    freezing, caught = frozenset(), {}

    def apply(self, actor, entry):
        rule = self.rule
        match entry:
            case ('take', frame) if not (rule == 'clear' and frame.device is not None):
                self.frame_bytes.pop(frame, None)
            case ('copied', source, to, part):
                first, last = (0, PAGE_BYTES) if part is None else (512 * part, 512 * part + 512)
                self.contents(to)[first:last] = self.contents(source)[first:last]
                if rule == 'own-events' and source.device is not None or rule in ('own-sequence', 'own-entries'):
                    self.forget(source)         # lib/test_hmm.c erases what it brings home, the two others what they move
            case ('stored', who, at, data):
                frame, offset = self.target(who, at // PAGE_BYTES), at % PAGE_BYTES
                if frame:
                    self.contents(frame)[offset:offset + len(data)] = data
            case ('added', m, at, _, now):
                frame = self.target(('m', m), at // PAGE_BYTES)
                if frame:
                    self.contents(frame)[at % PAGE_BYTES:at % PAGE_BYTES + 1] = now
            case ('told', m, span, seq):
                self.length += 1
                return self.callback(actor, m, span, seq)
            case ('end', *_):
                for m, span in self.late.pop(actor, ()):
                    self.erase(m, span)
            case ('detaching' | 'detached', m, *_) if rule == 'stop-at-detach':
                kept = dict(self.tables[m])
                super().apply(actor, entry)
                self.tables[m].update(kept)
                return
            case ('rlock', _) if rule == 'mmap-lock' and self.running(actor)[0] in ('dload', 'dstore'):
                self.length += 1
                return
        super().apply(actor, entry)

    def erase(self, m, span):
        for page in [v for v in self.tables[m] if span.has(v)]:
            del self.tables[m][page]

    def forget(self, frame):
        for table in self.tables.values():
            for page in [v for v, entry in table.items() if entry[0] == frame]:
                del table[page]

    def callback(self, actor, m, span, seq):
        own = self.rule in ('own-events', 'own-sequence', 'own-entries') and self.is_own_event(actor, m)
        if self.rule != 'set-sequence' and not (own and self.rule != 'own-entries'):
            self.mirrors[m].seq = seq
        if self.rule == 'erase-in-time':
            self.late[actor].append((m, span))
        elif self.rule == 'erase-all':
            self.erase(m, one_page(max(span.first, self.mirrors[m].window.first)))
        elif self.rule != 'erase' and not own:
            self.erase(m, span)
