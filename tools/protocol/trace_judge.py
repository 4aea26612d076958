#!/usr/bin/env python3
"""A second judge of traces, beside hmmtrace: written from what the rules mean, and not from their definitions.

    tools/protocol/trace_judge.py [FILE]

Reads a trace (docs/TRACE.md), and writes what hmmtrace writes: a first line, and a line for each rule. It keeps a story
of the whole trace, and asks at its end what each callback, look-up and migration came to; hmmtrace keeps what is known
after each event. It is slow, and nothing of it is proved. The status is 0, or 1 if a rule is broken, or 2 if this is no
trace.
"""
import os
import sys
from collections import defaultdict

sys.path.append(os.path.dirname(os.path.dirname(os.path.abspath(__file__))))
import words as given

RULES = ['compare', 'compare-sequence', 'entry-right', 'mmap-lock', 'own-device', 'begin-waits', 'begin-first',
         'set-sequence', 'erase', 'erase-all', 'erase-in-time', 'own-events', 'own-sequence', 'own-entries',
         'stop-at-detach', 'write-entry', 'detach-waits', 'set-moved', 'set-right', 'set-unless-invalidated',
         'drop-lost', 'take-from-there', 'evict-first', 'withdraw-first', 'wait-for-locked', 'exclusive-waits',
         'look-again']
# what must have been recorded, so that a rule is judged; of `stop-at-detach` one of the two
NEEDS = {'compare': {'set'}, 'compare-sequence': {'set'}, 'set-moved': {'set'}, 'drop-lost': {'free'},
         'take-from-there': {'take'}, 'evict-first': {'take', 'free'}, 'wait-for-locked': {'take', 'free'},
         'set-unless-invalidated': {'set', 'model'}, 'exclusive-waits': {'set', 'model'},
         **{rule: {'set', 'erase'} for rule in ('erase', 'erase-all', 'erase-in-time', 'own-events', 'own-sequence',
                                                'own-entries')}}
# how many fields each word has, the thread and the word left out
FIELDS = {'insert': 5, 'inserted': 3, 'remove': 1, 'removed': 1, 'start': 5, 'end': 3, 'tell': 4, 'told': 3, 'begin': 2,
          'walk': 6, 'found': 4, 'walked': 2, 'set': 4, 'erase': 2, 'use': 4, 'setup': 5, 'from': 3, 'ready': 1,
          'moved': 2, 'stayed': 2, 'pages': 1, 'finalize': 1, 'take': 1, 'free': 1, 'withdraw': 1, 'pass': 1, 'gone': 1,
          'fetch': 2, 'add': 2}
NEVER = float('inf')


class Bad(Exception):
    """This is no trace."""


class Thing:
    """A fact of the trace: whatever is said of it, by name."""

    def __init__(self, **said):
        self.__dict__.update(said)


def device_of_frame(frame):
    """The device of a frame of device memory, private or coherent, or none."""
    return 'd' + frame[1:].split('.')[0] if frame[0] in 'dc' else None


def private_to(frame):
    """The device of a frame of private memory, or none."""
    return device_of_frame(frame) if frame.startswith('d') else None


# ---- reading
def read(text):
    """What was recorded of the driver, the events (number, thread, word, fields), and whether nothing is missing."""
    names, events, is_whole, due = set(), [], True, None
    for at, line in enumerate(text.splitlines(), 1):
        part = line.split('#')[0].split()
        if not part:
            continue
        if part[0] == 'names':
            names = set(part[1:])
        elif part[0] == 'lost' and len(part) == 3:
            is_whole, due = False, (due or 0) + int(part[1])
        elif len(part) < 3 or not part[0].isdigit() or FIELDS.get(part[2]) != len(part) - 3:
            raise Bad(f'line {at}: no event has these words')
        elif due not in (None, int(part[0])):
            raise Bad(f'line {at}: not the next number')
        else:
            is_whole &= due is not None or part[0] == '0'
            due = int(part[0]) + 1
            events.append((int(part[0]), part[1], part[2], part[3:]))
    return names, events, is_whole


class Story:
    """The facts of a trace: intervals, invalidations, look-ups, sets, uses, migrations, in the order of the events."""

    def __init__(self, names, events):
        self.names = names
        self.mirrors = {}                       # interval -> Thing(process, device, removed)
        self.table = defaultdict(dict)          # interval -> page -> Thing of its set
        self.open = []                          # invalidations that have not ended
        self.under = {}                         # thread -> the callback that it is in
        self.looks = {}                         # (thread, interval) -> its look-up
        self.moves = defaultdict(list)          # thread -> its migrations, the inner one last
        self.held = defaultdict(set)            # device -> frames that are taken
        self.withdrawn, self.last_at = {}, defaultdict(int)
        self.walks, self.begins, self.sets, self.tolds, self.uses, self.removals, self.migrations = [], [], [], [], [], [], []
        self.given_up, self.takes, self.ends_of_devices, self.adds, self.erased = [], [], [], [], []
        for at, thread, word, fields in events:
            try:
                getattr(self, 'at_' + word, lambda *_: None)(at, thread, *fields)
            except (ValueError, IndexError):
                raise Bad(f'event {at}: it can not be here') from None
            self.last_at[thread] = at

    # ---- who is asked for
    def mirror(self, m):
        """What is known of an interval."""
        return self.mirrors.setdefault(m, Thing(process=None, device=None, removed=None, remove=None, first=0))

    def telling(self, m):
        """The invalidations under way of which the interval was told, and has answered."""
        return [x for x in self.open if m in x.told and x.told[m].at]

    def is_invalidating(self, m):
        """Whether an invalidation is under way whose sequence the interval has."""
        return any(x.told[m].after == x.told[m].seq for x in self.telling(m))

    # ---- intervals
    def at_insert(self, at, thread, m, process, first, count, device):
        """A new interval: nothing is known of it."""
        self.mirrors[m] = Thing(process=process, device=None if device == '-' else device, removed=None, remove=None,
                                first=int(first))
        self.table[m] = {}
        for key in [k for k in self.looks if k[1] == m]:
            del self.looks[key]

    def at_remove(self, at, thread, m):
        """A removal begins."""
        self.mirror(m).remove = Thing(at=at, telling=self.telling(m))

    def at_removed(self, at, thread, m):
        """A removal has returned."""
        x = self.mirror(m)
        x.removed = at
        self.removals.append(Thing(at=at, m=m, before=x.remove.telling if x.remove else [], telling=self.telling(m)))

    # ---- invalidations
    def at_start(self, at, thread, process, first, count, kind, owner):
        """An invalidation is under way."""
        self.open.append(Thing(at=at, thread=thread, process=process, first=int(first), count=int(count), kind=kind,
                               owner=owner, told={}, ended=NEVER))

    def at_end(self, at, thread, process, first, count):
        """The last invalidation of this thread and span is over."""
        for x in reversed(self.open):
            if (x.thread, x.process, x.first, x.count) == (thread, process, int(first), int(count)):
                x.ended = at
                self.open.remove(x)
                return

    def at_tell(self, at, thread, m, first, count, seq):
        """A callback begins: what the table has in its span."""
        first, count = int(first), int(count)
        inside = next((x for x in reversed(self.open) if x.thread == thread), None)
        had = {page: s for page, s in self.table[m].items() if first <= page < first + count}
        x = Thing(tell=at, at=None, thread=thread, m=m, first=first, count=count, seq=seq, after=None, had=had, left={},
                  of=inside, is_own=False, sure=True, erased_in=set())
        if inside:
            inside.told[m] = x
        self.under[thread] = x

    def at_told(self, at, thread, m, after, answer):
        """It returns: what is left of that."""
        x = self.under.pop(thread, None)
        if not x or x.m != m:
            return
        x.at, x.after, x.sure = at, after, answer == 'done'
        # another callback may have set this very sequence
        x.alone = not any(y.m == m and y.seq == x.seq for y in [*self.tolds, *self.under.values()])
        x.left = {page: s for page, s in x.had.items() if self.table[m].get(page) is s}
        self.tolds.append(x)
        if not x.sure and x.of in self.open:            # it would have had to wait: the invalidation is given up
            x.of.ended = at
            self.open.remove(x.of)

    # ---- look-ups
    def look(self, thread, m):
        """The look-up of a thread in an interval."""
        return self.looks.setdefault((thread, m), Thing(begin=None, seq=None, walked=None, found={}, last=None, facts=[],
                                                        was_set=False))

    def is_given_up(self, at, m, x):
        """Notes a look-up that has walked and set nothing, when the next one begins."""
        if x.walked and x.last == 'walked' and not x.was_set:
            self.given_up.append(Thing(at=at, m=m, begin=x.begin, seq=x.seq, walked=x.walked))

    def at_begin(self, at, thread, m, seq):
        """A look-up has its sequence; the last one may have been given up."""
        x = self.look(thread, m)
        self.is_given_up(at, m, x)
        if x.last == 'walked' and any(fact.itself for fact in x.facts):         # it begins last: that is another rule
            for fact in x.facts:
                fact.wrong = []
        x.facts = []
        x.begin, x.seq, x.last, x.was_set = at, seq, 'begin', False
        before = self.last_at[thread]
        waited = any(before < t.of.ended < at for t in self.tolds if t.m == m and t.of)
        self.begins.append(Thing(at=at, m=m, seq=seq, waited=waited,
                                 wrong=[y for y in self.telling(m) if y.told[m].seq == seq]))

    def at_walk(self, at, thread, m, first, count, seq, lock, owner):
        """A walk with a sequence: that of the begin, or one that the driver has read itself."""
        x = self.look(thread, m)
        itself = x.begin is None or x.seq != seq        # the driver has read the sequence itself, before this line
        if itself:
            self.is_given_up(at, m, x)
            x.begin, x.seq = at, seq
        if itself or x.last == 'begin' or x.was_set:    # one look-up may walk several spans
            x.found = {}
        x.walked, x.was_set = None, False
        if self.mirror(m).device is None and owner != '-':
            self.mirror(m).device = owner
        x.facts.append(Thing(at=at, lock=lock, itself=itself, wrong=[y for y in self.telling(m) if y.told[m].seq == seq]))
        self.walks.append(x.facts[-1])

    def at_found(self, at, thread, m, page, frame, right):
        self.look(thread, m).found[int(page)] = (frame, right)

    def at_walked(self, at, thread, m, answer):
        x = self.look(thread, m)
        x.walked, x.last = (at if answer == 'done' else None), 'walked'

    # ---- the table
    def at_set(self, at, thread, m, page, frame, right):
        """An entry, by a look-up, a migration, or for exclusive use."""
        page, x, moving = int(page), self.look(thread, m), self.moves[thread]
        by = 'look-up'
        if right == 'x':
            by = 'exclusive'
        elif moving and moving[-1].pages and page in (moving[-1].moved | moving[-1].stayed):
            by = 'migration'
        s = Thing(at=at, m=m, page=page, frame=frame, right=right, by=by, begin=x.begin, seq=x.seq,
                  last=x.last, found=x.found.get(page), move=moving[-1] if by == 'migration' else None,
                  is_early=self.is_invalidating(m),
                  removed=self.mirror(m).removed, device=self.mirror(m).device)
        if by == 'look-up':
            x.was_set = True
        if by == 'migration':
            moving[-1].set_pages.add(page)
        self.table[m][page] = s
        self.sets.append(s)

    def at_erase(self, at, thread, m, page):
        """An entry goes; by a callback, if the thread is in one."""
        page = int(page)
        if page in self.table[m]:
            self.erased.append(Thing(at=at, thread=thread, m=m, page=page, what=self.table[m].pop(page),
                                     is_told=thread in self.under))
            if thread in self.under and self.under[thread].m == m:
                self.under[thread].erased_in.add(page)

    def at_use(self, at, thread, m, first, count, right):
        """The entries that the device went through."""
        pages = [self.table[m].get(page) for page in range(int(first), int(first) + int(count))]
        self.uses.append(Thing(at=at, m=m, right=right, entries=pages, removed=self.mirror(m).removed))

    def at_add(self, at, thread, m, page):
        self.adds.append(Thing(at=at, m=m, entry=self.table[m].get(int(page)), removed=self.mirror(m).removed))

    # ---- migrations
    def at_setup(self, at, thread, process, first, count, way, owner):
        """A migration has collected its pages."""
        x = Thing(at=at, thread=thread, way=way, owner=owner, source={}, moved={}, stayed={}, pages=None, ended=None,
                  set_pages=set(), freed=set(), first=int(first), count=int(count), told=[], process=process)
        self.moves[thread].append(x)
        self.migrations.append(x)

    def at_from(self, at, thread, page, frame, right):
        self.moves[thread][-1].source[int(page)] = (frame, right)

    def at_moved(self, at, thread, page, frame):
        self.moves[thread][-1].moved[int(page)] = frame

    def at_stayed(self, at, thread, page, frame):
        self.moves[thread][-1].stayed[int(page)] = frame

    def at_pages(self, at, thread, process):
        if self.moves[thread]:
            self.moves[thread][-1].pages = at

    def at_finalize(self, at, thread, process):
        """A migration is over."""
        if self.moves[thread]:
            x = self.moves[thread].pop()
            x.ended = at

    # ---- a device's frames
    def at_take(self, at, thread, frame):
        """A frame of a device is held."""
        device = device_of_frame(frame)
        self.takes.append(Thing(at=at, frame=frame, withdrawn=self.withdrawn.get(device)))
        if device not in self.withdrawn:            # what is taken later is another rule's
            self.held[device].add(frame)

    def at_free(self, at, thread, frame):
        """It is not any more."""
        self.held[device_of_frame(frame)].discard(frame)
        for x in self.moves[thread]:
            x.freed.add(frame)
        for x in self.withdrawn.values():
            x.freed = x.freed or x.thread == thread

    def at_withdraw(self, at, thread, device):
        self.withdrawn[device] = Thing(at=at, thread=thread, passed=False, freed=False, held=bool(self.held[device]))

    def at_pass(self, at, thread, frame):
        if device_of_frame(frame) in self.withdrawn:
            self.withdrawn[device_of_frame(frame)].passed = True

    def at_gone(self, at, thread, device):
        self.ends_of_devices.append(Thing(at=at, device=device, held=set(self.held[device]),
                                          withdrawn=self.withdrawn.get(device)))

    # ---- what is known at the end
    def is_own(self, told):
        """Whether the interval was told of a migration by its own device."""
        of, device = told.of, self.mirror(told.m).device
        return bool(of) and of.kind == 'migrate' and of.owner != '-' and of.owner == device

    def migration_of(self, told):
        """The migration whose invalidation this was: one that is placing pages, or the next that has collected some."""
        mine = [x for x in self.migrations if x.thread == told.thread
                and x.first < told.first + told.count and told.first < x.first + x.count]
        placing = [x for x in mine if x.at < told.at < (x.pages or NEVER)]
        return placing[-1] if placing else next((x for x in mine if x.at > told.at), None)

    def erased_later(self, told, since=0, until=NEVER, thread=None):
        """The entries that the callback left, and that were erased between these lines, and not by a callback."""
        return {x.page for x in self.erased if x.m == told.m and x.what is told.left.get(x.page) and not x.is_told
                and max(told.at, since) < x.at < until and thread in (None, x.thread)}

    def of_moved(self, told):
        """Of a migration's pages the entries that the callback left; whether they were erased when they were copied.

        What was told after the copy, when fresh pages are placed, says nothing of that."""
        move = self.migration_of(told)
        if not move or not move.pages or move.at < told.at:
            return set(), False, move
        gone = {x.page for x in self.erased if x.m == told.m and x.what is told.left.get(x.page)
                and told.at < x.at < move.pages and (x.is_told or x.thread != told.thread)}
        gone |= {x.page for x in self.sets if x.m == told.m and told.at < x.at < move.pages}
        left = (set(told.left) & set(move.source)) - gone       # what others have erased, or set anew, says nothing
        return left, bool(left) and left <= self.erased_later(told, move.at, move.pages, told.thread), move


# ---- verdicts
def verdict(kept, broken, maybe=()):
    """The first that is wrong, else the first that may be, else how many were right."""
    broken, maybe = sorted(broken), sorted(maybe)
    if broken:
        return 'broken', broken[0]
    if maybe:
        return 'maybe', maybe[0]
    return ('kept', kept) if kept else ('unseen',)


def collisions(s, m, begin, seq, at):
    """What the interval was told between a look-up's begin and this line, if its sequence became another by that."""
    return [t for t in s.tolds if t.m == m and begin is not None and begin < t.at < at and t.sure and t.after != seq]


def compared(s):
    """Look-ups that were set in spite of a collision, during the invalidation and after it; those that were given up."""
    if s.compared is None:
        during, late, given = [], [], []
        for x in s.sets:
            met = collisions(s, x.m, x.begin, x.seq, x.at) if x.by == 'look-up' else ()
            if any(t.of and t.of.ended > x.at for t in met):
                during.append(x.at)
            elif met:
                late.append(x.at)
        for x in s.given_up:
            if met := collisions(s, x.m, x.begin, x.seq, x.at):
                given.append(all(t.of and t.of.ended < x.walked for t in met))
        s.compared = during, late, given
    return s.compared


def compare(s):
    """Sets in spite of a collision, while the invalidation is under way; those after it, if no look-up was given up, may be."""
    during, late, given = compared(s)
    return verdict(len(given), during, () if given else late)


def compare_sequence(s):
    """Sets in spite of a collision after its invalidation has ended, by a driver that gives others up."""
    during, late, given = compared(s)
    if during:
        return verdict(0, ())
    return verdict(sum(given), late if given else (), late)


def entry_right(s):
    """A page that was found read-only is set for writes."""
    asked = [x for x in s.sets if x.by == 'look-up' and x.found and x.found[1] == 'r']
    return verdict(sum(x.right == 'r' for x in asked), [x.at for x in asked if x.right == 'w'])


def mmap_lock(s):
    """A walk while nobody holds the mmap lock."""
    return verdict(len(s.walks), [x.at for x in s.walks if x.lock == 'unlocked'])


def own_device(s):
    """Another device's private frame in the table."""
    asked = [x for x in s.sets if private_to(x.frame) and x.device]
    return verdict(len(asked), [x.at for x in asked if private_to(x.frame) != x.device])


def begin_waits(s):
    """A look-up with the sequence of an invalidation under way."""
    return verdict(sum(x.waited for x in s.begins), [x.at for x in s.begins + s.walks if x.wrong])


def begin_first(s):
    """The sequence is read after the walk."""
    asked = [x for x in s.sets if x.by == 'look-up' and x.last]
    return verdict(len(asked), [x.at for x in asked if x.last == 'begin'])


def set_sequence(s):
    """A callback returns, and the interval has another sequence than it was given."""
    asked = [x for x in s.tolds if x.sure and not (s.is_own(x) and (x.left or not x.had)) and (x.alone or x.after != x.seq)]
    unclear = [x.at for x in s.tolds if x.sure and s.is_own(x) and not x.had and x.after != x.seq]
    return verdict(len(asked), [x.at for x in asked if x.after != x.seq], () if own(s)[0] or own(s)[1] else unclear)


def left_behind(s):
    """Callbacks that left entries: by erasing none, some, or some time later. And how many left none.

    `unclear` may be the first or the second. `early`: the trace ends before it is known which of the three it is;
    `early_all` those of them that may be the second."""
    if s.left_behind:
        return s.left_behind
    none, some, later, kept, many, unclear, early, early_all = [], [], [], 0, 0, [], [], []
    asked = [x for x in s.tolds if x.sure and x.had] if {'set', 'erase'} <= s.names else []
    erases = {x.m for x in asked if x.erased_in & set(x.had)}
    for x in asked:
        if s.is_own(x):
            left, copied, move = s.of_moved(x)
            if x.left and s.erased_later(x, 0, move.at if move else NEVER, x.thread) == set(x.left):
                later.append(x.at)
            elif left and x.after == x.seq and x.alone and not copied:      # not even when they were copied
                (some if x.erased_in else none).append(x.at)
            elif x.left and x.after == x.seq and x.alone and not (move and move.pages):
                early.append(x.at)
        elif not x.left:
            kept, many = kept + 1, many + (len(x.had) > 1)
        elif s.erased_later(x) == set(x.left):
            later.append(x.at)
        elif x.erased_in & set(x.had):
            some.append(x.at)
        elif not x.of or x.of.ended == NEVER:
            early.append(x.at)              # the trace ends before the invalidation does
            if max(x.first, s.mirror(x.m).first) not in x.left:
                early_all.append(x.at)
        elif max(x.first, s.mirror(x.m).first) in x.left:
            none.append(x.at)
        elif x.m in erases:
            some.append(x.at)
        else:
            unclear.append(x.at)
    if later and not some:                  # what was never erased then had no time
        none, unclear = [], []
    if some:
        some, unclear = some + unclear, []
    elif none:
        none, unclear = none + unclear, []
    if none or some or later or unclear:
        early, early_all = [], []
    s.left_behind = none, some, later, unclear, early, early_all, kept, many
    return s.left_behind


def erase(s):
    """A callback leaves all entries."""
    none, some, later, unclear, early, early_all, kept, many = left_behind(s)
    return verdict(kept, none, unclear + early)


def erase_all(s):
    """A callback leaves some entries."""
    none, some, later, unclear, early, early_all, kept, many = left_behind(s)
    return verdict(many, some, unclear + early_all)


def erase_in_time(s):
    """Entries go after the callback has returned."""
    none, some, later, unclear, early, early_all, kept, many = left_behind(s)
    return verdict(kept, later, early)


def own(s):
    """What the driver did when it was told of migrations of its own: lines at which a rule is broken, or may be."""
    if s.own:
        return s.own
    events, sequence, entries, unclear, early, kept = [], [], [], [], [], 0
    none, some, later, *_ = left_behind(s)
    leaves_all = any(x.sure and x.after != x.seq and not (s.is_own(x) and (x.left or not x.had)) for x in s.tolds)
    for x in s.tolds:
        if not x.sure or not s.is_own(x):
            continue
        left, copied, move = s.of_moved(x)
        if x.after == x.seq:
            if not x.left:
                kept += x.alone
            elif x.alone and left and (copied or not (none or some or later)):
                entries.append(x.at)
            elif x.alone and not (move and move.pages) and not (none or some or later):
                early.append(x.at)
        elif leaves_all or x.had and not x.left:
            continue                                    # that is set-sequence
        elif not left or copied and move.way == 'tosys':
            unclear.append(x.at)
        else:
            (sequence if copied else events).append(x.at)
    s.own = events, sequence, entries, unclear, [] if entries else early, kept
    return s.own


def own_events(s):
    """An own migration leaves the sequence, and the entries of moved pages."""
    events, sequence, entries, unclear, early, kept = own(s)
    return verdict(kept, events, () if sequence else unclear)


def own_sequence(s):
    """An own migration leaves the sequence; the entries go when they are copied."""
    events, sequence, entries, unclear, early, kept = own(s)
    return verdict(kept, () if events else sequence, () if events else unclear)


def own_entries(s):
    """An own migration sets the sequence; the entries go when they are copied."""
    events, sequence, entries, unclear, early, kept = own(s)
    return verdict(kept, entries, early)


def stop_at_detach(s):
    """The table is set or used after the removal."""
    after = [x.at for x in s.uses + s.sets + s.adds if x.removed]
    return verdict(len(s.removals) if s.names & {'set', 'use'} else 0, after)


def write_entry(s):
    """A write goes through an entry for reads."""
    asked = [(x.at, e.right) for x in s.uses if x.right == 'w' for e in x.entries if e]
    return verdict(sum(r != 'r' for _, r in asked), [at for at, r in asked if r == 'r'])


def detach_waits(s):
    """A removal returns while the interval is told of an invalidation."""
    return verdict(sum(bool(x.before) for x in s.removals), [x.at for x in s.removals if x.telling])


def set_moved(s):
    """The new frame of a page that stayed is set."""
    asked = [(x, page) for x in s.migrations if x.ended and x.way == 'todev' for page in x.stayed]
    return verdict(sum(page not in x.set_pages for x, page in asked) if 'set' in s.names else 0,
                   [x.at for x in s.sets if x.move and x.page in x.move.stayed])


def set_right(s):
    """A page that was collected read-only is set for writes."""
    asked = [x for x in s.sets if x.move and x.page in x.move.source and x.move.source[x.page][1] == 'r']
    return verdict(sum(x.right == 'r' for x in asked), [x.at for x in asked if x.right == 'w'])


def set_unless_invalidated(s):
    """A moved page is set while the interval is invalidated."""
    asked = [x for x in s.migrations if x.ended and x.way == 'todev' and x.moved and 'set' in s.names]
    return verdict(sum(bool(set(x.moved) - x.set_pages) for x in asked), [x.at for x in s.sets if x.move and x.is_early])


def drop_lost(s):
    """The frame of a page that stayed is not free at the end of the migration."""
    asked = [(x, f) for x in s.migrations if x.ended and x.way == 'todev' for f in x.stayed.values() if 'free' in s.names]
    return verdict(sum(f in x.freed for x, f in asked), [x.ended for x, f in asked if f not in x.freed])


def take_from_there(s):
    """A frame is taken from a device that is withdrawn."""
    return verdict(len(s.withdrawn), [x.at for x in s.takes if x.withdrawn])


def evict_first(s):
    """A device goes with frames held."""
    asked = [x for x in s.ends_of_devices if x.withdrawn and not x.withdrawn.passed]
    return verdict(sum(x.withdrawn.held for x in asked), [x.at for x in asked if x.held])


def withdraw_first(s):
    """A device goes that was not withdrawn."""
    return verdict(len(s.ends_of_devices), [x.at for x in s.ends_of_devices if not x.withdrawn])


def wait_for_locked(s):
    """A device goes with frames that were passed over."""
    asked = [x for x in s.ends_of_devices if x.withdrawn]
    return verdict(sum(x.withdrawn.held for x in asked), [x.at for x in asked if x.held and x.withdrawn.passed])


def exclusive_waits(s):
    """An exclusive page is set while the interval is invalidated."""
    asked = [x for x in s.sets if x.by == 'exclusive']
    return verdict(len(asked), [x.at for x in asked if x.is_early])


def look_again(s):
    """An addition to an entry that was erased."""
    return verdict(len(s.adds), [x.at for x in s.adds if not x.entry or x.entry.right != 'x'])


JUDGES = {rule: globals()[rule.replace('-', '_')] for rule in RULES}


def is_recorded(rule, names):
    """Whether that was recorded which the rule is about."""
    if rule == 'stop-at-detach':
        return bool({'set', 'use'} & names)
    return NEEDS.get(rule, set()) <= names


def judge(text):
    """How many events there are, whether that is all, and each rule with its verdict."""
    names, events, is_whole = read(text)
    story = Story(names, events)
    story.compared = story.left_behind = story.own = None
    said = {rule: JUDGES[rule](story) if is_recorded(rule, names) else ('unseen',) for rule in RULES}
    return len(events), is_whole, said


def main():
    given.begin(__doc__)
    try:
        count, is_whole, said = judge(given.data_of(sys.argv[1:]).decode())
    except Bad as why:
        print(f'{given.tool()}: {why}', file=sys.stderr)
        return 2
    print('events', count, 'whole' if is_whole else 'part')
    for rule, verdict in said.items():
        print(rule, *verdict)
    return int(any(verdict[0] == 'broken' for verdict in said.values()))


if __name__ == '__main__':
    sys.exit(main())
