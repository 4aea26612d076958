#!/usr/bin/env python3
"""A race of the model as holds of the kernel: a shortest race of hmmwithout, or the schedule of an outcome of hmmraces.

    tools/trace/holds_of_race.py --rule RULE SCRIPT [RACE]      RACE is what hmmwithout RULE SCRIPT has written
    tools/trace/holds_of_race.py --outcome N SCRIPT [OUTCOMES]  OUTCOMES is what hmmraces SCRIPT has written
    .. --model HOLDS      in place of a hold at each change of the actor, these: `a0 after runlock 1 waits for a1 told
                          1`, `a1 at first waits for a0 rlock 1`; 1 may be left out. HOLDS may be what hmmwithout
                          RULE --holds SCRIPT has written, which is also a RACE
    .. --us MICROSECONDS  the bound of each hold (100000); of a try it is 30000 at the most

Without RACE or OUTCOMES it reads standard input. Each event of the model has its place in the kernel, or none
(docs/STEER.md). Where the actor changes, from X with entry e to Y with entry f, Y is held where a thread is that has
made its entry before f and not made f, until X is where one comes that has made e. Of several such places those are
taken with which no order of turns is stuck: a thread may be held with a lock that the other needs. A hold after the
first entry that is not due to a right driver is a `try`: a right driver may be late there.

Ends with status 0, 2 if the words are wrong, 3 if the race is none of this script, 4 if a file cannot be read, and 10,
with the reason, if the holds cannot be met.
"""
import argparse
import itertools
import os
import re
import sys

HERE = os.path.dirname(os.path.abspath(__file__))
TOP = os.path.dirname(os.path.dirname(HERE))
sys.path[:0] = [os.path.join(TOP, 'tools'), os.path.join(TOP, 'tools', 'reference'), HERE]
import report as reports
import script as scripts
from due import Wait
from drivers.laws import Broken
from drivers.race import Race

import holds as steering

LINE = re.compile(r'^\s*(\d+) a(\d+) (.*)')
MODEL = re.compile(r'a(\d+) (?:(?:at )?first|after (\w+)(?: (\d+))?) (?:waits for|until) a(\d+) (\w+)(?: (\d+))?')
MOST_CHOICES = 600
HOLD_US, TRY_US = 100_000, 30_000               # a right driver waits for a try to its end
PAGE_AT = 0x200000                              # steer_runs.c: page N of the script lies that many pages further


class NotOfScript(Exception):
    """A line of the race that this script does not have."""


class NotMet(Exception):
    """Why a hold cannot be met."""


# ---- the race: its entries, and of each the operation to which it belongs

class Entry:
    def __init__(self, at, actor, text, operation):
        self.at, self.actor, self.text, self.operation = at, actor, text, operation
        self.word = text.split()[0]


def stepped(race, actor):
    """The text of the entry that a turn adds, or none."""
    try:
        due = race.step(actor)
    except Broken:
        due = race.history[-1][1]
    return None if due is None or isinstance(due, Wait) else reports.entry_text(due)


def entries_of(script, rule, lines):
    """The entries of a race as hmmwithout has written it."""
    race, entries = Race(script, rule, (), True), []
    for line in lines:
        match = LINE.match(line)
        if not match:
            continue
        actor, text = int(match[2]), match[3]
        operation = race.ended[actor]
        if int(match[1]) != len(race.history) or stepped(race, actor) != text:
            raise NotOfScript(line.strip())
        entries.append(Entry(len(entries), actor, text, operation))
    if not entries:
        raise NotOfScript('there is no entry')
    return entries


def entries_of_outcome(script, number, lines):
    """The entries of an outcome's schedule, made by a right driver."""
    entries, race, is_it = [], Race(script, None, (), True), False
    for line in lines:
        words = line.split()
        if words[:1] == ['outcome']:
            is_it = words[1:] == [str(number)]
        elif is_it and words[:1] == ['turns']:
            actor = int(words[1])
            for _ in range(int(words[2])):
                operation, text = race.ended[actor], stepped(race, actor)
                if text:
                    entries.append(Entry(len(entries), actor, text, operation))
    if not entries:
        raise NotOfScript(f'there is no outcome {number}')
    return entries


def first_wrong(script, entries):
    """The first entry that is not due to a right driver; their number if there is none."""
    race = Race(script, None, (), True)
    for entry in entries:
        if stepped(race, entry.actor) != entry.text:
            return entry.at
    return len(entries)


# ---- what a thread does: places, entries, and locks that it takes and gives back

class Thread:
    """The items of an actor in their order: ('P', place, n), ('E', entry), ('L', lock, writes), ('U', lock), and
    ('D', lock) if a lock for writing becomes one for reading."""

    def __init__(self, actor, rule):
        self.actor, self.rule, self.items, self.counts = actor, rule, [], {}
        self.stages = []                        # of a migration, those that are to come
        self.is_looking = self.is_faulting = self.has_walk_lock = False

    def p(self, *places):
        for place in places:
            self.counts[place] = self.counts.get(place, 0) + 1
            self.items.append(('P', place, self.counts[place]))

    def take(self, lock, writes=False):
        self.items.append(('L', lock, writes))

    def give(self, lock):
        self.items.append(('U', lock))

    def e(self, entry):
        self.items.append(('E', entry.at))

    # ---- operations
    def operation(self, word, entries):
        """Its calls of the driver keep the file open; to detach is to close it, which waits for them."""
        self.p('go')
        is_call = word in ('dload', 'dstore', 'todev', 'tosys', 'remove', 'snap')
        if is_call or word == 'detach':
            self.take('file', word == 'detach')
        self.make(word, entries)
        if is_call or word == 'detach':
            self.give('file')
        self.p('done')

    def make(self, word, entries):
        how = {'dload': self.access, 'dstore': self.access, 'load': self.cpu, 'store': self.cpu,
               'todev': self.migration, 'tosys': self.migration, 'detach': self.detach,
               'remove': self.removal}.get(word, self.area)
        how(word, entries)

    def invalidation(self, entry):
        """An entry of an invalidation, or of its guard's body; whether it is one."""
        if entry.word == 'start':
            self.p('start')
            self.e(entry)
        elif entry.word == 'told':
            self.p('tell')
            self.take('driver')
            self.e(entry)
            self.give('driver')
            self.p('told')
        elif entry.word == 'end':
            self.p('end')
            self.e(entry)
            self.p('ended')
        else:
            return False
        return True

    def access(self, word, entries):
        self.is_faulting, self.has_walk_lock = False, False
        self.looks()
        for entry in entries:
            if self.is_looking and entry.word not in ('loaded', 'stored', 'failed'):
                self.give('driver')             # the table does not have it
                self.is_looking = False
            how = {'begin': self.begins, 'rlock': self.walks, 'runlock': self.has_walked, 'set': self.commits,
                   'retry': self.commits, 'loaded': self.has_accessed, 'stored': self.has_accessed,
                   'failed': self.has_accessed}.get(entry.word, self.faults)
            how(entry)

    def looks(self):
        """The driver looks into its table: it has its lock from here on."""
        self.p('look')
        self.take('driver')
        self.p('using')
        self.is_looking = True

    def begins(self, entry):
        is_there = self.rule != 'begin-waits'   # such a driver calls nothing there
        if is_there:
            self.p('seek')
        self.e(entry)
        if is_there:
            self.p('begin')

    def walks(self, entry):
        self.has_walk_lock = self.rule != 'mmap-lock'
        if self.has_walk_lock:
            self.take('mmap')
        self.e(entry)
        self.p('walk')

    def faults(self, entry):
        """What the walk does to a page that does not serve."""
        if not self.is_faulting:
            self.p('fault')
        self.is_faulting = True
        if not self.invalidation(entry):
            self.e(entry)

    def has_walked(self, entry):
        if self.is_faulting:
            self.p('faulted')
        self.p('walked')
        self.e(entry)
        self.is_faulting = False
        self.give_walk_lock()

    def give_walk_lock(self):
        if self.has_walk_lock:
            self.give('mmap')
        self.has_walk_lock = False

    def commits(self, entry):
        self.p('commit')
        self.take('driver')
        self.e(entry)
        if entry.word == 'set':
            self.p('set')
        self.give('driver')
        if entry.word == 'set':
            self.looks()

    def has_accessed(self, entry):
        self.e(entry)
        if self.is_looking:
            self.p('use')
            self.give('driver')
        self.give_walk_lock()

    def cpu(self, word, entries):
        for entry in entries:
            if entry.word == 'rlock':
                self.take('mmap')
                self.e(entry)
                self.p('fault')
            elif entry.word == 'runlock':
                self.p('faulted')
                self.e(entry)
                self.give('mmap')
            elif not self.invalidation(entry):
                self.e(entry)

    def area(self, word, entries):
        has_lock = False
        for entry in entries:
            if entry.word == 'wlock':
                self.take('mmap', True)
                has_lock = True
                self.e(entry)
                if word == 'unmap':             # Linux downgrades it then
                    self.items.append(('D', 'mmap'))
            elif not self.invalidation(entry):
                self.e(entry)
        if has_lock:
            self.give('mmap')

    def until_stage(self, stage):
        """A migration goes on to this stage."""
        while self.stages and stage in self.stages:
            now = self.stages.pop(0)
            if now == 'look':
                self.p('look')
                self.take('driver')
            elif now == 'looked':
                self.give('driver')
            else:
                self.p(now)
            if now == stage:
                return

    def migration(self, word, entries):
        self.stages = ['ready', 'take', 'pages', 'moved', 'look', 'looked', 'finalize', 'finalized']
        for entry in entries:
            how = {'rlock': self.sets_up, 'start': self.migrates, 'told': self.migrates, 'end': self.migrates,
                   'take': self.takes, 'committed': self.moves, 'kept': self.moves, 'place': self.moves,
                   'set': self.sets}.get(entry.word, self.e)
            if entry.word in ('migrated', 'refused'):
                self.until_stage('finalized')
            how(entry)
        if any(x.word == 'rlock' for x in entries) and entries[-1].word in ('migrated', 'refused'):
            self.give('mmap')

    def sets_up(self, entry):
        self.take('mmap')
        self.e(entry)
        self.p('setup')

    def migrates(self, entry):
        """An invalidation: that of the set-up, or that of a fresh page's place."""
        if 'take' not in self.stages:
            self.until_stage('pages')
        self.invalidation(entry)

    def takes(self, entry):
        self.until_stage('ready')
        self.e(entry)
        self.until_stage('take')

    def moves(self, entry):
        if entry.word != 'place' or 'take' not in self.stages:
            self.until_stage('pages')
        if entry.word == 'place' and 'look' not in self.stages:
            self.until_stage('finalize')
        self.e(entry)

    def sets(self, entry):
        self.until_stage('look')
        self.e(entry)
        self.p('set')
        self.until_stage('looked')

    def detach(self, word, entries):
        self.p('remove')
        for entry in entries:
            self.e(entry)
        self.p('removed')

    def removal(self, word, entries):
        for entry in entries:
            if entry.word == 'removed' and self.counts.get('withdrawn'):
                self.p('unplug')
            self.e(entry)
            if entry.word == 'withdrawn':       # the function of that name comes after it
                self.p('withdraw', 'withdrawn', 'evict')
        self.p('gone')


def threads_of(script, entries, rule):
    """A thread for each actor; one that makes no entry in the race comes to its first call."""
    threads = {}
    for actor in range(len(script.actors)):
        threads[actor] = Thread(actor, rule)
        mine = [entry for entry in entries if entry.actor == actor]
        if not mine:
            threads[actor].p('go')
        for operation, group in itertools.groupby(mine, key=lambda entry: entry.operation):
            threads[actor].operation(script.actors[actor][operation][0], list(group))
    return threads


# ---- holds of the model, and the places that they may have

class Wish:
    """Y is held after its entry `after` (none: at first) and before `before`, until X has made the entry `until`."""

    def __init__(self, actor, after, before, until, is_try):
        self.actor, self.after, self.before, self.until, self.is_try = actor, after, before, until, is_try

    def text(self, entries):
        after = 'at first' if self.after is None else 'after ' + numbered(entries, self.after)
        return f'a{self.actor} {after} waits for a{entries[self.until].actor} {numbered(entries, self.until)}'


def numbered(entries, at):
    """An entry's word, and how often it came to its actor."""
    entry = entries[at]
    count = sum(x.actor == entry.actor and x.word == entry.word for x in entries[:at + 1])
    return entry.word + (f' {count}' if count > 1 else '')


def next_of(entries, actor, at):
    """The actor's next entry after this position, or none."""
    return next((x.at for x in entries[at + 1:] if x.actor == actor), None)


def changes(entries, wrong):
    """A wish at each change of the actor."""
    for e, f in zip(entries, entries[1:]):
        if e.actor != f.actor:
            before = next((x.at for x in reversed(entries[:f.at]) if x.actor == f.actor), None)
            yield Wish(f.actor, before, f.at, e.at, e.at >= wrong)


def wishes_of(lines, entries, wrong):
    """The wishes that a file of holds of the model has."""
    for line in lines:
        for match in MODEL.finditer(line):
            actor, word, count, other, until, until_count = match.groups()
            after = None if word is None else position(entries, int(actor), word, int(count or 1))
            target = position(entries, int(other), until, int(until_count or 1))
            before = next_of(entries, int(actor), -1 if after is None else after)
            yield Wish(int(actor), after, before, target, target >= wrong)


def position(entries, actor, word, count):
    found = [x.at for x in entries if x.actor == actor and x.word == word]
    if len(found) < count:
        raise NotOfScript(f'a{actor} has no {word} {count} in this race')
    return found[count - 1]


def places_between(thread, after, before):
    """The places (place, n, whether a lock is held) that the thread comes to after an entry and before another."""
    is_on, locks, found = after is None, set(), []
    for item in thread.items:
        if item[0] == 'L' and item[1] != 'file':
            locks.add(item[1])
        elif item[0] == 'U':
            locks.discard(item[1])
        elif item[0] == 'E':
            if item[1] == before:
                return found
            is_on |= item[1] == after
        elif item[0] == 'P' and is_on:
            found.append((item[1], item[2], bool(locks)))
    return found


def choices(wish, threads, entries, us, given):
    """The holds of the kernel that say what the wish says, the best first, with places that these parameters have."""
    is_there = lambda x: given is None or not steering.PLACES[x[0]] or steering.PLACES[x[0]] in given
    other = threads[entries[wish.until].actor]
    here = list(filter(is_there, places_between(threads[wish.actor], wish.after, wish.before)))
    there = list(filter(is_there, places_between(other, wish.until, next_of(entries, other.actor, wish.until))))
    if not there:                               # no place says that it was made: the last one before it is near
        there = list(filter(is_there, places_between(other, None, wish.until)))[-1:]
    here = [x for x in here[::-1] if not x[2]] + [x for x in here[::-1] if x[2]]
    us = min(us, TRY_US) if wish.is_try else us
    return [steering.Hold(f'a{wish.actor}', place, n, f'a{other.actor}', until, m, us, wish.is_try)
            for place, n, _ in here for until, m, _ in there[:3]]


# ---- whether holds can be met, in every order of turns

class Orders:
    """All orders of turns in which the threads keep the holds."""

    def __init__(self, threads, holds):
        self.actors, self.items = list(threads), [t.items for t in threads.values()]
        self.known, self.stuck, self.ends = set(), [], False
        self.of = {}
        for hold in holds:
            self.of.setdefault((hold.role, hold.place, hold.nth), []).append(hold)

    def has_come(self, state, hold):
        """Is the other one at the place that the hold waits for, or beyond it?"""
        which = self.actors.index(int(hold.other[1:]))
        return any(x[0] == 'P' and x[1:] == (hold.until, hold.until_nth) for x in self.items[which][:state[which]])

    def locks(self, state, which):
        """The locks that a thread has: lock -> whether for writing."""
        has = {}
        for item in self.items[which][:state[which]]:
            if item[0] == 'L':
                has[item[1]] = item[2] or item[1] == 'driver'
            elif item[0] == 'U':
                has.pop(item[1], None)
            elif item[0] == 'D':
                has[item[1]] = False
        return has

    def blocked(self, state, which):
        """What keeps a thread from its next item: a hold, a lock's name, or none."""
        at = state[which]
        if at and self.items[which][at - 1][0] == 'P':
            role = f'a{self.actors[which]}'
            for hold in self.of.get((role, *self.items[which][at - 1][1:]), ()):
                if not self.has_come(state, hold):
                    return hold
        item = self.items[which][at]
        if item[0] == 'L':
            for other in range(len(state)):
                mode = self.locks(state, other).get(item[1]) if other != which else None
                if mode is not None and (mode or item[2] or item[1] == 'driver'):
                    return item[1]
        return None

    def search(self):
        stack = [(0,) * len(self.items)]
        while stack:
            state = stack.pop()
            if state in self.known:
                continue
            self.known.add(state)
            going = [i for i, items in enumerate(self.items) if state[i] < len(items)]
            if not going:
                self.ends = True
                continue
            can = [i for i in going if self.blocked(state, i) is None]
            if not can:
                self.stuck.append([self.blocked(state, i) for i in going])
            for i in can:
                stack.append(state[:i] + (state[i] + 1,) + state[i + 1:])
        return self


def judged(threads, holds):
    """2 if no order is stuck, 1 if some order comes to the end, 0 if none does; and what was stuck."""
    orders = Orders(threads, holds).search()
    return (2 if not orders.stuck else 1 if orders.ends else 0), orders.stuck


def can_be_met(wishes, threads, entries, us, given):
    """The holds of all wishes, of which no order of turns is stuck, or as few as can be."""
    options = []
    for wish in wishes:
        found = choices(wish, threads, entries, us, given)
        if not found:
            raise NotMet(f'{wish.text(entries)}: no place lies there')
        options.append(found)
    best, why = (0, None), []
    for combination in itertools.islice(itertools.product(*options), MOST_CHOICES):
        how, stuck = judged(threads, combination)
        why = why or stuck
        if how > best[0]:
            best = (how, combination)
        if how == 2:
            break
    if not best[1]:
        holds = [x for x in why[0] if isinstance(x, steering.Hold)]
        locks = [x for x in why[0] if isinstance(x, str)]
        raise NotMet('; '.join(x.text() for x in holds) + ' cannot be met'
                     + (f': the {" and the ".join(locks)} lock is held' if locks else ''))
    return list(dict.fromkeys(best[1])), best[0] == 2


# ---- the text

def pages_of(script, entries):
    """The first page of the race and how many there are."""
    spans = [x for actor in script.actors for op in actor for x in op if isinstance(x, scripts.Span)]
    return min(s.first for s in spans), max(s.end for s in spans) - min(s.first for s in spans)


def lines_of(script, entries, holds, is_sure):
    first, count = pages_of(script, entries)
    yield f'pages {PAGE_AT + first:#x} {count}'
    for actor in sorted({x.actor for x in entries}):
        words = {script.actors[actor][x.operation][0] for x in entries if x.actor == actor}
        yield f'call a{actor} {words.pop() if len(words) == 1 else "-"}'
    if not is_sure:
        yield '# in some orders of turns a thread is stuck'
    for hold in holds:
        yield hold.text()


def converted(script, entries, rule, model, us, given=None):
    """The lines of the holds of a race; `given` are the parameters that the module has, or none for all."""
    wrong = first_wrong(script, entries)
    threads = threads_of(script, entries, rule)
    wishes = list(wishes_of(model, entries, wrong) if model is not None else changes(entries, wrong))
    if not wishes:
        return list(lines_of(script, entries, [], True))
    holds, is_sure = can_be_met(wishes, threads, entries, us, given)
    lines = list(lines_of(script, entries, holds, is_sure))
    return [*(f'# {wish.text(entries)}' for wish in wishes), *lines]


def read_script(path):
    with open(path, 'rb') as file:
        return scripts.parse(file.read())


def main():
    ask = argparse.ArgumentParser(description=__doc__, formatter_class=argparse.RawDescriptionHelpFormatter)
    ask.add_argument('--rule')
    ask.add_argument('--outcome', type=int)
    ask.add_argument('--model')
    ask.add_argument('--us', type=int, default=HOLD_US)
    ask.add_argument('script')
    ask.add_argument('race', nargs='?')
    it = ask.parse_args()
    if (it.rule is None) == (it.outcome is None) or not 0 < it.us <= steering.MOST_US:
        ask.error('it needs --rule or --outcome, and at most 100000 microseconds')
    try:
        script = read_script(it.script)
        with open(it.race) if it.race else os.fdopen(0) as file:
            lines = file.read().splitlines()
        model = None
        if it.model:
            with open(it.model) as file:
                model = file.read().splitlines()
        rule = None if it.rule in (None, 'right') else it.rule
        entries = entries_of(script, rule, lines) if it.rule else entries_of_outcome(script, it.outcome, lines)
        print(*converted(script, entries, rule, model, it.us), sep='\n')
    except OSError as error:
        print(f'holds_of_race.py: {error.filename}: {error.strerror}', file=sys.stderr)
        return 4
    except (NotOfScript, scripts.Refused) as error:
        print(f'holds_of_race.py: not of this script: {error}', file=sys.stderr)
        return 3
    except NotMet as error:
        print(f'holds_of_race.py: {error}', file=sys.stderr)
        return 10
    return 0


if __name__ == '__main__':
    sys.exit(main())
