"""A race in which a rule is left out: the set-up by a right driver, turns, and the search over all orders."""
import os, re

import report as reports
from due import Record, Wait
from run import Machine
from state import NONE, State

from drivers.driver import Driver
from drivers.laws import Broken, Laws
from drivers.world import World

PAGE = os.path.join(os.path.dirname(os.path.abspath(__file__)), '..', '..', 'docs', 'BROKEN.md')


def rules_of(page):
    """What is done without each rule, by its word: of the two tables of the page, a sentence a rule."""
    rules, subject = {}, None
    for line in page:
        cells = [cell.strip() for cell in line.split('|')]
        if cells[1:2] == ['RULE']:
            without = re.fullmatch(r'The (.+) without it', cells[2])
            subject = without and f'the {without[1]}'
        elif len(cells) == 1:
            subject = None
        elif subject and cells[1].startswith('`'):
            rules[cells[1].strip('`')] = f'{subject} {cells[2]}'
    return rules


with open(PAGE, encoding='utf-8') as page:
    RULES = rules_of(page)


class Race(Machine):
    def __init__(self, script, rule, turns, answers_alone):
        super().__init__(script)
        self.answers_alone = answers_alone
        self.laws, self.state = Laws(script), World(script)
        self.state.running = lambda actor: script.actors[actor][self.ended[actor]]
        self.replay()
        self.start = len(self.history)
        self.state.rule = rule
        for actor in turns:
            self.step(actor)

    def due(self, actor):
        if self.running[actor] is None:
            word, *operands = self.script.actors[actor][self.ended[actor]]
            self.running[actor] = getattr(Driver(self.state, actor), word)(*operands)
        try:
            return next(self.running[actor]), False
        except StopIteration as stop:
            return stop.value, True

    def step(self, actor):
        """As Machine.step; an entry that breaks a law is added to the history, and to no state."""
        if self.is_idle(actor):
            return None
        due, ends = self.due(actor)
        if isinstance(due, Wait):
            return due
        self.history.append((actor, due))
        self.laws.test(actor, due, self.script.actors[actor][self.ended[actor]], self.answers_alone)
        self.laws.apply(actor, due)
        self.state.apply(actor, due)
        if ends:
            self.ended[actor] += 1
            self.running[actor] = None
        return due

    # ---- what later turns, and their verdicts, depend on; positions and absolute sequences are no part of it
    def key(self):
        return plain([generator_key(self.state, g) for g in self.running]), self.without_stacks()

    def without_stacks(self):
        return plain((tuple(self.ended), state_key(self.state), state_key(self.laws), self.extras()))

    def extras(self):
        w, x = self.state, self.laws
        untold = [(m, v, x.is_untold(m, v)) for m, v in sorted(x.sets)]
        fresh = [(a, m, [span for at, span in x.told[m] if at > since]) for (a, m), since in sorted(x.begun.items())]
        contents = [(str(f), bytes(data)) for f, data in w.frame_bytes.items() if any(data)]
        return (untold, [(a, m, sorted({v for s in spans for v in range(s.first, min(s.end, s.first + 64))})) for a, m, spans in fresh],
                sorted(contents), sorted((a, v) for a, v in w.late.items()), sorted(x.committed.items(), key=str),
                sorted(x.invalidations.items()), sorted(x.detaching), sorted((a, b) for a, b in x.short.items() if b),
                sorted((a, sorted(v)) for a, v in x.fresh.items() if v))


def state_key(s):
    mirrors = [(m, x.attached, x.stage, x.seq == s.seq[x.process]) for m, x in sorted(s.mirrors.items())]
    tables = [(m, v, e[:2]) for m, t in sorted(s.tables.items()) for v, e in sorted(t.items())]
    places = [(p, v, str(x)) for p, pages in sorted(s.places.items()) for v, x in sorted(pages.items()) if x != NONE]
    data = [(p, v, bytes(b)) for p, pages in sorted(s.bytes.items()) for v, b in sorted(pages.items()) if any(b)]
    return (sorted(s.areas.items()), data, sorted(s.given), mirrors, tables, places,
            [(d is None, d or 0, sorted(n)) for d, n in s.held.items()], sorted(s.withdrawn), sorted(s.removed),
            sorted((p, n % 2) for p, n in s.seq.items() if n % 2), sorted((p, n) for p, n in s.active.items() if n),
            sorted(s.guards.items()), sorted(s.map_lock.items()), sorted(((str(f), a) for f, a in s.locker.items())))


def generator_key(s, generator):
    """Where an actor is: of each of its nested generators the instruction, and the values that it has."""
    key = []
    while generator is not None and getattr(generator, 'gi_frame', None):
        values = dict(generator.gi_frame.f_locals)
        if 'seq' in values and 'who' in values:
            values['seq'] = values['seq'] == s.mirrors[values['who'][1]].seq
        key.append((generator.gi_code.co_name, generator.gi_frame.f_lasti,
                    sorted((name, plain(x)) for name, x in values.items()
                           if name not in ('self', 's', 'since') and (is_plain(x)) and not (name == 'seq' and 'who' not in values))))
        generator = generator.gi_yieldfrom
    return key


def is_plain(x):
    return isinstance(x, (int, str, bytes, tuple, list, Record, type(None))) and not isinstance(x, Wait)


def plain(x):
    if isinstance(x, Record):
        return ('record', x.page, str(x.source), str(x.taken), x.moved)
    if isinstance(x, (tuple, list)):
        return tuple(plain(y) for y in x)
    return x if isinstance(x, (int, str, bytes)) else str(x)


def search(script, rule, answers_alone=False, most=20_000):
    """The shortest race that is lost: its turns and its law; or none. And the number of states, and whether all were seen."""
    actors, front = range(len(script.actors)), [()]
    known, stuck = {Race(script, rule, (), answers_alone).key()}, None
    while front:
        later = []
        for turns in front:
            race = Race(script, rule, turns, answers_alone)
            goes_on = False
            for actor in actors:
                if race is None:
                    race = Race(script, rule, turns, answers_alone)
                try:
                    did = race.step(actor)
                except Broken as part:
                    return turns + (actor,), part.args[0], len(known), True
                if did is None:
                    continue
                if isinstance(did, Wait):
                    race = None         # its generator has gone on to the wait
                    continue
                goes_on = True
                key = race.key()
                if key not in known:
                    known.add(key)
                    later.append(turns + (actor,))
                race = None
            if not goes_on and stuck is None and not all(Race(script, rule, turns, answers_alone).is_idle(a) for a in actors):
                stuck = turns
            if len(known) > most:
                return stuck, 'stuck' if stuck is not None else None, len(known), False
        front = later
    return stuck, 'stuck' if stuck is not None else None, len(known), True


def does_alike(script, rule, turns, actor):
    """Whether a turn after these, in all of which it did so, does what it does with a right driver."""
    one, right = Race(script, rule, turns, True), Race(script, None, turns, True)
    did, due = one.step(actor), right.step(actor)
    if isinstance(did, Wait) or isinstance(due, Wait):
        return isinstance(did, Wait) and isinstance(due, Wait)
    # where the code of an actor is may differ, and a lock that is not taken is left out of this state alone
    return did == due and (rule == 'mmap-lock' or one.without_stacks() == right.without_stacks())


def is_unused(script, rule, most=20_000):
    """Whether it does so in all orders of turns; none if there are too many states."""
    actors, front = range(len(script.actors)), [()]
    known = {Race(script, rule, (), True).key()}
    while front:
        later = []
        for turns in front:
            for actor in actors:
                if not does_alike(script, rule, turns, actor):
                    return False
                race = Race(script, rule, turns, True)
                did = race.step(actor)
                if did is not None and not isinstance(did, Wait) and race.key() not in known:
                    known.add(race.key())
                    later.append(turns + (actor,))
            if len(known) > most:
                return None
        front = later
    return True


def entries(script, rule, turns, answers_alone):
    """The lines of the entries after the set-up that these turns make, the one that breaks a part among them."""
    race = Race(script, rule, turns[:-1], answers_alone)
    try:
        race.step(turns[-1])
    except Broken:
        pass
    return [reports.line(at, *entry) for at, entry in enumerate(race.history)][race.start:]


# ---- what was owed

def finds_history(race):
    """Lets the actors of a race find the state that the history gives, with its bytes, as a right driver's do."""
    world, laws = race.state, race.laws
    for name in vars(State(race.script)):
        setattr(world, name, getattr(laws, name))
    world.rule, world.read_by = None, lambda who, at, count: laws.read(laws.process_of(who), at, count)


def made_by(race, actor):
    """The entry that a turn makes, also if it breaks a part."""
    try:
        return race.step(actor)
    except Broken:
        return race.history[-1][1]


def owed(script, rule, turns, answers_alone):
    """The line of what was due by a right driver where this one first does otherwise; none if it never does.

    Each of these turns makes an entry.
    """
    for done, actor in enumerate(turns):
        made = made_by(Race(script, rule, turns[:done], answers_alone), actor)
        race = Race(script, rule, turns[:done], answers_alone)
        finds_history(race)
        due, _ = race.due(actor)
        if isinstance(due, Wait):
            return f'{len(race.history)} a{actor} waits'
        if due != made:
            return reports.line(len(race.history), actor, due)
    return None
