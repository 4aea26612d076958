#!/usr/bin/env python3
"""One page of a race that punishes a driver, or the memory manager, if it leaves one rule out.

    ./hmmwithout.sh --quick RULE [--holds] [--answers] RACE.hmm > SHORTEST
    tools/view_broken.py RULE RACE.hmm SHORTEST > page.html

The page is that of hmmview. Its last row is marked, and above it stands which part of legality that row breaks, and
which rule is left out. The turns are those of the race that hmmwithout found; tools/drivers takes them once more, and
must come to the same entries. If SHORTEST has holds, each is an arrow: from the row that an actor waits for to the row
with which it then goes on. Who waits is what such a driver finds. What the state says at a row is what the entries
say, as docs/REPORT.md has it: an entry that the driver should have erased is not shown. Nobody has proved it.
Ends with status 3 if the script is none, and with 1 if SHORTEST is no such race.
"""
import html, json, os, re, sys

import view_page
import words as given
import report as reports
import script as scripts
from drivers.laws import Broken
from drivers.race import RULES, Race, entries
from run import Machine

HERE = os.path.dirname(os.path.abspath(__file__))
# what the last row of a race breaks, by the words of the judge of reports
BREAKS = {
    'answers': 'it reads a byte that its process has not stored, or it should have failed',
    'places': 'a page has a place, or a mirror an entry, that it must not have',
    'frames': 'a frame is locked or freed by one who must not',
    'sequences': 'a sequence is not what it must be',
    'untold': 'an entry is used, or set, of which the mirror was told meanwhile',
    'guarded': 'a place changes outside of an invalidation of its page',
    'kept': 'a page is kept for a reason that is not there',
}


def no_race(why):
    print(f'{given.tool()}: no such race: {why}', file=sys.stderr)
    sys.exit(1)


HOLD = re.compile(r'hold a(\d+) (?:first|after (\w+) (\d+)) until a(\d+) (\w+) (\d+)$')


def race_in(text):
    """The entries that hmmwithout wrote, the part that the last one breaks, the line of what was owed, if there is one,
    and those of its holds; no part if nobody can go on."""
    lines = text.splitlines()
    last = next((at for at, line in enumerate(lines) if line.startswith('breaks ') or line == 'stuck'), None)
    if last is None or not last:
        no_race('it has no line of a part, and none that says stuck')
    owed = next((line.removeprefix('owed ') for line in lines if line.startswith('owed ')), None)
    race = [line for line in lines[:last] if not line.startswith('owed ')]
    part = lines[last].split(' ')[1] if lines[last] != 'stuck' else None
    return race, part, owed, [line for line in lines[last:] if HOLD.match(line)]


def actor_of(line):
    return int(line.split(' ')[1][1:])


def arrow_of(race, start, hold):
    """A hold as rows: the one that is waited for, the one with which the actor goes on, and what it says of them."""
    actor, word, number, other, until, count = HOLD.match(hold).groups()
    at = lambda who, what, nth: [i for i, line in enumerate(race) if line.split(' ')[1:3] == ['a' + who, what]][int(nth) - 1]
    own = at(actor, word, number) if word else -1
    on = next((i for i, line in enumerate(race) if i > own and actor_of(line) == int(actor)), len(race) - 1)
    after = f'after row {start + own}' if word else 'at first'
    return [start + at(other, until, count), start + on, f'a{actor} {after} waits for a{other} {until}, row ']


class Shown:
    """A race whose rows are shown one after the other, by machines of their own: asking what is due moves one on."""

    def __init__(self, script, rule, turns, answers_alone):
        self.script, self.rule, self.turns, self.answers_alone = script, rule, turns, answers_alone
        self.set_up = [actor for actor, _ in self.after(0).history]

    def after(self, count):
        return Race(self.script, self.rule, self.turns[:count], self.answers_alone)

    def standing(self, count, actor):
        race = self.after(count)
        return view_page.standing_word(None if race.is_idle(actor) else race.due(actor)[0])

    def standings(self, count):
        return ' '.join([':', *(self.standing(count, a) for a in range(len(self.script.actors)))])

    def set_up_rows(self):
        """The rows of the set-up, in which all rules are kept."""
        machine = Machine(self.script)
        for at, actor in enumerate(self.set_up):
            yield view_page.standings(self.script, self.set_up[:at])
            yield from row(machine, actor)

    def rows(self):
        for at, actor in enumerate(self.turns):
            yield self.standings(at)
            yield from row(self.after(at), actor)

    def lines(self):
        """The lines of the page. The entry that breaks a part leads to no state, so nothing is due after it."""
        last = self.after(len(self.turns) - 1)
        try:
            last.step(self.turns[-1])
            end = self.standings(len(self.turns))
        except Broken:
            end = ' '.join([':', *('-' for _ in self.script.actors)])
        found = [reports.line(at, *x) for at, x in enumerate(last.history) if x[1][0] in view_page.FINDINGS]
        ends = reports.report(last).split('\nhistory\n', 1)[1].split('\n')[len(last.history):-1]
        return [*scripts.text(self.script).split('\n')[:-1], 'findings', *found, 'rows 0', *view_page.FIRST_CHANGES,
                *self.set_up_rows(), *self.rows(), end, *ends]


def row(machine, actor):
    """The lines of the machine's next entry: the entry, and what it changed."""
    places, state = {p: dict(pages) for p, pages in machine.state.places.items()}, machine.state
    try:
        entry = machine.step(actor)
    except Broken:
        yield reports.line(len(machine.history) - 1, *machine.history[-1])
        return
    yield reports.line(len(machine.history) - 1, actor, entry)
    before = places.get(entry[1], {}).get(entry[2]) if entry[0] == 'place' else None
    yield from view_page.changes(state, actor, entry, before.frame if before else None)


def entries_of(script, rule, turns, answers_alone):
    """The entries that the turns come to; none if one before the last breaks a part that is judged."""
    try:
        return entries(script, rule, turns, answers_alone)
    except Broken:
        return None


def race_of(script, rule, text):
    """The race that hmmwithout wrote, taken once more, the part that its last row breaks, what was owed, and an arrow for
    each of its holds."""
    written, part, owed, holds = race_in(text)
    turns = tuple(actor_of(line) for line in written)
    for answers_alone in (False, True):
        if entries_of(script, rule, turns, answers_alone) == written:
            shown = Shown(script, rule, turns, answers_alone)
            return shown, part, owed, [arrow_of(written, len(shown.set_up), hold) for hold in holds]
    no_race('this driver comes to other entries; was it written of another rule, or of another script?')


def page_text(shown, part, owed, arrows, rule):
    head, tail = view_page.page_parts()
    with open(os.path.join(HERE, 'view_broken.html'), encoding='ascii') as file:
        mark = file.read()
    says = f'breaks {part}: {BREAKS[part]}' if part else 'after it nobody can go on, and an operation has not ended'
    words = f'data-says="{html.escape(says)}" data-rule="{rule}" data-does="{html.escape(RULES[rule])}"'
    if owed:
        at, due = owed.split(' ', 1)
        words += f' data-owed="{at}" data-due="{html.escape(due)}"'
    words += f' data-arrows="{html.escape(json.dumps(arrows))}"'
    mark = mark.replace('<section id="broken"', f'<section id="broken" {words} data-setup="{len(shown.set_up)}"')
    lines = ''.join(line + '\n' for line in shown.lines())
    return head + lines + tail.replace('</body>', mark + '</body>')


def main():
    given.begin(__doc__)
    given.end_with_reader()
    if len(sys.argv) != 4:
        given.refuse('three words are wanted: a rule, a script, and the race that hmmwithout wrote')
    if sys.argv[1] not in RULES:
        given.refuse(f'there is no rule `{sys.argv[1]}`{given.nearest(sys.argv[1], RULES)}')
    rule, race, shortest = sys.argv[1:]
    data = given.data_of([race])
    if b'states ' in data:
        given.refuse(f'the script comes first, and then the race: {rule} {shortest} {race}')
    try:
        script = scripts.parse(data)
    except scripts.Refused as bad:
        print(f'view_broken.py: script line {bad.args[0]}: {bad.args[1]}', file=sys.stderr)
        sys.exit(3)
    shown, part, owed, arrows = race_of(script, rule, given.data_of([shortest]).decode())
    sys.stdout.write(page_text(shown, part, owed, arrows, rule))


if __name__ == '__main__':
    main()
