#!/usr/bin/env python3
"""Runs a script with a driver that leaves a rule out, and says what it did as a trace (docs/TRACE.md).

    tools/protocol/of_driver.py RULE SCRIPT SEED                    actors take turns that are drawn from the number SEED
    tools/protocol/of_driver.py RULE SCRIPT shortest [--answers]    the shortest race, as hmmwithout has it

RULE is a word of docs/BROKEN.md, or `right`. The set-up is the script's schedule, made by a right driver. A drawn race
goes on after the driver has done wrong. Drivers are those of tools/drivers. Nothing of this is proved.
"""
import os
import random
import sys

TOP = os.path.dirname(os.path.dirname(os.path.dirname(os.path.abspath(__file__))))
sys.path[:0] = [os.path.join(TOP, 'tools'), os.path.join(TOP, 'tools', 'reference')]
import of_report
import report as reports
import script as scripts
import words as given
from due import Wait
from drivers.laws import Broken, Laws
from drivers.race import Race, search

MOST = 4000                 # turns of a drawn race


class OfDriver(of_report.Projector):
    """As of a report, but the table, the sequences and the locks are those that the driver has."""

    def __init__(self, actors):
        super().__init__(actors)
        self.state = None

    def copy(self):
        return {f'm{m}': set(table) for m, table in self.state.tables.items()}

    def before(self):
        self.had = self.copy()

    def erased(self, words):
        """What is not in the table any more, and was before the entry."""
        now, gone = self.copy(), []
        for m, pages in self.had.items():
            gone += [(m, page) for page in sorted(pages - now.get(m, set())) if page in self.tables.get(m, ())]
        return gone

    def seq_after(self, words):
        return self.state.mirrors[int(words[1][1:])].seq

    def lock(self, a):
        return 'locked' if a in self.state.map_lock else 'unlocked'


class Onward(Laws):
    """Laws that stop nobody: the race goes on after an entry that breaks one, and the first part is noted."""

    broken = None

    def test(self, *entry):
        try:
            if not self.broken:
                super().test(*entry)
        except Broken as part:
            self.broken = str(part)


class Told(Race):
    """A race that says each entry as it comes."""

    def __init__(self, script, rule, answers):
        self.told = OfDriver(of_report.operations_of(scripts.text(script).splitlines()))
        super().__init__(script, None, (), answers)
        self.laws = Onward(script)
        for actor, entry in self.history:
            self.laws.apply(actor, entry)
        self.state.rule = None if rule == 'right' else rule

    def step(self, actor):
        self.told.state = self.state
        self.told.before()
        count = len(self.history)
        due = super().step(actor)
        if len(self.history) > count:
            self.told.entry(actor, reports.entry_text(self.history[-1][1]).split())
        return due


def drawn(data, rule, seed, answers=False):
    """A race whose turns were drawn."""
    race, chance, waits = Told(scripts.parse(data), rule, answers), random.Random(seed), 0
    actors = list(range(len(race.script.actors)))
    for _ in range(MOST):
        left = [a for a in actors if not race.is_idle(a)]
        if not left or waits > 50:
            break
        actor = chance.choice(left)
        for _ in range(chance.choice([1, 1, 1, 2, 3, 5, 9] if seed % 2 else [1, 1, 1, 2, 8])):
            try:
                did = race.step(actor)
            except Exception:           # a state from which the broken driver cannot go on
                return race
            waits = waits + 1 if isinstance(did, Wait) else 0
            if did is None or isinstance(did, Wait):
                break
    return race


def shortest(data, rule, answers):
    """The shortest race that goes wrong, or none."""
    turns, *_ = search(scripts.parse(data), None if rule == 'right' else rule, answers, 20_000)
    if not turns:
        return None
    race = Told(scripts.parse(data), rule, answers)
    for actor in turns:
        race.step(actor)
    return race


def main():
    given.begin(__doc__)
    if len(sys.argv) not in (4, 5):
        given.refuse('there are three words or four')
    rule, path, how, *more = sys.argv[1:]
    with open(path, 'rb') as file:
        data = file.read()
    race = shortest(data, rule, '--answers' in more) if how == 'shortest' else drawn(data, rule, int(how))
    sys.stdout.write(race.told.text() if race else '')


if __name__ == '__main__':
    main()
