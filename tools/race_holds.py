#!/usr/bin/env python3
"""A race of a driver without a rule as its few holds: where an actor waits for which event of another one.

    tools/race_holds.py RULE [--answers] [--most N] [FILE]      the holds of the shortest race that goes wrong

A shortest race is a schedule of up to fifty turns. What makes it go wrong is less: a few places at which one actor waits
for another. `a0 after runlock 1 waits for a1 told 1`: if the last event of actor 0 is its first `runlock`, it makes none
until actor 1 has made its first `told`. Events are counted after the set-up. A hold is taken where the race's actor
changes, and at the end the others wait for the event that goes wrong. Then holds are left out, begin later, or wait for
something earlier, as long as **every** order of turns that keeps them goes wrong and none gets stuck. That is looked
up by a whole search of these orders each time; none of the holds that are left can be left out.

The lines can be given to tools/trace/holds_of_race.py --model, which makes holds of a running kernel of them. The last
line says how many states the orders that keep the holds come to. Nobody has proved this: it searches with tools/drivers.
Ends with status 0, 1 if no race goes wrong, 3 if the script is refused, and 10 if a search was cut at more than N states
(20,000).
"""
import argparse, os, sys

TOP = os.path.dirname(os.path.dirname(os.path.abspath(__file__)))
sys.path[:0] = [os.path.join(TOP, 'tools'), os.path.join(TOP, 'tools', 'reference')]
import script as scripts
import words as given
from drivers.laws import Broken
from drivers.race import RULES, Race, search
from due import Wait


class Cut(Exception):
    """A search came to more states than were asked for."""


class Counted(Race):
    """A race whose events after the set-up are counted: of an actor and a word how often, and each actor's last one."""

    def __init__(self, script, rule, turns, answers):
        self.counts, self.last, self.is_counting = {}, {}, False
        super().__init__(script, rule, (), answers)
        self.is_counting = True
        for actor in turns:
            self.step(actor)

    def step(self, actor):
        before = len(self.history)
        try:
            return super().step(actor)
        finally:
            if self.is_counting and len(self.history) > before:
                named = (actor, self.history[-1][1][0])
                self.counts[named] = self.counts.get(named, 0) + 1
                self.last[actor] = (*named, self.counts[named])


class Asked:
    """The script and the rule, and what the searches of held orders found."""

    def __init__(self, script, rule, answers, most):
        self.script, self.rule, self.answers, self.most = script, rule, answers, most

    def race(self, turns):
        return Counted(self.script, self.rule, turns, self.answers)

    def events(self, turns):
        """The events of the race: an actor, a word and a number each. The last one is the one that goes wrong."""
        race, events = self.race(()), []
        for actor in turns:
            try:
                race.step(actor)
            except Broken:
                pass
            events.append(race.last[actor])
        return events

    def key(self, race, holds):
        named = {event[:2] for event, _ in holds} | {after[:2] for _, (_, after) in holds if after}
        counts = tuple(sorted((name, count) for name, count in race.counts.items() if name in named))
        return race.key(), counts, tuple(sorted(race.last.items()))

    def onward(self, turns, race, holds):
        """Where each actor that the holds let go leads: to turns, or None if that goes wrong."""
        for actor in range(len(self.script.actors)):
            if not may_go(race, actor, holds):
                continue
            after = self.race(turns)
            try:
                did = after.step(actor)
            except Broken:
                yield None
                continue
            if did is not None and not isinstance(did, Wait):
                yield turns + (actor,)

    def states(self, holds):
        """The number of states, if every order of turns that keeps the holds goes wrong; None if one does not."""
        known, to_see = set(), [()]
        while to_see:
            turns = to_see.pop()
            race = self.race(turns)
            key = self.key(race, holds)
            if key in known:
                continue
            known.add(key)
            if len(known) > self.most:
                raise Cut
            ways = list(self.onward(turns, race, holds))
            if not ways:
                return None         # ended, or nobody may go on, and nothing went wrong
            to_see += [way for way in ways if way is not None]
        return len(known)

    def is_sure(self, holds):
        return self.states(holds) is not None


def may_go(race, actor, holds):
    """Whether all has come that the actor waits for after its last event."""
    return all(race.counts.get(event[:2], 0) >= event[2] for event, (held, after) in holds
               if held == actor and race.last.get(actor) == after)


def all_holds(events, actors):
    """A hold for each change of the actor; and the others wait, after their last event, for the one that goes wrong."""
    before = lambda at: next((e for e in reversed(events[:at]) if e[0] == events[at][0]), None)
    last = lambda actor: next((e for e in reversed(events) if e[0] == actor), None)
    changes = [(events[at - 1], (events[at][0], before(at))) for at in range(1, len(events))
               if events[at - 1][0] != events[at][0]]
    return changes + [(events[-1], (actor, last(actor))) for actor in range(actors) if actor != events[-1][0]]


def reduced(asked, holds):
    for hold in list(holds):
        rest = [other for other in holds if other != hold]
        if asked.is_sure(rest):
            holds = rest
    return holds


def loosened(asked, holds, events):
    """Each hold begins as late as it can, and waits for an event as early as it can."""
    for at in range(len(holds)):
        event, (actor, after) = holds[at]
        own = [None] + [e for e in events if e[0] == actor]
        others = [e for e in events if e[0] == event[0]]
        later = [(event, (actor, e)) for e in reversed(own[own.index(after) + 1:-1])]
        holds = first_sure(asked, holds, at, later)
        after = holds[at][1][1]
        holds = first_sure(asked, holds, at, [(e, (actor, after)) for e in others[:others.index(event)]])
    return holds


def first_sure(asked, holds, at, trials):
    for trial in trials:
        with_it = holds[:at] + [trial] + holds[at + 1:]
        if asked.is_sure(with_it):
            return with_it
    return holds


def said(hold):
    event, (actor, after) = hold
    name = lambda e: f'{e[1]} {e[2]}'
    return f'a{actor} {"after " + name(after) if after else "at first"} waits for a{event[0]} {name(event)}'


def holds_of(asked):
    turns, part, _, whole = search(asked.script, asked.rule, asked.answers, asked.most)
    if not part or part == 'stuck':
        if not whole:
            raise Cut
        return None
    events = asked.events(turns)
    holds = all_holds(events, len(asked.script.actors))
    if not asked.is_sure(holds):
        return None
    return reduced(asked, loosened(asked, reduced(asked, holds), events))


def main():
    given.begin(__doc__)
    words = argparse.ArgumentParser(usage='tools/race_holds.py RULE [--answers] [--most N] [FILE]', add_help=False)
    words.add_argument('rule')
    words.add_argument('file', nargs='*')
    words.add_argument('--answers', action='store_true')
    words.add_argument('--most', type=int, default=20_000)
    its = words.parse_intermixed_args()
    if its.rule not in RULES:
        given.refuse(f'there is no rule `{its.rule}`{given.nearest(its.rule, RULES)}')
    try:
        asked = Asked(scripts.parse(given.data_of(its.file)), its.rule, its.answers, its.most)
    except scripts.Refused as refused:
        line, reason = refused.args
        print(f'race_holds.py: script line {line}: {reason}', file=sys.stderr)
        return 3
    try:
        holds = holds_of(asked)
        if holds is None:
            print('none')
            return 1
        print(*map(said, holds), f'states {asked.states(holds)} whole', sep='\n')
        return 0
    except Cut:
        print('cut')
        return 10


if __name__ == '__main__':
    sys.exit(main())
