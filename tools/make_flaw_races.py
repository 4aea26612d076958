#!/usr/bin/env python3
"""Makes the races that tell apart the drivers of hm_flaws, each of which leaves one rule out.

    tools/make_flaw_races.py    searches the scripts of examples/broken (some ten minutes), writes
                                specs/Told.antt and proofs/ToldApart.antt of crates/hm_flaws; then run rt fmt there,
                                and prove it

For each script and rule it takes the shortest race, as tools/broken_drivers.py finds it, if that is short. In each race
it says what every driver comes to in the same turns: the part of legality that it breaks and after how many entries, or
that nobody can go on. For each driver it chooses few races that tell it from all others. The prover computes the same
from the definitions (law `drivers_are_told_apart`). So a definition of a driver that is turned into that of another
one, or of the right one, is not proved. What this program and the definitions say is compared by that; nobody has proved this program.
"""
import glob, itertools, os, sys

TOP = os.path.dirname(os.path.dirname(os.path.abspath(__file__)))
sys.path[:0] = [os.path.join(TOP, 'tools'), os.path.join(TOP, 'tools', 'reference')]
import make_rows as rows
import script as scripts
import words as given
from due import Wait
from drivers.laws import Broken
from drivers.race import RULES, Race, search

WRITTEN = os.path.join(TOP, 'crates', 'hm_flaws', 'specs', 'Told.antt')
PROVED = os.path.join(TOP, 'crates', 'hm_flaws', 'proofs', 'ToldApart.antt')
# a race is taken if its search knows at most so many states, and its history has at most so many entries
MOST_STATES, MOST_ENTRIES = 400, 110
# the drivers in the order of crates/hm_flaws/src/flaws.rt
FLAWS = ['NoFlaw', 'NotCompared', 'ComparedNow', 'AllForWrites', 'WalksUnlocked', 'AnyDevice', 'BegunAnyway',
         'BegunLast', 'SequenceLeft', 'TableLeft', 'FirstErased', 'ErasedAtEnd', 'OwnIgnored', 'OwnSequenceLeft',
         'OwnTableLeft', 'UsedDetached', 'ReadsWritten', 'DetachedAtOnce', 'PartCopied', 'NotCleared', 'LostAsMoved',
         'OwnForWrites', 'OwnAnyway', 'LostHeld', 'WithdrawnTaken', 'RemovedAtOnce', 'NotWithdrawn', 'LockedPassed',
         'SoleAnyway', 'AddedAnyway', 'ToldLast', 'EndedAtOnce', 'ForkedWhole', 'ReplacedAnyway', 'DeviceAccessed',
         'OthersLeft', 'FrozenLate', 'FreshAnyway', 'FreshForWrites', 'BackForWrites', 'LockedTaken', 'NotPutBack',
         'UnnamedHeld']
HEAD = '''-- What drivers come to in the same turns, as far as it tells them apart. tools/make_flaw_races.py writes this file.
use Rattle.std.specs.Prelude.{◌≡◌, ℕ, true, false, Some, None, List, [], ◌∷◌, ◌++◌, map, replicate}
use Rattle.hm_base.specs.Program.{Program}
use Rattle.hm_base.specs.declared.ops.Op.{Op}
use Rattle.hm_base.specs.declared.ops.Rights.{Rights}
use Rattle.hm_base.specs.declared.ops.ScheduleLine.{ScheduleLine}
use Rattle.hm_base.specs.declared.ops.Version.{Version}
use Rattle.hm_flaws.specs.declared.flaws.Flaw.{Flaw}
use Rattle.hm_flaws.specs.declared.parts.Part.{Part}
use Rattle.hm_flaws.specs.Races.{ComesTo, broke, did_not, sticks, outcome_by}
'''


def outcome(script, rule, turns):
    """The part that is broken or none, after how many entries, and whether nobody can go on."""
    done, race = [], Race(script, rule, (), False)
    for actor in turns:
        try:
            did = race.step(actor)
        except Broken as part:
            return part.args[0], len(done), False
        if isinstance(did, Wait):
            race = Race(script, rule, tuple(done), False)       # its generator has gone on to the wait
        elif did is not None:
            done.append(actor)
    return None, len(done), is_stuck(script, rule, tuple(done))


def is_stuck(script, rule, done):
    idle = True
    for actor in range(len(script.actors)):
        race = Race(script, rule, done, False)
        idle = idle and race.is_idle(actor)
        try:
            did = race.step(actor)
        except Broken:
            return False
        if did is not None and not isinstance(did, Wait):
            return False
    return not idle


def candidates():
    """The shortest races of all scripts and rules: a name, the script's file, the turns, what each driver comes to, and
    how many entries the set-up has."""
    for path in sorted(glob.glob(os.path.join(TOP, 'examples', 'broken', '*.hmm'))):
        with open(path, 'rb') as file:
            script = scripts.parse(file.read())
        base, before, known = os.path.basename(path)[:-4], len(Race(script, None, (), False).history), set()
        for rule in RULES:
            turns, part, _, _ = search(script, rule, False, MOST_STATES)
            if part is None or turns in known or before + len(turns) > MOST_ENTRIES:
                continue
            known.add(turns)
            yield f'{base}_{len(known)}', path, turns, [outcome(script, other, turns) for other in [None, *RULES]], before


def chosen(races):
    """The races that tell each driver from every other one, as far as one of the races does: for each race that is taken
    the drivers that it is taken for. And the drivers that no race tells from the right one."""
    drivers, taken = range(len(FLAWS)), {}
    for l in drivers:
        others = {k for k in drivers if any(race[3][k] != race[3][l] for race in races)}
        while others:
            def worth(at):
                race = races[at]
                told = sum(race[3][k] != race[3][l] for k in others)
                return told, at in taken, -len(race[2]) - race[4]
            best = max(range(len(races)), key=worth)
            taken.setdefault(best, []).append(l)
            others = {k for k in others if races[best][3][k] == races[best][3][l]}
    alike = [l for l in drivers if l and all(race[3][l] == race[3][0] for race in races)]
    return [(*races[at][:4], drivers) for at, drivers in sorted(taken.items())], alike


def listed(actors):
    """Turns as replicate N A ++ .."""
    runs = [(actor, len(list(group))) for actor, group in itertools.groupby(actors)]
    return ' ++ '.join(f'replicate {count} {actor}' for actor, count in runs)


def said(out):
    part, entries, stuck = out
    if part is not None:
        return f'(broke Part.{part.capitalize()} {entries})'
    return f'(sticks {entries})' if stuck else f'(did_not {entries})'


def program(path):
    """The script as a value of the definitions."""
    with open(path) as file:
        lines = [line.split('#')[0].split() for line in file]
    lines = [line for line in lines if line]
    devices, actors, schedule = [], [], []
    for word, *rest in lines:
        if word == 'device':
            devices.append(rest[1])
        elif word == 'actor':
            actors.append([])
        elif word == 'turns':
            schedule.append(f'ScheduleLine.Run {rest[0]} {rest[1]}')
        elif word in rows.OPERATIONS:
            actors[-1].append(rows.operation(' '.join([word, *rest])))
    frames = next(rest[0] for word, *rest in lines if word == 'frames')
    skip = next((rest[0] for word, *rest in lines if word == 'skip'), '0')
    version = 'Two' if lines[0][1] == '2' else 'One'
    ops = '\n    ∷ '.join('(' + '\n      ∷ '.join([*(f'({op})' for op in actor), '[]']) + ')' for actor in actors)
    return (f'record {{\n  version = Version.{version};\n  frames = {frames};\n  devices = {rows.listed(devices)};\n  skip = {skip};\n'
            f'  actors = {ops}\n    ∷ [];\n  schedule = {rows.listed(schedule)};\n}}')


def text(taken):
    out, laws, programs = [HEAD], [], set()
    for name, path, turns, outs, drivers in taken:
        base = os.path.basename(path)[:-4]
        if base not in programs:
            programs.add(base)
            out.append(f'-- examples/broken/{base}.hmm\nabbrev pub {base}_script : Program\n'
                       f'{base}_script = {program(path)}\n')
        flaws = '\n    ∷ '.join([*(f'Flaw.{FLAWS[l]}' for l in drivers), '[]'])
        values = '\n    ∷ '.join([*(said(outs[l]) for l in drivers), '[]'])
        out.append(f'-- turns after the run of that script\nabbrev pub {name}_turns : List ℕ\n'
                   f'{name}_turns = {listed(turns)}\n')
        out.append(f'-- some drivers\nabbrev pub {name}_flaws : List Flaw\n{name}_flaws = {flaws}\n')
        out.append(f'-- what they come to in these turns\nabbrev pub {name}_outcomes : List ComesTo\n{name}_outcomes = {values}\n')
        laws.append(f'(map (outcome_by {base}_script {name}_turns) {name}_flaws ≡ {name}_outcomes)')
    law = '\n    × '.join(laws)
    out.append(f'-- what these drivers come to in these races\nabbrev pub ToldApart : Type 0\nToldApart = {law}\n')
    return '\n'.join(out)


def write(taken):
    with open(WRITTEN, 'w') as file:
        file.write(text(taken))
    with open(PROVED, 'w') as file:
        file.write('-- What drivers come to, by computation. tools/make_flaw_races.py writes this file.\n'
                   'use Rattle.std.proofs.Common.{refl}\nuse Rattle.hm_flaws.specs.Told.{ToldApart}\n\n'
                   f'pub told_apart : ToldApart\ntold_apart = ({", ".join(["refl"] * len(taken))})\n')


def main():
    given.begin(__doc__)
    taken, alike = chosen(list(candidates()))
    write(taken)
    print(f'{len(taken)} races; drivers that none of them tells from the right one:',
          ' '.join(FLAWS[l] for l in alike) or 'none')


if __name__ == '__main__':
    main()
