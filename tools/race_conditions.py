#!/usr/bin/env python3
"""Whether hmmraces rules on conditions as a second program does, and whether its witnesses are real.

    tools/race_conditions.py [FOLDER] [--races COMMAND] [--run COMMAND]

FOLDER (examples/races) has scripts NAME.hmm, each with a file NAME.conditions beside it, a condition in each line. Each
condition is asked for alone, and then its opposite, which is true if and only if it is false: of `some` it is `none`, of
`none` it is `some`, and of `every` it is `some not ..` for bodies of one literal. The ruling must be that of this program
on the list of outcomes that the command itself writes (which tools/race_outcomes.py compares with every order), the
status 0 or 1 with it, and there must be a witness if and only if one is due. The schedule of each witness is put after
the script's own, and `hmmrun replay` must answer the lines of the witness, for each actor in their order.

COMMANDs are './hmmraces.sh --ready' and './hmmrun.sh --ready replay'; any programs of the same behaviour will do. Ends
with status 1 at the first difference. It is run by hand, outside the gate: all this is proved.
"""
import argparse, os, subprocess, sys

TOP = os.path.dirname(os.path.dirname(os.path.abspath(__file__)))
sys.path.insert(0, os.path.join(TOP, 'tools'))


class Wrong(Exception):
    """What differs."""


def read_body(words):
    """The alternatives of a body, each of literals: whether it is wanted, how often if that is said, and its line."""
    alternatives, wanted, count, line = [[]], True, None, []
    for word in [*words, None]:
        if word in ('and', 'or', None):
            alternatives[-1].append((wanted, count, ' '.join(line)))
            wanted, count, line = True, None, []
            if word == 'or':
                alternatives.append([])
        elif word == 'not' and not line:
            wanted = False
        elif word.isdigit() and not line:
            count = int(word)
        elif word == 'x' and not line:
            pass
        else:
            line.append(word)
    return alternatives


def meets(alternatives, lines):
    def is_there(count, line):
        return line in lines if count is None else lines.count(line) == count
    return any(all(is_there(count, line) == wanted for wanted, count, line in literals) for literals in alternatives)


def holds(condition, outcomes):
    quantifier, *words = condition.split(' ')
    found = [meets(read_body(words), lines) for lines in outcomes]
    return {'some': any(found), 'none': not any(found), 'every': all(found)}[quantifier]


def opposite(condition):
    """A condition that is true if and only if this one is false, if it has one with the same literals."""
    quantifier, *words = condition.split(' ')
    if quantifier in ('some', 'none'):
        return ' '.join(['none' if quantifier == 'some' else 'some', *words])
    if 'and' in words or 'or' in words:
        return None
    return ' '.join(['some', *(words[1:] if words[0] == 'not' else ['not', *words])])


def ask(command, words, script):
    done = subprocess.run([*command, *words], input=script, capture_output=True, text=True)
    return done.returncode, done.stdout


def blocks(text):
    """The outcomes of a text: the lines of the answers, and those of the schedule."""
    found = []
    for line in text.splitlines():
        if line.startswith('outcome '):
            found.append(([], []))
        elif line.startswith('turns '):
            found[-1][1].append(line)
        elif line.startswith('a'):
            found[-1][0].append(line)
    return found


def answers_of(report, skip):
    """The lines of a report's entries after the first so many, without positions, by actor."""
    entries = [line.split(' ', 1) for line in report.split('history\n', 1)[1].splitlines() if line[0].isdigit()]
    by_actor = {}
    for _, line in entries[skip:]:
        by_actor.setdefault(line.split(' ', 1)[0], []).append(line)
    return by_actor


def is_within(lines, entries):
    """Whether the lines stand among the entries in their order."""
    rest = iter(entries)
    return all(any(line == entry or entry.startswith(line + ' ') for entry in rest) for line in lines)


def replay_witness(run, script, lines, schedule):
    status, set_up = ask(run, [], script)
    skip = sum(line[0].isdigit() for line in set_up.split('history\n', 1)[1].splitlines())
    status, report = ask(run, [], script + ''.join(line + '\n' for line in schedule))
    if status != 0 or 'unfinished' in report:
        raise Wrong('the schedule of the witness does not end the race')
    entries = answers_of(report, skip)
    for actor in {line.split(' ', 1)[0] for line in lines}:
        if not is_within([line for line in lines if line.startswith(actor + ' ')], entries.get(actor, [])):
            raise Wrong(f'the witness is not what replay answers for {actor}')


def compare(races, run, script, condition, outcomes):
    """Asks for the condition, and compares. Gives whether it holds."""
    wanted = holds(condition, outcomes)
    status, text = ask(races, ['--expect', condition], script)
    if status != (0 if wanted else 1) or not text.startswith(f'{"holds" if wanted else "fails"} {condition}\n'):
        raise Wrong(f'{condition}: the ruling is status {status}, {text.splitlines()[:1]}')
    witnesses = blocks(text)
    if len(witnesses) != (wanted == condition.startswith('some ')):
        raise Wrong(f'{condition}: {len(witnesses)} witnesses')
    for lines, schedule in witnesses:
        replay_witness(run, script, lines, schedule)
    return wanted, len(witnesses)


def main():
    given = argparse.ArgumentParser(description=__doc__, formatter_class=argparse.RawDescriptionHelpFormatter)
    given.add_argument('folder', nargs='?', default=os.path.join(TOP, 'examples', 'races'))
    given.add_argument('--races', default=f'{TOP}/hmmraces.sh --ready')
    given.add_argument('--run', default=f'{TOP}/hmmrun.sh --ready replay')
    given = given.parse_args()
    races, run = given.races.split(), given.run.split()
    asked = {True: 0, False: 0}
    replayed = 0
    for name in sorted(os.listdir(given.folder)):
        if not name.endswith('.conditions'):
            continue
        stem = os.path.join(given.folder, name.removesuffix('.conditions'))
        with open(stem + '.hmm') as file:
            script = file.read()
        outcomes = [lines for lines, _ in blocks(ask(races, [], script)[1])]
        with open(stem + '.conditions') as file:
            conditions = [it for it in file.read().splitlines() if it.strip() and not it.lstrip().startswith('#')]
        for condition in [it for one in conditions for it in (one, opposite(one)) if it]:
            try:
                held, witnesses = compare(races, run, script, condition, outcomes)
            except Wrong as wrong:
                print(f'{stem}.hmm: {wrong}')
                sys.exit(1)
            asked[held] += 1
            replayed += witnesses
    print(f'{asked[True]} conditions hold and {asked[False]} fail, as is said; {replayed} witnesses were replayed')


if __name__ == '__main__':
    main()
