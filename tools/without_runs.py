#!/usr/bin/env python3
"""Whether hmmwithout finds what tools/broken_drivers.py finds: the same part after the same number of entries.

    tools/without_runs.py [FILE ..] [--drawn RUNS [SEED]] [--rules RULE ..] [--most N] [--with COMMAND ..]

Each script is searched for each rule that both programs have, or for those RULEs that are named, once with all parts
judged and once with answers alone: FILEs, or, if none is named, the scripts of examples/broken and those of
examples/races that have a NAME.without; with --drawn, RUNS scripts (from seed 1) of two actors, drawn as
tools/race_outcomes.py draws them. What is found must be the same part of legality, or `stuck`, `none` or `unused`, after
the same number of entries; and each race that is written must have the same `owed`, by the second program. But for rules
that leave out a step beforehand (LATER) that program sees what is owed sooner, and does not see that an actor's own
stack differs: of these `owed` is not compared, nor `none` with `unused`. Where one of the two gave
up at N states (2,000) without finding anything, nothing is compared, and it is counted. The numbers of states are not
compared: the programs tell states apart in different ways.

COMMAND is './hmmwithout.sh --ready'; any program of the same behaviour will do. Ends with status 1 at the first
difference, whose script is then printed. It is run by hand, outside the gate: what hmmwithout writes is proved.
"""
import argparse, glob, os, random, subprocess, sys

TOP = os.path.dirname(os.path.dirname(os.path.abspath(__file__)))
sys.path[:0] = [os.path.join(TOP, 'tools'), os.path.join(TOP, 'tools', 'reference')]
import race_outcomes
import script as scripts
import words as given
from drivers.race import RULES, is_unused, owed, search


# the step is gone from what the actor has before it when an entry before it is made; the second program looks at it late
LATER = {'copy-all', 'drop-lost', 'freeze-others', 'freeze-first', 'set-moved',
         # after a fault in a look-up; hmmjudge, of the same entries, says what hmmwithout says
         'set-sequence'}


class Wrong(Exception):
    """What differs."""


def table_of(command, text, options):
    """What the command's line for each rule says: what was found, and whether all states were."""
    ran = subprocess.run([*command, '--all', *options], input=text, capture_output=True, text=True)
    if ran.returncode not in (0, 1, 10):
        raise Wrong(f'status {ran.returncode}: {ran.stderr}')
    table = {}
    for line in ran.stdout.splitlines():
        rule, rest = line.split(maxsplit=1)
        found, states = rest.split(' states ')
        table[rule] = found, states.endswith(' whole')
    return table


def compare_rule(script, rule, said, answers, most):
    """Whether the second program could be asked, and found the same."""
    found, is_whole = said
    turns, part, _, whole = search(script, None if rule == 'right' else rule, answers, most)
    wanted = f'{part} after {len(turns)}' if part else 'none'
    if not part and rule != 'right' and is_whole and whole:
        is_none = found == 'none' and rule in LATER     # the second program compares no stacks, where these rules differ
        wanted = 'unused' if not is_none and is_unused(script, rule, most) else 'none'
    if found != wanted and is_whole and whole:
        raise Wrong(f'{rule}{" --answers" if answers else ""}: {found}, and {wanted} by tools/broken_drivers.py')
    return found == wanted


def compare_owed(command, text, rule, options):
    """Compares what was owed in the race that the command writes, if it has one."""
    ran = subprocess.run([*command, rule, *options], input=text, capture_output=True, text=True)
    lines = ran.stdout.splitlines()
    turns = tuple(int(line.split(' ')[1][1:]) for line in lines if line[:1].isdigit())
    said = next((line.removeprefix('owed ') for line in lines if line.startswith('owed ')), None)
    due = owed(scripts.parse(text.encode()), rule, turns, '--answers' in options)
    if said != due:
        raise Wrong(f'{" ".join([rule, *options])}: owed {said}, and {due} by tools/broken_drivers.py')


def compare(command, text, rules, most):
    """How many searches for these rules agree, and how many gave up."""
    script, agree, cut = scripts.parse(text.encode()), 0, 0
    for options in ([], ['--answers']):
        table = table_of(command, text, [*options, '--most', str(most)])
        for rule in rules:
            if rule in table:
                same = compare_rule(script, rule, table[rule], bool(options), most)
                agree, cut = agree + same, cut + (not same)
                if ' after ' in table[rule][0] and rule not in LATER:
                    compare_owed(command, text, rule, [*options, '--most', str(most)])
    return agree, cut


def texts(asked):
    if asked.drawn:
        draw = random.Random(asked.drawn[1] if len(asked.drawn) > 1 else 1)
        return [race_outcomes.drawn(draw).decode() for _ in range(asked.drawn[0])]
    punished = [name.removesuffix('without') + 'hmm' for name in glob.glob(f'{TOP}/examples/races/*.without')]
    files = asked.files or sorted(glob.glob(f'{TOP}/examples/broken/*.hmm') + punished)
    return [open(file, encoding='ascii').read() for file in files]


def main():
    given.begin(__doc__)
    words = argparse.ArgumentParser(add_help=False, usage=__doc__)
    words.add_argument('files', nargs='*')
    words.add_argument('--drawn', nargs='+', type=int)
    words.add_argument('--rules', nargs='+', default=['right', *RULES])
    words.add_argument('--most', type=int, default=2_000)
    words.add_argument('--with', dest='command', nargs=argparse.REMAINDER)
    asked = words.parse_args()
    command = asked.command or given.ready('hmmwithout')
    total, gave_up, scripts_read = 0, 0, 0
    for text in texts(asked):
        try:
            agree, cut = compare(command, text, asked.rules, asked.most)
        except Wrong as why:
            print(text, end='')
            print(f'without_runs.py: {why}', file=sys.stderr)
            return 1
        total, gave_up, scripts_read = total + agree, gave_up + cut, scripts_read + 1
    print(f'{scripts_read} scripts: {total} searches find the same, {gave_up} were given up')
    return 0


if __name__ == '__main__':
    sys.exit(main())
