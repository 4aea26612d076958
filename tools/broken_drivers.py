#!/usr/bin/env python3
"""The shortest race that punishes a driver, or the memory manager, if it leaves one rule out.

    tools/broken_drivers.py RULE [--answers] [--most N] [FILE]    the race, and the part of legality that its end breaks
    tools/broken_drivers.py --all [--answers] [--most N] [FILE]   a line for each rule
    tools/broken_drivers.py --rules                               the rules, and what is done without each

The script's schedule is the set-up, in which all rules are kept. From there every actor may take its turn at any time,
and the rule is left out: by the driver, or, if it is one of the memory manager's own, by that. The search goes breadth first over all orders of turns, so the first entry that
breaks a part of legality is the last one of a shortest race. With --answers only answers are judged: the first byte
that is wrong, or the first access that should have failed. `stuck` says that an operation has not ended and nothing is
due to anybody; `none`, with `whole`, that no order of turns lets this driver do wrong in this script. The search gives
up, with `cut`, at more than N states (20,000). `owed` says what a right driver would have done in place of the first
entry that it would not have made there. docs/BROKEN.md has the rules, and the shortest races that were found.

Nobody has proved it: it uses the definitional program in tools/reference. Three of its races are laws of hm_flaws.
Ends with status 1 if a race was found, 10 if the search was cut before.
"""
import argparse, os, sys

TOP = os.path.dirname(os.path.dirname(os.path.abspath(__file__)))
sys.path[:0] = [os.path.join(TOP, 'tools'), os.path.join(TOP, 'tools', 'reference')]
import script as scripts
import words as given
from drivers.race import RULES, entries, owed, search


def asked():
    given.begin(__doc__)
    words = argparse.ArgumentParser(usage='tools/broken_drivers.py RULE | --all [--answers] [--most N] [FILE]',
                                    add_help=False)
    words.add_argument('words', nargs='*')
    words.add_argument('--all', action='store_true')
    words.add_argument('--rules', action='store_true')
    words.add_argument('--answers', action='store_true')
    words.add_argument('--most', type=int, default=20_000)
    return words.parse_intermixed_args()


def script_of(files):
    try:
        return scripts.parse(given.data_of(files))
    except scripts.Refused as refused:
        line, reason = refused.args
        print(f'{given.tool()}: script line {line}: {reason}', file=sys.stderr)
        sys.exit(3)


def line_of_each(script, answers, most):
    for rule in ['right', *RULES]:
        turns, part, states, whole = search(script, None if rule == 'right' else rule, answers, most)
        found = f'{part} after {len(turns)}' if part else 'none'
        print(f'{rule:24}', found, f'states {states}', 'whole' if whole else 'cut')


def race_of(script, rule, answers, most):
    turns, part, states, whole = search(script, rule, answers, most)
    if part:
        print(*entries(script, rule, turns, answers), sep='\n')
        due = owed(script, rule, turns, answers)
        print(*([f'owed {due}'] if due else []), sep='\n', end='\n' if due else '')
    print(f'breaks {part}' if part and part != 'stuck' else part or 'none')
    print(f'states {states}', 'whole' if whole else 'cut')
    sys.exit(1 if part else 0 if whole else 10)


def main():
    it = asked()
    given.end_with_reader()
    if it.rules:
        for rule, does in RULES.items():
            print(f'{rule:24}{does}')
        return
    if it.all:
        return line_of_each(script_of(it.words), it.answers, it.most)
    if not it.words or it.words[0] not in ('right', *RULES):
        word = it.words[0] if it.words else ''
        given.refuse(f'the first word is a rule, `right`, or --all{given.nearest(word, RULES)}')
    race_of(script_of(it.words[1:]), None if it.words[0] == 'right' else it.words[0], it.answers, it.most)


if __name__ == '__main__':
    main()
