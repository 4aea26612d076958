#!/usr/bin/env python3
"""Whether the holds that `hmmwithout RULE --holds` tells are sure and needed by a second program.

    tools/holds_runs.py [FILE ..] [--drawn RACES [SEED]] [--most N] [--with COMMAND ..]

Each rule without which a script's race goes wrong is asked for, once with all parts judged and once with answers alone:
of FILEs, or, if none is named, of the scripts of examples/broken; with --drawn, of scripts of two actors, drawn as
tools/race_outcomes.py draws them (from seed 1), until there were RACES such races. The second program is
tools/race_holds.py: by its own searches every order of turns that keeps the holds must go wrong, and without each of
them some order must not; and if no holds are told, the first ones must not be sure by it either. A race is left out, and
counted, if one of the two knows more than N states (300).

COMMAND is './hmmwithout.sh --ready'; any program of the same behaviour will do. Ends with status 1 at the first
difference, whose script is then printed. It is run by hand, outside the gate: what hmmwithout writes is proved.
"""
import argparse, glob, random, re, subprocess, sys

import words as given
import race_holds
import race_outcomes
import script as scripts
from race_holds import Asked, Cut

HOLD = re.compile(r'hold a(\d+) (?:first|after (\w+) (\d+)) until a(\d+) (\w+) (\d+)$')


class Wrong(Exception):
    """What differs."""


def held(line):
    """A line of a hold as race_holds.py has it: the event that is waited for, the actor, and its last event before."""
    actor, word, number, other, until, count = HOLD.match(line).groups()
    after = (int(actor), word, int(number)) if word else None
    return (int(other), until, int(count)), (int(actor), after)


def asked_of(command, text, words):
    ran = subprocess.run([*command, *words], input=text, capture_output=True, text=True)
    if ran.returncode not in (0, 1, 10):
        raise Wrong(f'{" ".join(words)}: status {ran.returncode}: {ran.stderr}')
    return ran.stdout.splitlines()


def rules_that_break(command, text, options):
    """The rules without which the race goes wrong, by the command's own table."""
    lines = asked_of(command, text, ['--all', *options])
    return [line.split()[0] for line in lines if ' after ' in line and 'stuck' not in line]


def race_in(lines):
    """The turns of the race that was written: an actor for each entry."""
    return tuple(int(line.split(maxsplit=2)[1][1:]) for line in lines if re.match(r' *\d+ a\d+ ', line))


def compare_sure(asked, holds):
    if not asked.is_sure(holds):
        raise Wrong('some order that keeps the holds goes right')
    for hold in holds:
        if asked.is_sure([other for other in holds if other != hold]):
            raise Wrong(f'the hold is not needed: {race_holds.said(hold)}')


def compare_none(asked, lines):
    events = asked.events(race_in(lines))
    if asked.is_sure(race_holds.all_holds(events, len(asked.script.actors))):
        raise Wrong('no holds are told, and the first ones are sure')


def compare(command, text, rule, options, most):
    """Whether the two say the same of a race; False if one of them gave up."""
    lines = asked_of(command, text, [rule, '--holds', *options])
    asked = Asked(scripts.parse(text.encode()), rule, '--answers' in options, most)
    if 'holds cut' in lines or lines[-1].endswith(' cut'):
        return False
    try:
        if 'holds none' in lines:
            compare_none(asked, lines)
        else:
            compare_sure(asked, [held(line) for line in lines if line.startswith('hold ')])
    except Cut:
        return False
    except Wrong as why:
        raise Wrong(f'{" ".join([rule, *options])}: {why}') from None
    return True


def races_of(command, text, most):
    for options in (['--most', str(most)], ['--answers', '--most', str(most)]):
        for rule in rules_that_break(command, text, options):
            yield text, rule, options


def races(asked, command):
    """The races to compare: a script's text, a rule and options each."""
    if not asked.drawn:
        for file in asked.files or sorted(glob.glob(f'{race_holds.TOP}/examples/broken/*.hmm')):
            with open(file, encoding='ascii') as script:
                yield from races_of(command, script.read(), asked.most)
        return
    draw = random.Random(asked.drawn[1] if len(asked.drawn) > 1 else 1)
    while True:
        yield from races_of(command, race_outcomes.drawn(draw).decode(), asked.most)


def main():
    given.begin(__doc__)
    words = argparse.ArgumentParser(add_help=False, usage=__doc__)
    words.add_argument('files', nargs='*')
    words.add_argument('--drawn', nargs='+', type=int)
    words.add_argument('--most', type=int, default=300)
    words.add_argument('--with', dest='command', nargs=argparse.REMAINDER)
    asked = words.parse_args()
    command = asked.command or given.ready('hmmwithout')
    agree, gave_up = 0, 0
    for text, rule, options in races(asked, command):
        try:
            same = compare(command, text, rule, options, asked.most)
        except Wrong as why:
            print(text, end='')
            print(f'holds_runs.py: {why}', file=sys.stderr)
            return 1
        agree, gave_up = agree + same, gave_up + (not same)
        if asked.drawn and agree >= asked.drawn[0]:
            break
    print(f'{agree} races have the same holds, {gave_up} were given up')
    return 0


if __name__ == '__main__':
    sys.exit(main())
