#!/usr/bin/env python3
"""Races from real threads: which of the outcomes that hmmraces lists are seen.

    tools/race_threads.py [RUNS] [NAME..] [--with COMMAND..]

A race is a script NAME.hmm in crates/stored_examples/data/races, whose schedule is the set-up; NAME.outcomes beside it is what
hmmraces writes of it. Runs `race` on each script so often (1,000), or on those that are named. What it prints of each:
how many outcomes are listed, how many of these were seen, in how many runs each, and the runs with an outcome that is
not listed. Each report must begin with the set-up, as `replay` makes it, and leave no operation. Each different report
must be legal, as the command's own `check` says.

The command is ./hmmrun.sh --ready if none is given: the proved program if it is built, or else the unproved one. Any
program of the same behaviour will do. Ends with status 1 if an outcome is not listed or a report is not as it should
be. It is run by hand, outside the gate.
"""
import argparse, collections, os, subprocess, sys

TOP = os.path.dirname(os.path.dirname(os.path.abspath(__file__)))
sys.path[:0] = [os.path.join(TOP, 'tools')]
import race_outcomes
import words as given

FOLDER = os.path.join(TOP, 'crates', 'stored_examples', 'data', 'races')


def races():
    return sorted(name[:-len('.outcomes')] for name in os.listdir(FOLDER) if name.endswith('.outcomes'))


def run(command, word, text):
    done = subprocess.run(command + [word], input=text, capture_output=True)
    if done.returncode != 0:
        raise race_outcomes.Wrong(f'{word}: status {done.returncode}')
    return done.stdout


def entries(report):
    """The entries of a report, without their positions, and the lines after them."""
    lines = report.split(b'\nhistory\n', 1)[1].decode().splitlines()
    told = [line.split(' ', 1)[1] for line in lines if line[0].isdigit()]
    return told, lines[len(told):]


def answers(told):
    """The answers of these entries by actor, as an outcome tells them: of an `attached` its sequence is no part."""
    listed = [line.split() for line in told]
    listed = [line[:-1] if line[1] == 'attached' else line for line in listed if line[1] in race_outcomes.ANSWERS]
    return tuple(' '.join(line) for line in sorted(listed, key=lambda line: int(line[0][1:])))


def outcomes_seen(command, text, runs):
    """Each outcome with the number of its runs, and the different reports."""
    setup, _ = entries(run(command, 'replay', text))
    seen, reports = collections.Counter(), set()
    for _ in range(runs):
        report = run(command, 'race', text)
        told, rest = entries(report)
        if told[:len(setup)] != setup:
            raise race_outcomes.Wrong('a report does not begin with the set-up')
        if rest != [f'end {len(told)}']:
            raise race_outcomes.Wrong('a report leaves an operation')
        seen[answers(told[len(setup):])] += 1
        reports.add(report)
    for report in reports:
        run(command, 'check', report)
    return seen, reports


def judge(command, name, runs):
    """Prints the line of a race. Gives how many outcomes are listed, how many of these were seen, how many are not."""
    with open(os.path.join(FOLDER, name + '.hmm'), 'rb') as script, \
            open(os.path.join(FOLDER, name + '.outcomes'), 'rb') as stored:
        text, listed = script.read(), [tuple(told) for told, _ in race_outcomes.blocks(stored.read())[0]]
    seen, reports = outcomes_seen(command, text, runs)
    counts = [seen[one] for one in listed]
    others = runs - sum(counts)
    print(f'{name:32} {len(listed):3} {sum(map(bool, counts)):3}   {" ".join(map(str, counts)):36} {others:4}'
          f' {len(reports):6}', flush=True)
    for one in seen:
        if one not in listed:
            print('    not listed:', *one, sep='\n    ')
    return len(listed), sum(map(bool, counts)), others


def main():
    given.begin(__doc__)
    parse = argparse.ArgumentParser(usage=__doc__)
    parse.add_argument('runs', nargs='?', type=int, default=1000)
    parse.add_argument('names', nargs='*')
    parse.add_argument('--with', dest='command', nargs='+')
    asked = parse.parse_args()
    command = asked.command or given.ready()
    print(f'{"race":32} listed, seen, runs of each, runs not listed, different reports')
    total = [0, 0, 0]
    for name in asked.names or races():
        total = [a + b for a, b in zip(total, judge(command, name, asked.runs))]
    print('of {} listed outcomes {} were seen; {} runs had another'.format(*total))
    return 1 if total[2] else 0


if __name__ == '__main__':
    try:
        sys.exit(main())
    except race_outcomes.Wrong as why:
        print(f'race_threads.py: {why}', file=sys.stderr)
        sys.exit(1)
