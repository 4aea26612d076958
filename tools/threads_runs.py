#!/usr/bin/env python3
"""Runs a script from real threads many times, and judges each report.

    tools/threads_runs.py [RUNS] [--script FILE] [--with COMMAND..]

Runs `threads` on the script (FILE, or standard input) so often (200). Each report must be whole (no operation is left
unfinished) and legal, as tools/reference judges it and as the command's own `check` does. How many different reports came is said at the end.

Then it draws as many scripts (from seed 1) whose actors cannot meet in their answers: each maps, stores to and loads
from pages of its own, with frames enough for all. There each actor must have the same answers as under `replay`.

The command is ./hmmrun.sh --ready if none is given: the proved program if it is built, or else the unproved one. Any
program of the same behaviour will do. Ends with status 1 at the first report that is not as it should be, which is then printed. It is run by hand, outside the gate: that the history is
legal and whole is proved.
"""
import argparse, os, random, subprocess, sys

TOP = os.path.dirname(os.path.dirname(os.path.abspath(__file__)))
sys.path[:0] = [os.path.join(TOP, 'tools'), os.path.join(TOP, 'tools', 'reference')]
import report as reports
import words

ANSWERS = 'loaded stored failed mapped unmapped protected refused'.split()
FIRST, APART = 16, 100


def run(command, word, script):
    done = subprocess.run(command + [word], input=script, capture_output=True)
    return done.returncode, done.stdout


def fail(why, report):
    sys.stdout.buffer.write(report)
    print(f'threads_runs.py: {why}', file=sys.stderr)
    sys.exit(1)


def judge(command, status, report):
    """Status 0, no operation left, and legal."""
    if status != 0:
        fail(f'status {status}', report)
    if b'\nunfinished ' in report:
        fail('an operation has not ended', report)
    try:
        reports.check(report)
    except reports.NotLegal as bad:
        fail(f'line {bad.args[0]} is not legal', report)
    code, said = run(command, 'check', report)
    if code != 0 or not said.startswith(b'legal '):
        fail(f'check says {said.decode().strip()}', report)


def repeat(command, script, runs):
    seen = set()
    for _ in range(runs):
        status, report = run(command, 'threads', script)
        judge(command, status, report)
        seen.add(report)
    print(f'{runs} runs of the script: each whole and legal, {len(seen)} different reports')


def apart(draw):
    """A script whose actors have pages of their own in one process."""
    actors = draw.choice([2, 3, 4, 8, 16])
    lines = ['hmm 2', 'frames 200']
    for actor in range(actors):
        first = FIRST + APART * actor
        lines += [f'actor {actor}', f'map 0 {first} 4 rw']
        for _ in range(draw.choice([2, 5, 9])):
            at = (first + draw.randrange(4)) * 4096 + draw.randrange(4096)
            lines.append(draw.choice([f'store 0 {at:#x} {draw.randrange(256):02x}', f'load 0 {at:#x} 1']))
        lines += [f'unmap 0 {first} 4', f'load 0 {first * 4096:#x} 1']
    return ('\n'.join(lines + ['drain']) + '\n').encode()


def answers(report):
    """The answers of each actor, in order, without their positions."""
    told = {}
    for line in report.split(b'\nhistory\n', 1)[1].decode().splitlines():
        words = line.split(' ')
        if len(words) > 2 and words[2] in ANSWERS:
            told.setdefault(words[1], []).append(words[2:])
    return told


def compare(command, runs):
    draw = random.Random(1)
    for _ in range(runs):
        script = apart(draw)
        status, report = run(command, 'threads', script)
        judge(command, status, report)
        if answers(report) != answers(run(command, 'replay', script)[1]):
            fail('an actor has other answers than under `replay`', report)
    print(f'{runs} drawn scripts whose actors cannot meet: the same answers as under `replay`')


def main():
    parse = argparse.ArgumentParser(usage=__doc__)
    parse.add_argument('runs', nargs='?', type=int, default=200)
    parse.add_argument('--script')
    parse.add_argument('--with', dest='command', nargs='+')
    words.begin(__doc__)
    given = parse.parse_args()
    given.command = given.command or words.ready()
    repeat(given.command, words.data_of([given.script] if given.script else []), given.runs)
    compare(given.command, given.runs)


main()
