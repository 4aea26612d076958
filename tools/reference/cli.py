#!/usr/bin/env python3
"""A definitional program: slow, short, and proved by nobody. It makes the reports that tests expect.

    tools/reference/cli.py replay [FILE]      reads a script: the report that hmmrun must write
    tools/reference/cli.py check [FILE]       reads a report: `legal N`, or `bad L` with the first line that is not legal
    tools/reference/cli.py judge [FILE]       reads a report: what hmmjudge --standing must write (docs/JUDGE.md)
    tools/reference/cli.py all [FILE]         reads a report: what hmmjudge --all must write

Reads FILE, or standard input. Messages and statuses are those of hmmrun.
"""
import os, sys

sys.path.append(os.path.dirname(os.path.dirname(os.path.abspath(__file__))))
import words as given

import report as reports
from judge import judge as judged
import script as scripts
from run import Machine

REPORT_BYTES = 268_435_456


def replay(data):
    if len(data) > scripts.SCRIPT_BYTES:
        return 8, 'script too long', ''
    try:
        machine = Machine(scripts.parse(data))
    except scripts.Refused as refused:
        return 3, 'script line {}: {}'.format(*refused.args), ''
    full = machine.replay()
    return (7, 'history full', reports.report(machine)) if full else (0, '', reports.report(machine))


def check(data):
    if len(data) > REPORT_BYTES:
        return 8, 'script too long', ''
    try:
        return 0, '', f'legal {reports.check(data)}\n'
    except reports.NotLegal as bad:
        return 1, 'not legal', f'bad {bad.args[0]}\n'


def judge(data, further=False):
    if len(data) > REPORT_BYTES:
        return 8, 'report too long', ''
    legal, said = judged(data, further)
    return 0 if legal else 1, '' if legal else 'not legal', ''.join(text + '\n' for text in said)


def main():
    given.begin(__doc__)
    words = {'replay': replay, 'check': check, 'judge': judge, 'all': lambda data: judge(data, True)}
    if len(sys.argv) > 1 and sys.argv[1] not in words:
        given.refuse(f'there is no word `{sys.argv[1]}`{given.nearest(sys.argv[1], words)}')
    if not 2 <= len(sys.argv) <= 3:
        status, message, text = 2, 'usage: cli.py replay | check | judge | all', ''
    else:
        status, message, text = words[sys.argv[1]](given.data_of(sys.argv[2:]))
    sys.stdout.write(text)
    if message:
        sys.stderr.write(f'hmmrun: {message}\n')
    sys.exit(status)


if __name__ == '__main__':
    main()
