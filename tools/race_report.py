#!/usr/bin/env python3
"""The whole report of a race that punishes a driver, or the memory manager, if it leaves one rule out.

    ./hmmwithout.sh --quick RULE [--answers] RACE.hmm > SHORTEST
    tools/race_report.py RULE RACE.hmm SHORTEST > RACE.report

The report has the script, the entries of its set-up and those of the race, in the form of docs/REPORT.md: what
`./hmmjudge.sh --quick --all RACE.report` judges entry by entry, and tools/view_bad.py draws. The turns are those of the
race that hmmwithout found; tools/drivers takes them once more, and must come to the same entries. Nobody has proved it.
Ends with status 3 if the script is none, and with 1 if SHORTEST is no such race.
"""
import sys

import words as given
from view_broken import RULES, Broken, race_of, reports, scripts


def report_of(shown):
    """The report of the race, with the entry that breaks a part."""
    last = shown.after(len(shown.turns) - 1)
    try:
        last.step(shown.turns[-1])
    except Broken:
        pass
    return reports.report(last)


def main():
    given.begin(__doc__)
    given.end_with_reader()
    if len(sys.argv) != 4:
        given.refuse('three words are wanted: a rule, a script, and the race that hmmwithout wrote')
    rule, race, shortest = sys.argv[1:]
    if rule not in RULES:
        given.refuse(f'there is no rule `{rule}`{given.nearest(rule, RULES)}')
    try:
        script = scripts.parse(given.data_of([race]))
    except scripts.Refused as bad:
        print(f'race_report.py: script line {bad.args[0]}: {bad.args[1]}', file=sys.stderr)
        sys.exit(3)
    shown, *_ = race_of(script, rule, given.data_of([shortest]).decode())
    sys.stdout.write(report_of(shown))


if __name__ == '__main__':
    main()
