#!/usr/bin/env python3
"""A table of what suites.sh has kept: tools/trace/suite_table.py RULE.runs ..

A line for each file, which has the runs of the driver without RULE: in how many of the rule's own runs it was named
(`broken`), in how many it may have been (`maybe`), in how many it did harm; in how many of all runs it was named; in how
many runs all holds were met that had to be; which other rules were named; and whose races were not met.
"""
import collections
import os
import sys

HERE = os.path.dirname(os.path.abspath(__file__))
sys.path.insert(0, HERE)
import suite


def row(path):
    rule = os.path.basename(path).removesuffix('.runs')
    with open(path) as file:
        runs = [x for x in suite.runs_of(file.read()) if x.is_over]
    together = suite.judge(runs)
    suite.harm_of(runs)
    conf = suite.conf_of(os.path.join(HERE, 'test_hmm.conf'))
    mine = [x for x in runs if x.rule == rule]
    said = collections.Counter(x.verdicts.get(rule, 'unseen').split()[0] for x in mine)
    named = sum(x.verdicts.get(rule, '').startswith('broken') for x in runs)
    steered = sum(not x.bad_holds() and x.status == 0 for x in runs)
    others = [x for x, what in together.items() if what.startswith('broken') and x != rule]
    asked = sorted({x.rule for x in runs}, key=list(suite.RACES).index)
    open_ = [x for x in asked if suite.result(x, runs, together, {}, conf)[0] == 'not met']
    names = lambda rules: ', '.join(f'`{x}`' for x in rules) or 'none'
    return (f'| `{rule}` | {said["broken"]} | {said["maybe"]} | {sum(bool(x.harm) for x in mine)} of {len(mine)} '
            f'| {named} of {len(runs)} | {steered} | {names(others)} | {names(open_)} |')


def main(words):
    if {'--help', '-h'} & set(words) or not words:
        print(__doc__.strip())
        return 0 if words else 2
    print('| Driver without | Named | Maybe | Harm | Named in all runs | Steered | Other rules named | Not met |')
    print('|---|---|---|---|---|---|---|---|')
    for path in words:
        print(row(path))
    return 0


if __name__ == '__main__':
    sys.exit(main(sys.argv[1:]))
