#!/usr/bin/env python3
"""Beside Linux itself: runs the kernel's tests, drawn scripts and races in a guest, and prints a table of each.

    linux.py W [all]                        the three tables, as below with what stands in brackets
    linux.py W selftests                    the kernel's own hmm-tests, in the stock kernel
    linux.py W scripts [FIRST COUNT]        drawn scripts of one actor [1 2000]
    linux.py W races [RUNS SECONDS [NAME..]]    races, each at most RUNS times and SECONDS long, half of that with a
                                            slow device [2000 60, all of them]
    linux.py W judge FILE..                 the table of races again, of what guests wrote before
    linux.py names                          whether docs/LINUX.md and the gate's table have the same names

    --keep      also writes what the kernel answered into crates/stored_examples/data/linux
    --hmmrun COMMAND, --hmmraces COMMAND    ask these programs, as "./hmmrun.sh replay" and "./hmmraces.sh 3000000".
                Without them scripts are run by tools/reference, which gives the same reports, and the outcomes are
                those that are kept and that the gate compares with hmmraces.

W is the folder that build.sh filled. Ends with status 1 if something failed, was not answered, or has no name: also if
the kernel stopped in a race in which docs/LINUX.md does not say that it may. Status 2: the words or W are wrong.
"""
import argparse
import os
import re
import sys

import answers
import kernel_tests
import race_runs
import sequential

DATA = os.path.join(answers.TOP, 'crates', 'stored_examples', 'data', 'linux')
BUILT = ('bzImage.stock', 'bzImage.changed', 'base.cpio')
KEPT_SCRIPTS = 100
SLOW = 400              # microseconds that a slow device may wait


def selftests(options):
    files = sorted(os.listdir(os.path.join(DATA, 'selftests')))
    scripts = [name[:-len('.hmm')] for name in files if name.endswith('.hmm')]
    return kernel_tests.show(kernel_tests.run(options.work), scripts)


def scripts(options, first=1, count=2000):
    first, count = int(first), int(count)
    found = sequential.ask(options.work, first, count)
    compared, bad, examples = sequential.compare(found, first, count, options.hmmrun)
    if options.keep:
        sequential.keep(compared, examples, os.path.join(DATA, 'drawn'), KEPT_SCRIPTS)
    return bad


def races(options, runs=2000, seconds=60, *names):
    runs, seconds = int(runs), int(seconds)
    unknown = sorted(set(names) - set(races_to_judge(options)))
    if unknown:
        refuse(f'no outcomes are kept of {" ".join(unknown)}; the races of tools/linux/large need --hmmraces')
    paths, stopped = [], 0
    for number, delay in enumerate((0, SLOW), 1):
        told, unnamed = race_runs.run(options.work, names or race_runs.all_names(), runs // 2, seconds // 2, delay,
                                      options.seed + number)
        paths, stopped = paths + told, stopped + unnamed
    return judge(options, *paths) + stopped


def races_to_judge(options):
    """The races whose outcomes are kept, and those that hmmraces is asked for."""
    large = [name[:-len('.hmm')] for name in os.listdir(race_runs.LARGE)] if options.hmmraces else []
    return race_runs.all_names() + large


def judge(options, *paths):
    names = races_to_judge(options)
    judged, unnamed = race_runs.judge(paths, names, options.hmmraces)
    if options.keep:
        race_runs.keep(judged)
    return unnamed


def refuse(said):
    print(f'linux.py: {said}', file=sys.stderr)
    sys.exit(2)


def all_tables(options):
    return selftests(options) + scripts(options) + races(options)


def names():
    """Prints each name that only one of the page and the gate's table has."""
    with open(os.path.join(answers.TOP, 'docs', 'LINUX.md')) as page:
        told = set(re.findall(r'^\| `([a-z0-9-]+)` \|', page.read(), re.M))
    with open(os.path.join(DATA, 'differences.txt')) as table:
        kept = {line.split(':')[0] for line in table}
    for name in sorted(told ^ kept):
        print(name, 'is only in', 'docs/LINUX.md' if name in told else 'differences.txt')
    print(f'{len(told & kept)} names')
    return len(told ^ kept)


def main():
    if sys.argv[1:] == ['names']:
        return 1 if names() else 0
    parser = argparse.ArgumentParser(description=__doc__, formatter_class=argparse.RawDescriptionHelpFormatter)
    parser.add_argument('work', metavar='W')
    parser.add_argument('what', nargs='?', default='all', choices=['all', 'selftests', 'scripts', 'races', 'judge'])
    parser.add_argument('rest', nargs='*')
    parser.add_argument('--keep', action='store_true')
    parser.add_argument('--seed', type=int, default=0)
    parser.add_argument('--hmmrun', type=str.split)
    parser.add_argument('--hmmraces', type=str.split)
    options = parser.parse_intermixed_args()
    missing = [name for name in BUILT if not os.path.exists(os.path.join(options.work, name))]
    if missing and options.what != 'judge':
        refuse(f'{options.work} has no {missing[0]}: tools/linux/build.sh {options.work} makes it')
    commands = {'all': all_tables, 'selftests': selftests, 'scripts': scripts, 'races': races, 'judge': judge}
    return 1 if commands[options.what](options, *options.rest) else 0


if __name__ == '__main__':
    sys.exit(main())
