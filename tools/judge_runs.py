#!/usr/bin/env python3
"""Compares what hmmjudge writes with what tools/reference writes, on spoiled reports.

    tools/judge_runs.py [--count N] [--seed N] PROGRAM REPORT ..

Makes N reports (1,000 unless told) from those given: a third as tools/spoil_reports.py does, a third by the words of
another entry in place of an entry's, and a third by four such changes. The unspoiled ones come first.
PROGRAM is hmmjudge, such as one that `tools/quick_build.sh hmmjudge FILE` has made. It is run with --standing and with
--all. Both must write the same of each report: the line, what is wrong with it, which parts are broken, which line is
nearest, how each actor stands, and what is said of the entries after it. The lines `shows ..` are not compared. Prints
what differs, keeps those reports, and how often each first word and each part came, and ends with 1 if something
differs.
"""
import argparse, collections, os, random, subprocess, sys, tempfile

import words as given
from spoil_reports import change_number, spoiled

TOP = os.path.dirname(os.path.dirname(os.path.abspath(__file__)))
sys.path.append(os.path.join(TOP, 'tools', 'reference'))

from judge import judge


def other_entry(pick, data):
    """The report with the words of another of its entries, or those with one number changed, in place of an entry's."""
    lines = data.splitlines(True)
    if b'history\n' not in lines:
        return data
    entries = [at for at in range(lines.index(b'history\n') + 1, len(lines)) if lines[at][:1].isdigit()]
    if not entries:
        return data
    at, other = pick.choice(entries), pick.choice(entries)
    words, others = lines[at].split(b' '), lines[other].split(b' ')
    if pick.randrange(3) == 0:
        others[1] = words[1]
    if pick.randrange(2) == 0:
        others = others[:2] + change_number(pick, b' '.join(others[2:])).split(b' ')
    return b''.join(lines[:at]) + b' '.join(words[:1] + others[1:]) + b''.join(lines[at + 1:])


def other_entries(pick, data):
    """The report with four such changes."""
    for _ in range(4):
        data = other_entry(pick, data)
    return data


def written(program, word, data):
    """What the program writes of a report, as far as it is compared, and its status."""
    done = subprocess.run([program, word], input=data, stdout=subprocess.PIPE, stderr=subprocess.DEVNULL)
    lines = done.stdout.decode('latin1').splitlines(True)
    return done.returncode, ''.join(line for line in lines if not line.startswith('shows '))


def kind_of(said):
    """What stands in the second line, or that the report is legal."""
    return 'legal' if said[0].startswith('legal ') else said[1].split(' ')[0]


def counted(said):
    """The lines that are counted: the parts that are broken, also of later entries, and how the judging ends."""
    words, also = [], ''
    for text in said:
        word = text.split(' ')[0]
        if word == 'also':
            also = 'also '
        if word in ('breaks', 'nearest', 'judged'):
            words.append(also + text if word == 'breaks' else word)
        if word == 'stops':
            words.append(f'stops {text.split(" ")[2]}')
    return words


def main():
    given.begin(__doc__)
    asked = argparse.ArgumentParser(usage=__doc__)
    asked.add_argument('--count', type=int, default=1000)
    asked.add_argument('--seed', type=int, default=1)
    asked.add_argument('program')
    asked.add_argument('reports', nargs='+')
    asked = asked.parse_args()
    given.need(asked.program)
    pick = random.Random(asked.seed)
    sources = [open(name, 'rb').read() for name in asked.reports]
    room, differing, came = tempfile.mkdtemp(), 0, collections.Counter()
    for number in range(len(sources) + asked.count):
        way = pick.choice([spoiled, other_entry, other_entries]) if number >= len(sources) else lambda pick, data: data
        data = way(pick, pick.choice(sources) if number >= len(sources) else sources[number])
        for word in '--standing', '--all':
            legal, said = judge(data, word == '--all')
            if word == '--all':
                came[kind_of(said)] += 1
                came.update(counted(said))
            wanted = 0 if legal else 1, ''.join(text + '\n' for text in said)
            here = written(asked.program, word, data)
            if here != wanted:
                differing += 1
                name = os.path.join(room, f'{number}.report')
                with open(name, 'wb') as file:
                    file.write(data)
                print(f'{name}: {word}: status {here[0]}, {here[1]!r}, but the reference says {wanted[1]!r}')
    print(', '.join(f'{count} {word}' for word, count in sorted(came.items())))
    print(f'{len(sources) + asked.count} reports, {differing} differences')
    sys.exit(1 if differing else 0)


if __name__ == '__main__':
    main()
