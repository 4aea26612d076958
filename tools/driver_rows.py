#!/usr/bin/env python3
"""Keeps the last column of docs/BROKEN.md's table of rules in step with docs/DRIVERS.md.

    tools/driver_rows.py            writes the column: for each rule, which drivers of Linux keep it by another means,
                                    and which are suspected not to keep it, with the number of the suspicion
    tools/driver_rows.py --check    writes nothing: names each row that differs (status 1 if one does)
"""
import re, sys
from pathlib import Path

import words as given

TOP = Path(__file__).resolve().parent.parent
TITLE = 'Drivers that do otherwise'


def cells(line):
    return [cell.strip() for cell in line.strip().strip('|').split('|')]


def drivers():
    """Returns, by rule, what each driver does about it, as the table of docs/DRIVERS.md has it."""
    lines = (TOP / 'docs/DRIVERS.md').read_text(encoding='utf-8').split('\n')
    head = next(at for at, line in enumerate(lines) if line.startswith('| Rule | test |'))
    names = cells(lines[head])[1:]
    table = {}
    for line in lines[head + 2:]:
        if not line.startswith('| `'):
            break
        rule, *does = cells(line)
        table[rule.strip('`')] = list(zip(names, does))
    return table


def said(does):
    """Returns the cell of a rule."""
    otherwise = [name for name, letter in does if letter == 'S']
    suspected = [f'{name} {letter[2:]}' for name, letter in does if letter.startswith('B ')]
    parts = []
    if otherwise:
        parts.append('by other means: ' + ', '.join(otherwise))
    if suspected:
        parts.append('suspected: ' + ', '.join(suspected))
    return '; '.join(parts) or '—'


def with_column(text):
    """Returns the page with the column as docs/DRIVERS.md has it."""
    table, rows, within = drivers(), [], False
    for line in text.split('\n'):
        if line.startswith('| RULE | The driver without it |'):
            within = True
            line = '| ' + ' | '.join(cells(line)[:7] + [TITLE]) + ' |'
        elif within and line.startswith('|---'):
            line = '|' + '---|' * 8
        elif within and line.startswith('|'):
            first = [cell.strip() for cell in line.strip()[1:-1].split('|')][:7]
            rule = re.fullmatch(r'`([a-z-]+)`', first[0])
            line = '| ' + ' | '.join(first + [said(table[rule[1]]) if rule else '']) + ' |'
            line = re.sub(r'\|  (?=\|)', '|  ', line)
        else:
            within = False
        rows.append(line)
    return '\n'.join(rows)


def main():
    given.begin(__doc__)
    page = TOP / 'docs/BROKEN.md'
    text = page.read_text(encoding='utf-8')
    new = with_column(text)
    if sys.argv[1:] == ['--check']:
        differ = [cells(old)[0] for old, row in zip(text.split('\n'), new.split('\n')) if old != row]
        if differ:
            print('docs/BROKEN.md says otherwise than docs/DRIVERS.md of', ', '.join(differ))
        return int(bool(differ))
    if sys.argv[1:]:
        given.refuse('one word at most: --check')
    page.write_text(new, encoding='utf-8')
    return 0


if __name__ == '__main__':
    sys.exit(main())
