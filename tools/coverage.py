#!/usr/bin/env python3
"""What the example scripts cover: kinds of entry, causes, reasons of `kept`, codes of `seen`, and waits.

    tools/coverage.py                 prints a table of each thing and the worked scripts that have it, as in
                                      examples/worked/README.md, and says what no script has
    tools/coverage.py --write         puts that table into examples/worked/README.md

Waits leave no line in a report; they are those of tools/reference, which runs each script once more.
"""
import os, re, sys

TOP = os.path.dirname(os.path.dirname(os.path.abspath(__file__)))
sys.path[:0] = [os.path.join(TOP, 'tools'), os.path.join(TOP, 'tools', 'reference')]
import report as reports
import script as scripts
import words
from run import Machine

WORKED = os.path.join(TOP, 'examples', 'worked')
INDEX = os.path.join(TOP, 'examples', 'worked', 'README.md')
MARK = '<!-- made by tools/coverage.py -->'
CAUSES, FAILURES = range(1, 11), range(1, 5)
REASONS = ('nothere', 'locked', 'noframe', 'skipped', 'lost')
CODES = ('00', '01', '02', '11', '21', '22', '31')
PLACES = ('none', 'zero', 'sys', 'own', 'moving', 'excl')
WAITS = ('lock', 'moving', 'frame', 'invalidating')
SHOWN = 3


def wanted():
    """Everything that a script may cover."""
    return ([f'{kind}' for kind in reports.FIELDS] + [f'refused {c}' for c in CAUSES] + [f'failed {c}' for c in FAILURES]
            + [f'kept {why}' for why in REASONS] + [f'seen {code}' for code in CODES]
            + [f'place {kind}' for kind in PLACES] + [f'wait {why}' for why in WAITS])


def covered(name):
    """What the script of this name covers."""
    with open(os.path.join(WORKED, name + '.hmm'), 'rb') as file:
        machine = Machine(scripts.parse(file.read()))
    machine.replay()
    with open(os.path.join(WORKED, name + '.report')) as file:
        if reports.report(machine) != file.read():
            sys.exit(f'{name}.report is not the report of {name}.hmm')
    found = {f'wait {wait.why}' for _, _, wait in machine.waits}
    for _, entry in machine.history:
        found.add(entry[0])
        last = {'refused': entry[-1], 'failed': entry[-1]}.get(entry[0])
        if last is not None:
            found.add(f'{entry[0]} {last}')
        if entry[0] == 'kept':
            found.add(f'kept {entry[2][0]}')
        if entry[0] == 'seen':
            found.add(f'seen {entry[3].hex()}')
        if entry[0] == 'place':
            found.add(f'place {entry[3].kind}')
    return found


def group(name):
    return re.sub(r'^load_after_\d+$', 'load_after_*', name)


def table():
    names = sorted(file[:-4] for file in os.listdir(WORKED) if file.endswith('.hmm'))
    by_name = {name: covered(name) for name in names}
    lines, missing = ['| Covered | Scripts | Such as |', '|---|---|---|'], []
    for thing in wanted():
        having = [name for name in names if thing in by_name[name]]
        shown = list(dict.fromkeys(map(group, sorted(having, key=lambda name: len(by_name[name])))))[:SHOWN]
        lines.append(f'| {thing} | {len(having)} | {", ".join(shown)} |')
        missing += [] if having else [thing]
    return lines, missing


def main():
    words.begin(__doc__)
    if sys.argv[1:] not in ([], ['--write']):
        words.refuse('`--write` or no word is wanted')
    lines, missing = table()
    if sys.argv[1:] == ['--write']:
        with open(INDEX) as file:
            head = file.read().split(MARK)[0]
        with open(INDEX, 'w') as file:
            file.write(head + MARK + '\n\n' + '\n'.join(lines) + '\n')
    else:
        print('\n'.join(lines))
    print('in no worked script: ' + (', '.join(missing) or 'nothing'), file=sys.stderr)


if __name__ == '__main__':
    main()
