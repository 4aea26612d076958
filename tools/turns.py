#!/usr/bin/env python3
"""The script that replays a report: its operations, and a schedule with the turns that were made.

    tools/turns.py [FILE]       reads a report; a script
    ./hmmrun.sh --quick race SCRIPT | tools/turns.py > again.hmm

`threads` and `race` make their turns in an order of their own, which is another one each time. In a report each entry
is a turn of its actor; turns that only waited added nothing, and are left out. So `replay` of what is written here
gives the same history. Ends with status 3 if this is no report.
"""
import itertools, re, sys

import words as given

ENTRY = re.compile(r'\d+ a(\d+) ')


def script_of(text):
    """The script whose schedule makes the report's turns, or none if this is no report."""
    front, found, history = text.partition('\nhistory\n')
    if not found:
        return None
    lines = [line for line in front.split('\n') if not line.startswith('turns ') and line != 'drain']
    actors = [match[1] for match in map(ENTRY.match, history.split('\n')) if match]
    turns = [f'turns {actor} {len(list(made))}' for actor, made in itertools.groupby(actors)]
    return '\n'.join(lines + turns) + '\n'


def main():
    given.begin(__doc__)
    given.end_with_reader()
    script = script_of(given.data_of(sys.argv[1:]).decode(errors='replace'))
    if script is None:
        print('turns.py: this is no report: it has no line `history`', file=sys.stderr)
        sys.exit(3)
    sys.stdout.write(script)


if __name__ == '__main__':
    main()
