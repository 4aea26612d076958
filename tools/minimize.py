#!/usr/bin/env python3
"""Makes a script shorter: leaves operations and turns out as long as a command ends as before.

    tools/minimize.py SCRIPT -- COMMAND ..      COMMAND reads the script from standard input

For example, what is left of a race in which a driver without the comparison does wrong:

    tools/minimize.py RACE.hmm -- ./hmmwithout.sh --ready compare --answers > short.hmm

Each line of an actor and each line of the schedule is left out if the command then still ends with the status that it
has for SCRIPT; then each number of turns is made smaller. This goes on until nothing can be left out any more. Actors
keep their numbers, so an actor with no operation is left out only if it is the last. Writes the script that is left;
what was tried goes to standard error. Ends with status 2 if the words are wrong.
"""
import subprocess, sys

import words as given


class Tries:
    """A command, and how it is to end."""

    def __init__(self, command, lines):
        self.command, self.count = command, 0
        self.wanted = self.status(lines)

    def status(self, lines):
        self.count += 1
        text = ''.join(line + '\n' for line in lines)
        return subprocess.run(self.command, input=text.encode(), stdout=subprocess.DEVNULL,
                              stderr=subprocess.DEVNULL).returncode

    def holds(self, lines):
        return self.status(lines) == self.wanted


def without_lines(tries, lines):
    """The lines without each that can be left out, pieces of many first."""
    size = max(len(lines) // 2, 1)
    while size:
        at = 0
        while at < len(lines):
            piece = lines[at:at + size]
            is_fixed = any(line.startswith(('hmm ', 'frames ', 'device ', 'actor ')) for line in piece)
            if not is_fixed and tries.holds(lines[:at] + lines[at + size:]):
                lines = lines[:at] + lines[at + size:]
            else:
                at += size
        size //= 2
    return lines


def without_actors(tries, lines):
    """The lines without the last actors, as long as these have no operation."""
    while True:
        at = max((n for n, line in enumerate(lines) if line.startswith('actor ')), default=0)
        is_last = at and (at + 1 == len(lines) or lines[at + 1].split()[0] in ('turns', 'drain'))
        if not is_last or not tries.holds(lines[:at] + lines[at + 1:]):
            return lines
        lines = lines[:at] + lines[at + 1:]


def with_fewer_turns(tries, lines):
    """The lines with numbers of turns that are as small as goes."""
    for at, line in enumerate(lines):
        if not line.startswith('turns '):
            continue
        word, actor, count = line.split()
        low, high = 1, int(count)
        while low < high:
            middle = (low + high) // 2
            if tries.holds([*lines[:at], f'{word} {actor} {middle}', *lines[at + 1:]]):
                high = middle
            else:
                low = middle + 1
        if tries.holds([*lines[:at], f'{word} {actor} {high}', *lines[at + 1:]]):
            lines = [*lines[:at], f'{word} {actor} {high}', *lines[at + 1:]]
    return lines


def main():
    given.begin(__doc__)
    words = sys.argv[1:]
    if '--' not in words[1:2] or len(words) < 3:
        given.refuse('a script, `--` and a command are wanted')
    lines = given.data_of(words[:1]).decode().splitlines()
    before, tries = None, Tries(words[2:], lines)
    while lines != before:
        before = lines
        for shorter in (without_lines, without_actors, with_fewer_turns):
            lines = shorter(tries, lines)
    print(f'minimize.py: {len(lines)} lines are left; the command ended with {tries.wanted}, {tries.count} runs',
          file=sys.stderr)
    sys.stdout.write(''.join(line + '\n' for line in lines))


if __name__ == '__main__':
    main()
