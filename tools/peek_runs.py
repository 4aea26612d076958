#!/usr/bin/env python3
"""Runs drawn scripts with a watcher, and judges what it saw.

    tools/peek_runs.py [RUNS [SEED]] [--with COMMAND..]

Draws RUNS scripts (1,000, from seed 1) with the bytes of a process to look at, and asks the command for
`peek P ADDR LEN`. The report must be whole and legal, as tools/reference judges it. Each peek must have the bytes that
tools/reference's plain state has after that many entries; the counts must rise; and the last one must be of the whole
history if and only if all the bytes have areas at the end. Prints how many peeks came. The command is
./hmmrun.sh --ready if none is given; any program of the same behaviour will do. Ends with status 1 at the first that is
wrong, which is then printed. It is run by hand, outside the gate: all this is proved.
"""
import os, random, subprocess, sys

TOP = os.path.dirname(os.path.dirname(os.path.abspath(__file__)))
sys.path[:0] = [os.path.join(TOP, 'tools'), os.path.join(TOP, 'tools', 'reference')]
import quiet_share
import report as reports
import script as scripts
import words as given
from run import Machine

PAGE = 4096


class Wrong(Exception):
    """What is wrong with an answer."""


def bytes_of(state, process, address, length):
    """The plain bytes of a process, or none where one of them has no area."""
    found = b''
    for at in range(address, address + length):
        if state.right(process, at // PAGE) is None:
            return None
        found += state.read(process, at, 1)
    return found


def cut(output):
    """The report, and the peeks after it: process, address, count and bytes."""
    lines = output.decode().splitlines(True)
    first = next((at for at, line in enumerate(lines) if line.startswith('peek ')), len(lines))
    peeks = []
    for line in lines[first:]:
        word, process, address, count, found = line.split()
        peeks.append((int(process[1:]), int(address, 16), int(count), bytes.fromhex(found)))
    return ''.join(lines[:first]).encode(), peeks


def judge(output, asked):
    process, address, length = asked
    report, peeks = cut(output)
    count = reports.check(report)
    if b'\nunfinished ' in report:
        raise Wrong('an operation has not ended')
    if any(peek[:2] != (process, address) or len(peek[3]) != length for peek in peeks):
        raise Wrong('a peek of other bytes')
    counts = [peek[2] for peek in peeks]
    if counts != sorted(set(counts)) or counts and counts[-1] > count:
        raise Wrong('the counts do not rise')
    head, entries = report.split(b'\nhistory\n', 1)
    machine, wanted = Machine(scripts.parse(head + b'\n')), {peek[2]: peek[3] for peek in peeks}
    actors = [int(line.split()[1][1:]) for line in entries.splitlines()[:count]]
    for at in range(count + 1):
        if at in wanted and bytes_of(machine.state, process, address, length) != wanted[at]:
            raise Wrong(f'other bytes after {at} entries')
        if at < count:
            machine.step(actors[at])
    if (count in wanted) != (bytes_of(machine.state, process, address, length) is not None):
        raise Wrong('the last peek is there, or not, against the areas at the end')
    return len(peeks)


def drawn(draw):
    script = quiet_share.Drawn(draw)
    text = script.text([])
    first = (quiet_share.FIRST + draw.randrange(script.pages)) * PAGE
    length = draw.choice([1, 1, 2, 16, 256])
    return text, (draw.choice(script.there), first + draw.choice([0, 5, PAGE - 1]), length)


def main():
    given.begin(__doc__)
    words, command = sys.argv[1:], None
    if '--with' in words:
        words, command = words[:words.index('--with')], words[words.index('--with') + 1:]
    if len(words) > 2 or not all(word.isdigit() for word in words):
        given.refuse('two numbers at most are wanted')
    command, numbers = command or given.ready(), [int(word) for word in words]
    runs, seed = (numbers + [1000, 1][len(numbers):])[:2]
    draw, seen = random.Random(seed), []
    for number in range(runs):
        if number and number % 100 == 0:
            print(f'peek_runs.py: {number} of {runs} runs', file=sys.stderr)
        text, asked = drawn(draw)
        process, address, length = asked
        done = subprocess.run(command + ['peek', str(process), hex(address), str(length)], input=text,
                              stdout=subprocess.PIPE, stderr=subprocess.PIPE)
        try:
            if done.returncode != 0:
                raise Wrong(f'status {done.returncode}: {done.stderr.decode().strip()}')
            seen.append(judge(done.stdout, asked))
        except (Wrong, reports.NotLegal) as wrong:
            sys.stdout.buffer.write(text + done.stdout)
            print(f'peek_runs.py: {wrong}', file=sys.stderr)
            return 1
    print(f'{runs} runs: each whole and legal, {sum(seen)} peeks, at most {max(seen)} in a run, each right')
    return 0


if __name__ == '__main__':
    sys.exit(main())
