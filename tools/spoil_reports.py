#!/usr/bin/env python3
"""Spoils reports at random, and compares what several programs say of each.

    tools/spoil_reports.py [--count N] [--seed N] [--with 'COMMAND'] .. REPORT ..

Makes N reports (1,000 unless told) from those given: a byte, a number, or a line is changed, dropped, doubled, swapped
or cut. `hmmrun check`, as it is built, says of each whether it is legal, or the first bad line. Each COMMAND, such as
'tools/reference/cli.py check', reads one report on standard input and must say the same. Prints what differs, keeps
those reports, and ends with 1 if there are any.
"""
import argparse, os, random, re, shlex, subprocess, sys, tempfile

import words as given

TOP = os.path.dirname(os.path.dirname(os.path.abspath(__file__)))
PROGRAM = os.path.join(TOP, 'crates/hmmrun/out/hmmrun')


def change_byte(pick, data):
    at = pick.randrange(len(data))
    return data[:at] + bytes([pick.choice([pick.randrange(256), 10, 32, 48, data[at] ^ 1])]) + data[at + 1:]


def change_number(pick, data):
    numbers = list(re.finditer(rb'\d+', data))
    if not numbers:
        return data
    found = pick.choice(numbers)
    value = int(found.group())
    new = pick.choice([value + 1, max(value - 1, 0), value * 10, pick.randrange(20), 2 ** 64])
    return data[:found.start()] + str(new).encode() + data[found.end():]


def drop_byte(pick, data):
    at = pick.randrange(len(data))
    return data[:at] + data[at + 1:]


def drop_line(pick, data):
    lines = data.splitlines(True)
    del lines[pick.randrange(len(lines))]
    return b''.join(lines)


def double_line(pick, data):
    lines = data.splitlines(True)
    at = pick.randrange(len(lines))
    return b''.join(lines[:at] + [lines[at]] + lines[at:])


def swap_lines(pick, data):
    lines = data.splitlines(True)
    a, b = pick.randrange(len(lines)), pick.randrange(len(lines))
    lines[a], lines[b] = lines[b], lines[a]
    return b''.join(lines)


def cut(pick, data):
    return data[:pick.randrange(len(data) + 1)]


def swap_actor(pick, data):
    actors = list(re.finditer(rb' a\d+', data))
    if not actors:
        return data
    found = pick.choice(actors)
    return data[:found.start()] + b' a%d' % pick.randrange(17) + data[found.end():]


WAYS = [change_byte, change_number, drop_byte, drop_line, double_line, swap_lines, cut, swap_actor]


def spoiled(pick, data):
    for _ in range(pick.choice([1, 1, 1, 2, 3])):
        if data:
            data = pick.choice(WAYS)(pick, data)
    return data


def verdict(command, path):
    """What the command says of the report in the file."""
    with open(path, 'rb') as file:
        return subprocess.run(command, stdin=file, capture_output=True, text=True).stdout.strip()


def main():
    given.begin(__doc__)
    words = argparse.ArgumentParser(usage=__doc__)
    words.add_argument('--count', type=int, default=1000)
    words.add_argument('--seed', type=int, default=1)
    words.add_argument('--with', dest='others', action='append', default=[])
    words.add_argument('reports', nargs='+')
    asked = words.parse_args()
    given.need(PROGRAM)
    pick = random.Random(asked.seed)
    sources = [open(name, 'rb').read() for name in asked.reports]
    room = tempfile.mkdtemp()
    for number in range(asked.count):
        with open(os.path.join(room, f'{number}.report'), 'wb') as file:
            file.write(spoiled(pick, pick.choice(sources)))
    differing, legal = 0, 0
    for number in range(asked.count):
        name = os.path.join(room, f'{number}.report')
        here = verdict([PROGRAM, 'check'], name)
        legal += here.startswith('legal')
        for other in asked.others:
            there = verdict(shlex.split(other), name)
            if there != here:
                differing += 1
                print(f'{name}: {here}, but {other} says {there}')
    print(f'{asked.count} reports, {legal} still legal, {differing} differences')
    sys.exit(1 if differing else 0)


if __name__ == '__main__':
    main()
