#!/usr/bin/env python3
"""Reads a file of holds, as the module hmm_steer does: the same mistakes, with the same lines and reasons.

    tools/trace/holds.py [--with PARAMETERS] [FILE]     FILE, or standard input
    tools/trace/holds.py --places                       the places, and what each needs

Writes the holds, one in a line, or the mistakes: `line N: WORD REASON`. --with names the parameters that the module is
given, with commas, as `set,reads`: without one that it needs a place is refused. Unless it is named, all are given.

Ends with status 0, or 3 if there is a mistake, 2 if the words are wrong, 4 if the file cannot be read. docs/STEER.md
has the language.
"""
import os
import re
import sys
from typing import NamedTuple

ROLES, MOST_HOLDS, MOST_US, MOST_BYTES = 4, 16, 100_000, 16_384
# each place, in the order of hmm_steer.c, and the parameter that it needs
PLACES = {
    'go': '', 'done': '', 'look': '', 'seek': '', 'begin': '', 'walk': '', 'walked': '', 'commit': '', 'set': 'set',
    'using': 'reads', 'use': 'reads', 'fault': '', 'faulted': '', 'start': '', 'tell': '', 'told': '', 'end': '',
    'ended': '', 'setup': '', 'ready': '', 'take': 'takes', 'pages': '', 'moved': '', 'finalize': '', 'finalized': '',
    'evict': '', 'evicted': '', 'free': 'frees', 'remove': '', 'removed': '', 'withdraw': 'withdraws',
    'withdrawn': 'withdraws', 'unplug': 'withdraws', 'gone': 'withdraws', 'exclude': 'exclusive',
    'excluded': 'exclusive', 'fetch': 'fetches', 'add': 'adds', 'trap': 'trap'}
CALLS = ('-', 'dload', 'dstore', 'load', 'store', 'unmap', 'map', 'protect', 'fork', 'todev', 'tosys', 'detach',
         'remove')
WIDE = ('protect', 'fork', 'map')               # these have the mmap lock for writing as long as they invalidate
LOCKED = ('set', 'using', 'use')                # the driver's lock is held there
WALKS = ('walk', 'walked')
INVALIDATES = ('start', 'tell', 'told', 'end', 'ended')


class Hold(NamedTuple):
    """A thread at a place, and the place of another that it waits for."""
    role: str
    place: str
    nth: int
    other: str
    until: str
    until_nth: int
    us: int
    is_try: bool = False

    def text(self):
        return (f'{"try" if self.is_try else "hold"} {self.role} {self.place} {self.nth} until '
                f'{self.other} {self.until} {self.until_nth} us {self.us}')


class Mistake(Exception):
    """What is wrong with a line: a word, and the reason."""


def number_of(text, base=10):
    """The number that the kernel reads there, or none."""
    form = r'\+?\d+' if base == 10 else r'\+?(0[xX][0-9a-fA-F]+|\d+)'
    if not re.fullmatch(form, text):
        return None
    text = text.removeprefix('+')
    if base == 10:
        return int(text)
    if text[:2] in ('0x', '0X'):
        return int(text, 16)
    if text[0] == '0' and len(text) > 1:
        return int(text, 8) if re.fullmatch('[0-7]+', text) else None
    return int(text)


def is_role(text):
    return re.fullmatch(f'a[0-{ROLES - 1}]', text) is not None


def place_of(fields, given):
    role, word, nth = fields
    if not is_role(role):
        raise Mistake(role, 'is no role: a0 to a3')
    if word not in PLACES:
        raise Mistake(word, 'is no place')
    if given is not None and PLACES[word] and PLACES[word] not in given:
        raise Mistake(word, 'is a place that no probe sees: a parameter of the module is missing')
    if number_of(nth) is None or not 1 <= number_of(nth) <= 1000:
        raise Mistake(nth, 'is no number from 1 to 1000')
    return role, word, number_of(nth)


def why_not(hold, calls):
    """Why the other thread cannot come to its place as long as this one is held, or none."""
    mine, others = calls.get(hold.role, '-'), calls.get(hold.other, '-')
    if hold.role == hold.other:
        return 'would wait for itself'
    if hold.is_try:
        return None
    if hold.place in LOCKED and hold.until in LOCKED + ('told',):
        return "is held with the driver's lock, which the other needs"
    if (hold.place in WALKS and hold.until in INVALIDATES
            and (others in WIDE or others == 'unmap' and hold.until == 'start')):
        return 'is held with the mmap lock for reading, which the other needs for writing'
    if hold.place in INVALIDATES and mine in WIDE and hold.until in WALKS + INVALIDATES:
        return 'is held with the mmap lock for writing, which the other needs'
    if hold.place == 'trap' and (hold.until == 'done' or hold.until in ('end', 'ended')
                                 and others not in ('unmap', 'protect')):
        return 'is held with interrupts off, and the other waits for its processor'
    return None


def hold_of(fields, given, calls, count):
    if len(fields) != 10 or fields[4] != 'until' or fields[8] != 'us':
        raise Mistake(fields[0], 'is not followed by: ROLE PLACE N until ROLE PLACE N us MICROSECONDS')
    here, there = place_of(fields[1:4], given), place_of(fields[5:8], given)
    us = number_of(fields[9])
    if us is None or not 1 <= us <= MOST_US:
        raise Mistake(fields[9], 'is no number of microseconds from 1 to 100000')
    hold = Hold(*here, *there, us, fields[0] == 'try')
    why = why_not(hold, calls)
    if why:
        raise Mistake(fields[1], why)
    if count == MOST_HOLDS:
        raise Mistake(fields[0], 'is a hold too many: there is room for 16')
    return hold


def other_line(fields, calls, count):
    """A line `call` or `pages`, or none that there is, after so many holds."""
    if fields[0] == 'call':
        if len(fields) != 3:
            raise Mistake(fields[0], 'is not followed by: ROLE CALL')
        if not is_role(fields[1]):
            raise Mistake(fields[1], 'is no role: a0 to a3')
        if fields[2] not in CALLS:
            raise Mistake(fields[2], 'is no call')
        if count:
            raise Mistake(fields[0], 'comes after a hold, which was judged without it')
        calls[fields[1]] = fields[2]
    elif fields[0] == 'pages':
        if len(fields) != 3:
            raise Mistake(fields[0], 'is not followed by: FIRST COUNT')
        if number_of(fields[1], 0) is None:
            raise Mistake(fields[1], 'is no page number')
        if not number_of(fields[2], 0):
            raise Mistake(fields[2], 'is no count of pages')
    else:
        raise Mistake(fields[0], 'is none of hold, try, call, pages')


def read(text, given=None):
    """The holds, and the mistakes as (line, word, reason); if there is a mistake, no hold is taken."""
    holds, mistakes, calls = [], [], {}
    for at, line in enumerate(text.split('\n'), 1):
        fields = [x for x in re.split('[ \t\r]', line.split('#')[0]) if x][:11]
        try:
            if fields and fields[0] in ('hold', 'try'):
                holds.append(hold_of(fields, given, calls, len(holds)))
            elif fields:
                other_line(fields, calls, len(holds))
        except Mistake as mistake:
            mistakes.append((at, *mistake.args))
    return ([] if mistakes else holds), mistakes


def main(words):
    if {'--help', '-h'} & set(words):
        print(__doc__.strip())
        return 0
    if words == ['--places']:
        for place, needs in PLACES.items():
            print(place, needs or '-')
        return 0
    given = None
    if words[:1] == ['--with'] and len(words) > 1:
        given, words = set(words[1].split(',')), words[2:]
    if len(words) > 1 or words and words[0].startswith('-'):
        print('holds.py: one file at the most; --help has the words', file=sys.stderr)
        return 2
    try:
        with open(words[0]) if words else os.fdopen(0) as file:
            text = file.read()
    except OSError as error:
        print(f'holds.py: {words[0]}: {error.strerror}', file=sys.stderr)
        return 4
    if len(text.encode()) > MOST_BYTES:
        print('line 1: `` is a file of more than 16384 bytes')
        return 3
    holds, mistakes = read(text, given)
    for at, word, why in mistakes:
        print(f'line {at}: `{word[:15]}` {why}')
    for hold in holds:
        print(hold.text())
    return 3 if mistakes else 0


if __name__ == '__main__':
    sys.exit(main(sys.argv[1:]))
