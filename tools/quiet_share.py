#!/usr/bin/env python3
"""Shows how much of its bound each operation uses that runs alone.

    tools/quiet_share.py [SCRIPTS [SEED]] [--with COMMAND..]

Draws SCRIPTS scripts (1,000, from seed 1) whose operations run one at a time: each actor in turn has turns enough for
all of its operations before another has any. Replays each with the command (./hmmrun.sh --ready; any program of the
same behaviour will do), counts the entries of each operation in the report, and divides them by the operation's bound,
which is computed from the script alone as docs/DEFINITIONS.md has it. Prints for each operation word how many ran, the
most entries that one had, and the largest share of its bound that one used. Ends with status 1 if a share is above
1, or a report is not what was asked for.

It is run by hand, outside the gate: that no share is above 1 is proved. What it shows is how near to the bounds
scripts come.
"""
import os, random, subprocess, sys
from fractions import Fraction

TOP = os.path.dirname(os.path.dirname(os.path.abspath(__file__)))
sys.path.insert(0, os.path.join(TOP, 'tools'))
import words as given

WORDS = ('map unmap protect load store fork exit attach detach dload dstore todev tosys snap evict remove exclusive '
         'dadd').split()
FIRST, PAGE = 16, 4096

# the entries after which an operation has ended; an access has one of them for each of its pieces
LAST = {
    'map': 'mapped', 'unmap': 'unmapped', 'protect': 'protected', 'load': 'loaded', 'store': 'stored', 'fork': 'forked',
    'exit': 'exited', 'attach': 'attached', 'detach': 'detached', 'dload': 'loaded', 'dstore': 'stored',
    'todev': 'migrated', 'tosys': 'migrated', 'snap': 'runlock', 'evict': 'evicted', 'remove': 'removed',
    'exclusive': 'excluded', 'dadd': 'added',
}


class Drawn:
    """A script that is drawn operation by operation, with a rough idea of what is there, so that few are refused."""

    def __init__(self, draw):
        self.draw, self.there, self.mirrors, self.next_child, self.next_mirror = draw, [0], [], 1, 0
        self.pages = draw.choice([1, 2, 4, 8, 12])
        self.frames = draw.choice([2, 4, 8, 16, 40])
        self.devices = [draw.choice([1, 2, 4, 8]) for _ in range(draw.choice([1, 1, 2, 3]))]
        self.skip = draw.choice([0, 0, 0, 2, 3, 17])
        self.forks, self.attaches = draw.choice([0, 1, 3, 12, 31]), draw.choice([1, 2, 5, 20, 32])
        self.actors = [[] for _ in range(draw.choice([1, 2, 4]))]
        self.fill()

    def fill(self):
        """First some memory and a mirror; the other operations as they come."""
        for number, actor in enumerate(self.actors):
            if number == 0:
                actor.append(f'map 0 {FIRST} {self.pages} rw')
                actor.append(self.attach(0, FIRST, self.pages))
            for _ in range(self.draw.choice([4, 8, 20, 40])):
                op = self.operation(self.draw.choice(WORDS + ['store', 'dstore', 'todev', 'tosys', 'fork', 'attach']))
                if op:
                    actor.append(op)

    def process(self):
        return self.draw.choice(self.there)

    def mirror(self):
        return self.draw.choice(self.mirrors)

    def span(self):
        first = self.draw.randrange(self.pages)
        return f'{FIRST + first} {self.draw.choice([1, self.pages - first])}'

    def address(self, count):
        """Bytes within a page, or across the end of one."""
        page = (FIRST + self.draw.randrange(self.pages)) * PAGE
        return page + self.draw.choice([0, 5, PAGE - 1 if count > 1 else 0])

    def attach(self, process, first, count):
        self.mirrors.append(self.next_mirror)
        self.next_mirror += 1
        return f'attach {self.next_mirror - 1} {self.draw.randrange(len(self.devices))} {process} {first} {count}'

    def operation(self, word):
        count = self.draw.choice([1, 2])
        if word in ('map', 'protect'):
            return f'{word} {self.process()} {self.span()} {self.draw.choice(["r", "rw", "rw"])}'
        if word == 'unmap':
            return f'unmap {self.process()} {self.span()}' if self.draw.random() < 0.5 else None
        if word == 'exit':
            return f'exit {self.process()}' if self.draw.random() < 0.1 else None
        if word == 'load':
            return f'load {self.process()} {self.address(count):#x} {count}'
        if word == 'store':
            return f'store {self.process()} {self.address(count):#x} ' + '41' * count
        if word == 'fork':
            return self.fork()
        if word == 'attach':
            return self.attach(self.process(), FIRST, self.pages) if self.next_mirror < self.attaches else None
        if word == 'detach':
            return f'detach {self.mirror()}' if self.draw.random() < 0.2 else None
        if word == 'dload':
            return f'dload {self.mirror()} {self.address(count):#x} {count}'
        if word == 'dstore':
            return f'dstore {self.mirror()} {self.address(count):#x} ' + '42' * count
        if word in ('todev', 'tosys', 'snap'):
            return f'{word} {self.mirror()} {self.span()}'
        if word in ('evict', 'remove'):
            often = self.draw.random() < (0.5 if word == 'evict' else 0.1)
            return f'{word} {self.draw.randrange(len(self.devices))}' if often else None
        if word == 'exclusive':
            return f'exclusive {self.mirror()} {FIRST + self.draw.randrange(self.pages)}'
        return f'dadd {self.mirror()} {self.address(1):#x} 7'

    def fork(self):
        if self.next_child > self.forks:
            return None
        parent = self.process()
        self.there.append(self.next_child)
        self.next_child += 1
        return f'fork {parent} {self.next_child - 1}'

    def text(self, turns):
        lines = ['hmm 2', f'frames {self.frames}']
        lines += [f'device {number} {frames}' for number, frames in enumerate(self.devices)]
        if self.skip:
            lines.append(f'skip {self.skip}')
        for number, actor in enumerate(self.actors):
            lines += [f'actor {number}'] + actor
        return '\n'.join(lines + [f'turns {number} {count}' for number, count in turns] + ['']).encode()


class Bounds:
    """The bound of each operation of a script, from the script alone."""

    def __init__(self, script):
        operations = [op.split() for actor in script.actors for op in actor]
        attaches = sum(op[0] == 'attach' for op in operations)
        forks = sum(op[0] == 'fork' for op in operations)
        self.devices = script.devices
        self.mapped = sum(int(op[3]) for op in operations if op[0] == 'map')
        self.guard = attaches + 2
        self.home = min(1 + forks, 32) * (self.guard + 2) + 12

    def of(self, op):
        words = op.split()
        word, guard, home = words[0], self.guard, self.home
        if word in ('load', 'store', 'dload', 'dstore'):
            return 2 * (home + guard + 15)
        if word in ('unmap', 'protect', 'todev', 'tosys', 'snap'):
            pages = int(words[3])
            return {'unmap': 2 * pages + guard + 2, 'protect': pages + guard + 2, 'snap': pages + 2}.get(
                word, pages * (home + 1) + guard + 2)
        if word in ('evict', 'remove'):
            return self.devices[int(words[1])] * home + (1 if word == 'evict' else 2)
        if word in ('exit', 'fork'):
            return 2 * self.mapped + guard + (2 if word == 'exit' else 3)
        if word in ('exclusive', 'dadd'):
            return home + 2 * guard + (8 if word == 'exclusive' else 10)
        return 2 if word == 'map' else 1


def pieces(op):
    """How many answers an operation has: an access one for each page that it touches, all others one."""
    words = op.split()
    if words[0] not in ('load', 'store', 'dload', 'dstore'):
        return 1
    first = int(words[2], 16)
    count = int(words[3]) if words[0] in ('load', 'dload') else len(words[3]) // 2
    return (first + count - 1) // PAGE - first // PAGE + 1


def is_answer(op, kind):
    return kind in (LAST[op.split()[0]], 'refused', 'failed')


def entry_counts(operations, kinds):
    """The entries of each operation, which follow one another; none where they do not fit."""
    counts, place = [], 0
    for op in operations:
        begun, answers = place, 0
        while answers < pieces(op):
            if place == len(kinds):
                return None
            answers = pieces(op) if kinds[place] == 'refused' else answers + is_answer(op, kinds[place])
            place += 1
        counts.append(place - begun)
    return counts if place == len(kinds) else None


def entry_kinds(report):
    """The kinds of the entries of each actor, from the report's history on."""
    kinds = {}
    for line in report.decode().split('\nhistory\n')[1].splitlines()[:-1]:
        words = line.split()
        kinds.setdefault(int(words[1][1:]), []).append(words[2])
    return kinds


def turns_of(script, bounds, order):
    """Each actor has, in this order, as many turns as its operations may take at most."""
    return [(number, max(1, sum(bounds.of(op) for op in script.actors[number]))) for number in order]


class Shares:
    def __init__(self):
        self.ran, self.most = dict.fromkeys(WORDS, 0), dict.fromkeys(WORDS, 0)
        self.share = dict.fromkeys(WORDS, Fraction(0))

    def add(self, op, count, bound):
        word = op.split()[0]
        self.ran[word] += 1
        self.most[word] = max(self.most[word], count)
        self.share[word] = max(self.share[word], Fraction(count, bound))

    def print_all(self):
        print(f'{"operation":10} {"ran":>8} {"most entries":>13} {"largest share":>14}')
        for word in WORDS:
            print(f'{word:10} {self.ran[word]:8} {self.most[word]:13} {float(self.share[word]):14.3f}')


def replay_one(command, draw, shares):
    """Whether the report of a drawn script was what was asked for; its operations are added to the shares."""
    script = Drawn(draw)
    bounds = Bounds(script)
    order = [0] + draw.sample(range(1, len(script.actors)), len(script.actors) - 1)
    text = script.text(turns_of(script, bounds, order))
    done = subprocess.run(command + ['replay'], input=text, stdout=subprocess.PIPE, stderr=subprocess.PIPE)
    kinds = entry_kinds(done.stdout) if done.returncode == 0 else {}
    for number, operations in enumerate(script.actors):
        counts = entry_counts(operations, kinds.get(number, []))
        if done.returncode != 0 or counts is None:
            print(f'status {done.returncode}: {done.stderr.decode().strip()}\n{text.decode()}', file=sys.stderr)
            return False
        for op, count in zip(operations, counts):
            shares.add(op, count, bounds.of(op))
    return True


def main():
    given.begin(__doc__)
    words, command = sys.argv[1:], None
    if '--with' in words:
        words, command = words[:words.index('--with')], words[words.index('--with') + 1:]
    if len(words) > 2 or not all(word.isdigit() for word in words):
        given.refuse('two numbers at most are wanted')
    command, numbers = command or given.ready(), [int(word) for word in words]
    scripts, seed = (numbers + [1000, 1][len(numbers):])[:2]
    shares, draw = Shares(), random.Random(seed)
    fine = all([replay_one(command, draw, shares) for _ in range(scripts)])
    shares.print_all()
    return 0 if fine and max(shares.share.values()) <= 1 else 1


if __name__ == '__main__':
    sys.exit(main())
