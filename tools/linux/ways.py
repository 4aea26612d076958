#!/usr/bin/env python3
"""Which outcomes of the kernel, that hmmraces does not list, the variants of hm_linux have.

    tools/linux/ways.py            each such outcome of the stored races, and the way that comes to it
    tools/linux/ways.py --check    those that no way comes to, though their difference is a variant; status 1 if there is one

A row of crates/stored_examples/data/linux/races that is not listed has the name of a difference (docs/LINUX.md). If that
is a variant, it has its name since the memory manager with the variants has the outcome: a way of
crates/hm_linux/proofs/Ways comes to it, entry by entry, and the prover has computed each. `lost-store` and `no-time-out`
are no variants of the memory manager. The kernel's `e16` (EBUSY) is the definitions' cause `Never`.
"""
import os, re, sys

TOP = os.path.dirname(os.path.dirname(os.path.dirname(os.path.abspath(__file__))))
sys.path.insert(0, os.path.join(TOP, 'tools'))
import words as given

SEEN = os.path.join(TOP, 'crates', 'stored_examples', 'data', 'linux', 'races')
WAYS = os.path.join(TOP, 'crates', 'hm_linux', 'proofs', 'Ways')
VARIANTS = {'held-page', 'own-read-only', 'exclusive-busy', 'unmap-lets-in', 'first-attach', 'whole-snapshot'}
WAY = re.compile(r'^pub (way_\d+) : came_to \w+ script \d+ \d+\s+\(([^)]*)\)\s+≡ (.*?)^\1 = refl', re.M | re.S)


def whole(text, at):
    """What stands in the pair of brackets that opens at a place, and where it ends."""
    depth = 0
    for end in range(at, len(text)):
        depth += {'(': 1, ')': -1}.get(text[end], 0)
        if depth == 0:
            return text[at + 1:end], end
    raise ValueError(f'a bracket is open: {text[at:at + 40]}')


def arguments(text):
    """The words of an application; what stands in brackets is one."""
    found, at = [], 0
    while at < len(text):
        if text[at] == '(':
            inner, at = whole(text, at)
            found.append(inner)
        elif not text[at].isspace():
            end = re.compile(r'\s|$').search(text, at).start()
            found.append(text[at:end])
            at = end
        at += 1
    return found


def who(text):
    kind, number = text.split()
    return ('p' if kind.endswith('Cpu') else 'm') + number


def pages(text):
    """A span as a report writes it: its first page, and how many."""
    word, *numbers = text.split()
    return f'{numbers[0]} {numbers[1] if word == "pages" else 1}'


def figures(text):
    return ''.join(f'{int(number):02x}' for number in re.findall(r'\d+', text))


def cause(text):
    return {'Unmapped': '1', 'Forbidden': '2', 'NoFrame': '3', 'Never': 'e16'}[text.split('.')[-1]]


ANSWERS = {
    'Loaded': lambda x: f'loaded {who(x[0])} {x[1]} {figures(x[2])}',
    'Stored': lambda x: f'stored {who(x[0])} {x[1]} {figures(x[2])}',
    'Failed': lambda x: f'failed {who(x[0])} {x[1]} {x[2]} {cause(x[3])}',
    'Added': lambda x: f'added m{x[0]} {x[1]} {figures(x[2])} {figures(x[3])}',
    'Refused': lambda x: f'refused {cause(x[0])}',
    'Migrated': lambda x: f'migrated {x[0]}',
    'Excluded': lambda x: f'excluded m{x[0]} {x[1]}',
    'Exited': lambda x: f'exited p{x[0]}',
    'Forked': lambda x: f'forked p{x[0]} p{x[1]}',
    'Unmapped': lambda x: f'unmapped p{x[0]} {pages(x[1])}',
    'Protected': lambda x: f'protected p{x[0]} {pages(x[1])} {"rw" if x[2].endswith("Write") else "r"}',
}


def outcome_of(actors, entries):
    """The answers along a way, each actor's after those of the actors before it."""
    said, at = {}, 0
    for actor in actors:
        at = entries.index('(', at)
        entry, at = whole(entries, at)
        kind, *its = arguments(entry.split(',', 1)[1])
        answer = ANSWERS.get(kind.split('.')[1])
        if answer:
            said.setdefault(actor, []).append(f'a{actor} {answer(its)}')
    return '|'.join(line for actor in sorted(said) for line in said[actor])


def ways_of(race):
    """Each way through a race: its name, and the outcome that it comes to."""
    path = os.path.join(WAYS, ''.join(word.capitalize() for word in race.split('_')) + '.antt')
    if not os.path.exists(path):
        return {}
    with open(path, encoding='utf-8') as file:
        text = file.read()
    found = {}
    for name, turns, entries in WAY.findall(text):
        actors = [int(number) for number in re.findall(r'\d+', turns)]
        found[outcome_of(actors, whole(entries, 0)[0])] = name
    return found


def unlisted(race):
    """The stored outcomes of the kernel that hmmraces does not list, with the name of the difference."""
    with open(os.path.join(SEEN, race + '.seen'), encoding='utf-8') as file:
        rows = [line.split(' ', 2) for line in file.read().splitlines() if line.count(' ') > 1]
    return [(name, outcome) for name, _, outcome in rows if name in VARIANTS]


def main():
    given.begin(__doc__)
    given.end_with_reader()
    if sys.argv[1:] not in ([], ['--check']):
        given.refuse(f'there is no `{sys.argv[1]}`')
    count = wrong = 0
    for race in sorted(name[:-5] for name in os.listdir(SEEN) if name.endswith('.seen')):
        ways = ways_of(race) if unlisted(race) else {}
        for name, outcome in unlisted(race):
            count, wrong = count + 1, wrong + (outcome not in ways)
            if sys.argv[1:] != ['--check'] or outcome not in ways:
                print(f'{race}: {name}: {outcome}: {ways.get(outcome, "no way comes to it")}')
    print(f'{count} outcomes, {wrong} that no way comes to')
    sys.exit(1 if wrong else 0)


if __name__ == '__main__':
    main()
