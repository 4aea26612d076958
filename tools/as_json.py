#!/usr/bin/env python3
"""Writes what hmmraces, hmmwithout, hmmjudge or hmmtrace said as JSON.

    ./hmmraces.sh --quick FILE | tools/as_json.py           {"program": "hmmraces", "outcomes": [..], "states": N, ..}
    ./hmmwithout.sh --quick RULE FILE | tools/as_json.py    {"program": "hmmwithout", "race": [..], "breaks": PART, ..}
    ./hmmjudge.sh --quick FILE | tools/as_json.py           {"program": "hmmjudge", "legal": false, "line": L, ..}
    ./hmmtrace.sh --quick FILE | tools/as_json.py           {"program": "hmmtrace", "rules": {RULE: {..}}}

Which program wrote it is seen by its words. Of hmmraces it reads outcomes and rulings on conditions, no table. A line
that it does not know is refused, and nothing is written: status 3, with the line. The program's own status is lost in
a pipe, unless the shell has `set -o pipefail`; all that the status says is in the JSON too.

    --indent     with line feeds, for people
"""
import json, re, sys

import words as given

PARTS = 'due answers places frames sequences untold guarded kept'.split()


class Unknown(Exception):
    """A line that no program writes there."""


class Looked:
    """Lines, and how many of them were looked at."""

    def __init__(self, lines):
        self.lines, self.count = lines, 0

    def __iter__(self):
        for self.count, text in enumerate(self.lines, 1):
            yield text


def number(text):
    if not re.fullmatch(r'0|[1-9][0-9]*', text):
        raise Unknown
    return int(text)


def states(words):
    """The last line of a search: how many states are known, and how it ended."""
    if len(words) != 3 or words[0] != 'states' or words[2] not in ('whole', 'cut', 'stopped'):
        raise Unknown
    return {'states': number(words[1]), 'end': words[2]}


def entry(text):
    """A line of a report: its position, its actor, and its words."""
    found = re.fullmatch(r'([0-9]+) a([0-9]+) (.+)', text)
    if not found:
        raise Unknown
    return {'position': int(found[1]), 'actor': int(found[2]), 'entry': found[3]}


# ---- hmmraces

def races(lines):
    said = {'program': 'hmmraces', 'outcomes': [], 'conditions': []}
    for text in lines:
        words = text.split(' ')
        outcome = said['outcomes'][-1] if said['outcomes'] else None
        if words[0] == 'outcome' and len(words) == 2:
            said['outcomes'].append({'number': number(words[1]), 'answers': [], 'turns': []})
        elif words[0] in ('holds', 'fails', 'open'):
            said['conditions'].append({'ruling': words[0], 'condition': ' '.join(words[1:])})
        elif words[:3] == ['in', 'no', 'outcome'] and said['conditions']:
            said['conditions'][-1].setdefault('in no outcome', []).append(' '.join(words[3:]))
        elif words[0] == 'states':
            said.update(states(words))
        elif outcome is not None and words[0] == 'turns' and len(words) == 3:
            outcome['turns'].append({'actor': number(words[1]), 'turns': number(words[2])})
        elif outcome is not None and re.fullmatch(r'a[0-9]+', words[0]) and not outcome['turns']:
            outcome['answers'].append({'actor': int(words[0][1:]), 'answer': ' '.join(words[1:])})
        else:
            raise Unknown
        if outcome is not None and words[0] == 'outcome' and said['conditions']:
            said['conditions'][-1]['outcome'] = number(words[1])
    if not said['conditions']:
        del said['conditions']
    return said


# ---- hmmwithout

def found(words):
    """What a row of `--all`, or the last lines of a race, say was found."""
    if words[:1] == ['breaks'] and len(words) == 2 and words[1] in PARTS:
        return {'found': 'breaks', 'breaks': words[1]}
    if words in (['stuck'], ['none'], ['unused']):
        return {'found': words[0]}
    raise Unknown


def without(lines):
    said = {'program': 'hmmwithout', 'race': []}
    for text in lines:
        words = text.split(' ')
        if words[0] == 'states':
            said.update(states(words))
        elif text[:1].isdigit() and not {'owed', 'found'} & said.keys():
            said['race'].append(entry(text))
        elif words[0] == 'owed' and said['race']:
            said['owed'] = entry(text.removeprefix('owed '))
        else:
            said.update(found(words))
    return said


def without_all(lines):
    said = {'program': 'hmmwithout', 'drivers': []}
    for text in lines:
        row = re.fullmatch(r'(\S+) +([a-z]+)(?: after ([0-9]+))? states ([0-9]+) (whole|cut)', text)
        if not row or row[2] not in (*PARTS, 'none', 'unused', 'stuck'):
            raise Unknown
        one = {'rule': row[1], 'found': 'breaks' if row[2] in PARTS else row[2]}
        if row[2] in PARTS:
            one['breaks'] = row[2]
        if row[3]:
            one['entries'] = int(row[3])
        one.update(states=int(row[4]), end=row[5])
        said['drivers'].append(one)
    return said


# ---- hmmjudge

def judged(lines):
    said = {'program': 'hmmjudge'}
    at = said
    for text in lines:
        word, _, rest = text.partition(' ')
        if word == 'legal':
            said.update(legal=True, entries=number(rest))
        elif word == 'bad':
            said.update(legal=False, line=number(rest))
        elif word == 'also':
            at = {'line': number(rest)}
            said.setdefault('also', []).append(at)
        elif word == 'entry':
            at['entry'] = entry(rest)
        elif word == 'breaks' and rest in PARTS:
            at.setdefault('breaks', []).append({'part': rest})
        elif word == 'shows' and at.get('breaks'):
            at['breaks'][-1]['shows'] = rest
        elif word in ('due', 'waits', 'idle'):
            actor, _, what = rest.partition(' ')
            one = {'actor': number(actor[1:]), 'stands': word}
            said.setdefault('actors', []).append({**one, 'words': what} if what else one)
        elif word in ('ends', 'nearest'):
            said[word] = rest
        elif text in ('full', 'text', 'behind', 'missing'):
            said['fault'] = text
        elif word == 'script':
            said['fault'] = text
        elif word == 'judged':
            said['judged'] = number(rest)
        elif word == 'stops':
            line, _, why = rest.partition(' ')
            said['stops'] = {'line': number(line), 'why': why}
        else:
            raise Unknown
    return said


# ---- hmmtrace

def traced(lines):
    said = {'program': 'hmmtrace', 'rules': {}}
    traces = []
    for text in lines:
        words = text.split(' ')
        if words[0] == 'trace' and len(words) > 1:
            traces.append({'name': ' '.join(words[1:]), 'rules': {}})
        elif len(words) > 1 and words[1] in ('kept', 'broken', 'maybe', 'unseen', 'unasked'):
            (traces[-1] if traces else said)['rules'][words[0]] = {'verdict': words[1], 'words': ' '.join(words[2:])}
        else:
            (traces[-1] if traces else said).setdefault('lines', []).append(text)
    if traces:
        said['traces'] = traces
        del said['rules']
    return said


def read(lines):
    first = lines[0].split(' ')
    if first[0] in ('outcome', 'holds', 'fails', 'open'):
        return races
    if first[0] in ('legal', 'bad'):
        return judged
    if re.fullmatch(r'[0-9]+ a[0-9]+ .*', lines[0]) or lines[0] in ('none', 'unused', 'stuck'):
        return without
    if re.fullmatch(r'\S+ +\S+( after [0-9]+)? states [0-9]+ (whole|cut)', lines[0]):
        return without_all
    if first[0] == 'states':
        return races
    if first[0] in ('events', 'trace'):
        return traced
    raise Unknown


def main():
    given.begin(__doc__)
    words = sys.argv[1:]
    indent = 2 if '--indent' in words else None
    lines = given.data_of([word for word in words if word != '--indent']).decode('utf-8', 'replace').split('\n')
    while lines and not lines[-1]:
        lines.pop()
    if not lines:
        print('as_json.py: nothing was read', file=sys.stderr)
        return 3
    looked = Looked(lines)
    try:
        said = read(lines)(looked)
    except Unknown:
        at = max(looked.count, 1)
        print(f'as_json.py: line {at} is none that a program writes there: {lines[at - 1]}', file=sys.stderr)
        return 3
    json.dump(said, sys.stdout, indent=indent, ensure_ascii=False)
    print()
    return 0


if __name__ == '__main__':
    sys.exit(main())
