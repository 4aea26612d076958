#!/usr/bin/env python3
"""Judges many traces of a driver with hmmtrace, and counts the verdicts by rule.

    tools/trace_runs.py [--each] [--expect RULE] [--keep FOLDER] FILE ..

A FILE is a trace (docs/TRACE.md), or many of them as tools/trace/boot.sh writes them: each between a line `# run NAME
NUMBER ..` and a line `# over`. A trace without its `# over` was cut off by the end of its boot, and is not judged.

Writes a line for each name: how many traces there were, lines and events, and how many traces were whole, part, and
refused. Then a line for each rule that was put to the test: in how many traces it was broken, may have been, and was
kept; and the first trace in which it was broken, or may have been.

    --each           also a line for each trace in which a rule is broken or may be
    --keep FOLDER    keeps each such trace, as FOLDER/NAME.NUMBER.trace
    --expect RULE    also says in how many traces this rule was named (`broken`), in how many it may have been broken,
                     in how many neither, and in how many another rule was named; RULE is `right` if none is left out

Ends with status 1 if a trace was refused, or if another rule was named than the one that --expect says. The program is
the proved one if it is built, or else the unproved one.
"""
import collections
import os
import subprocess
import sys

import words as given


class Counts:
    """What was counted of the traces of one name."""

    def __init__(self):
        self.traces, self.lines, self.events, self.cut = 0, 0, 0, 0
        self.how = collections.Counter()            # whole, part, refused
        self.said = collections.defaultdict(collections.Counter)    # rule -> verdict -> traces
        self.first = {}                             # (rule, verdict) -> the number of the first trace
        self.named, self.maybe, self.unseen, self.others = 0, 0, 0, 0


def runs_of(path):
    """The name, the number (if it has one) and the text of each trace of a file; no text, if it was cut off."""
    with open(path, 'rb') as file:
        data = file.read().replace(b'\r', b'')
    if not data.startswith(b'# run ') and b'\n# run ' not in data:
        yield os.path.basename(path).removesuffix('.trace'), '', data
        return
    name, number, lines = None, None, []
    for line in data.splitlines(True):
        if line.startswith(b'# run '):
            if name:
                yield name, number, None
            name, number, lines = line.split()[2].decode(), line.split()[3].decode(), []
        elif line.strip() == b'# over' and name:
            yield name, number, b''.join(lines)
            name = None
        else:
            lines.append(line)
    if name:
        yield name, number, None


def judged(program, data):
    """The events, `whole` or `part`, and each rule's verdict; or None and what the program said."""
    done = subprocess.run(program, input=data, stdout=subprocess.PIPE, stderr=subprocess.PIPE)
    lines = [line for line in done.stdout.decode().splitlines() if not line.startswith('  ')]
    if done.returncode not in (0, 1) or not lines:
        return None, done.stderr.decode().strip() or f'status {done.returncode}'
    first, *rules = [line.split() for line in lines]
    return (int(first[1]), first[2], {rule: (said[0], int(said[1]) if said[1:] else 0) for rule, *said in rules}), ''


def count(counts, number, found, expected):
    """Counts one trace; the rules that are broken in it, or may be."""
    events, how, verdicts = found
    counts.events += events
    counts.how[how] += 1
    for rule, (said, _) in verdicts.items():
        counts.said[rule][said] += 1
        counts.first.setdefault((rule, said), number)
    said = verdicts.get(expected, ('unseen', 0))[0]
    counts.named += said == 'broken'
    counts.maybe += said == 'maybe'
    counts.unseen += said not in ('broken', 'maybe')
    counts.others += any(x[0] == 'broken' for rule, x in verdicts.items() if rule != expected)
    return {rule: x for rule, x in verdicts.items() if x[0] in ('broken', 'maybe')}


def write(name, c, expected):
    print(f'{name}: {c.traces} traces, {c.lines} lines, {c.events} events; {c.how["whole"]} whole, '
          f'{c.how["part"]} part, {c.how["refused"]} refused, {c.cut} cut off')
    if expected == 'right':
        print(f'  {c.others} blamed')
    elif expected:
        print(f'  {expected}: {c.named} named, {c.maybe} maybe, {c.unseen} neither; {c.others} blamed for another rule')
    for rule, said in c.said.items():
        if said.keys() != {'unseen'}:
            firsts = [f'{x} first in {c.first[rule, x]}' for x in ('broken', 'maybe') if said[x] and c.first[rule, x]]
            print(f'  {rule}: broken {said["broken"]}, maybe {said["maybe"]}, kept {said["kept"]}'
                  + ''.join(', ' + x for x in firsts))


def option(words, name):
    """The word after this one, taken out of the words."""
    if name not in words:
        return None
    at = words.index(name)
    if at + 1 == len(words):
        given.refuse(f'`{name}` needs a word')
    word = words[at + 1]
    del words[at:at + 2]
    return word


def main():
    given.begin(__doc__)
    words = sys.argv[1:]
    expected, folder = option(words, '--expect'), option(words, '--keep')
    each = '--each' in words
    files = [x for x in words if x != '--each']
    if not files or any(x.startswith('-') for x in files):
        given.refuse('it needs files' if not files else 'there is an unknown word')
    program = given.ready('hmmtrace')
    total = collections.defaultdict(Counts)
    for path in files:
        try:
            runs = list(runs_of(path))
        except OSError as error:
            print(f'{given.tool()}: {path}: {error.strerror}', file=sys.stderr)
            return 4
        for name, number, data in runs:
            counts = total[name]
            if data is None:
                counts.cut += 1
                continue
            counts.traces += 1
            counts.lines += data.count(b'\n')
            found, why = judged(program, data)
            if not found:
                counts.how['refused'] += 1
                print(f'{name} {number}'.strip() + f': {why}')
                continue
            wrong = count(counts, number, found, expected)
            if each and wrong:
                print(f'{name} {number}'.strip(), *(f'{rule} {said} {at};' for rule, (said, at) in wrong.items()))
            if folder and wrong:
                os.makedirs(folder, exist_ok=True)
                with open(os.path.join(folder, f'{name}.{number}'.rstrip('.') + '.trace'), 'wb') as file:
                    file.write(data)
    for name, counts in total.items():
        write(name, counts, expected)
    return int(any(c.how['refused'] or expected and c.others for c in total.values()))


if __name__ == '__main__':
    given.end_with_reader()
    sys.exit(main())
