#!/usr/bin/env python3
"""Explains a report: each line of its history with a sentence after it, and who waited for whom.

    tools/explain.py [FILE]              reads a report: FILE, or standard input
    tools/explain.py --fold [FILE]       the same, with the eight `copied` lines of a page as one line

A line of the history is followed by a sentence. A line that begins with dots is no line of the report: there a turn of
the schedule added nothing, since its actor had to wait. An `unfinished` line is followed by the operation, and by what
keeps it from its end: a wait, or that no turn is left. tools/reference runs the script once more to find all this. A
report that is not the one of its script is explained without it. Ends with status 3 if it is no report.
"""
import json, os, re, sys

HERE = os.path.dirname(os.path.abspath(__file__))
sys.path[:0] = [HERE, os.path.join(HERE, 'reference')]
import report as reports
import script as scripts
import words as given
from due import Wait
from run import FULL, Machine

COLUMN = 44
HAVE = re.compile(r'\{([^{}]*)\}')


def words_file():
    """The table of the page's script, which has the sentences: its second line on, up to the last brace."""
    name = os.path.join(os.path.dirname(HERE), 'crates', 'stored_examples', 'data', 'races', 'page', 'words.js')
    with open(name, encoding='ascii') as file:
        text = file.read()
    return json.loads(text[text.index('{\n'):text.rindex('}') + 1])


WORDS = words_file()


def pages(first, count):
    first, count = int(first), int(count)
    if count == 1:
        return f'page {first}'
    return 'all pages' if count == scripts.PAGES else f'pages {first} to {first + count - 1}'


def expand(text, fields, word=''):
    """A sentence of the table, with its fields; `word` is what a table was asked for."""
    def have(match):
        name, *of = match[1].split(' ')
        if name in ('', '#'):
            return word[len(name):]
        if name == 'pages':
            return pages(fields[of[0]], fields[of[1]])
        if name == 'count':
            return str(len(fields[of[0]]) // 2)
        return look_up(name, fields.get(of[0], ''), fields) if of else fields.get(name, '')
    return HAVE.sub(have, text)


def look_up(name, word, fields):
    table, parity = WORDS['tables'][name], 'odd' if word.isdigit() and int(word) % 2 else 'even'
    return expand(next(table[key] for key in (word, word[:1], parity, '*') if key in table), fields, word)


def sentence(word, *values):
    _, names, text = WORDS['kinds'][word]
    return expand(text, dict(zip(names.split(' '), values)))


def wait_text(actor, wait):
    names, long, _ = WORDS['waits']['told' if wait.why == 'invalidating' else wait.why]
    letters = {'p': 'p', 'm': 'm', 'v': '', 'q': '', 'f': '', 'b': ''}
    fields = {name: f'{letters[name]}{value}' for name, value in zip(names.split(' '), wait.what)}
    return expand(WORDS['waiting'], {'a': f'a{actor}', 'blockers': ' and '.join(f'a{b}' for b in wait.actors),
                                     'what': expand(long, fields)})


def rerun(text, history):
    """The machine after the script's run; none where the report is not that of its script."""
    try:
        machine = Machine(scripts.parse(text.encode()))
        machine.replay()
    except scripts.Refused:
        return None
    same = [reports.line(at, *entry) for at, entry in enumerate(machine.history)] == history
    return machine if same else None


def waits_of(machine):
    """The turns that waited, by the number of entries before them."""
    waits = {}
    for at, actor, wait in machine.waits:
        said = wait_text(actor, wait)
        if said not in waits.setdefault(at, []):
            waits[at].append(said)
    return waits


def unfinished_text(machine, actor):
    """What keeps an actor's operation from its end."""
    operation = scripts.operation_text(machine.script.actors[actor][machine.ended[actor]])
    if len(machine.history) == FULL:
        return f'`{operation}` has not ended: the history is full'
    has_begun = machine.running[actor] is not None
    due, _ = machine.due(actor)
    why = wait_text(actor, due) if isinstance(due, Wait) else f'no turn is left; `{reports.entry_text(due)}` is due'
    return f'`{operation}` has not {"ended" if has_begun else "begun"}: {why}'


def last_text(words, machine):
    """What the lines after the history say."""
    if words[0] == 'end':
        return f'{words[1]} entries'
    if machine is None:
        return f'operation {words[2]} of actor {words[1][1:]}, from 0, has not ended'
    return unfinished_text(machine, int(words[1][1:]))


def folded(history, at):
    """How many lines from there on are parts of one copy, one after the other."""
    position, actor, word, *rest = history[at].split(' ')
    if word != 'copied' or not rest[2].isdigit():
        return 1
    count, part = 1, int(rest[2])
    while at + count < len(history) and history[at + count] == ' '.join(
            [str(int(position) + count), actor, word, *rest[:2], str(part + count)]):
        count += 1
    return count


def print_history(history, waits, fold):
    at = 0
    while at < len(history):
        for said in waits.get(at, []):
            print(f'..    {said}')
        count = folded(history, at) if fold else 1
        # a wait between two parts stands above the second one
        count = next((n for n in range(1, count) if waits.get(at + n)), count)
        line = history[at]
        word, *words = line.split(' ')[2:]
        if count == 1:
            print(f'{line:{COLUMN}}{sentence(word, *words)}'.rstrip())
        else:
            last = str(int(words[2]) + count - 1)
            said = expand(WORDS['folded'], dict(zip('fgk', words), last=last))
            print(f'{line + " to " + last:{COLUMN}}{said}')
        at += count


def main():
    given.begin(__doc__)
    given.end_with_reader()
    fold = sys.argv[1:2] == ['--fold']
    lines = given.data_of(sys.argv[1 + fold:], ('--fold',)).decode('ascii', 'replace').splitlines()
    if 'history' not in lines:
        is_script = lines[:1] and lines[0].startswith('hmm ')
        print('explain.py: ' + ('this is a script; `./hmmrun.sh replay` writes its report' if is_script
                                else 'this is no report: there is no line `history`'), file=sys.stderr)
        return 3
    start = lines.index('history')
    rest = lines[start + 1:]
    history = [line for line in rest if line[:1].isdigit()]
    machine = rerun(''.join(line + '\n' for line in lines[:start]), history)
    waits = waits_of(machine) if machine else {}
    for line in lines[:start + 1]:
        print(line)
    print_history(history, waits, fold)
    for said in waits.get(len(history), []):
        print(f'..    {said}')
    for line in rest[len(history):]:
        print(f'{line:{COLUMN}}{last_text(line.split(" "), machine)}')
    return 0


if __name__ == '__main__':
    sys.exit(main())
