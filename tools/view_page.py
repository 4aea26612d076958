#!/usr/bin/env python3
"""The page of a report, from the short reference program: what hmmview must write. Slow, and proved by nobody.

    tools/view_page.py [FROM TO] [FILE]              the page of a report: FILE, or standard input
    tools/view_page.py --lines [FROM TO] [FILE]      its lines alone
    tools/view_page.py --constants                   writes the page's files into crates/hm_view/src/page.rt

Ends with status 1 if that is no legal report. For short reports: it replays what came before for each actor at each
row. How a page looks is in the files of crates/stored_examples/data/races/page.
"""
import os, re, sys

TOP = os.path.dirname(os.path.dirname(os.path.abspath(__file__)))
sys.path[:0] = [os.path.join(TOP, 'tools'), os.path.join(TOP, 'tools', 'reference')]
import report as reports
import script as scripts
import words as given
from due import Wait
from run import Machine
from state import RELEASING

FILES = os.path.join(TOP, 'crates', 'stored_examples', 'data', 'races', 'page')
CONSTANTS = os.path.join(TOP, 'crates', 'hm_view', 'src', 'page.rt')
MARK = '<pre id="data">'
FINDINGS = {'failed', 'refused', 'retry', 'kept', 'migrated', 'evicted'}


def read(data):
    """The script of a report, and the actors of its entries in their order."""
    reports.check(data)
    lines = data.decode().split('\n')
    reader = scripts.Reader()
    start = lines.index('history')
    for line in lines[:start]:
        reader.line(line.encode())
    entries = [line.split(' ') for line in lines[start + 1:] if line[:1].isdigit()]
    return reader.script, [int(words[1][1:]) for words in entries]


def machine_after(script, actors):
    machine = Machine(script)
    for actor in actors:
        machine.step(actor)
    return machine


def due_to(script, actors, actor):
    """What is due to an actor after the entries of these. It asks a machine of its own, since asking moves it on."""
    machine = machine_after(script, actors)
    return None if machine.is_idle(actor) else machine.due(actor)[0]


def standing_word(due):
    """The word for what is due to an actor: an entry, a wait, or nothing."""
    if not isinstance(due, Wait):
        return '-' if due is None else '+'
    what = due.what
    if due.why == 'lock':
        return f'lock/p{what[0]}/a{due.actors[0]}'
    if due.why == 'moving':
        return f'moving/p{what[0]}/{what[1]}'
    if due.why == 'frame':
        return f'frame/{what[0]}/a{due.actors[0]}'
    return f'told/m{what[0]}/{what[1]}'


def standing(script, actors, actor):
    return standing_word(due_to(script, actors, actor))


def standings(script, actors):
    return ' '.join([':', *(standing(script, actors, a) for a in range(len(script.actors)))])


def lock_changes(actor, entry):
    if entry[0] in ('rlock', 'wlock'):
        yield f'{"reads" if entry[0] == "rlock" else "writes"} a{actor} p{entry[1]}'
    if entry[0] in RELEASING:
        yield f'unlock a{actor}'


def locker_change(state, frame):
    locker = state.locker.get(frame)
    return f'loose {frame}' if locker is None else f'locked {frame} a{locker}'


def seq_change(state, process):
    return f'sequence p{process} {state.seq[process]}'


def interval_change(state, mirror):
    return f'interval m{mirror} {state.mirrors[mirror].seq}'


def span_text(span):
    return f'{span.first} {span.count}'


def process_changes(state, actor, entry):
    match entry:
        case ('stored', who, address, data):
            yield f'bytes p{state.process_of(who)} {address} {data.hex()}'
        case ('mapped', p, span, right):
            yield f'area p{p} {span_text(span)} {right}'
            yield f'zeros p{p} {span_text(span)}'
        case ('unmapped', p, span):
            yield f'cut p{p} {span_text(span)}'
        case ('protected', p, span, right):
            yield f'right p{p} {span_text(span)} {right}'
        case ('forked', p, child):
            yield from (f'there p{child}', f'copy p{p} p{child}')
        case ('named', _, child):
            yield seq_change(state, child)
        case ('exited', p):
            yield from (f'left p{p}', f'bare p{p}')
        case ('start', p, span, _):
            yield from (seq_change(state, p), f'guard a{actor} p{p} {span_text(span)}')
        case ('end', p, _, _):
            yield from (seq_change(state, p), f'unguard a{actor}')


def mirror_changes(state, entry):
    match entry:
        case ('attached', m, d, p, span, _):
            yield from (seq_change(state, p), f'attached m{m} d{d} p{p} {span_text(span)}', interval_change(state, m))
        case ('detaching', m, _):
            yield from (f'stage m{m} detaching', f'clear m{m}')
        case ('detached', m):
            yield from (f'stage m{m} gone', f'clear m{m}')
        case ('told', m, span, _):
            yield from (f'erase m{m} {span_text(span)}', interval_change(state, m))
        case ('added', m, address, _, now):
            yield f'bytes p{state.mirrors[m].process} {address} {now.hex()}'
        case ('set', *_):
            yield reports.entry_text(entry)


def frame_changes(state, actor, entry, before):
    match entry:
        case ('take', frame):
            yield from (f'held {frame}', f'locked {frame} a{actor}')
        case ('drop', frame):
            yield from (f'free {frame}', f'loose {frame}')
        case ('done', frame):
            yield f'loose {frame}'
        case ('place', _, _, place):
            yield from (locker_change(state, frame) for frame in (before, place.frame) if frame)
            yield reports.entry_text(entry)
        case ('withdrawn' | 'removed', _):
            yield reports.entry_text(entry)


FIRST_CHANGES = ['= there p0', '= sequence p0 2']


def changes(state, actor, entry, before):
    """The lines of what an entry changed; the state is that after it, `before` the frame that its page named."""
    parts = (lock_changes(actor, entry), process_changes(state, actor, entry), mirror_changes(state, entry),
             frame_changes(state, actor, entry, before))
    return ['= ' + words for part in parts for words in part]


def front_lines(script, actors):
    """The script's lines, and the findings among the entries of these actors."""
    found = [reports.line(at, *x) for at, x in enumerate(machine_after(script, actors).history) if x[1][0] in FINDINGS]
    return scripts.text(script).split('\n')[:-1] + ['findings', *found]


def row_lines(script, actors, first):
    """The lines of the rows of these actors' entries; those before `first` are not shown."""
    machine = Machine(script)
    for at, actor in enumerate(actors):
        if at >= first:
            yield standings(script, actors[:at])
        places = {p: dict(pages) for p, pages in machine.state.places.items()}
        entry = machine.step(actor)
        before = places.get(entry[1], {}).get(entry[2]) if entry[0] == 'place' else None
        yield reports.line(at, actor, entry)
        yield from changes(machine.state, actor, entry, before.frame if before else None)


def page_lines(data, first, behind):
    script, actors = read(data)
    behind = len(actors) if behind is None else min(behind, len(actors))
    lines = front_lines(script, actors) + [f'rows {first}', *FIRST_CHANGES]
    lines += [*row_lines(script, actors[:behind], first), standings(script, actors[:behind])]
    return lines + reports.report(machine_after(script, actors)).split('\nhistory\n', 1)[1].split('\n')[len(actors):-1]


def file_text(name):
    with open(os.path.join(FILES, name), encoding='ascii') as file:
        return file.read()


def with_files(line):
    """A line of page.html; one that names a file of styles or a script has its text instead."""
    named = re.fullmatch(r'<link rel="stylesheet" href="([a-z.]+)">|<script src="([a-z.]+)"></script>', line)
    if not named:
        return line + '\n'
    tag = 'style' if named[1] else 'script'
    return f'<{tag}>\n{file_text(named[1] or named[2])}</{tag}>\n'


def page_parts():
    """What stands before a page's lines, and what stands after them."""
    page = ''.join(with_files(line) for line in file_text('page.html').splitlines())
    head, tail = page.split(MARK)
    return head + MARK, tail


def write_constants():
    """Puts the page's files into the two constants of the program, one after the other."""
    with open(CONSTANTS) as source:
        parts = re.split(r'(br##").*?("##)', source.read(), flags=re.S)
    head, tail = page_parts()
    with open(CONSTANTS, 'w') as source:
        source.write(''.join([*parts[:2], head, *parts[2:5], tail, *parts[5:]]))


def main():
    given.begin(__doc__)
    given.end_with_reader()
    if sys.argv[1:] == ['--constants']:
        write_constants()
        return
    words, numbers = [word for word in sys.argv[1:] if word != '--lines'], []
    while words and words[0].isdigit():
        numbers.append(int(words.pop(0)))
    if len(numbers) not in (0, 2):
        given.refuse('two numbers are wanted, FROM TO, or none')
    first, behind = numbers or (0, None)
    data = given.data_of(words, ('--lines', '--constants'))
    try:
        text = ''.join(line + '\n' for line in page_lines(data, first, behind))
    except (reports.NotLegal, scripts.Refused) as bad:
        print(f'view_page.py: not legal: line {bad.args[0]}', file=sys.stderr)
        if data.startswith(b'hmm ') and b'\nhistory\n' not in data:
            print('view_page.py: this is a script; `./hmmrun.sh replay` writes its report', file=sys.stderr)
        sys.exit(1)
    head, tail = ('', '') if '--lines' in sys.argv else page_parts()
    sys.stdout.write(head + text + tail)


if __name__ == '__main__':
    main()
