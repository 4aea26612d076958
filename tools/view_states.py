#!/usr/bin/env python3
"""Whether the script in a page puts the right states together, and says the right waits and turns of the schedule.

    tools/view_states.py REPORT ..        needs a headless Chromium

The browser opens the page of each report, and says the state after each row as the page shows it. The reference
program goes through the same report, and what holds after each entry is compared line by line.
"""
import re, sys, tempfile

import explain
import view_page
import words
from due import Wait
from run import Machine
from script import PAGE_BYTES
from view_browser import Browser

# the lines of the state as the pane has them, at each row and then at each row backwards; the waits, and the turns
ALL_STATES = """(() => {
  const pane = () => [...document.querySelectorAll('#state li')].map(li => li.textContent), states = [];
  const waitsOf = row => row.stands.map((x, a) => isWait(x) && waitSentence('a' + a, x)).filter(x => x);
  setFolded(false);
  for (const row of report.rows) { choose(row.at, true); states.push(pane()); }
  for (const row of report.rows.slice().reverse()) {
    choose(row.at, true);
    if (pane().join() !== states[row.at].join()) states[row.at].push('another when one comes from below');
  }
  return [states, report.rows.map(waitsOf), report.rows.map(x => x.turn && [report.schedule.indexOf(x.turn), x.used])];
})()"""


def span(first, count):
    return f'page {first}' if count == 1 else f'pages {first} to {first + count - 1}'


def readings(s, p):
    """The bytes of each page in an area that are not zero."""
    for page, data in sorted(s.bytes.get(p, {}).items()):
        if s.right(p, page) and any(data):
            runs = re.finditer(rb'[^\0]+', bytes(data))
            yield page, ', '.join(f'{run[0].hex()} at {hex(page * PAGE_BYTES + run.start())}' for run in runs)


def process_lines(s, p):
    if not s.is_there(p):
        yield 'is not there'
    yield f'sequence {s.seq[p]}'
    for area in sorted(s.areas.get(p, ()), key=lambda a: a.span.first):
        yield f'area {span(area.span.first, area.span.count)} {area.right}'
    for page in s.pages[p]:
        yield f'page {page} is {s.places[p][page]}'
    for page, text in readings(s, p):
        yield f'page {page} reads {text}'


def mirror_lines(s, m):
    x = s.mirrors[m]
    stage = '' if x.attached else ', detaching'
    yield f'd{x.device} of p{x.process}, window {span(x.window.first, x.window.count)}{stage}'
    yield f'interval at {x.seq}'
    for page, (frame, right, _) in sorted(s.tables[m].items()):
        yield f'page {page} has {frame or "zero"} {right}'


def lines_of(s, gone):
    """What holds in a state; `gone` has the mirrors that were detached."""
    for p in sorted(set(s.areas) | {p for p in s.pages if s.pages[p]}):
        yield from process_lines(s, p)
    for actor in s.guards:
        yield f'a{actor} invalidates'
    for m in sorted(set(s.mirrors) - gone):
        yield from mirror_lines(s, m)
    for device in s.held:
        for number in s.held[device]:
            frame = f's{number}' if device is None else f'd{device}.{number}'
            locker = {str(f): a for f, a in s.locker.items()}.get(frame)
            yield frame + ('' if locker is None else f' locked by a{locker}')
    for actor, (p, writes) in s.map_lock.items():
        yield f'a{actor} {"writes" if writes else "reads"} p{p}'
    for d in s.withdrawn:
        yield f'd{d} ' + ('removed' if d in s.removed else 'withdrawn')


def states(data):
    script, actors = view_page.read(data)
    machine, gone = Machine(script), set()
    for actor in actors:
        machine.step(actor)
        entry = machine.history[-1][1]
        if entry[0] == 'detached':
            gone.add(entry[1])
        yield sorted(lines_of(machine.state, gone))


def waits(data):
    """Who waits for whom before each entry, in words."""
    script, actors = view_page.read(data)
    for at in range(len(actors)):
        dues = [(a, view_page.due_to(script, actors[:at], a)) for a in range(len(script.actors))]
        yield [explain.wait_text(a, due) for a, due in dues if isinstance(due, Wait)]


def turns(data):
    """Of each entry, the line of the schedule that it comes from, from 0, and which turn of the line it is."""
    machine = Machine(view_page.read(data)[0])
    for line, (word, *numbers) in enumerate(machine.script.schedule):
        before = len(machine.history)
        machine.drain() if word == 'drain' else machine.turns(*numbers)
        yield from ([line, turn + 1] for turn in range(len(machine.history) - before))


def shown(browser, data):
    """What the page's script says of each row: the lines that hold, the waits, and the turn of the schedule."""
    head, tail = view_page.page_parts()
    lines = ''.join(line + '\n' for line in view_page.page_lines(data, 0, None))
    with tempfile.NamedTemporaryFile('w', suffix='.html') as page:
        page.write(head + lines + tail)
        page.flush()
        browser.open(page.name)
        said, waiting, used = browser.run(ALL_STATES)
    said = [sorted(re.sub(r'(invalidates) .*', r'\1', line) for line in state) for state in said]
    return zip(said, waiting, used, strict=True)


def compare(browser, names):
    """Says the first wrong row of each report, and how many reports there are. Gives how many are wrong."""
    wrong = rows = 0
    for name in names:
        with open(name, 'rb') as report:
            data = report.read()
        wanted = zip(states(data), waits(data), turns(data), strict=True)
        pairs = list(zip(wanted, shown(browser, data), strict=True))
        bad = [at for at, (a, b) in enumerate(pairs) if a != b]
        for at in bad[:1]:
            print(f'{name}: row {at}: {[(x, y) for x, y in zip(*pairs[at]) if x != y]}')
        wrong, rows = wrong + bool(bad), rows + len(pairs)
    print(f'{len(names)} reports with {rows} rows, {wrong} wrong')
    return wrong


def main():
    words.begin(__doc__)
    names = sys.argv[1:]
    if not names:
        words.refuse('no report is given, so nothing is compared')
    with Browser() as browser:
        sys.exit(compare(browser, names) > 0)


if __name__ == '__main__':
    main()
