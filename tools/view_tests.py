#!/usr/bin/env python3
"""Tries the page of a report in a headless Chromium: its states, keys, filter, folds, narrow and dark screens, and speed.

    tools/view_tests.py                       tries the states of all examples at all rows, the pages of gallery races,
                                              and what a page says of every kind of row
    tools/view_tests.py --pictures            the same, and writes the pictures of docs/
    tools/view_tests.py --long PAGE           the same with a long page as well, which hmmview wrote, and its times
    tools/view_tests.py --pictures --long PAGE

For a long page: ./hmmrun.sh generate 1 | ./hmmrun.sh replay | ./hmmview.sh 0 20000 > PAGE. Ends with status 1 if
something is wrong. The states are compared by tools/view_states.py.
"""
import glob, os, sys, tempfile

import explain
import view_bad
import view_broken
import view_outcomes
import view_page
import view_states
import words
from view_browser import Browser

DATA = os.path.join(view_page.TOP, 'crates', 'stored_examples', 'data', 'replays')
DOCS = os.path.join(view_page.TOP, 'docs')
LOSS, RETRY, DEVICES = 'exclusive_against_store', 'look_up_must_retry', 'two_devices_one_page'
CLASSES = ['answer', 'lock', 'place', 'guard', 'move', 'table', 'step', 'waits', 'goes']
wrong = []

CONTRAST = """(() => {
  const light = text => {
    const [r, g, b] = text.match(/\\d+/g).map(x => x / 255).map(x => x <= 0.03928 ? x / 12.92
      : ((x + 0.055) / 1.055) ** 2.4);
    return 0.2126 * r + 0.7152 * g + 0.0722 * b;
  };
  const back = light(getComputedStyle(document.body).backgroundColor);
  return %s.map(cls => {
    const e = byId('legend').appendChild(make('span', cls)), x = light(getComputedStyle(e).color);
    e.remove();
    return (Math.max(x, back) + 0.05) / (Math.min(x, back) + 0.05);
  });
})()""" % CLASSES
# how many marks of their own are below the slider
MARKS = """(() => {
  const c = byId('marks'), points = c.getContext('2d').getImageData(0, 3, c.width, 1).data;
  const line = [...points].filter((x, i) => i % 4 === 3);
  return line.filter((x, i) => x && !line[i - 1]).length;
})()"""
# how many of these rows change something, and of how many the first change is inside the pane
CHANGES_SEEN = """(() => {
  let some = 0, seen = 0;
  for (let at = report.from; at < report.rows.length; at += %d) {
    choose(at, true);
    const change = document.querySelector('#now ins, #now del'), pane = byId('pane').getBoundingClientRect();
    some += report.rows[at].changes.length > 0;
    if (!change) continue;
    const box = change.getBoundingClientRect();
    seen += box.top >= pane.top && box.bottom <= pane.bottom;
  }
  return [some, seen];
})()"""
CHOSEN_SEEN = """(() => {
  const row = drawn.get(itemAt[chosen]).getBoundingClientRect(), box = byId('rows').getBoundingClientRect();
  return row.top > box.top + 20 && row.bottom < box.bottom;
})()"""
# the median and the longest of the times of 300 steps from a row on, with the layout after each
STEPS = """(() => {
  const times = [];
  choose(%d, true);
  for (let i = 0; i < 300; i++) {
    const start = performance.now();
    step(1);
    document.body.getBoundingClientRect();
    byId('pane').getBoundingClientRect();
    times.push(performance.now() - start);
  }
  times.sort((x, y) => x - y);
  return [times[150], times[299]];
})()"""


def expect(what, got, wanted):
    if got != wanted:
        wrong.append(what)
        print(f'{what}: {got!r}, and not {wanted!r}')


def report_of(name):
    with open(os.path.join(DATA, 'gallery', name + '.report'), 'rb') as file:
        return file.read()


def write_page(page, report):
    head, tail = view_page.page_parts()
    with open(page, 'w') as file:
        file.write(head + ''.join(x + '\n' for x in view_page.page_lines(report, 0, None)) + tail)


def page_of(name):
    """The page of a gallery race, in a file of its own in the folder that is the current one."""
    page = name + '.html'
    if not os.path.exists(page):
        write_page(page, report_of(name))
    return page


def press(browser, keys):
    """The rows that these keys lead to, one after the other."""
    rows = []
    for key in keys.split(' '):
        browser.key(key)
        rows.append(browser.run('chosen'))
    return rows


def try_keys(browser):
    browser.open(page_of(DEVICES))
    expect('the set-up is one row', browser.run('[chosen, items[0].lo, items[1].lo]'), [8, 0, 9])
    expect('rows', press(browser, 'j ArrowDown k End Home'), [9, 10, 9, 62, 8])
    expect('findings', press(browser, 'n n n p'), [22, 24, 27, 24])
    expect('waits', press(browser, 'w w W'), [27, 36, 27])
    expect('a fold', press(browser, 'Home ArrowRight Home ArrowLeft'), [8, 8, 0, 8])
    expect('all folds', [browser.run('items.length'), press(browser, 'f'), browser.run('items.length')], [47, [8], 63])
    press(browser, 'f s')
    browser.run('choose(20)')
    expect('the schedule', browser.run('document.querySelector("#script .used").textContent'),
           'turns 1 99   turn 3 of 99')
    press(browser, 's c')
    expect('narrow lanes', browser.run('[how.tab, how.compact]'), ['state', True])
    press(browser, 'c /')
    expect('the filter has the keys', browser.run('document.activeElement.id'), 'filter')


def try_filter(browser):
    browser.open(page_of(DEVICES))
    lines = [x.split(' ') for x in report_of(DEVICES).decode().split('history\n')[1].split('\n')[:-2]]
    browser.run('byId("filter").value = "m1"; filter()')
    expect('the filter', browser.run('items.map(x => x.hi)'), [int(x[0]) for x in lines if 'm1' in x[2:]])
    browser.run('byId("filter").value = "a1 place"; filter()')
    expect('two words', browser.run('items.map(x => x.hi)'),
           [int(x[0]) for x in lines if x[1:3] == ['a1', 'place']])
    browser.run('location.hash = "#22"')
    browser.run('new Promise(done => setTimeout(done, 100))')
    expect('a link clears the filter', browser.run('[chosen, byId("filter").value]'), [22, ''])
    browser.run('location.hash = "#999"')
    browser.run('new Promise(done => setTimeout(done, 100))')
    expect('no such row', browser.run('[chosen, byId("chosen").textContent]'), [22, 'there is no row 999 here'])
    browser.open(page_of(LOSS))
    expect('a lost page is a finding', press(browser, 'n'), [19])
    browser.open(page_of(DEVICES))
    browser.run('[...byId("findings").children].find(e => /kept/.test(e.textContent)).querySelector("input").click()')
    expect('a kind that is switched off', press(browser, 'n n p'), [24, 27, 24])
    expect('marks', [browser.run(MARKS), browser.run('how.off.clear(); drawMarks(); ' + MARKS)], [5, 6])


def entries_up_to(script):
    """The history that a script comes to, as a report has its entries."""
    machine = view_outcomes.Machine(view_outcomes.scripts.parse(script.encode()))
    machine.replay()
    return [view_page.reports.line(at, *x) for at, x in enumerate(machine.history)]


def try_links(browser):
    """Matches, the address, links to causes, the row that made a line of the state, and the script up to a row."""
    name = page_of(DEVICES)
    browser.open(name, '#12/m1')
    expect('the address has the filter', browser.run('[chosen, byId("filter").value]'), [12, 'm1'])
    count = browser.run('items.length')
    browser.run('choose(items[1].hi); byId("filter").focus()')
    expect('which match', browser.run('byId("matches").textContent'), f'2 of {count}')
    browser.key('Enter')
    expect('the next match', browser.run('byId("matches").textContent'), f'3 of {count}')
    expect('the title', browser.run('document.title.split(":")[0]'), name)
    lines = report_of(RETRY).decode().split('history\n')[1].split('\n')
    told = [int(x.split(' ')[0]) for x in lines if x.split(' ')[2:4] == ['told', 'm0']]
    begun = [int(x.split(' ')[0]) for x in lines if x.split(' ')[2:4] == ['begin', 'm0']]
    cause = min(x for x in told if x > max(y for y in begun if y < 27))
    browser.open(page_of(RETRY), '#27')
    expect('a retry has what told it', browser.run('[...document.querySelectorAll("#now a")].map(x => x.textContent)'),
           [f'row {cause}'])
    loads = browser.run('report.rows.filter(x => x.words[0] === "loaded").map(x => [x.at, x.causes])')
    stores = browser.run('report.rows.filter(x => x.words[0] === "stored").map(x => x.at)')
    expect('a load has its store', loads, [[at, [max(x for x in stores if x < at)]] for at, _ in loads])
    made = browser.run('[...walk.lines.keys()].map(key => [key, report.madeBy(key, chosen)])')
    changed = browser.run('report.rows.map(row => row.changes.map(x => x[0]))')
    wanted = [[key, max((at for at, keys in enumerate(changed[:28]) if key in keys), default=None)] for key, _ in made]
    expect('who made a line of the state', made, wanted)
    entries = [x for x in lines if x[:1].isdigit()]
    for at in (9, 20, 27):
        expect(f'the script up to {at}', entries_up_to(browser.run(f'report.scriptUpTo({at})')), entries[:at + 1])


def try_bad(browser):
    """A report that is not legal is drawn up to its bad line, which is marked, with what hmmjudge says above it."""
    lines = report_of(RETRY).decode().split('\n')
    at = lines.index('history') + 1 + 27
    lines[at] = '27 a0 runlock p0'
    said = f'bad {at + 1}\nentry {lines[at]}\nbreaks due\ndue a0 27 a0 retry m0\n'
    with open('bad.html', 'w') as file:
        file.write(view_bad.page_text('\n'.join(lines).encode(), said))
    browser.open('bad.html')
    expect('the bad line is the last row', browser.run('[chosen, report.rows.length]'), [27, 28])
    expect('it is marked', browser.run('[...document.querySelectorAll(".breaks")].map(x => x.id)'), ['r27'])
    expect('what is wrong with it', browser.run('byId("bad").textContent.trim()'), said.strip())


def try_reading(browser):
    """What a screen reader, a printer and the clipboard get."""
    browser.open(page_of(RETRY), '#27')
    expect('the row is said', browser.run('byId("said").textContent.slice(0, 20)'), 'row 27: a0 retry m0.')
    expect('the row is the active one', browser.run('byId("rows").getAttribute("aria-activedescendant")'), 'r27')
    expect('few stops of the tab key', browser.run(
        '[...document.querySelectorAll("a[href], button, input, summary, [tabindex]")]'
        '.filter(e => e.tabIndex >= 0 && e.offsetParent).length < 25'), True)
    expect('a row as text', browser.run('byId("r27").textContent'), '27 T retry m0')
    browser.run('forPrint(true)')
    expect('all is printed', browser.run('drawn.size'), 34)
    browser.run('forPrint(false)')
    expect('then it is as before', browser.run('[chosen, drawn.size]'), [27, 20])


def try_screens(browser):
    for width, height in ((1400, 900), (700, 450), (390, 844), (844, 390)):
        browser.size(width, height, width < 1000)
        browser.open(page_of(DEVICES), '#27')
        expect(f'{width} wide: the chosen row is in view', browser.run(CHOSEN_SEEN), True)
        press(browser, 'Home End')
        expect(f'{width} wide: the last row is in view', browser.run(CHOSEN_SEEN), True)
        expect(f'{width} wide: nothing is beside the screen',
               browser.run('document.documentElement.scrollWidth <= innerWidth'), True)
        expect(f'{width} wide: there is room for rows', browser.run('byId("rows").clientHeight > 150'), True)
        expect(f'{width} wide: the sentence is in view', browser.run(
            '(() => { const p = byId("pane").getBoundingClientRect(), q = byId("now").children[2]'
            '.getBoundingClientRect(); return q.bottom <= p.bottom && q.right <= innerWidth; })()'), True)
    browser.size(1400, 900)
    browser.open(page_of(DEVICES), '#57')
    browser.size(390, 844, True)
    browser.run('new Promise(done => setTimeout(done, 200))')
    expect('the chosen row is in view after a resize', browser.run(CHOSEN_SEEN), True)
    browser.size(1400, 900)
    for is_dark in (False, True):
        browser.dark(is_dark)
        browser.open(page_of(RETRY))
        low = [name for name, x in zip(CLASSES, browser.run(CONTRAST)) if x < 4.5]
        expect(f'contrast of at least 4.5, dark {is_dark}', low, [])
    browser.dark(False)


TWO_LINES = """hmm 1
frames 4
actor 0
map 0 16 1 rw
store 0 0x10000 41
turns 0 2
turns 0 1
turns 0 9
"""


def try_changes(browser):
    """Each change is in view; a line of the schedule that has no turn left is followed by the next."""
    browser.open(page_of(DEVICES))
    browser.run('setFolded(false)')
    some, seen = browser.run(CHANGES_SEEN % 1)
    expect('rows that change something', some > 40, True)
    expect('each change in view', seen, some)
    write_page('turns.html', view_outcomes.report_with(TWO_LINES, []))
    browser.open('turns.html')
    expect('turns of one actor, one line after the other',
           browser.run('report.rows.map(x => [report.schedule.indexOf(x.turn), x.used])'),
           [[0, 1], [0, 2], [1, 1], *([2, turn] for turn in range(1, 5))])


def try_words(browser):
    """Each entry of each example as a sentence, by the page's script and by tools/explain.py."""
    browser.open(page_of(RETRY))
    entries = set()
    for name in glob.glob(os.path.join(DATA, '*', '*.report')):
        with open(name) as file:
            text = file.read().split('history\n')[1]
        entries |= {tuple(x.split(' ')[2:]) for x in text.split('\n') if x[:1].isdigit()}
    entries = sorted(entries)
    said = browser.run(f'{[list(x) for x in entries]}.map(sentence)')
    expect('sentences', [x for x, y in zip(entries, said) if y.rstrip() != explain.sentence(*x).rstrip()], [])
    expect('every kind of entry', {x[0] for x in entries} == set(explain.WORDS['kinds']), True)


def write_outcomes(name):
    """Writes the page of a race into outcomes.html, and gives its outcomes."""
    texts = []
    for ending in ('.hmm', '.outcomes'):
        with open(os.path.join(view_page.TOP, 'crates', 'stored_examples', 'data', 'races', name + ending)) as file:
            texts.append(file.read())
    outcomes, last = view_outcomes.outcomes_of(texts[1])
    with open('outcomes.html', 'w') as file:
        file.write(view_outcomes.page_text(texts[0], outcomes, last))
    return outcomes


def try_outcomes(browser):
    """The page of a race: each outcome has the answers that its history has at the end."""
    for name in ('look_up_must_retry', 'store_among_stores', 'eviction_against_fork'):
        outcomes = write_outcomes(name)
        browser.open('outcomes.html')
        for i, (_, answers, _) in enumerate(outcomes):
            browser.run(f'showOutcome({i})')
            answered = browser.run('report.rows.filter(x => classOf(x.words[0]) === "answer").map(entryText)')
            shown = [x for a in sorted({x.split(' ')[0] for x in answers})
                     for x in [y for y in answered if y.startswith(a + ' ')]
                     [-sum(y.startswith(a + ' ') for y in answers):]]
            expect(f'{name}, outcome {i + 1}', shown, answers)
        browser.open('outcomes.html', f'?outcome={len(outcomes)}')
        expect(f'{name}: the outcome in the address is shown', browser.run('seen'), len(outcomes) - 1)
        expect(f'{name}: two histories part where they differ', browser.run(
            '(() => { const one = report, two = new Report(RACE[0].text), at = parting(one, two);'
            'return at > 0 && entryText(one.rows[at - 1]) === entryText(two.rows[at - 1])'
            '&& entryText(one.rows[at]) !== entryText(two.rows[at]); })()'), True)


def write_broken(rule, stem, shortest):
    """Writes the page of a race that hmmwithout found, and gives its last line but what it breaks."""
    with open(stem + '.hmm', 'rb') as file:
        script = view_broken.scripts.parse(file.read())
    with open(shortest, encoding='ascii') as file:
        text = file.read()
    with open('broken.html', 'w') as file:
        file.write(view_broken.page_text(*view_broken.race_of(script, rule, text), rule))
    return [line for line in text.splitlines() if not line.startswith('owed ')][-3:-1]


def try_broken(browser):
    """The last row of each shortest race of the examples is marked, and it is said what it breaks."""
    for name in sorted(glob.glob(os.path.join(view_page.TOP, 'examples', 'races', '*.without'))):
        stem = name.removesuffix('.without')
        with open(name, encoding='ascii') as file:
            rule = file.readline().strip()
        with open(stem + '.shortest', encoding='ascii') as file:
            if file.read().startswith(('none', 'unused')):
                continue
        last, breaks = write_broken(rule, stem, stem + '.shortest')
        browser.open('broken.html')
        entry = ' '.join(last.split(' ')[1:])
        expect(f'{rule}, marked', browser.run("document.querySelectorAll('.breaks').length"), 1)
        expect(f'{rule}, row', browser.run("entryText(report.rows[+document.querySelector('.breaks').id.slice(1)])"), entry)
        expect(f'{rule}, part', browser.run("byId('broken').textContent").split(':')[0], f"Row {last.split(' ')[0]} {breaks}")


def processor_time(browser):
    """What the page's thread has used, in ms: the machine's other work does not count, as it does on the clock."""
    metrics = browser.ask('Performance.getMetrics')['metrics']
    return 1000 * next(x['value'] for x in metrics if x['name'] == 'TaskDuration')


def try_long(browser, page):
    browser.ask('Performance.enable', timeDomain='threadTicks')
    browser.open(page)
    browser.run('new Promise(done => requestAnimationFrame(() => setTimeout(done, 100)))')
    used = processor_time(browser)
    paint = browser.run('performance.getEntriesByType("paint").map(x => x.startTime)')
    ready = browser.run('performance.timing.domContentLoadedEventEnd - performance.timing.navigationStart')
    print(f'long page: first paint after {max(paint):.0f} ms, all is there after {ready} ms, '
          f'with {used:.0f} ms of processor')
    expect('it is there in 2 s of processor time', used < 2000, True)
    for at in browser.run('[0, 1, 2, 3].map(i => Math.floor(report.rows.length * (1 + 6 * i) / 20))'):
        before = processor_time(browser)
        median, longest = browser.run(STEPS % at)
        used = (processor_time(browser) - before) / 300
        print(f'long page: 300 steps from row {at}: {used:.1f} ms of processor each; on the clock the median is '
              f'{median:.1f} ms, the longest {longest:.1f} ms')
        expect(f'a step from {at} under 16 ms of processor time', used < 16, True)
    some, seen = browser.run(CHANGES_SEEN % 97)
    print(f'long page: {some} rows that change something, the change is in view in {seen}')
    expect('changes in view', seen, some)


def picture(browser, name, page, at, width=1400, height=700, is_dark=False, first=''):
    browser.size(width, height, width < 700)
    browser.dark(is_dark)
    browser.open(page, at)
    browser.run(first)
    browser.picture(os.path.join(DOCS, name))


def draw_pictures(browser, long_page):
    picture(browser, 'view_wait.png', page_of(DEVICES), '#32')
    picture(browser, 'view_retry.png', page_of(RETRY), '#27')
    picture(browser, 'view_dark.png', page_of(LOSS), '#19', is_dark=True)
    picture(browser, 'view_phone.png', page_of(DEVICES), '#35', 390, 844)
    if long_page:
        picture(browser, 'view_long.png', long_page, '#12338')
    write_outcomes('store_among_stores')
    picture(browser, 'view_outcomes.png', 'outcomes.html', '', first='showOutcome(1); showOutcome(3)')
    write_broken('look-again', os.path.join(view_page.TOP, 'examples', 'races', 'exclusive_against_store'),
                 os.path.join(view_page.TOP, 'examples', 'races', 'exclusive_against_store.shortest'))
    picture(browser, 'view_broken.png', 'broken.html', '')


def examples():
    """The reports of examples/, those of races aside."""
    folders = [os.path.join(view_page.TOP, 'examples', name) for name in ('', 'worked', 'gallery')]
    return [path for folder in folders for path in sorted(glob.glob(os.path.join(folder, '*.report')))]


def main():
    words.begin(__doc__)
    given = [x for x in sys.argv[1:] if x != '--pictures']
    if given and (given[0] != '--long' or len(given) != 2):
        words.refuse(f'`{given[-1]}` is a word too many')
    long_page = os.path.abspath(given[1]) if given else None
    with tempfile.TemporaryDirectory() as room, Browser() as browser:
        os.chdir(room)
        browser.size(1400, 900)
        wrong.extend(['a state'] * view_states.compare(browser, examples()))
        for tries in (try_keys, try_filter, try_links, try_bad, try_reading, try_screens, try_changes, try_words,
                      try_outcomes, try_broken):
            tries(browser)
        if long_page:
            try_long(browser, long_page)
        if '--pictures' in sys.argv:
            draw_pictures(browser, long_page)
    print(f'{len(wrong)} wrong')
    sys.exit(bool(wrong))


if __name__ == '__main__':
    main()
