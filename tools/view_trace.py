#!/usr/bin/env python3
"""One page of a trace: a lane for each thread, and what hmmtrace says of it.

    tools/view_trace.py [FILE] > page.html

Reads a trace (docs/TRACE.md), and asks hmmtrace for the verdicts. Time goes down: one row an event, one lane a thread.
The head has the rules, those that are broken or may be first; a click on one leads to its event, whose row is marked.
Lines at the left of a lane show what the thread is in: an invalidation, a callback, a walk, a migration. The page needs
nothing else, and knows no rule: it shows what the program said. Ends with hmmtrace's status if that is above 1.
"""
import html, os, re, subprocess, sys

TOP = os.path.dirname(os.path.dirname(os.path.abspath(__file__)))
sys.path.insert(0, os.path.join(TOP, 'tools'))
import words as given

# what a thread is in from one word to another: the letter of its line, and the words that end it
SPANS = {'start': ('i', {'end'}), 'tell': ('c', {'told'}), 'walk': ('w', {'walked'}), 'setup': ('m', {'finalize'})}
KINDS = {'invalidation': 'start end tell told', 'look-up': 'begin walk found walked', 'table': 'set erase use fetch add',
         'migration': 'setup from ready moved stayed pages finalize', 'device': 'take free withdraw gone pass',
         'interval': 'insert inserted remove removed'}
KIND = {word: kind for kind, listed in KINDS.items() for word in listed.split()}
STYLE = """
:root { color-scheme: light dark; --line: #8884; --bad: #c22; --may: #b70; --on: #8882; }
body { font: 14px/1.4 system-ui, sans-serif; margin: 0; }
header { position: sticky; top: 0; padding: .5rem .8rem; background: Canvas; border-bottom: 1px solid var(--line);
  max-height: 40vh; overflow: auto; }
header p { margin: .2rem 0; }
.rules a, .rules span { display: inline-block; margin-right: .8rem; white-space: nowrap; }
.bad { color: var(--bad); font-weight: 600; } .may { color: var(--may); font-weight: 600; }
.unseen { opacity: .55; }
.why { margin: .1rem 0 .1rem 1.2rem; }
table { border-collapse: collapse; font: 12.5px/1.35 ui-monospace, "DejaVu Sans Mono", monospace; }
th { position: sticky; top: 0; text-align: left; padding: .1rem .6rem; }
td { padding: 0 .6rem; white-space: pre; border-left: 1px solid var(--line); }
td:first-child { text-align: right; opacity: .6; border: 0; }
tr:target, tr.on { background: var(--on); }
tr.broken { outline: 2px solid var(--bad); } tr.maybe { outline: 2px dashed var(--may); }
tr.from { outline: 1px dotted var(--bad); }
.span { opacity: .5; }
.invalidation { color: #a0522d; } .look-up { color: #1f6fb2; } .table { color: #2a7d2a; } .migration { color: #8040b0; }
.device { color: #886600; } .interval { color: #777; }
"""
SCRIPT = """
'use strict';
const rows = [...document.querySelectorAll('tbody tr')];
const marked = rows.filter(e => e.classList.contains('broken') || e.classList.contains('maybe'));
document.getElementById('filter').addEventListener('input', e => {
  const words = e.target.value.split(' ').filter(x => x);
  for (const row of rows) row.hidden = !words.every(x => (' ' + row.dataset.text + ' ').includes(' ' + x + ' '));
});
let at = -1;
document.addEventListener('keydown', e => {
  if (e.target.tagName === 'INPUT' || !marked.length || !'np'.includes(e.key)) return;
  at = (at + (e.key === 'n' ? 1 : marked.length - 1)) % marked.length;
  location.hash = marked[at].id;
});
document.body.style.setProperty('scroll-padding-top', document.querySelector('header').offsetHeight + 'px');
document.documentElement.style.scrollPaddingTop = document.querySelector('header').offsetHeight + 30 + 'px';
"""


class Verdict:
    """What is said of a rule: its line, and the lines below it."""

    def __init__(self, line):
        self.rule, self.said, *rest = line.split()
        self.number, self.below = rest[0] if rest else '', []


def verdicts_of(data):
    """The first line that hmmtrace writes, and what it says of each rule."""
    done = subprocess.run(given.ready('hmmtrace'), input=data, capture_output=True)
    if done.returncode > 1:
        sys.stderr.write(done.stderr.decode())
        sys.exit(done.returncode)
    first, *lines = done.stdout.decode().splitlines()
    found = []
    for line in lines:
        if line.startswith(' '):
            found[-1].below.append(line.strip())
        else:
            found.append(Verdict(line))
    return first, found


def events_of(text):
    """The number, the thread, the words and the comment of each event, and other lines as they are."""
    for line in text.splitlines():
        said, _, comment = line.partition('#')
        part = said.split()
        if len(part) >= 3 and part[0].isdigit():
            yield part[0], part[1], part[2:], comment.strip()
        elif part and part[0] == 'lost':
            yield '', '', part, comment.strip()


class Lanes:
    """A lane for each thread, and what each is in."""

    def __init__(self, threads):
        self.threads, self.inside = threads, {thread: [] for thread in threads}

    def cells(self, thread, words, comment):
        """A row's cells; the thread's line changes with its event."""
        out = []
        for lane in self.threads:
            line = '<span class="span">' + ''.join(self.inside[lane]) + '</span>'
            text = ''
            if lane == thread:
                said = html.escape(' '.join(words) + (f'  # {comment}' if comment else ''))
                text = f'<span class="{KIND.get(words[0], "")}">{said}</span>'
                self.enter(lane, words[0])
            out.append(f'<td>{line}{" " if self.inside[lane] or text else ""}{text}</td>')
        return ''.join(out)

    def enter(self, lane, word):
        if word in SPANS:
            self.inside[lane].append(SPANS[word][0])
        for letter, ends in SPANS.values():
            if word in ends and letter in self.inside[lane]:
                last = len(self.inside[lane]) - 1 - self.inside[lane][::-1].index(letter)
                del self.inside[lane][last]


def rows_of(events, verdicts):
    """The rows of the table; one that a verdict names is marked, and one that it goes back to."""
    marks = {v.number: v.said for v in sorted(verdicts, key=lambda v: v.said == 'broken') if v.said in ('broken', 'maybe')}
    back = {number for v in verdicts if v.said in ('broken', 'maybe') for line in v.below
            for number in re.findall(r'\d+', line.partition('; goes back to ')[2])}
    threads = list(dict.fromkeys(thread for _, thread, _, _ in events if thread))
    lanes, rows = Lanes(threads), []
    for number, thread, words, comment in events:
        kind = marks.get(number, 'from' if number in back else '')
        text = html.escape(' '.join([number, thread, *words]), quote=True)
        if not thread:
            rows.append(f'<tr class="lost"><td></td><td colspan="{len(threads)}">{html.escape(" ".join(words))}</td></tr>')
            continue
        rows.append(f'<tr id="e{number}" class="{kind}" data-text="{text}"><td>{number}</td>'
                    f'{lanes.cells(thread, words, comment)}</tr>')
    head = ''.join(f'<th>{thread}</th>' for thread in threads)
    return f'<table><thead><tr><th></th>{head}</tr></thead><tbody>\n' + '\n'.join(rows) + '\n</tbody></table>'


def rules_text(verdicts):
    """The rules with what is said of them, those that are broken or may be first."""
    bad = [v for v in verdicts if v.said in ('broken', 'maybe')]
    out = []
    for v in sorted(bad, key=lambda v: v.said):
        kind = 'bad' if v.said == 'broken' else 'may'
        out.append(f'<p><a class="{kind}" href="#e{v.number}">{v.rule} {v.said} {v.number}</a></p>')
        out += [f'<p class="why">{html.escape(line)}</p>' for line in v.below]
    rest = [f'<span class="{v.said}">{v.rule} {v.said} {v.number}</span>' for v in verdicts if v not in bad]
    return ''.join(out) + '<p class="rules">' + ' '.join(rest) + '</p>'


def main():
    given.begin(__doc__)
    given.end_with_reader()
    data = given.data_of(sys.argv[1:])
    if data.startswith(b'hmm '):
        given.refuse('this is no trace; `./hmmtrace.sh --of-report REPORT` writes the trace of a report')
    first, verdicts = verdicts_of(data)
    name = html.escape(os.path.basename(sys.argv[1]) if len(sys.argv) > 1 else 'a trace')
    print(f'<!doctype html>\n<html lang="en"><meta charset="utf-8"><title>{name} - hmmtrace</title>\n<style>{STYLE}</style>\n'
          f'<header><p><b>{name}</b>: {html.escape(first)}. '
          '<label>only rows with <input id="filter" placeholder="m0 16"></label> '
          'n, p: the next and the previous marked row. In a lane: i an invalidation, c a callback, w a walk, '
          'm a migration</p>\n'
          f'{rules_text(verdicts)}</header>\n{rows_of(list(events_of(data.decode())), verdicts)}\n'
          f'<script>{SCRIPT}</script></html>')


if __name__ == '__main__':
    main()
