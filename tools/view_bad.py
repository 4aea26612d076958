#!/usr/bin/env python3
"""The page of a report that is not legal: its rows up to the bad line, and above them what hmmjudge says of that line.

    ./hmmjudge.sh --quick REPORT > JUDGED
    tools/view_bad.py REPORT JUDGED > page.html

If the bad line is that of an entry, it is the last row, and marked. It leads to no state, so nothing is due after it.
tools/reference goes through the entries before it. Ends with status 1 if nothing can be drawn: the report is legal, or
its script is bad or not whole. Nothing of the page is proved; what stands in the red box is what hmmjudge said.
"""
import html, os, sys

import view_page
import words as given
import report as reports
import script as scripts

HERE = os.path.dirname(os.path.abspath(__file__))


def nothing(why):
    print(f'view_bad.py: {why}', file=sys.stderr)
    sys.exit(1)


def script_and_actors(lines):
    """The script of these lines, and the actors of the entries after it."""
    if 'history' not in lines:
        nothing('the script is bad or not whole, so there are no rows; ' + 'hmmjudge says which line')
    start, reader = lines.index('history'), scripts.Reader()
    for line in lines[:start]:
        reader.line(line.encode())
    entries = [line.split(' ') for line in lines[start + 1:] if line[:1].isdigit()]
    return reader.script, [int(words[1][1:]) for words in entries]


def bad_row(judged, script):
    """The bad line, if it is that of an entry of an actor of the script."""
    word, _, entry = judged[1].partition(' ')
    return entry if word == 'entry' and int(entry.split(' ')[1][1:]) < len(script.actors) else None


def page_lines(script, actors, bad):
    """The lines of the page of the entries of these actors, and of a bad entry after them, if there is one."""
    lines = view_page.front_lines(script, actors) + ['rows 0', *view_page.FIRST_CHANGES]
    lines += view_page.row_lines(script, actors, 0)
    if bad:
        lines += [view_page.standings(script, actors), bad, ' '.join([':', *('-' for _ in script.actors)])]
    else:
        lines.append(view_page.standings(script, actors))
    return [*lines, f'end {len(actors) + bool(bad)}']


def page_text(data, said):
    judged = said.splitlines()
    if judged and judged[0].startswith('hmm '):
        given.refuse('the report comes first, and then what hmmjudge wrote of it')
    if not judged or not judged[0].startswith('bad '):
        nothing('hmmjudge named no bad line, so hmmview draws the report')
    at = int(judged[0].split(' ')[1])
    script, actors = script_and_actors([line.decode(errors='replace') for line in data.split(b'\n')[:at - 1]])
    bad = bad_row(judged, script)
    head, tail = view_page.page_parts()
    with open(os.path.join(HERE, 'view_bad.html'), encoding='ascii') as file:
        mark = file.read()
    about = f'<section id="bad" data-says="{html.escape(said)}" data-row="{"true" if bad else "false"}"'
    lines = ''.join(line + '\n' for line in page_lines(script, actors, bad))
    return head + lines + tail.replace('</body>', mark.replace('<section id="bad"', about) + '</body>')


def main():
    given.begin(__doc__)
    given.end_with_reader()
    if len(sys.argv) != 3:
        given.refuse('two files are wanted, a report and what hmmjudge wrote of it')
    report, said = sys.argv[1:]
    sys.stdout.write(page_text(given.data_of([report]), given.data_of([said]).decode()))


if __name__ == '__main__':
    main()
