#!/usr/bin/env python3
"""One page of a race: its outcomes as a table, and the history that leads to each.

    ./hmmraces.sh --quick RACE.hmm > OUTCOMES
    tools/view_outcomes.py RACE.hmm OUTCOMES > page.html

A click on an outcome shows the report that its schedule gives, as hmmview does, and where it parts from the outcome
that was shown before. tools/reference makes the reports. Ends with status 3 if the script is none.
"""
import html, os, sys

import view_page
import words as given
import report as reports
import script as scripts
from run import Machine

HERE = os.path.dirname(os.path.abspath(__file__))


def outcomes_of(text):
    """The outcomes that hmmraces wrote: the number, the answers and the turns of each; and its last line."""
    found, last = [], ''
    for line in text.splitlines():
        word = line.split(' ')[0]
        if word == 'outcome':
            found.append((line.split(' ')[1], [], []))
        elif word == 'states':
            last = line
        elif found:
            found[-1][2 if word == 'turns' else 1].append(line)
    return found, last


def report_with(script, turns):
    """The report of the script with these lines after its schedule."""
    machine = Machine(scripts.parse((script + ''.join(line + '\n' for line in turns)).encode()))
    machine.replay()
    return reports.report(machine).encode()


def unmet(report, answers):
    """The first answer that the report does not have, after those before it of the same actor. In an outcome an
    `attached` has no sequence."""
    of_actor = {}
    for line in report.decode().split('\nhistory\n')[1].split('\n'):
        actor, *entry = line.split(' ')[1:] or ['']
        entry = entry[:-1] if entry[:1] == ['attached'] else entry
        of_actor.setdefault(actor, []).append(' '.join([actor, *entry]))
    for answer in answers:
        lines = of_actor.get(answer.split(' ')[0], [])
        if answer not in lines:
            return answer
        del lines[:lines.index(answer) + 1]
    return None


def outcome_text(script, outcome):
    """An outcome's answers, and the lines of the page of its report."""
    number, answers, turns = outcome
    report = report_with(script, turns)
    answer = unmet(report, answers)
    if answer:
        given.refuse(f'outcome {number} is of another race: its turns do not lead to `{answer}` in this script')
    lines = view_page.page_lines(report, 0, None)
    text = html.escape('\n'.join([*answers, 'history', *lines]) + '\n')
    return f'<pre class="outcome" data-number="{number}" hidden>\n\n{text}</pre>\n'


def page_text(script, outcomes, last):
    """The page. The rows of the first outcome are there when it opens."""
    head, tail = view_page.page_parts()
    with open(os.path.join(HERE, 'view_outcomes.html'), encoding='ascii') as file:
        table = file.read()
    states = f' ({last})' if last else ''
    set_up = len(scripts.parse(script.encode()).schedule)
    mark = '<section id="outcomes"'
    table = table.replace(mark, f'{mark} data-states="{states}" data-setup="{set_up}"')
    histories = ''.join(outcome_text(script, outcome) for outcome in outcomes)
    return head + tail.replace('</body>', histories + table + '</body>')


def main():
    given.begin(__doc__)
    given.end_with_reader()
    if len(sys.argv) != 3:
        given.refuse('two files are wanted, a script and its outcomes')
    script, text = (given.data_of([name]).decode() for name in sys.argv[1:])
    outcomes, last = outcomes_of(text)
    if not outcomes:
        given.refuse('the second file has no outcome: the script comes first, and then what hmmraces wrote of it')
    try:
        sys.stdout.write(page_text(script, outcomes, last))
    except scripts.Refused as refused:
        print('view_outcomes.py: script line {}: {}'.format(*refused.args), file=sys.stderr)
        sys.exit(3)


if __name__ == '__main__':
    main()
