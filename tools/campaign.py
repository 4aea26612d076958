#!/usr/bin/env python3
"""One part of a campaign: many runs that are judged, with a file that says that they are done.

    tools/campaign.py KIND FIRST COUNT FOLDER [--program FILE] [--judge]

| KIND    | What is run, for COUNT numbers from FIRST on |
| trial   | `generate N`, `replay` of that script, `check` of that report, `trial N`: all say the same number of entries |
| threads | `threads` of the script of N: it ends whole, and `check` says that its report is legal |
| races   | COUNT drawn races of seed FIRST, by tools/race_outcomes.py: hmmraces finds what every order of turns gives |
| peeks   | COUNT drawn scripts of seed FIRST, by tools/peek_runs.py: each copy that a watcher took is right |

With --judge the report of `trial` and `threads` is judged by tools/reference too, which takes seconds for each.

FILE is the program: hmmrun, or hmmraces for races. Without it `./hmmrun.sh --ready --path` says it: name it for a
campaign, so that each part runs the same.

When all is as it should be, FOLDER/KIND-FIRST-COUNT.done says so in a line. A part whose file is there ends at once, so a
campaign is taken up again by giving the same parts again. What is not as it should be is kept in
FOLDER/KIND-FIRST-COUNT.failed/: the script, what was written, and why. Status 0: done, now or before; 1: failed.
"""
import argparse, os, shutil, subprocess, sys, time

import words
sys.path.append(os.path.join(words.TOP, 'tools', 'reference'))
import report as reports

TOOLS = os.path.join(words.TOP, 'tools')


class Wrong(Exception):
    """What is not as it should be, with what was asked and answered: names of files, and their bytes."""

    def __init__(self, why, **kept):
        super().__init__(why)
        self.kept = kept


def ask(program, asked, text=b'', **kept):
    done = subprocess.run([program, *asked], input=text, capture_output=True)
    if done.returncode != 0:
        said = (done.stderr + b' ' + done.stdout[:100]).decode(errors='replace').strip()
        raise Wrong(f'`{" ".join(asked)}` ended with status {done.returncode}: {said}', **kept, written=done.stdout)
    return done.stdout


def legal(program, report, judge, **kept):
    """The number of entries of a report that is legal and whole."""
    kept['report'] = report
    if b'\nunfinished ' in report:
        raise Wrong('an operation has not ended', **kept)
    said = ask(program, ['check'], report, **kept).split()
    if len(said) != 2 or said[0] != b'legal':
        raise Wrong(f'check says {said}', **kept)
    if judge:
        try:
            if reports.check(report) != int(said[1]):
                raise Wrong('tools/reference counts other entries', **kept)
        except reports.NotLegal as bad:
            raise Wrong(f'tools/reference says that line {bad.args[0]} is not legal', **kept) from None
    return int(said[1])


def run_trial(program, number, judge):
    script = ask(program, ['generate', str(number)])
    report = ask(program, ['replay'], script, script=script)
    entries = legal(program, report, judge, script=script)
    summary = ask(program, ['trial', str(number)])
    if f'\nentries {entries}\n'.encode() not in summary or b'\nunfinished 0\n' not in summary:
        raise Wrong(f'the summary of `trial {number}` is of another run', script=script, report=report, summary=summary)
    return entries


def run_threads(program, number, judge):
    script = ask(program, ['generate', str(number)])
    return legal(program, ask(program, ['threads'], script, script=script), judge, script=script)


def each_number(run):
    def part(given):
        entries = sum(run(given.program, number, given.judge) for number in range(given.first, given.first + given.count))
        return f'{given.count} runs, {entries} entries'
    return part


def by_tool(*tool):
    """A part that a tool of this folder runs."""
    def part(given):
        asked = [os.path.join(TOOLS, tool[0]), *tool[1:], str(given.count), str(given.first), '--with', given.program]
        done = subprocess.run(asked, stdin=subprocess.DEVNULL, capture_output=True)
        if done.returncode != 0:
            raise Wrong(f'{tool[0]} ended with status {done.returncode}', written=done.stdout, message=done.stderr)
        return done.stdout.decode().strip()
    return part


PARTS = {'trial': each_number(run_trial), 'threads': each_number(run_threads),
         'races': by_tool('race_outcomes.py', '--drawn'), 'peeks': by_tool('peek_runs.py')}


def keep(folder, wrong):
    shutil.rmtree(folder, ignore_errors=True)
    os.makedirs(folder)
    for name, data in {**wrong.kept, 'why': f'{wrong}\n'.encode()}.items():
        with open(os.path.join(folder, name), 'wb') as file:
            file.write(data)


def main():
    words.begin(__doc__)
    if len(sys.argv) > 1 and sys.argv[1] not in PARTS and not sys.argv[1].startswith('-'):
        words.refuse(f'there is no kind `{sys.argv[1]}`{words.nearest(sys.argv[1], PARTS)}')
    parse = argparse.ArgumentParser(usage=__doc__)
    parse.add_argument('kind', choices=sorted(PARTS))
    parse.add_argument('first', type=int)
    parse.add_argument('count', type=int)
    parse.add_argument('folder')
    parse.add_argument('--program')
    parse.add_argument('--judge', action='store_true')
    given = parse.parse_args()
    if given.count < 1 or given.first < 0:
        words.refuse('FIRST is 0 or more, and COUNT 1 or more')
    part = os.path.join(given.folder, f'{given.kind}-{given.first}-{given.count}')
    if os.path.exists(part + '.done'):
        return 0
    given.program = given.program or words.ready('hmmraces' if given.kind == 'races' else 'hmmrun')[0]
    os.makedirs(given.folder, exist_ok=True)
    began = time.monotonic()
    try:
        said = PARTS[given.kind](given)
    except Wrong as wrong:
        keep(part + '.failed', wrong)
        print(f'{part}: {wrong}', file=sys.stderr)
        return 1
    shutil.rmtree(part + '.failed', ignore_errors=True)
    with open(part + '.new', 'w') as file:
        file.write(f'{said}, {time.monotonic() - began:.1f} seconds\n')
    os.rename(part + '.new', part + '.done')
    return 0


if __name__ == '__main__':
    sys.exit(main())
