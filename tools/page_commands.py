#!/usr/bin/env python3
"""Runs the commands that stand on the pages, and compares what they write with what the page shows.

    tools/page_commands.py [PAGE ..]     README.md and all of docs/, if no PAGE is named

A command is an indented line that begins with one of the programs or with a tool, and names files that are there, that
a command above it on the page has written, or that stand on the page: a block below a line that ends with `NAME.hmm:`
is that file. A command is run in a folder of its own, by the program that is built or compiled (--ready), and compiled
first if need be. What the page shows of it are the lines below it in the same block, or else the next block before
another command or heading; each of them has to stand in the output, in that order. Of a shown line counts what stands
before two spaces, and `..` stands for any lines.

Each command has a line: `ok` and how many lines are the same, `differs` with the first that is not there, `fails`, or
why it is not run. Ends with 1 if one differs or fails.
"""
import os, re, shlex, subprocess, sys, tempfile

TOP = os.path.dirname(os.path.dirname(os.path.abspath(__file__)))
sys.path.insert(0, os.path.join(TOP, 'tools'))
import words

COMMAND = re.compile(r'^    (?:\$ )?((?:\./hmm[a-z]+\.sh|tools/[a-z_]+\.py) .*)$')
PLACEHOLDER = re.compile(r"(^|[\s/])[A-Z]{2,}(\.[a-z]+)?(\s|$)|\.\.(\s|$)|\[|\bW/|\brun\.trace\b|my_test|--write|--help")
NAMED = re.compile(r'([a-z_]+\.(?:hmm|report|trace)):$')
FAILED = {70, 126, 127}


def blocks(text):
    """The headings and the indented blocks of a page: what each is, its lines, and the line of prose above it."""
    found, block, above = [], [], ''
    for line in [*text.split('\n'), '']:
        if line.startswith('    '):
            block.append(line)
        elif line.strip():
            if block:
                found.append(('block', block, above))
            block, above = [], line
            if line.startswith('#'):
                found.append(('heading', [line], ''))
    return found + ([('block', block, above)] if block else [])


def steps(text):
    """The files and the commands of a page, in order: a command with the lines that it shows."""
    found, last = [], None
    for kind, what, above in blocks(text):
        named = NAMED.search(above)
        if named:
            found.append(('file', named[1], [line[4:] for line in what]))
        if kind == 'heading':
            last = None
        if kind == 'heading' or named:
            continue
        for line in what:
            is_command = COMMAND.match(line)
            if is_command:
                last = ('command', re.split(r'\s{2,}', is_command[1])[0], [])
                found.append(last)
            elif last:
                last[2].append(line[4:])
        if last and last[2]:
            last = None
    return found


def why_not(command, folder):
    """Why a command is not run, if it is not."""
    if PLACEHOLDER.search(command):
        return 'a form, and no command'
    for word in re.findall(r"(?<![\w/'>] )(?<![\w/'.>])(?:(?:examples|tools|docs|crates)/[\w./]+|\w+\.hmm\b)", command):
        if not os.path.exists(os.path.join(folder, word)):
            return f'{word} is not there'
    return None


def missing(shown, written):
    """The first shown line that does not stand in what is written, after the one before it."""
    at, have = 0, [' '.join(it.split()) for it in written]
    for line in shown:
        wanted = ' '.join(re.split(r'\s{2,}', line.strip())[0].split())
        if wanted in ('', '..', '...'):
            continue
        if wanted not in have[at:]:
            return wanted
        at += have[at:].index(wanted) + 1
    return None


def ready(command):
    """The command with programs that are not proved first."""
    command = command.replace(' --quick', '')
    return re.sub(r'(\./hmm[a-z]+\.sh)', r'\1 --ready', command)


def judged(command, shown, folder):
    """What is to be said of a command: a word and a reason."""
    reason = why_not(command, folder)
    if reason:
        return 'not run', reason
    run = subprocess.run(['bash', '-c', ready(command)], cwd=folder, capture_output=True, text=True, stdin=subprocess.DEVNULL)
    if run.returncode in FAILED or run.returncode == 2 and not shown:
        return 'fails', f'status {run.returncode}: {(run.stderr.strip() or "nothing said").splitlines()[0]}'
    written = (run.stdout + run.stderr).split('\n')
    lacks = missing(shown, written)
    if '>' in command:
        return 'ok', f'status {run.returncode}'
    if lacks:
        return 'differs', f'no line `{lacks}`'
    lines = sum(1 for it in shown if it.strip())
    return 'ok', f'status {run.returncode}, {lines} lines shown, which are the same' if lines else f'status {run.returncode}'


def pages(names):
    if names:
        return names
    docs = sorted(f'docs/{it}' for it in os.listdir(f'{TOP}/docs') if it.endswith('.md'))
    return ['README.md', *docs]


def main():
    names, wrong, count = pages(sys.argv[1:]), 0, 0
    for name in names:
        with tempfile.TemporaryDirectory() as folder:
            for it in os.listdir(TOP):
                os.symlink(os.path.join(TOP, it), os.path.join(folder, it))
            for what, command, shown in steps(open(os.path.join(TOP, name), encoding='utf-8').read()):
                if what == 'file':
                    with open(os.path.join(folder, command), 'w', encoding='utf-8') as out:
                        out.write('\n'.join(shown) + '\n')
                    continue
                word, reason = judged(command, shown, folder)
                wrong += word in ('differs', 'fails')
                count += word != 'not run'
                print(f'{name}: {word}: {command}: {reason}', flush=True)
    print(f'{count} commands, {wrong} wrong')
    sys.exit(1 if wrong else 0)


if __name__ == '__main__':
    words.begin(__doc__)
    main()
