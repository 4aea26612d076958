#!/usr/bin/env python3
"""Writes a man page for each program, made of docs/COMMANDS.md.

    tools/man.py FOLDER      writes FOLDER/NAME.1 for each of the seven programs
    tools/man.py NAME        writes the page of one to standard output: tools/man.py hmmraces | man -l -

What stands in a table of docs/COMMANDS.md is there for each program that the table is about: its words, and the
statuses that it has. So the page and the man pages say the same.
"""
import os, re, sys

import words as given

ABOUT = {'hmmrun': 'runs a script of heterogeneous memory management, and writes its report',
         'hmmraces': 'writes every outcome of a race, or what they say of conditions',
         'hmmwithout': 'writes the shortest race in which a driver without a rule does wrong',
         'hmmjudge': 'says whether a report is legal, and else what is wrong with it',
         'hmmview': 'draws a report as a page of HTML',
         'hmmtrace': 'says which rules a trace of a driver keeps or breaks',
         'hmmevents': 'writes the trace of a report'}
PAGES = {'hmmrun': 'SCRIPT REPORT TUTORIAL', 'hmmraces': 'RACES', 'hmmwithout': 'BROKEN', 'hmmjudge': 'JUDGE',
         'hmmview': 'VIEW', 'hmmtrace': 'TRACE BROKEN', 'hmmevents': 'TRACE'}


def cells(row):
    return [cell.strip() for cell in re.split(r'(?<!\\)\|', row.strip().strip('|'))]


def sections(text):
    """The heads of the page's sections, each with its tables: lists of rows, the first of which is the head."""
    found, table = [], None
    for line in text.split('\n'):
        if line.startswith('## '):
            found.append((line[3:], []))
        if line.startswith('|') and found:
            if table is None:
                table = []
                found[-1][1].append(table)
            if not re.fullmatch(r'[|\s:-]+', line):
                table.append(cells(line))
        else:
            table = None
    return found


def roff(text):
    """The text in man's own language: what stands between backquotes is bold."""
    text = text.replace('\\|', '|').replace('\\', '\\e').replace('-', '\\-')
    text = re.sub(r'\[([^\]]*)\]\([^)]*\)', r'\1', text)
    text = re.sub(r'`([^`]*)`', r'\\fB\1\\fR', text)
    return re.sub(r"(?m)^([.'])", r'\\&\1', text)


def rows_of(name, all_sections):
    """The words of a program, with what each reads and writes."""
    for head, tables in all_sections:
        if name not in head.split(', ') or not tables:
            continue
        first, rows = tables[0][0], tables[0][1:]
        if first[0] == 'Program':
            rows = [row[1:] for row in rows if row[0].split(',')[0] == name]
        return rows
    return []


def statuses(name, all_sections):
    table = next(tables[0] for head, tables in all_sections if head == 'Statuses')
    return [row for row in table[1:] if row[2] == 'all' or name in re.findall(r'hmm[a-z]+', row[2])
            or row[2].startswith('all that read') and name in ('hmmrun', 'hmmraces', 'hmmwithout')]


def page(name, text):
    all_sections = sections(text)
    lines = [f'.TH {name.upper()} 1 "" "Hawhirupo" "User commands"', '.SH NAME', roff(f'{name} - {ABOUT[name]}'),
             '.SH SYNOPSIS', f'.B {name}', '[WORD ..] [FILE]', '.SH WORDS']
    for row in rows_of(name, all_sections):
        word, reads, writes = (row + ['', ''])[:3]
        said = f'reads {reads}: {writes}' if reads else writes
        lines += ['.TP', roff(f'{"" if word == "none" else word}') or '(no word)', roff(said)]
    lines += ['.SH EXIT STATUS']
    for status, message, _, comes in statuses(name, all_sections):
        lines += ['.TP', f'.B {status}', roff(f'{message}: {comes}' if message and comes else message or comes)]
    seen = ', '.join(f'docs/{one}.md' for one in PAGES[name].split())
    others = ', '.join(f'\\fB{other}\\fR(1)' for other in sorted(ABOUT) if other != name)
    lines += ['.SH SEE ALSO', f'{seen}, docs/COMMANDS.md; {others}']
    return '\n'.join(lines) + '\n'


def main():
    given.begin(__doc__)
    if len(sys.argv) != 2:
        given.refuse('one word is wanted: a folder, or the name of a program')
    with open(os.path.join(given.TOP, 'docs', 'COMMANDS.md'), encoding='utf-8') as file:
        text = file.read()
    if sys.argv[1] in ABOUT:
        sys.stdout.write(page(sys.argv[1], text))
        return
    os.makedirs(sys.argv[1], exist_ok=True)
    for name in ABOUT:
        with open(os.path.join(sys.argv[1], f'{name}.1'), 'w', encoding='utf-8') as file:
            file.write(page(name, text))


if __name__ == '__main__':
    main()
