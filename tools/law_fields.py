#!/usr/bin/env python3
"""Lists fields of the records of the programs' calls that no law of a program uses.

    tools/law_fields.py    reads crates/*/specs and the proofs of the laws; writes a line for each field that is unused

Each program has a theorem (specs/Theorem.antt of its top crate), and a proof that it follows from how the program ends.
The records that say how a call ends are found from `Exits`: by name, in the specs of the crates below, as far as their
definitions lead. A field counts as used if the proof of some theorem, or a file of proofs that it cites for that, reads
it by its name. A field that is not used may be struck out of its record unseen. The status is 1 if there is one.
"""
import os, re, sys

import words

TOP = os.path.dirname(os.path.dirname(os.path.abspath(__file__)))
# the crates whose records are those of a program's call, and the proofs of the laws
CRATES = ['hm_edge', 'hm_top', 'hm_race_top', 'hm_flaw_top', 'hm_judge', 'hm_view', 'hm_trace_top', 'hm_projection']
PROOFS = {'hm_edge': 'Telling', 'hm_top': 'Users', 'hm_race_top': 'Users', 'hm_flaw_top': 'Users', 'hm_judge': 'Users',
          'hm_view': 'Users', 'hm_trace_top': 'Users', 'hm_projection': 'Users'}
# where the record of each program's call stands
ROOTS = {'hm_edge': ['Exits'], 'hm_top': ['Runs'], 'hm_race_top': ['Races'], 'hm_flaw_top': ['Withouts'],
         'hm_judge': ['RunsAsked'], 'hm_view': ['Views'], 'hm_trace_top': ['Exits'], 'hm_projection': ['Runs']}
# records that are no plumbing of a call, but words of which a theorem itself is made: a reader of it reads them too
WORDS = {'AnsweredNone', 'AreQuestions', 'AreScript', 'Ends', 'EndsSo', 'FailsAtSome', 'HasFewTurns', 'IsFirstBad',
         'IsLegalReport', 'IsLegalReportOf', 'IsNearest', 'IsQuestion', 'IsTextOf', 'IsTrueOf', 'IsUnused',
         'MayBeUnused', 'Named', 'OneSays', 'Read', 'SawAll', 'Way'}

RECORD = re.compile(r'^pub record (\S+)(.*?)(?=^(?:pub |abbrev |unfoldable |-- |\Z))', re.M | re.S)
OTHER = re.compile(r'^abbrev pub (\S+) :(.*?)(?=^(?:pub |abbrev |unfoldable |-- |\Z))', re.M | re.S)
FIELD = re.compile(r'^  pub (\S+) :', re.M)


def specs_of(crate):
    """Returns the text of each definition of a crate's specs by its name, the records apart."""
    records, others = {}, {}
    for folder, _, names in os.walk(os.path.join(TOP, 'crates', crate, 'specs')):
        for name in names:
            if name.endswith('.antt') and name != 'Theorem.antt' and name != 'Users.antt':
                with open(os.path.join(folder, name), encoding='utf-8') as file:
                    text = file.read()
                records.update((m[1], m[0]) for m in RECORD.finditer(text))
                others.update((m[1], m[0]) for m in OTHER.finditer(text))
    return records, others


def reached(records, others, roots):
    """Returns the names of the records that the roots lead to."""
    known, front = set(), list(roots)
    while front:
        name = front.pop()
        if name in known:
            continue
        known.add(name)
        text = records.get(name) or others.get(name) or ''
        front += [word for word in re.findall(r'[A-Za-z_][\w≢]*', text) if word in records or word in others]
    return known & set(records)


def main():
    words.begin(__doc__)
    proofs = ''
    for crate, name in PROOFS.items():
        with open(os.path.join(TOP, 'crates', crate, 'proofs', name + '.antt'), encoding='utf-8') as file:
            proofs += file.read()
    used = set(re.findall(r'\.([A-Za-z_]\w*)', proofs))
    unused = 0
    for crate in CRATES:
        records, others = specs_of(crate)
        for name in sorted(reached(records, others, ROOTS[crate]) - WORDS):
            for field in FIELD.findall(records[name]):
                if field not in used:
                    unused += 1
                    print(f'{crate}: {name}.{field}')
    return min(unused, 1)


if __name__ == '__main__':
    sys.exit(main())
