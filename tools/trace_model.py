#!/usr/bin/env python3
"""Judges traces of the model by hmmtrace and by a second judge, and counts whom they blame.

    tools/trace_model.py drawn FIRST COUNT [--jobs N]       drawn scripts, by a right driver: nothing may be blamed
    tools/trace_model.py scripts [FILE ..] [--jobs N]       the same of scripts, or of all examples if none is named
    tools/trace_model.py races SEEDS [RULE ..] [--jobs N]   races with drawn turns, by drivers that leave a rule out
    tools/trace_model.py shortest [RULE ..] [--jobs N]      the shortest races of such drivers, of examples/broken

A script is run by hmmrun, and its report is said as a trace by `hmmtrace --of-report` and by tools/protocol/of_report.py:
the two must be the same. Races of drivers that leave a rule out are run and said by tools/protocol/of_driver.py. Each
trace is judged by hmmtrace and by tools/protocol/trace_judge.py. Each verdict must be the same word of the same event, or it is
counted under what the two say.

Writes, for right drivers, how many traces and events there were, in how many a rule is broken or may be, and in how many
each rule was kept; of the others a line for each rule: how many races, in how many it was named, may be broken, or was
unseen, in how many another rule was named, in how many a part of legality was broken (wrong), and what was said of the
rule in these. Then what the judges say of the same trace where they differ. Ends with
status 1 if a right driver is blamed, if the two traces of a report differ, or if the judges do.

The programs are the proved ones if they are built, or else the unproved ones. Kept by hand: the gate does not run it.
"""
import argparse, collections, glob, multiprocessing, os, subprocess, sys

TOP = os.path.dirname(os.path.dirname(os.path.abspath(__file__)))
sys.path[:0] = [os.path.join(TOP, 'tools', folder) for folder in ('', 'reference', 'protocol', 'linux')]
import words as given
import trace_judge as second
import of_report

RUN, TRACE, EVENTS = [], [], []         # the commands of hmmrun, hmmtrace and hmmevents


class Told:
    """What was found of one trace."""

    def __init__(self, name, rule, text, differs='', part=None):
        self.name, self.rule, self.differs, self.part = name, rule, differs, part
        done = subprocess.run(TRACE, input=text.encode(), capture_output=True)
        if done.returncode not in (0, 1):
            raise SystemExit(f'{name}: hmmtrace ended with {done.returncode}: {done.stderr.decode()}')
        first, *lines = [line.split() for line in done.stdout.decode().splitlines() if line[0] != ' ']
        self.events = int(first[1])
        self.said = {rule: tuple(words) for rule, *words in lines}
        other = second.judge(text)[2]
        self.others = {rule: (' '.join(said), ' '.join(map(str, other[rule]))) for rule, said in self.said.items()
                       if said != tuple(map(str, other[rule]))}

    def rules(self, word):
        return [rule for rule, said in self.said.items() if said[0] == word]


def of_script(item):
    """The trace of a script's run, or none if the script is refused."""
    name, data = item
    done = subprocess.run([*RUN, 'replay'], input=data, capture_output=True)
    if done.returncode != 0:
        return None
    other = of_report.project(done.stdout.decode())
    said = subprocess.run(EVENTS, input=done.stdout, capture_output=True)
    differs = '' if said.returncode == 0 and said.stdout.decode() == other else f'{name}: --of-report and of_report.py differ'
    return Told(name, 'right', said.stdout.decode() or other, differs)


def of_race(item):
    """The trace of a race by a driver that leaves a rule out, or none if that driver cannot go on."""
    import of_driver
    path, rule, how, answers = item
    with open(path, 'rb') as file:
        data = file.read()
    try:
        race = of_driver.drawn(data, rule, how) if how is not None else of_driver.shortest(data, rule, answers)
    except RecursionError:
        return None
    name = f'{os.path.basename(path)} {rule} {how if how is not None else "shortest"}'
    return Told(name, rule, race.told.text(), part=race.laws.broken) if race else None


def drawn_scripts(first, count):
    import draw
    for seed in range(first, first + count):
        yield f"drawn {seed}", draw.Draw(seed).script().encode()


def read_scripts(paths):
    for path in paths or sorted(glob.glob(f'{TOP}/examples/**/*.hmm', recursive=True)):
        with open(path, 'rb') as file:
            yield path, file.read()


def races(rules, seeds):
    paths = sorted(p for folder in ('broken', 'races', 'gallery') for p in glob.glob(f'{TOP}/examples/{folder}/*.hmm'))
    return ((path, rule, seed, False) for rule in rules for path in paths for seed in range(seeds))


def shortest_races(rules):
    paths = sorted(p[:-6] + '.hmm' for p in glob.glob(f'{TOP}/examples/broken/*.rules'))
    return ((path, rule, None, answers) for rule in rules for path in paths for answers in (False, True))


class Counts:
    """What was counted."""

    def __init__(self):
        self.by_rule = collections.defaultdict(collections.Counter)
        self.kept, self.differ, self.others = collections.Counter(), collections.Counter(), collections.Counter()
        self.first, self.bad = {}, []

    def add(self, told):
        row = self.by_rule[told.rule]
        row['traces'] += 1
        row['events'] += told.events
        broken, maybe = told.rules('broken'), told.rules('maybe')
        if told.rule == 'right':
            self.kept.update(told.rules('kept'))
            row['blamed'] += bool(broken or maybe)
            self.bad += [f'{told.name}: blamed {" ".join([*broken, *maybe])}'] if broken or maybe else []
        else:
            said = told.said[told.rule][0]
            row[said] += 1
            if told.part:               # the race breaks a part of legality
                row['wrong'] += 1
                row[f'wrong-{said}'] += 1
                if said == 'kept':
                    self.first.setdefault((told.rule, 'kept'), f'{told.name} breaks {told.part}')
            for other in broken:
                if other != told.rule:
                    row['another'] += 1
                    self.others[told.rule, other] += 1
                    self.first.setdefault((told.rule, other), told.name)
        self.bad += [told.differs] if told.differs else []
        for rule, said in told.others.items():
            pair = rule, *(words.split()[0] for words in said)
            self.differ[pair] += 1
            self.first.setdefault(pair, f'{told.name}: {said[0]} | {said[1]}')

    def write(self):
        for rule, row in self.by_rule.items():
            print(rule, *(f'{word} {row[word]}' for word in ('traces', 'events', 'blamed', 'broken', 'maybe', 'kept',
                                                             'unseen', 'another', 'wrong', 'wrong-broken',
                                                             'wrong-maybe', 'wrong-unseen', 'wrong-kept') if row[word]),
                  *([f'(first {self.first[rule, "kept"]})'] if row['wrong-kept'] else []))
        if self.kept:
            print('kept in', *(f'{rule} {self.kept[rule]}' for rule in second.RULES))
        for (rule, other), count in self.others.most_common():
            print(f'another: {rule} blamed for {other} in {count}, first {self.first[rule, other]}')
        for pair, count in self.differ.most_common():
            print(f'judges differ: {pair[0]} {pair[1]} and {pair[2]} in {count}, first {self.first[pair]}')
        for said in self.bad[:20]:
            print(said)


def main():
    given.begin(__doc__)
    parser = argparse.ArgumentParser(add_help=False)
    parser.add_argument('what', choices=['drawn', 'scripts', 'races', 'shortest'])
    parser.add_argument('words', nargs='*')
    parser.add_argument('--jobs', type=int, default=1)
    asked = parser.parse_args()
    RUN[:], TRACE[:], EVENTS[:] = given.ready('hmmrun'), given.ready('hmmtrace'), given.ready('hmmevents')
    of, items = of_race, None
    if asked.what == 'drawn':
        of, items = of_script, drawn_scripts(*map(int, asked.words))
    elif asked.what == 'scripts':
        of, items = of_script, read_scripts(asked.words)
    elif asked.what == 'races':
        items = races(asked.words[1:] or second.RULES, int(asked.words[0]))
    else:
        items = shortest_races(asked.words or second.RULES)
    counts = Counts()
    with multiprocessing.Pool(asked.jobs) as pool:
        for told in pool.imap_unordered(of, items, chunksize=8):
            if told:
                counts.add(told)
    counts.write()
    return int(bool(counts.bad or counts.differ))


if __name__ == '__main__':
    sys.exit(main())
