"""Races in the guest, from real threads: each outcome, how often it was seen, and whether hmmraces lists it.

A race is a script with a set-up, as hmmraces reads it, in crates/stored_examples/data/linux/races: NAME.hmm. NAME.seen
has the outcomes that hmmraces lists, and those that were seen. Six more, in large, have too many states for the gate:
no outcomes of theirs are kept, so hmmraces must be asked.
"""
import os
import re
import subprocess
from collections import Counter

import answers
import guest_runs

FOLDER = os.path.join(answers.TOP, 'crates', 'stored_examples', 'data', 'linux', 'races')
LARGE = os.path.join(answers.TOP, 'tools', 'linux', 'large')
WAIT = 20000            # the longest random wait before an operation, in turns of a loop

# The race of a store that the kernel's own driver loses runs with that driver as it is (stock), and with the changed
# one that takes (1) or leaves out (0) the invalidations of its own migrations.
SPECIAL = {'lost_store': ('stock', 1), 'lost_store_take_all_0': ('changed', 0), 'lost_store_take_all_1': ('changed', 1)}


OTHER_WORDS = [
    (r'^(a\d+) migrated \d+ e9$', r'\1 refused 4'),                # a closed file
    (r'^(a\d+ migrated \d+) e(?:2|22)$', r'\1'),                   # migrate-answer: an error number besides
    (r'^(a\d+ failed .*) e9$', r'\1 4'),
    (r'^(a\d+ seen m\d+ \d+) (ff|e22)$', r'\1 00'),                # no-area-code
    (r'^(a\d+ excluded m\d+ \d+) e2$', r'\1')]                     # it was had and lost again
ADDS_WORDS = [(r'(a\d+ failed m\d+ 0x[0-9a-f]+ 1) e16', r'\1 2')]     # exclusive-errno, of a `dadd`
STOCK_WORDS = [(r'^(a\d+ migrated) \d+$', r'\1 *')]                # the number is not given

# Operations that may hold a page for a moment, as `held-page` of docs/LINUX.md has them.
HOLDERS = set('load store dload dstore dadd unmap exit todev tosys exclusive evict remove detach'.split())
EVICTS, ZAPS = {'evict', 'remove', 'detach'}, {'unmap', 'exit'}


class Race:
    def __init__(self, name):
        self.name = name
        with open(script_path(name)) as file:
            self.text = file.read()
        self.kernel, self.take_all = SPECIAL.get(name, ('changed', 1))
        self.setup, self.actors = self.parts()
        self.words = [{op.split()[0] for op in ops} for ops in self.actors]
        self.has_adds = any('dadd' in words for words in self.words)
        self.other_words = OTHER_WORDS + (STOCK_WORDS if self.kernel == 'stock' else [])

    def parts(self):
        """The operations of the set-up, and those of each actor after it, as the guest makes them."""
        script = answers.reference.scripts.parse(self.text.encode())
        machine = answers.reference.Machine(script)
        machine.replay()
        actors = []
        for line in self.text.splitlines():
            word = line.split()[0]
            if word == 'actor':
                actors.append([])
            elif actors and word not in ('turns', 'drain'):
                actors[-1].append(line)
        done = machine.ended[0]
        setup, actors[0] = actors[0][:done], actors[0][done:]
        return [op for op in setup if not op.startswith('evict')], [without_evicts(ops) for ops in actors]

    def others_do(self, actor, words):
        """Whether another actor has one of these operations."""
        return any(of & words for number, of in enumerate(self.words) if number != actor)

    def may_stop_the_kernel(self):
        """Whether an eviction may meet an unmap or exit of another actor: `freed-anon-vma`."""
        return any(of & EVICTS and self.others_do(actor, ZAPS) for actor, of in enumerate(self.words))

    def may_lose_a_store(self):
        return self.name in SPECIAL and (self.kernel == 'stock' or not self.take_all)

    def answered(self, outcome):
        """Of each actor its operations, each with its answers in the outcome."""
        told = [[] for _ in self.actors]
        for answer in outcome.split('|'):
            who, said = answer.split(' ', 1)
            if said != 'evicted *':             # of a `detach`, see without_evicts
                told[int(who[1:])].append(said)
        return [list(zip(ops, answers.by_op(ops, said)[0])) for ops, said in zip(self.actors, told)]

    def guest_input(self, runs, seconds):
        lines = [f'race {self.name} {runs} {WAIT} {seconds}', *self.setup]
        for number, ops in enumerate(self.actors):
            lines += [f'actor {number}', *ops]
        return ''.join(line + '\n' for line in lines) + 'end\n'


def script_path(name):
    path = os.path.join(FOLDER, name + '.hmm')
    return path if os.path.exists(path) else os.path.join(LARGE, name + '.hmm')


def without_evicts(ops):
    """The guest's driver evicts its device by itself when a file is closed: an `evict` after a `detach` is left out."""
    return [op for i, op in enumerate(ops) if not (op.startswith('evict') and i and ops[i - 1].startswith('detach'))]


def all_names():
    return sorted(name[:-len('.hmm')] for name in os.listdir(FOLDER) if name.endswith('.hmm'))


def in_words_of_the_model(outcome, race, listed):
    """An outcome of the guest, with the script's word for what the driver has another word for. A `dadd` that fails
    with e16 fails with cause 2, if that is listed."""
    said = []
    for answer in outcome.strip('|').split('|'):
        for pattern, other in race.other_words:
            answer = re.sub(pattern, other, answer)
        said.append(answer)
        if re.match(r'a\d+ detached', answer):
            said.append(answer.split()[0] + ' evicted *')
    whole = '|'.join(said)
    for pattern, other in ADDS_WORDS if race.has_adds else []:
        forbidden = re.sub(pattern, other, whole)
        if any(is_like(one, forbidden) for one in listed):
            return forbidden
    return whole


def is_like(listed, seen):
    """Whether a seen outcome, which may have `*` for a word, is the listed one."""
    has, wanted = listed.replace('|', ' | ').split(), seen.replace('|', ' | ').split()
    return len(has) == len(wanted) and all(b == '*' or a == b for a, b in zip(has, wanted))


def name_of(outcome, race, listed):
    """The name of the difference by which an outcome is not listed, or None. Only races and operations of which the row
    of docs/LINUX.md speaks have its name."""
    if race.may_lose_a_store() and 'loaded p0 0x10000 41' in outcome:
        return 'lost-store'
    pairs = [pair for actor in race.answered(outcome) for pair in actor]
    for op, said in pairs:
        for answer in said:
            name = name_of_answer(op.split()[0], answer, race)
            if name:
                return name
    return 'held-page' if is_held(outcome, race, listed) else None


def name_of_answer(word, answer, race):
    """The name of the difference that this operation's answer shows by itself, or None."""
    if word == 'exclusive' and answer == 'refused e16' or word == 'dadd' and re.fullmatch(r'failed .* e16', answer):
        return 'exclusive-busy'
    if word in ('dload', 'dstore') and re.fullmatch(r'failed .* e16', answer):
        return 'no-time-out'
    if (word == 'dstore' and re.fullmatch(r'failed m\d+ 0x[0-9a-f]+ \d+ 1', answer)
            and any(op.startswith('todev') for op in race.setup)):
        return 'own-read-only'
    return None


def is_held(outcome, race, listed):
    """Whether each migration that moved no page is of an actor beside which another one may hold the page, and the
    outcome is listed with these pages moved."""
    kept = {number for number, pairs in enumerate(race.answered(outcome))
            if any('migrated 0' in said for _, said in pairs)}
    moved = outcome.replace('migrated 0', 'migrated 1')
    return (bool(kept) and all(race.others_do(actor, HOLDERS) for actor in kept)
            and any(is_like(one, moved) for one in listed))


def read_outcomes(path):
    """Of each race the number of runs, and how often each outcome came, in what the guest wrote."""
    runs, seen, name = Counter(), {}, None
    for line in open(path, errors='replace'):
        line = line.rstrip('\r\n')
        words = line.split(' ', 4)
        if words[0] == 'race':
            name = words[1]
            runs[name] += int(words[3])
            seen.setdefault(name, Counter())
        elif words[0] == 'outcome' and name:
            seen[name][words[4]] += int(words[1])
        elif words[0] == 'stuck':
            print('!!', line)
    return runs, seen


def kept_lines(name):
    path = os.path.join(FOLDER, name + '.seen')
    if not os.path.exists(path):
        return []
    with open(path) as file:
        return file.read().splitlines()


def listed_outcomes(name, command=None):
    """What hmmraces lists: as it is kept, or as the command says now."""
    if command is None:
        return [line.split(' ', 2)[2] for line in kept_lines(name) if line.startswith('listed ')]
    with open(script_path(name)) as file:
        return outcomes_of(subprocess.run(command, stdin=file, stdout=subprocess.PIPE, check=True).stdout.decode())


def outcomes_of(text):
    """The outcomes in what hmmraces writes; only if they are all of them."""
    assert text.splitlines()[-1].endswith(' whole'), text[-100:]
    outcomes = []
    for line in text.splitlines():
        if line.startswith('outcome '):
            outcomes.append([])
        elif line.startswith('a'):
            outcomes[-1].append(line)
    return ['|'.join(lines) for lines in outcomes]


def run(work, names, runs, seconds, delay, seed):
    """Lets the guest run these races; gives the paths of what it wrote, and in how many races the kernel stopped that
    may not stop it. A race in which it stops is left out, and said; the guest is booted again for those after it."""
    told, races, unnamed = [], [Race(name) for name in names], 0
    for setting in sorted({(race.kernel, race.take_all) for race in races}):
        left = [race for race in races if (race.kernel, race.take_all) == setting]
        kernel, take_all = setting
        head = f'seed {seed}\n' + (f'delay {delay}\ntake_all {take_all}\n' if kernel == 'changed' else '')
        while left:
            text = head + ''.join(race.guest_input(runs, seconds) for race in left)
            name = f'races-{kernel}-{take_all}-{delay}-{seed}-{left[0].name}'
            path = guest_runs.boot(work, kernel, text, name, 120 + (seconds + 30) * len(left))
            told.append(path)
            done = read_outcomes(path)[0]
            left = [race for race in left if race.name not in done]
            if left:
                race = left.pop(0)
                name = 'freed-anon-vma' if race.may_stop_the_kernel() else 'NOT NAMED'
                unnamed += not race.may_stop_the_kernel()
                print(f'!! the kernel stopped in {race.name}, {name}: see {path}.console')
    return told, unnamed


class Judged:
    """A race's outcomes: of each the number of runs, and `listed`, the name of a difference, or None."""

    def __init__(self, race, runs, seen, listed):
        self.race, self.runs, self.rows = race, runs, []
        counts = Counter()
        for outcome, count in seen.items():
            counts[in_words_of_the_model(outcome, race, listed)] += count
        listed_as = {}          # an outcome as it is kept, `*` for what the guest does not tell -> how often it came
        for one in listed:
            like = next((other for other in counts if is_like(one, other)), one)
            listed_as[like] = counts[like]
        self.rows += [(one, count, 'listed') for one, count in listed_as.items()]
        others = [(one, count, name_of(one, race, listed)) for one, count in counts.items() if one not in listed_as]
        self.rows += sorted(others, key=lambda row: -row[1])
        self.listed = len(listed_as)

    def kept(self):
        """The lines of NAME.seen, see examples/linux/README.md. Those of earlier runs stay."""
        lines = [f'runs {self.runs}']
        lines += [line for line in kept_lines(self.race.name) if line.startswith('earlier')]
        lines += [f'{name} {count} {outcome}' for outcome, count, name in self.rows]
        shown = {outcome for outcome, _, _ in self.rows}
        for line in kept_lines(self.race.name):
            if line.split()[0] not in ('runs', 'earlier', 'listed') and line.split(' ', 2)[2] not in shown:
                lines.append(' '.join([line.split()[0], '0', line.split(' ', 2)[2]]))
        return ''.join(line + '\n' for line in lines)


def judge(paths, names, command=None):
    """Prints the table of the races; gives what was judged, and how many outcomes have no name."""
    runs, seen = Counter(), {}
    for path in paths:
        more, outcomes = read_outcomes(path)
        runs += more
        for name, counts in outcomes.items():
            seen.setdefault(name, Counter()).update(counts)
    judged, unnamed = [], 0
    print('Races, outcomes: runs, listed by hmmraces, of these seen; others by the name of their difference')
    for name in sorted(set(names) & set(seen)):
        one = Judged(Race(name), runs[name], seen[name], listed_outcomes(name, command))
        judged.append(one)
        others = ', '.join(f'{label or "NOT NAMED"} {count}' for _, count, label in one.rows if label != 'listed')
        shown = sum(1 for _, count, label in one.rows if label == 'listed' and count)
        print(f'  {name:36} {one.runs:6} {one.listed:3} {shown:3}  {others}')
        for outcome, count, label in one.rows:
            if label is None:
                unnamed += 1
                print(f'    NOT NAMED, {count} runs: {outcome}')
    print(f'  {len(judged)} races, {sum(one.runs for one in judged)} runs, {unnamed} outcomes without a name')
    return judged, unnamed


def keep(judged):
    """Writes NAME.seen of each race."""
    for one in judged:
        text = one.kept()
        with open(os.path.join(FOLDER, one.race.name + '.seen'), 'w') as file:
            file.write(text)
