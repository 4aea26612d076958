#!/usr/bin/env python3
"""Tests a driver, rule by rule, with races that are made to happen (docs/STEER.md).

    tools/trace/suite.py CONF --guest W [--driver RULE] [WORDS]     in a guest: W is the folder that build.sh filled
    tools/trace/suite.py CONF --here DIR [WORDS]                    on this machine, as root: DIR has the modules
    tools/trace/suite.py CONF --judge FILE                          judges runs that --keep has kept

CONF names the driver's functions: test_hmm.conf, or a copy of template.conf. For each rule that the driver can break
its shortest races are made, steered, and the trace of each run is judged by hmmtrace. Writes the Test Anything
Protocol, as the kernel's own tests do, a line for each rule:

    ok N RULE # kept: ..                its races were steered, in so many runs, and the trace says `kept`, or the
                                        driver turned away: which hold was late
    not ok N RULE # broken: ..          a trace breaks it, or a device's answer is one that no right driver gives
    ok N RULE # SKIP not met: ..        its races did not come: which hold, and why
    ok N RULE # SKIP not asked: ..      the driver has not what it needs

    --driver RULE        the driver of edit_rules.py without that rule; `right` if it is not given
    --rules RULE,RULE    these rules alone
    --runs N             runs of each rule (20)
    --seconds N          of a boot, or of all runs here (300)
    --cpus N             processors of the guest (3)
    --keep FILE          keeps the runs
    --only-expect RULE   status 0 if just that rule is broken, or none if it is `right`; else 1: for a suite of drivers
    --unsteered          without holds, to compare: what the same calls do if nobody is held
    --dry                writes the plan, and runs nothing

Ends with status 0, 1 if a rule is broken, 2 if the words are wrong, 3 if CONF has a mistake (its line and the reason),
4 if a file cannot be read, 10 if no rule is broken and the races of one were not met, 70 if something could not be
built or loaded.
"""
import argparse
import collections
import itertools
import os
import re
import shutil
import subprocess
import sys
import tarfile
import tempfile

HERE = os.path.dirname(os.path.abspath(__file__))
TOP = os.path.dirname(os.path.dirname(HERE))
sys.path[:0] = [HERE, os.path.join(TOP, 'tools')]
import holds as steering
import holds_of_race as races
import words as given

# of each rule its races, as RULE.SCRIPT: the shortest one without RULE of SCRIPT.hmm, in races or examples/broken; or
# as RULE.SCRIPT.NAME, with the model's holds of races/RULE.SCRIPT.NAME.holds. Those that may spoil a kernel if the
# driver is wrong come last: the device writes there.
RACES = {
    'compare': ['compare.entry', 'compare.retry'],
    'compare-sequence': ['compare.entry', 'compare-sequence.entry', 'compare-sequence.retry'],
    'mmap-lock': ['mmap-lock.entry', 'compare.entry'],
    'begin-waits': ['begin-waits.retry', 'begin-waits.entry'],
    'begin-first': ['begin-first.entry', 'begin-first.retry'],
    'set-sequence': ['set-sequence.entry', 'set-sequence.retry'],
    'erase': ['erase.entry2', 'erase.retry', 'erase.entry'],
    'erase-all': ['erase-all.both'],
    'erase-in-time': ['erase-in-time.entry2'],
    'stop-at-detach': ['stop-at-detach.detach'],
    'set-right': ['set-right.readonly'],
    'set-moved': ['set-moved.lost'],
    'drop-lost': ['drop-lost.leak'],
    'take-from-there': ['take-from-there.leak'],
    'withdraw-first': ['withdraw-first.leak'],
    'own-events': ['own-events.move', 'own-events.own', 'own-events.two_files'],
    'own-sequence': ['own-events.own', 'own-sequence.move', 'own-sequence.own3'],
    'own-entries': ['own-entries.own'],
    'entry-right': ['entry-right.shared'],
    'write-entry': ['write-entry.shared'],
}
MEMORY = {'set-right', 'set-moved', 'drop-lost', 'take-from-there', 'withdraw-first', 'own-events', 'own-sequence',
          'own-entries'}
# the names that a rule needs, beside `callback` (README.md, What each rule needs)
NEEDS = {
    'compare': 'set', 'compare-sequence': 'set', 'begin-first': 'set', 'entry-right': 'set', 'erase': 'set erase',
    'erase-all': 'set erase', 'erase-in-time': 'set erase', 'own-events': 'set erase', 'own-sequence': 'set erase',
    'own-entries': 'set erase', 'set-right': 'set', 'set-moved': 'set', 'write-entry': 'set reads writes',
    'drop-lost': 'frees', 'take-from-there': 'withdraws takes', 'withdraw-first': 'withdraws'}
NOT_ASKED = {
    'own-device': 'it needs private memory of two devices', 'detach-waits': 'whoever calls the kernel keeps it',
    'set-unless-invalidated': 'no race is known that punishes it', 'evict-first': 'a driver without it hangs there',
    'wait-for-locked': 'a driver without it hangs there', 'exclusive-waits': 'no call for exclusive access',
    'look-again': 'no call for exclusive access', 'copy-all': 'no trace has bytes', 'clear': 'no trace has bytes'}

# the names of a CONF: of both modules, of one, or of neither
BOTH = ('callback', 'set', 'reads', 'writes', 'takes', 'frees', 'withdraws', 'fetches', 'adds', 'table')
PROBES = ('erase', 'object', 'owner', 'tag_mask', 'tag_write', 'tag_sole', 'model', 'size')
STEER = ('lock', 'locks', 'exclusive', 'trap')
OWN = ('calls', 'device', 'memory_device', 'load', 'module')
NUMBERS = ('table', 'object', 'owner', 'tag_mask', 'tag_write', 'tag_sole', 'lock', 'device', 'memory_device', 'size')


class Refused(Exception):
    """A status, and what is said."""


def conf_of(path):
    """The names of a CONF: name -> what it is."""
    try:
        with open(path) as file:
            lines = file.read().splitlines()
    except OSError as error:
        raise Refused(4, f'{path}: {error.strerror}') from None
    conf = {}
    for at, line in enumerate(lines, 1):
        name, _, what = line.split('#')[0].strip().partition(' ')
        what = what.strip()
        if not name:
            continue
        why = mistake_of(name, what, conf)
        if why:
            raise Refused(3, f'{path} line {at}: `{name}` {why}')
        conf[name] = what
    if 'callback' not in conf:
        raise Refused(3, f'{path} line {max(1, len(lines))}: `callback` is missing')
    return conf


def mistake_of(name, what, conf):
    """What is wrong with a line of a CONF, or none."""
    if name not in BOTH + PROBES + STEER + OWN:
        return 'is no name of a CONF'
    if name in conf:
        return 'is there twice'
    if not what:
        return 'has nothing after it'
    if name in NUMBERS and not re.fullmatch(r'-?(0x[0-9a-fA-F]+|\d+)', what):
        return 'is no number'
    if name != 'load' and ' ' in what:
        return 'has more than one word after it'
    return None


# ---- the plan

def read_race(name, given=None):
    """The script, its lines, and the holds' lines, of RULE.SCRIPT."""
    rule, script, *model = name.split('.')
    path = os.path.join(HERE, 'races', script + '.hmm')
    if not os.path.exists(path):
        path = os.path.join(TOP, 'examples', 'broken', script + '.hmm')
    parsed = races.read_script(path)
    entries = races.entries_of(parsed, rule, lines_of(os.path.join(HERE, 'races', f'{rule}.{script}.race')))
    model = lines_of(os.path.join(HERE, 'races', name + '.holds')) if model else None
    return parsed, lines_of(path), races.converted(parsed, entries, rule, model, races.HOLD_US, given)


def lines_of(path):
    with open(path) as file:
        return file.read().splitlines()


def operations_of(lines):
    """The operations of each actor, as the script has them."""
    actors = []
    for line in lines:
        words = line.split()
        if words[0] == 'actor':
            actors.append([])
        elif actors and words[0] not in ('turns', 'drain'):
            actors[-1].append(line)
    return actors


def plan_of_race(name, conf, is_steered):
    """The lines of a race for steer_runs."""
    parsed, lines, holds = read_race(name, set(conf))
    start = races.Race(parsed, None, (), True)
    actors = operations_of(lines)
    if any(start.running) or any(start.ended[1:]):
        raise Refused(70, f'{name}: the set-up ends within an operation, or has two actors')
    needs_memory = any(x.split()[0] in ('todev', 'tosys', 'remove', 'evict') for a in actors for x in a)
    device = conf.get('memory_device' if needs_memory else 'device', '0')
    yield 'race ' + name
    for line in actors[0][:start.ended[0]]:
        words = line.split()
        if words[0] == 'attach':
            words[2] = device
        yield ' '.join(words)
    for at, operations in enumerate(actors):
        yield f'actor {at}'
        yield from operations[start.ended[at]:]
    yield 'holds'
    words = ('pages', 'call', 'hold', 'try') if is_steered else ('pages', 'call')
    yield from (line for line in holds if line.startswith(words))
    yield 'end'


def why_not_asked(rule, conf):
    """What the driver lacks for a rule, or none."""
    if rule in NOT_ASKED:
        return NOT_ASKED[rule]
    if rule in MEMORY and 'memory_device' not in conf:
        return 'no device with memory of its own'
    missing = [x for x in NEEDS.get(rule, '').split() if x not in conf]
    return 'it needs ' + ', '.join(missing) if missing else None


def plan_of(rules, conf, runs, is_steered=True):
    for rule in rules:
        yield f'rule {rule} {runs}'
        for name in RACES[rule]:
            try:
                yield from list(plan_of_race(name, conf, is_steered))
            except races.NotMet:                # without its places; other races of the rule may do
                pass


# ---- running

def words_of(conf, it):
    """What the modules are given: a line for each."""
    as_words = lambda names: ' '.join(f'{x}={conf[x]}' for x in names if x in conf)
    yield 'hmm_probes ' + as_words(BOTH + PROBES)
    yield 'hmm_steer ' + as_words(BOTH + STEER)
    yield 'module ' + conf.get('module', 'test_hmm.ko')
    yield 'load ' + conf.get('load', '')
    yield f'seconds {it.seconds}'


def write(path, lines):
    with open(path, 'w') as file:
        file.write('\n'.join(lines) + '\n')


def run_in_guest(it, conf, plan, folder):
    """The text of the runs of one boot."""
    inside, out = os.path.join(folder, 'inside'), os.path.join(folder, 'out')
    os.makedirs(inside, exist_ok=True)
    write(os.path.join(inside, 'plan'), plan)
    write(os.path.join(inside, 'words'), words_of(conf, it))
    driver = os.path.join(it.guest, 'drivers', it.driver, 'test_hmm.ko')
    if 'module' in conf:
        driver = os.path.join(os.path.dirname(os.path.abspath(it.conf)), conf['module'])
    shutil.copy(driver, os.path.join(inside, os.path.basename(conf.get('module', 'test_hmm.ko'))))
    with tarfile.open(os.path.join(folder, 'in.tar'), 'w') as tar:
        for name in os.listdir(inside):
            tar.add(os.path.join(inside, name), name)
    memory = 'memmap=32M$0x28000000' if 'spm_addr_dev0' in conf.get('load', '') else ''
    environment = dict(os.environ, CPUS=str(it.cpus), APPEND=f'mitigations=off nokaslr {memory}')
    subprocess.run([os.path.join(HERE, os.pardir, 'linux', 'boot.sh'), os.path.join(it.guest, 'steer'), 'debian',
                    os.path.join(folder, 'in.tar'), out, str(it.seconds)], env=environment, check=False)
    with open(out, errors='replace') as file, open(out + '.console', errors='replace') as console:
        return file.read().replace('\r', ''), console.read()


def run_here(it, conf, plan, folder):
    for name in ('hmm_probes.ko', 'hmm_steer.ko', 'steer_runs'):
        if not os.path.exists(os.path.join(it.here, name)):
            raise Refused(70, f'there is no {it.here}/{name}')
        shutil.copy(os.path.join(it.here, name), folder)
    write(os.path.join(folder, 'plan'), plan)
    write(os.path.join(folder, 'words'), words_of(conf, it))
    out = os.path.join(folder, 'out')
    done = subprocess.run(['sh', os.path.join(HERE, 'suite_run.sh'), folder, out, str(it.seconds)], check=False)
    if not os.path.exists(out):
        raise Refused(70, f'suite_run.sh ended with status {done.returncode}: the end of dmesg says why')
    with open(out, errors='replace') as file:
        return file.read(), ''


class Run:
    """One run of a rule: its trace, and what the comments say."""

    def __init__(self, rule, number):
        self.rule, self.number, self.trace, self.status = rule, number, [], None
        self.held, self.said, self.came = [], [], []    # (race, text)
        self.is_over, self.verdicts, self.harm, self.made = False, {}, [], {}

    def line(self, line):
        words = line.split(' ', 3)
        if line.startswith('# status '):
            self.status = int(words[2])
        elif line.startswith(('# held ', '# said ', '# came ')) and len(words) == 4:
            getattr(self, words[1]).append((words[2], words[3]))
        elif line.startswith('# made ') and len(words) == 4:
            self.made[words[2]] = int(words[3].split()[1])
        elif not line.startswith('#'):
            self.trace.append(line)

    def bad_holds(self):
        """The holds that had to be met and were not: race, hold, outcome."""
        bad = []
        for race, text in self.held:
            hold, _, outcome = text.partition(': ')
            if text.startswith('hold ') and outcome.split()[:1] not in (['waited'], ['free']):
                bad.append((race, hold, outcome))
            elif not text.startswith(('hold ', 'try ', 'missed ')):
                bad.append((race, text, 'refused'))
        return bad

    def turned(self):
        """The first try of each race that was not met."""
        found = {}
        for race, text in self.held:
            hold, _, outcome = text.partition(': ')
            if text.startswith('try ') and outcome.split()[:1] in (['late'], ['unmet']):
                found.setdefault(race, (hold, outcome.split()[0]))
        return [(race, *x) for race, x in found.items()]


def runs_of(text):
    """The runs of a boot; the last one may have been cut off."""
    runs = []
    for line in text.split('\n'):
        words = line.split()
        if line.startswith('# run ') and len(words) == 4:
            runs.append(Run(words[2], int(words[3])))
        elif line == '# over' and runs:
            runs[-1].is_over = True
        elif runs and not runs[-1].is_over:
            runs[-1].line(line)
    return runs


def all_runs(it, conf, rules, keep):
    """The runs of all rules; a guest that stops is booted again, without the rule at which it did."""
    runs, stopped, left = [], {}, list(rules)
    while left and len(stopped) < 6:
        with tempfile.TemporaryDirectory() as folder:
            run = run_in_guest if it.guest else run_here
            text, console = run(it, conf, plan_of(left, conf, it.runs, not it.unsteered), folder)
        keep(text)
        new = runs_of(text)
        runs += new
        counts = collections.Counter(x.rule for x in new if x.is_over)
        if '\n# all' in text or text.startswith('# all'):
            break
        if it.here:
            break
        at = next((x for x in left if counts[x] < it.runs), left[-1])
        alarm = re.findall(r'(?:BUG|Oops|general protection|WARNING|panic)[^\n]*', console)
        stopped[at] = f'the guest stopped in run {counts[at]}' + (': ' + alarm[0][:80] if alarm else '')
        if not new and not runs:
            raise Refused(70, 'the guest made no run: ' + ' '.join(console.split('\n')[-6:])[:400])
        left = left[left.index(at) + 1:]
    return runs, stopped


# ---- harm: answers that no order of the operations has in which each comes before all that began after its end

TIME = re.compile(r'(a\d) (\w+) (\d+) at (-?\d+) us')


class Answers:
    """The accesses' answers of a right driver, for each order of the operations of a race."""

    def __init__(self, name):
        self.script = read_race(name)[0]
        start = races.Race(self.script, None, (), True)
        self.of = [(a, n) for a, words in enumerate(self.script.actors) for n in range(start.ended[a], len(words))]
        self.first, self.known = dict(enumerate(start.ended)), {}

    def word(self, operation):
        return self.script.actors[operation[0]][operation[1]][0]

    def in_order(self, order):
        """The answers of accesses if the operations are made so, one after the other."""
        if order not in self.known:
            race, said = races.Race(self.script, None, (), True), collections.defaultdict(list)
            for actor, number in order:
                while race.ended[actor] == number and races.stepped(race, actor):
                    pass
                text = races.reports.entry_text(race.history[-1][1])
                if self.word((actor, number)) in ('load', 'store', 'dload', 'dstore'):
                    said[actor].append(text)
            self.known[order] = dict(said)
        return self.known[order]


def spans_of(answers, came):
    """When each operation took place: an access of a device since the last look into its table. None if one is open."""
    times, calls, spans = collections.defaultdict(list), {}, {}
    for text in came:
        match = TIME.match(text)
        if match:
            times[int(match[1][1:]), match[2]].append(int(match[4]))
    for actor, number in answers.of:
        at = number - answers.first[actor]
        go, done = times[actor, 'go'], times[actor, 'done']
        if len(done) <= at or len(go) <= at:
            return None
        looks = [x for x in times[actor, 'using'] if go[at] < x < done[at]]
        is_device = answers.word((actor, number)) in ('dload', 'dstore')
        calls[actor, number] = go[at], done[at]
        spans[actor, number] = (looks[-1] if looks and is_device else go[at], done[at])
    for one in spans:
        if answers.word(one) == 'detach':       # a file is closed when the calls under way have returned
            spans[one] = spans[one][0], max(end for start, end in calls.values() if start <= spans[one][1])
    return spans


def is_harm(answers, said, came):
    """Whether the answers are those of no order that the operations' times allow."""
    spans = spans_of(answers, came)
    if not spans:
        return False
    heard = collections.defaultdict(list)
    for text in said:
        actor, _, answer = text.partition(' ')
        if answer.split()[0] in ('loaded', 'stored', 'failed'):
            heard[int(actor[1:])].append(answer)
    for order in itertools.permutations(answers.of):
        before = [(x, y) for at, x in enumerate(order) for y in order[at + 1:]]
        if all(spans[y][1] >= spans[x][0] and not (x[0] == y[0] and x[1] > y[1]) for x, y in before):
            if answers.in_order(order) == dict(heard):
                return False
    return True


def harm_of(runs):
    """Notes for each run the races in which it did harm."""
    known = {}
    for run in runs:
        for name in {name for name, _ in run.came}:
            if name not in known:
                known[name] = Answers(name)
            answers, of = known[name], lambda pairs: [text for race, text in pairs if race == name]
            if run.made.get(name) == 0 and is_harm(answers, of(run.said), of(run.came)):
                run.harm.append((name, '; '.join(of(run.said))))


# ---- judging

def judge(runs):
    """Gives each run its verdicts, and gives those of all together: rule -> what is said."""
    done = [x for x in runs if x.is_over and x.trace]
    if not done:
        return {}
    text = ''.join(f'trace {x.rule}.{x.number}\n' + '\n'.join(x.trace) + '\n' for x in done)
    said = subprocess.run(given.ready('hmmtrace'), input=text.encode(), stdout=subprocess.PIPE, stderr=subprocess.PIPE,
                          check=False)
    if said.returncode not in (0, 1):
        raise Refused(70, 'hmmtrace: ' + said.stderr.decode().strip())
    at, together, verdicts, last = -1, {}, {}, None
    for line in said.stdout.decode().splitlines():
        words = line.split()
        if line.startswith('trace '):
            at += 1
            verdicts = done[at].verdicts
        elif line.startswith('all '):
            verdicts = together
        elif line.startswith('  ') and last:
            verdicts[last] += ' ' + line.strip()
        elif words[0] != 'events':
            last, verdicts[words[0]] = words[0], ' '.join(words[1:])
    return together


def most(items):
    """The one that comes most often, and how often."""
    return collections.Counter(items).most_common(1)[0]


def broken_in(rule, runs):
    """The first run in which a rule is broken, and what is said of it."""
    for run in runs:
        if run.verdicts.get(rule, '').startswith(('broken', 'maybe')):
            return f'{run.rule} run {run.number}: line {run.verdicts[rule].split(" ", 1)[1]}'
    return ''


def result(rule, runs, together, stopped, conf):
    """The word for a rule, and why."""
    mine = [x for x in runs if x.rule == rule and x.is_over]
    what = together.get(rule, 'unseen')
    harmed = [x for x in mine if x.harm]
    harm = f'; harm in {len(harmed)} of {len(mine)}' if harmed else ''
    if what.startswith('broken') or re.fullmatch(r'maybe in \d+', what):
        return 'broken', f'{what}; {broken_in(rule, runs)}{harm}'
    if harmed and not any(x.startswith('broken') for x in together.values()):
        return 'broken', f'run {harmed[0].number} of {harmed[0].harm[0][0]}: {harmed[0].harm[0][1]}{harm}'
    why = why_not_asked(rule, conf)
    if why:
        return 'not asked', why
    if mine and any(x.status == 4 for x in mine):
        return 'not asked', 'the program has not the calls'
    if what.startswith('maybe'):
        return 'not met', what
    steered = [x for x in mine if not x.bad_holds() and x.status == 0]
    turns = [turn for x in steered for turn in x.turned() if turn[0].startswith(rule + '.')]
    tested = [x for x in steered if x.verdicts.get(rule, '').startswith('kept')]
    if tested or turns:
        late = f'; turned away: {most(turns)[0][1]} was {most(turns)[0][2]} in {most(turns)[1]}' if turns else ''
        return 'kept', (f'steered in {len(steered)} of {len(mine)}; kept by the trace in {len(tested)}{late}'
                        + (harm and harm + ', by another rule'))
    if not mine:
        return 'not met', stopped.get(rule, 'no run came to its end')
    if not any(x.made for x in mine):
        return 'not met', 'no race of it has holds that can be met with these names'
    bad = [(hold, outcome.split()[0]) for x in mine for _, hold, outcome in x.bad_holds()]
    if bad:
        (hold, outcome), count = most(bad)
        return 'not met', f'{hold} was {outcome} in {count} of {len(mine)}'
    if not steered:
        return 'not met', f'status {mine[0].status}' + (f': {mine[0].said[0][1]}' if mine[0].said else '')
    return 'not met', 'no event tests it'


def tap(rules, results):
    print('TAP version 13')
    print(f'1..{len(rules)}')
    for at, rule in enumerate(rules, 1):
        word, why = results[rule]
        print(('not ok' if word == 'broken' else 'ok') + f' {at} {rule} # '
              + ('SKIP ' if word in ('not met', 'not asked') else '') + f'{word}: {why}')
    counts = collections.Counter(word for word, _ in results.values())
    print('# ' + ', '.join(f'{counts[x]} {x}' for x in ('kept', 'broken', 'not met', 'not asked')))


def status_of(it, results):
    broken = {rule for rule, (word, _) in results.items() if word == 'broken'}
    if it.only_expect:
        return int(broken != ({it.only_expect} - {'right'}))
    return 1 if broken else 10 if any(word == 'not met' for word, _ in results.values()) else 0


def ask():
    words = argparse.ArgumentParser(description=__doc__, formatter_class=argparse.RawDescriptionHelpFormatter)
    words.add_argument('conf')
    words.add_argument('--guest')
    words.add_argument('--here')
    words.add_argument('--judge')
    words.add_argument('--driver', default='right')
    words.add_argument('--rules')
    words.add_argument('--runs', type=int, default=20)
    words.add_argument('--seconds', type=int, default=300)
    words.add_argument('--cpus', type=int, default=3)
    words.add_argument('--keep')
    words.add_argument('--only-expect')
    words.add_argument('--unsteered', action='store_true')
    words.add_argument('--dry', action='store_true')
    it = words.parse_args()
    if sum(x is not None for x in (it.guest, it.here, it.judge)) + it.dry != 1:
        words.error('one of --guest, --here, --judge, --dry')
    return it


def main():
    it = ask()
    conf = conf_of(it.conf)
    rules = it.rules.split(',') if it.rules else list(RACES) + list(NOT_ASKED)
    for rule in rules:
        if rule not in RACES and rule not in NOT_ASKED:
            raise Refused(2, f'there is no rule {rule}')
    asked = [x for x in rules if not why_not_asked(x, conf)]
    if it.dry:
        print(*plan_of(asked, conf, it.runs, not it.unsteered), sep='\n')
        return 0
    if it.keep:
        open(it.keep, 'w').close()

    def keep(text):
        if it.keep:
            with open(it.keep, 'a') as file:
                file.write(text)

    if it.judge:
        with open(it.judge) as file:
            runs, stopped = runs_of(file.read()), {}
    else:
        runs, stopped = all_runs(it, conf, asked, keep)
    together = judge(runs)
    harm_of(runs)
    results = {rule: result(rule, runs, together, stopped, conf) for rule in rules}
    tap(rules, results)
    return status_of(it, results)


if __name__ == '__main__':
    try:
        sys.exit(main())
    except Refused as refused:
        print('suite.py: ' + refused.args[1], file=sys.stderr)
        sys.exit(refused.args[0])
