#!/usr/bin/env python3
"""Every outcome of a race, by trying every order of turns; and whether hmmraces finds the same.

    tools/race_outcomes.py [FILE]                                 the outcomes of one script: FILE, or standard input
    tools/race_outcomes.py --drawn RUNS [SEED] [--with COMMAND..] compares drawn scripts with the command

The script's schedule is the set-up. From there each actor may take its turn at any time, until all operations have
ended. This tool shares no states: it goes through all orders of the turns that add an entry, by the definitional
program in tools/reference. So it is for a few entries only.

With --drawn it draws RUNS scripts (from seed 1) of two actors, whose races have at most 12 entries in every order.
Of those with a single outcome it leaves four in five out.
The command (./hmmraces.sh --ready; any program of the same behaviour will do) must say `whole`, must have the same
outcomes as this tool, each once, and each schedule that it writes must lead to its outcome with all operations ended, as
tools/reference replays it. Its number of states must lie between two counts that this tool makes along all orders: of
what all actors share, with the answers and how many operations of each have ended, which two states may have in common;
and of that with the entries of each actor since its operation began, which two states never have in common. Where the
two counts are equal, the number is known. Ends with status 1 at the first script for which that fails, which is then
printed. It is run by hand, outside the gate: all this is proved.
"""
import argparse, os, random, subprocess, sys

TOP = os.path.dirname(os.path.dirname(os.path.abspath(__file__)))
sys.path[:0] = [os.path.join(TOP, 'tools'), os.path.join(TOP, 'tools', 'reference')]
import report as reports
import script as scripts
import words as given
from due import Wait
from run import Machine

ANSWERS = ('loaded stored failed mapped unmapped protected forked exited attached detached refused migrated seen evicted '
           'removed excluded added').split()
MOST_ENTRIES = 12
MOST_CALM = 0.8                 # so many of the drawn races with one outcome are left out


class TooLong(Exception):
    """An order of the turns has more entries than a race may have here."""


class Wrong(Exception):
    """What is wrong with the command's answer."""


def answer_text(entry):
    """An answer as an outcome tells it: of an `attached` its sequence is no part."""
    text = reports.entry_text(entry)
    return text.rsplit(' ', 1)[0] if entry[0] == 'attached' else text


def outcome(machine, length):
    """The answers since the set-up, by actor."""
    return tuple(f'a{actor} {answer_text(entry)}' for wanted in range(len(machine.ended))
                 for actor, entry in machine.history[length:] if actor == wanted and entry[0] in ANSWERS)


class Noting(Machine):
    """A machine that notes at which position each actor's operation began."""

    def __init__(self, script):
        super().__init__(script)
        self.began = [0] * len(script.actors)

    def step(self, actor):
        before = self.ended[actor]
        did = super().step(actor)
        if self.ended[actor] != before:
            self.began[actor] = len(self.history)
        return did


def machine_after(script, turns):
    """A machine after the set-up and these turns, and the length of the set-up."""
    machine = Noting(script)
    machine.replay()
    length = len(machine.history)
    for actor in turns:
        machine.step(actor)
    return machine, length


def shared(state):
    """What all actors share, without positions and absolute sequences: a function of a state of the search."""
    covered = {p: {v: bytes(page) for v, page in pages.items() if any(page) and any(a.span.has(v) for a in state.areas[p])}
               for p, pages in state.bytes.items()}
    mirrors = {m: (x.device, x.process, x.window, x.attached, x.stage, state.is_invalidating(m))
               for m, x in state.mirrors.items()}
    tables = {m: {v: entry[:2] for v, entry in table.items()} for m, table in state.tables.items()}
    places = {p: {v: x for v, x in pages.items() if x.kind != 'none'} for p, pages in state.places.items()}
    sequences = {p: (state.seq[p] % 2, state.active[p]) for p in sorted({*state.seq, *state.active})}
    return repr((sorted(state.areas.items()), sorted((p, sorted(pages.items())) for p, pages in covered.items()),
                 sorted(state.given), sorted(mirrors.items()),
                 sorted((m, sorted(table.items())) for m, table in tables.items()),
                 sorted((p, sorted(pages.items())) for p, pages in places.items() if pages),
                 sorted((str(d), sorted(numbers)) for d, numbers in state.held.items()),
                 sorted(state.withdrawn), sorted(state.removed), {p: x for p, x in sequences.items() if x != (0, 0)},
                 sorted(state.map_lock.items()), sorted((str(f), a) for f, a in state.locker.items())))


def written(machine):
    """Every byte that was stored, by process and address, also where no area is any more."""
    found = {}
    for _, entry in machine.history:
        if entry[0] in ('stored', 'added'):
            who = entry[1] if entry[0] == 'stored' else ('m', entry[1])
            process = who[1] if who[0] == 'p' else machine.state.mirrors[who[1]].process
            data = entry[3] if entry[0] == 'stored' else entry[4]
            found.update({(process, entry[2] + at): byte for at, byte in enumerate(data)})
        elif entry[0] == 'forked':
            found.update({(entry[2], at): byte for (p, at), byte in [*found.items()] if p == entry[1]})
    return tuple(sorted(found.items()))


def own(machine, actor):
    """The actor's entries since its operation began, without positions; of a sequence whether it is still that of its
    mirror or process."""
    state, ended, entries = machine.state, machine.ended[actor], []
    for a, entry in machine.history[machine.began[actor]:]:
        if a != actor:
            continue
        match entry:
            case ('begin', m, seq) | ('detaching', m, seq):
                entries.append((entry[0], m, state.mirrors[m].seq == seq))
            case ('set', m, page, frame, right, _):
                entries.append(('set', m, page, frame, right))
            case ('told', m, span, _):
                entries.append(('told', m, span))
            case ('start', p, span, _) | ('end', p, span, _):
                entries.append((entry[0], p, span))
            case _:
                entries.append(entry)
    return ended, tuple(map(repr, entries))


class Counts:
    """Two counts of states, between which their number lies."""

    def __init__(self):
        self.shared, self.told = set(), set()

    def note(self, machine, length):
        actors = range(len(machine.ended))
        answers = tuple(outcome(machine, length))
        known = (shared(machine.state), tuple(machine.ended), answers)
        self.shared.add(known)
        self.told.add((known, written(machine), tuple(own(machine, actor) for actor in actors)))


def outcomes(script, most=MOST_ENTRIES, counts=None):
    """All outcomes. After each list of turns each actor is asked again from the start, since a machine is not copied."""
    found, todo, actors = set(), [[]], range(len(script.actors))
    while todo:
        turns = todo.pop()
        machine, length = machine_after(script, turns)
        if counts:
            counts.note(machine, length)
        if all(map(machine.is_idle, actors)):
            found.add(outcome(machine, length))
            continue
        if len(turns) == most:
            raise TooLong
        for actor in actors:
            did = machine_after(script, turns)[0].step(actor)
            if did is not None and not isinstance(did, Wait):
                todo.append(turns + [actor])
    return found


def blocks(text):
    """The outcomes that a command tells, each with its schedule lines, and its last line."""
    told, lines = [], text.decode().splitlines()
    for line in lines[:-1]:
        if line == f'outcome {len(told) + 1}':
            told.append(([], []))
        elif not told:
            raise Wrong(f'the line {line}')
        else:
            told[-1][line.startswith('turns ')].append(line)
    return told, lines[-1] if lines else ''


def judge(script, output):
    told, last = blocks(output)
    words = last.split()
    if words[:1] != ['states'] or words[2:] != ['whole']:
        raise Wrong(f'the last line {last}')
    for answers, lines in told:
        turns = [int(line.split()[1]) for line in lines for _ in range(int(line.split()[2]))]
        machine, length = machine_after(script, turns)
        if outcome(machine, length) != tuple(answers):
            raise Wrong('a schedule leads to other answers')
        if not all(map(machine.is_idle, range(len(script.actors)))):
            raise Wrong('a schedule leaves an operation')
    found = [tuple(answers) for answers, lines in told]
    if len(set(found)) < len(found):
        raise Wrong('an outcome twice')
    counts = Counts()
    if set(found) != outcomes(script, counts=counts):
        raise Wrong('other outcomes than by trying every order')
    least, most = len(counts.shared), len(counts.told)
    if not least <= int(words[1]) <= most:
        raise Wrong(f'{words[1]} states, where there are {least} to {most}')
    return len(found), least == most


def access(draw, pages):
    """An operation that reads or writes a byte; mostly the same one."""
    at = f'{(16 + draw.randrange(pages)) * 4096:#x}'
    byte = f'{draw.randrange(1, 256):02x}'
    return draw.choice([f'load 0 {at} 1', f'load 0 {at} 1', f'store 0 {at} {byte}', f'store 0 {at} {byte}',
                        f'dload 0 {at} 1', f'dload 0 {at} 1', f'dstore 0 {at} {byte}', f'dadd 0 {at} 7'])


def operation(draw, pages):
    """An operation that is short, so that two actors have at most twelve entries."""
    page = 16 + draw.randrange(pages)
    return draw.choice([
        f'protect 0 {page} 1 r', f'protect 0 {page} 1 rw', f'unmap 0 {page} 1', f'snap 0 {page} 1', f'todev 0 {page} 1',
        f'tosys 0 {page} 1', 'detach 0', 'fork 0 1', f'exclusive 0 {page}', 'evict 0', 'remove 0', 'attach 1 0 0 16 1',
        f'map 0 {page + pages} 1 rw', access(draw, pages), access(draw, pages), access(draw, pages)])


def drawn(draw):
    """The set-up gives each actor its first operations; what follows them is the race."""
    pages = draw.choice([1, 1, 1, 2])
    before = [f'map 0 16 {pages} rw', 'attach 0 0 0 16 4']
    before += [access(draw, pages) for _ in range(draw.choice([1, 2, 3]))]
    before += [operation(draw, pages) for _ in range(draw.choice([0, 0, 1]))]
    raced = [[operation(draw, pages) for _ in range(draw.choice([1, 2, 3]))] for _ in range(2)]
    lines = ['hmm 2', f'frames {draw.choice([1, 2, 4])}', 'device 0 2', 'actor 0', *before, *raced[0], 'actor 1', *raced[1]]
    script = scripts.parse(('\n'.join(lines) + '\n').encode())
    machine = Machine(script)
    while machine.ended[0] < len(before):
        machine.step(0)
    return ('\n'.join([*lines, f'turns 0 {len(machine.history)}']) + '\n').encode()


def compare(command, runs, seed):
    draw, done, total, known = random.Random(seed), 0, 0, 0
    while done < runs:
        text = drawn(draw)
        script = scripts.parse(text)
        try:
            if len(outcomes(script)) == 1 and draw.random() < MOST_CALM:
                continue
        except TooLong:
            continue
        ran = subprocess.run(command, input=text, capture_output=True)
        try:
            if ran.returncode != 0:
                raise Wrong(f'status {ran.returncode}: {ran.stderr.decode()}')
            found, is_known = judge(script, ran.stdout)
            total, known = total + found, known + is_known
        except Wrong as why:
            sys.stdout.buffer.write(text + ran.stdout)
            print(f'race_outcomes.py: {why}', file=sys.stderr)
            sys.exit(1)
        done += 1
    print(f'{runs} drawn races: the same {total} outcomes, each with a schedule that leads to it; the number of states lies '
          f'between both counts, and is known in {known} races')


def main():
    given.begin(__doc__)
    words = argparse.ArgumentParser(add_help=False, usage=__doc__)
    words.add_argument('file', nargs='?')
    words.add_argument('--drawn', nargs='+', type=int)
    words.add_argument('--with', dest='command', nargs=argparse.REMAINDER)
    for word in sys.argv[1:]:
        if word == '--with':
            break
        if word.startswith('--') and word != '--drawn':
            given.refuse(f'there is no `{word}`{given.nearest(word, ("--drawn", "--with"))}')
    asked = words.parse_args()
    if asked.drawn:
        command = asked.command or given.ready('hmmraces')
        return compare(command, asked.drawn[0], asked.drawn[1] if len(asked.drawn) > 1 else 1)
    try:
        script = scripts.parse(given.data_of([asked.file] if asked.file else []))
    except scripts.Refused as refused:
        print('race_outcomes.py: script line {}: {}'.format(*refused.args), file=sys.stderr)
        return 3
    found = outcomes(script, 10_000)
    for number, answers in enumerate(sorted(found), 1):
        print(f'outcome {number}', *answers, sep='\n')
    return 0


if __name__ == '__main__':
    sys.exit(main())
