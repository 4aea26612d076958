#!/usr/bin/env python3
"""How well the turns of threads mix, and what it costs.

    tools/thread_mix.py [--short N] [--peeks N] [--runs N] [--with COMMAND..]

Prints four tables:

- long scripts (`generate 5` to `8`, eight actors): how many entries there are for each change of the actor under
  `threads`, and its time in units of that of `replay` of the same entries: of the script with a schedule that makes
  these turns. The time is that of a clock, at the median of RUNS runs (9);
- short drawn scripts (300): of those in which two actors add four entries or more, in how many some actor goes on after
  another came between;
- one actor alone, 15,000 stores: the time beside `replay`;
- `peek`, on a script of some 5,000 entries: how many copies it told in each of so many runs (20).

Each report is judged by the command's own `check`. The command is ./hmmrun.sh --ready if none is given: the proved
program if it is built, or else the unproved one. For two processors run it under `taskset -c 0,1`. Ends with status 1
if a report is not legal. It is run by hand, outside the gate.
"""
import argparse, collections, itertools, random, re, subprocess, sys, time

import compare_words
import words

PAGE = 4096


def run(command, asked, text):
    """What the command writes, and how many seconds that took."""
    begun = time.perf_counter()
    done = subprocess.run(command + asked, input=text, stdout=subprocess.PIPE, stderr=subprocess.PIPE)
    if done.returncode != 0:
        sys.exit(f'thread_mix.py: {" ".join(asked)}: status {done.returncode}')
    return done.stdout, time.perf_counter() - begun


def actors_of(report):
    return re.findall(rb'^\d+ a(\d+) ', report.split(b'\nhistory\n', 1)[1], re.M)


def judge(command, report):
    done = subprocess.run(command + ['check'], input=report, stdout=subprocess.PIPE, stderr=subprocess.PIPE)
    if done.returncode != 0:
        sys.stdout.buffer.write(report)
        sys.exit('thread_mix.py: the report is not legal')


def least(command, word, script, runs):
    """The least time of so many runs."""
    return min(run(command, [word], script)[1] for _ in range(runs))


def same_turns(script, report):
    """The script with a schedule of the turns that the report has."""
    lines = [line for line in script.split(b'\n')[:-1] if line.split(b' ')[0] not in (b'turns', b'drain', b'rounds')]
    turns = [b'turns %s %d' % (actor, len(list(part))) for actor, part in itertools.groupby(actors_of(report))]
    return b'\n'.join(lines + turns) + b'\n'


def changes(actors):
    return sum(one != other for one, other in zip(actors, actors[1:]))


def long_scripts(command, runs):
    for number in range(5, 9):
        script = run(command, ['generate', str(number)], b'')[0]
        ratios, mixes = [], []
        for _ in range(runs):
            report, took = run(command, ['threads'], script)
            judge(command, report)
            again = same_turns(script, report)
            if run(command, ['replay'], again)[0].split(b'\nhistory\n')[1] != report.split(b'\nhistory\n')[1]:
                sys.exit('thread_mix.py: the same turns have another history')
            ratios.append(took / least(command, 'replay', again, 3))
            mixes.append(len(actors_of(report)) / max(1, changes(actors_of(report))))
        print(f'generate {number}: {min(mixes):.1f} to {max(mixes):.1f} entries for each change of the actor; '
              f'{sorted(ratios)[runs // 2]:.1f} times replay of the same entries ({min(ratios):.1f} to {max(ratios):.1f})')


def goes_on(actors):
    """Whether some actor adds an entry after another came between."""
    parts = [one for at, one in enumerate(actors) if at == 0 or actors[at - 1] != one]
    return len(parts) > len(set(parts))


def short_scripts(command, count):
    draw, busy, mixed = random.Random(7), 0, 0
    for _ in range(count):
        report = run(command, ['threads'], compare_words.drawn(draw))[0]
        judge(command, report)
        actors = actors_of(report)
        if sum(n >= 4 for n in collections.Counter(actors).values()) >= 2:
            busy, mixed = busy + 1, mixed + goes_on(actors)
    print(f'{count} short scripts, {busy} with two busy actors: {mixed} interleave')


def alone(command, runs):
    stores = '\n'.join(f'store 0 {(16 + at % 64) * PAGE:#x} {at % 256:02x}' for at in range(15_000))
    script = f'hmm 1\nframes 200\nactor 0\nmap 0 16 64 rw\n{stores}\ndrain\n'.encode()
    took, beside = least(command, 'threads', script, runs), least(command, 'replay', script, runs)
    print(f'one actor, 15,000 stores: {took * 1e3:.1f} ms, replay {beside * 1e3:.1f} ms')


def peeked(command, runs):
    actors = [f'actor {actor}\n' + ''.join(f'store 0 {16 * PAGE + actor:#x} {at % 256:02x}\n' for at in range(640))
              for actor in range(8)]
    script = ('hmm 1\nframes 20\n' + actors[0].replace('\n', '\nmap 0 16 1 rw\n', 1) + ''.join(actors[1:])).encode()
    told = []
    for _ in range(runs):
        output = run(command, ['peek', '0', hex(16 * PAGE), '8'], script)[0]
        told.append(output.count(b'\npeek '))
    print(f'peek of {len(actors_of(output))} entries, {runs} runs: {min(told)} to {max(told)} copies, '
          f'{sorted(told)[runs // 2]} at the median')


def main():
    words.begin(__doc__)
    parse = argparse.ArgumentParser(usage=__doc__)
    parse.add_argument('--short', type=int, default=300)
    parse.add_argument('--peeks', type=int, default=20)
    parse.add_argument('--runs', type=int, default=9)
    parse.add_argument('--with', dest='command', nargs='+')
    given = parse.parse_args()
    command = given.command or words.ready()
    long_scripts(command, given.runs)
    short_scripts(command, given.short)
    alone(command, given.runs)
    peeked(command, given.peeks)


if __name__ == '__main__':
    main()
