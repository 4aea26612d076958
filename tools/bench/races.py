#!/usr/bin/env python3
"""Measures what a state costs `hmmraces`, in time and memory.

    tools/bench/races.py                  with crates/hmmraces/out/hmmraces
    tools/bench/races.py --program NAME   another program
    tools/bench/races.py --most N         each search gives up at N states (100,000 if not said)

The races are those of the gallery, the worked scripts of two and three actors with no set-up (their schedules are left
out, so that all they do is raced), and two that are made here, which are larger. A search's time is that of the processor,
its own and the system's for it, and the memory is the most that it held. Races with fewer than 1,000 states are added up.
"""
import argparse, glob, os, re, subprocess, sys, tempfile

TOP = os.path.dirname(os.path.dirname(os.path.dirname(os.path.abspath(__file__))))
EXAMPLES = os.path.join(TOP, 'examples')
SCHEDULE = re.compile(r'(turns|drain|rounds)\b')

DEEP = '''hmm 2
frames 4
device 0 4
actor 0
map 0 16 2 rw
attach 0 0 0 16 2
exclusive 0 16
actor 1
load 0 0x10000 1
load 0 0x10000 1
actor 2
load 0 0x10000 1
todev 0 16 1
store 0 0x11000 41
tosys 0 16 1
exclusive 0 16
'''

WIDE = '''hmm 1
frames 16
device 0 8
actor 0
map 0 16 4 rw
attach 0 0 0 16 4
store 0 0x10000 4142
todev 0 16 1
load 0 0x10000 2
actor 1
dload 0 0x10000 2
store 0 0x11001 51
load 0 0x10000 2
actor 2
store 0 0x10001 51
load 0 0x10000 4
store 0 0x10000 52
actor 3
load 0 0x10000 4
store 0 0x10000 77
load 0 0x10000 1
turns 0 12
'''


def search(program, script, most):
    """Returns the last line's words, the processor time in seconds, and the most memory in KiB. The program is started by
    `time`, which is small: of a process that this one starts the system would count this one's own memory too."""
    with tempfile.TemporaryFile() as said:
        with subprocess.Popen(['/usr/bin/time', '-f', '%M', program, str(most)], stdin=subprocess.PIPE,
                              stdout=subprocess.PIPE, stderr=said) as run:
            run.stdin.write(script.encode())
            run.stdin.close()
            lines = run.stdout.read().decode().split('\n')
            _, status, usage = os.wait4(run.pid, 0)
            run.returncode = os.waitstatus_to_exitcode(status)
        said.seek(0)
        held = said.read().split()
    if run.returncode:
        sys.exit(f'{program} ended with status {run.returncode}')
    return lines[-2].split(), usage.ru_utime + usage.ru_stime, int(held[-1])


def races():
    """Gives each race's name and script."""
    for file in sorted(glob.glob(f'{EXAMPLES}/races/*.hmm')):
        yield os.path.basename(file)[:-4], open(file).read()
    for file in sorted(glob.glob(f'{EXAMPLES}/worked/*.hmm')):
        lines = open(file).read().split('\n')
        if sum(it.startswith('actor ') for it in lines) in (2, 3):
            yield os.path.basename(file)[:-4], '\n'.join(it for it in lines if not SCHEDULE.match(it))
    yield 'deep (made here)', DEEP
    yield 'wide (made here)', WIDE


def main():
    words = argparse.ArgumentParser(description=__doc__, formatter_class=argparse.RawDescriptionHelpFormatter)
    words.add_argument('--program', default=f'{TOP}/crates/hmmraces/out/hmmraces')
    words.add_argument('--most', type=int, default=100_000)
    given = words.parse_args()
    if not os.access(given.program, os.X_OK):
        sys.exit(f'races.py: there is no {given.program} (./hmmraces.sh builds the proved program)')
    small, states, spent, longest = 0, 0, 0.0, 0.0
    print(f'{"race":32} {"states":>8}        {"seconds":>8} {"MiB":>6} {"a second":>9} {"KiB each":>9}')
    for name, script in races():
        last, seconds, held = search(given.program, script, given.most)
        count = int(last[1])
        if count < 1000:
            small, states, spent, longest = small + 1, states + count, spent + seconds, max(longest, seconds)
            continue
        print(f'{name:32} {count:8} {last[2]:6} {seconds:8.2f} {held / 1024:6.0f} {count / seconds:9.0f} {held / count:9.2f}')
    print(f'{small} smaller races: {states} states in {spent:.2f} seconds, the longest {longest:.2f}')


if __name__ == '__main__':
    main()
