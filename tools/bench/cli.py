#!/usr/bin/env python3
"""Measures what an entry costs, in time and memory, in ordinary histories and on paths that may be slow.

    tools/bench/cli.py                              each script with crates/hmmrun/out/hmmrun, best of three runs
    tools/bench/cli.py --against 'COMMAND replay'   the same, and both figures as ratios to those of that command
    tools/bench/cli.py --list                       the scripts, and what each does

    --program COMMAND   this command, with its words, and not the proved program's `replay`
    --only WORD         the scripts alone whose name has the word; may be given more than once
    --runs N            the best of N runs
    --keep FOLDER       the scripts are written there too, as NAME.hmm

The scripts are made from a fixed seed (histories.py and slow_paths.py). A command is run once for its report, and then
as often as is asked for with its report thrown away. The time is the least that a run took of a processor, of itself
and of the system for it. The memory is the most that a run held. Both commands are run in turn. Ends with status 1 if a
command fails, a history is not as long as it should be, or the two reports differ.
"""
import argparse, ctypes, filecmp, os, shlex, shutil, sys, tempfile
from typing import Callable, NamedTuple

import histories, slow_paths as slow

TOP = os.path.dirname(os.path.dirname(os.path.dirname(os.path.abspath(__file__))))
PROGRAM = os.path.join(TOP, 'crates', 'hmmrun', 'out', 'hmmrun')
FULL, STATUS_FULL = 2_000_000, 7


class Case(NamedTuple):
    name: str
    does: str
    make: Callable
    status: int = 0
    word: str = 'replay'        # a word that reads a report has that of the script


START = Case('start', 'one operation: what a run costs at least', histories.start)
HISTORIES = [
    Case('stores-20k', 'loads and stores after forks', lambda: histories.stores(128, 15)),
    Case('stores-2m', 'the same, to 1.8 million entries', lambda: histories.stores(8064, 21)),
    Case('forks-20k', 'accesses, then forks and exits', lambda: histories.forks(600, 14)),
    Case('forks-2m', 'the same, to 1.9 million entries', lambda: histories.forks(60000, 14)),
    Case('forks-full', 'the same, to a full history', lambda: histories.forks(60000, 20), STATUS_FULL),
    Case('mix-20k', 'accesses, migrations, evictions, additions', lambda: histories.mix(640, 1000)),
    Case('mix-2m', 'the same, to 1.8 million entries', lambda: histories.mix(99200, 99000)),
    Case('migrations-20k', '`todev` and `tosys` of 64 pages', lambda: histories.migrations(24)),
    Case('migrations-full', 'the same, to a full history', lambda: histories.migrations(2400), STATUS_FULL),
]
# The beginning of a long history, and half of it, with the same pages.
PARTS = [
    Case('stores-begin', 'the first round of the long loads and stores', lambda: histories.stores(8064, 1)),
    Case('stores-half', 'eleven of its 21 rounds', lambda: histories.stores(8064, 11)),
    Case('forks-begin', 'the accesses of the long forks, and one fork', lambda: histories.forks(60000, 1)),
    Case('forks-half', 'seven of its 14 forks', lambda: histories.forks(60000, 7)),
]
SLOW_PATHS = [
    Case('window-down', 'a window filled from the last page down', lambda: slow.window('down')),
    Case('window-up', 'a window filled upward', lambda: slow.window('up')),
    Case('window-drawn', 'a window filled in drawn order', lambda: slow.window('drawn')),
    Case('full-table', 'the first page of a full table, erased and set', slow.full_table),
    Case('told-all', 'invalidations that 32 mirrors are told', slow.told),
    Case('told-none', 'invalidations beside 32 mirrors', lambda: slow.told(99000, False)),
    Case('deferred', 'removals and insertions that wait', slow.deferred),
    Case('far-protect', 'single pages, the next used one at the end', lambda: slow.far(None)),
    Case('near-protect', 'single pages, the next used one 2^17 ahead', lambda: slow.far(1 << 17)),
    Case('far-unmap', 'as far-protect, by `unmap` and `map`', lambda: slow.far(None, 'unmap')),
    Case('wide-protect', 'wide spans with one used page', slow.wide),
    Case('wide-told', 'the same, in the table of a mirror too', lambda: slow.wide(word='dstore')),
    Case('sparse', 'used pages that lie far apart', slow.sparse),
    Case('areas', 'a process at 64 areas', slow.areas),
    Case('few-frames', 'a large machine of which little is used', slow.few_frames),
    Case('shared-evict', 'stored pages, forks, migrations, `evict`, exits', slow.shared_evict),
    Case('users', 'frames with 32 users', slow.users),
    Case('unshare', 'copies on write of frames with 32 users', slow.unshare),
    Case('last-frame', 'the last free frame, taken and dropped', slow.last_frame),
    Case('last-device-frame', '`evict` of the last frame, where none is free', slow.last_device_frame),
    Case('kept', 'migrations whose pages are all kept', slow.kept),
    Case('locked', '`evict` of a device with 64 locked frames', slow.locked),
    Case('at-once', 'eight migrations of 64 pages at once', slow.at_once),
    Case('additions', 'eight actors add to one page in turn', slow.additions),
    Case('refused', 'refused and failed operations', slow.refused),
    Case('waits', 'turns that wait', slow.waits),
    Case('long-accesses', 'loads and stores of 256 bytes', slow.long_accesses),
    Case('snaps', '`snap` of 64 pages', slow.snaps),
]


def three_sizes(name, does, make, full, word='replay'):
    """A path at a quarter of its size, at half of it, and in full, which show how it grows."""
    return [Case(f'{name}-{part}', does, lambda size=full // share: make(size), word=word)
            for part, share in SIZES.items()]


SIZES = {'quarter': 4, 'half': 2, 'full': 1}
GROWING = (
    three_sizes('downward', 'a far page mapped, read and unmapped, from the last down', slow.downward, 33200)
    + three_sizes('far-areas', 'a page protected, 59 used pages far behind it', slow.far_areas, 99000)
    + three_sizes('alone', 'each used page alone in its table, in 32 processes', slow.alone, 56000)
    + three_sizes('why-forks', '`why`: stores, then 31 forks', slow.forked_stores, 50000, 'why')
    + three_sizes('why-loads', '`why`: loads of 256 bytes of many sources',
                  lambda loads: slow.many_sources(loads=loads), 40000, 'why'))


class Run(NamedTuple):
    status: int
    seconds: float
    kib: int


def run_once(command, script, output):
    """Runs a command on a script, and measures it. A shell begins it and leaves it to us: the system counts what a
    process had in memory before it became the command, and that of a shell is small."""
    actions = [(os.POSIX_SPAWN_DUP2, output.fileno(), 1), (os.POSIX_SPAWN_DUP2, script.fileno(), 3),
               (os.POSIX_SPAWN_OPEN, 2, os.devnull, os.O_WRONLY, 0)]
    os.lseek(script.fileno(), 0, os.SEEK_SET)
    shell = os.posix_spawn('/bin/sh', ['sh', '-c', '"$@" <&3 3<&- &', 'sh', *command], os.environ, file_actions=actions)
    os.waitpid(shell, 0)
    _, status, used = os.wait4(-1, 0)
    return Run(os.waitstatus_to_exitcode(status), used.ru_utime + used.ru_stime, used.ru_maxrss)


def adopt_orphans():
    """Makes this process the parent of what a shell leaves behind (PR_SET_CHILD_SUBREAPER of Linux)."""
    if ctypes.CDLL(None, use_errno=True).prctl(36, 1, 0, 0, 0) != 0:
        sys.exit('this system gives no orphans to us, so memory cannot be measured')


def entry_count(report):
    """The number of entries, from the last line of a report; none if it has none."""
    size = report.seek(0, os.SEEK_END)
    report.seek(max(0, size - 30))
    words = report.read().split()
    return int(words[-1]) if len(words) > 1 and words[-2] == b'end' else None


class Measured(NamedTuple):
    entries: int
    seconds: float
    kib: int

    def text(self):
        time, memory = self.seconds * 1e6 / self.entries, self.kib * 1024 / self.entries
        return f'{self.entries:9} {self.seconds:8.3f} {time:7.3f} {self.kib / 1024:7.1f} {memory:10.0f}'

    def ratios_to(self, other):
        return f' {self.seconds / other.seconds:6.2f} {self.kib / other.kib:6.2f}'


def measured(commands, case, script, runs, reports):
    """What each command needs for a script; none if something is not as it should be."""
    counts, fine = [], True
    for command, report in zip(commands, reports):
        status = run_once(command, script, report).status
        counts.append(entry_count(report))
        if status != case.status or not counts[-1] or status == STATUS_FULL and counts[-1] != FULL:
            fine = False
            print(f'{case.name}: status {status}, {counts[-1]} entries, by {shlex.join(command)}')
    if not fine:
        return None
    if len(reports) > 1 and not filecmp.cmp(reports[0].name, reports[1].name, shallow=False):
        print(f'{case.name}: the reports differ')
        return None
    all_runs = [[] for _ in commands]
    with open(os.devnull, 'wb') as nothing:
        for _ in range(runs):
            for done, command in zip(all_runs, commands):
                done.append(run_once(command, script, nothing))
    return [Measured(count, min(run.seconds for run in done), max(run.kib for run in done))
            for count, done in zip(counts, all_runs)]


def input_of(case, path, command, folder):
    """The file that the case's word reads: the script, or the report that the command writes of it."""
    if case.word == 'replay':
        return path
    report = os.path.join(folder, 'input')
    with open(path, 'rb') as script, open(report, 'wb') as file:
        run_once(command, script, file)
    return report


def measure_case(case, commands, options):
    """Prints the line of a script. Gives its figures, or none."""
    with tempfile.TemporaryDirectory() as folder:
        path = os.path.join(options.keep or folder, case.name + '.hmm')
        with open(path, 'wb') as file:
            file.write(case.make().text())
        path = input_of(case, path, commands[0], folder)
        commands = [[case.word if word == 'replay' else word for word in command] for command in commands]
        reports = [open(os.path.join(folder, f'report{n}'), 'w+b') for n in range(len(commands))]
        with open(path, 'rb') as script:
            found = measured(commands, case, script, options.runs, reports)
        for report in reports:
            report.close()
    if found:
        print(f'{case.name:18} {found[0].text()}', *map(found[0].ratios_to, found[1:]), flush=True)
    return found


def growth(start, short, long):
    """What an entry of a long history takes in units of one of a short, without what a run takes at least."""
    return (long.seconds - start.seconds) / long.entries / ((short.seconds - start.seconds) / short.entries)


def print_growth(figures):
    """The growth of each kind of history, for each command."""
    for kind in ('stores', 'forks', 'mix', 'migrations'):
        long = figures.get(f'{kind}-2m') or figures.get(f'{kind}-full')
        three = [figures.get(START.name), figures.get(f'{kind}-20k'), long]
        if all(three):
            ratios = ' and '.join(f'{growth(*each):.2f}' for each in zip(*three))
            print(f'{kind}: an entry of the long history takes {ratios} times as long as one of the short')


def print_sizes(figures):
    """What an entry of a path in full takes in units of one of a quarter of it, for each command."""
    for name in [case.name.removesuffix('-full') for case in GROWING if case.name.endswith('-full')]:
        three = [figures.get(START.name), figures.get(f'{name}-quarter'), figures.get(f'{name}-full')]
        if all(three):
            ratios = ' and '.join(f'{growth(*each):.2f}' for each in zip(*three))
            print(f'{name}: in full an entry takes {ratios} times as long as in a quarter')


def between(short, long):
    """What an entry takes of those that the long history has and the short one has not."""
    return (long.seconds - short.seconds) / (long.entries - short.entries)


def print_halves(figures):
    """What an entry of the second half of a long history takes, where the pages are those of the first half."""
    for kind in ('stores', 'forks'):
        three = [figures.get(f'{kind}-{part}') for part in ('begin', 'half', '2m')]
        if all(three):
            ratios = ' and '.join(f'{between(half, long) / between(begin, half):.2f}'
                                  for begin, half, long in zip(*three))
            print(f'{kind}: with the same pages, an entry of the second half takes {ratios} times one of the first')


def parsed_words():
    parser = argparse.ArgumentParser(description=__doc__, formatter_class=argparse.RawDescriptionHelpFormatter)
    parser.add_argument('--program', default=shlex.join([PROGRAM, 'replay']), metavar='COMMAND')
    parser.add_argument('--against', metavar='COMMAND')
    parser.add_argument('--only', action='append', default=[], metavar='WORD')
    parser.add_argument('--runs', type=int, default=3, metavar='N')
    parser.add_argument('--keep', metavar='FOLDER')
    parser.add_argument('--list', action='store_true')
    return parser.parse_args()


def main():
    options = parsed_words()
    cases = [START] + [case for case in HISTORIES + PARTS + SLOW_PATHS + GROWING
                       if not options.only or any(word in case.name for word in options.only)]
    if options.list:
        print('\n'.join(f'{case.name:18} {case.does}' for case in cases))
        return 0
    if options.keep:
        os.makedirs(options.keep, exist_ok=True)
    adopt_orphans()
    commands = [shlex.split(text) for text in (options.program, options.against) if text]
    for command in commands:
        if not shutil.which(command[0]):
            sys.exit(f'{command[0]} is not there (./hmmrun.sh builds the proved program)')
    ratios = '    time memory' if options.against else ''
    print(f'{"script":18} {"entries":>9} {"seconds":>8} {"us each":>7} {"MiB":>7} {"bytes each":>10}{ratios}')
    figures, fine = {}, True
    for case in cases:
        found = measure_case(case, commands, options)
        fine = fine and found is not None
        figures[case.name] = found
    print_growth(figures)
    print_halves(figures)
    print_sizes(figures)
    return 0 if fine else 1


if __name__ == '__main__':
    sys.exit(main())
