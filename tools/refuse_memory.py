#!/usr/bin/env python3
"""Refuses each request for memory of a program in turn, in the proved program itself.

    tools/refuse_memory.py [--program NAME] [--five] [--long] [--most N] [--words WORD ..] [SCRIPT ..]

For each script: counts the program's requests (malloc, realloc, calloc), then runs it once for each of them with that
one refused, and once with that one and all later ones refused. Each run must end with status 6 and have written
nothing, or be the same as the run without refusals. Prints the counts, and ends with 1 at the first run that differs.

    --program  this program (hmmrun unless given); hmmjudge and hmmview are given the report of each script
    --five     all five programs, one after the other
    --long     two scripts more, made here: one of more than 1,000,000 bytes, and one of 4,194,304, the most there are
    --most N   at most N of the requests, spread evenly, with the first and the last among them
    --words    these words, in place of those in WORDS below
"""
import argparse, os, subprocess, sys, tempfile

import words

TOP = os.path.dirname(os.path.dirname(os.path.abspath(__file__)))
# the programs, each with the words that it is given
WORDS = {'hmmrun': ['replay'], 'hmmraces': [], 'hmmwithout': ['compare'], 'hmmjudge': ['--all'], 'hmmview': []}
OF_REPORTS = {'hmmjudge', 'hmmview'}

# Loaded before the C library: refuses request REFUSE_AT, and those after it if REFUSE_ALL is set; keeps how many
# requests there were in the file COUNT_TO, as 8 bytes, since a program may end without a call of destructors.
REFUSER = r'''
#include <fcntl.h>
#include <stdlib.h>
#include <sys/mman.h>
#include <unistd.h>
extern void *__libc_malloc(size_t), *__libc_realloc(void *, size_t), *__libc_calloc(size_t, size_t);
static long unkept, *asked = &unkept, at = -1;
static int all;
__attribute__((constructor)) static void begin(void)
{
    const char *text = getenv("REFUSE_AT");
    int file = open(getenv("COUNT_TO"), O_RDWR | O_CREAT, 0600);
    if (file < 0 || ftruncate(file, 8)) _exit(99);
    asked = mmap(0, 8, PROT_READ | PROT_WRITE, MAP_SHARED, file, 0);
    if (asked == MAP_FAILED) _exit(99);
    all = getenv("REFUSE_ALL") != 0;
    *asked = 0;
    at = text ? atol(text) : -1;
}
static int refused(void) { ++*asked; return at > 0 && (all ? *asked >= at : *asked == at); }
void *malloc(size_t n) { return refused() ? 0 : __libc_malloc(n); }
void *realloc(void *p, size_t n) { return refused() ? 0 : __libc_realloc(p, n); }
void *calloc(size_t n, size_t m) { return refused() ? 0 : __libc_calloc(n, m); }
'''


LONGEST = 4_194_304


def long_script(size):
    """A script of exactly this many bytes: stores of 256 bytes each, and a few lines that fill it up."""
    head, tail = 'hmm 1\nframes 8\nactor 0\nmap 0 16 4 rw\n', 'turns 0 1000000\n'
    store, load = 'store 0 0x10000 {}\n', 'load 0 0x10000 1\n'
    full, bare = len(store.format('5a' * 256)), len(store.format(''))
    left = size - len(head) - len(tail)
    count = left // full - 1
    lines = [store.format('5a' * 256)] * count
    left -= count * full
    while left:
        if left % 2 != bare % 2:
            lines.append(load)
        else:
            rest = left - bare
            lines.append(store.format('5a' * (rest // 2 if rest <= 512 else (rest - 100) // 4)))
        left -= len(lines[-1])
    script = head + ''.join(lines) + tail
    assert len(script) == size
    return script.encode()


def chosen(requests, most):
    """The requests that are refused."""
    if most is None or requests <= most:
        return range(1, requests + 1)
    return sorted({1 + at * (requests - 1) // (most - 1) for at in range(most)})


def path_of(name):
    """Where the program is: HMMRUN names another hmmrun."""
    built = os.path.join(TOP, 'crates', name, 'out', name)
    return os.environ.get('HMMRUN', built) if name == 'hmmrun' else built


def run_with(room, program, words, data, at=None, all_later=False):
    """Status, output and number of requests of one run, with request `at` refused."""
    count = os.path.join(room, 'count')
    environment = dict(os.environ, LD_PRELOAD=os.path.join(room, 'refuser.so'), COUNT_TO=count)
    if at is not None:
        environment['REFUSE_AT'] = str(at)
    if all_later:
        environment['REFUSE_ALL'] = '1'
    done = subprocess.run([path_of(program)] + words, input=data, capture_output=True, env=environment)
    with open(count, 'rb') as file:
        return done.returncode, done.stdout, int.from_bytes(file.read(), 'little')


def sweep(room, given, program, name, script):
    """Whether every refusal is answered as it should be."""
    words = WORDS[program] if given.words is None else given.words
    data = run_with(room, 'hmmrun', ['replay'], script)[1] if program in OF_REPORTS else script
    status, report, requests = run_with(room, program, words, data)
    refused, empty = chosen(requests, given.most), 0
    for at in refused:
        for all_later in (False, True):
            got, written, _ = run_with(room, program, words, data, at, all_later)
            if (got, written) == (6, b''):
                empty += 1
            elif (got, written) != (status, report):
                print(f'{program}, {name}: request {at} of {requests} refused: status {got}, {len(written)} bytes written')
                return False
    print(f'{program}, {name}: status {status}; {requests} requests, of which {len(refused)} were refused; of {2 * len(refused)} runs '
          f'{empty} ended with 6 and nothing written')
    return True


def main():
    words.begin(__doc__)
    parse = argparse.ArgumentParser(usage=__doc__)
    parse.add_argument('scripts', nargs='*')
    parse.add_argument('--long', action='store_true')
    parse.add_argument('--most', type=int)
    parse.add_argument('--words', nargs='+')
    parse.add_argument('--program', choices=WORDS, default='hmmrun')
    parse.add_argument('--five', action='store_true')
    given = parse.parse_args()
    programs = list(WORDS) if given.five else [given.program]
    if not given.scripts and not given.long:
        words.refuse('no script is given, so nothing is tried')
    for program in {'hmmrun', *programs}:
        words.need(path_of(program))
    scripts = [(name, open(name, 'rb').read()) for name in given.scripts]
    if given.long:
        scripts += [(f'a script of {size} bytes', long_script(size)) for size in (1_200_000, LONGEST)]
    with tempfile.TemporaryDirectory() as room:
        source = os.path.join(room, 'refuser.c')
        with open(source, 'w') as file:
            file.write(REFUSER)
        subprocess.run(['cc', '-shared', '-fPIC', '-O1', '-o', os.path.join(room, 'refuser.so'), source], check=True)
        done = [sweep(room, given, program, *script) for program in programs for script in scripts]
        return 0 if all(done) else 1


if __name__ == '__main__':
    sys.exit(main())
