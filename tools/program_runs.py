#!/usr/bin/env python3
"""Runs the built programs, and compares their exit codes, what they write and what they say with the documents.

    tools/program_runs.py [--hmmrun PATH] [--hmmraces PATH] [--hmmview PATH] [--hmmjudge PATH]
                          [--hmmtrace PATH]

A path is crates/NAME/out/NAME unless it is given. Each run has a line, `ok` or `differs`. Ends with 1 if one differs.
A report that is too long has 268,435,457 bytes, so such a run takes some seconds and some hundred MiB of memory.
"""
import argparse
import os
import subprocess
import sys
import threading

TOP = os.path.dirname(os.path.dirname(os.path.abspath(__file__)))
EMPTY = b'hmm 1\nframes 0\n'
EMPTY_REPORT = EMPTY + b'history\nend 0\n'
SCRIPT_BYTES = 4_194_304
REPORT_BYTES = 268_435_456
RUN_USAGE = ('usage: hmmrun replay | threads | race | generate N | trial N | upgrade | check | peek P ADDR LEN | '
             'advise | why')
RACE_USAGE = 'usage: hmmraces [[--most] MOST] [--table | --script N | [--strict] --expect CONDITION ..]'
VIEW_USAGE = 'usage: hmmview [FROM TO]'
JUDGE_USAGE = 'usage: hmmjudge [--standing | --all]'
TRACE_USAGE = 'usage: hmmtrace [--expect RULE ..]'
NOTHING = 'nothing is left to race after drain: end the schedule where the race is to begin'
NO_ROWS = 'no such rows: FROM is after TO, or after the end of the report'
REFUSED = 'script line 1: bad header'
EVENT = b'0 a0 remove m0\n'
UNLOCKED = b'0 a0 walk m0 16 1 1 unlocked -\n'
LIST = b'trace a\n' + UNLOCKED + b'trace b\n'
ANY = object()          # what a run writes, where it is not compared
FULL = object()         # standard output is the full device


# Program, words, input (bytes, or a number of bytes), exit code, what it writes, what it says.
RUNS = [
    ('hmmrun', 'replay', EMPTY, 0, EMPTY_REPORT, ''),
    ('hmmrun', 'threads', EMPTY, 0, EMPTY_REPORT, ''),
    ('hmmrun', 'check', EMPTY_REPORT, 0, ANY, ''),
    ('hmmrun', 'why', EMPTY_REPORT, 0, b'end 0\n', ''),
    ('hmmrun', 'check', EMPTY, 1, b'bad 3\n', 'not legal'),
    ('hmmrun', 'why', EMPTY, 1, b'bad 3\n', 'not legal'),
    ('hmmrun', '', EMPTY, 2, b'', RUN_USAGE),
    ('hmmrun', 'replay now', EMPTY, 2, b'', RUN_USAGE),
    ('hmmrun', 'replay', b'', 3, b'', REFUSED),
    ('hmmrun', 'replay', EMPTY, 5, FULL, 'write fault'),
    ('hmmrun', 'replay', SCRIPT_BYTES + 1, 8, b'', 'script too long'),
    ('hmmrun', 'check', REPORT_BYTES + 1, 8, b'', 'report too long'),
    ('hmmrun', 'why', REPORT_BYTES + 1, 8, b'', 'report too long'),
    ('hmmraces', '', EMPTY, 0, ANY, ''),
    ('hmmraces', 'many', EMPTY, 2, b'', RACE_USAGE),
    ('hmmraces', '--expect some', EMPTY, 2, b'', 'condition 1: bad word 2'),
    ('hmmraces', ['--expect', 'none a0 load p0 0x10000 41'], EMPTY, 2, b'', 'condition 1: bad word 2'),
    ('hmmraces', '--strict', EMPTY, 2, b'', RACE_USAGE),
    ('hmmraces', ['--strict', '--expect', 'none a0'], EMPTY, 2, b'', 'condition 1: bad word 3'),
    ('hmmraces', '--script 2', EMPTY, 9, b'', 'no such outcome'),
    ('hmmraces', '', EMPTY + b'drain\n', 9, b'', NOTHING),
    ('hmmraces', '', b'', 3, b'', REFUSED),
    ('hmmraces', '', EMPTY, 5, FULL, 'write fault'),
    ('hmmraces', '', SCRIPT_BYTES + 1, 8, b'', 'script too long'),
    ('hmmview', '', EMPTY_REPORT, 0, ANY, ''),
    ('hmmview', '', EMPTY, 1, b'', 'not legal'),
    ('hmmview', '1', EMPTY_REPORT, 2, b'', VIEW_USAGE),
    ('hmmview', '', EMPTY_REPORT, 5, FULL, 'write fault'),
    ('hmmview', '', REPORT_BYTES + 1, 8, b'', 'report too long'),
    ('hmmview', '1 0', EMPTY_REPORT, 9, b'', NO_ROWS),
    ('hmmview', '1 2', EMPTY_REPORT, 9, b'', NO_ROWS),
    ('hmmjudge', '', EMPTY_REPORT, 0, b'legal 0\n', ''),
    ('hmmjudge', '', EMPTY, 1, b'bad 3\nmissing\nends history\n', 'not legal'),
    ('hmmjudge', 'all', EMPTY_REPORT, 2, b'', JUDGE_USAGE),
    ('hmmjudge', '', EMPTY_REPORT, 5, FULL, 'write fault'),
    ('hmmjudge', '', REPORT_BYTES + 1, 8, b'', 'report too long'),
    ('hmmtrace', '', EVENT, 0, ANY, ''),
    ('hmmtrace', '', UNLOCKED, 1, ANY, 'a rule is broken'),
    ('hmmtrace', '--expect mmap-lock', UNLOCKED, 1, ANY, 'a rule is broken'),
    ('hmmtrace', '--expect compare', EVENT, 10, ANY, 'no event tests the rule compare'),
    ('hmmtrace', 'all', EVENT, 2, b'', TRACE_USAGE),
    ('hmmtrace', '--expect', EVENT, 2, b'', TRACE_USAGE),
    ('hmmtrace', '--expect erase copy-all', EVENT, 2, b'', 'word 3 is no rule'),
    ('hmmtrace', '', EVENT + EVENT, 3, b'', 'trace line 2: not the next number'),
    ('hmmtrace', '', LIST + EVENT, 1, ANY, 'a rule is broken'),
    ('hmmtrace', '', LIST + EVENT + EVENT, 3, b'', 'trace 2 line 2: not the next number'),
    ('hmmtrace', '', EVENT[:-1], 3, b'', 'trace line 1: bad line end or byte'),
    ('hmmtrace', '', EVENT, 5, FULL, 'write fault'),
    ('hmmtrace', '', REPORT_BYTES + 1, 8, b'', 'trace too long'),
]


def read(*names):
    with open(os.path.join(TOP, *names), 'rb') as file:
        return file.read()


def traces():
    """A run of each trace of examples/traces, whose verdicts lie beside it."""
    folder = os.path.join('examples', 'traces')
    for name in sorted(os.listdir(os.path.join(TOP, folder))):
        stem, kind = os.path.splitext(name)
        if kind in ('.trace', '.traces'):
            verdicts = read(folder, stem + '.verdicts')
            broken = b' broken ' in verdicts
            yield 'hmmtrace', '', read(folder, name), int(broken), verdicts, 'a rule is broken' if broken else ''


def feed(pipe, given):
    """Writes the input, or that many bytes piece by piece, as far as the program reads."""
    try:
        if isinstance(given, bytes):
            pipe.write(given)
        else:
            while given > 0:
                given -= pipe.write(b'#' * min(given, 1 << 20))
        pipe.close()
    except BrokenPipeError:
        pass


def run(path, words, given, wanted):
    """The exit code of a run, what it writes and what it says."""
    output = open('/dev/full', 'wb') if wanted is FULL else subprocess.PIPE
    given_words = words if isinstance(words, list) else words.split()
    process = subprocess.Popen([path, *given_words], stdin=subprocess.PIPE, stdout=output, stderr=subprocess.PIPE)
    feeder = threading.Thread(target=feed, args=(process.stdin, given))
    feeder.start()
    process.stdin, keep = None, process.stdin
    written, said = process.communicate()
    feeder.join()
    del keep
    return process.returncode, written, said.decode()


def agrees(path, case):
    name, words, given, code, wanted, message = case
    got_code, written, said = run(path, words, given, wanted)
    line = f'{name}: {message}\n' if message else ''
    same = got_code == code and said == line and (wanted in (ANY, FULL) or written == wanted)
    count = given if isinstance(given, int) else len(given)
    size = f'{count} bytes' if count > 60 else repr(given.decode())
    print('ok     ' if same else 'differs', code, name, words, '<', size, '' if same else (got_code, written, said))
    return same


def main():
    parser = argparse.ArgumentParser(description=__doc__, formatter_class=argparse.RawDescriptionHelpFormatter)
    for name in ('hmmrun', 'hmmraces', 'hmmview', 'hmmjudge', 'hmmtrace'):
        parser.add_argument(f'--{name}', default=os.path.join(TOP, 'crates', name, 'out', name), metavar='PATH')
    paths = vars(parser.parse_args())
    results = [agrees(paths[case[0]], case) for case in RUNS + list(traces())]
    sys.exit(0 if all(results) else 1)


if __name__ == '__main__':
    main()
