#!/usr/bin/env python3
"""The kernel's own selftests of HMM as scripts: those of tools/testing/selftests/vm/hmm-tests.c of Linux 6.1 that the
script language can say.

    selftest_scripts.py         writes each into crates/stored_examples/data/linux/selftests: NAME.hmm, and NAME.asserts with
                                what the test asserts (examples/linux/README.md tells the lines); tests them first

A buffer has PAGES pages here, and 1,024 in the kernel's tests. What was left out, and the tests that no script can say,
stand in docs/LINUX.md.
"""
import os
import sys

import answers

FOLDER = os.path.join(answers.TOP, 'crates', 'stored_examples', 'data', 'linux', 'selftests')
PAGES = 4
FIRST = 16              # the first page of a buffer
LAST = 4092             # of the last int of a page

TESTS = {}              # name -> (lines of the script, assertions)


def address(page, offset=0):
    return hex(page * 4096 + offset)


def int_bytes(value):
    return (value & 0xffffffff).to_bytes(4, 'little').hex()


def ints(pages, first=0):
    """The first and the last int of each page of a buffer that is filled with 0, 1, 2, ..: (page, offset, value)."""
    for page in range(first, pages):
        yield FIRST + page, 0, 1024 * page
        yield FIRST + page, LAST, 1024 * page + 1023


def head(pages, devices=1):
    return ['hmm 2', f'frames {6 * pages + 64}', *(f'device {d} {2 * pages + 16}' for d in range(devices))]


def fill(process, pages, first=0, more=0):
    return [f'store {process} {address(page, offset)} {int_bytes(value + more)}'
            for page, offset, value in ints(pages, first)]


def read(word, number, pages, first=0):
    return [f'{word} {number} {address(page, offset)} 4' for page, offset, _ in ints(pages, first)]


def write(mirror, pages, sign=1):
    return [f'dstore {mirror} {address(page, offset)} {int_bytes(sign * value)}' for page, offset, value in ints(pages)]


def loaded(who, pages, first=0, more=0, sign=1):
    return [f'has loaded {who} {address(page, offset)} {int_bytes(sign * value + more)}'
            for page, offset, value in ints(pages, first)]


def test(name, lines, asserts):
    TESTS[name] = (lines, asserts)


def buffer(pages, devices=1):
    """The head, and a mirrored area of process 0."""
    return head(pages, devices) + ['actor 0', f'attach 0 0 0 {FIRST} {pages}', f'map 0 {FIRST} {pages} rw']


def in_device(pages):
    return buffer(pages) + fill(0, pages) + [f'todev 0 {FIRST} {pages}']


def accesses(n):
    test('open_close', head(n) + ['actor 0', 'map 0 16 1 rw', f'attach 0 0 0 {FIRST} 1', 'detach 0', 'drain'],
         ['has attached m0 d0 p0 16 1 1  # ASSERT_GE(self->fd, 0)', 'has detached m0  # ASSERT_EQ(close(fd), 0)'])
    test('anon_read', buffer(n) + fill(0, n, 2) + [f'protect 0 {FIRST} {n} r', f'load 0 {address(FIRST + 1)} 4']
         + read('dload', 0, n) + ['drain'],
         [f'has loaded p0 {address(FIRST + 1)} 00000000  # ASSERT_EQ(val, 0)', 'count 0 failed  # ASSERT_EQ(ret, 0)',
          *(f'has loaded m0 {address(FIRST + page, offset)} 00000000  # ASSERT_EQ(ptr[i], 0)'
            for page in (0, 1) for offset in (0, LAST)),
          *loaded('m0', n, 2), f'count {n} set m0  # ASSERT_EQ(buffer->cpages, npages)'])
    test('anon_write', buffer(n) + write(0, n) + read('load', 0, n) + ['drain'],
         ['count 0 failed  # ASSERT_EQ(ret, 0)', *loaded('p0', n)])
    test('anon_write_prot', head(n) + ['actor 0', f'attach 0 0 0 {FIRST} {n}', f'map 0 {FIRST} {n} r',
                                       f'dload 0 {address(FIRST)} 4']
         + [f'dstore 0 {address(FIRST + page)} {int_bytes(1024 * page)}' for page in range(n)] + read('load', 0, n)
         + [f'protect 0 {FIRST} {n} rw']
         + [f'dstore 0 {address(FIRST + page)} {int_bytes(1024 * page + 7)}' for page in range(n)]
         + [f'load 0 {address(FIRST + page)} 4' for page in range(n)] + ['drain'],
         [f'has loaded m0 {address(FIRST)} 00000000  # ASSERT_EQ(ret, 0) of the read',
          f'count {n} failed m0 * 4 2  # ASSERT_EQ(ret, -EPERM)',
          f'count {2 * n} loaded p0 * 00000000  # ASSERT_EQ(ptr[i], 0)',
          *(f'has {word} {address(FIRST + page)} {int_bytes(1024 * page + 7)}'
            for word in ('stored m0', 'loaded p0') for page in range(n))])
    test('anon_write_child', head(n) + ['actor 0', f'map 0 {FIRST} {n} rw'] + fill(0, n) + ['fork 0 1']
         + read('load', 1, n) + [f'attach 1 0 1 {FIRST} {n}'] + write(1, n, -1) + read('load', 1, n)
         + ['detach 1', 'exit 1']
         + read('load', 0, n) + ['drain'],
         ['count 0 failed  # ASSERT_EQ(ret, 0)', *loaded('p1', n), *loaded('p1', n, sign=-1), *loaded('p0', n)])
    lines, asserts = head(n) + ['actor 0', f'attach 0 0 0 {FIRST} {n}'], []
    for time in range(10):
        lines += [f'map 0 {FIRST} {n} rw', *fill(0, n, more=time), *read('dload', 0, n), f'unmap 0 {FIRST} {n}']
        asserts += loaded('m0', n, more=time)
    test('anon_read_multiple', lines + ['drain'], ['count 0 failed', f'count {20 * n} loaded m0', *asserts])


def teardown(n):
    """An unmap of the upper half while the device reads, at five places."""
    half = n // 2
    lines = (buffer(n) + fill(0, n) + [f'dload 0 {address(FIRST + page)} 4' for page in range(n)]
             + ['actor 1', f'unmap 0 {FIRST + half} {n - half}'])
    before = 3 + 6 * n      # entries of the attach, the map, and of each page a fault and two stores
    for number, turns in enumerate((0, 5 * half, 5 * half + 3, 5 * half + 4, 5 * n)):
        test(f'anon_teardown_{number}', lines + [f'turns 0 {before + turns}', 'turns 1 999999', 'drain'],
             [rule for page in range(n) for rule in
              same(f'loaded m0 {address(FIRST + page)}', f'loaded m0 {address(FIRST + page)} {int_bytes(1024 * page)}',
                   'if the read succeeds, ASSERT_EQ(ptr[i], i)')]
             + same('failed m0', 'failed m0 * 4 1', 'if it fails, the page has no area'))


def same(wide, narrow, note):
    """Each line like `wide` is like `narrow`: two counts, which are filled in by a run."""
    return [f'count ? {wide}  # {note}', f'count ? {narrow} = the one before']


def migrations(n):
    half = n // 2
    test('migrate', in_device(n) + read('dload', 0, n) + ['drain'],
         [f'count {n} committed  # ASSERT_EQ(buffer->cpages, npages)', 'count 0 kept', 'count 0 begin m0  # no fault',
          *loaded('m0', n)])
    test('migrate_fault', in_device(n) + read('load', 0, half) + [f'todev 0 {FIRST} {n}'] + read('dload', 0, n)
         + ['drain'],
         [*loaded('p0', half), *loaded('m0', n), f'count {n - half} kept * nothere  # the half that is there already',
          'own-invalidation count 0 begin m0  # ASSERT_EQ(ret, 0): all is read from the table, without a fault'])
    test('migrate_release', in_device(n) + read('dload', 0, n) + ['remove 0'] + read('load', 0, half) + ['drain'],
         [*loaded('m0', n), 'has removed d0  # ASSERT_EQ(ret, 0) of HMM_DMIRROR_RELEASE', *loaded('p0', half)])
    test('migrate_mixed', head(8, 2) + [
        'actor 0', f'attach 0 0 0 {FIRST} 6', f'attach 1 1 0 {FIRST} 6', f'todev 1 {FIRST} 3',
        f'map 0 {FIRST + 2} 1 r', f'load 0 {address(FIRST + 2)} 4', f'map 0 {FIRST + 3} 1 rw',
        f'store 0 {address(FIRST + 3)} 03000000', f'protect 0 {FIRST + 3} 1 r', f'map 0 {FIRST + 4} 2 rw',
        f'store 0 {address(FIRST + 4)} 03000000', f'store 0 {address(FIRST + 5)} 03000000',
        f'todev 1 {FIRST + 2} 4', f'todev 0 {FIRST + 5} 1', 'drain'],
        ['migrate-answer has refused  # ASSERT_EQ(ret, -EINVAL): a range that no vma covers',
         f'has loaded p0 {address(FIRST + 2)} 00000000', 'has migrated 4  # ASSERT_EQ(buffer->cpages, 4)',
         f'has kept {FIRST + 5} nothere  # ASSERT_EQ(ret, -ENOENT)', 'count 2 migrated 0'])
    lines = head(n) + ['actor 0', f'attach 0 0 0 {FIRST} {n}']
    for _ in range(10):
        lines += [f'map 0 {FIRST} {n} rw', *fill(0, n), f'todev 0 {FIRST} {n}', *read('dload', 0, n),
                  *read('load', 0, n), f'unmap 0 {FIRST} {n}']
    test('migrate_multiple', lines + ['drain'],
         ['count 0 failed', 'count 0 kept', f'count {20 * n} committed  # to the device and home, ten times',
          f'count {20 * n} loaded m0', f'count {20 * n} loaded p0', *loaded('m0', n), *loaded('p0', n)])
    test('hmm_cow_in_device', in_device(4) + ['fork 0 1'] + fill(0, 4) + ['exit 1', f'snap 0 {FIRST} 4', 'drain'],
         ['has migrated 4', 'count 0 failed',
          *(f'has seen m0 {FIRST + page} 02  # ASSERT_EQ(m[i], HMM_DMIRROR_PROT_WRITE)' for page in range(4))])


def two_devices():
    test('snapshot', head(8, 2) + [
        'actor 0', f'attach 0 0 0 {FIRST} 7', f'attach 1 1 0 {FIRST} 7', f'map 0 {FIRST + 2} 1 r',
        f'load 0 {address(FIRST + 2)} 4', f'map 0 {FIRST + 3} 1 rw', f'store 0 {address(FIRST + 3)} 03000000',
        f'protect 0 {FIRST + 3} 1 r', f'map 0 {FIRST + 4} 3 rw', f'store 0 {address(FIRST + 4)} 03000000',
        f'todev 0 {FIRST + 5} 1', f'todev 1 {FIRST + 6} 1', f'snap 0 {FIRST} 7', 'drain'],
        ['count 2 migrated 1  # ASSERT_EQ(buffer->cpages, 1), twice',
         f'no-area-code has seen m0 {FIRST + 1} ff  # ASSERT_EQ(m[1], HMM_DMIRROR_PROT_ERROR): no vma',
         f'has seen m0 {FIRST + 2} 11  # ASSERT_EQ(m[2], HMM_DMIRROR_PROT_ZERO | PROT_READ)',
         f'has seen m0 {FIRST + 3} 01  # ASSERT_EQ(m[3], HMM_DMIRROR_PROT_READ)',
         f'has seen m0 {FIRST + 4} 02  # ASSERT_EQ(m[4], HMM_DMIRROR_PROT_WRITE)',
         f'has seen m0 {FIRST + 5} 22  # ASSERT_EQ(m[5], DEV_PRIVATE_LOCAL | WRITE)',
         f'has seen m0 {FIRST + 6} 00  # ASSERT_EQ(m[6], HMM_DMIRROR_PROT_NONE)'])
    test('double_map', head(6, 2) + ['actor 0', f'attach 0 0 0 {FIRST} 6', f'attach 1 1 0 {FIRST} 6',
                                     f'map 0 {FIRST} 6 rw'] + fill(0, 6)
         + [f'protect 0 {FIRST} 6 r'] + read('dload', 0, 6) + read('dload', 1, 6) + [f'todev 1 {FIRST} 6']
         + read('dload', 0, 6) + ['drain'],
         ['count 0 failed', 'has migrated 6  # ASSERT_EQ(buffer->cpages, npages)', 'count 24 loaded m0',
          'count 12 loaded m1', *loaded('m0', 6), *loaded('m1', 6)])


def exclusives(n):
    begin = buffer(n) + fill(0, n) + [f'exclusive 0 {FIRST + page}' for page in range(n)]

    def increment(process):
        return [line for page in range(n) for line in
                (f'load {process} {address(FIRST + page)} 4',
                 f'store {process} {address(FIRST + page)} {int_bytes(1024 * page + 1)}')]

    def look(*processes):
        return [f'load {process} {address(FIRST + page)} 4' for process in processes for page in range(n)]
    excluded = f'count {n} excluded m0  # ASSERT_EQ(buffer->cpages, npages)'
    test('exclusive', begin + read('dload', 0, n) + increment(0) + look(0) + ['drain'],
         [excluded, *loaded('m0', n),
          *(f'has loaded p0 {address(FIRST + page)} {int_bytes(1024 * page + 1)}  # ASSERT_EQ(ptr[i], i + 1)'
            for page in range(n)),
          'exclusive-read count 0 begin m0  # each page is read through its exclusive table entry'])
    test('exclusive_mprotect', begin + [f'protect 0 {FIRST} {n} r']
         + [f'dstore 0 {address(FIRST + page)} {int_bytes(9)}' for page in range(n)] + ['drain'],
         [excluded, f'count {n} failed m0 * 4 2  # ASSERT_EQ(ret, -EPERM)'])
    test('exclusive_cow', begin + ['fork 0 1'] + increment(1) + increment(0) + look(0, 1) + ['drain'],
         [excluded, *(f'count 1 loaded p{process} {address(FIRST + page)} {int_bytes(1024 * page + more)}  # {said}'
                      for process in (0, 1) for page in range(n)
                      for more, said in ((0, 'ASSERT_EQ(ptr[i]++, i)'), (1, 'ASSERT_EQ(ptr[i], i + 1)')))])


def is_like(line, pattern):
    """Whether a line begins with the words of the pattern, of which `*` is any word."""
    words = line.split()
    return len(words) >= len(pattern) and all(want in ('*', word) for word, want in zip(words, pattern))


def rows_of(lines):
    report = answers.report_of('\n'.join(lines) + '\n')
    assert "unfinished" not in report, report[-200:]
    return [' '.join(line.split(' ')[2:]) for line in report.split('history\n', 1)[1].splitlines() if ' a' in line]


def filled(asserts, rows):
    """The assertions, with the counts that a run gives in place of `?`; both counts of a pair must be the same."""
    done, last = [], None
    for rule in asserts:
        if rule.startswith('count ?'):
            body, mark, note = rule.partition('  # ')
            pair = body.endswith(' = the one before')
            pattern = body.removeprefix('count ? ').removesuffix(' = the one before')
            number = sum(is_like(row, pattern.split()) for row in rows)
            assert not pair or number == last, rule
            last, rule = number, f'count {number} {pattern}{mark}{note}'
        done.append(rule)
    return done


def holds(rule, rows):
    """Whether the assertion holds of the rows; one that is marked with a difference's name must not hold."""
    words = rule.partition('  # ')[0].split()
    named = words[0] not in ('has', 'count')
    if named:
        words = words[1:]
    if words[0] == 'has':
        met = any(is_like(row, words[1:]) for row in rows)
    else:
        met = sum(is_like(row, words[2:]) for row in rows) == int(words[1])
    return met != named


def main():
    accesses(PAGES)
    teardown(PAGES)
    migrations(PAGES)
    two_devices()
    exclusives(PAGES)
    os.makedirs(FOLDER, exist_ok=True)
    bad = 0
    for name, (lines, asserts) in TESTS.items():
        rows = rows_of(lines)
        asserts = filled(asserts, rows)
        for rule in asserts:
            if not holds(rule, rows):
                bad += 1
                print(f'{name}: {rule}')
        for ending, text in (('hmm', lines), ('asserts', asserts)):
            with open(os.path.join(FOLDER, f'{name}.{ending}'), 'w') as file:
                file.write('\n'.join(text) + '\n')
    print(f'{len(TESTS)} scripts, {sum(len(asserts) for _, asserts in TESTS.values())} assertions, {bad} fail')
    return 1 if bad else 0


if __name__ == '__main__':
    sys.exit(main())
