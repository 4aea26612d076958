#!/usr/bin/env python3
"""Tries the module hmm_steer in a guest: files of holds with mistakes, wrong names, and an unload within a run.

    tools/trace/steer_check.py W [--cpus N]      W is the folder that build.sh filled; the guest has 2 processors
    tools/trace/steer_check.py --twin            what needs no guest: that holds.py finds these mistakes, and has the
                                                 module's places, calls and reasons; that each race of suite.py has
                                                 holds that holds.py takes; and that mistakes of a CONF are found

The module must say of each file what holds.py says of it; refuse each wrong name and offset at load; and be unloaded
while threads are held, with nothing in the kernel's log. Writes a line for each, and ends with status 1 if one fails.
"""
import os
import re
import subprocess
import sys
import tarfile
import tempfile

HERE = os.path.dirname(os.path.abspath(__file__))
sys.path.insert(0, HERE)
import holds as steering
import suite

GOOD = 'hold a0 commit 1 until a1 told 1 us 30000'
# files of holds, each with a mistake; the module has set, reads, writes and trap, and nothing else
BAD = [
    'hold', GOOD + '\ncall a1 unmap', 'hold a0 commit 1 until a1 told 1', 'hold a0 commit 1 until a1 told 1 us',
    GOOD + ' more', GOOD + ' more more', 'hold a0 commit 1 till a1 told 1 us 30000', 'hold a0 commit 1 until a1 told 1 ms 30000',
    'hold a4 commit 1 until a1 told 1 us 1', 'hold b0 commit 1 until a1 told 1 us 1',
    'hold a00 commit 1 until a1 told 1 us 1', 'hold a0 comit 1 until a1 told 1 us 1',
    'hold a0 commit 0 until a1 told 1 us 1', 'hold a0 commit -1 until a1 told 1 us 1',
    'hold a0 commit 1001 until a1 told 1 us 1', 'hold a0 commit 1x until a1 told 1 us 1',
    'hold a0 commit 99999999999999999999 until a1 told 1 us 1', 'hold a0 commit 1 until a1 told 1 us 0',
    'hold a0 commit 1 until a1 told 1 us 100001', 'hold a0 commit 1 until a1 told 1 us -5',
    'hold a0 take 1 until a1 told 1 us 1', 'hold a0 go 1 until a1 gone 1 us 1',
    'hold a0 exclude 1 until a1 told 1 us 1', 'hold a0 go 1 until a0 done 1 us 1', 'try a0 go 1 until a0 done 1 us 1',
    'hold a0 using 1 until a1 told 1 us 1', 'hold a0 set 1 until a1 use 1 us 1',
    'call a1 unmap\nhold a0 walked 1 until a1 start 1 us 1', 'call a1 protect\nhold a0 walk 1 until a1 ended 1 us 1',
    'call a1 fork\nhold a1 told 1 until a0 walked 1 us 1',
    'call a0 map\ncall a1 protect\nhold a1 end 1 until a0 start 1 us 1', 'hold a0 trap 1 until a1 done 1 us 1',
    'call a1 store\nhold a0 trap 1 until a1 end 1 us 1', 'call', 'call a0', 'call a9 load', 'call a0 lode', 'pages',
    'pages 1', 'pages x 1', 'pages 1 0', 'pages 0x 1', 'pages 089 1', 'foo', 'HOLD a0 go 1 until a1 go 1 us 1',
    '\x01\x02', 'hold\x00', '\n\n# a comment\n \t \nfoo # bar', '\n'.join([GOOD] * 17),
    '\n'.join(f'foo{i}' for i in range(30)), 'f' * 60, GOOD + '\r\nfoo\r',
    'call a1 unmap\n' + GOOD + '\nhold a0 go 1 until a1 go 1 us 0\nfoo']
FINE = [
    GOOD, '\n', '# nothing', 'pages 0x200010 1\ncall a0 dload\ncall a1 unmap\n' + GOOD, GOOD.replace('hold', 'try'),
    'try a0 using 1 until a1 told 1 us 1', '  ' + GOOD.replace(' ', '  ') + '\t',
    'hold a0 go +1 until a1 go 1000 us 100000', '\n'.join([GOOD] * 16)]
GIVEN = {'set', 'reads', 'writes', 'trap'}
NAMES = 'callback=dmirror_interval_invalidate set=xa_store reads=dmirror_do_read writes=dmirror_do_write table=16'
WRONG = ['', 'callback=no_such_function', NAMES + ' set=no_such_function', NAMES + ' reads=no_such_function',
         NAMES + ' locks=no_such_lock', NAMES + ' table=70000', NAMES + ' lock=-70000', NAMES + ' table=x',
         NAMES + ' trap=dmirror_do_read', NAMES + ' trap=dmirror_do_read+x', NAMES + ' trap=dmirror_do_read+0x100000',
         NAMES + ' trap=no_such_function+1', NAMES + ' trap=dmirror_do_read+4096', NAMES + ' callback=a,b,c,d,e',
         NAMES + ' exclusive=1', NAMES + ' withdraws=no_such_function']
# a CONF with a mistake: its text, the line, and what is said
CONFS = [
    ('', 1, '`callback` is missing'), ('set xa_store\n', 1, '`callback` is missing'),
    ('callback\n', 1, 'has nothing after it'), ('callback a\nfoo b\n', 2, '`foo` is no name of a CONF'),
    ('callback a\n\ncallback b\n', 3, '`callback` is there twice'),
    ('callback a\ntable x\n', 2, '`table` is no number'), ('callback a\ntable 1x # c\n', 2, '`table` is no number'),
    ('callback a b\n', 1, '`callback` has more than one word after it'),
    ('callback a\ndevice\n', 2, 'has nothing after it')]
FIRST = '''#!/bin/sh
cd /steer
n=0
while read -r line; do
    if insmod ./hmm_steer.ko $line 2> /dev/null; then echo "loaded $n"; rmmod hmm_steer; else echo "refused $n"; fi
    n=$((n + 1))
done < wrong > /tmp/loads
insmod ./hmm_steer.ko NAMES trap=dmirror_do_read+0
cd files
for file in *; do
    echo "file $file"
    cat "$file" > /tmp/one
    dd if=/tmp/one of=/sys/kernel/debug/hmm_steer/holds bs=20000 2> /dev/null && echo taken || echo refused
    cat /sys/kernel/debug/hmm_steer/holds
done > /tmp/files
rmmod hmm_steer
cd ..
insmod ./hmm_probes.ko NAMES erase=xa_erase object=24
i=0
while [ $i -lt 12 ]; do
    insmod ./hmm_steer.ko NAMES
    ./steer_runs plan /tmp/runs 20 &
    usleep $((700000 + i * 37000))
    tries=0
    until rmmod hmm_steer 2> /dev/null; do tries=$((tries + 1)); [ $tries -lt 400 ] || break; done
    echo "unloaded $i"
    wait
    i=$((i + 1))
done > /tmp/unloads
rmmod hmm_probes
dmesg > /tmp/log
for file in loads files unloads log; do echo "== $file"; cat /tmp/$file; done > /dev/ttyS1
echo "== over" > /dev/ttyS1
poweroff -f
'''


def expected(text):
    """What the module is to answer: whether the file is taken, and what it then says."""
    text = text.split('\0')[0]
    holds, mistakes = steering.read(text, GIVEN)
    said = [f'line {at}: `{word[:15]}` {why}' for at, word, why in mistakes[:16]]
    if len(mistakes) > 16:
        said.append(f'and {len(mistakes) - 16} mistakes more')
    return ['refused' if mistakes else 'taken', *said, *(x.text() + ': unmet 0 us' for x in holds)]


def in_guest(work, cpus):
    """What the guest wrote, part by part."""
    with tempfile.TemporaryDirectory() as folder:
        inside = os.path.join(folder, 'inside')
        os.makedirs(os.path.join(inside, 'files'))
        for at, text in enumerate(BAD + FINE):
            with open(os.path.join(inside, 'files', f'{at:03}'), 'w') as file:
                file.write(text)
        conf = suite.conf_of(os.path.join(HERE, 'test_hmm.conf'))
        plan = '\n'.join(suite.plan_of(['compare', 'begin-waits', 'erase'], conf, 3)) + '\n'
        for name, text in (('plan', plan), ('wrong', '\n'.join(WRONG) + '\n'),
                           ('first.sh', FIRST.replace('NAMES', NAMES)),
                           ('words', 'module test_hmm.ko\nload race_delay=0\nseconds 20\n')):
            with open(os.path.join(inside, name), 'w') as file:
                file.write(text)
        with tarfile.open(os.path.join(folder, 'in.tar'), 'w') as tar:
            tar.add(os.path.join(work, 'drivers', 'right', 'test_hmm.ko'), 'test_hmm.ko')
            for name in os.listdir(inside):
                tar.add(os.path.join(inside, name), name)
        out = os.path.join(folder, 'out')
        subprocess.run([os.path.join(HERE, os.pardir, 'linux', 'boot.sh'), os.path.join(work, 'steer'), 'debian',
                        os.path.join(folder, 'in.tar'), out, '200'], check=False,
                       env=dict(os.environ, CPUS=str(cpus), APPEND='mitigations=off nokaslr'))
        with open(out, errors='replace') as file:
            parts, name = {}, ''
            for line in file.read().replace('\r', '').split('\n'):
                if line.startswith('== '):
                    name = line[3:]
                    parts[name] = []
                elif name:
                    parts[name].append(line)
        return parts


def compared(parts):
    """What is wrong, a line each."""
    if 'over' not in parts:
        yield 'the guest did not come to its end'
        return
    answers = {}
    for line in parts['files']:
        if line.startswith('file '):
            answers[int(line[5:])] = []
        elif line and not line.startswith('missed '):
            answers[max(answers)].append(line)
    for at, text in enumerate(BAD + FINE):
        if answers.get(at) != expected(text):
            yield f'file {text[:60]!r}: the module says {answers.get(at)}, holds.py {expected(text)}'
    for at, words in enumerate(WRONG):
        if f'refused {at}' not in parts['loads']:
            yield f'loaded with `{words}`'
    if sum(line.startswith('unloaded') for line in parts['unloads']) != 12:
        yield 'it was not unloaded 12 times'
    for line in parts['log']:
        if any(x in line for x in ('BUG', 'Oops', 'WARNING', 'stall', 'lockup', 'general protection', 'hung')):
            yield 'the kernel says: ' + line


def array(source, name):
    """The words of an array of hmm_steer.c."""
    return re.findall(r'"([^"]*)"', re.search(r'\b' + name + r'\[\] = \{([^}]*)\}', source)[1])


def twins():
    """Where holds.py differs from hmm_steer.c, or does not find a mistake."""
    with open(os.path.join(HERE, 'hmm_steer.c')) as file:
        source = file.read()
    with open(os.path.join(HERE, 'holds.py')) as file:
        twin = file.read()
    if array(source, 'words') != list(steering.PLACES) or array(source, 'calls') != list(steering.CALLS):
        yield 'hmm_steer.c and holds.py have other places, or calls'
    for why in re.findall(r"""["']((?:is|would|comes) [^"\n]*?)["'][,;)\n]""", twin):
        if f'"{why}"' not in source:
            yield f'hmm_steer.c has no reason `{why}`'
    for text in BAD:
        if '\0' not in text and not steering.read(text, GIVEN)[1]:
            yield f'holds.py takes {text[:60]!r}'
    for text in FINE:
        if steering.read(text, GIVEN)[1]:
            yield f'holds.py refuses {text[:60]!r}'


def races_of_suite():
    """Races whose holds are refused, or that have none but could, with all names and with few."""
    conf = suite.conf_of(os.path.join(HERE, 'test_hmm.conf'))
    for given in (set(conf), {'callback', 'set', 'erase'}, {'callback'}):
        for name in (name for names in suite.RACES.values() for name in names):
            text = '\n'.join(suite.read_race(name, given)[2])
            holds, mistakes = steering.read(text, given)
            if mistakes or not holds and 'waits' in text or 'stuck' in text:
                yield f'{name}: {mistakes or text}'


def confs():
    """Mistakes of a CONF that are not found."""
    for text, line, why in CONFS:
        with tempfile.NamedTemporaryFile('w', suffix='.conf') as file:
            file.write(text)
            file.flush()
            try:
                suite.conf_of(file.name)
                yield f'CONF {text!r} is taken'
            except suite.Refused as refused:
                if refused.args[0] != 3 or f'line {line}: ' not in refused.args[1] or why not in refused.args[1]:
                    yield f'CONF {text!r}: {refused.args[1]}'
    if suite.why_not_asked('compare', {'callback': 'a'}) != 'it needs set':
        yield 'a rule is asked though the CONF has not what it needs'


def main(words):
    if {'--help', '-h'} & set(words) or not words:
        print(__doc__.strip())
        return 0 if words else 2
    wrong = [*twins(), *races_of_suite(), *confs()]
    if words != ['--twin']:
        cpus = words[words.index('--cpus') + 1] if '--cpus' in words else 2
        wrong += compared(in_guest(words[0], cpus))
    for line in wrong:
        print(line)
    print(f'steer_check.py: {len(BAD)} files with mistakes and {len(FINE)} without'
          + ('' if words == ['--twin'] else f', {len(WRONG)} wrong loads, 12 unloads') + f': {len(wrong)} wrong')
    return 1 if wrong else 0


if __name__ == '__main__':
    sys.exit(main(sys.argv[1:]))
