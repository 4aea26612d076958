#!/usr/bin/env python3
"""Compares what the program answers with what a second program of the same behaviour answers.

    tools/compare_words.py --against 'COMMAND' [--with 'COMMAND'] [--numbers N] [--texts N] [--drawn N] [--words WORD..]

For N numbers (200) both are asked to `generate` and to `trial`: the least and greatest numbers, those that are no
numbers of the command, and drawn ones. For N texts (2,000) both are asked to `upgrade` and to `replay`: drawn
scripts, and scripts spoiled at random (a byte changed, left out or doubled, a line left out, doubled, moved or cut).
For N small scripts (1,000), drawn operation by operation with turns in a drawn order, both are asked to `replay`
and to `advise`, and on the report of each, one of two spoiled, to `check` and to say `why`. Output, status and message
must be the same. `--words` asks these commands alone.

The first difference is printed, with what was asked, and the tool ends with status 1. It is run by hand, outside the
gate. A difference says that one of the two is wrong, and not which.
"""
import argparse, os, random, shlex, subprocess, sys

import quiet_share
import words

TOP = os.path.dirname(os.path.dirname(os.path.abspath(__file__)))
EXAMPLES = os.path.join(TOP, 'examples')
ALPHABET = b'abcdefghijklmnopqrstuvwxyz0123456789 \n\tAXx\x00\xff-+'


def ask(command, words, text):
    done = subprocess.run(command + words, input=text, capture_output=True)
    said = done.stderr.decode(errors='replace').split(': ', 1)[-1]
    # which commands there are may differ
    return done.returncode, done.stdout, 'usage' if done.returncode == 2 else said


def same(given, words, text):
    ours, theirs = ask(given.ours, words, text), ask(given.theirs, words, text)
    if ours == theirs:
        return
    print('different answers to', words)
    sys.stdout.flush()
    sys.stdout.buffer.write(text)
    for name, answer in (('ours', ours), ('theirs', theirs)):
        print(f'{name}: status {answer[0]}, message {answer[2]!r}, {len(answer[1])} bytes, '
              f'which begin {answer[1][:200]!r}')
    sys.exit(1)


def numbers(draw, count):
    """The ends of the range, texts that are no numbers of it, and drawn numbers."""
    ends = ['0', '1', '7', '15', '00', '01', '', ' 1', '1 ', '+1', '-1', '0x1', 'a', str(2**64 - 1), str(2**64),
            str(2**63), '9' * 30]
    return ends + [str(draw.randrange(2 ** draw.choice([4, 16, 32, 64]))) for _ in range(max(0, count - len(ends)))]


def scripts():
    """The worked scripts and those of the gallery."""
    found = []
    for folder in ('worked', 'gallery'):
        at = os.path.join(EXAMPLES, folder)
        found += [os.path.join(at, name) for name in sorted(os.listdir(at)) if name.endswith('.hmm')]
    return [open(path, 'rb').read() for path in found]


def drop(draw, text):
    at = draw.randrange(len(text))
    return text[:at] + text[at + 1:]


def double(draw, text):
    at = draw.randrange(len(text))
    return text[:at] + text[at:at + 1] + text[at:]


def change(draw, text):
    at = draw.randrange(len(text))
    return text[:at] + bytes([draw.choice(ALPHABET)]) + text[at + 1:]


def number(draw, text):
    """One number of a line is another."""
    lines = text.split(b'\n')
    at = draw.randrange(len(lines))
    words = lines[at].split(b' ')
    words[draw.randrange(len(words))] = str(draw.choice([0, 1, 15, 16, 31, 32, 64, 256, 2**36, 2**64])).encode()
    lines[at] = b' '.join(words)
    return b'\n'.join(lines)


def line(draw, text):
    """A line is left out, doubled, moved or cut."""
    lines = text.split(b'\n')
    at, to = draw.randrange(len(lines)), draw.randrange(len(lines))
    taken = lines[at]
    way = draw.randrange(4)
    if way == 0:
        del lines[at]
    elif way == 1:
        lines.insert(to, taken)
    elif way == 2:
        lines[at], lines[to] = lines[to], lines[at]
    else:
        lines[at] = taken[:draw.randrange(len(taken) + 1)]
    return b'\n'.join(lines)


def spoil(draw, text):
    for _ in range(draw.choice([1, 1, 1, 2, 3])):
        if text:
            text = draw.choice([drop, double, change, number, line])(draw, text)
    return text


def texts(given, draw):
    """Half are scripts, drawn by the second program or worked ones, and half are spoiled."""
    known = scripts()
    for at in range(given.texts):
        if draw.randrange(3) == 0:
            known.append(ask(given.theirs, ['generate', str(draw.randrange(2**32))], b'')[1])
        text = draw.choice(known[-200:])
        yield text if at % 2 == 0 else spoil(draw, text)


def drawn(draw):
    """A small script, with turns of its actors in a drawn order and then each to its end."""
    script = quiet_share.Drawn(draw)
    actors = range(len(script.actors))
    turns = [(draw.choice(actors), draw.choice([1, 2, 5, 20])) for _ in range(draw.choice([5, 20, 60]))]
    return script.text(turns + [(actor, 100000) for actor in actors])


def compare_drawn(given, draw):
    for at in range(given.drawn):
        script = drawn(draw)
        report = ask(given.theirs, ['replay'], script)[1]
        for word in [w for w in given.words if w in ('replay', 'advise')]:
            same(given, [word], script)
        for word in [w for w in given.words if w in ('check', 'why')]:
            same(given, [word], report if at % 2 == 0 else spoil(draw, report))


def main():
    words.begin(__doc__)
    parse = argparse.ArgumentParser(usage=__doc__)
    parse.add_argument('--against', dest='theirs', type=shlex.split, required=True)
    parse.add_argument('--with', dest='ours', type=shlex.split)
    parse.add_argument('--numbers', type=int, default=200)
    parse.add_argument('--texts', type=int, default=2000)
    parse.add_argument('--drawn', type=int, default=1000)
    parse.add_argument('--words', nargs='+',
                       default=['generate', 'trial', 'upgrade', 'replay', 'advise', 'check', 'why'])
    given = parse.parse_args()
    given.ours = given.ours or words.ready()
    draw = random.Random(1)
    for of in numbers(draw, given.numbers):
        for word in [w for w in given.words if w in ('generate', 'trial')]:
            same(given, [word, of], b'')
    for text in texts(given, draw):
        for word in [w for w in given.words if w in ('upgrade', 'replay')]:
            same(given, [word], text)
    compare_drawn(given, draw)
    print(f'no difference: {given.numbers} numbers, {given.texts} texts, {given.drawn} drawn scripts, '
          f'{" ".join(given.words)}')


if __name__ == '__main__':
    main()
