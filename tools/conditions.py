#!/usr/bin/env python3
"""Why hmmraces refuses a condition, in words.

  tools/conditions.py SCRIPT CONDITION ..
  tools/conditions.py --test      tries the cases of tools/condition_cases.tsv

SCRIPT is an exact script. Says of the first condition that is none, or has a line that no operation of the script may
end with, what is wrong, and the nearest that could be meant. Writes nothing if each condition can be asked.
"""

import difflib
import os
import re
import sys

import words as given

TOP = os.path.dirname(os.path.dirname(os.path.realpath(__file__)))

ENDINGS = ('loaded stored failed mapped unmapped protected forked exited attached detached refused migrated seen '
           'evicted removed excluded added').split()
ACTOR = re.compile(r'a(0|[1-9]|1[0-5])$')


def bad_begin(word):
    """What stands before the first word of a condition, if something does."""
    if word == '':
        return 'it begins with a space'
    if word[0] in '"\'':
        return 'in a file a condition stands without quotes'
    if word[0] == '\ufeff':
        return 'a byte order mark stands before it: save the file without one'
    return None


# What other tools have for a first word.
FIRST = {'some': 'exists any possible may', 'none': 'never no forbidden not', 'every': 'all always forall each must'}


def meant_first(word):
    """Which first word was meant, or all of them."""
    meant = next((first for first, others in FIRST.items() if word.lower() in others.split()), None)
    if meant:
        return f'; did you mean `{meant}`?'
    return given.nearest(word, FIRST) or ': it is `some`, `none` or `every`'


def no_line(word, behind):
    """Why no line begins with this word, if that is seen of it and of the word behind it."""
    if word[0] in '([{':
        return f'`{word}`: there are no brackets; `and` binds closer than `or`'
    if word == 'actor' and NUMBER.match(behind):
        return f'`actor {behind}` is written `a{behind}`'
    if NUMBER.match(word) and behind in ENDINGS:
        return f'an actor is written with an a: `a{word} {behind} ..`'
    if NUMBER.match(word) and ACTOR.match(behind):
        return f'a line has no position: leave `{word}` out; `{word} x {behind} ..` would say how often'
    return None


def bad_word(words):
    """What is wrong with the words of a condition, if they are none: the place where they stop, and what may come."""
    if bad_begin(words[0]):
        return bad_begin(words[0])
    if words[0] not in ('some', 'none', 'every'):
        return f'`{words[0]}` is no first word{meant_first(words[0])}'
    at = 'fresh'
    for before, word, behind in zip(words, words[1:], [*words[2:], '']):
        if word == '':
            return 'two spaces where one is due, or one at an end'
        if at in ('fresh', 'negated') and no_line(word, behind):
            return no_line(word, behind)
        if at == 'fresh' and JOINS.get(word) == 'not':
            return f'`{word}` is written `not`'
        if at in ('fresh', 'negated') and NUMBER.match(word):
            at = 'counted'
            continue
        if at == 'counted' and word != 'x':
            return f'after a number `x` is wanted, and a line: `{before} x a0 ..`; here is `{word}`'
        if at == 'counted':
            at = 'negated'
            continue
        if at in ('fresh', 'negated') and re.match('[0-9]+x?$', word):
            return f'`{word}`: how often is said by `2 x` before a line'
        if at in ('fresh', 'negated') and not (ACTOR.match(word) or at == 'fresh' and word == 'not'):
            return f'after `{before}` a whole line is wanted, which begins with an actor, as `a0`; here is `{word}`'
        if at == 'opened' and word in ('and', 'or', 'not'):
            return f'`{before}` is an actor alone; a whole line is wanted'
        if at == 'inside' and word == 'not':
            return '`not` stands before a line: `and not a0 ..`'
        at = {'fresh': 'negated' if word == 'not' else 'opened', 'negated': 'opened', 'opened': 'inside'}.get(at, at)
        if at == 'inside' and word in ('and', 'or'):
            at = 'fresh'
    if at == 'counted':
        return f'after `{words[-2]}` a whole line is wanted, which begins with an actor, as `a0`; here is `{words[-1]}`'
    return None if at == 'inside' else f'it ends after `{words[-1]}`, where a whole line is wanted, as `a0 loaded p0 0x10000 41`'


def lines_of(words):
    """The lines of a condition, each as its words."""
    lines = [[]]
    for word in words[1:]:
        if word in ('and', 'or'):
            lines.append([])
        elif ACTOR.match(word) or lines[-1]:
            lines[-1].append(word)
    return lines


def operations(script):
    """The operations of each actor, each as its words."""
    actors = []
    for line in script.splitlines():
        words = line.split(' ')
        if words[0] == 'actor':
            actors.append([])
        elif actors and words[0] in OPERATIONS:
            actors[-1].append(words)
    return actors


def pieces(address, count):
    first = min(count, 4096 - address % 4096)
    return [(address, first)] + [(address + first, count - first)] * (first < count)


def access(who, done, words):
    count = int(words[3]) if words[0] in ('load', 'dload') else len(words[3]) // 2
    found = []
    for at, size in pieces(int(words[2], 16), count):
        found.append(([done, who, hex(at)], re.compile(f'[0-9a-f]{{{2 * size}}}$'), 'YY' * min(size, 4)))
        found.append((['failed', who, hex(at), str(size)], re.compile('[1-4]$'), 'CAUSE'))
    return found


NUMBER, BYTES, NONE = re.compile(r'(0|[1-9][0-9]*)$'), re.compile('[0-9a-f]{2}$'), None
REFUSED = (['refused'], NUMBER, 'CAUSE')

JOINS = {'AND': 'and', '&': 'and', '&&': 'and', 'OR': 'or', '|': 'or', '||': 'or', 'NOT': 'not', '!': 'not'}

# What each operation may end with: words, and what one more word is like, if there is one.
OPERATIONS = {
    'map': lambda w: [(['mapped', 'p' + w[1], *w[2:]], NONE, ''), REFUSED],
    'unmap': lambda w: [(['unmapped', 'p' + w[1], *w[2:]], NONE, ''), REFUSED],
    'protect': lambda w: [(['protected', 'p' + w[1], *w[2:]], NONE, ''), REFUSED],
    'load': lambda w: access('p' + w[1], 'loaded', w),
    'store': lambda w: access('p' + w[1], 'stored', w),
    'fork': lambda w: [(['forked', 'p' + w[1], 'p' + w[2]], NONE, ''), REFUSED],
    'exit': lambda w: [(['exited', 'p' + w[1]], NONE, ''), REFUSED],
    'attach': lambda w: [(['attached', 'm' + w[1], 'd' + w[2], 'p' + w[3], *w[4:]], NONE, ''), REFUSED],
    'detach': lambda w: [(['detached', 'm' + w[1]], NONE, ''), REFUSED],
    'dload': lambda w: access('m' + w[1], 'loaded', w),
    'dstore': lambda w: access('m' + w[1], 'stored', w),
    'todev': lambda w: [(['migrated'], NUMBER, 'N'), REFUSED],
    'tosys': lambda w: [(['migrated'], NUMBER, 'N'), REFUSED],
    'snap': lambda w: [(['seen', 'm' + w[1]], NONE, 'PAGE YY'), REFUSED],
    'evict': lambda w: [(['evicted'], NUMBER, 'N')],
    'remove': lambda w: [(['removed', 'd' + w[1]], NONE, ''), REFUSED],
    'exclusive': lambda w: [(['excluded', 'm' + w[1], w[2]], NONE, ''), REFUSED],
    'dadd': lambda w: [(['added', 'm' + w[1], w[2]], NONE, 'YY YY'), (['failed', 'm' + w[1], w[2], '1'], re.compile('[1-4]$'), 'CAUSE')],
}


def fits(words, form):
    head, more, _ = form
    if head[0] in ('seen', 'added'):
        return words[:2] == head[:2]
    if more is NONE:
        return words == head
    return words[:-1] == head and bool(more.match(words[-1]))


def spelled(form):
    return ' '.join([*form[0], form[2]]).rstrip()


def slip(words, form):
    """Which small mistake in the words of a line there is, beside a form that they could have."""
    for word in words:
        if word in JOINS:
            return f'`{word}` is written `{JOINS[word]}`'
        if word.startswith('#'):
            return 'a comment stands in a line of its own'
    if fits([word.lower() for word in words], form):
        return 'it has capitals, and a line has none'
    if fits([word.removeprefix('0x') if BYTES.match(word.removeprefix('0x')) else word for word in words], form):
        return 'bytes stand without `0x`'
    for word, due in zip(words, form[0]):
        if word.isdigit() and hex(int(word)) == due:
            return f'`{word}` is `{due}`: an address is hexadecimal'
        if word.isdigit() and f'0x{int(word) * 4096:x}' == due:
            return f'`{word}` is a page, and `{due}` its address'
    if form[2].startswith('YY') and form[1] is not NONE and words[:-1] == form[0] and ',' not in words[-1]:
        digits = re.search(r'\{(\d+)\}', form[1].pattern)[1]
        return f'`{words[-1]}`: {digits} hexadecimal digits are wanted, and there is no sign for any byte'
    length = len(form[0]) + (form[1] is not NONE)
    if len(words) > length and fits(words[:length], form):
        return f'a line ends before `{words[length]}`: `and` or `or` stands between two lines'
    return next((f'`{word}`: one value a line; `or` joins two lines' for word in words if ',' in word), None)


def bad_line(words, actors):
    """Why no operation may end with the line, if none may."""
    actor, kind = int(words[0][1:]), words[1]
    if any('\r' in word for word in words):
        return 'a carriage return stands at its end: this is a file with the line ends of Windows'
    if actor >= len(actors):
        return f'there is no actor `{words[0]}` in this script, whose last is `a{len(actors) - 1}`'
    forms = [(op, form) for op in actors[actor] for form in OPERATIONS[op[0]](op)]
    if any(fits(words[1:], form) for _, form in forms):
        return None
    if kind not in ENDINGS:
        of_op = {op: form[0][0] for op in OPERATIONS for form in OPERATIONS[op]([op, '0', '0x0', '1', '1', '1'])[:1]}
        meant = f'; did you mean `{of_op[kind]}`?' if kind in of_op else given.nearest(kind, ENDINGS)
        ends = sorted({form[0][0] for _, form in forms} - {'refused'})
        those = f'; those of `{words[0]}` end with {", ".join(ends)}, or refused'
        return f'`{kind}` ends no operation{meant or those}'
    same = [(op, form) for op, form in forms if form[0][0] == kind]
    if not same:
        others = [f'a{a}' for a, ops in enumerate(actors) for op in ops if kind in [form[0][0] for form in OPERATIONS[op[0]](op)]]
        other = f'; {" and ".join(sorted(set(others)))} may' if others else ''
        return f'no operation of `{words[0]}` ends with `{kind}`{other}'
    best = max(same, key=lambda it: difflib.SequenceMatcher(None, words[1:], it[1][0]).ratio())
    small = slip(words[1:], best[1])
    return (f'{small}; it' if small else f'`{" ".join(best[0])}` does not end so; it') + f' ends with `{words[0]} {spelled(best[1])}`'


def trouble(condition, actors):
    words = condition.split(' ')
    said = bad_word(words)
    if said:
        return said
    return next((said for line in lines_of(words) if (said := bad_line(line, actors))), None)


def actors_of(script):
    return operations(given.data_of([script]).decode(errors='replace'))


def test():
    """Whether of each case, a condition on examples/retry_race.hmm, is said what stands beside it."""
    actors = actors_of(f'{TOP}/examples/retry_race.hmm')
    with open(f'{TOP}/tools/condition_cases.tsv', encoding='utf-8') as file:
        cases = [line.rstrip('\n').split('\t') for line in file]
    wrong = [(case, said) for case, wanted in cases if (said := trouble(case.replace('<CR>', '\r'), actors) or '') != wanted]
    for case, said in wrong:
        print(f'{case}: {said}')
    print(f'{len(cases)} cases, {len(wrong)} wrong')
    return 1 if wrong else 0


def main():
    given.begin(__doc__)
    if sys.argv[1:] == ['--test']:
        sys.exit(test())
    if len(sys.argv) < 3:
        given.refuse('two words are wanted, a script and a condition')
    actors = actors_of(sys.argv[1])
    for number, condition in enumerate(sys.argv[2:], 1):
        said = trouble(condition, actors)
        if said:
            print(f'condition {number}: {said}')
            return


if __name__ == '__main__':
    main()
