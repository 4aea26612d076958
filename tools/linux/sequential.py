"""Drawn scripts of one actor: what the kernel answers, and by which differences hmmrun answers otherwise."""
import os
from collections import Counter

import answers
import guest_runs
import linux_model
from draw import Draw

AT_ONCE = 250           # scripts of one boot
SECONDS = 3             # of a script, at the most
EACH = 5                # kept scripts of each difference, or all that need it if they are fewer


def guest_input(seeds):
    lines = []
    for seed in seeds:
        lines += [f'script {seed}', *Draw(seed).shown_texts(), 'end']
    return ''.join(line + '\n' for line in lines)


def ask(work, first, count):
    """The guest's answers of these scripts, by number."""
    found = {}
    for start in range(first, first + count, AT_ONCE):
        seeds = range(start, min(start + AT_ONCE, first + count))
        told = guest_runs.boot(work, 'changed', guest_input(seeds), f'scripts-{start}', 60 + SECONDS * len(seeds), 1)
        found.update((int(name), lines) for name, lines in answers.guest_scripts(told).items())
    return found


def shown(draw, lists):
    """Without the answers of hidden operations."""
    return [answer for answer, (_, is_hidden) in zip(lists, draw.ops) if not is_hidden]


def fewest(ops, at, piece, wanted):
    """Differences that are enough, and of which none can be left out, for this piece of an operation's answer."""
    names = list(linux_model.DIFFERENCES)
    for name in linux_model.DIFFERENCES:
        fewer = [other for other in names if other != name]
        if linux_model.run(ops[:at + 1], fewer)[at][piece:piece + 1] == [wanted]:
            names = fewer
    return names


class Compared:
    """One drawn script: both answers of each operation, and whether the differences explain the kernel's."""

    def __init__(self, seed, told, command=None):
        self.draw = Draw(seed)
        self.ops = self.draw.all_texts()
        self.model, rest = answers.by_op(self.ops, answers.model_answers(self.draw.script(), command))
        assert not rest, (seed, rest)
        kernel, self.rest = answers.by_op(self.draw.shown_texts(), told)
        kernel = iter(kernel)
        self.kernel = [None if is_hidden else next(kernel) for _, is_hidden in self.draw.ops]
        explained = linux_model.run(self.ops, linux_model.DIFFERENCES)
        self.unnamed = [i for i, said in enumerate(self.kernel) if said is not None and said != explained[i]]

    def is_same(self):
        return all(said in (None, model) for said, model in zip(self.kernel, self.model))

    def is_explained(self):
        return not self.unnamed and not self.rest

    def needed(self):
        """The differences without which some answer is another one."""
        def says(names):
            return shown(self.draw, linux_model.run(self.ops, names))
        whole = says(linux_model.DIFFERENCES)
        return [name for name in linux_model.DIFFERENCES
                if says([other for other in linux_model.DIFFERENCES if other != name]) != whole]

    def kept(self):
        """The lines of the file of the kernel's answers, see examples/linux/README.md."""
        lines = []
        for i, (kernel, model) in enumerate(zip(self.kernel, self.model)):
            if kernel is None:
                lines += [f'- | {answer} | close-evicts' for answer in model]
                continue
            assert len(kernel) == len(model), (self.ops[i], kernel, model)
            for piece, (said, ours) in enumerate(zip(kernel, model)):
                names = ' '.join(fewest(self.ops, i, piece, said)) if said != ours else ''
                lines.append(f'{said} | {ours} | {names}' if names else said)
        return ''.join(line + '\n' for line in lines)


def compare(found, first, count, command=None):
    """Prints the table of the drawn scripts. Gives those that were compared, how many were not answered or differ
    without a name, and which scripts need each difference."""
    compared, missing, needed, examples, unnamed = {}, [], Counter(), {}, 0
    for seed in range(first, first + count):
        if seed not in found:
            missing.append(seed)
            continue
        one = compared[seed] = Compared(seed, found[seed], command)
        if not one.is_explained():
            unnamed += 1
            for i in one.unnamed[:1]:
                print(f'NOT NAMED: script {seed}, operation {i}, {one.ops[i]}: hmmrun {one.model[i]}, '
                      f'the kernel {one.kernel[i]}')
            continue
        for name in one.needed():
            needed[name] += 1
            examples.setdefault(name, []).append(seed)
    operations = sum(len(one.draw.shown_texts()) for one in compared.values())
    print(f'Drawn scripts from {first} on: {len(compared)}, of {operations} operations; {len(missing)} not answered')
    print(f'  as hmmrun answers      {sum(one.is_same() for one in compared.values()):6}')
    print(f'  by named differences   {sum(one.is_explained() and not one.is_same() for one in compared.values()):6}')
    print(f'  not named              {unnamed:6}')
    for name, number in needed.most_common():
        print(f'  {number:6} need {name} (as {examples[name][0]})')
    return compared, unnamed + len(missing), examples


def chosen(compared, examples, count):
    """The numbers of the scripts to keep: of each difference the first EACH that need it, and then the first of all."""
    seeds = {seed for needing in examples.values() for seed in needing[:EACH]}
    for seed in sorted(compared):
        if len(seeds) >= count:
            break
        seeds.add(seed)
    return sorted(seeds)


def keep(compared, examples, folder, count):
    """Writes `count` of these scripts into a folder, each with what the kernel answered, in place of those there."""
    for name in os.listdir(folder):
        os.remove(os.path.join(folder, name))
    for seed in chosen(compared, examples, count):
        one = compared[seed]
        with open(os.path.join(folder, f'{seed}.hmm'), 'w') as file:
            file.write(one.draw.script())
        with open(os.path.join(folder, f'{seed}.kernel'), 'w') as file:
            file.write(one.kept())
