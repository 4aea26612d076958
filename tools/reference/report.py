"""Reports: the text of entries, and of a whole run (docs/REPORT.md)."""
import script as scripts
from script import Bad, Span, byte_pairs, decimal, hexadecimal
from state import Frame, Place

FIELDS = {
    'loaded': 'WHO ADDRESS BYTES', 'stored': 'WHO ADDRESS BYTES', 'failed': 'WHO ADDRESS N N', 'mapped': 'P SPAN RIGHT',
    'unmapped': 'P SPAN', 'protected': 'P SPAN RIGHT', 'forked': 'P P', 'exited': 'P', 'attached': 'M D P SPAN N',
    'detaching': 'M N', 'detached': 'M', 'refused': 'N', 'migrated': 'N', 'seen': 'M N BYTES', 'evicted': 'N',
    'removed': 'D', 'rlock': 'P', 'runlock': 'P', 'wlock': 'P', 'named': 'P P', 'take': 'FRAME', 'drop': 'FRAME',
    'place': 'P N PLACE', 'start': 'P SPAN N', 'told': 'M SPAN N', 'end': 'P SPAN N', 'begin': 'M N', 'retry': 'M',
    'set': 'M N TARGET TABLE N', 'fresh': 'P N', 'copied': 'FRAME FRAME PART', 'committed': 'FRAME FRAME',
    'kept': 'KEPT WHY', 'done': 'FRAME', 'withdrawn': 'D', 'excluded': 'M N', 'fetched': 'M ADDRESS BYTES',
    'added': 'M ADDRESS BYTES BYTES'}


def field_text(shape, value):
    if shape in 'PMDA':
        return shape.lower() + str(value)
    if shape == 'WHO':
        return f'{value[0]}{value[1]}'
    if shape == 'ADDRESS':
        return f'{value:#x}'
    if shape == 'BYTES':
        return value.hex()
    if shape == 'SPAN':
        return f'{value.first} {value.count}'
    if shape == 'TARGET' and value is None:
        return 'zero'
    if shape == 'PART' and value is None:
        return 'all'
    if shape == 'WHY':
        return value[0] + (f' a{value[1]}' if value[0] == 'locked' else '')
    return str(value)


def entry_text(entry):
    return ' '.join([entry[0], *map(field_text, FIELDS[entry[0]].split(), entry[1:])])


def line(position, actor, entry):
    return f'{position} a{actor} {entry_text(entry)}'


def report(machine):
    lines = ['history', *(line(at, *entry) for at, entry in enumerate(machine.history))]
    lines += [f'unfinished a{a} {ended}' for a, ended in enumerate(machine.ended) if not machine.is_idle(a)]
    lines += [f'end {len(machine.history)}']
    return scripts.text(machine.script) + ''.join(text + '\n' for text in lines)


class NotLegal(Exception):
    """The first line, from 1, that no legal report has there."""


def check(data):
    """The number of entries of a report whose every entry was due to its actor, in whatever order actors took turns."""
    from run import FULL, Machine
    *lines, rest = data.split(b'\n')

    def text(number):
        if number > len(lines) or any(not 32 <= byte <= 126 for byte in lines[number - 1]):
            raise NotLegal(number)
        return lines[number - 1].decode()

    reader, number = scripts.Reader(), 1
    while not (reader.is_complete() and text(number) == 'history'):
        try:
            reader.line(text(number).encode())
        except Bad:
            raise NotLegal(number) from None
        number += 1
    machine = Machine(reader.script)
    number += 1
    while (words := text(number).split(' '))[0].isdigit() and len(words) > 2 and len(machine.history) < FULL:
        actor = words[1][1:]
        if words[1][:1] != 'a' or not actor.isdigit() or int(actor) >= len(machine.ended):
            raise NotLegal(number)
        before = len(machine.history)
        machine.step(int(actor))
        if len(machine.history) == before or line(before, *machine.history[-1]) != text(number):
            raise NotLegal(number)
        number += 1
    for last in report(machine).split('\nhistory\n', 1)[1].split('\n')[len(machine.history):-1]:
        if text(number) != last:
            raise NotLegal(number)
        number += 1
    if number <= len(lines) or rest:
        raise NotLegal(number)
    return len(machine.history)
