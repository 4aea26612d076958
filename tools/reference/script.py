"""Scripts: reading their text, line by line, and writing it (docs/SCRIPT.md).

An operation is a tuple of its word and its operands, where FIRST COUNT is one Span.
"""
from dataclasses import dataclass, field
from typing import NamedTuple

PAGE_BYTES, PAGES, ADDRESSES = 4096, 1 << 36, 1 << 48
SCRIPT_BYTES = 4_194_304
MOST_OPERATIONS = MOST_TURNS_LINES = 100_000


class Span(NamedTuple):
    first: int
    count: int

    @property
    def end(self):
        return self.first + self.count

    def has(self, page):
        return self.first <= page < self.end

    def meets(self, other):
        return self.first < other.end and other.first < self.end

    def lies_in(self, other):
        return other.first <= self.first and self.end <= other.end


def one_page(page):
    return Span(page, 1)


ALL_PAGES = Span(0, PAGES)

OPERATIONS = {
    'map': 'P SPAN RIGHT', 'unmap': 'P SPAN', 'protect': 'P SPAN RIGHT', 'load': 'P ADDRESS LEN',
    'store': 'P ADDRESS BYTES', 'fork': 'P P', 'exit': 'P', 'attach': 'M D P SPAN', 'detach': 'M',
    'dload': 'M ADDRESS LEN', 'dstore': 'M ADDRESS BYTES', 'todev': 'M SHORT', 'tosys': 'M SHORT', 'snap': 'M SHORT',
    'evict': 'D', 'remove': 'D', 'exclusive': 'M PAGE', 'dadd': 'M ADDRESS AMOUNT'}
VERSION_2 = {'exclusive', 'dadd'}
OTHER_LINES = {
    'frames': 'FRAMES', 'device': 'DEVICE SIZE', 'skip': 'SKIP', 'actor': 'ACTOR', 'turns': 'A TURNS', 'drain': ''}

RANGES = {'P': (0, 31), 'M': (0, 31), 'LEN': (1, 256), 'AMOUNT': (0, 255), 'PAGE': (0, PAGES - 1), 'FRAMES': (0, 16384),
          'SIZE': (0, 8192), 'SKIP': (1, PAGES), 'TURNS': (1, 1_000_000), 'DEVICE': (0, 3), 'ACTOR': (0, 15)}
MOST_PAGES = {'SPAN': 65536, 'SHORT': 64}


class Bad(Exception):
    """A line that is refused, and the reason."""


class Refused(Exception):
    """The first bad line, from 1, and the reason."""


@dataclass
class Script:
    version: int = 1
    frames: int = 0
    devices: list = field(default_factory=list)
    skip: int = 0
    actors: list = field(default_factory=list)      # the operations of each
    schedule: list = field(default_factory=list)    # ('turns', actor, count) or ('drain',)


def decimal(word):
    if not word.isdigit() or word != word.lstrip('0') and word != '0' or len(word) > 20 or int(word) >= 1 << 64:
        raise Bad('bad number')
    return int(word)


def hexadecimal(word):
    if not (word.startswith('0x') and 3 <= len(word) <= 18) or set(word[2:]) - set('0123456789abcdef'):
        raise Bad('bad number')
    if f'{int(word, 16):#x}' != word:
        raise Bad('bad number')
    return int(word, 16)


def byte_pairs(word):
    if len(word) % 2 or set(word) - set('0123456789abcdef'):
        raise Bad('bad number')
    return bytes.fromhex(word)


def right(word):
    if word not in ('r', 'rw'):
        raise Bad('bad number')
    return word


READERS = {'ADDRESS': hexadecimal, 'BYTES': byte_pairs, 'RIGHT': right}


def operands(shapes, words):
    """The operands that the words spell: a span takes two words, every other shape one."""
    wanted = [s for shape in shapes for s in (('FIRST', 'COUNT') if shape in MOST_PAGES else (shape,))]
    if len(words) != len(wanted) or '' in words:
        raise Bad('bad shape')
    values = [READERS.get(shape, decimal)(word) for shape, word in zip(wanted, words)]
    return [Span(values.pop(0), values.pop(0)) if shape in MOST_PAGES else values.pop(0) for shape in shapes]


def is_in_range(shape, value):
    if shape in MOST_PAGES:
        return 1 <= value.count <= MOST_PAGES[shape] and value.end <= PAGES
    if shape == 'BYTES':
        return len(value) <= 256
    low, high = RANGES.get(shape, (None, None))
    return low is None or low <= value <= high


def access_end(shapes, values):
    """The address after an operation's last byte."""
    address, last = values[shapes.index('ADDRESS')], values[-1]
    return address + (1 if shapes[-1] == 'AMOUNT' else last if shapes[-1] == 'LEN' else len(last))


class Reader:
    """Reads lines one after the other. `part` is the part of the script that has been reached."""

    def __init__(self):
        self.script, self.part, self.operations, self.turns_lines = Script(), 'start', 0, 0

    def allowed(self):
        known = set(OPERATIONS) if self.script.version == 2 else set(OPERATIONS) - VERSION_2
        return {'header': {'frames'},
                'devices': {'device', 'skip', 'actor', 'turns', 'drain'},
                'skip': {'actor', 'turns', 'drain'},
                'actors': {'actor', 'turns', 'drain'} | known,
                'turns': {'turns', 'drain'},
                'drain': set()}[self.part]

    def line(self, raw):
        """Takes one line, without its line feed, or raises the first reason that holds of it."""
        if any(not 32 <= byte <= 126 for byte in raw):
            raise Bad('bad line end or byte')
        text = raw.decode('ascii')
        if self.part == 'start':
            if text not in ('hmm 1', 'hmm 2'):
                raise Bad('bad header')
            self.script.version, self.part = int(text[4]), 'header'
            return
        word, *words = text.split(' ')
        if word not in self.allowed():
            raise Bad('bad word')
        shapes = (OPERATIONS.get(word) or OTHER_LINES.get(word)).split()
        values = operands(shapes, words)
        self.check(word, shapes, values)
        self.take(word, values)

    def check(self, word, shapes, values):
        script = self.script
        if not all(map(is_in_range, shapes, values)):
            raise Bad('out of range')
        if 'ADDRESS' in shapes and access_end(shapes, values) > ADDRESSES:
            raise Bad('out of range')
        if word == 'device' and values[0] != len(script.devices) or word == 'actor' and values[0] != len(script.actors):
            raise Bad('out of range')
        if 'D' in shapes and values[shapes.index('D')] >= len(script.devices):
            raise Bad('not declared')
        if 'A' in shapes and values[0] >= len(script.actors):
            raise Bad('not declared')
        if word in OPERATIONS and self.operations == MOST_OPERATIONS:
            raise Bad('too many')
        if word == 'turns' and self.turns_lines == MOST_TURNS_LINES:
            raise Bad('too many')

    def take(self, word, values):
        script = self.script
        if word in OPERATIONS:
            script.actors[-1].append((word, *values))
            self.operations += 1
            return
        if word == 'frames':
            script.frames = values[0]
        elif word == 'device':
            script.devices.append(values[1])
        elif word == 'skip':
            script.skip = values[0]
        elif word == 'actor':
            script.actors.append([])
        else:
            script.schedule.append((word, *values))
            self.turns_lines += word == 'turns'
        self.part = {'frames': 'devices', 'device': 'devices', 'actor': 'actors'}.get(word, word)

    def is_complete(self):
        return self.part not in ('start', 'header')


def parse(data):
    """The script whose text the bytes are."""
    *lines, rest = data.split(b'\n')
    reader = Reader()
    for number, raw in enumerate(lines, 1):
        try:
            reader.line(raw)
        except Bad as bad:
            raise Refused(number, str(bad)) from None
    if rest:
        raise Refused(len(lines) + 1, 'bad line end or byte')
    if not reader.is_complete():
        raise Refused(len(lines) + 1, 'bad header' if reader.part == 'start' else 'bad word')
    return reader.script


def value_text(shape, value):
    if shape in MOST_PAGES:
        return f'{value.first} {value.count}'
    return f'{value:#x}' if shape == 'ADDRESS' else value.hex() if shape == 'BYTES' else str(value)


def operation_text(operation):
    word, *values = operation
    return ' '.join([word, *map(value_text, OPERATIONS[word].split(), values)])


def text(script):
    lines = [f'hmm {script.version}', f'frames {script.frames}']
    lines += [f'device {number} {size}' for number, size in enumerate(script.devices)]
    lines += [f'skip {script.skip}'] if script.skip else []
    for number, operations in enumerate(script.actors):
        lines += [f'actor {number}', *map(operation_text, operations)]
    lines += [' '.join(map(str, line)) for line in script.schedule]
    return ''.join(line + '\n' for line in lines)


def pieces(address, length):
    """The address and length of each piece of an access: one for each page that it touches."""
    bound = (address // PAGE_BYTES + 1) * PAGE_BYTES
    if address + length <= bound:
        return [(address, length)]
    return [(address, bound - address), (bound, address + length - bound)]
