#!/usr/bin/env python3
"""Writes scripts for people as exact scripts, and explains scripts that are refused.

    tools/hmm.py [FILE]                  reads a readable script, writes the exact one
    tools/hmm.py --explain [FILE]        says why hmmrun refuses a script: the word, its column, and what was wanted
    tools/hmm.py --due [FILE]            says of a report that is not legal what was due at its first bad line
    tools/hmm.py --test [FOLDER]         replays the stored cases (tools/hmm_cases), and says how many pass
    tools/hmm.py --with COMMAND .. -- [FILE]     asks this command for reports, such as ./hmmrun.sh --quick

A readable script has comments (#), blank lines, any white space, names, and `until ACTOR before ENTRY` in place of a
counted `turns` line. docs/SCRIPT.md has a table of all that it has. To count turns, a report of the script so far is
needed. It comes from tools/reference, which nobody has proved, or from the command of --with.

Reads FILE, or standard input. Status 0: written, or nothing to explain; 1: a case fails, or a report is not legal;
2: wrong words; 3: refused, with the reason on standard error; 4: FILE cannot be read.
"""
import difflib, os, re, subprocess, sys

HERE = os.path.dirname(os.path.abspath(__file__))
sys.path[:0] = [HERE, os.path.join(HERE, 'reference')]
import report as reports
import script as scripts
from due import Wait
from explain import unfinished_text, wait_text
from run import Machine

ALL_TURNS = 1_000_000
WIDTH = 100      # of a line that is shown
KINDS = {'P': 'process', 'M': 'mirror', 'D': 'device', 'A': 'actor', 'DEVICE': 'device', 'ACTOR': 'actor'}
LETTERS = {'process': 'p', 'mirror': 'm', 'device': 'd', 'actor': 'a'}
FOR_PEOPLE = {'page', 'process', 'mirror', 'until'}     # words that an exact script has not
MOST = {'process': 31, 'mirror': 31, 'device': 3, 'actor': 15}
# words of other programs, and the word that is meant
MEANT = {'mmap': 'map', 'munmap': 'unmap', 'mprotect': 'protect', 'read': 'load', 'write': 'store', 'clone': 'fork',
         'dread': 'dload', 'dwrite': 'dstore', 'memory': 'frames', 'thread': 'actor', 'process': 'actor',
         'gpu': 'device', 'insert': 'attach', 'migrate': 'todev', 'turn': 'turns', 'snapshot': 'snap', 'atomic': 'dadd',
         'end': 'drain'}
UNITS = {'LEN': '1 to 256 bytes', 'AMOUNT': 'an amount is 0 to 255', 'FRAMES': 'at most 16384 frames of the system',
         'SIZE': 'at most 8192 frames of a device', 'SKIP': 'a number from 1 to 68719476736',
         'TURNS': '1 to 1000000 turns',
         'PAGE': 'a page is below 68719476736, which is 2^36'}


class Trouble(Exception):
    """What is wrong, with the column and the width of the word, from 1; column 0 is the whole line."""

    def __init__(self, said, column=0, width=1):
        super().__init__(said)
        self.said, self.column, self.width, self.line = said, column, width, None


class Word(str):
    """A word, with its line and its column."""
    line = column = 0

    def trouble(self, said):
        return Trouble(said, self.column, len(self))


def split(text, line):
    found = []
    for match in re.finditer(r'\S+', text):
        found.append(Word(match.group()))
        found[-1].line, found[-1].column = line, match.start() + 1
    return found


def listed(numbers):
    return 'none' if not numbers else f'{numbers[0]} alone' if len(numbers) == 1 else f'{numbers[0]} to {numbers[-1]}'


def shapes_of(word):
    return (scripts.OPERATIONS.get(word) or scripts.OTHER_LINES.get(word)).split()


def signature(word):
    """The words of a line as docs/SCRIPT.md has them."""
    names = {'FRAMES': 'N', 'SIZE': 'N', 'DEVICE': 'D', 'SKIP': 'N', 'ACTOR': 'A', 'TURNS': 'N', 'SPAN': 'FIRST COUNT',
             'SHORT': 'FIRST COUNT'}
    text = ' '.join([word, *(names.get(shape, shape) for shape in shapes_of(word))])
    return 'fork P CHILD' if word == 'fork' else text


def did_you_mean(word, known):
    near = MEANT.get(word.lower()) if MEANT.get(word.lower()) in known else None
    lower = {name.lower(): name for name in known}
    near = near or lower.get(next(iter(difflib.get_close_matches(word.lower(), sorted(lower), 1, 0.6)), None))
    return f'; did you mean `{near}`?' if near else ''


# One word each.

def a(noun):
    return f'an {noun}' if noun[0] in 'aeiou' else f'a {noun}'


def decimal(word, what='this'):
    """A number, or why the word is none."""
    if re.fullmatch(r'0|[1-9][0-9]*', word):
        if int(word) >= 1 << 64:
            raise word.trouble(f'{what} is a number below 2^64')
        return int(word)
    if re.fullmatch(r'0[xX][0-9a-fA-F]+', word):
        lies = int(word, 16) // scripts.PAGE_BYTES if what == 'a page' else 0
        meant = f', and the address {word} lies in page {lies}' if lies else ''
        raise word.trouble(f'{what} is decimal: {word} is {int(word, 16)}{meant}')
    if re.fullmatch(r'[0-9]+', word):
        raise word.trouble(f'no leading zeros: {int(word)}')
    if re.fullmatch(r'[+-][0-9]+', word):
        raise word.trouble(f'{what} has no sign')
    raise word.trouble(f'{what} is a decimal number, and `{word}` is none')


def address(word):
    digits = word[2:]
    if not re.fullmatch(r'0[xX][0-9a-fA-F]+', word):
        if re.fullmatch(r'[0-9]+', word):
            raise word.trouble(f'an address begins with 0x: {word} is {int(word):#x}, and page {word} begins at '
                               f'{int(word) * scripts.PAGE_BYTES:#x}')
        raise word.trouble(f'an address is 0x and hexadecimal digits, and `{word}` is none')
    if word != word.lower():
        raise word.trouble(f'hexadecimal digits are lower case: {int(word, 16):#x}')
    if digits != '0' and digits.startswith('0'):
        raise word.trouble(f'no leading zeros: {int(word, 16):#x}')
    if int(word, 16) >= 1 << 64:
        raise word.trouble('an address is below 2^48')
    return int(word, 16)


def byte_pairs(word):
    if re.fullmatch(r'([0-9a-f]{2})+', word):
        return bytes.fromhex(word)
    if re.fullmatch(r'0[xX][0-9a-fA-F]+', word):
        digits = word[2:].lower()
        raise word.trouble(f'bytes are pairs of digits without 0x: {"0" * (len(digits) % 2) + digits}')
    if re.fullmatch(r'[0-9a-fA-F]+', word):
        if word != word.lower():
            raise word.trouble(f'hexadecimal digits are lower case: {word.lower()}')
        raise word.trouble(f'each byte has two digits: {"0" + word}')
    raise word.trouble(f'bytes are pairs of hexadecimal digits, such as 2a or 0a41, and `{word}` is none')


def right(word):
    if word in ('r', 'rw'):
        return str(word)
    near = {'w': 'rw', 'rw': 'rw', 'wr': 'rw', 'r': 'r', 'ro': 'r', 'read': 'r', 'write': 'rw'}.get(word.lower())
    raise word.trouble('a right is `r` or `rw`' + (f'; did you mean `{near}`?' if near else ''))


class Script:
    """A script as it is read, line by line: `exact` takes the exact language alone."""

    def __init__(self, exact, lines):
        self.exact, self.version, self.version_line, self.frames, self.skip = exact, None, None, None, None
        self.devices, self.actors, self.actor, self.schedule = [], [], None, []
        self.names, self.part, self.last, self.uses = {}, 'start', None, set()
        self.later = {}     # `device N` in an exact script, by the line where it stands
        for number, line in enumerate(lines, 1):
            words = line.split()
            if words[:1] == ['device'] and len(words) == 3 and words[1].isdigit():
                self.later.setdefault(int(words[1]), number)

    # operands

    def number_of(self, kind, word):
        """A process, mirror, device or actor: its number, its token (p0) or its name."""
        known = self.names.get(word)
        if known and known[0] == kind:
            return known[1]
        if known:
            raise word.trouble(f'`{word}` is a {known[0]}, and a {kind} is wanted')
        letter = LETTERS[kind]
        if re.fullmatch(letter + r'(0|[1-9][0-9]*)', word):
            if self.exact:
                raise word.trouble(f'in a script a {kind} is a number: {word[1:]}')
            return decimal(self.part_of(word, 1), a(kind))
        if not self.exact and re.match(r'[A-Za-z_]', word):
            names = [name for name, (of, _) in self.names.items() if of == kind]
            near, can = did_you_mean(word, names), kind in ('process', 'mirror')
            raise word.trouble(f'there is no {kind} `{word}`' + (near or (
                f'; `{kind} {word} = 0` above would name one' if can else '')))
        return decimal(word, a(kind))

    @staticmethod
    def part_of(word, start, end=None):
        part = Word(word[start:end])
        part.column = word.column + start
        return part

    def with_offset(self, word):
        """The number of a page's name, and what is added to it: NAME or NAME+N; none if there is no such name."""
        name, plus, offset = word.partition('+')
        known = self.names.get(name)
        if not known:
            return None
        if known[0] != 'page':
            raise word.trouble(f'`{name}` is a {known[0]}, and a page is wanted')
        if not plus:
            return known[1], 0
        if not re.fullmatch(r'0x[0-9a-f]+|[0-9]+', offset):
            raise word.trouble(f'after + a number is wanted, decimal or with 0x, and `{offset}` is none')
        return known[1], int(offset, 0)

    def page(self, word, what='a page'):
        named = self.with_offset(word)
        if named:
            return sum(named)
        if not self.exact and re.match(r'[A-Za-z_]', word):
            pages = [name for name, (kind, _) in self.names.items() if kind == 'page']
            raise word.trouble(f'there is no page `{word}`' + (did_you_mean(word, pages) or
                                                               f'; `page {word} = 16` above would name one'))
        return decimal(word, what)

    def address(self, word):
        named = self.with_offset(word)
        if named:
            return named[0] * scripts.PAGE_BYTES + named[1]
        return address(word)

    def operand(self, shape, word):
        if shape in KINDS:
            return self.number_of(KINDS[shape], word)
        if shape == 'ADDRESS':
            return self.address(word)
        if shape in ('FIRST', 'PAGE'):
            return self.page(word)
        if shape == 'TURNS' and word == 'all' and not self.exact:
            return ALL_TURNS
        return {'BYTES': byte_pairs, 'RIGHT': right}[shape](word) if shape in ('BYTES', 'RIGHT') else decimal(
            word, {'COUNT': 'a count', 'LEN': 'a length', 'AMOUNT': 'an amount'}.get(shape, 'this'))

    def operands(self, word, words):
        shapes = []
        for shape in shapes_of(word):
            shapes += ['FIRST', 'COUNT'] if shape in scripts.MOST_PAGES else [shape]
        if len(words) < len(shapes):
            raise Trouble(f'`{word}` is too short: `{signature(word)}` wants {len(shapes) + 1} words, and here are '
                          f'{len(words) + 1}', word.column, len(word))
        if len(words) > len(shapes):
            raise words[len(shapes)].trouble(f'a word too many: `{signature(word)}` has {len(shapes) + 1} words, and '
                                             f'here are {len(words) + 1}')
        return [self.operand(shape, given) for shape, given in zip(shapes, words)]

    def check(self, word, words, values):
        """Ranges, and whether what is named was declared."""
        shapes, at, spoken = shapes_of(word), 0, []
        for shape in shapes:
            if shape in scripts.MOST_PAGES:
                self.check_span(words[at:at + 2], *values[at:at + 2], scripts.MOST_PAGES[shape])
                spoken.append(scripts.Span(*values[at:at + 2]))
                at += 2
                continue
            given, value = words[at], values[at]
            spoken.append(value)
            at += 1
            if shape in KINDS and value > MOST[KINDS[shape]] and not (shape in 'DA' and self.exact):
                plural = 'processes' if shape == 'P' else KINDS[shape] + 's'
                raise given.trouble(f'{plural} are 0 to {MOST[KINDS[shape]]}')
            low, high = scripts.RANGES.get(shape, (0, None))
            if high is not None and not low <= value <= high:
                raise given.trouble(UNITS.get(shape, f'{low} to {high}'))
            if shape == 'BYTES' and len(value) > 256:
                raise given.trouble(f'1 to 256 bytes, and here are {len(value)}')
        if 'ADDRESS' in shapes and scripts.access_end(shapes, spoken) > scripts.ADDRESSES:
            raise words[shapes.index('ADDRESS')].trouble('the access ends beyond 2^48, the last address')
        if 'D' in shapes:
            self.check_device(words[shapes.index('D')], values[shapes.index('D')])
        if word == 'turns':
            self.check_actor(words[0], values[0])
        return spoken

    def check_span(self, words, first, count, most):
        if count < 1:
            raise words[1].trouble('a count of pages is at least 1')
        if count > most:
            raise words[1].trouble(f'at most {most} pages')
        if first + count > scripts.PAGES:
            raise words[0].trouble('pages are below 68719476736, which is 2^36')

    def check_device(self, word, number):
        if number < len(self.devices):
            return
        if self.exact and number in self.later:
            raise word.trouble(f'device {number} is declared in line {self.later[number]}, below the actors; '
                               '`device` lines stand right below `frames`')
        if self.exact or number not in self.later:
            raise word.trouble(f'there is no device {number}: declared are {listed(range(len(self.devices)))}; a line '
                               f'`device {len(self.devices)} 4` below `frames` would declare one with four frames')

    def check_actor(self, word, number):
        if number >= len(self.actors):
            raise word.trouble(f'there is no actor {number}: actors are {listed(range(len(self.actors)))}')

    # lines

    def known(self):
        words = set(scripts.OPERATIONS) | set(scripts.OTHER_LINES) | {'hmm'}
        return words if self.exact else words | FOR_PEOPLE

    def line(self, words):
        word, *rest = words
        if self.exact:
            self.order(word, rest)
        if word not in self.known() and not (self.exact and word == 'history'):
            if self.exact and word in FOR_PEOPLE:
                raise word.trouble(f'`{word}` is a word of scripts for people: leave the line `hmm ..` out, '
                                   'and it is one')
            raise word.trouble(f'there is no word `{word}`' + did_you_mean(word, self.known()))
        if not self.exact and self.schedule and word not in ('turns', 'until', 'drain'):
            raise word.trouble(f'`{word}` stands above the first `turns`, `until` or `drain`, in line {self.last}')
        if self.schedule and self.schedule[-1][0] == 'drain':
            raise word.trouble(f'`drain` is the last line: put this above it (line {self.last})' if word in (
                'turns', 'until') else '`drain` stands once, as the last line')
        getattr(self, 'read_' + word, self.read_operation)(word, rest)

    def order(self, word, rest):
        """In an exact script: whether the word may stand here."""
        if self.part == 'start':
            if word != 'hmm':
                raise word.trouble('the first line is `hmm 1` or `hmm 2`' + (
                    '; a script has no comments (tools/hmm.py FILE takes them)' if word.startswith('#') else ''))
            return
        if word.startswith('#'):
            raise word.trouble('a script has no comments (tools/hmm.py FILE takes them, and writes the exact script)')
        if word == 'history' and self.actors:
            raise word.trouble('this is a report: `check` and `why` read it, and ./hmmview.sh; `replay` reads a script')
        if self.part == 'header' and word != 'frames':
            raise word.trouble('`frames` is missing: the second line is `frames N`, with the frames of system memory')
        if word == 'hmm' or word == 'frames' and self.part != 'header':
            raise word.trouble(f'`{word}` stands once, in line {1 if word == "hmm" else 2}')
        if self.part == 'drain':
            raise word.trouble('`drain` is the last line' + (': put this above it' if word == 'turns' else ''))
        if word in scripts.OPERATIONS and not self.actors:
            raise word.trouble('an operation belongs to an actor: a line `actor 0` is wanted above it')
        if word in ('device', 'skip') and self.part in ('actors', 'turns') or word == 'device' and self.part == 'skip' \
                or word == 'skip' and self.part == 'skip':
            raise word.trouble(f'`{word}` stands too late: first `frames`, then each `device`, then one `skip`, then '
                               'actors')
        if self.part == 'turns' and word in {'actor', *scripts.OPERATIONS}:
            raise word.trouble(f'`{word}` stands too late: actors and their operations come before the first `turns`')
        if word in scripts.VERSION_2 and self.version == 1:
            raise word.trouble(f'`{word}` is a word of version 2: line 1 is to be `hmm 2`')

    def read_hmm(self, word, rest):
        if self.version is not None:
            raise word.trouble('`hmm` stands once')
        if len(rest) != 1 or rest[0] not in ('1', '2'):
            raise (rest or [word])[0].trouble('versions are 1 and 2: `hmm 1` or `hmm 2`')
        self.version, self.part = int(rest[0]), 'header'

    def read_frames(self, word, rest):
        if self.frames is not None:
            raise word.trouble('`frames` stands once')
        self.frames, = self.check(word, rest, self.operands(word, rest))
        self.part = 'devices'

    def read_skip(self, word, rest):
        if self.skip is not None:
            raise word.trouble('`skip` stands once')
        self.skip, = self.check(word, rest, self.operands(word, rest))
        self.part = 'skip'

    def read_device(self, word, rest):
        if not self.exact and len(rest) == 2 and re.match(r'[A-Za-z_]', rest[0]) and rest[0] != f'd{len(self.devices)}':
            if len(self.devices) > MOST['device']:
                raise rest[0].trouble('at most 4 devices')
            self.name('device', rest[0], len(self.devices))
        number, size = self.check(word, rest, self.operands(word, rest))
        if number != len(self.devices):
            raise rest[0].trouble(f'the next device is {len(self.devices)}: `device` lines count up from 0')
        self.devices.append(size)

    def read_actor(self, word, rest):
        if not self.exact and len(rest) == 1:
            named, token = self.names.get(rest[0]), re.fullmatch(r'a?(0|[1-9][0-9]*)', rest[0])
            if not named and not token:
                if len(self.actors) > MOST['actor']:
                    raise rest[0].trouble('at most 16 actors')
                self.name('actor', rest[0], len(self.actors))
            elif named or int(token[1]) < len(self.actors):
                self.actor = self.number_of('actor', rest[0])
                return
        number, = self.operands(word, rest)
        if number > MOST['actor']:
            raise rest[0].trouble('actors are 0 to 15')
        if number != len(self.actors):
            raise rest[0].trouble(f'the next actor is {len(self.actors)}: `actor` lines count up from 0')
        self.actors.append([])
        self.actor, self.part = number, 'actors'

    def name(self, kind, word, number):
        if not re.fullmatch(r'[A-Za-z_][A-Za-z0-9_]*', word) or re.fullmatch(r'[pmdas][0-9]+', word):
            raise word.trouble('a name is a letter and more letters, digits and _, and not a token such as p0 or s3')
        if word in self.known() or word in ('all', 'before', 'after', 'r', 'rw', 'w', 'x') or word in reports.FIELDS:
            raise word.trouble(f'`{word}` is a word of the language, and no name')
        if word in self.names:
            raise word.trouble(f'`{word}` is a name already, of a {self.names[word][0]}')
        self.names[str(word)] = (kind, number)

    def read_name(self, word, rest):
        if len(rest) != 3 or rest[1] != '=':
            raise (rest or [word])[0].trouble(f'`{word} NAME = NUMBER` is wanted, with spaces around =')
        if re.fullmatch(r'0x[0-9a-f]+', rest[2]) and word == 'page':
            raise rest[2].trouble(f'a page is its number, which is decimal: {rest[2]} is {int(rest[2], 16)}, and the '
                                  f'address {rest[2]} lies in page {int(rest[2], 16) // scripts.PAGE_BYTES}')
        number = decimal(rest[2], a(word))
        if number > MOST.get(str(word), scripts.PAGES - 1):
            raise rest[2].trouble(UNITS['PAGE'] if word == 'page' else f'0 to {MOST[str(word)]}')
        self.name(str(word), rest[0], number)

    read_page = read_process = read_mirror = read_name

    def read_operation(self, word, rest):
        if self.actor is None:
            raise word.trouble('an operation belongs to an actor: a line `actor 0` is wanted above it')
        if word in scripts.VERSION_2 and self.version == 1:
            raise word.trouble(f'`{word}` is a word of version 2: write `hmm 2`, or no `hmm` line')
        self.uses.add(str(word))
        self.actors[self.actor].append((str(word), *self.check(word, rest, self.operands(word, rest))))

    def read_turns(self, word, rest):
        self.schedule.append(('turns', *self.check(word, rest, self.operands(word, rest))))
        self.part = 'turns'

    def read_drain(self, word, rest):
        self.operands(word, rest)
        self.schedule.append(('drain',))
        self.part = 'drain'

    def read_until(self, word, rest):
        if len(rest) < 3 or rest[1] not in ('before', 'after'):
            raise (rest[1] if len(rest) > 1 else word).trouble(
                '`until ACTOR before ENTRY` or `until ACTOR after ENTRY` is wanted, such as `until a1 before set`')
        actor = self.number_of('actor', rest[0])
        self.check_actor(rest[0], actor)
        kind = rest[2]
        if kind not in reports.FIELDS:
            raise kind.trouble(f'there is no entry `{kind}`' + did_you_mean(kind, reports.FIELDS))
        pattern = [str(kind), *(self.token(given) for given in rest[3:])]
        self.schedule.append(('until', actor, rest[1] == 'after', pattern, kind))

    def token(self, word):
        """A word of a report: names become numbers and tokens."""
        kind, number = self.names.get(word, ('', ''))
        return str(word) if not kind else LETTERS.get(kind, '') + str(number)

    # the whole

    def finish(self):
        """What only the end shows to be missing."""
        if self.part == 'start' and self.exact:
            raise Trouble('the script is empty: the first line is `hmm 1` or `hmm 2`')
        if self.frames is None:
            raise Trouble('`frames` is missing: a line `frames N`, with the number of frames of system memory')
        if self.version is None:
            self.version = 2 if self.uses & scripts.VERSION_2 else 1
        for word, *values in (op for ops in self.actors for op in ops if 'D' in scripts.OPERATIONS[op[0]].split()):
            number = values[scripts.OPERATIONS[word].split().index('D')]
            if number >= len(self.devices):
                raise Trouble(f'`{word}` names device {number}, which is declared nowhere')

    def head(self):
        said = scripts.Script(self.version, self.frames, self.devices, self.skip or 0, self.actors, [])
        return scripts.text(said)

    def notes(self):
        """What is no fault, and mostly not meant."""
        operations = [op for ops in self.actors for op in ops]
        forked = {0} | {op[2] for op in operations if op[0] == 'fork'}
        attached = {op[1] for op in operations if op[0] == 'attach'}
        if operations and not self.schedule:
            yield 'there is no schedule, so nothing is run: `drain` as the last line runs all to its end'
        for process in sorted({op[1] for op in operations if 'P' in scripts.OPERATIONS[op[0]].split()[0]} - forked):
            yield f'process {process} is the child of no fork here, so its accesses fail with cause 1'
        for mirror in sorted({op[1] for op in operations if scripts.OPERATIONS[op[0]].split()[0] == 'M'} - attached):
            yield f'mirror {mirror} is attached nowhere here, so its operations fail with cause 4'


# Reading a file.

def decoded(data):
    return data.decode('utf-8', 'surrogateescape')


def bad_character(text, column):
    char = text[column - 1]
    quotes = {'\u201c': '"', '\u201d': '"', '\u2018': "'", '\u2019': "'", '\u2013': '-', '\u2014': '-',
              '\u00a0': 'a space'}
    said = f'a character that no script has: {char!r}, U+{ord(char):04X}' if ord(char) < 0xdc80 or ord(char) > 0xdcff \
        else f'a byte that no script has: {ord(char) - 0xdc00:#04x}'
    return Trouble(said + (f', in place of {quotes[char]}' if char in quotes else ''), column)


def check_characters(text):
    for column, char in enumerate(text, 1):
        if not ' ' <= char <= '~' and char != '\t':
            raise bad_character(text, column)


def check_exact_line(text, is_last_without_end):
    """What an exact script does not have, and a readable one may have."""
    takes = '; tools/hmm.py FILE takes it, and writes the exact script'
    if text.startswith('\ufeff'):
        raise Trouble('the file begins with a byte order mark (BOM), which no script has' + takes, 1)
    if text.endswith('\r'):
        raise Trouble('the line ends with CR LF, as Windows writes it; a script has LF alone' + takes, len(text))
    if '\t' in text:
        raise Trouble('a tab; one space stands between two words' + takes, text.index('\t') + 1)
    check_characters(text)
    if is_last_without_end:
        raise Trouble('the last line has no line feed at its end' + takes, len(text))


def check_spaces(text):
    takes = '; tools/hmm.py FILE takes it, and writes the exact script'
    if not text.strip():
        raise Trouble('a blank line, which no script has' + takes, 0)
    if text.startswith(' '):
        raise Trouble('a space before the first word' + takes, 1)
    if text.endswith(' '):
        raise Trouble('a space at the end of the line' + takes, len(text))
    if '  ' in text:
        raise Trouble('two spaces; one stands between two words' + takes, text.index('  ') + 1, 2)


def read(data, exact):
    """The script, or Trouble with its line."""
    if b'\0' in data:
        trouble = Trouble('this is no text: it has bytes of 0')
        trouble.line = data[:data.index(b'\0')].count(b'\n') + 1
        raise trouble
    lines = decoded(data).split('\n')
    has_end = lines[-1] == ''
    if has_end:
        lines.pop()
    if not exact and lines and lines[0].startswith('\ufeff'):
        lines[0] = lines[0][1:]
    script = Script(exact, lines)
    for number, text in enumerate(lines, 1):
        try:
            if exact:
                check_exact_line(text, number == len(lines) and not has_end)
                if script.part != 'start' or text.startswith('hmm') or not text.strip():
                    check_spaces(text)
                words = split(text, number)
            else:
                text = text.rstrip('\r').split('#')[0]
                check_characters(text)
                words = split(text, number)
            if words:
                script.line(words)
                if words[0] in ('turns', 'until', 'drain'):
                    script.last = number
        except Trouble as trouble:
            trouble.line = number
            raise
    try:
        script.finish()
    except Trouble as trouble:
        trouble.line = len(lines) + 1
        raise
    return script


# Turns that are counted.

def entries_of_report(report):
    body = report.split('\nhistory\n', 1)[1]
    return [(int(line.split(' ')[1][1:]), line.split(' ')[2:]) for line in body.splitlines() if line[:1].isdigit()]


class Runs:
    """Reports of exact scripts, by tools/reference or by a command."""

    def __init__(self, command):
        self.command = command

    def entries(self, text):
        if self.command:
            done = subprocess.run([*self.command, 'replay'], input=text.encode(), capture_output=True)
            if done.returncode not in (0, 7):
                sys.exit(f'hmm.py: {" ".join(self.command)} replay ended with status {done.returncode}: '
                         f'{done.stderr.decode().strip()}')
            return entries_of_report(done.stdout.decode())
        machine = Machine(scripts.parse(text.encode()))
        machine.replay()
        return entries_of_report(reports.report(machine))


def fits(pattern, words):
    return len(pattern) <= len(words) and all(want in ('*', word) for want, word in zip(pattern, words))


def counted(text, actor, is_after, pattern, runs):
    """How many turns of the actor lead to the entry; or what it does instead."""
    more = runs.entries(text + f'turns {actor} {ALL_TURNS}\n')[len(runs.entries(text)):]
    for at, (_, words) in enumerate(more):
        if fits(pattern, words):
            return at + is_after
    machine = Machine(scripts.parse((text + f'turns {actor} {ALL_TURNS}\n').encode()))
    machine.replay()
    end = 'has no operation left' if machine.is_idle(actor) else 'stops: ' + unfinished_text(machine, actor)
    did = f'adds {len(more)} entries, the last `{" ".join(more[-1][1])}`, and then' if more else 'adds no entry, and'
    raise Trouble(f'actor {actor} does not come to `{" ".join(pattern)}` from here: it {did} {end}')


def exact_text(data, runs):
    """The exact script that a readable one stands for."""
    script, text = read(data, False), None
    text = script.head()
    for word, *rest in script.schedule:
        if word == 'until':
            actor, is_after, pattern, given = rest
            try:
                turns = counted(text, actor, is_after, pattern, runs)
            except Trouble as trouble:
                trouble.line, trouble.column, trouble.width = given.line, given.column, len(given)
                raise
            text += f'turns {actor} {turns}\n' if turns else ''
        else:
            text += ' '.join(map(str, [word, *rest])) + '\n'
    try:
        scripts.parse(text.encode())
    except scripts.Refused as refused:
        trouble = Trouble('line {} of the exact script is refused: {}'.format(*refused.args))
        trouble.line = len(decoded(data).split('\n'))
        raise trouble from None
    return text, list(script.notes())


# What is said.

def visible(text):
    """The text with each character that a terminal would carry out, or cannot show, as its number."""
    byte = lambda char: ord(char) - 0xdc00 if 0xdc80 <= ord(char) <= 0xdcff else ord(char)
    return ''.join(char if char.isprintable() else f'\\x{byte(char):02x}' for char in text)


def shown_as(trouble, data, name):
    lines = decoded(data).split('\n')
    text = lines[trouble.line - 1] if trouble.line and trouble.line <= len(lines) else ''
    text = text.rstrip('\r').replace('\t', ' ').lstrip('\ufeff')
    before, after = text[:max(trouble.column - 1, 0)], text[max(trouble.column - 1, 0):]
    marked = len(visible(after[:trouble.width]))
    column, text = len(visible(before)) + 1 if trouble.column else 0, visible(text)
    place = f'{name}:{trouble.line}:' + (f'{trouble.column}:' if trouble.column else '')
    cut = text[:WIDTH] + ('..' if len(text) > WIDTH else '')
    shown = f'\n    {cut}' if text.strip() else ''
    width = max(1, min(max(marked, trouble.width), WIDTH - column + 1))
    mark = f'\n    {" " * (column - 1)}{"^" * width}' if shown and 0 < column <= WIDTH else ''
    return f'{place} {trouble.said}{shown}{mark}'


def explained(data, name):
    """Why hmmrun refuses the script, or what it is; and whether it is refused."""
    try:
        script = scripts.parse(data)
    except scripts.Refused as refused:
        line, reason = refused.args
        try:
            read(data, True)
            said = Trouble(f'{reason}; docs/SCRIPT.md has the rule')
            said.line = line
        except Trouble as trouble:
            said = trouble
        return f'hmmrun says: script line {line}: {reason}\n{shown_as(said, data, name)}\n', True
    operations = sum(map(len, script.actors))
    said = f'{name} is a script: {len(script.actors)} actors, {operations} operations\n'
    said += ''.join(f'note: {note}\n' for note in read(data, True).notes())
    return said + 'replay, threads, advise and hmmraces read it; check, why and hmmview read a report\n', False


def translate(data, name, runs):
    try:
        text, notes = exact_text(data, runs)
    except Trouble as trouble:
        print(f'hmm.py: {shown_as(trouble, data, name)}', file=sys.stderr)
        return 3
    sys.stdout.write(text)
    for note in notes:
        print(f'hmm.py: note: {note}', file=sys.stderr)
    return 0


def explain(data, name):
    said, is_refused = explained(data, name)
    sys.stdout.write(said)
    return 3 if is_refused else 0


def due_at(data, line):
    """What was due at this line of a report, to the actor that it names."""
    lines = data.decode('ascii', 'replace').split('\n')
    if 'history' not in lines[:line - 1]:
        return 'no script of a report goes on so; `--explain` of the script alone says more'
    start = lines.index('history') + 1
    machine = Machine(scripts.parse('\n'.join(lines[:start - 1] + ['']).encode()))
    for text in lines[start:line - 1]:
        if text[:1].isdigit():
            machine.step(int(text.split(' ')[1][1:]))
    words, at = lines[line - 1].split(' '), len(machine.history)
    actor = re.fullmatch(r'a(0|[1-9][0-9]*)', words[1]) if len(words) > 1 else None
    if words[0].isdigit() and actor and int(actor[1]) < len(machine.ended):
        actor = int(actor[1])
        if machine.is_idle(actor):
            return f'a{actor} has no operation left'
        due, _ = machine.due(actor)
        return wait_text(actor, due) if isinstance(due, Wait) else f'due was `{reports.line(at, actor, due)}`'
    if words[0].isdigit():
        return f'an entry is its position, its actor and its words: `{at} a0 ..`'
    last = [f'unfinished a{a} {ended}' for a, ended in enumerate(machine.ended) if not machine.is_idle(a)]
    return f'if the history ends here, the lines after it are `{"`, `".join(last + [f"end {at}"])}`'


def due_text(data, name):
    try:
        return f'{name} is a legal report of {reports.check(data)} entries\n'
    except reports.NotLegal as bad:
        said = Trouble(due_at(data, bad.args[0]))
        said.line = bad.args[0]
        raise said from None


def tell_due(data, name):
    try:
        sys.stdout.write(due_text(data, name))
        return 0
    except Trouble as trouble:
        print(shown_as(trouble, data, name))
        return 1


def test(folder):
    """Each NAME.hmm of the folder against NAME.exact (what is written) or NAME.said (what is explained)."""
    wrong = count = 0
    for file in sorted(os.listdir(folder)):
        name, end = os.path.splitext(file)
        if end not in ('.exact', '.said', '.refused', '.due'):
            continue
        with open(os.path.join(folder, name + '.hmm'), 'rb') as it:
            data = it.read()
        with open(os.path.join(folder, file), encoding='utf-8') as it:
            wanted = it.read()
        try:
            got = explained(data, name)[0] if end == '.said' else due_text(data, name) if end == '.due' else exact_text(
                data, Runs(None))[0]
        except Trouble as trouble:
            got = shown_as(trouble, data, name) + '\n'
        count += 1
        if got != wanted:
            wrong += 1
            print(f'{file}: wanted\n{wanted}got\n{got}')
    print(f'{count} cases, {wrong} wrong')
    return 1 if wrong or not count else 0


def usage(said=None):
    print(__doc__.strip() if not said else f'hmm.py: {said}; tools/hmm.py --help has the words',
          file=sys.stderr if said else sys.stdout)
    return 2 if said else 0


def main():
    words, how, command = sys.argv[1:], translate, None
    if '--help' in words or '-h' in words:
        return usage()
    if words[:1] == ['--test']:
        return test((words[1:] or [os.path.join(HERE, 'hmm_cases')])[0])
    if words[:1] in (['--explain'], ['--due']):
        how, words = explain if words[0] == '--explain' else tell_due, words[1:]
    elif words[:1] == ['--with']:
        if '--' in words:
            command, words = words[1:words.index('--')], words[words.index('--') + 1:]
        else:
            command, words = words[1:], []
    for word in words:
        if word.startswith('-') and word != '-':
            return usage(f'there is no `{word}`' + did_you_mean(word, ['--explain', '--due', '--test', '--with']))
    if len(words) > 1:
        return usage(f'`{words[1]}` is a word too many')
    if words and words[0] != '-':
        try:
            with open(words[0], 'rb') as it:
                data, name = it.read(), words[0]
        except OSError as error:
            print(f'hmm.py: {words[0]}: {error.strerror}', file=sys.stderr)
            return 4
    else:
        if sys.stdin.isatty():
            print('hmm.py: reading from the terminal; Ctrl-D ends the text', file=sys.stderr)
        data, name = sys.stdin.buffer.read(), 'script'
    if name.startswith('/dev/'):
        name = 'script'
    return how(data, name, Runs(command)) if how is translate else how(data, name)


if __name__ == '__main__':
    sys.exit(main())
