"""Judges a report: the verdict, and what is wrong with its first bad line (docs/JUDGE.md)."""
import report as reports
import script as scripts
from due import Wait
from parts import NAMES, NotingState, broken
from report import FIELDS, line
from run import FULL, Machine
from script import Bad, PAGES, Span
from state import NONE, ZERO, Frame, Place

U64, U32 = 1 << 64, 1 << 32


class NoEntry(Exception):
    """The line is that of no entry at its position."""


def below(limit, word):
    if not word.isdecimal() or int(word) >= limit:
        raise NoEntry
    return int(word)


def numbered(letter, limit, word):
    if word[:1] != letter:
        raise NoEntry
    return below(limit, word[1:])


def frame(word):
    if word[:1] == 's':
        return Frame(None, below(U32, word[1:]))
    device, _, number = word[1:].partition('.')
    return Frame(numbered('d', 4, word[:1] + device), below(U32, number))


def who(word):
    return word[:1], numbered('m' if word[:1] == 'm' else 'p', 32, word)


def address(word):
    if word[:2] != '0x' or not word[2:] or set(word[2:]) - set('0123456789abcdef') or int(word, 16) >= U64:
        raise NoEntry
    return int(word, 16)


def bytes_of(word):
    if len(word) % 2 or set(word) - set('0123456789abcdef'):
        raise NoEntry
    return bytes.fromhex(word)


def one_byte(word):
    if len(bytes_of(word)) != 1:
        raise NoEntry
    return bytes_of(word)


def place(words):
    kind = words.pop(0)
    if kind in ('none', 'zero'):
        return NONE if kind == 'none' else ZERO
    of, last = frame(words.pop(0)), words.pop(0)
    if kind == 'excl' and of.device is None:
        return Place('excl', of, True, numbered('a', 16, last))
    if last not in ('r', 'w') or not (kind == 'moving' or kind == ('sys' if of.device is None else 'own')):
        raise NoEntry
    return Place(kind, of, last == 'w')


def why(words):
    word = words.pop(0)
    if word == 'locked':
        return word, numbered('a', 16, words.pop(0))
    if word not in ('nothere', 'noframe', 'skipped', 'lost'):
        raise NoEntry
    return (word,)


def span(words):
    first, count = below(PAGES, words[0]), below(U64, words[1])
    del words[:2]
    if not (1 <= count and first + count <= PAGES):
        raise NoEntry
    return Span(first, count)


def one_of(known):
    def reader(word):
        if word not in known:
            raise NoEntry
        return word
    return reader


ONE_WORD = {
    'P': lambda w: numbered('p', 32, w), 'M': lambda w: numbered('m', 32, w), 'D': lambda w: numbered('d', 4, w),
    'WHO': who, 'ADDRESS': address, 'FRAME': frame, 'RIGHT': one_of(('r', 'rw')), 'TABLE': one_of(tuple('rwx')),
    'TARGET': lambda w: None if w == 'zero' else frame(w), 'PART': lambda w: None if w == 'all' else below(256, w),
    'KEPT': lambda w: frame(w) if w[:1] in ('s', 'd') else below(PAGES, w)}
MANY_WORDS = {'SPAN': span, 'PLACE': place, 'WHY': why}
PAGE_FIELDS = {('seen', 2), ('place', 2), ('set', 2), ('fresh', 2), ('excluded', 2)}
CAUSE_FIELDS = {('failed', 4), ('refused', 1)}


def field(word, number, shape, words):
    if shape in MANY_WORDS:
        return MANY_WORDS[shape](words)
    text = words.pop(0)
    if shape == 'N':
        return below(PAGES if (word, number) in PAGE_FIELDS else 11 if (word, number) in CAUSE_FIELDS else U64, text)
    if shape == 'BYTES':
        return (one_byte if word in ('seen', 'added') else bytes_of)(text)
    return ONE_WORD[shape](text)


def entry_of(text, at):
    """The actor and the entry whose line at this position the text is."""
    try:
        _, actor, word, *words = text.split(' ')
        entry = [word]
        for number, shape in enumerate(FIELDS[word].split(), 1):
            entry.append(field(word, number, shape, words))
        actor, entry = numbered('a', 16, actor), tuple(entry)
    except (IndexError, KeyError, ValueError):
        raise NoEntry from None
    if words or line(at, actor, entry) != text:
        raise NoEntry
    return actor, entry


# ---- reading

class BadHead(Exception):
    """The report's first bad line, and what is said of it: it is no line of a script, and no `history` after one."""

    def __init__(self, number, fault, complete):
        super().__init__(number)
        self.said = [f'bad {number}', fault] + (['ends history'] if complete else [])


def head(lines):
    """The script, and the number of the first line after `history`."""
    reader, number = scripts.Reader(), 1
    while True:
        complete = reader.is_complete()
        if number > len(lines):
            missing = 'bad header' if number == 1 else 'bad word'
            raise BadHead(number, 'missing' if complete else f'script line {number}: {missing}', complete)
        if lines[number - 1] == b'history\n' and complete:
            return reader.script, number + 1
        try:
            if not lines[number - 1].endswith(b'\n'):
                raise Bad('bad line end or byte')
            reader.line(lines[number - 1][:-1])
        except Bad as bad:
            raise BadHead(number, f'script line {number}: {bad}', complete) from None
        number += 1


class Judge:
    """A machine that goes on by the lines of a report."""

    def __init__(self, script):
        self.machine, self.asked = Machine(script), {}
        self.machine.state = NotingState(script)

    def due(self, actor):
        """What is due to the actor and whether its operation ends with it; none if it is idle. Asked once."""
        if actor not in self.asked:
            self.asked[actor] = None if self.machine.is_idle(actor) else self.machine.due(actor)
        due = self.asked[actor]
        if due and isinstance(due[0], Wait):
            del self.asked[actor]
        return due

    def takes(self, raw):
        """Goes on by the entry whose line this is, if it is due, and says whether it is."""
        machine, at = self.machine, len(self.machine.history)
        words = raw.decode('latin1').split(' ')
        if at == FULL or len(words) < 3 or words[0] != str(at) or words[1][:1] != 'a' or not words[1][1:].isdecimal():
            return False
        actor = int(words[1][1:])
        due = self.due(actor) if actor < len(machine.ended) else None
        if due is None or isinstance(due[0], Wait) or (line(at, actor, due[0]) + '\n').encode() != raw:
            return False
        self.asked.pop(actor, None)
        machine.history.append((actor, due[0]))
        machine.state.apply(actor, due[0])
        if due[1]:
            machine.ended[actor] += 1
            machine.running[actor] = None
        self.asked = {}
        return True

    def operation(self, actor):
        machine = self.machine
        return None if actor >= len(machine.ended) or machine.is_idle(actor) \
            else machine.script.actors[actor][machine.ended[actor]]

    def fault(self, left, same):
        if same >= len(left):
            return ['missing']
        if same:
            return ['behind']
        at = len(self.machine.history)
        if at == FULL:
            return ['full']
        try:
            text = left[0].decode('latin1')
            if not text.endswith('\n'):
                raise NoEntry
            actor, entry = entry_of(text[:-1], at)
        except NoEntry:
            return ['text']
        names = broken(self.machine.state, actor, entry, self.operation(actor))
        return [f'entry {line(at, actor, entry)}'] + [f'breaks {name}' for name in names]

    def standing(self, actor):
        due = self.due(actor)
        if due is None:
            return f'idle a{actor}'
        if isinstance(due[0], Wait):
            return f'waits a{actor} {wait_text(due[0])}'
        return f'due a{actor} {line(len(self.machine.history), actor, due[0])}'

    def standings(self):
        return [self.standing(actor) for actor in range(len(self.machine.ended))]


def wait_text(wait):
    if wait.why == 'lock':
        return f'lock p{wait.what[0]} a{wait.actors[0]}'
    if wait.why == 'moving':
        return f'moving p{wait.what[0]} {wait.what[1]}'
    if wait.why == 'frame':
        return f'frame {wait.what[0]} a{wait.actors[0]}'
    return f'told m{wait.what[0]} {wait.what[1]}'


def shared(one, other):
    """How many bytes the two lines have in common at the front."""
    return next((at for at, (x, y) in enumerate(zip(one, other)) if x != y), min(len(one), len(other)))


def nearest(raw, standings, ends):
    """The line that says which of the lines that could stand there shares most with this one."""
    lines = [text.split(' ', 2)[2] for text in standings if text.startswith('due ')] + [ends]
    return 'nearest ' + max(lines, key=lambda text: shared(raw, (text + '\n').encode()))


# ---- the entries after the first bad line

def read_on(lines, first):
    """The entries of the lines from there on, and the first line that no report's text has there, if there is one."""
    entries, at = [], first - 1

    def text():
        found = lines[at].decode('latin1') if at < len(lines) else ''
        return found[:-1] if found.endswith('\n') else ''

    try:
        while True:
            entries.append(entry_of(text(), len(entries)))
            at += 1
    except NoEntry:
        pass
    while (words := text().split(' '))[0] == 'unfinished' and len(words) == 3:
        try:
            said = f'unfinished a{numbered("a", 16, words[1])} {below(U64, words[2])}'
        except NoEntry:
            break
        if said != text():
            break
        at += 1
    if text() != f'end {len(entries)}':
        return entries, at + 1
    return entries, None if at + 1 == len(lines) else at + 2


# Entries that leave a part of the state as it is, whether they keep its rule or not.
LEAVE = {'answers': ('loaded', 'failed', 'fetched'), 'places': ('loaded', 'stored', 'fetched', 'added'),
         'sequences': ('begin',)}


def rules_broken(state, actor, entry):
    """The names of the parts that the entry breaks, of those that ask for the entries before it alone."""
    return [name for name in NAMES if name != 'kept' and not getattr(state, 'meets_' + name)(actor, entry)]


def later(lines, script, first, bad):
    """What is said of the entries after that of the first bad line, which has this number."""
    entries, unread = read_on(lines, first)
    if unread:
        return [f'stops {unread} text']
    state, said = NotingState(script), []
    for at, (actor, entry) in enumerate(entries):
        names = rules_broken(state, actor, entry)
        if first + at > bad and names:
            said += [f'also {first + at}', f'entry {line(at, actor, entry)}', *(f'breaks {name}' for name in names)]
        if any(name in names and entry[0] not in words for name, words in LEAVE.items()):
            return said + [f'stops {first + at} state']
        state.apply(actor, entry)
    return said + [f'judged {len(entries)}']


# ---- all that is said

def judge(data, further=False):
    """Whether the report is legal, and the lines that `hmmjudge --standing` writes of it, or `hmmjudge --all`."""
    lines = [piece + b'\n' for piece in data.split(b'\n')]
    lines[-1] = lines[-1][:-1]
    if not lines[-1]:
        lines.pop()
    try:
        script, first = head(lines)
    except BadHead as bad:
        return False, bad.said + ([f'stops {bad.args[0]} text'] if further else [])
    this, at = Judge(script), first
    while at <= len(lines) and this.takes(lines[at - 1]):
        at += 1
    history = this.machine.history
    tail = reports.report(this.machine).split('\nhistory\n', 1)[1].splitlines(True)[len(history):]
    left = lines[at - 1:]
    same = next((k for k, (x, y) in enumerate(zip(tail, left)) if x.encode() != y), min(len(tail), len(left)))
    if same == len(tail) == len(left):
        return True, [f'legal {len(history)}', *([] if further else this.standings())]
    fault, standings = this.fault(left, same), this.standings()
    ends = tail[same][:-1] if same < len(tail) else None
    near = [nearest(left[same], standings, ends)] if fault == ['text'] else []
    said = [f'bad {at + same}', *fault, *near, *standings, *([f'ends {ends}'] if ends else [])]
    return False, said + (later(lines, script, first, at + same) if further else [])
