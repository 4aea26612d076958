"""A small model of one operation at a time. Without differences it answers as hmmrun does. Each difference that is on
makes it answer as Linux does there; with all of them it answers as the kernel did on every script that was drawn.

The names are those of docs/LINUX.md, which tells each one.
"""
DIFFERENCES = ['no-area-code', 'exclusive-code', 'exclusive-errno', 'own-read-only', 'protect-hole',
               'protected-exclusive', 'exclusive-read', 'protect-upgrades', 'protect-invalidates', 'fork-of-untouched',
               'one-entry-more']


class Entry:
    """A page table entry: zero, sys, own or excl."""
    __slots__ = ('kind', 'frame', 'writable', 'dirty', 'device')

    def __init__(self, kind, frame=None, writable=False, dirty=False, device=None):
        self.kind, self.frame, self.writable, self.dirty, self.device = kind, frame, writable, dirty, device

    def copy(self):
        return Entry(self.kind, self.frame, self.writable, self.dirty, self.device)


class Mirror:
    def __init__(self, device, process, first, count):
        self.device, self.process, self.first, self.end = device, process, first, first + count
        self.is_attached, self.table = True, {}     # page -> (frame, right)


class Model:
    def __init__(self, differences=()):
        self.on = set(differences)
        self.areas = {0: {}}            # process -> page -> right (1: read, 2: read and write)
        self.entries = {0: {}}          # process -> page -> Entry
        self.alive, self.taken = {0}, {0}
        self.mirrors = {}
        self.bytes_of = {}              # frame -> bytes
        self.next_frame = 0
        self.unshared = set()           # frames that no fork has shared since they were written (PageAnonExclusive)
        self.own_pages = {0: set()}     # pages whose VMA has had a page of its own (anon_vma)

    # memory

    def frame(self, source=None):
        self.next_frame += 1
        self.bytes_of[self.next_frame] = bytearray(self.bytes_of[source]) if source else bytearray(4096)
        return self.next_frame

    def invalidate(self, process, pages):
        pages = set(pages)
        if pages and max(pages) + 1 - min(pages) == len(pages) and 'one-entry-more' in self.on:
            pages.add(max(pages) + 1)
        for mirror in self.mirrors.values():
            if mirror.process == process and mirror.is_attached:
                for page in pages & set(mirror.table):
                    del mirror.table[page]

    def mappings(self, frame):
        return [(p, page) for p in self.entries for page, entry in self.entries[p].items() if entry.frame == frame]

    def vma(self, process, page):
        """The kernel's area of a page: neighbours of one right are merged."""
        area, low, high = self.areas[process], page, page
        while area.get(low - 1) == area[page]:
            low -= 1
        while area.get(high + 1) == area[page]:
            high += 1
        return range(low, high + 1)

    def rows(self, process, span):
        """The pages of a span that have an area, by the kernel's areas: the driver migrates one after the other."""
        area, rows = self.areas[process], []
        for page in span:
            if page in area and rows and rows[-1][-1] == page - 1 and area[page - 1] == area[page]:
                rows[-1].append(page)
            elif page in area:
                rows.append([page])
        return rows

    def note_own_page(self, process, page):
        self.own_pages[process].update(self.vma(process, page))

    def has_own_page(self, process, page):
        return bool(self.own_pages[process] & set(self.vma(process, page)))

    def bring_home(self, frame):
        home = self.frame(frame)
        for process, page in self.mappings(frame):
            self.invalidate(process, [page])
            self.entries[process][page] = Entry('sys', home, self.entries[process][page].writable)
        if frame in self.unshared:
            self.unshared.add(home)

    def new_page(self, process, page, source=None):
        frame = self.frame(source)
        self.unshared.add(frame)
        self.entries[process][page] = Entry('sys', frame, True, True)

    def fault(self, process, page, write, device=None):
        """None, or the cause for which the access fails."""
        while True:
            if process not in self.alive or page not in self.areas[process]:
                return 1
            entry = self.entries[process].get(page)
            if entry and entry.kind == 'own' and entry.device == device:
                if not write or entry.writable:
                    return None
                if 'own-read-only' in self.on:
                    return 1
            if write and self.areas[process][page] == 1:
                return 2
            if self.suits(process, page, entry, write):
                return None

    def suits(self, process, page, entry, write):
        """Whether the entry serves the access; else one step of a fault is made."""
        if entry is None:
            if write:
                self.note_own_page(process, page)
                self.new_page(process, page)
            else:
                self.entries[process][page] = Entry('zero')
        elif entry.kind == 'zero':
            if not write:
                return True
            self.note_own_page(process, page)
            self.invalidate(process, [page])
            self.new_page(process, page)
        elif entry.kind == 'sys':
            if not write or entry.writable:
                return True
            if len(self.mappings(entry.frame)) == 1:
                entry.writable = entry.dirty = True
                self.unshared.add(entry.frame)
            else:
                self.invalidate(process, [page])
                self.new_page(process, page, entry.frame)
        elif entry.kind == 'own':
            self.bring_home(entry.frame)
        else:
            self.invalidate(process, [page])
            writable = entry.writable and self.areas[process][page] == 2
            self.entries[process][page] = Entry('sys', entry.frame, writable, writable)
        return False

    def make_exclusive(self, mirror, page):
        cause = self.fault(mirror.process, page, True)
        if cause is None:
            self.invalidate(mirror.process, [page])
            frame = self.entries[mirror.process][page].frame
            self.entries[mirror.process][page] = Entry('excl', frame, True, True)
            mirror.table[page] = (frame, 'x')
        return cause

    def exclusive_cause(self, cause, mirror):
        if 'exclusive-errno' in self.on:
            return 'e22' if mirror.process not in self.alive else 'e16'
        return str(cause)

    def reach(self, number, page, write):
        """A device's access: a cause or None, and the frame, or None for zeros."""
        mirror = self.mirrors.get(number)
        if not mirror or not mirror.is_attached or not mirror.first <= page < mirror.end:
            return 4, None
        while True:
            frame, right = mirror.table.get(page, (None, ''))
            if right == 'x' and not write and 'exclusive-read' in self.on:
                return None, frame
            if right == 'w' or right == 'r' and not write:
                return None, frame
            cause = self.fault(mirror.process, page, write, mirror.device)
            if cause is not None:
                return cause, None
            entry = self.entries[mirror.process][page]
            mirror.table[page] = (entry.frame, 'w' if entry.writable else 'r')

    # operations

    def answer(self, op):
        """The answers of an operation."""
        word, *operands = op.split()
        if word in ('load', 'dload', 'store', 'dstore'):
            return self.access(word, int(operands[0]), int(operands[1], 16), operands[2])
        if word == 'dadd':
            return self.dadd(*operands)
        numbers = [int(x) for x in operands if x.isdigit()]
        if word in ('map', 'unmap', 'protect', 'fork', 'exit') and numbers[0] not in self.alive:
            return ['refused 8']
        if word in ('map', 'protect'):
            numbers.append(2 if operands[3] == 'rw' else 1)
        if word in ('detach', 'snap', 'todev', 'tosys', 'exclusive'):
            mirror = self.mirrors.get(numbers[0])
            if not mirror or not mirror.is_attached:
                return ['refused 4']
            return getattr(self, word)(mirror, *numbers)
        return getattr(self, word)(*numbers)

    def map(self, process, first, count, right):
        if any(page in self.areas[process] for page in range(first, first + count)):
            return ['refused 5']
        self.areas[process].update(dict.fromkeys(range(first, first + count), right))
        return [f"mapped p{process} {first} {count} {'rw' if right == 2 else 'r'}"]

    def unmap(self, process, first, count):
        span = range(first, first + count)
        if any(page in self.areas[process] for page in span):
            self.invalidate(process, span)
        for page in span:
            self.areas[process].pop(page, None)
            self.entries[process].pop(page, None)
            self.own_pages[process].discard(page)
        return [f'unmapped p{process} {first} {count}']

    def protect(self, process, first, count, right):
        span = range(first, first + count)
        holes = [page for page in span if page not in self.areas[process]]
        if holes:
            if first in holes or 'protect-hole' not in self.on:
                return ['refused 1']
            span = range(first, holes[0])
        if 'protect-invalidates' in self.on:
            changed = [page for page in span if self.areas[process][page] != right]
            for page in changed:
                self.invalidate(process, [page])
        else:
            changed = span
            self.invalidate(process, span)
        for page in changed:
            self.areas[process][page] = right
            entry = self.entries[process].get(page)
            if entry is None:
                continue
            if right == 1:
                if entry.kind == 'excl' and 'protected-exclusive' not in self.on:
                    self.entries[process][page] = Entry('sys', entry.frame, False, True)
                else:
                    entry.writable = False
            elif (entry.kind == 'sys' and entry.dirty and entry.frame in self.unshared
                    and 'protect-upgrades' in self.on):
                entry.writable = True
        return ['refused 1'] if holes else [f"protected p{process} {first} {count} {'rw' if right == 2 else 'r'}"]

    def fork(self, parent, child):
        if child in self.taken:
            return ['refused 7']
        self.taken.add(child)
        self.alive.add(child)
        self.invalidate(parent, list(self.areas[parent]))
        self.areas[child] = dict(self.areas[parent])
        self.entries[child] = {}
        for page, entry in self.entries[parent].items():
            if entry.kind == 'zero' and not self.has_own_page(parent, page) and 'fork-of-untouched' in self.on:
                continue
            if entry.kind == 'excl':
                entry = self.entries[parent][page] = Entry('sys', entry.frame, False, entry.writable)
            entry.writable = False
            self.unshared.discard(entry.frame)
            self.entries[child][page] = entry.copy()
        self.own_pages[child] = {page for page in self.areas[parent] if self.has_own_page(parent, page)}
        return [f'forked p{parent} p{child}']

    def exit(self, process):
        self.invalidate(process, list(self.areas[process]))
        self.alive.discard(process)
        self.areas[process], self.entries[process] = {}, {}
        return [f'exited p{process}']

    def attach(self, number, device, process, first, count):
        if number in self.mirrors:
            return ['refused 9']
        if process not in self.alive:
            return ['refused 8']
        self.mirrors[number] = Mirror(device, process, first, count)
        return [f'attached m{number} d{device} p{process} {first} {count}']

    def detach(self, mirror, number):
        mirror.is_attached, mirror.table = False, {}
        return [f'detached m{number}']

    def empty(self, device):
        frames = {entry.frame for entries in self.entries.values() for entry in entries.values()
                  if entry.kind == 'own' and entry.device == device}
        for frame in frames:
            self.bring_home(frame)
        return len(frames)

    def evict(self, device):
        return [f'evicted {self.empty(device)}']

    def remove(self, device):
        self.empty(device)
        return [f'removed d{device}']

    def snap(self, mirror, number, first, count):
        return [f'seen m{number} {page} {self.code(mirror, page)}' for page in range(first, first + count)]

    def code(self, mirror, page):
        process = mirror.process
        if 'no-area-code' in self.on:
            if process not in self.alive:
                return 'e22'
            if page not in self.areas[process]:
                return 'ff'
        entry = self.entries[process].get(page) if process in self.alive else None
        if entry is None or entry.kind == 'own' and entry.device != mirror.device:
            return '00'
        if entry.kind == 'zero':
            return '11'
        if entry.kind == 'excl':
            return '00' if 'exclusive-code' in self.on else '31'
        return ('0' if entry.kind == 'sys' else '2') + ('2' if entry.writable else '1')

    def todev(self, mirror, _, first, count):
        def wants(entry):
            return entry is None or entry.kind in ('zero', 'sys')
        return self.migrate(mirror, range(first, first + count), wants, mirror.device)

    def tosys(self, mirror, _, first, count):
        def wants(entry):
            return entry is not None and entry.kind == 'own' and entry.device == mirror.device
        return self.migrate(mirror, range(first, first + count), wants, None)

    def migrate(self, mirror, span, wants, device):
        process, moved = mirror.process, 0
        for pages in self.rows(process, span) if process in self.alive else []:
            self.invalidate(process, pages)
            set_there = {}
            for page in pages:
                entry = self.entries[process].get(page)
                if wants(entry):
                    moved += 1
                    frame = self.move(process, page, entry, device)
                    set_there[page] = (frame, 'w' if self.entries[process][page].writable else 'r')
            if device is not None:
                mirror.table.update(set_there)
        return [f'migrated {moved}']

    def move(self, process, page, entry, device):
        """Moves a page to the device, or home if that is None; gives its new frame."""
        kind, frame = 'sys' if device is None else 'own', self.frame(entry.frame if entry else None)
        if entry is None or entry.kind == 'zero':
            self.note_own_page(process, page)
            self.unshared.add(frame)
            self.entries[process][page] = Entry(kind, frame, self.areas[process][page] == 2, False, device)
            return frame
        if entry.frame in self.unshared:
            self.unshared.add(frame)
        for other, at in self.mappings(entry.frame):
            self.invalidate(other, [at])
            self.entries[other][at] = Entry(kind, frame, self.entries[other][at].writable, False, device)
        return frame

    def exclusive(self, mirror, number, page):
        cause = self.make_exclusive(mirror, page)
        if cause is None:
            return [f'excluded m{number} {page}']
        return [f'refused {self.exclusive_cause(cause, mirror)}']

    def dadd(self, number, address, amount):
        mirror, at = self.mirrors.get(int(number)), int(address, 16)
        page, offset = at // 4096, at % 4096
        if not mirror or not mirror.is_attached:
            return [f'failed m{number} {address} 1 4']
        if mirror.table.get(page, (0, ''))[1] != 'x':
            cause = self.make_exclusive(mirror, page)
            if cause is not None:
                return [f'failed m{number} {address} 1 {self.exclusive_cause(cause, mirror)}']
        held = self.bytes_of[mirror.table[page][0]]
        old = held[offset]
        held[offset] = (old + int(amount)) % 256
        return [f'added m{number} {address} {old:02x} {held[offset]:02x}']

    def access(self, word, number, address, last):
        write, by_device = 'store' in word, word.startswith('d')
        data = bytes.fromhex(last) if write else None
        total = len(data) if write else int(last)
        who = ('m' if by_device else 'p') + str(number)
        done, answers = 0, []
        while done < total:
            at = address + done
            page, offset = at // 4096, at % 4096
            count = min(4096 - offset, total - done)
            if by_device:
                cause, frame = self.reach(number, page, write)
            else:
                cause = 1 if number not in self.alive else self.fault(number, page, write)
                frame = None if cause is not None else self.entries[number][page].frame
            if cause is not None:
                answers.append(f'failed {who} {at:#x} {count} {cause}')
            elif write:
                if not by_device:
                    self.entries[number][page].dirty = True
                self.bytes_of[frame][offset:offset + count] = data[done:done + count]
                answers.append(f'stored {who} {at:#x} {data[done:done + count].hex()}')
            else:
                shown = self.bytes_of[frame][offset:offset + count] if frame else bytes(count)
                answers.append(f'loaded {who} {at:#x} {shown.hex()}')
            done += count
        return answers


def run(ops, differences=()):
    """The answers of each operation, with these differences on."""
    model = Model(differences)
    return [model.answer(op) for op in ops]
