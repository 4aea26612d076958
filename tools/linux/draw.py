"""Scripts of one actor that are drawn from a number. The same number gives the same script.

A drawn script keeps to what the kernel's test driver can be asked for (README.md): windows that hold every page, bytes
that each `dstore` writes, no `todev` after a `remove`.
"""
import random

FIRST = 16                  # the first page of the first area
LOW, WINDOW = 12, 20        # each mirror's window

KINDS = ['load', 'store', 'dload', 'dstore', 'todev', 'tosys', 'snap', 'map', 'unmap', 'protect', 'fork', 'exit',
         'attach', 'detach', 'evict', 'remove', 'exclusive', 'dadd']
WEIGHTS = [10, 14, 10, 12, 16, 6, 10, 3, 3, 6, 4, 1.2, 2, 0.8, 4, 0.6, 5, 3]
OF_MIRRORS = ('dload', 'dstore', 'todev', 'tosys', 'snap', 'exclusive', 'dadd', 'detach')

HEAD = 'hmm 2\nframes 512\ndevice 0 256\ndevice 1 256\nactor 0\n'


class Draw:
    """`ops` has the operations. A hidden one is for the model alone: the kernel's driver evicts its device by itself
    when a file is closed, so a hidden `evict` follows each `detach`."""

    def __init__(self, seed):
        r = self.random = random.Random(seed * 2 + 1)
        self.pages = r.randint(2, 6)
        self.ops = []                       # (text, whether hidden)
        self.alive = {0: True}
        self.areas = {0: {}}                # process -> page -> right
        self.next_child = 1
        self.mirrors = {}                   # mirror -> (device, process)
        self.next_mirror = 0
        self.removed = set()
        self.crosses = r.random() < 0.15    # accesses over a page's end; then the device stores nothing
        self.most_processes = r.choice([1, 1, 2, 2, 3])
        self.add(f'map 0 {FIRST} {self.pages} rw')
        self.areas[0] = {page: 2 for page in range(FIRST, FIRST + self.pages)}
        if r.random() < 0.9:
            self.attach(0, 0)
        if r.random() < 0.6:
            self.attach(1, 0)
        length = r.randint(5, 40)
        while len(self.ops) < length:
            self.step()
        for mirror in sorted(self.mirrors):
            self.add(f'snap {mirror} {LOW + 3} {self.pages + 2}')
        for process in sorted(self.alive):
            if self.alive[process]:
                for page in sorted(self.areas[process]):
                    self.add(f'load {process} {page * 4096:#x} 4')

    def all_texts(self):
        return [text for text, _ in self.ops]

    def shown_texts(self):
        return [text for text, is_hidden in self.ops if not is_hidden]

    def script(self):
        return HEAD + ''.join(text + '\n' for text in self.all_texts()) + 'drain\n'

    def add(self, text, is_hidden=False):
        self.ops.append((text, is_hidden))

    def attach(self, device, process):
        mirror = self.next_mirror
        if mirror > 30 or not self.alive[process]:
            return
        self.next_mirror += 1
        self.mirrors[mirror] = (device, process)
        self.add(f'attach {mirror} {device} {process} {LOW} {WINDOW}')

    def span(self, most=4):
        r = self.random
        first = r.randint(FIRST - (1 if r.random() < 0.1 else 0), FIRST + self.pages - 1)
        count = r.randint(1, most)
        if r.random() < 0.8:
            count = max(1, min(count, FIRST + self.pages - first))
        return first, count

    def process(self):
        r = self.random
        living = [p for p in self.alive if self.alive[p]]
        if living and r.random() < 0.98:
            return r.choice(living)
        return r.choice(list(self.alive))

    def page(self, process):
        r = self.random
        have = list(self.areas.get(process, {}))
        if have and r.random() < 0.93:
            return r.choice(have)
        return r.randint(FIRST - 1, FIRST + self.pages)

    def hexes(self, count):
        return ''.join(f'{self.random.randint(1, 255):02x}' for _ in range(count))

    def step(self):
        kind = self.random.choices(KINDS, WEIGHTS)[0]
        process = self.process()
        if kind in ('load', 'store'):
            self.access(kind, process)
        elif kind in OF_MIRRORS:
            if self.mirrors:
                self.by_mirror(kind)
        else:
            getattr(self, 'draw_' + kind)(process)

    def access(self, kind, process):
        r = self.random
        page = self.page(process)
        if self.crosses and r.random() < 0.4:
            at, count = page * 4096 + 4096 - r.randint(1, 3), 4
        else:
            offset = r.randint(0, 3)
            at, count = page * 4096 + offset, r.randint(1, 4 - offset)
        self.add(f'{kind} {process} {at:#x} {count if kind == "load" else self.hexes(count)}')

    def by_mirror(self, kind):
        r = self.random
        mirror = r.choice(list(self.mirrors))
        device, process = self.mirrors[mirror]
        page = self.page(process)
        if kind == 'dload':
            offset = r.randint(0, 3)
            self.add(f'dload {mirror} {page * 4096 + offset:#x} {r.randint(1, 4 - offset)}')
        elif kind == 'dstore':
            if not self.crosses:
                self.add(f'dstore {mirror} {page * 4096:#x} {self.hexes(4)}')
        elif kind == 'exclusive':
            self.add(f'exclusive {mirror} {page}')
        elif kind == 'dadd':
            self.add(f'dadd {mirror} {page * 4096 + r.randint(0, 3):#x} {r.randint(0, 255)}')
        elif kind == 'detach':
            self.add(f'detach {mirror}')
            self.add(f'evict {device}', True)
            del self.mirrors[mirror]
        elif kind != 'todev' or device not in self.removed:
            first, count = self.span()
            self.add(f'{kind} {mirror} {first} {count}')

    def draw_map(self, process):
        first, count = self.span()
        right = self.random.choice([1, 2, 2])
        self.add(f"map {process} {first} {count} {'rw' if right == 2 else 'r'}")
        pages = range(first, first + count)
        if self.alive[process] and not any(page in self.areas[process] for page in pages):
            self.areas[process].update(dict.fromkeys(pages, right))

    def draw_unmap(self, process):
        first, count = self.span(2)
        self.add(f'unmap {process} {first} {count}')
        for page in range(first, first + count):
            self.areas[process].pop(page, None)

    def draw_protect(self, process):
        first, count = self.span()
        self.add(f"protect {process} {first} {count} {self.random.choice(['r', 'rw'])}")

    def draw_fork(self, process):
        if self.next_child < self.most_processes and self.alive[process]:
            child = self.next_child
            self.next_child += 1
            self.add(f'fork {process} {child}')
            self.alive[child] = True
            self.areas[child] = dict(self.areas[process])

    def draw_exit(self, process):
        if len(self.alive) > 1 or self.random.random() < 0.3:
            self.add(f'exit {process}')
            self.alive[process] = False
            self.areas[process] = {}

    def draw_attach(self, process):
        self.attach(self.random.randint(0, 1), process)

    def draw_evict(self, _):
        self.add(f'evict {self.random.randint(0, 1)}')

    def draw_remove(self, _):
        device = self.random.randint(0, 1)
        if device not in self.removed:
            self.removed.add(device)
            self.add(f'remove {device}')
