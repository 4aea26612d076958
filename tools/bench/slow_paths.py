"""Scripts that go where a structure may be slow: each asks for one thing again and again, in an order or at a size that
a simple structure pays for. An entry is to cost here what it costs in an ordinary history.

What is drawn is drawn from a fixed seed. The arguments let a script be made small, to try it with the definitional
program.
"""
import random

from writer import ALL_PAGES, PAGE, Script, across, address

MIRRORS, PROCESSES, SPAN = 32, 32, 64


def stored(pages, first=0):
    """Stores that touch all of these pages, two at a time."""
    return [f'store 0 {across(page)} 4142' for page in range(first, first + pages, 2)]


def moves(word, pages, mirror=0, first=0):
    return [f'{word} {mirror} {page} {SPAN}' for page in range(first, first + pages, SPAN)]


# ---- mirrors and their tables

def window(order, pages=65536):
    """The whole window of a mirror is read, page by page, in an order of `down`, `up` or `drawn`."""
    script, places = Script(1, (1,)), list(range(pages))
    if order == 'down':
        places.reverse()
    if order == 'drawn':
        random.Random(5).shuffle(places)
    script.add(0, f'map 0 0 {pages} rw', f'attach 0 0 0 0 {pages}')
    script.add(0, *(f'dload 0 {address(page)} 1' for page in places))
    return script


def full_table(pages=65536, rounds=20000):
    """The first page of a full table is erased by an invalidation and set again, and a drawn page is read."""
    script, draw = Script(1, (1,)), random.Random(11)
    script.add(0, 'map 0 0 1 rw', f'map 0 1 {pages - 1} rw', f'attach 0 0 0 0 {pages}')
    script.add(0, *(f'dload 0 {across(page)} 2' for page in range(0, pages, 2)))
    for _ in range(rounds):
        script.add(0, 'protect 0 0 1 r', f'dload 0 {address(0)} 1', f'dload 0 {address(draw.randrange(pages))} 1')
    return script


def told(guards=40000, meet=True):
    """32 mirrors, each with a window of its own, and invalidations of a page that lies in all of them, or in none."""
    script = Script(1, (1,))
    page = 40 if meet else 100
    script.add(0, f'map 0 {page} 1 rw')
    script.add(0, *(f'attach {m} 0 0 {m} {90 - 2 * m}' for m in range(MIRRORS)))
    script.add(0, *(f'protect 0 {page} 1 {"rw" if n % 2 else "r"}' for n in range(guards)))
    return script


def deferred(pages=16384):
    """In an invalidation that lasts, eight mirrors wait for their removal and 24 for their insertion; meanwhile another
    actor's stores invalidate page after page."""
    script = Script(pages, (8,), 11)
    script.add(0, f'map 0 0 {pages} rw', *(f'attach {m} 0 0 0 {pages}' for m in range(8)))
    script.add(0, *(f'load 0 {across(page)} 2' for page in range(0, pages, 2)), 'todev 0 0 1')
    script.turns(0, 2 + 8 + 4 * pages + 2 + 8)
    for actor in range(1, 9):
        script.add(actor, f'detach {actor - 1}')
        script.turns(actor, 1)
    script.add(9, *(f'attach {m} 0 0 0 {pages}' for m in range(8, MIRRORS)))
    script.turns(9, MIRRORS)
    script.add(10, *stored(pages))
    script.turns(10, 1_000_000)
    return script


# ---- processes, their areas and page tables

def far(distance, word='protect', rounds=None):
    """Single pages are protected, or unmapped and mapped, in a process whose next used page is that far behind them."""
    script, draw = Script(1), random.Random(6)
    pages = sorted(draw.sample(range(4096), 60))
    behind = pages[-1] + distance if distance else ALL_PAGES - 1
    script.add(0, *(f'map 0 {page} 1 rw' for page in pages + [behind]), f'store 0 {address(behind)} 41')
    for n in range(rounds or (99_000 if word == 'protect' else 49_000)):
        page = draw.choice(pages)
        if word == 'protect':
            script.add(0, f'protect 0 {page} 1 {draw.choice(["r", "rw"])}')
        else:
            script.add(0, f'unmap 0 {page} 1', f'map 0 {page} 1 rw')
    return script


def wide(pages=65536, rounds=20000, word='store'):
    """All pages of an area are protected, of which the last alone is used; by `dstore` in the table of a mirror too."""
    script, access = Script(1, (1,)), f'{word} 0 {address(pages - 1)} 41'
    script.add(0, f'map 0 0 {pages} rw')
    if word == 'dstore':
        script.add(0, f'attach 0 0 0 0 {pages}')
    for _ in range(rounds):
        script.add(0, access, f'protect 0 0 {pages} r', f'protect 0 0 {pages} rw')
    return script


def sparse(step=512, areas=60, pages=65536, children=8):
    """One page of each 512 is touched, in areas that lie far apart; then forks and exits."""
    script, apart = Script(4096), ALL_PAGES // 64
    for number in range(areas):
        first = number * apart
        script.add(0, f'map 0 {first} {pages} rw')
        script.add(0, *(f'load 0 {address(page)} 1' for page in range(first, first + pages, step)))
    for child in range(1, children + 1):
        script.add(0, f'fork 0 {child}', f'exit {child}')
    return script


def downward(rounds=33200):
    """A page far up is mapped, read and unmapped; then one of another table, before it."""
    script = Script(1)
    for number in range(rounds):
        page = ALL_PAGES - 1 - SPAN * number
        script.add(0, f'map 0 {page} 1 rw', f'load 0 {address(page)} 1', f'unmap 0 {page} 1')
    return script


def far_areas(rounds=99000, areas=60):
    """A page is protected again and again, in a process that has other used pages far behind it, far apart."""
    script, apart = Script(1), ALL_PAGES // SPAN
    for page in [0] + [apart * number for number in range(1, areas)]:
        script.add(0, f'map 0 {page} 1 rw', f'load 0 {address(page)} 1')
    script.add(0, *(f'protect 0 0 1 {"rw" if number % 2 else "r"}' for number in range(rounds)))
    return script


def alone(pages=56000, children=PROCESSES - 1):
    """Each used page is the only one of its table, in all processes that there may be."""
    script, area = Script(1), 65536
    script.add(0, *(f'map 0 {first} {area} r' for first in range(0, SPAN * pages, area)))
    script.add(0, *(f'load 0 {address(SPAN * page)} 1' for page in range(pages)))
    script.add(0, *(f'fork 0 {child}' for child in range(1, children + 1)))
    return script


# ---- what tells where a load's bytes came from

def stored_bytes(stores, pages, seed):
    """Stores of a byte, drawn."""
    draw = random.Random(seed)
    return [f'store 0 {address(draw.randrange(pages), draw.randrange(PAGE))} 41' for _ in range(stores)]


def forked_stores(stores=50000, pages=4096, children=PROCESSES - 1, loads=4000):
    """Stores, then forks, then loads in all processes."""
    script, draw = Script(pages), random.Random(13)
    script.add(0, f'map 0 0 {pages} rw', *stored_bytes(stores, pages, 14))
    script.add(0, *(f'fork 0 {child}' for child in range(1, children + 1)))
    script.add(0, *(f'load {draw.randrange(PROCESSES)} {address(draw.randrange(pages))} 64' for _ in range(loads)))
    return script


def many_sources(stores=50000, loads=40000, pages=64):
    """Loads of 256 bytes, which came from many stores."""
    script, draw = Script(pages), random.Random(15)
    script.add(0, f'map 0 0 {pages} rw', *stored_bytes(stores, pages, 16))
    script.add(0, *(f'load 0 {address(draw.randrange(pages), draw.randrange(PAGE - 256))} 256' for _ in range(loads)))
    return script


# ---- processes at many areas

def areas(rounds=14000):
    """A process has 64 areas: one is unmapped and mapped again, one protected, one read; one more is refused."""
    script, draw = Script(64), random.Random(7)
    script.add(0, *(f'map 0 {4 * n} 2 rw' for n in range(64)))
    for _ in range(rounds):
        one, other, third = (4 * draw.randrange(64) for _ in range(3))
        script.add(0, f'unmap 0 {one} 2', f'map 0 {one} 2 rw', f'protect 0 {other} 2 {draw.choice(["r", "rw"])}',
                   f'load 0 {across(third)} 2', f'map 0 {4 * draw.randrange(64) + 2} 2 rw', f'map 0 {1000} 1 r')
    return script


# ---- frames and their users

def few_frames(frames=16384, device=8192):
    """A machine with the most frames that there may be, of which four are used."""
    script = Script(frames, (device,) * 4)
    script.add(0, 'map 0 0 4 rw', *stored(4), 'attach 0 3 0 0 4', 'todev 0 0 2', f'load 0 {address(0)} 4')
    return script


def shared_evict(pages=16384, children=7):
    """Stored pages, forks, half of the pages migrated, `evict`, and the exits of the children."""
    script = Script(pages, (pages // 2,))
    script.add(0, f'map 0 0 {pages} rw', f'attach 0 0 0 0 {pages}', *stored(pages))
    script.add(0, *(f'fork 0 {child}' for child in range(1, children + 1)))
    script.add(0, *moves('todev', pages // 2), 'evict 0')
    script.add(0, *(f'exit {child}' for child in range(1, children + 1)))
    return script


def users(pages=512, rounds=5):
    """Each frame has 32 users; all of them are moved, there and back; then the processes exit in drawn order."""
    script, children = Script(2 * pages, (pages,)), list(range(1, PROCESSES))
    script.add(0, f'map 0 0 {pages} rw', f'attach 0 0 0 0 {pages}', *stored(pages))
    script.add(0, *(f'fork 0 {child}' for child in children))
    for _ in range(rounds):
        script.add(0, *moves('todev', pages), *moves('tosys', pages))
    random.Random(8).shuffle(children)
    script.add(0, *(f'exit {child}' for child in children))
    return script


def unshare(pages=512):
    """Each frame has 32 users; they get frames of their own by copies on write, one process after the other."""
    script, processes = Script(pages * PROCESSES), list(range(PROCESSES))
    script.add(0, f'map 0 0 {pages} rw', *stored(pages), *(f'fork 0 {child}' for child in processes[1:]))
    random.Random(12).shuffle(processes)
    for process in processes:
        script.add(0, *(f'store {process} {across(page)} 4343' for page in range(0, pages, 2)))
    return script


def last_frame(frames=16384, rounds=20000):
    """All frames but the last are taken; the last is taken and dropped."""
    script, far_page = Script(frames), frames + 16
    script.add(0, f'map 0 0 {frames} rw', *stored(frames - 2), f'store 0 {address(frames - 2)} 41')
    for _ in range(rounds):
        script.add(0, f'map 0 {far_page} 1 rw', f'store 0 {address(far_page)} 41', f'unmap 0 {far_page} 1')
    return script


def last_device_frame(frames=8192, rounds=20000):
    """The last frame of a device alone is taken; it is to be brought home, and no frame of the system is free."""
    script = Script(frames - 1, (frames,))
    script.add(0, f'map 0 0 {frames} rw', f'attach 0 0 0 0 {frames}', *moves('todev', frames))
    script.add(0, *moves('tosys', frames - SPAN), f'tosys 0 {frames - SPAN} {SPAN - 1}')
    script.add(0, *('evict 0' for _ in range(rounds)))
    return script


# ---- migrations

def locked(rounds=28000):
    """`evict` of a device whose 64 frames another actor has locked."""
    script = Script(SPAN, (SPAN,), 2)
    script.add(0, f'map 0 0 {SPAN} rw', f'attach 0 0 0 0 {SPAN}', f'todev 0 0 {SPAN}', f'tosys 0 0 {SPAN}')
    fresh, to_device, frozen = 3 + SPAN + 1, 7 * SPAN + 1, 3 + SPAN
    script.turns(0, 3 + fresh + to_device + frozen)
    script.add(1, *('evict 0' for _ in range(rounds)))
    script.turns(1, 1_000_000)
    script.turns(1, 1_000_000)
    return script


def kept(rounds=28000):
    """Migrations whose 64 pages all stay where they are."""
    script = Script(0, (SPAN,))
    script.add(0, f'map 0 0 {SPAN} rw', f'attach 0 0 0 0 {SPAN}', *(f'todev 0 0 {SPAN}' for _ in range(rounds)))
    return script


def at_once(each=250, actors=8, lines=72000):
    """Migrations of 64 pages by all actors at once, 25 turns of each after the other, through one mirror."""
    script = Script(2 * SPAN * actors, (2 * SPAN * actors,), actors)
    script.add(0, f'map 0 0 {SPAN * actors} rw', f'attach 0 0 0 0 {SPAN * actors}')
    for actor in range(actors):
        script.add(actor, *(moves(('todev', 'tosys')[n % 2], SPAN, first=SPAN * actor)[0] for n in range(each)))
    script.turns(0, 3)
    script.rounds(lines // actors, 25)
    return script


def additions(each=12000, actors=8):
    """Each actor in turn takes one page for itself, to add to it."""
    script = Script(1, (1,), actors)
    script.add(0, 'map 0 0 1 rw', 'attach 0 0 0 0 1')
    for actor in range(actors):
        script.add(actor, *(f'dadd 0 {address(0)} 1' for _ in range(each)))
    script.turns(0, 3)
    script.rounds(each, 12)
    return script


# ---- what is refused, waits, is long, or tells much

def refused(operations=99000):
    """Operations that are refused or fail, of every cause, in drawn order."""
    script, draw = Script(0, (1,)), random.Random(9)
    script.add(0, *(f'map 0 {4 * n} 2 {"rw" if n % 2 else "r"}' for n in range(64)))
    script.add(0, 'attach 0 0 0 0 64', 'attach 1 0 0 0 64', 'detach 1', 'remove 0')
    cases = [f'protect 0 4 4 r', f'store 0 {address(0)} 41', f'load 0 {address(2)} 1', f'store 0 {address(4)} 41',
             f'dstore 0 {address(4)} 41', f'dload 0 {address(64)} 1', f'dload 1 {address(4)} 1', 'detach 1',
             'todev 0 60 8', 'tosys 1 0 64', 'snap 0 64 64', f'dadd 0 {address(0)} 1', 'exclusive 0 2', 'exclusive 0 4',
             'map 0 5 1 r', 'map 0 2 1 r', 'unmap 31 0 1', 'fork 0 0', 'fork 30 1', 'exit 29', 'attach 0 0 0 0 1',
             'attach 2 0 28 0 1', 'remove 0']
    script.add(0, *(draw.choice(cases) for _ in range(operations)))
    return script


def waits(lines=99000):
    """Turns that wait: seven actors for a page that is being migrated, seven for an mmap lock."""
    script = Script(8, (1,), 16)
    script.add(0, 'map 0 0 9 rw', f'store 0 {address(0)} 41', 'fork 0 1', 'attach 0 0 0 0 9', 'todev 0 0 1')
    script.turns(0, 2 + 5 + 7 + 1 + 5)
    script.add(1, 'protect 1 0 1 r')
    script.turns(1, 1)
    for actor in range(2, 9):
        script.add(actor, f'store 0 {address(0)} 42')
        script.add(actor + 7, f'store 1 {address(8)} 42')
    script.rounds(lines // 14, 1, first=2)
    return script


def long_accesses(loads=60000, stores=4000):
    """Loads and stores of 256 bytes."""
    script, draw = Script(64), random.Random(10)
    script.add(0, 'map 0 0 64 rw')
    for word, count in (('store', stores), ('load', loads)):
        for _ in range(count):
            at = address(draw.randrange(64), draw.randrange(4096 - 256))
            script.add(0, f'{word} 0 {at} ' + ('256' if word == 'load' else draw.randbytes(256).hex()))
    return script


def snaps(rounds=28000):
    """`snap` of 64 pages, every second of which is used."""
    script = Script(SPAN, (1,))
    script.add(0, f'map 0 0 {SPAN} rw', f'attach 0 0 0 0 {SPAN}')
    script.add(0, *(f'store 0 {address(page)} 41' for page in range(0, SPAN, 2)))
    script.add(0, *(f'snap 0 0 {SPAN}' for _ in range(rounds)))
    return script
