"""The four kinds of ordinary histories. Each function gives a script of the size that is asked for.

What is drawn is drawn from a fixed seed, so a script is always the same.
"""
import random

from writer import Script, across, address

ACTORS = 8


def start():
    """One operation."""
    script = Script(1)
    script.add(0, 'map 0 0 1 rw')
    return script


def touch(page, writes):
    """A load or a store of the page's last byte and the first of the next."""
    return f'store 0 {across(page)} 4142' if writes else f'load 0 {across(page)} 2'


def stores(pages, rounds):
    """So many rounds: a fork, a load or a store of each two pages by one of 8 actors, and the exit of the child. Each
    store is a copy-on-write fault. The turns are counted so that no actor begins its accesses before the fork, and the
    child exits after them."""
    share = pages // ACTORS
    script = Script(2 * pages, actors=ACTORS)
    script.add(0, f'map 0 0 {pages} rw')
    for child in range(1, rounds + 1):
        script.add(0, f'fork 0 {child}')
        for actor in range(ACTORS):
            pairs = range(actor * share // 2, (actor + 1) * share // 2)
            script.add(actor, *(touch(2 * pair, pair % 8 != 7) for pair in pairs))
        script.add(0, f'exit {child}')
    store_turns(script, share, rounds)
    return script


def store_turns(script, share, rounds):
    """The schedule of `stores`, from the number of entries of each operation: a first fault on a page, the access of a
    page that is there, a copy-on-write fault; what a fork and an exit do for a page."""
    loads, pages = share // 8, share * ACTORS
    stored = share - loads
    script.turns(0, 2)
    for number in range(rounds):
        first = number == 0
        script.turns(0, 5 if first else 5 + ACTORS * (2 * stored + loads))
        mine = 5 * stored + 4 * loads if first else 8 * stored + loads
        for done in range(0, mine, 100):
            script.rounds(1, min(100, mine - done))
        script.turns(0, 4 if first else 4 + pages + ACTORS * stored)


def forks(pages, children):
    """8 actors touch the pages of a process, an eighth of them by stores. Then it is forked and the child exits, again
    and again."""
    share = pages // 2 // ACTORS
    script = Script(pages // 8 + 16, actors=ACTORS)
    script.add(0, f'map 0 16 {pages} rw')
    for actor in range(ACTORS):
        pairs = range(actor * share, (actor + 1) * share)
        script.add(actor, *(touch(16 + 2 * pair, pair % 8 == 0) for pair in pairs))
    for child in range(1, children + 1):
        script.add(0, f'fork 0 {child}', f'exit {child}')
    script.turns(0, 10)
    script.rounds(pages // 190 + 1, 100)
    return script


MIX_PAGES, MIX_PROCESSES, MIX_MIRRORS, MIX_DEVICES = 128, 4, 8, 2


def mix_start(script):
    """A process with bytes in all of its pages, three children that share them, and for each of them two mirrors."""
    script.add(0, f'map 0 0 {MIX_PAGES} rw')
    script.add(0, *(f'store 0 {across(page)} 4142' for page in range(0, MIX_PAGES, 2)))
    script.add(0, *(f'fork 0 {child}' for child in range(1, MIX_PROCESSES)))
    script.add(0, *(f'attach {m} {m % MIX_DEVICES} {m // MIX_DEVICES} 0 {MIX_PAGES}' for m in range(MIX_MIRRORS)))
    of_forks = (MIX_PROCESSES - 1) * (5 + MIX_PAGES) + MIX_PAGES
    script.turns(0, 2 + 5 * MIX_PAGES + of_forks + MIX_MIRRORS)


def mixed(draw):
    """One operation of the mix."""
    words, weights = ('dload', 'dstore', 'dadd', 'todev', 'tosys', 'exclusive', 'evict'), (60, 60, 30, 25, 20, 5, 1)
    word = draw.choices(words, weights)[0]
    mirror, page, count = draw.randrange(MIX_MIRRORS), draw.randrange(MIX_PAGES - 8), draw.randint(1, 8)
    if word == 'evict':
        return f'evict {draw.randrange(MIX_DEVICES)}'
    if word == 'exclusive':
        return f'exclusive {mirror} {page}'
    if word in ('todev', 'tosys'):
        return f'{word} {mirror} {page} {count}'
    at = address(page, draw.randrange(4096))
    return f'{word} {mirror} {at} ' + {'dload': str(count), 'dstore': '5a' * count, 'dadd': '7'}[word]


def mix(operations, lines):
    """Accesses, migrations, evictions and additions by 8 actors that take turns, through mirrors of four processes."""
    draw = random.Random(3)
    script = Script(1024, (256, 256), ACTORS)
    mix_start(script)
    for actor in range(ACTORS):
        script.add(actor, *(mixed(draw) for _ in range(operations // ACTORS)))
    for _ in range(lines // ACTORS):
        for actor in range(ACTORS):
            script.turns(actor, draw.randint(1, 50))
    return script


def migrations(moves):
    """`todev` and `tosys` of 64 pages, four such spans in drawn order."""
    draw, away = random.Random(4), set()
    script = Script(512, (512,))
    script.add(0, 'map 0 0 256 rw', 'attach 0 0 0 0 256')
    for _ in range(moves):
        span = draw.randrange(4)
        script.add(0, f'{"tosys" if span in away else "todev"} 0 {64 * span} 64')
        away ^= {span}
    return script
