"""Writes the text of a script part by part, and keeps to the limits of the language (docs/SCRIPT.md)."""
PAGE, ALL_PAGES = 4096, 1 << 36
MOST_OPERATIONS, MOST_LINES, MOST_BYTES = 100_000, 100_000, 4_194_304


def address(page, byte=0):
    return f'{page * PAGE + byte:#x}'


def across(page):
    """The last byte of a page: an access of two bytes there touches the next page too."""
    return address(page, PAGE - 1)


class Script:
    """Its operations, actor by actor, and its schedule. Each script ends with a drain."""

    def __init__(self, frames, devices=(), actors=1):
        self.head = ['hmm 2', f'frames {frames}'] + [f'device {number} {size}' for number, size in enumerate(devices)]
        self.actors, self.schedule = [[] for _ in range(actors)], []

    def add(self, actor, *operations):
        self.actors[actor] += operations

    def turns(self, actor, count):
        self.schedule.append(f'turns {actor} {count}')

    def rounds(self, rounds, count, first=0):
        """Rounds, in each of which every actor from the first one on has some turns."""
        for _ in range(rounds):
            for actor in range(first, len(self.actors)):
                self.turns(actor, count)

    def text(self):
        lines = list(self.head)
        for number, operations in enumerate(self.actors):
            lines += [f'actor {number}'] + operations
        text = '\n'.join(lines + self.schedule + ['drain', '']).encode()
        assert sum(map(len, self.actors)) <= MOST_OPERATIONS, 'too many operations'
        assert len(self.schedule) <= MOST_LINES, 'too many schedule lines'
        assert len(text) <= MOST_BYTES, 'too long'
        return text
