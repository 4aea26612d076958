#!/usr/bin/env python3
"""Whether the lines of the kernel that the pages cite are there, and have the words that are cited beside them.

    tools/linux/cite.py SOURCE [PAGE ..]

SOURCE is a folder with the kernel's source, such as linux-source-6.1; it may have a part of the files alone. A PAGE is
named by its path from the top of the repository; if none is, docs/DRIVERS.md, docs/LINUX.md, docs/BROKEN.md and
docs/KERNEL.md are read. A citation is one of these:

    `kfd_svm.c:1244 mapped_to_gpu`          the words are in line 1244, or at most two lines from it
    `hmm.c:250-258 HMM_PFN_WRITE`           the same of lines 250 to 258
    `kfd_svm.c:1834 svm_range_evict()`      ..or the line lies in the function of that name
    `hmm_vma_handle_pte` (hmm.c:247-258)    the same, with a name of four letters or more before it
    hmm.c:164, mmap.c:803-807               no words: the lines are there

A file without a folder is looked for in the folder that a row of the page names for it, such as

    | `drivers/xen/` | `gntdev.c`, `grant-table.c` |

then in mm/, lib/ and kernel/; and then it must be the only file of that name.

For each citation that is wrong there is a line, and then the status is 1. The last line counts all citations.
"""
import os, re, sys

TOP = os.path.dirname(os.path.dirname(os.path.dirname(os.path.abspath(__file__))))
sys.path.insert(0, os.path.join(TOP, 'tools'))
import words

PAGES = ('docs/DRIVERS.md', 'docs/LINUX.md', 'docs/BROKEN.md', 'docs/KERNEL.md')
FOLDERS = ('mm/', 'lib/', 'kernel/')
NEAR = 2        # how many lines from the cited ones the words may be
NUMBERS = r'(\d+(?:-\d+)?(?:, \d+(?:-\d+)?)*)'
FILE = r'([\w./-]+\.(?:c|h|rst)|MAINTAINERS|Kconfig):' + NUMBERS
WITH_WORDS = re.compile('`' + FILE + r'(?:\s([^`]+))?`')
WITHOUT = re.compile(r'(?:`([A-Za-z]\w{3,})` \()?' + FILE)
FOLDER = re.compile(r'^\| `([\w./-]+/)` \|(.*)\|$')
HEADER = re.compile(r'^(?=[A-Za-z_]).*?\b(\w+)\(')     # of a function: it begins in the first column
COMMENT = re.compile(r'^\s*\*? *')                     # how a line of a comment begins


class Wrong(Exception):
    """What is wrong with a citation."""


def folders_of(page):
    """The folder of each file that the page's table of folders names."""
    rows = (FOLDER.match(line) for line in page.splitlines())
    return {name: row[1] + name for row in rows if row for name in re.findall('`([^`]+)`', row[2])}


def citations(page):
    """Each citation of the page: where it begins, the file, the cited lines, and the words, or None."""
    for found in WITH_WORDS.finditer(page):
        yield found.start(), found[1], found[2], found[3]
    for found in WITHOUT.finditer(WITH_WORDS.sub(lambda cited: ' ' * len(cited[0]), page)):
        yield found.start(), found[2], found[3], found[1]


def spans(numbers):
    """The first and the last line of each part of `657, 722-731`."""
    for part in numbers.split(', '):
        first, _, last = part.partition('-')
        yield int(first), int(last or first)


class Source:
    """The kernel's files, read once."""

    def __init__(self, folder):
        self.folder, self.read, self.paths = folder, {}, None

    def only_one(self, name):
        """The path of the only file of that name."""
        if self.paths is None:
            self.paths = [os.path.relpath(os.path.join(at, file), self.folder)
                          for at, _, files in os.walk(self.folder) for file in files]
        found = [path for path in self.paths if path == name or path.endswith('/' + name)]
        if len(found) != 1:
            raise Wrong(f'{len(found)} files have that name')
        return found[0]

    def path(self, name, folders):
        for path in [folders.get(name, name), *(folder + name for folder in FOLDERS)]:
            if os.path.isfile(os.path.join(self.folder, path)):
                return path
        return self.only_one(name)

    def lines(self, path):
        if path not in self.read:
            with open(os.path.join(self.folder, path), encoding='utf-8', errors='replace') as file:
                self.read[path] = file.read().splitlines()
        return self.read[path]


def function_at(lines, at):
    """The name of the function that the line lies in: of the nearest header above it."""
    headers = (HEADER.match(line) for line in reversed(lines[:at]))
    return next((header[1] for header in headers if header), None)


def text_near(lines, first, last):
    """The cited lines and those near them as one, without the stars of comments."""
    near = ' '.join(COMMENT.sub('', line) for line in lines[max(first - 1 - NEAR, 0):last + NEAR])
    return ' '.join(near.split())


def check(source, folders, name, numbers, said):
    """Nothing, if the citation is right."""
    lines, parts = source.lines(source.path(name, folders)), list(spans(numbers))
    for first, last in parts:
        if not 1 <= first <= last <= len(lines):
            raise Wrong(f'the file has {len(lines)} lines')
    if said is None:
        return
    if any(' '.join(said.split()) in text_near(lines, first, last) for first, last in parts):
        return
    if said.removesuffix('()') not in {function_at(lines, first) for first, _ in parts}:
        raise Wrong('the words are not there, and no function of that name')


def wrong_of(source, name):
    """What is wrong in one page, and how many citations it has, with words and without."""
    with open(os.path.join(TOP, name), encoding='utf-8') as file:
        page = file.read()
    wrong, counts, folders = [], {True: 0, False: 0}, folders_of(page)
    for at, file, numbers, said in citations(page):
        counts[said is not None] += 1
        try:
            check(source, folders, file, numbers, said)
        except Wrong as why:
            line = page.count('\n', 0, at) + 1
            wrong.append(f'{name}:{line}: {file}:{numbers}{" " + said if said else ""}: {why}')
    return wrong, counts


def main():
    words.begin(__doc__)
    words.end_with_reader()
    if len(sys.argv) < 2 or not os.path.isdir(sys.argv[1]):
        words.refuse('the first word is a folder with the kernel\'s source')
    pages = sys.argv[2:] or PAGES
    for page in pages:
        if not os.path.isfile(os.path.join(TOP, page)):
            words.refuse(f'there is no page {page}')
    source, wrong, with_words, without = Source(sys.argv[1]), [], 0, 0
    for page in pages:
        found, counts = wrong_of(source, page)
        wrong, with_words, without = wrong + found, with_words + counts[True], without + counts[False]
    for line in wrong:
        print(line)
    print(f'{with_words} citations with words and {without} without, {len(wrong)} of them wrong')
    return 1 if wrong else 0


if __name__ == '__main__':
    sys.exit(main())
