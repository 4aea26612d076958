#!/usr/bin/env python3
"""The gate's copies of the examples and of two pages.

    tools/examples.py                 writes the copies anew
    tools/examples.py --check         names each copy that is missing, of another text, or of a file that is gone

The scripts of examples/ are replayed by the gate, and the words of docs/SCRIPT.md and docs/REPORT.md are compared with
those that scripts and reports use. The gate's programs read the data/ of their own crate alone, so it has a copy of
each file there. A copy is never edited. --check ends with status 1 if it has named one.
"""
import os, sys

TOP = os.path.dirname(os.path.dirname(os.path.abspath(__file__)))
sys.path.insert(0, os.path.join(TOP, 'tools'))
import words

# the folder of a crate that has copies, the folder that they are of, and how the names of the files begin and end
COPIES = [
    ('stored_examples/data/docs', 'docs', ('SCRIPT', 'REPORT'), ('.md',)),
    ('stored_examples/data/replays/worked', 'examples/worked', ('',), ('.hmm', '.report')),
    ('stored_examples/data/replays/gallery', 'examples/gallery', ('',), ('.hmm', '.report')),
    ('stored_examples/data/replays/refused', 'examples/refused', ('',), ('.hmm', '.message', '.status')),
    ('stored_examples/data/replays/long', 'examples', ('all_operations',), ('.hmm', '.report')),
    ('stored_examples/data/races', 'examples/races', ('',), ('.hmm', '.outcomes', '.conditions', '.rulings', '.report', '.without', '.shortest')),
    ('stored_examples/data/broken', 'examples/broken', ('',), ('.hmm', '.rules', '.answers', '.without', '.shortest')),
    ('stored_examples/data/drivers', 'examples/drivers', ('',), ('.hmm', '.without', '.shortest')),
]
# how the names of files end that lie beside copies and are the crate's own: the lines of a page
OWN = ('.lines',)


def read(path):
    with open(path, 'rb') as file:
        return file.read()


def wanted():
    """Each copy that there should be, by its path, and the path of what it is a copy of."""
    found = {}
    for copies, folder, begins, ends in COPIES:
        for name in sorted(os.listdir(os.path.join(TOP, folder))):
            if name.startswith(begins) and name.endswith(ends):
                found[os.path.join('crates', copies, name)] = os.path.join(folder, name)
    return found


def there():
    """Each file that lies in the folders of copies."""
    for copies, _, _, _ in COPIES:
        folder = os.path.join('crates', copies)
        if os.path.isdir(os.path.join(TOP, folder)):
            paths = [os.path.join(folder, name) for name in sorted(os.listdir(os.path.join(TOP, folder)))]
            yield from (path for path in paths if os.path.isfile(os.path.join(TOP, path)) and not path.endswith(OWN))


def differences():
    copies = wanted()
    for copy, original in copies.items():
        if not os.path.exists(os.path.join(TOP, copy)):
            yield f'{copy} is missing'
        elif read(os.path.join(TOP, copy)) != read(os.path.join(TOP, original)):
            yield f'{copy} is not {original}'
    yield from (f'{file} is a copy of nothing' for file in there() if file not in copies)


def write():
    copies = wanted()
    for file in list(there()):
        if file not in copies:
            os.remove(os.path.join(TOP, file))
    for copy, original in copies.items():
        os.makedirs(os.path.dirname(os.path.join(TOP, copy)), exist_ok=True)
        with open(os.path.join(TOP, copy), 'wb') as file:
            file.write(read(os.path.join(TOP, original)))


def main():
    words.begin(__doc__)
    words.end_with_reader()
    if sys.argv[1:] not in ([], ['--check']):
        words.refuse('`--check` or no word is wanted')
    if not sys.argv[1:]:
        return write()
    found = list(differences())
    print('\n'.join(found) if found else f'{len(wanted())} copies, none differs')
    sys.exit(1 if found else 0)


if __name__ == '__main__':
    main()
