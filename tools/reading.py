#!/usr/bin/env python3
"""The pages that have to be read to believe a statement, with their lines.

    tools/reading.py [CRATE.FILE.NAME ..]           each file, with how many lines and definitions of it are needed
    tools/reading.py --lines [CRATE.FILE.NAME ..]   each of these definitions, with its first and last line

A statement is a definition of a crate's specs/, such as hm_history.Legal.Legal; if none is named, it is what `replay`
guarantees, hm_top.Replays.Replays. What it speaks of, what that speaks of, and so on, is what a reader has to believe
means what it should. Comments above a definition count, blank lines do not. The enums and structs of src/ of which the
definitions speak are counted at the end; the words of the kit's library are not counted.

Ends with status 2 if there is no such definition. It reads text and proves nothing.
"""
import collections, os, re, sys

TOP = os.path.dirname(os.path.dirname(os.path.abspath(__file__)))
sys.path.insert(0, os.path.join(TOP, 'tools'))
import words

CRATES = os.path.join(TOP, 'crates')
REPLAY = 'hm_top.Replays.Replays'
BEGIN = re.compile(r'^(?:(?:abbrev|pub|record|data|codata|mutual)\s+)+([^\s:(]+)')
NAMES = re.compile(r'\s*(?:pub )?use Rattle\.([\w.]+)\.\{(.*)\}')
MODULE = re.compile(r'\s*use Rattle\.([\w.]+) as (\w+)')
NO_DEFINITION = ('use', 'pub use', 'pub mod', 'mod')


class File:
    """The definitions of a file of specs/, by name: their first and last line and their text."""

    def __init__(self, path):
        self.path, self.definitions, self.names, self.modules = path, {}, {}, {}
        with open(path, encoding='utf-8') as file:
            lines = file.read().split('\n')
        self.read_imports(lines)
        begins = [at for at, line in enumerate(lines) if BEGIN.match(line) and not line.startswith(NO_DEFINITION)]
        for at, after in zip(begins, begins[1:] + [len(lines)]):
            self.define(lines, at, after)

    def read_imports(self, lines):
        for line in lines:
            if found := NAMES.match(line):
                for name in found.group(2).split(','):
                    there, _, here = name.strip().partition(' as ')
                    self.names[(here or there).strip()] = (found.group(1), there.strip())
            if found := MODULE.match(line):
                self.modules[found.group(2)] = found.group(1)

    def define(self, lines, at, after):
        """The definition from this line on, with the comment above it; another one begins at `after`."""
        first, last = at, after
        while first and lines[first - 1].startswith('--'):
            first -= 1
        while last > at and (not lines[last - 1].strip() or lines[last - 1].startswith('--')):
            last -= 1
        self.definitions[BEGIN.match(lines[at]).group(1)] = (first + 1, last, '\n'.join(lines[first:last]))


def files():
    """Each file of specs/, by the name of its module."""
    found = {}
    for crate in sorted(os.listdir(CRATES)):
        top = os.path.join(CRATES, crate, 'specs')
        for folder, _, names in os.walk(top):
            for name in names:
                if name.endswith('.antt') and name != 'Lib.antt':
                    path = os.path.join(folder, name)
                    inner = os.path.relpath(path, top)[:-5].replace(os.sep, '.')
                    found[f'{crate}.specs.{inner}'] = File(path)
    return found


def spoken_of(all_files, module, name):
    """The definitions, and the types of src/, that a definition names; a type has no file of specs/."""
    file = all_files[module]
    text = re.sub(r'--.*', '', file.definitions[name][2])
    for word in set(re.findall(r'[^\s(){};,\[\]λ→]+', text)):
        head, _, rest = word.strip('.').partition('.')
        for local in {word.strip('.'), head}:
            if local in file.definitions and local != name:
                yield module, local
            if local in file.names:
                yield file.names[local]
        if head in file.modules:
            yield file.modules[head], rest


def needed(all_files, module, name):
    """What has to be read for a definition: definitions by file, and the names of types."""
    definitions, types, ahead = set(), set(), [(module, name)]
    while ahead:
        module, name = ahead.pop()
        if '.declared' in module:
            types.add(module)
        elif (module, name) not in definitions and module in all_files and name in all_files[module].definitions:
            definitions.add((module, name))
            ahead += spoken_of(all_files, module, name)
    return definitions, types


def show(all_files, asked, definitions, types, each):
    lines, counts = collections.Counter(), collections.Counter(module for module, _ in definitions)
    for module, name in definitions:
        lines[module] += sum(1 for line in all_files[module].definitions[name][2].split('\n') if line.strip())
    print(f'{asked}: {sum(lines.values())} lines, {len(definitions)} definitions, {len(lines)} files, '
          f'{len(types)} enums and structs')
    for module, count in lines.most_common():
        file = all_files[module]
        print(f'  {count:4} {os.path.relpath(file.path, TOP)}, {counts[module]} of {len(file.definitions)} definitions')
        if each:
            for first, last, name in sorted((*file.definitions[n][:2], n) for m, n in definitions if m == module):
                print(f'         {first} to {last} {name}')


def main():
    words.begin(__doc__)
    words.end_with_reader()
    asked = [word for word in sys.argv[1:] if word != '--lines'] or [REPLAY]
    all_files = files()
    for word in asked:
        crate, _, inner = word.partition('.')
        module, _, name = inner.rpartition('.')
        module = f'{crate}.specs.{module}'
        if module not in all_files or name not in all_files[module].definitions:
            words.refuse(f'there is no definition `{word}`')
        show(all_files, word, *needed(all_files, module, name), '--lines' in sys.argv[1:])


if __name__ == '__main__':
    main()
