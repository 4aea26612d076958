#!/usr/bin/env python3
"""What a careful reader of the repository would trip over, from its files alone.

    tools/house.py                    compares the map, then counts; shows some of each thing that it counts
    tools/house.py PART ..            these parts alone, with everything that they find
    tools/house.py --map              writes the table of rooms into docs/ARCHITECTURE.md, from crates.txt
    tools/house.py --limits           writes what it counts now into tools/house_limits.tsv

The part `map` compares crates.txt and docs/ARCHITECTURE.md: no crate stands before one that it needs, each folder of
crates/ has its line, the rooms are the same in both, and how many rooms there are and how long the longest chain is are
as the page says.

The other parts count, and tools/house_limits.tsv has how many there may be of each:
    idle        crates of crates.txt's lines that no file of the crate names
    functions   functions of more than 40 lines, outside tests
    comments    definitions of specs/ with no comment
    lemmas      statements of lemmas that stand more than once, up to the names of variables
    uncited     lemmas and helpers of proofs/ that nothing names, but for computed examples (`NAME = refl`)
    unused      public items that no other code names, but for laws, and calls of crates that no program stands on yet,
                if docs/PROVED.md names them
    unnamed     definitions of specs/ that nothing else names
    twice       definitions of hm_history/specs that functions of more than one crate compute, outside the machine: those
                that stand alone right of `≡` in a clause. docs/DECISIONS.md says of some why (`computed twice: NAME`)

Ends with status 1 if the map is wrong, or there is more of something than there may be. It reads text and proves
nothing.
"""
import collections, os, re, sys

TOP = os.path.dirname(os.path.dirname(os.path.abspath(__file__)))
sys.path.insert(0, os.path.join(TOP, 'tools'))
import words

CRATES = os.path.join(TOP, 'crates')
MAP, PAGE = os.path.join(TOP, 'crates.txt'), os.path.join(TOP, 'docs', 'ARCHITECTURE.md')
LIMITS = os.path.join(TOP, 'tools', 'house_limits.tsv')
HEAD = '| Room | Crates |\n|---|---|\n'
NUMBERS = ('no one two three four five six seven eight nine ten eleven twelve thirteen fourteen fifteen sixteen '
           'seventeen eighteen nineteen twenty').split()
LONG = 40
SHOWN, ALL = 8, 10 ** 6


def read(path):
    with open(path, encoding='utf-8') as file:
        return file.read()


def files(ending, part=None):
    """The crate, the path in crates/ and the text of each file with this ending, in a folder `part` if one is named."""
    for folder, names, found in os.walk(CRATES):
        names[:] = sorted(n for n in names if n not in ('out', 'must-fail', 'data', 'edits'))
        for name in sorted(found):
            path = os.path.relpath(os.path.join(folder, name), CRATES)
            if name.endswith(ending) and (part is None or path.split(os.sep)[1] == part):
                yield path.split(os.sep)[0], path, read(os.path.join(folder, name))


def is_test(crate):
    return crate.endswith(('_tests', '_examples')) or crate == 'rows'


# the map

def crates():
    """The rooms of crates.txt with their crates in order, and what each crate stands on."""
    rooms, needs = {}, {}
    for line in read(MAP).splitlines():
        if line.startswith('# '):
            room = line[2:]
        elif ':' in line:
            head, tail = line.split(':', 1)
            name = head.split()[0]
            rooms.setdefault(room, []).append(name)
            needs[name] = tail.split()
    return rooms, needs


def table(rooms):
    return HEAD + ''.join(f'| {room} | {", ".join(names)} |\n' for room, names in rooms.items())


def chain(needs):
    """How many crates the longest chain has, each of which stands on the next."""
    depth = {}

    def of(name):
        if name not in depth:
            depth[name] = 1 + max((of(low) for low in needs[name] if low in needs), default=0)
        return depth[name]
    return max(map(of, needs))


def said(page, what):
    """The number that the page says in front of this."""
    found = re.search(r'(\w+) ' + what, page)
    word = found.group(1).lower() if found else ''
    return NUMBERS.index(word) if word in NUMBERS else None


def wrong_in_map():
    rooms, needs = crates()
    page, order, wrong = read(PAGE), list(needs), []
    wrong += [f'{name} stands before {low}, which it needs' for place, name in enumerate(order)
              for low in needs[name] if low in needs and low in order[place:]]
    wrong += [f'crates/{name} is in no line of crates.txt' for name in sorted(os.listdir(CRATES)) if name not in needs]
    if table(rooms) not in page:
        wrong.append('docs/ARCHITECTURE.md has other rooms; `tools/house.py --map` writes them')
    if said(page, r'rooms\b') != len(rooms):
        wrong.append(f'docs/ARCHITECTURE.md should say that there are {NUMBERS[len(rooms)]} rooms')
    chains = re.search(r'no chain is longer than (\w+)', page)
    if not chains or chains.group(1) != NUMBERS[chain(needs)]:
        wrong.append(f'docs/ARCHITECTURE.md should say that no chain is longer than {NUMBERS[chain(needs)]}')
    return wrong


def write_map():
    page = read(PAGE)
    begin = page.index(HEAD)
    end = page.index('\n\n', begin) + 1
    with open(PAGE, 'w', encoding='utf-8') as file:
        file.write(page[:begin] + table(crates()[0]) + page[end:])


# what is counted

def idle():
    """Each crate that stands in the line of one that does not name it."""
    _, needs = crates()
    named = collections.defaultdict(set)
    for crate, _, text in files(('.rt', '.antt')):
        named[crate].update(re.findall(r'\b([a-z][a-z0-9_]+)(?:::|\.)', text))
    return [f'{name}: {low}' for name in needs for low in needs[name] if low in needs and low not in named[name]]


FUNCTION = re.compile(r'^(\s*)(?:pub(?:\(crate\))? )?(?:const )?fn (\w+)')


def body_of(lines, at, indent):
    """The first and the last line of the body of the function whose head begins at a line."""
    for k in range(at, min(at + 60, len(lines))):
        if lines[k] == indent + '{' or (lines[k].endswith('{') and (k == at or lines[k].startswith(indent + ')'))):
            return k, next((n for n in range(k + 1, len(lines)) if lines[n] == indent + '}'), k)
    return at, at


def functions():
    rows = []
    for crate, path, text in files('.rt'):
        lines = text.split('\n')
        for at, line in enumerate(lines):
            found = FUNCTION.match(line)
            if is_test(crate) or not found or line.rstrip().endswith((';', '{}')):
                continue
            begin, end = body_of(lines, at, found.group(1))
            if end - begin - 1 > LONG:
                rows.append((end - begin - 1, f'{path}:{at + 1} {found.group(2)}'))
    return [f'{length} {place}' for length, place in sorted(rows, reverse=True)]


DEFINITION = re.compile(r'^(?:(?:abbrev|pub|record|data|mutual)\s+)+(\S+)')


def comments():
    rows = []
    for _, path, text in files('.antt', 'specs'):
        lines = text.split('\n')
        for at, line in enumerate(lines):
            found = DEFINITION.match(line)
            if found and not re.match(r'^(pub )?(use|mod)\b', line) and not (at and lines[at - 1].startswith('--')):
                rows.append(f'{path}:{at + 1} {found.group(1)}')
    return rows


LEMMA = re.compile(r"^(?:(?:pub|abbrev|opaque|private)\s+)*([\w'\-]+)\s+:\s+(.*)$")
A_VALUE = re.compile(r'(Type 0|Bool|ℕ|Frame|List \w+|Option \w+|Kind|Entry)$')


def statements(lines):
    """The line, the name and the whole statement of each declaration of a file."""
    for at, line in enumerate(lines):
        found = None if line.startswith('use') else LEMMA.match(line)
        if found:
            end = at + 1
            while end < len(lines) and lines[end].startswith('  '):
                end += 1
            yield at + 1, found.group(1), ' '.join([found.group(2)] + [s.strip() for s in lines[at + 1:end]])


BOUND, BOUND_BY_LAMBDA = re.compile(r"[({]\s*([\w' ]+?)\s*:\s"), re.compile(r"λ\s+\(?([\w' ]+?)\s*[:.]")


def plain(statement):
    """The statement with its variables numbered in the order in which they are bound."""
    names = {}
    for group in BOUND.findall(statement) + BOUND_BY_LAMBDA.findall(statement):
        for name in group.split():
            names.setdefault(name, f'v{len(names)}')
    return ' '.join(names.get(word, word) for word in re.findall(r"[\w'\-]+|[^\s\w]", statement))


def lemma_files():
    """The path and the text of each file of lemmas; answers have names that the check gives."""
    for crate, path, text in files('.antt', 'proofs'):
        if crate != 'rows' and not path.endswith(('/Answers.antt', '/Invariants.antt')):
            yield path, text


def lemmas():
    found = collections.defaultdict(list)
    for path, text in lemma_files():
        for line, name, statement in statements(text.split('\n')):
            if ('(' in statement or '{' in statement) and not A_VALUE.search(statement):
                found[plain(statement)].append(f'{path}:{line} {name}')
    return sorted((', '.join(places) for places in found.values() if len(places) > 1), key=len, reverse=True)


NAME = re.compile(r"[\w'\-]+")
IMPORT = re.compile(r'^\s*(?:pub |ghost )*use Rattle\.([\w.]+?)(?:\.\{([^}]*)\}|\.\*| as \w+)?;?$')
PATH = re.compile(r"\b(\w+)::proofs::([\w:]+)::([\w'\-]+)")


def cited():
    """The names that files import from each module, and all (`*`) where they import the module."""
    names = collections.defaultdict(set)
    for crate, _, text in files(('.rt', '.antt')):
        for line in text.split('\n'):
            found = IMPORT.match(line)
            if found:
                given = found.group(2)
                names[found.group(1)].update(['*'] if given is None else [n.split()[0] for n in given.split(',')])
        for low, module, name in PATH.findall(text):
            names[f'{crate if low == "crate" else low}.proofs.{module.replace("::", ".")}'].add(name)
    return names


def end_of(lines, at, name):
    """The line after the declaration of a name, which begins at a line."""
    for n in range(at + 1, len(lines)):
        part = lines[n].startswith((' ', '}', 'unfolding')) or re.match(re.escape(name) + r'(\s|$)', lines[n])
        after = next((line for line in lines[n:] if line.strip()), '')
        if not part and (lines[n].strip() or not after.startswith(' ')):
            return n
    return len(lines)


def uncited():
    """Lemmas that their own file names nowhere else, and no other file takes from it, but for computed examples."""
    rows, names = [], cited()
    for path, text in lemma_files():
        lines = text.split('\n')
        body = NAME.findall('\n'.join(line for line in lines if not line.startswith(('use ', 'pub use ', '--'))))
        taken, times = names[path[:-len('.antt')].replace('/', '.')], collections.Counter(body)
        for line, name, statement in statements(lines):
            own = lines[line - 1:end_of(lines, line - 1, name)]
            computed = own[-1] == f'{name} = refl' and ' → ' not in statement
            if not computed and times[name] <= NAME.findall('\n'.join(own)).count(name) and not taken & {name, '*'}:
                rows.append(f'{path}:{line} {name}')
    return rows


ITEM = re.compile(r'^\s*pub (?:const )?(?:fn|struct|enum|trait|const|type) (\w+)', re.M)


# A proof names the goals that it proves, by a path with the name of their function.
LAW = re.compile(r'^pub fn (\w+)(?:<[^>]*>)?\(\)', re.M)
GOALS = re.compile(r'^use Rattle\.\S+\.Goals( as \w+)?$', re.M)
LAWS = os.path.join(TOP, 'docs', 'PROVED.md')


def below_programs():
    """The crates that a program or a test stands on."""
    lines = [line.split(':') for line in read(MAP).split('\n') if ':' in line and not line.startswith('#')]
    libraries = {words.split()[0]: names.split() for words, names in lines}
    to_see = [name for name in libraries
              if is_test(name) or os.path.exists(os.path.join(TOP, 'crates', name, 'src', 'main.rt'))]
    seen = set()
    while to_see:
        name = to_see.pop()
        if name not in seen:
            seen.add(name)
            to_see += libraries.get(name, [])
    return seen


def unused():
    used, items = collections.Counter(), []
    below = below_programs()
    for crate, path, text in files('.rt'):
        code = '\n'.join(line for line in text.split('\n')
                         if not line.lstrip().startswith(('//', 'ghost use', 'pub use', 'use')))
        used.update(re.findall(r'\w+', code))
        laws_here = set(LAW.findall(code))
        items += [] if is_test(crate) else [(path, name, name in laws_here) for name in ITEM.findall(code)]
    for _, _, text in files('.antt'):
        used.update(re.findall(r'\w+', GOALS.sub('', text)))
    told = set(re.findall(r'`(\w+)`', read(LAWS)))
    return [f'{path} {name}' for path, name, is_law in items if used[name] == 1
            and not ((is_law or path.split('/')[0] not in below) and name in told)]


WORD = re.compile(r"[^\s(){};:,\[\]λ.→`]+")
COMMENT = re.compile(r'(^|\s)(--|//)\s.*')
BEGIN = re.compile(r'^(?:(?:abbrev|pub|record|data|mutual)\s+)*\S+')


def unnamed():
    """Definitions that no other file names, and their own file at the beginning of lines alone."""
    texts = {path: text for ending in ('.rt', '.antt') for _, path, text in files(ending)}
    named, rows = collections.Counter(), []
    lines = {path: [COMMENT.sub('', line) for line in text.split('\n')] for path, text in texts.items()}
    for path in texts:
        named.update(set(WORD.findall('\n'.join(lines[path]))))
    for path in (path for path in texts if '/specs/' in path):
        for name in (found.group(1) for found in map(DEFINITION.match, lines[path]) if found):
            word = name.strip('◌')
            other = [line for line in lines[path] if word in WORD.findall(BEGIN.sub('', line))]
            if named[word] == 1 and not other:
                rows.append(f'{path} {name}')
    return rows


# The rooms of crates.txt in which one part of the kernel's state, or one step, is computed in place and fast.
MACHINE = ('types', 'leaves', 'steps', 'state', 'one value shared by threads', 'run')
USES = re.compile(r'^\s*ghost use Rattle\.hm_history\.specs\.[\w.]+\.\{([^}]*)\}', re.M)
ALONE = re.compile(r'≡\s*([a-z]\w*)((?:\s+(?:[\w.«»]+|\((?:[^()]|\((?:[^()]|\([^()]*\))*\))*\)))+)\s*\)*\s*$')
DECISIONS = os.path.join(TOP, 'docs', 'DECISIONS.md')


def clauses(lines, at):
    """The bodies of the `ensures` of the function whose head begins at a line."""
    head, depth, body = [], 0, None
    for line in lines[at:at + 60]:
        if line.strip() in ('{', '{}') or line.rstrip().endswith(';') and not head:
            break
        head.append(line)
    text = ' '.join(head)
    for found in re.finditer(r'\bensures\b[^{]*\{', text):
        depth, end = 1, found.end()
        while end < len(text) and depth:
            depth += {'{': 1, '}': -1}.get(text[end], 0)
            end += 1
        yield text[found.end():end - 1].strip()


def twice():
    """Definitions with the functions that compute them, by what stands alone right of `≡`."""
    rooms, _ = crates()
    of_machine = {name for room, names in rooms.items() if room.split(':')[0].split(',')[0].startswith(MACHINE)
                  for name in names}
    computed = collections.defaultdict(set)
    for crate, path, text in files('.rt', 'src'):
        if crate in of_machine or is_test(crate):
            continue
        known = {name.split(' as ')[-1].strip() for names in USES.findall(text) for name in names.split(',')}
        lines = text.split('\n')
        for at, line in enumerate(lines):
            found = FUNCTION.match(line)
            for clause in clauses(lines, at) if found else ():
                alone = ALONE.search(clause)
                if alone and alone.group(1) in known and clause.count('≡') <= 2:
                    computed[alone.group(1)].add(f'{path}:{at + 1}')
    excused = set(re.findall(r'computed twice: `(\w+)`', read(DECISIONS)))
    return [f'{name}: {", ".join(sorted(places))}' for name, places in sorted(computed.items())
            if len({place.split('/')[0] for place in places}) > 1 and name not in excused]


COUNTED = {'idle': idle, 'functions': functions, 'comments': comments, 'lemmas': lemmas, 'uncited': uncited,
           'unused': unused, 'unnamed': unnamed, 'twice': twice}
PARTS = ('map', *COUNTED)


def limits():
    return {part: int(most) for part, most in (line.split('\t') for line in read(LIMITS).splitlines())}


def write_limits():
    with open(LIMITS, 'w', encoding='utf-8') as file:
        file.writelines(f'{part}\t{len(find())}\n' for part, find in COUNTED.items())


def show(part, rows, allowed, most):
    """Prints what was found; says whether it is no more than is allowed."""
    over = len(rows) > allowed
    print(f'{part}: {len(rows)}' + (f', of which {allowed} are allowed' if over and allowed else ''))
    for row in rows[:most]:
        print('  ' + row)
    if len(rows) > most:
        print(f'  and {len(rows) - most} more; `tools/house.py {part}` shows all')
    return not over


def main():
    words.begin(__doc__)
    words.end_with_reader()
    asked = sys.argv[1:]
    if asked == ['--map']:
        return write_map()
    if asked == ['--limits']:
        return write_limits()
    for part in asked:
        if part not in PARTS:
            words.refuse(f'there is no part `{part}`')
    may = limits()
    right = [show(part, wrong_in_map() if part == 'map' else COUNTED[part](), may.get(part, 0), ALL if asked else SHOWN)
             for part in asked or PARTS]
    sys.exit(0 if all(right) else 1)


if __name__ == '__main__':
    main()
