#!/usr/bin/env python3
"""Tries edits of the crates' code that turn its meaning, and says where the prover refuses each.

    tools/edits.py [NAME ..]     tries crates/NAME/edits/*.edit; with no names, those of all crates
      --gate                     also tries crates/NAME/must-fail/*.edit, the edits that the gate tries
      --apply                    proves nothing: says which edits, those of the gate too, do not apply (status 1)
      --only TEXT                tries only edits whose name has this text
      --anew                     tries again what the log has already
      --most N                   puts at most N edits into one check (99 unless given)
      --jobs N                   how many processes a check uses (1 unless given)
      --log FILE                 the log (out/edits.jsonl unless given)

An edit must be refused: a check of the crate with that edit must leave a goal of the edited function that is not
proved. Edits that change the bodies of different functions are tried in one check. Each of these counts as refused only
if a goal of its own function is open. What is left is tried alone, and then any refusal counts. A line for each edit
says where it was refused:

    at its clause        a goal that comes from the code and a contract is open, or has values at which it is false
    at a written answer  the written answer of such a goal proves it no longer: look whether the goal is false
    at a proof text      only names in a proof file are gone, so this says little of the contract
    at a limit           the prover gave up with no verdict
    bad                  the edit does not apply, or the edited code cannot be read
    NOT REFUSED          the crate is still proved: a wrong body meets the contract, or the edit changes nothing
    not tried            nothing is known, since a check ended early

Each result goes to the log, one JSON value a line, with a sum of all that it stands on: the kit, the crate, those below
it, and the edit. A later run takes what the log has of the same sum. The status is 0 if each edit was refused at its
clause or at a written answer, 1 if some were not, and 2 if the words are wrong or a crate is not proved as it stands.
"""
import argparse, collections, hashlib, importlib.machinery, importlib.util, json, os, re, resource, shutil, sys
import tempfile, time

TOP = os.path.dirname(os.path.dirname(os.path.abspath(__file__)))

CLAUSE, ANSWER, TEXT = 'at its clause', 'at a written answer', 'at a proof text'
LIMIT, BAD, MISSED, UNTRIED = 'at a limit', 'bad', 'NOT REFUSED', 'not tried'
ORDER = [CLAUSE, ANSWER, TEXT, LIMIT, BAD, MISSED, UNTRIED]
WELL = {CLAUSE, ANSWER}

FUNCTION = re.compile(r'(\s*)(?:pub(?:\([a-z]+\))?\s+)?(?:const\s+)?fn\s+([a-z_0-9]+)')
PLACE = re.compile(r'(?:note: )?(?:\./)?(\S+?):(\d+):\d+:')
# of a goal: from the code, or with values at which it is false
OPEN = re.compile(r'(note: )?(\./)?(src|specs)/|.* and the (goal|part) fails')
ENSURED = 'what the function ensures'
# a line on a proof file that names what the edit took away
NAMES = re.compile(r'(note: )?(\./)?proofs/.*(has no field|is not in scope|has no `|was not admitted)')

Edit = collections.namedtuple('Edit', 'name file text places sum')
Result = collections.namedtuple('Result', 'kind said beside seconds')


def load_kit():
    """Returns the kit's own command rt as a module: this program tries an edit as rt must-fail does."""
    path = shutil.which('rt')
    if not path:
        sys.exit('edits.py: there is no command rt: this program needs the kit')
    sys.dont_write_bytecode = True
    loader = importlib.machinery.SourceFileLoader('rt_command', os.path.realpath(path))
    module = importlib.util.module_from_spec(importlib.util.spec_from_loader('rt_command', loader))
    sys.modules['rt_command'] = module
    loader.exec_module(module)
    return module if hasattr(module, 'stamp_of') else fitted(module)


def fitted(kit):
    """Gives a kit that keeps no work of other runs the names which this program uses."""
    kit.AT_LIMIT, kit.BAD, kit.MISSED, kit.UNSURE = 'limit', 'bad', 'missed', 'unsure'
    kit.share_work = lambda is_shared: None
    kit.adopt = lambda crate, is_alone: None
    kit.stamp_of = lambda crate, texts: crate.stamp()
    kit.linked = shutil.copytree
    made = kit.must_fail

    def must_fail(*given):
        is_refused, said = made(*given)
        kind = 'refused' if is_refused else kit.MISSED if ': NOT REFUSED' in said else kit.BAD
        return kind, said

    kit.must_fail = must_fail
    return kit


def seconds():
    """Returns the processor time of all checks so far."""
    used = resource.getrusage(resource.RUSAGE_CHILDREN)
    return used.ru_utime + used.ru_stime


def read(path):
    with open(path, encoding='utf-8') as it:
        return it.read()


def function_at(text, number):
    """Returns the name of the function that line `number` of the text is in, the line that begins it, and whether the
    line is of its body; no name if the line is outside of all functions."""
    lines = text.split('\n')
    begins = next((at for at in range(min(number, len(lines)) - 1, -1, -1) if FUNCTION.match(lines[at])), None)
    if begins is None:
        return None, 0, False
    found = FUNCTION.match(lines[begins])
    opens, ends = ends_of(lines, begins, found[1])
    return (found[2], begins + 1, number > opens + 1) if number <= ends + 1 else (None, 0, False)


def ends_of(lines, begins, indent):
    """Returns the place of the last line of the signature and contract of the function that begins there, with the
    brace of its body, and that of its own last line."""
    depth = 0
    for at in range(begins, len(lines)):
        line = lines[at]
        if at == begins and line.endswith('}'):
            return at - 1, at
        ends_signature = at == begins or line.startswith(indent + ')')
        if depth == 0 and (line == indent + '{' or line.endswith('{') and ends_signature):
            return at, next((k for k in range(at, len(lines)) if lines[k] == indent + '}'), at)
        depth += line.count('{') - line.count('}')
        if depth == 0 and line.endswith(';'):
            return at, at
    return len(lines), len(lines)


def places_of(folder, text):
    """Returns the functions whose bodies an edit changes: for each the file, the line and the name. None if it
    changes something else, such as a contract or a constant, so that goals of other functions may be open too."""
    path, places = '', set()
    for line in text.split('\n'):
        if line.startswith('file: '):
            path = line[len('file: '):].strip()
        elif line.startswith('old: '):
            code = read(f'{folder}/{path}')
            number = code.count('\n', 0, code.find(line[len('old: '):])) + 1
            name, begins, is_body = function_at(code, number) if path.startswith('src/') else (None, 0, False)
            if not is_body:
                return None
            places.add((path, begins, name))
    return frozenset(places)


def edits_of(kit, crate, stamp, folders, only):
    """Returns the crate's edits, and the results of those that cannot be applied."""
    edits, bad = [], {}
    for folder in folders:
        at = f'{crate.folder}/{folder}'
        for name in sorted(os.listdir(at)) if os.path.isdir(at) else []:
            if name.endswith('.edit') and only in name:
                text, label = read(f'{at}/{name}'), f'{folder}/{name[:-len(".edit")]}'
                why = kit.read_edit(f'{at}/{name}', crate.folder)[1]
                if why:
                    bad[label] = Result(BAD, why, 1, 0)
                else:
                    total = hashlib.sha256((stamp + text).encode()).hexdigest()
                    edits.append(Edit(label, f'{at}/{name}', text, places_of(crate.folder, text), total))
    return edits, bad


def in_batches(edits, most):
    """Returns the edits in groups; no two edits of a group change one function, and each changes bodies alone."""
    groups = []
    for edit in edits:
        for group in groups:
            if edit.places and len(group) < most and not any(edit.places & other.places for other in group):
                group.append(edit)
                break
        else:
            if edit.places:
                groups.append([edit])
    return groups + [[edit] for edit in edits if not edit.places]


def goal_lines(said):
    """Returns the lines of what a check said that are about goals which are not proved."""
    lines = [it for it in said.split('\n') if PLACE.match(it)]
    return [it for it in lines if ': error' in it or it.startswith('note: ')]


def goals_by_function(lines, texts, folder):
    """Returns these lines by what each is about: (file, line, name) of a function, or the name of its proof folder."""
    found = collections.defaultdict(list)
    for line in lines:
        at = PLACE.match(line)
        path, number = at[1], int(at[2])
        if path.startswith('src/'):
            name, begins, _ = function_at(texts.get(path) or read(f'{folder}/{path}'), number)
            found[path, begins, name].append(line)
        elif path.startswith('proofs/') and path.count('/') > 1:
            found[path.split('/')[-2]].append(line)
    return found


def kind_of(lines):
    """Returns the kind of a refusal that these lines show, and the line that shows it best."""
    opened = [it for it in lines if OPEN.match(it)]
    if opened:
        return CLAUSE, next((it for it in opened if ENSURED in it), opened[0])
    unfit = [it for it in lines if not NAMES.match(it)]
    return (ANSWER, unfit[0]) if unfit else (TEXT, lines[0])


class Trier:
    """Tries the edits of one crate over what a check of the crate as it stands proved."""

    def __init__(self, kit, crate, flags, room):
        self.kit, self.crate, self.flags, self.room = kit, crate, flags, room

    def prepare(self):
        """Builds the libraries below, proves the crate as it stands, and returns what is wrong, or nothing."""
        with open(f'{self.room}/libraries', 'w+', encoding='utf-8') as out:
            for crate in [*self.crate.below(), self.crate]:
                crate.out = out
            for dep in self.crate.below():
                if dep.build_rlib(self.flags, anew=False):
                    out.seek(0)
                    return f'the library {dep.name} is not built:\n{out.read()[-2000:]}'
            self.kit.adopt(self.crate, is_alone=False)
        start, seed = f'{self.crate.folder}/out/incremental', f'{self.room}/seed'
        if os.path.isdir(start):
            self.kit.linked(start, seed)
        else:
            os.mkdir(seed)
        ran = self.kit.checked(self.crate, {}, self.flags, seed)
        return f'it is not proved as it stands:\n{ran.stdout[-2000:]}' if ran.returncode else None

    def over_seed(self, call):
        """Returns what the call gives for a copy of what was proved, and the processor time that it took."""
        over, begun = f'{self.room}/over', seconds()
        self.kit.linked(f'{self.room}/seed', over)
        try:
            return call(over), seconds() - begun
        finally:
            shutil.rmtree(over, ignore_errors=True)

    def together(self, group):
        """Tries the edits in one check, and returns the results of those that are refused for certain; None if the
        check says nothing of any, for example since one of them cannot be read."""
        joint = f'{self.room}/joint.edit'
        with open(joint, 'w', encoding='utf-8') as it:
            it.write('\n'.join(edit.text for edit in group))
        texts, why = self.kit.read_edit(joint, self.crate.folder)
        if why:
            return None
        ran, took = self.over_seed(lambda over: self.kit.checked(self.crate, texts, self.flags, over))
        lines = ran.stdout.rstrip('\n').split('\n')
        is_refused = ran.returncode == 1 and lines[-1].startswith('logic=not-proved')
        if not is_refused or any(self.kit.unread(it, texts) for it in lines):
            return None
        found = goals_by_function(goal_lines(ran.stdout), texts, self.crate.folder)
        return self.own_goals(group, found, took / len(group))

    def own_goals(self, group, found, each):
        """Returns a result for each edit of the group that has an open goal of its own function."""
        named = collections.Counter(name for edit in group for _, _, name in edit.places)
        results = {}
        for edit in group:
            own = [line for place in edit.places for line in found.get(place, [])]
            # (a folder of proofs has only the function's name: it counts if no other edit is of such a name)
            own += [line for _, _, name in edit.places if named[name] == 1 for line in found.get(name, [])]
            # (names that are gone may be gone by another edit)
            if own and kind_of(own)[0] in WELL:
                results[edit.name] = Result(*kind_of(own), len(group), each)
        return results

    def alone(self, edit):
        """Tries one edit by itself, and returns its result."""
        said = []
        made = self.kit.checked

        def noted(*given):
            ran = made(*given)
            said.append(ran.stdout)
            return ran

        self.kit.checked = noted
        try:
            tried, took = self.over_seed(lambda over: self.kit.must_fail(self.crate, edit.file, self.flags, over))
        finally:
            self.kit.checked = made
        kinds = {self.kit.AT_LIMIT: LIMIT, self.kit.BAD: BAD, self.kit.MISSED: MISSED, self.kit.UNSURE: UNTRIED}
        kind, words = tried[0], tried[1].partition(': ')[2]
        if kind in kinds:
            return Result(kinds[kind], words, 1, took)
        lines = goal_lines(said[-1]) if said else []
        return Result(*(kind_of(lines) if lines else (CLAUSE, words)), 1, took)


def read_log(path):
    """Returns the results that the log has, by the sum of what each stands on."""
    if not os.path.exists(path):
        return {}
    with open(path, encoding='utf-8') as it:
        lines = [json.loads(line) for line in it if line.endswith('\n')]
    return {it['sum']: Result(it['kind'], it['said'], it['beside'], it['seconds']) for it in lines}


def note(log, crate, edit, result):
    log.write(json.dumps({'crate': crate.name, 'edit': edit.name, 'sum': edit.sum, **result._asdict()}) + '\n')
    log.flush()


def show(crate, name, result):
    how = f'with {result.beside - 1} more' if result.beside > 1 else 'alone'
    print(f'{result.kind}: {crate.name}/{name}: {result.seconds:.0f} s {how}: {result.said[:240]}', flush=True)


def try_crate(kit, crate, asked, known, log):
    """Tries the crate's edits, and returns the results by the edits' names; None if the crate is not proved."""
    stamp = kit.stamp_of(crate, {})
    folders = ['edits', 'must-fail'] if asked.gate else ['edits']
    edits, results = edits_of(kit, crate, stamp, folders, asked.only)
    for name, result in results.items():
        show(crate, name, result)
    left = []
    for edit in edits:
        if edit.sum in known and not asked.anew:
            results[edit.name] = known[edit.sum]
            show(crate, edit.name, results[edit.name])
        else:
            left.append(edit)
    if left and not try_left(kit, crate, asked, left, results, log):
        return None
    return results


def try_left(kit, crate, asked, left, results, log):
    """Tries these edits, adds their results, and returns whether the crate is proved as it stands."""
    room = tempfile.mkdtemp(prefix=f'edits-{os.getpid()}-')
    try:
        trier, begun = Trier(kit, crate, ['--jobs', str(asked.jobs)], room), seconds()
        why = trier.prepare()
        if why:
            print(f'{crate.name}: {why}', flush=True)
            return False
        took = seconds() - begun
        print(f'{crate.name}: {len(left)} edits to try, after {took:.0f} s for the crate itself', flush=True)

        def settle(edit, result):
            results[edit.name] = result
            show(crate, edit.name, result)
            if result.kind != UNTRIED:
                note(log, crate, edit, result)

        groups = in_batches(left, asked.most)
        while groups:
            group = groups.pop(0)
            certain = trier.together(group) if len(group) > 1 else {}
            if certain is None:
                half = len(group) // 2
                groups[:0] = [group[:half], group[half:]]
                continue
            for edit in group:
                settle(edit, certain[edit.name] if edit.name in certain else trier.alone(edit))
    finally:
        shutil.rmtree(room, ignore_errors=True)
    return True


def summary(name, results):
    counts = collections.Counter(result.kind for result in results.values())
    took = sum(result.seconds for result in results.values())
    return f'{name}: {len(results)} edits, {took:.0f} s: {counted(counts)}'


def counted(counts):
    return ', '.join(f'{counts[it]} {it}' for it in ORDER if counts[it])


def words():
    parser = argparse.ArgumentParser(description=__doc__, formatter_class=argparse.RawDescriptionHelpFormatter)
    parser.add_argument('names', nargs='*', metavar='NAME')
    parser.add_argument('--gate', action='store_true', help='also the edits of must-fail')
    parser.add_argument('--apply', action='store_true', help='only say which edits do not apply')
    parser.add_argument('--only', default='', metavar='TEXT', help='only edits whose name has this text')
    parser.add_argument('--anew', action='store_true', help='try again what the log has')
    parser.add_argument('--most', type=int, default=99, metavar='N', help='at most N edits in one check')
    parser.add_argument('--jobs', type=int, default=1, metavar='N', help='processes of a check')
    parser.add_argument('--log', default=os.path.join(TOP, 'out', 'edits.jsonl'), metavar='FILE')
    return parser.parse_args()


def misapplied(kit, crates):
    """Returns a line for each edit that does not apply."""
    lines = []
    for crate in crates:
        _, bad = edits_of(kit, crate, '', ['edits', 'must-fail'], '')
        lines += [f'{BAD}: {crate.name}/{label}: {result.said}' for label, result in bad.items()]
    return lines


def main():
    asked, kit = words(), load_kit()
    kit.rtlib.guarded()
    crates = kit.rtlib.crates_below(TOP)
    if asked.apply:
        lines = misapplied(kit, crates)
        print(*lines, sep='\n', end='\n' if lines else '')
        return min(len(lines), 1)
    lacking = [it for it in asked.names if it not in [crate.name for crate in crates]]
    if lacking:
        print(f'edits.py: {lacking[0]} is no crate', file=sys.stderr)
        return 2
    kit.share_work(False)
    os.makedirs(os.path.dirname(os.path.abspath(asked.log)), exist_ok=True)
    known, lines, unproved = read_log(asked.log), [], []
    total = collections.Counter()
    with open(asked.log, 'a', encoding='utf-8') as log:
        for crate in crates:
            if asked.names and crate.name not in asked.names:
                continue
            results = try_crate(kit, crate, asked, known, log)
            if results is None:
                unproved.append(crate.name)
            elif results:
                lines.append(summary(crate.name, results))
                total.update(result.kind for result in results.values())
    for line in lines:
        print(line)
    if unproved:
        print('not proved as they stand, so their edits were not tried: ' + ', '.join(unproved))
        return 2
    print(f'{sum(total.values())} edits: {counted(total)}')
    return 0 if set(total) <= WELL else 1


if __name__ == '__main__':
    sys.exit(main())
