#!/usr/bin/env python3
"""Makes the proof files of the crate `rows` from the worked scripts and their reports.

    tools/make_rows.py    reads the worked scripts (*.hmm, *.report), writes crates/rows/proofs/*.antt; then run rt fmt there

For each worked script one file says, by computation alone, that the definitions give its report's history as the
script's run, that this history is legal, and what the tests of the definitions answer for the entries that
tools/tried_entries.tsv tries after a part of it. WRONG below lists further histories with an entry that must not follow
them, and the test that refuses it; they make the file Wrong.antt.
"""
import collections, os, re, sys

import words

TOP = os.path.dirname(os.path.dirname(os.path.abspath(__file__)))
WORKED = os.path.join(TOP, 'examples', 'worked')
PROOFS = os.path.join(TOP, 'crates', 'rows', 'proofs')

OPERATIONS = {'map': 'Map', 'unmap': 'Unmap', 'protect': 'Protect', 'load': 'Load', 'store': 'Store', 'fork': 'Fork',
              'exit': 'Exit', 'attach': 'Attach', 'detach': 'Detach', 'dload': 'DeviceLoad', 'dstore': 'DeviceStore',
              'todev': 'ToDevice', 'tosys': 'ToSystem', 'snap': 'Snap', 'evict': 'Evict', 'remove': 'Remove',
              'exclusive': 'Exclusive', 'dadd': 'Add'}
RIGHTS = {'r': 'Rights.Read', 'rw': 'Rights.ReadWrite'}
TABLE_RIGHTS = {'r': 'TableRight.Read', 'w': 'TableRight.Write', 'x': 'TableRight.Sole'}
WHYS = {'nothere': 'KeptWhy.NotHere', 'noframe': 'KeptWhy.NoFrame', 'skipped': 'KeptWhy.Skipped', 'lost': 'KeptWhy.Lost'}
BOOLS = {'w': 'true', 'r': 'false'}
# by the numbers that reports have; 0 is of no report
CAUSES = ['Never', 'Unmapped', 'Forbidden', 'NoFrame', 'Outside', 'Overlap', 'TooManyAreas', 'NameTaken', 'NoProcess',
          'MirrorTaken', 'Removed']


def listed(items, inner='[]'):
    return ' ∷ '.join([*items, inner])


def span(first, count):
    return f'(record {{ first = {first}; count = {count} }})'


def bytes_of(digits):
    return '(' + listed(str(int(digits[i:i + 2], 16)) for i in range(0, len(digits), 2)) + ')'


def operation(line):
    word, *w = line.split()
    if word in ('map', 'protect'):
        w = [w[0], span(w[1], w[2]), RIGHTS[w[3]]]
    elif word in ('unmap', 'todev', 'tosys', 'snap'):
        w = [w[0], span(w[1], w[2])]
    elif word in ('store', 'dstore'):
        w = [w[0], w[1], bytes_of(w[2])]
    elif word == 'attach':
        w = [w[0], w[1], w[2], span(w[3], w[4])]
    return ' '.join(['Op.' + OPERATIONS[word], *w])


def frame(name):
    if name[0] == 's':
        return f'(sys_frame {name[1:]})'
    device, number = name[1:].split('.')
    return f'(dev_frame {device} {number})'


def place(w):
    if w[0] == 'none':
        return 'Place.Empty'
    if w[0] == 'zero':
        return 'Place.Zero'
    if w[0] == 'sys':
        return f'(Place.Sys {w[1][1:]} {BOOLS[w[2]]})'
    if w[0] == 'own':
        device, number = w[1][1:].split('.')
        return f'(Place.Own {device} {number} {BOOLS[w[2]]})'
    if w[0] == 'moving':
        return f'(Place.Moving {frame(w[1])} {BOOLS[w[2]]})'
    return f'(Place.Exclusive {w[1][1:]} {w[2][1:]})'


def who(name):
    return f"(Who.{'Cpu' if name[0] == 'p' else 'Mirror'} {name[1:]})"


def cause(number):
    return 'Cause.' + CAUSES[int(number)]


def kind(text):
    word, *w = text.split()
    if word in ('loaded', 'stored'):
        w = [who(w[0]), w[1], bytes_of(w[2])]
    elif word == 'failed':
        w = [who(w[0]), w[1], w[2], cause(w[3])]
    elif word == 'refused':
        w = [cause(w[0])]
    elif word in ('mapped', 'protected'):
        w = [w[0][1:], span(w[1], w[2]), RIGHTS[w[3]]]
    elif word == 'unmapped':
        w = [w[0][1:], span(w[1], w[2])]
    elif word == 'attached':
        w = [w[0][1:], w[1][1:], w[2][1:], span(w[3], w[4]), w[5]]
    elif word in ('start', 'told', 'end'):
        w = [w[0][1:], span(w[1], w[2]), w[3]]
    elif word == 'seen':
        w = [w[0][1:], w[1], str(int(w[2], 16))]
    elif word in ('take', 'drop', 'done'):
        w = [frame(w[0])]
    elif word == 'committed':
        w = [frame(w[0]), frame(w[1])]
    elif word == 'copied':
        w = [frame(w[0]), frame(w[1]), 'None' if w[2] == 'all' else f'(Some {w[2]})']
    elif word == 'set':
        w = [w[0][1:], w[1], 'None' if w[2] == 'zero' else f'(Some {frame(w[2])})', TABLE_RIGHTS[w[3]], w[4]]
    elif word == 'kept':
        at = f'(KeptAt.Frame {frame(w[0])})' if w[0][0] in 'sd' else f'(KeptAt.Page {w[0]})'
        w = [at, WHYS[w[1]] if w[1] in WHYS else f'(KeptWhy.LockedBy {w[2][1:]})']
    elif word == 'place':
        w = [w[0][1:], w[1], place(w[2:])]
    elif word == 'fetched':
        w = [w[0][1:], w[1], bytes_of(w[2])]
    elif word == 'added':
        w = [w[0][1:], w[1], str(int(w[2], 16)), str(int(w[3], 16))]
    elif word not in ('migrated', 'evicted'):
        # words such as p0, m0 or d0, then plain numbers
        w = [x[1:] if x[0] in 'pmd' else x for x in w]
    return ' '.join(['Kind.' + word.capitalize(), *w])


def script_term(text):
    version, frames, skip, devices, actors, schedule = 'One', '0', '0', [], [], []
    for line in text.splitlines():
        w = line.split()
        if w[0] == 'hmm':
            version = {'1': 'One', '2': 'Two'}[w[1]]
        elif w[0] == 'frames':
            frames = w[1]
        elif w[0] == 'device':
            devices.append(w[2])
        elif w[0] == 'skip':
            skip = w[1]
        elif w[0] == 'actor':
            actors.append([])
        elif w[0] == 'turns':
            schedule.append(f'ScheduleLine.Run {w[1]} {w[2]}')
        elif w[0] == 'drain':
            schedule.append('ScheduleLine.Drain')
        else:
            actors[-1].append(operation(line))
    of_actors = listed('(' + listed(ops) + ')' for ops in actors)
    return f'''record {{
  version = Version.{version};
  frames = {frames};
  devices = {listed(devices)};
  skip = {skip};
  actors = {of_actors};
  schedule = {listed(schedule)};
}}'''


def history_term(entries):
    if not entries:
        return ' []'
    return '\n    ' + listed((f'record {{ actor = {a}; kind = {kind(t)} }}' for a, t in entries)).replace(' ∷ record', ' ∷\n    record')


IMPORTS = {
    'Rattle.hm_base.specs.declared.ops.Rights': 'Rights', 'Rattle.hm_base.specs.declared.ops.Op': 'Op',
    'Rattle.hm_base.specs.declared.ops.ScheduleLine': 'ScheduleLine', 'Rattle.hm_base.specs.declared.Place': 'Place',
    'Rattle.hm_base.specs.declared.cause.Cause': 'Cause',
    'Rattle.hm_history.specs.declared.Who': 'Who', 'Rattle.hm_history.specs.declared.TableRight': 'TableRight',
    'Rattle.hm_history.specs.declared.KeptAt': 'KeptAt', 'Rattle.hm_history.specs.declared.KeptWhy': 'KeptWhy',
    'Rattle.hm_history.specs.declared.Kind': 'Kind',
}
PRELUDE = ['◌≡◌', 'Option', 'Some', 'None', 'true', 'false', 'List', '[]', '◌∷◌', '◌++◌', 'refl', 'take']


def imports(body, more):
    """The imports that the body uses, so that no file has an unused one."""
    def used(name):
        plain = name.strip('◌')
        return plain in body if not plain[0].isalpha() else re.search(rf'(?<![\w.]){re.escape(plain)}(?!\w)', body)
    names = [n for n in PRELUDE if used(n)]
    lines = ['use Rattle.std.specs.Prelude.{' + ', '.join(names) + '}',
             'use Rattle.hm_base.specs.Program.{Program}',
             'use Rattle.hm_base.specs.declared.ops.Version.{Version}']
    lines += [f'use {path}.{{{name}}}' for path, name in IMPORTS.items() if re.search(rf'(?<!\w){name}\.', body)]
    frames = [n for n in ('sys_frame', 'dev_frame') if used(n)]
    if frames:
        lines.append('use Rattle.hm_history.specs.Memory.Words.{' + ', '.join(frames) + '}')
    lines.append('use Rattle.hm_history.specs.declared.Entry.{Entry}')
    for path, names in more.items():
        wanted = [n for n in names if used(n)]
        if wanted:
            lines.append(f'use {path}.{{{", ".join(wanted)}}}')
    return '\n'.join(lines) + '\n'


KEEPS = 'record { answers = refl; places = refl; frames = refl; sequences = refl; untold = refl; guarded = refl }'
FITS = f'record {{ is_due = refl; rules = {KEEPS}; kept = refl }}'


def tried_entries():
    """The entries that are tried, by worked script."""
    tried = collections.defaultdict(list)
    for line in open(os.path.join(TOP, 'tools', 'tried_entries.tsv')).read().splitlines()[1:]:
        name, *rest = line.split('\t')
        tried[name].append(rest)
    return tried


def tried_terms(tried):
    """What each test answers for an entry after a part of the history, and perhaps some entries more."""
    out = ''
    for number, (count, further, actor, text, test, answer) in enumerate(tried, 1):
        more = [x.split(' ', 1) for x in further.split('; ') if x]
        history = f'take {count} history'
        if more:
            history += ' ++ (' + listed(f'record {{ actor = {a[1:]}; kind = {kind(t)} }}' for a, t in more) + ')'
        claim = TESTS[test].format(h=f'({history})', k=kind(text), a=actor)
        out += f'\n-- {text}, by actor {actor}\ntried_{number} : {claim} ≡ {answer}\ntried_{number} = refl\n'
    return out


def worked_file(name, tried):
    script = open(os.path.join(WORKED, name + '.hmm')).read()
    report = open(os.path.join(WORKED, name + '.report')).read()
    assert report.startswith(script + 'history\n'), name
    entries = []
    for line in report[len(script):].splitlines()[1:]:
        if line.startswith(('unfinished ', 'end ')):
            continue
        position, actor, text = line.split(' ', 2)
        assert int(position) == len(entries), (name, line)
        entries.append((actor[1:], text))
    legal = 'tt' if not entries else '\n    ' + ''.join(f'({FITS},\n    ' for _ in entries) + 'tt' + ')' * len(entries)
    unfolding = 'unfolding enough\n' if 'drain\n' in script else ''
    body = f'''
abbrev script : Program
script = {script_term(script)}

abbrev history : List Entry
history ={history_term(entries)}

runs : run script ≡ history
{unfolding}runs = refl

legal : Legal script history
legal = {legal}
{tried_terms(tried)}'''
    head = imports(body, {'Rattle.hm_history.specs.Kernel.Run': ['run', 'enough'], **DEFINITIONS})
    return f'-- The worked script {name}: its run, and that it is legal.\n' + head + body


FIRST_STORE = '0:wlock p0; mapped p0 16 1 rw; rlock p0; take s0; place p0 16 sys s0 w; runlock p0; stored p0 0x10000 41;'
ATTACHED = FIRST_STORE + 'attached m0 d0 p0 16 1 1;'
FORKED = FIRST_STORE + 'wlock p0; named p0 p1; start p0 WHOLE 2; place p0 16 sys s0 r; place p1 16 sys s0 r; end p0 WHOLE 2; forked p0 p1;'
FROZEN = ATTACHED + 'rlock p0; start p0 16 1 3; told m0 16 1 3; place p0 16 moving s0 w; end p0 16 1 4; take d0.0;'
# a name, what is wrong, the history, the entry that must not follow, the test that refuses it
WRONG = [
    ('ends_untold', 'a guard ends without telling', ATTACHED + 'wlock p0; start p0 16 1 3; place p0 16 none; drop s0', 'end p0 16 1 4', 'sequences'),
    ('zapped_untold', 'a place is taken away before the interval was told', ATTACHED + 'wlock p0; start p0 16 1 3', 'place p0 16 none', 'guarded'),
    ('zapped_unguarded', 'a place is taken away outside a guard', ATTACHED + 'wlock p0', 'place p0 16 none', 'guarded'),
    ('commits_unlooked', 'a table entry of a look-up that was told since it began', ATTACHED + 'begin m0 1; rlock p0; runlock p0 | 1: wlock p0; start p0 16 1 3; told m0 16 1 3; end p0 16 1 4; protected p0 16 1 rw | 0: set m0 16 s0 w 8', 'loaded m0 0x10000 41', 'untold'),
    ('ends_early', 'an end moves the sequence on while another is under way', ATTACHED + 'start p0 16 1 3; told m0 16 1 3 | 1: start p0 16 1 3; told m0 16 1 3', 'end p0 16 1 4', 'sequences'),
    ('told_out_of_order', 'a mirror is told whose interval does not overlap', ATTACHED + 'attached m1 d0 p0 20 1 1; wlock p0; start p0 16 1 3', 'told m1 16 1 3', 'sequences'),
    ('fork_leaves_right', 'a fork leaves the parent writable', FIRST_STORE + 'wlock p0; named p0 p1; start p0 WHOLE 2', 'place p1 16 sys s0 r', 'places'),
    ('reads_device_memory', 'the CPU reads device memory', '0: wlock p0; mapped p0 16 1 rw; attached m0 d0 p0 16 1 1; rlock p0; take d0.0; place p0 16 own d0.0 w; runlock p0', 'loaded p0 0x10000 00', 'places'),
    ('removed_with_a_frame', 'a device is removed while a frame is held', '0: wlock p0; mapped p0 16 1 rw; take d0.0; withdrawn d0', 'removed d0', 'places'),
    ('fails_with_a_frame_free', 'a failure for want of a frame while one is free', '0: wlock p0; mapped p0 16 1 rw; rlock p0', 'failed p0 0x10000 1 3', 'frames'),
    ('takes_another', 'a frame is taken that is not the lowest', '0: wlock p0; mapped p0 16 1 rw; rlock p0', 'take s1', 'places'),
    ('takes_withdrawn', 'a frame of a withdrawn device is taken', '0: withdrawn d0', 'take d0.0', 'places'),
    ('drops_named', 'a frame is dropped that a place names', FIRST_STORE, 'drop s0', 'places'),
    ('loads_another_byte', 'a load answers another byte', FIRST_STORE, 'loaded p0 0x10000 42', 'answers'),
    ('stores_read_only', 'a store to a read-only area', '0: wlock p0; mapped p0 16 1 r; rlock p0; take s0; place p0 16 sys s0 w; runlock p0', 'stored p0 0x10000 41', 'answers'),
    ('stores_shared', 'a store to a read-only place', FORKED, 'stored p0 0x10000 42', 'places'),
    ('finishes_writable', 'the finish gives a right that was not there', FORKED + 'attached m0 d0 p0 16 1 1; rlock p0; start p0 16 1 3; told m0 16 1 3; place p0 16 moving s0 r; end p0 16 1 4; start p1 16 1 2; place p1 16 moving s0 r; end p1 16 1 2; take d0.0; committed s0 d0.0', 'place p0 16 own d0.0 w', 'places'),
    ('skipped_unasked', 'a page is passed over that the rule does not name', FROZEN.replace('take d0.0;', ''), 'kept 16 skipped', 'kept'),
    ('kept_with_a_frame_free', 'a page is kept for want of a frame while one is free', FROZEN.replace('take d0.0;', ''), 'kept 16 noframe', 'kept'),
    ('maps_twice', 'a map over a page that has an area', FIRST_STORE + 'wlock p0', 'mapped p0 16 1 r', 'answers'),
    ('sets_unattached', 'a table entry of a mirror that was never attached', FIRST_STORE, 'set m7 16 s0 w 7', 'places'),
    ('loads_unattached', 'a load through the table of a mirror that was never attached', FIRST_STORE + 'set m7 16 s0 w 7', 'loaded m7 0x10000 41', 'places'),
    ('fails_unattached', 'a mirror that was never attached fails for want of a frame', FIRST_STORE, 'failed m7 0x10000 1 3', 'answers'),
    ('stores_unattached', 'a store through a mirror that was never attached writes the bytes of process 0', FIRST_STORE + 'stored m7 0x10000 42', 'loaded p0 0x10000 42', 'answers'),
]
TESTS = {
    'answers': 'plain_accepts (after {h}).plain ({k})',
    'places': 'places_accept script (mirror_owner (after {h}).plain) (after {h}).places {a} ({k})',
    'frames': 'fails_rightly script {h} (record {{ actor = {a}; kind = {k} }})',
    'sequences': 'sequences_accept (after {h}).sequences {a} ({k})', 'untold': 'uses_untold {h} ({k})',
    'guarded': 'narrows_guarded (after {h}).sequences (after {h}).places.place {a} ({k})',
    'kept': 'kept_rightly script (state_of script {h}) (record {{ actor = {a}; kind = {k} }})',
}
DEFINITIONS = {
    'Rattle.hm_history.specs.Memory.After': ['after'], 'Rattle.hm_history.specs.Memory.Plain': ['mirror_owner', 'plain_accepts'],
    'Rattle.hm_history.specs.Memory.Places': ['places_accept'], 'Rattle.hm_history.specs.Memory.Sequences': ['sequences_accept'],
    'Rattle.hm_history.specs.Memory.Lookups': ['uses_untold', 'narrows_guarded'],
    'Rattle.hm_history.specs.Memory.Rules': ['fails_rightly'], 'Rattle.hm_history.specs.Kernel.Legal': ['Legal', 'kept_rightly'],
    'Rattle.hm_history.specs.Kernel.Going': ['state_of'],
}
WRONG_SCRIPT = 'hmm 1\nframes 4\ndevice 0 4\nactor 0\nmap 0 16 1 rw\nstore 0 0x10000 41\nattach 0 0 0 16 1\ntodev 0 16 1\nturns 0 99\n'


def wrong_history(text):
    entries = []
    for part in text.split('|'):
        actor, kinds = part.split(':', 1)
        entries += [(actor.strip(), k.strip()) for k in kinds.replace('WHOLE', '0 68719476736').split(';') if k.strip()]
    return history_term(entries)


def wrong_file():
    body = f'\nabbrev script : Program\nscript = {script_term(WRONG_SCRIPT)}\n'
    for name, what, history, entry, test in WRONG:
        claim = TESTS[test].format(h='before_' + name, k=kind(entry), a=0)
        body += f'\n-- {what}\nabbrev before_{name} : List Entry\nbefore_{name} ={wrong_history(history)}\n\n{name} : {claim} ≡ false\n{name} = refl\n'
    head = imports(body, DEFINITIONS)
    return '-- Entries that must not follow a history, each refused by the test that is to refuse it.\n' + head + body


def main():
    words.begin(__doc__)
    if sys.argv[1:]:
        words.refuse('no word is wanted')
    for old in os.listdir(PROOFS):
        os.remove(os.path.join(PROOFS, old))
    names = sorted(f[:-4] for f in os.listdir(WORKED) if f.endswith('.hmm'))
    modules, tried = [], tried_entries()
    for name in names:
        module = ''.join(w.capitalize() for w in name.split('_'))
        modules.append(module)
        open(os.path.join(PROOFS, module + '.antt'), 'w').write(worked_file(name, tried[name]))
    open(os.path.join(PROOFS, 'Wrong.antt'), 'w').write(wrong_file())
    open(os.path.join(PROOFS, 'Lib.antt'), 'w').write(''.join(f'mod {m}\n' for m in [*modules, 'Wrong']))
    print(len(modules), 'worked scripts')


if __name__ == '__main__':
    main()
