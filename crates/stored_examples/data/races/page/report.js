// What the lines of a page say: the script, the rows, and what each row changes. Nothing here draws.
'use strict';

// ---- words, and the sentences of words.js

function expand(text, fields, word) {
  return text.replace(/\{([^{}]*)\}/g, (all, inner) => {
    const [name, ...of] = inner.split(' ');
    if (name === '') return word;
    if (name === '#') return word.slice(1);
    if (name === 'pages') return pagesText(fields[of[0]], fields[of[1]]);
    if (name === 'count') return String((fields[of[0]] || '').length / 2);
    if (!of.length) return fields[name] || '';
    return lookUp(WORDS.tables[name], fields[of[0]] || '', fields);
  });
}

function lookUp(table, word, fields) {
  const parity = Number(word) % 2 ? 'odd' : 'even';
  const key = [word, word[0], parity, '*'].find(k => k !== undefined && Object.hasOwn(table, k));
  return expand(table[key], fields, word);
}

const EVERY_PAGE = '68719476736';

function pagesText(first, count) {
  if (count === '1') return 'page ' + first;
  return count === EVERY_PAGE ? 'all pages' : 'pages ' + first + ' to ' + (+first + +count - 1);
}

const fieldsOf = (names, words) => Object.fromEntries(names.split(' ').map((name, i) => [name, words[i] || '']));

// what an entry says, as a sentence
function sentence(words) {
  const [, names, text] = WORDS.kinds[words[0]];
  return expand(text, fieldsOf(names, words.slice(1)), '');
}

const classOf = word => (WORDS.kinds[word] || ['step'])[0];
const letterOf = word => WORDS.letters[classOf(word)][0];

// ---- the state: what holds, as lines with keys that sort as they are shown

const wide = n => String(n).padStart(11, '0');
const frameKey = f => (f[0] === 's' ? '' : 'd' + wide(f.slice(1).split('.')[0])) + wide(f.replace(/^.*[sd.]/, ''));

const section = {
  process: p => 'A' + wide(p.slice(1)),
  mirror: m => 'B' + wide(m.slice(1)),
};
const FRAMES = 'C', LOCKS = 'D', DEVICES = 'E';

// the heading of the section that a key is in
function headingOf(key) {
  const kind = key[0];
  if (kind === 'A') return 'Process p' + Number(key.slice(1, 12));
  if (kind === 'B') return 'Mirror m' + Number(key.slice(1, 12));
  return kind === FRAMES ? 'Frames held' : kind === LOCKS ? 'mmap locks' : 'Devices';
}
const sectionOf = key => key.slice(0, key[0] === 'A' || key[0] === 'B' ? 12 : 1);

// the areas with this right in a span of pages, or, with none, without the span
function cut(areas, first, end, right) {
  const parts = ([a, b, old]) => [[a, Math.min(b, first), old], [Math.max(a, first), Math.min(b, end), right],
    [Math.max(a, end), b, old]];
  return areas.flatMap(parts).filter(([a, b, w]) => a < b && w);
}

// the bytes of a page that are not zero, as runs: 4142 at 0x10000
function bytesText(page, bytes) {
  const runs = [];
  for (const i of [...bytes.keys()].filter(k => bytes.get(k).digits !== '00').sort((x, y) => x - y)) {
    const run = runs[runs.length - 1], { digits } = bytes.get(i);
    if (run && run.end === i) { run.text += digits; run.end += 1; }
    else runs.push({ from: i, end: i + 1, text: digits });
  }
  return runs.map(r => r.text + ' at 0x' + (page * 4096 + r.from).toString(16)).join(', ');
}

// a map in a map of maps, which is made if it is not there
function mapIn(maps, key) {
  if (!maps.has(key)) maps.set(key, new Map());
  return maps.get(key);
}

// What holds, put together of the lines of changes alone.
class State {
  constructor() {
    this.there = new Set();
    this.areas = new Map();         // of each process: first page, page after the last, right
    this.places = new Map();        // of each process, by page
    this.bytes = new Map();         // of each process, by page: a map from offset to byte, and who wrote it
    this.tables = new Map();
    this.mirrors = new Map();
    this.seq = new Map();
    this.held = new Set();
    this.locker = new Map();
    this.guards = new Map();        // of each actor: the process of its invalidation
    this.lines = new Map();
    this.changed = [];
    this.row = 0;                   // whose changes these are
  }

  // a line of the state is this text from now on; none: it is gone
  put(key, text) {
    const old = this.lines.get(key);
    if (old === text) return;
    if (text === undefined) this.lines.delete(key); else this.lines.set(key, text);
    this.changed.push([key, old, text]);
  }

  // the changes since this was last asked, one for each line: key, old text, new text
  takeChanges() {
    const changed = this.changed;
    this.changed = [];
    if (changed.length < 2) return changed;
    const byKey = new Map();
    for (const [key, old, text] of changed) {
      if (byKey.has(key)) byKey.get(key)[2] = text; else byKey.set(key, [key, old, text]);
    }
    return [...byKey.values()].filter(x => x[1] !== x[2]);
  }

  // the lines of a process are shown while it is there, or has a page
  tellProcess(p) {
    const there = this.there.has(p), known = there || mapIn(this.places, p).size > 0;
    this.put(section.process(p) + '0', known ? 'sequence ' + this.seq.get(p) : undefined);
    this.put(section.process(p) + '1', known && !there ? 'is not there' : undefined);
  }

  tellAreas(p, areas) {
    const old = this.areas.get(p) || [], key = a => section.process(p) + '2' + wide(a[0]);
    this.areas.set(p, areas);
    const now = new Set(areas.map(key));
    for (const a of old) if (!now.has(key(a))) this.put(key(a));
    for (const a of areas) this.put(key(a), 'area ' + pagesText(String(a[0]), String(a[1] - a[0])) + ' ' + a[2]);
    for (const page of mapIn(this.bytes, p).keys()) this.tellBytes(p, page);
  }

  tellPlace(p, page, text) {
    if (text) mapIn(this.places, p).set(page, text); else mapIn(this.places, p).delete(page);
    this.put(section.process(p) + '3' + wide(page) + 'a', text && 'page ' + page + ' is ' + text);
    this.tellProcess(p);
  }

  // the bytes of a page are shown while it has an area
  tellBytes(p, page) {
    const bytes = mapIn(this.bytes, p).get(page), areas = this.areas.get(p) || [];
    const text = bytes && areas.some(([a, b]) => a <= page && page < b) && bytesText(page, bytes);
    this.put(section.process(p) + '3' + wide(page) + 'b', text ? 'page ' + page + ' reads ' + text : undefined);
  }

  // the rows that wrote the bytes which somebody reads there
  writers(who, at, n) {
    const p = who[0] === 'm' ? this.mirrors.get(who).process : who, rows = new Set();
    for (let i = 0; i < n; i++) {
      const byte = (mapIn(this.bytes, p).get(Math.floor((at + i) / 4096)) || new Map()).get((at + i) % 4096);
      if (byte) rows.add(byte.row);
    }
    return [...rows];
  }

  tellFrame(f) {
    const by = this.locker.get(f);
    this.put(FRAMES + frameKey(f), this.held.has(f) ? f + (by ? ' locked by ' + by : '') : undefined);
  }

  tellTable(m, page, text) {
    if (text) mapIn(this.tables, m).set(page, text); else mapIn(this.tables, m).delete(page);
    this.put(section.mirror(m) + '2' + wide(page), text && 'page ' + page + ' has ' + text);
  }

  erase(m, first, end) {
    for (const page of [...mapIn(this.tables, m).keys()]) if (page >= first && page < end) this.tellTable(m, page);
  }

  tellMirror(m, is) {
    const x = { ...this.mirrors.get(m), ...is }, gone = x.stage === 'gone';
    this.mirrors.set(m, x);
    this.put(section.mirror(m) + '0', gone ? undefined : x.device + ' of ' + x.process + ', window ' + x.window
      + (x.stage === 'detaching' ? ', detaching' : ''));
    this.put(section.mirror(m) + '1', gone ? undefined : 'interval at ' + x.interval);
  }
}

// what each line of a change says, by its first word
const CHANGES = {
  reads(s, [a, p]) { s.put(LOCKS + wide(a.slice(1)), a + ' reads ' + p); },
  writes(s, [a, p]) { s.put(LOCKS + wide(a.slice(1)), a + ' writes ' + p); },
  unlock(s, [a]) { s.put(LOCKS + wide(a.slice(1))); },
  held(s, [f]) { s.held.add(f); s.tellFrame(f); },
  free(s, [f]) { s.held.delete(f); s.tellFrame(f); },
  locked(s, [f, a]) { s.locker.set(f, a); s.tellFrame(f); },
  loose(s, [f]) { s.locker.delete(f); s.tellFrame(f); },
  there(s, [p]) { s.there.add(p); s.tellProcess(p); },
  left(s, [p]) { s.there.delete(p); s.tellProcess(p); },
  sequence(s, [p, n]) { s.seq.set(p, n); s.tellProcess(p); },
  area(s, [p, first, n, right]) {
    const areas = [...(s.areas.get(p) || []), [+first, +first + +n, right]];
    s.tellAreas(p, areas.sort((x, y) => x[0] - y[0]));
  },
  cut(s, [p, first, n]) { s.tellAreas(p, cut(s.areas.get(p) || [], +first, +first + +n)); },
  right(s, [p, first, n, right]) { s.tellAreas(p, cut(s.areas.get(p) || [], +first, +first + +n, right)); },
  bare(s, [p]) { s.tellAreas(p, []); },
  copy(s, [p, to]) {
    s.bytes.set(to, new Map(mapIn(s.bytes, p)));
    s.tellAreas(to, s.areas.get(p) || []);
  },
  bytes(s, [p, at, digits]) {
    for (let i = 0; 2 * i < digits.length; i++) {
      const page = Math.floor((+at + i) / 4096), old = mapIn(s.bytes, p).get(page);
      const bytes = i && (+at + i) % 4096 ? old : new Map(old);
      bytes.set((+at + i) % 4096, { digits: digits.substr(2 * i, 2), row: s.row });
      mapIn(s.bytes, p).set(page, bytes);
    }
    for (const page of mapIn(s.bytes, p).keys()) s.tellBytes(p, page);
  },
  zeros(s, [p, first, n]) {
    for (const page of [...mapIn(s.bytes, p).keys()]) {
      if (page < +first || page >= +first + +n) continue;
      mapIn(s.bytes, p).delete(page);
      s.tellBytes(p, page);
    }
  },
  place(s, [p, page, ...x]) { s.tellPlace(p, +page, x[0] === 'none' ? undefined : x.join(' ')); },
  guard(s, [a, p, first, n]) {
    s.guards.set(a, p);
    s.put(section.process(p) + '4' + wide(a.slice(1)), a + ' invalidates ' + pagesText(first, n));
  },
  unguard(s, [a]) {
    s.put(section.process(s.guards.get(a)) + '4' + wide(a.slice(1)));
    s.guards.delete(a);
  },
  attached(s, [m, device, process, first, n]) {
    s.tellMirror(m, { device, process, window: pagesText(first, n), stage: 'attached', interval: '0' });
  },
  stage(s, [m, stage]) { s.tellMirror(m, { stage }); },
  interval(s, [m, interval]) { s.tellMirror(m, { interval }); },
  set(s, [m, page, f, right]) { s.tellTable(m, +page, f + ' ' + right); },
  erase(s, [m, first, n]) { s.erase(m, +first, +first + +n); },
  clear(s, [m]) { s.erase(m, 0, Infinity); },
  withdrawn(s, [d]) { s.put(DEVICES + wide(d.slice(1)), d + ' withdrawn'); },
  removed(s, [d]) { s.put(DEVICES + wide(d.slice(1)), d + ' removed'); },
};

// ---- waits

// what an actor waits for, and whom; a word that tells no blocker is looked up in the state
function waitOf(word, s) {
  const [why, ...rest] = word.split('/'), [names, long, short] = WORDS.waits[why];
  const fields = fieldsOf(names, rest);
  let blockers = fields.b ? [fields.b] : [];
  if (why === 'moving') {
    const frame = ((s.places.get(fields.p) || new Map()).get(+fields.v) || '').split(' ')[1];
    if (s.locker.has(frame)) blockers = [s.locker.get(frame)];
  } else if (why === 'told') {
    const p = s.mirrors.get(fields.m).process;
    blockers = [...s.guards].filter(([, q]) => q === p).map(([a]) => a).sort((x, y) => x.slice(1) - y.slice(1));
  }
  const tellsBlocker = 'b' in fields;
  return { word, blockers, tellsBlocker, long: expand(long, fields, ''), short: expand(short, fields, '') };
}

function waitSentence(a, wait) {
  const blockers = wait.blockers.join(' and ') || 'nobody';
  return expand(WORDS.waiting, { a, blockers, what: wait.long }, '');
}
const waitShort = wait => '\u2016 ' + (wait.blockers.join(', ') || 'nobody') + ': ' + wait.short;

// ---- operations: which entry begins one, and which ends it

function piecesOf([word, , at, x]) {
  if (!/^d?(load|store)$/.test(word)) return 1;
  const n = /load/.test(word) ? +x : x.length / 2;
  return Number(at) % 4096 + n > 4096 ? 2 : 1;
}
const ENDS = new Set(('mapped unmapped protected forked exited attached detached migrated evicted removed excluded '
  + 'added refused').split(' '));
const ANSWERS = new Set(['loaded', 'stored', 'failed']);

class Actor {
  constructor() { this.ops = []; this.at = 0; this.pieces = 0; this.begun = false; }

  // the operation that an entry is of, whether it is its first entry
  take(words) {
    const op = this.ops[this.at] || { words: ['?'], line: -1 }, isFirst = !this.begun;
    this.begun = true;
    if (ANSWERS.has(words[0])) this.pieces += 1;
    const ends = ANSWERS.has(words[0]) ? this.pieces >= piecesOf(op.words)
      : ENDS.has(words[0]) || (words[0] === 'runlock' && op.words[0] === 'snap');
    if (ends) { this.at += 1; this.pieces = 0; this.begun = false; }
    return { op, isFirst };
  }
}

// ---- reading

const SCHEDULE = /^(turns|drain)$/, HEADS = /^(hmm|frames|device|skip)$/;

class Report {
  // of a page's lines; the set-up is the first lines of the schedule, as many as are given, or is found
  constructor(text, setUpLines) {
    this.script = [];
    this.schedule = [];         // the script's lines of turns: line, actor, count
    this.actors = [];
    this.findings = [];
    this.rows = [];
    this.open = [];             // operations that have not ended
    this.from = 0;
    this.count = 0;
    this.state = new State();
    this.begins = [];           // the changes before the first row
    this.made = new Map();      // of each line of the state, the rows that changed it
    this.told = new Map();      // of each mirror, the rows that told it
    this.looks = new Map();     // of each actor and mirror, the row at which its look-up began
    this.readLines(text.split('\n'));
    this.useSchedule();
    this.setUp = setUpLines === undefined ? this.findSetUp() : this.rowsOf(setUpLines);
    this.addFindings();
  }

  readLines(lines) {
    let part = 'script', stands = null;
    this.begun = [];            // whose operation is under way
    for (const text of lines) {
      if (part === 'script') {
        if (text === 'findings') part = 'findings'; else this.readScript(text);
      } else if (text[0] === '=') this.change(text.split(' '));
      else {
        this.endRow();
        if (text[0] === ':') stands = text.slice(2).split(' ').filter(x => x);
        else if (part === 'rows' && text[0] >= '0' && text[0] <= '9') {
          this.beginRow(text.split(' '), stands);
          stands = null;
        } else this.readOther(text.split(' '), part);
      }
      if (part === 'findings' && text.startsWith('rows ')) part = 'rows';
    }
    this.last = stands && this.standsOf(stands);
  }

  change([, word, ...words]) { CHANGES[word](this.state, words); }

  // the changes since the last row began are its own
  endRow() {
    const row = this.rows[this.rows.length - 1], changes = this.state.takeChanges();
    if (!row) this.begins.push(...changes);
    if (!row || row.changes) return;
    row.changes = changes;
    for (const [key] of changes) {
      if (!this.made.has(key)) this.made.set(key, []);
      this.made.get(key).push(row.at);
    }
  }

  // the last row, up to this one, that made a line of the state what it is; none: it was so before the first row
  madeBy(key, at) { return (this.made.get(key) || []).filter(x => x <= at).pop(); }

  // the rows that a row goes back to: a load to the stores of its bytes, a retry to what told its mirror
  causesOf({ actor, words: [word, m, at, digits] }, row) {
    if (word === 'begin') this.looks.set(actor + m, row);
    if (word === 'told' || word === 'detaching') this.told.set(m, [...(this.told.get(m) || []), row]);
    if (word === 'retry') return (this.told.get(m) || []).filter(x => x > this.looks.get(actor + m)).slice(0, 1);
    if (word === 'loaded' || word === 'fetched') return this.state.writers(m, +at, digits.length / 2);
    return [];
  }

  readScript(text) {
    const words = text.split(' '), line = this.script.length;
    if (text === '') return;
    this.script.push(text);
    if (words[0] === 'actor') this.actors.push(new Actor());
    else if (SCHEDULE.test(words[0])) this.schedule.push({ line, actor: 'a' + words[1], count: +words[2] });
    else if (!HEADS.test(words[0])) this.actors[this.actors.length - 1].ops.push({ words, line });
  }

  readOther(words, part) {
    if (words[0] === 'rows') this.from = +words[1];
    else if (words[0] === 'unfinished') this.open.push([words[1], +words[2]]);
    else if (words[0] === 'end') this.count = +words[1];
    else if (part === 'findings' && words.length > 2) {
      this.findings.push({ at: +words[0], kind: words[2], text: words.slice(1).join(' '), count: +words[3] });
    }
  }

  // how the actors stand: `+`, `-`, or a wait, which is the same object as long as it lasts
  standsOf(words) {
    const before = this.standing || [];
    this.standing = words.map((word, a) => {
      if (word === '+' || word === '-') return word;
      const old = before[a];
      if (old && old.word === word && old.tellsBlocker) return old;
      const wait = waitOf(word, this.state);
      if (old && old.word === word && old.blockers.join() === wait.blockers.join()) return old;
      wait.since = old && old.word === word ? old.since : this.rows.length;
      return wait;
    });
    return this.standing;
  }

  beginRow(words, stands) {
    const row = { at: +words[0], actor: words[1], words: words.slice(2), stands: stands && this.standsOf(stands) };
    this.rows.push(row);
    const a = +row.actor.slice(1), { op, isFirst } = this.actors[a].take(row.words);
    row.op = op;
    row.isFirst = isFirst;
    if (!this.begun[a]) this.begun = Object.assign(this.begun.slice(), { [a]: true });
    row.begun = this.begun;
    row.begunAfter = this.actors[a].begun;
    if (!row.begunAfter) this.begun = Object.assign(this.begun.slice(), { [a]: false });
    row.isLoss = row.words[0] === 'place' && this.isLoss(row);
    row.causes = this.causesOf(row, row.at);
    this.state.row = row.at;
  }

  // whether a page that another actor had alone gets another place
  isLoss({ actor, words: [, p, page] }) {
    const was = mapIn(this.state.places, p).get(+page) || '';
    return was.startsWith('excl ') && was.split(' ')[2] !== actor;
  }

  // which line of the schedule each row is a turn of. A line ends early if its actor waits or is done, and then the
  // next entry is somebody else's. Rows that no line accounts for have none.
  useSchedule() {
    let i = 0, used = 0;
    for (const row of this.rows) {
      while (i < this.schedule.length && !this.isTurn(this.schedule[i], used, row)) { i += 1; used = 0; }
      if (i === this.schedule.length) return;
      used += 1;
      row.turn = this.schedule[i];
      row.used = used;
    }
  }

  isTurn(line, used, row) {
    return !line.count || (line.actor === row.actor && used < line.count);
  }

  // the rows that are findings besides the lines: a wait begins, an exclusive page is lost
  addFindings() {
    this.waits = [];            // the rows at which a wait begins
    for (const row of this.rows) {
      if (row.isLoss) this.findings.push({ at: row.at, kind: 'lost', text: row.actor + ' ' + row.words.join(' ') });
      (row.stands || []).forEach((wait, a) => {
        if (wait.since !== row.at || row.at < this.setUp) return;
        this.waits.push(row.at);
        this.findings.push({ at: row.at, kind: 'wait', text: waitSentence('a' + a, wait) });
      });
    }
  }

  // the script with a schedule that makes the rows up to this one, and no more
  scriptUpTo(at) {
    const isTurn = new Set(this.schedule.map(x => x.line)), runs = [];
    for (const row of this.rows.slice(0, at + 1)) {
      const run = runs[runs.length - 1];
      if (run && run.actor === row.actor) run.count += 1; else runs.push({ actor: row.actor, count: 1 });
    }
    return [...this.script.filter((x, i) => !isTurn.has(i)),
      ...runs.map(run => 'turns ' + run.actor.slice(1) + ' ' + run.count), ''].join('\n');
  }

  // how many rows the first lines of the schedule have
  rowsOf(lines) {
    const at = this.rows.findIndex(row => !row.turn || this.schedule.indexOf(row.turn) >= lines);
    return at < 0 ? this.rows.length : at;
  }

  // how many rows come before the race: whole operations of one actor, before another has a row
  findSetUp() {
    let end = this.rows.findIndex(row => row.actor !== this.rows[0].actor);
    if (end < 0) return 0;
    while (end > 0 && !this.rows[end].isFirst) end -= 1;
    const under = this.rows[end].actor !== this.rows[0].actor && this.rows[end - 1].begunAfter;
    while (under && !this.rows[--end].isFirst);
    return end;
  }

  // how many rows from there on are parts of one copy
  copies(at) {
    const [word, from, to, part] = this.rows[at].words;
    if (word !== 'copied' || part === 'all') return 1;
    let n = 1;
    for (; at + n < this.rows.length; n++) {
      const row = this.rows[at + n], [w, f, t, k] = row.words;
      if (w !== word || f !== from || t !== to || +k !== +part + n || row.actor !== this.rows[at].actor) break;
    }
    return n;
  }

  // whether a row is about all these words: its own, its actor, or a page in its span
  mentions(row, words) {
    return words.every(word => word === row.actor || row.words.includes(word)
      || (/^\d+$/.test(word) && spans(row, +word)));
  }
}

const SPANS = { start: 2, told: 2, end: 2, mapped: 2, unmapped: 2, protected: 2, attached: 4 };

function spans(row, page) {
  const i = SPANS[row.words[0]];
  return i !== undefined && page >= +row.words[i] && page < +row.words[i] + +row.words[i + 1];
}

// The lines that hold after a row. Going to a row applies the changes between, forwards or backwards.
class Walk {
  constructor(report) {
    this.report = report;
    this.lines = new Map();
    this.next = 0;              // how many rows are applied
    for (const [key, , text] of report.begins) this.lines.set(key, text);
  }

  set(key, text, touched) {
    if (text === undefined) this.lines.delete(key); else this.lines.set(key, text);
    touched.add(key);
  }

  // goes to what holds after the row, and tells the keys of the lines that may be others
  goTo(at) {
    const touched = new Set(), rows = this.report.rows;
    for (; this.next <= at; this.next++) {
      for (const [key, , text] of rows[this.next].changes) this.set(key, text, touched);
    }
    for (; this.next > at + 1; this.next--) {
      for (const [key, old] of rows[this.next - 1].changes) this.set(key, old, touched);
    }
    return touched;
  }
}
