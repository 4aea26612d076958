// Puts a report on the screen: its rows as lanes, and beside them what the chosen row does and what holds after it.
'use strict';

const byId = id => document.getElementById(id);
const make = (name, cls, text) => {
  const e = document.createElement(name);
  if (cls) e.className = cls;
  if (text !== undefined) e.textContent = text;
  return e;
};
const plural = (n, one, many) => n + ' ' + (n === 1 ? one : many || one + 's');
const HIGH = 22, ALL = 2000, SMALL = 60;

// what is on the screen
let report, walk, chosen, items, itemAt, drawn, sections, marked;
const how = { folded: true, unfolded: new Set(), words: [], printing: false, off: new Set(), tab: 'state',
  narrow: null, compact: false };

const entryText = row => row.actor + ' ' + row.words.join(' ');
const opText = op => op.words.join(' ');

// ---- items: a row, or rows that are folded into one. A folded item stands for its last row.

function foldAt(at) {
  if (how.words.length || !how.folded || how.printing) return 1;
  if (at === 0 && report.from === 0 && report.setUp > 3) return report.setUp;
  return report.copies(at);
}

function layOut() {
  const n = report.rows.length;
  items = [];
  itemAt = new Int32Array(n).fill(-1);
  for (let at = report.from; at < n;) {
    const count = foldAt(at), isOpen = how.unfolded.has(at), fold = count > 1 ? at : -1;
    for (let i = at; i < at + count; i = items[items.length - 1].hi + 1) {
      if (how.words.length && !report.mentions(report.rows[i], how.words)) break;
      const hi = isOpen ? i : at + count - 1;
      itemAt.fill(items.length, i, hi + 1);
      items.push({ lo: i, hi, fold });
    }
    at += count;
  }
  for (const e of (drawn || new Map()).values()) e.remove();
  drawn = new Map();
  tellMatches();
  byId('field').style.height = (items.length + 1) * HIGH + 'px';
  drawEnd();
}

// the item of a row, or the next after it
function itemNear(at) {
  let lo = 0, hi = items.length;
  while (lo < hi) {
    const mid = (lo + hi) >> 1;
    if (items[mid].hi < at) lo = mid + 1; else hi = mid;
  }
  return Math.min(lo, items.length - 1);
}

// lays out again and keeps the chosen row where it is seen
function again() {
  layOut();
  drawMarks();
  if (items.length) choose(items[itemNear(chosen)].hi, true); else draw();
}

// ---- rows

const isWait = x => typeof x === 'object' && x !== null;

// how an actor stands: its wait in words where it begins, and else a mark
function standingInto(cell, stand, isFirstShown) {
  if (stand === '+') cell.append(make('span', 'goes', '\u00b7'));
  if (!isWait(stand)) return;
  cell.classList.add('waiting');
  if (isFirstShown && !how.compact) cell.append(make('span', 'waits', waitShort(stand)));
  else if (isFirstShown) cell.append(make('span', 'waits', '\u2016'));
}

const beginsAt = (row, wait) => isWait(wait) && (wait.since === row.at || row.at === report.from);

function entryInto(cell, item) {
  const row = report.rows[item.lo], cls = classOf(row.words[0]), parts = item.hi - item.lo + 1;
  const text = row.words.join(' ') + (parts > 1 ? ' to ' + report.rows[item.hi].words[3] : '');
  if (item.fold === item.lo) cell.append(foldButton(item));
  cell.append(make('span', 'entry ' + cls, (how.compact ? row.actor : WORDS.letters[cls][0]) + ' ' + text));
  if (row.isFirst) cell.append(make('span', 'op', opText(row.op)));
}

function lanesOf(item) {
  const row = report.rows[item.lo];
  return report.actors.map((x, a) => {
    const lane = make('span', row.begun[a] ? 'bar' : ''), stand = row.stands && row.stands[a];
    if (row.actor !== 'a' + a) standingInto(lane, stand, beginsAt(row, stand));
    else if (how.compact) lane.append(make('span', 'entry ' + classOf(row.words[0]), letterOf(row.words[0])));
    else entryInto(lane, item);
    lane.title = isWait(stand) ? waitSentence('a' + a, stand) : lane.textContent;
    return lane;
  });
}

// waits in words, those for the same together; which actors these are, the lanes show too
function waitsText(waits) {
  const actorsOf = new Map();
  waits.forEach((wait, a) => {
    if (isWait(wait)) actorsOf.set(waitShort(wait), [...(actorsOf.get(waitShort(wait)) || []), 'a' + a]);
  });
  const who = actors => (actors.length < 3 ? actors.join(' ') : actors.length + ' actors');
  return [...actorsOf].map(([said, actors]) => '  ' + who(actors) + ' ' + said).join('');
}

function textOf(item) {
  const row = report.rows[item.lo], text = make('span', 'text');
  entryInto(text, item);
  text.append(make('span', 'waits', waitsText((row.stands || []).map(wait => beginsAt(row, wait) && wait))));
  text.title = text.textContent;
  return text;
}

// what a fold of the set-up says
function setUpText(item) {
  const rows = report.rows.slice(item.lo, item.hi + 1), ops = rows.filter(x => x.isFirst).map(x => x.op.words[0]);
  return rows[0].actor + ' alone: ' + rows.length + ' rows, ' + ops.join(', ');
}

function drawItem(i) {
  const item = items[i], e = make('div', 'row' + (items[i].hi === chosen ? ' on' : '')), row = report.rows[item.lo];
  const link = make('a', 'at', item.hi + ' ');
  e.id = 'r' + item.hi;
  e.setAttribute('role', 'option');
  e.setAttribute('aria-selected', String(item.hi === chosen));
  e.style.top = i * HIGH + 'px';
  link.href = '#' + item.hi;
  link.tabIndex = -1;
  e.append(link);
  if (item.hi > item.lo && row.words[0] !== 'copied') {
    const whole = e.appendChild(make('span', 'whole'));
    whole.append(foldButton(item), setUpText(item));
  } else e.append(...lanesOf(item), ...(how.compact ? [textOf(item)] : []));
  e.addEventListener('click', () => { if (!String(getSelection())) choose(item.hi); });
  return e;
}

function foldButton(item) {
  const button = make('button', 'fold', item.hi > item.lo ? '\u25b8' : '\u25be');
  button.tabIndex = -1;
  button.setAttribute('aria-label', item.hi > item.lo ? 'unfold' : 'fold');
  button.addEventListener('click', event => { event.stopPropagation(); toggleFold(item.lo); });
  return button;
}

function toggleFold(at) {
  if (how.unfolded.has(at)) how.unfolded.delete(at); else how.unfolded.add(at);
  again();
}

// how all stand after the last row
function drawEnd() {
  const e = make('div', 'row'), isAll = report.rows.length === report.count;
  e.style.top = items.length * HIGH + 'px';
  e.append(make('span', 'at', isAll ? 'end ' : '... '), ...report.actors.map((x, a) => {
    const lane = make('span', x.begun ? 'bar' : '');
    standingInto(lane, report.last && report.last[a], true);
    lane.title = lane.textContent;
    return lane;
  }));
  if (how.compact) e.append(make('span', 'text waits', waitsText(report.last || [])));
  drawn.set(-1, e);
  byId('field').append(e);
}

function draw() {
  const box = byId('rows'), n = items.length;
  let lo = 0, hi = n;
  if (n > ALL) {
    lo = Math.max(0, Math.floor(box.scrollTop / HIGH) - 20);
    hi = Math.min(n, Math.ceil((box.scrollTop + box.clientHeight) / HIGH) + 20);
  }
  for (const [i, e] of drawn) if (i >= 0 && (i < lo || i >= hi)) { e.remove(); drawn.delete(i); }
  const some = document.createDocumentFragment();
  for (let i = lo; i < hi; i++) if (!drawn.has(i)) {
    const e = drawItem(i);
    drawn.set(i, e);
    some.append(e);
  }
  byId('field').append(some);
}

// lanes in words, or one column a lane and the words after them, where lanes would be too narrow
function chooseLayout() {
  const probe = byId('lanes').appendChild(make('span', '', '0'.repeat(100)));
  probe.style.position = 'absolute';
  const ch = probe.getBoundingClientRect().width / 100 || 7.5;
  probe.remove();
  const room = byId('rows').clientWidth / ch, n = report.actors.length;
  how.compact = how.narrow === null ? (room - 8) / n < 25 : how.narrow;
  const lane = Math.max(1.5, Math.min(2.8, (room - String(report.rows.length).length - 24) / n));
  document.documentElement.style.setProperty('--lane', lane + 'ch');
  byId('rows').classList.toggle('compact', how.compact);
  byId('layout').setAttribute('aria-pressed', String(how.compact));
  const name = a => (how.compact ? a % (lane < 2.4 ? 10 : 100) : 'a' + a);
  byId('lanes').replaceChildren(make('span', 'at', ''), ...report.actors.map((x, a) => make('span', '', name(a))));
  if (how.compact) byId('lanes').append(make('span', 'text', ''));
}

// ---- the pane

// the changes of some rows, one for each line of the state
function changesOf(lo, hi) {
  if (lo === hi) return report.rows[hi].changes;
  const byKey = new Map();
  for (const row of report.rows.slice(lo, hi + 1)) for (const [key, old, text] of row.changes) {
    if (byKey.has(key)) byKey.get(key)[2] = text; else byKey.set(key, [key, old, text]);
  }
  return [...byKey.values()].filter(x => x[1] !== x[2]);
}

function changedList(changes) {
  const ul = make('ul');
  let heading = '';
  for (const [key, old, text] of changes.slice().sort((x, y) => (x[0] < y[0] ? -1 : 1))) {
    if (headingOf(key) !== heading) ul.append(make('li', 'goes', heading = headingOf(key)));
    for (const [tag, said] of [['del', old], ['ins', text]]) if (said !== undefined) {
      ul.appendChild(make('li')).append(make(tag, '', said));
    }
  }
  return ul;
}

// the sentence of an item; of a copy it is about all its parts
function itemSentence(item) {
  const row = report.rows[item.lo], [word, f, g, k] = row.words, last = report.rows[item.hi].words;
  const isCopy = word === 'copied' && item.hi > item.lo;
  return isCopy ? expand(WORDS.folded, { f, g, k, last: last[3] }, '') : sentence(last);
}

// a word and links to rows; nothing if there are none
function linksTo(word, rows) {
  if (!rows.length) return [];
  const p = make('p', 'goes', word + ' '), links = rows.sort((x, y) => x - y).map(at => {
    const link = make('a', '', 'row ' + at);
    if (at >= report.from) link.href = '#' + at;
    return [link, ' '];
  });
  p.append(...links.flat());
  return [p];
}

const CAUSES = { retry: 'told at', loaded: 'written at', fetched: 'written at' };

function showNow(item, changes) {
  const row = report.rows[item.hi], box = byId('now'), says = itemSentence(item);
  const title = item.lo === item.hi ? 'Row ' + item.hi : 'Rows ' + item.lo + ' to ' + item.hi;
  box.replaceChildren(make('h2', '', title), make('p', 'mono ' + classOf(row.words[0]), entryText(row)),
    make('p', '', says + '.'), ...linksTo(CAUSES[row.words[0]], row.causes),
    make('p', 'goes', 'of ' + row.actor + ': ' + opText(row.op)));
  const waits = (row.stands || []).map((wait, a) => isWait(wait) && waitSentence('a' + a, wait)
    + (wait.since < row.at ? ', since row ' + wait.since : '')).filter(x => x);
  if (changes.length) box.append(changedList(changes));
  for (const said of waits) box.append(make('p', 'waits', said));
  byId('said').textContent = 'row ' + item.hi + ': ' + entryText(row) + '. ' + [says, ...waits].join('. ');
}

// a section of the state, with its lines in the order of their keys
function sectionFor(key) {
  const name = sectionOf(key);
  if (sections.has(name)) return sections.get(name);
  const s = { name, box: make('details'), list: make('ul'), keys: [], lines: new Map(), wanted: null };
  const summary = make('summary', '', headingOf(key)), later = [...sections.keys()].filter(x => x > name).sort()[0];
  summary.addEventListener('click', () => { s.wanted = !s.box.open; });
  s.box.append(summary, s.list);
  s.box.hidden = true;
  sections.set(name, s);
  byId('state').insertBefore(s.box, later ? sections.get(later).box : null);
  return s;
}

function placeOf(keys, key) {
  let lo = 0, hi = keys.length;
  while (lo < hi) {
    const mid = (lo + hi) >> 1;
    if (keys[mid] < key) lo = mid + 1; else hi = mid;
  }
  return lo;
}

function putLine(key) {
  const s = sectionFor(key), text = walk.lines.get(key), at = placeOf(s.keys, key), old = s.lines.get(key);
  if (text === undefined) {
    if (!old) return;
    old.remove();
    s.lines.delete(key);
    s.keys.splice(at, 1);
    s.box.hidden = !s.keys.length;
  } else if (old) old.textContent = text;
  else {
    const li = make('li', '', text);
    li.dataset.key = key;
    s.list.insertBefore(li, s.keys[at] === undefined ? null : s.lines.get(s.keys[at]));
    s.lines.set(key, li);
    s.keys.splice(at, 0, key);
    s.box.hidden = false;
  }
}

// the row that made a line of the state, from an event on the line
function makerOf(e) {
  const li = e.target.closest('li');
  return li ? report.madeBy(li.dataset.key, chosen) : undefined;
}

function tellMaker(e) {
  const li = e.target.closest('li'), at = makerOf(e);
  if (li) li.title = at === undefined ? 'so before the first row' : 'so since row ' + at + ': click to go there';
}

function goToMaker(e) {
  const at = makerOf(e);
  if (at !== undefined && !String(getSelection())) choose(at);
}

function showState(changes) {
  for (const key of walk.goTo(chosen)) putLine(key);
  for (const li of marked) li.replaceChildren(li.textContent);
  marked = [];
  const touched = new Set();
  for (const [key] of changes) {
    const s = sectionFor(key), li = s.lines.get(key);
    touched.add(s);
    if (!li) continue;
    li.replaceChildren(make('ins', '', li.textContent));
    marked.push(li);
  }
  const isSmall = walk.lines.size <= SMALL;
  for (const s of sections.values()) {
    const open = s.wanted !== null ? s.wanted : isSmall || (touched.has(s) && s.keys.length <= SMALL);
    if (s.box.open !== open) s.box.open = open;
  }
}

// the script's lines about some of them, if it is long
function showScript() {
  if (how.tab !== 'script') return;
  const row = report.rows[chosen], n = report.script.length, box = byId('script'), wanted = new Set();
  const used = row.turn ? row.turn.line : -1;
  if (n <= 400) for (let i = 0; i < n; i++) wanted.add(i);
  else for (const at of [3, row.op.line, used]) {
    if (at >= 0) for (let i = Math.max(0, at - 8); i < Math.min(n, at + 9); i++) wanted.add(i);
  }
  let before = -1, shown = null;
  box.replaceChildren();
  for (const i of [...wanted].sort((x, y) => x - y)) {
    if (i > before + 1) box.append(make('div', 'gap', '..'));
    const count = i === used && row.turn.count ? '   turn ' + row.used + ' of ' + row.turn.count : '';
    const cls = i === used ? 'used' : i === row.op.line ? 'op' : '';
    const e = box.appendChild(make('div', cls, report.script[i] + count));
    if (cls === 'op' || (cls === 'used' && !shown)) shown = e;
    before = i;
  }
  if (shown) shown.scrollIntoView({ block: 'nearest' });
}

// the script with a schedule that ends at the chosen row, for the clipboard
async function copyScript() {
  const text = report.scriptUpTo(chosen), button = byId('copy');
  try {
    await navigator.clipboard.writeText(text);
  } catch {
    const area = document.body.appendChild(Object.assign(make('textarea', 'away'), { value: text }));
    area.select();
    document.execCommand('copy');
    area.remove();
  }
  button.textContent = 'copied';
  setTimeout(() => { button.textContent = 'copy script up to here'; }, 1500);
}

function showTab(name) {
  how.tab = name;
  for (const tab of ['state', 'script']) {
    byId(tab).hidden = tab !== name;
    byId('tab-' + tab).setAttribute('aria-selected', String(tab === name));
  }
  showScript();
}

// ---- choosing

let hashTimer = 0;

// a row that is one of those shown is the chosen one from now on
function choose(at, isQuiet) {
  if (!(at >= report.from && at < report.rows.length)) return;
  if (itemAt[at] < 0) {
    how.words = [];
    byId('filter').value = '';
    layOut();
    drawMarks();
  }
  if (items[itemAt[at]].hi !== at) {
    how.unfolded.add(items[itemAt[at]].fold);
    layOut();
  }
  mark(chosen, false);
  chosen = at;
  const i = itemAt[at], changes = changesOf(items[i].lo, at);
  centre(i);
  draw();
  mark(at, true);
  inView(drawn.get(i), at);
  tellPosition(isQuiet);
  showNow(items[i], changes);
  showState(changes);
  showScript();
}

function mark(at, isOn) {
  const e = at >= 0 && at < itemAt.length && drawn.get(itemAt[at]);
  if (!e) return;
  e.classList.toggle('on', isOn);
  e.setAttribute('aria-selected', String(isOn));
  if (isOn) byId('rows').setAttribute('aria-activedescendant', e.id);
}

// scrolls as little as keeps the item between three and seven tenths of the box
function centre(i) {
  const box = byId('rows'), view = box.clientHeight, top = (i + 1) * HIGH;
  const low = top - 0.7 * view, high = top - 0.3 * view, far = Math.abs(top - view / 2 - box.scrollTop) > view;
  if (far) box.scrollTop = top - view / 2;
  else if (box.scrollTop < low) box.scrollTop = low;
  else if (box.scrollTop > high) box.scrollTop = high;
}

// sideways the lane's first words are in view
function inView(e, at) {
  const box = byId('rows'), lane = e && !how.compact && e.children[+report.rows[at].actor.slice(1) + 1];
  if (!lane || box.scrollWidth <= box.clientWidth) return;
  const left = lane.offsetLeft - e.children[0].offsetWidth;
  const right = lane.offsetLeft + lane.offsetWidth - box.clientWidth;
  if (left < box.scrollLeft || right > box.scrollLeft) box.scrollLeft = left;
}

// the place of the chosen row among those that the filter shows
function tellMatches() {
  const n = items.length, at = itemAt && chosen >= 0 ? itemAt[chosen] : -1;
  byId('matches').textContent = !how.words.length ? ''
    : at >= 0 ? at + 1 + ' of ' + n : plural(n, 'match', 'matches');
}

// what stands in the address: the chosen row, and the filter
const address = () => '#' + chosen + (how.words.length ? '/' + encodeURIComponent(how.words.join(' ')) : '');

function tellPosition(isQuiet) {
  byId('slider').value = chosen;
  byId('chosen').textContent = 'row ' + chosen + ' (' + report.from + ' to ' + (report.rows.length - 1) + ')';
  clearTimeout(hashTimer);
  if (!isQuiet) hashTimer = setTimeout(() => history.replaceState(null, '', address()), 200);
  tellMatches();
}

const step = by => {
  const i = itemAt[chosen] + by;
  if (i >= 0 && i < items.length) choose(items[i].hi);
};

function jump(by) {
  if (items.length) choose(items[Math.max(0, Math.min(items.length - 1, itemAt[chosen] + by))].hi);
}

// the nearest of these positions, which rise, before or after the chosen row
function goTo(positions, isForward) {
  const shown = positions.filter(at => at >= report.from && at < report.rows.length);
  const next = isForward ? shown.find(at => at > chosen) : shown.filter(at => at < chosen).pop();
  if (next !== undefined) choose(next);
}

function goToHash() {
  const [at, ...words] = location.hash.slice(1).split('/');
  if (words.length) {
    byId('filter').value = decodeURIComponent(words.join('/'));
    filter();
  }
  if (!/^\d+$/.test(at)) return false;
  if (+at >= report.from && +at < report.rows.length) choose(+at);
  else byId('chosen').textContent = 'there is no row ' + at + ' here';
  return +at === chosen;
}

// ---- the head

const KINDS = {
  failed: xs => xs.length + ' failed',
  refused: xs => xs.length + ' refused',
  retry: xs => plural(xs.length, 'retry', 'retries'),
  lost: xs => plural(xs.length, 'exclusive page') + ' lost',
  wait: xs => plural(xs.length, 'wait'),
  kept: xs => xs.length + ' kept',
  migrated: xs => plural(xs.length, 'migration') + ', ' + plural(xs.reduce((n, x) => n + x.count, 0), 'page'),
  evicted: xs => plural(xs.length, 'eviction') + ', ' + plural(xs.reduce((n, x) => n + x.count, 0), 'frame'),
};
const findingsOn = () => report.findings.filter(x => !how.off.has(x.kind)).map(x => x.at).sort((x, y) => x - y);

function findingLine(x) {
  const li = make('li'), link = make('a', '', x.at + ' ' + x.text);
  if (x.at >= report.from && x.at < report.rows.length) link.href = '#' + x.at;
  li.append(link);
  return li;
}

function findingGroup(kind, xs, isOpen) {
  const box = make('details'), summary = make('summary'), label = make('label'), list = make('ul');
  const tick = Object.assign(make('input'), { type: 'checkbox', checked: true, title: 'n and p stop here' });
  const fill = () => {
    if (list.children.length) return;
    list.append(...xs.slice(0, 300).map(findingLine));
    if (xs.length > 300) list.append(make('li', 'goes', 'and ' + (xs.length - 300) + ' more: n goes to each'));
  };
  tick.addEventListener('change', () => {
    if (tick.checked) how.off.delete(kind); else how.off.add(kind);
    drawMarks();
  });
  label.append(tick);
  summary.append(label, ' ' + KINDS[kind](xs));
  box.append(summary, list);
  box.addEventListener('toggle', fill);
  if (isOpen) { fill(); box.open = true; }
  return box;
}

function openGroup(isOpen) {
  const box = make('details'), list = make('ul');
  for (const [a, i] of report.open) {
    const op = report.actors[a.slice(1)].ops[i], wait = report.last && report.last[a.slice(1)];
    list.append(make('li', '', a + ' ' + i + ' (' + (op ? opText(op) : '') + ')'
      + (isWait(wait) ? ': ' + waitSentence(a, wait) : '')));
  }
  box.append(make('summary', 'waits', plural(report.open.length, 'operation') + ' not ended'), list);
  box.open = isOpen;
  return box;
}

function tellHead() {
  const n = report.rows.length, isPart = report.from > 0 || n < report.count;
  const entries = plural(report.count, 'entry', 'entries'), actors = plural(report.actors.length, 'actor');
  const isRoomy = innerWidth > 700 && innerHeight > 600, isFew = report.findings.length <= 8 && isRoomy;
  const file = decodeURIComponent(location.pathname.split('/').pop());
  document.title = (file ? file + ': ' : '') + entries + ', ' + actors + ' - hmmview';
  byId('counts').textContent = entries + (isPart ? ', rows ' + report.from + ' to ' + (n - 1) : '') + '; ' + actors
    + (report.findings.length ? '' : '; no findings');
  const groups = Object.keys(KINDS).map(kind => [kind, report.findings.filter(x => x.kind === kind)]);
  byId('findings').replaceChildren(...(report.open.length ? [openGroup(isFew)] : []),
    ...groups.filter(x => x[1].length).map(([kind, xs]) => findingGroup(kind, xs, isFew)));
  const said = Object.entries(WORDS.letters).map(([cls, [letter, name]]) => make('span', cls, letter + ' ' + name));
  said.push(make('span', 'waits', '\u2016 waits'), make('span', 'goes', '\u00b7 could go on'),
    make('span', '', 'empty: done'));
  byId('legend').replaceChildren(...said.flatMap(e => [e, ' \u00a0 ']));
  byId('help').open = isRoomy;
}

// under the slider: the rows that are shown by the filter, or else the findings
function drawMarks() {
  const canvas = byId('marks'), wide = canvas.clientWidth, n = Math.max(1, report.rows.length - report.from);
  if (!wide) return;
  canvas.width = wide;
  canvas.height = 7;
  const pen = canvas.getContext('2d');
  pen.fillStyle = getComputedStyle(document.documentElement).getPropertyValue('--wait');
  const at = how.words.length ? items.map(x => x.hi) : findingsOn();
  for (const x of at) pen.fillRect(Math.round((x - report.from) / n * wide), 0, 2, 7);
}

// ---- keys and buttons

function setFolded(isFolded) {
  how.folded = isFolded;
  how.unfolded.clear();
  byId('folds').setAttribute('aria-pressed', String(!isFolded));
  again();
}

function setNarrow(isNarrow) {
  how.narrow = isNarrow;
  chooseLayout();
  again();
}

function unfoldHere(isOpening) {
  const item = items[itemAt[chosen]];
  const isFolded = item.hi > item.lo;
  if (item.fold >= 0 && isFolded === isOpening) toggleFold(item.fold);
}

const pageOf = () => Math.max(1, Math.floor(byId('rows').clientHeight / HIGH) - 2);

const KEYS = {
  ArrowDown: () => step(1), j: () => step(1), ArrowUp: () => step(-1), k: () => step(-1),
  PageDown: () => jump(pageOf()), PageUp: () => jump(-pageOf()),
  Home: () => jump(-items.length), End: () => jump(items.length),
  n: () => goTo(findingsOn(), true), p: () => goTo(findingsOn(), false),
  w: () => goTo(report.waits, true), W: () => goTo(report.waits, false),
  ArrowRight: () => unfoldHere(true), ArrowLeft: () => unfoldHere(false), f: () => setFolded(!how.folded),
  c: () => setNarrow(!how.compact), s: () => showTab(how.tab === 'state' ? 'script' : 'state'),
  '/': () => byId('filter').focus(),
};

function onKey(e) {
  const isTyping = e.target.id === 'filter', isSliding = e.target.id === 'slider' && /^Arrow[LR]/.test(e.key);
  if (e.ctrlKey || e.altKey || e.metaKey || !items.length) return;
  if (isTyping && e.key === 'Escape') { e.target.value = ''; filter(); byId('rows').focus(); }
  if (isTyping && e.key === 'Enter') step(e.shiftKey ? -1 : 1);
  const act = !isTyping && !isSliding && Object.hasOwn(KEYS, e.key) && KEYS[e.key];
  if (!act) return;
  e.preventDefault();
  act();
}

function filter() {
  how.words = byId('filter').value.split(' ').filter(x => x);
  again();
  history.replaceState(null, '', address());
}

function onResize() {
  const before = how.compact;
  chooseLayout();
  if (before !== how.compact) layOut();
  drawMarks();
  if (items.length) choose(items[itemNear(chosen)].hi, true);
}

function forPrint(isPrinting) {
  if (report.rows.length - report.from > ALL) return;
  how.printing = isPrinting;
  again();
}

function listen() {
  byId('slider').addEventListener('input', e => { if (items.length) choose(items[itemNear(+e.target.value)].hi); });
  byId('rows').addEventListener('scroll', draw);
  byId('back').addEventListener('click', () => step(-1));
  byId('on').addEventListener('click', () => step(1));
  byId('folds').addEventListener('click', () => setFolded(!how.folded));
  byId('layout').addEventListener('click', () => setNarrow(!how.compact));
  byId('filter').addEventListener('input', filter);
  byId('copy').addEventListener('click', copyScript);
  byId('state').addEventListener('click', goToMaker);
  byId('state').addEventListener('mouseover', tellMaker);
  byId('tab-state').addEventListener('click', () => showTab('state'));
  byId('tab-script').addEventListener('click', () => showTab('script'));
  addEventListener('resize', onResize);
  addEventListener('hashchange', goToHash);
  addEventListener('keydown', onKey);
  addEventListener('beforeprint', () => forPrint(true));
  addEventListener('afterprint', () => forPrint(false));
}

// ---- a report on the screen

function show(text, setUpLines) {
  report = new Report(text, setUpLines);
  walk = new Walk(report);
  how.unfolded.clear();
  how.words = [];
  sections = new Map();
  marked = [];
  chosen = -1;
  byId('state').replaceChildren();
  document.documentElement.style.setProperty('--actors', report.actors.length);
  document.documentElement.style.setProperty('--digits', String(report.rows.length).length);
  byId('slider').min = report.from;
  byId('slider').max = Math.max(report.from, report.rows.length - 1);
  tellHead();
  chooseLayout();
  layOut();
  for (const key of walk.lines.keys()) putLine(key);
  drawMarks();
  if (items.length && !goToHash()) {
    const said = byId('chosen').textContent;
    choose(items[0].hi, true);
    if (/^there/.test(said)) byId('chosen').textContent = said;
  } else draw();
}

listen();
if (byId('data').textContent.trim()) show(byId('data').textContent);
