'use strict';
(() => {
const byId = id => document.getElementById(id);
// Numbers that a browser cannot hold stay texts.
const exact = (name, value, from) =>
  typeof value === 'number' && !Number.isSafeInteger(value) && from ? from.source : value;
const parsed = text => JSON.parse(text, exact);
const lines = id => byId(id).textContent.split('\n').filter(line => line).map(parsed);
const film = lines('film')[0], replies = lines('replies'), steps = lines('steps');
const step = text => { try { return parsed(text) || []; } catch (e) { return []; } };
const script = lines('script').slice(0, replies.length).map(step);
const count = replies.length, rows = [...document.querySelectorAll('#lines tbody tr')];
const cell = (n, i) => rows[n - 1].cells[i].textContent;
const info = n => film.lines[n - 1];
const refused = n => /^E\d/.test(replies[n - 1][1]);
let at = -1;

// ---- text only ever becomes a text node
const fill = (element, ...kids) => {
  element.replaceChildren(...kids.flat(9).filter(kid => kid !== null && kid !== ''));
  return element;
};
const make = (tag, name, ...kids) => {
  const element = document.createElement(tag);
  if (name) element.className = name;
  return fill(element, kids);
};
const draw = (tag, attributes, parent) => {
  const element = document.createElementNS('http://www.w3.org/2000/svg', tag);
  for (const name in attributes) element.setAttribute(name, attributes[name]);
  parent.append(element);
  return element;
};
const escape = text => [...text].map(c => '\\u' + c.charCodeAt(0).toString(16).padStart(4, '0'))
  .join('');
const show = text => {
  if (text === null || text === undefined) return make('span', 'soft', 'none');
  const word = text === '' || /[\p{C}\p{Z}]/u.test(text) ? JSON.stringify(text) : String(text);
  const points = [...word.replace(/[\p{C}\p{Zl}\p{Zp}]/gu, escape)];
  const bytes = new TextEncoder().encode(text).length;
  const cut = points.length > 24 ? points.slice(0, 18).join('') + '..+' + bytes : points.join('');
  return make('bdi', '', cut);
};
const joined = (list, by) => list.flatMap((x, i) => i ? [by, x] : [x]);
const link = n => { const a = make('a', '', 'line ' + n); a.href = '#' + n; return a; };

// ---- of each line the machine's steps; where locks, records and ends came from
const own = [], since = new Map(), recorded = new Map(), raised = new Map(), decided = new Map();
const starts = new Map(film.sessions.map(s => [s[1], s[0]]));
const holds = new Map();
const past = (map, key, n) => {
  const line = (map.get(key) || []).filter(m => m <= n).pop();
  return line === undefined ? 0 : line;
};
const note = (map, key, n) => map.set(key, (map.get(key) || []).concat(n));
(() => {
  let next = 0;
  const locks = film.keys.map(() => null);
  for (let n = 1; n <= count; n++) {
    const mine = steps.slice(next, next += info(n).steps || 0);
    own.push(mine);
    for (const s of mine) if (s[0] === 'commit' || s[0] === 'abort') note(decided, s[1], n);
    for (const [k, lock, records] of info(n).keys || []) {
      if (lock && (!locks[k] || locks[k][1] !== lock[1])) note(since, k + ' ' + lock[1], n);
      else if (lock && lock[2] !== locks[k][2]) note(raised, k + ' ' + lock[1], n);
      for (const r of records) if (!past(recorded, k + ' ' + r[0], n)) note(recorded, k + ' ' + r[0], n);
      locks[k] = lock;
    }
    const s = script[n - 1];
    if (info(n).held) holds.set(s[s.length - 1], n);
  }
})();

// What stood after a line: on each key, and in the machine.
function moment(n) {
  const now = { keys: film.keys.map(() => [null, []]), last: 0, all: new Map(), reads: new Map() };
  for (let m = 1; m <= n; m++) {
    for (const [k, lock, records] of info(m).keys || []) now.keys[k] = [lock, records];
    for (const s of own[m - 1]) take(now, s, m);
  }
  return now;
}
function take(now, s, m) {
  const t = now.all.get(s[1]) || { is: 'open', set: [] };
  if (s[0] === 'draw') now.last = s[1];
  if (s[0] === 'begin') now.all.set(s[1], t);
  if (s[0] === 'declare') { t.is = 'declared'; t.set = s[2]; }
  if (s[0] === 'abort') t.is = 'aborted';
  if (s[0] === 'commit') {
    t.is = 'committed at ' + s[2];
    for (const [key, op, value] of t.set) {
      const old = now.reads.get(key);
      if (op !== 'lock' && (!old || old[0] <= s[2]))
        now.reads.set(key, [s[2], op === 'delete' ? null : value]);
    }
  }
  t.line = m;
}

// ---- a line in a sentence, with the lines that it follows from
const transaction = start => starts.has(start) ? [show(starts.get(start)), ' (' + start + ')']
  : ['transaction ' + start];
const where = (m, n, before) => !m ? '' : [before || ' in ', m === n ? 'this line' : link(m)];
const first = n => (info(n).to || [])[0];
const keyOf = n => first(n) === undefined ? 'the key' : show(film.keys[first(n)]);
function asker(n) {
  const s = script[n - 1], sent = s[0] === 'deliver' ? holds.get(s[1]) || n : n;
  const who = info(sent).who, session = film.sessions[who];
  return { start: s[0] === 'read' ? s[2] : session ? session[1] : null, word: script[sent - 1][0] };
}
const WHY = {
  E1(n, [key, start, primary, min, mode]) {
    const k = film.keys.indexOf(key), reads = /get|scan|read/.test(asker(n).word);
    return [show(key), ' is locked by ', transaction(start), where(past(since, k + ' ' + start, n), n,
      ' since '), '. ', reads ? 'Whether it commits below this reader is not known yet. '
      : 'A key has one lock at a time. ', 'Next: resolve, which asks the primary ', show(primary), '.'];
  },
  E2: (n, [start, commit]) => [transaction(start), ' committed ', keyOf(n), ' at ' + commit,
    where(past(decided, start, n), n), ', after this one started at ' + asker(n).start
    + ': what it wrote would be lost. Next: abort.'],
  E3: n => ['It was rolled back on ', keyOf(n), where(past(recorded, first(n) + ' ' + asker(n).start, n),
    n), '. What comes late is refused.'],
  E4: (n, [commit]) => ['It is committed already, at ' + commit,
    where(past(decided, asker(n).start, n), n), '.'],
  E5: (n, [min]) => ['The lock allows no commit below ' + min, where(past(raised, first(n) + ' '
    + asker(n).start, n), n, ': it was pushed in '), '. Next: draw again.'],
  E6: n => ['Neither a lock nor a record of the transaction stands on ', keyOf(n), '.'],
  E16: (n, [cause]) => ['The script is at fault: ' + cause + '. Nothing behind it is played.'],
  start: (n, [start]) => ['It reads what is committed up to ' + start + ', and nothing later.'],
  prewritten: (n, [min]) => [keyOf(n), min ? ' is locked, and promises a commit at ' + min
    + ' or above.' : ' is locked. In two phases the primary decides.'],
  drawn: () => ['Every key is locked: this is the number to commit at, the primary first.'],
  committed: (n, [commit]) => ['It is committed at ' + commit,
    where(past(decided, asker(n).start, n), n, ', decided in '), '.'],
  status: (n, [word, number]) => [{ committed: 'Its transaction is committed at ' + number + '.',
    aborted: 'Its transaction is aborted, and the lock goes.',
    pushed: 'It lives: its minimum is ' + number + ' now, so this reader may pass.',
    waiting: 'Nothing is decided yet.' }[word] || ''],
  value: found, none: found,
};
function found(n) {
  const k = first(n), at = asker(n).start;
  if (k === undefined) return ['Nothing was sent: the session\u2019s own buffer says it.'];
  const [lock, records] = moment(n).keys[k];
  const seen = records.find(r => /put|delete/.test(r[1]) && r[0] <= at);
  const above = records.filter(r => r[1] === 'put' && r[0] > at).pop();
  return [seen ? [seen[1] === 'put' ? 'It reads what ' : 'It was deleted by ', transaction(seen[2]),
    seen[1] === 'put' ? ' committed' : '', ' at ' + seen[0], where(past(decided, seen[2], n), n), '.']
    : 'Nothing was committed at ' + at + ' or below.',
  above ? [' What ', transaction(above[2]), ' committed at ' + above[0], ' is not seen.'] : '',
  lock && lock[1] !== at ? [' It reads past the lock of ', transaction(lock[1]), '.'] : ''];
}
const SENT = {
  lost: () => ['The request never arrived.'],
  'reply-lost': () => ['A region took it; the reply was lost, and its session knows nothing of it.'],
  twice: () => [' It was taken twice.'],
  held: n => ['It is held as ', show(script[n - 1].at(-1)), ': no region has seen it.'],
  delivered: n => [' It was sent', where(holds.get(script[n - 1][1]), n), '; its session hears nothing.'],
};
function why(n) {
  const [, word, ...rest] = replies[n - 1], sent = info(n).sent, act = script[n - 1][0];
  const ends = own[n - 1].filter(s => s[0] === 'commit').map(s => [' Here the machine commits ',
    transaction(s[1]), ' at ' + s[2] + '.']);
  const told = WHY[word] ? WHY[word](n, rest) : word === 'ok' && /put|insert|delete|lock/.test(act)
    ? ['It waits in the buffer: nothing is sent.'] : [];
  return [told, SENT[sent] ? SENT[sent](n) : '', ends];
}

// ---- the panels
const words = n => [cell(n, 1) ? [make('span', 'who', cell(n, 1)), ': '] : '', cell(n, 2)];
function showSaid(n) {
  const hides = byId('guess').checked && n < count;
  const card = fill(byId('said'), n ? make('p', 'what', make('span', 'soft', n + '  '), words(n),
    cell(n, 3) ? [' \u2192 ', make('span', refused(n) ? 'no' : '', cell(n, 3))] : '')
    : make('p', '', count + ' lines. Step with the arrow keys, or click into the drawing.'),
  n ? make('p', '', why(n)) : '',
  hides ? make('p', '', make('b', '', 'Line ' + (n + 1) + ': '), words(n + 1),
    '. What is replied, and what changes?') : '');
  card.className = !n ? '' : refused(n) ? 'no' : own[n - 1].some(s => s[0] === 'commit') ? 'yes' : '';
}
const mark = (k, r) => make('span', 'mark' + (r[1] === 'rollback' ? ' rol' : ''), r[1] === 'rollback'
  ? ['rolled back ', transaction(r[2])] : [r[1] + ' of ', transaction(r[2]), ' at ' + r[0]],
r[3] ? ', and a rollback' : '');
function keyRow(n, now, k) {
  const [lock, records] = now.keys[k], fresh = n && (info(n).keys || []).some(x => x[0] === k);
  const region = film.bounds.length ? make('span', 'soft', ' region ' + (film.region[k] + 1)) : '';
  return make('tr', fresh ? 'new' : '', make('th', '', make('span', 'who', show(film.keys[k])), region),
    make('td', '', lock ? [make('span', 'bar' + (lock[3] === 'async' ? ' asy' : ''), lock[0] + ' of ',
      transaction(lock[1]), ', min ' + lock[2]), where(past(since, k + ' ' + lock[1], n), n, ' ')] : '-'),
    make('td', '', records.slice(0, 6).map(r => mark(k, r)),
      records.length > 6 ? 'and ' + (records.length - 6) + ' older' : ''));
}
const head = (...names) => make('thead', '', make('tr', '', names.map(x => make('th', '', x))));
function showStore(n, now) {
  const some = film.keys.map((x, k) => k).filter(k => film.keys.length < 9 || now.keys[k][0]
    || now.keys[k][1].length);
  fill(byId('store'), make('h2', '', 'What stands on each key'), make('table', '',
    head('key', 'lock', 'records, newest first'),
    make('tbody', '', some.slice(0, 64).map(k => keyRow(n, now, k)))),
  some.length < film.keys.length ? make('p', 'soft', 'Nothing stands on the other keys.') : '');
}
const DUE = { open: 'reads, writes, or declares', empty: 'due: finish', locking: 'due: prewrite',
  promised: 'each key is locked', locked: 'due: draw', drawn: 'due: commit',
  committed: 'knows: committed', aborted: 'knows: aborted' };
const changes = set => joined(set.map(c => [c[1] + ' ', show(c[0]), c.length > 2 ? [' ', show(c[2])] : '']),
  ', ');
function sessionItem(n, now, s, i) {
  const lines = film.lines.slice(0, n), stage = lines.filter(l => l.who === i && l.stage).pop();
  const drew = replies.slice(0, n).filter((r, m) => info(m + 1).who === i && r[1] === 'drawn').pop();
  const t = now.all.get(s[1]), acts = n && info(n).who === i;
  return make('li', acts ? 'act' : '', stage ? make('span', 'due', DUE[stage.stage]) : '',
    make('span', 'who', show(s[0])), s[1] === null ? '' : ' starts at ' + s[1],
    drew ? ', drew ' + drew[2] : '', t && t.set.length ? make('div', 'soft', changes(t.set)) : '');
}
function showOpen(n, now) {
  const all = film.sessions.map((s, i) => [s, i]).filter(([s]) => s[2] <= n);
  const live = all.filter(([s, i]) => s[3] === null || s[3] > n || n && info(n).who === i);
  fill(byId('open'), make('h2', '', 'Sessions'), live.length ? make('ul', '', live.slice(-40).map(
    ([s, i]) => sessionItem(n, now, s, i))) : make('p', 'soft', 'none is live'),
  all.length > live.length ? make('p', 'soft', all.length - live.length + ' have ended') : '');
  const sent = [...holds].filter(([, m]) => m <= n);
  byId('way').hidden = !sent.length;
  fill(byId('way'), make('h2', '', 'Held on the way'), sent.slice(-12).map(([name, m]) => {
    const came = film.lines.map((l, i) => i + 1).filter(i => i <= n && script[i - 1][0] === 'deliver'
      && script[i - 1][1] === name && info(i).sent);
    return make('p', '', make('span', 'who', show(name)), ': ' + info(m).held[0] + ' ',
      show(info(m).held[1]), ' of ', cell(m, 1), ', sent in ', link(m), came.length
        ? [', taken in ', joined(came.map(link), ', ')] : ', not taken yet');
  }));
}
function showMachine(n, now) {
  const all = [...now.all].slice(-14), reads = [...now.reads].filter(r => r[1][1] !== null);
  fill(byId('machine'), make('h2', '', 'The machine that commits at once'), make('p', '', n && cell(n, 5)
    ? ['Its step here: ', cell(n, 5)] : make('span', 'soft', 'It makes no step here.'),
  ' Last number: ' + now.last + '.'), make('table', '', make('tbody', '', all.map(([start, t]) =>
    make('tr', t.line === n ? 'new' : '', make('th', '', transaction(start)), make('td', '', t.is),
      make('td', '', changes(t.set)))))),
  make('p', '', 'Who begins now reads: ', reads.length ? joined(reads.slice(0, 40).map(([key, r]) =>
    [show(key), ' = ', show(r[1])]), ', ') : 'nothing', '.'));
}

// ---- the drawing: what comes is pale, and this line has a band; the heads of columns stay
const box = byId('drawing'), picture = box.querySelector('svg');
const y = n => 58 + 32 * n;
const width = +picture.getAttribute('width'), height = y(count + 1) + 6;
const veil = draw('rect', { class: 'veil', x: 0, width }, picture);
const band = draw('rect', { class: 'band', x: 0, width, height: 32 }, picture);
const heads = document.createElementNS('http://www.w3.org/2000/svg', 'svg');
for (const [name, value] of Object.entries({ id: 'heads', width, height: 56, 'aria-hidden': true }))
  heads.setAttribute(name, value);
picture.querySelectorAll('text.session,text.key,text.region').forEach(text => {
  if (+text.getAttribute('y') < 58) heads.append(text.cloneNode(true));
});
box.prepend(heads);
picture.style.marginTop = '-57px';
function showCursor(n) {
  veil.setAttribute('y', y(n) + 16);
  veil.setAttribute('height', Math.max(0, height - y(n) - 16));
  band.setAttribute('y', y(n) - 16);
  band.toggleAttribute('hidden', !n);
  const top = y(n) - 56;
  if (top < box.scrollTop + 60 || top > box.scrollTop + box.clientHeight - 110)
    box.scrollTop = top - box.clientHeight / 2;
}

// ---- going about
function go(to) {
  const n = at = Math.max(0, Math.min(count, to | 0)), now = moment(n);
  showCursor(n); showSaid(n); showStore(n, now); showOpen(n, now); showMachine(n, now);
  rows.forEach((row, i) => {
    row.classList.toggle('later', i >= n);
    row.classList.toggle('at', i === n - 1);
  });
  if (n && box.hidden) rows[n - 1].scrollIntoView({ block: 'nearest' });
  byId('slide').value = n;
  byId('slide').setAttribute('aria-valuetext', 'line ' + n + ' of ' + count);
  fill(byId('place'), 'line ' + n + ' of ' + count);
  byId('first').disabled = byId('back').disabled = !n;
  byId('next').disabled = byId('last').disabled = n === count;
  if (location.hash !== '#' + n) history.replaceState(null, '', '#' + n);
}
function turn() {
  box.hidden = !box.hidden;
  byId('lines').hidden = !box.hidden;
  byId('turn').textContent = box.hidden ? 'drawing' : 'lines';
  if (at >= 0) go(at);
}
const MOVES = { ArrowRight: 1, ArrowDown: 1, ArrowLeft: -1, ArrowUp: -1, PageDown: 10, PageUp: -10,
  Home: -1e9, End: 1e9 };
document.addEventListener('keydown', event => {
  if (event.ctrlKey || event.metaKey || event.altKey) return;
  if (event.target === byId('slide') && MOVES[event.key]) return;
  if (MOVES[event.key]) go(at + MOVES[event.key]);
  else if (event.key === 'p') byId('guess').click();
  else if (event.key === 't') turn();
  else return;
  event.preventDefault();
});
byId('first').onclick = () => go(0);
byId('back').onclick = () => go(at - 1);
byId('next').onclick = () => go(at + 1);
byId('last').onclick = () => go(count);
byId('turn').onclick = turn;
byId('slide').max = count;
byId('slide').oninput = () => go(+byId('slide').value);
byId('guess').onchange = () => {
  document.body.classList.toggle('guess', byId('guess').checked);
  go(at);
};
picture.addEventListener('click', event => {
  const place = picture.getBoundingClientRect();
  go(Math.round((event.clientY - place.top - 58) / 32));
});
rows.forEach((row, i) => { row.removeAttribute('id'); row.onclick = () => go(i + 1); });
addEventListener('hashchange', () => go(parseInt(location.hash.slice(1), 10) || 0));
document.body.classList.add('moves');
for (const id of ['moves', 'moment', 'help']) byId(id).hidden = false;
turn(); turn();
go(parseInt(location.hash.slice(1), 10) || 0);
})();
