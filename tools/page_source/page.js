// ---- the head of the page
const tag = (text, tone) => el('span', { className: 'tag t-' + tone }, text);
const LADDER = [['launched', 'launched', 'soft'], ['allowed', 'allowed', 'blue'], ['committed', 'committed', 'blue'],
  ['recorded', 'recorded', 'amber'], ['won', 'flushed', 'green']];
const files = last.files.length, missing = last.marker && files < last.reduces;
function titleOf() {
  const won = last.winners.filter(Boolean), number = won.length && parts(won[0]).number;
  if (!won.length) return 'No attempt won';
  if (last.reduces > 1) return (won.length === last.reduces ? `Each of the ${last.reduces} reduces has its winner` : `${won.length} of ${last.reduces} reduces have a winner`)
    + (last.marker ? missing ? ', and files are missing' : '' : ', and the job is not published');
  if (!last.marker) return `Attempt ${number} won, and the job is not published`;
  return missing ? `Attempt ${number} won, and its output is missing` : `The output of attempt ${number} counts`;
}
// why nothing is published, of whom the output does not count, and what else a reader has to know
const stopped = e => (e.marks || []).some(m => m.is === 'stops' || m.of === 'job' && m.is === 'failed');
function leadOf() {
  const loser = fates.find(f => f.fate !== 'won'), why = last.marker ? [] : events.filter(stopped).slice(-2).map(e => e.sentence);
  if (!last.marker && !why.length) why.push('The run ends before the job commit is done.');
  if (loser) why.push(`${capital(nameOf(loser.attempt))} does not count. ${loser.why}`);
  if (missing) why.push(`A reader finds _SUCCESS and ${files ? count(files, 'part file') : 'no part file'} of ${last.reduces}.`);
  if (last.marker && last.outcome !== 'succeeded') why.push(`The job is ${last.outcome === 'failed' ? 'reported failed' : 'not reported as over'}, and yet _SUCCESS is there.`);
  return why.join(' ') || 'No attempt was lost.';
}
function cardOf(f) {
  const tone = toneOf(f.fate), card = el('button', { className: 'card fate', title: f.attempt },
    el('span', { className: 'top' }, el('b', {}, capital(nameOf(f.attempt))), tag(capital(f.fate), tone)),
    el('span', { className: 'ladder' }, ...LADDER.map(([, word, color]) => { const rung = el('i', {}, word); rung.style.setProperty('--k', `var(--${color})`); return rung; })),
    el('span', {}, f.why));
  card.dataset.attempt = f.attempt;
  card.style.setProperty('--c', tone === 'grey' ? 'var(--line)' : `var(--${tone})`);
  return card;
}
function drawHead() {
  $('over').textContent = [last.job, `${count(last.splits, 'split')}, ${count(last.reduces, 'reduce')}, ${count(last.nodes, 'node')}`, count(events.length, 'event')].join(' · ');
  $('head').textContent = titleOf();
  $('lead').textContent = leadOf();
  const good = last.marker && !missing;
  $('facts').replaceChildren(last.marker ? tag('_SUCCESS is there', 'green') : tag('no _SUCCESS', 'grey'),
    tag(last.outcome === 'none' ? 'no outcome reported' : 'reported ' + last.outcome, last.outcome === 'succeeded' ? 'green' : last.outcome === 'failed' ? 'red' : 'grey'),
    tag(files ? count(files, 'part file') : 'no part file', missing ? 'red' : 'grey'),
    tag(good ? 'the destination may be read' : missing ? 'a reader gets too few files' : 'don’t read the destination', good ? 'green' : 'red'));
  const cards = own.map(cardOf), rest = fates.length - own.length, hidden = fates.some(f => f.fate !== 'won' && !own.includes(f));
  if (rest) cards.push(el('div', { className: 'card fate soft' }, `${count(rest, 'more attempt')}${hidden ? '' : ', each the only one of its reduce, and its winner'}.`));
  if (mapTasks) cards.push(el('div', { className: 'card fate soft' }, el('b', {}, capital(count(mapTasks, 'map')) + (mapAttempts.length > mapTasks ? `, ${mapAttempts.length} attempts` : '')),
    'A map commits nothing: its output stays on its node, and is lost with it.'));
  if (last.told) cards.push(el('div', { className: 'card fate soft' }, el('b', {}, 'Said of the script'), el('span', { className: 'mono' }, last.told.trim())));
  $('fates').replaceChildren(...cards);
  const used = new Set(events.flatMap(e => e.deciding ? shownMarks(e).map(m => m.sign) : []));
  $('key').replaceChildren(...KEY.filter(([kind]) => used.has(kind)).map(([kind, words]) => el('span', {}, icon(kind), words)));
}

// ---- the state beside the lanes
const byName = who => ATTEMPT.test(who || '') ? nameOf(who).replace('attempt', 'att.') : who || '';
function drawTree() {
  const rows = [...live.files].filter(([path]) => under(path, '/out') || under(path, '/staging')).sort(([a], [b]) => a < b ? -1 : 1);
  const shown = rows.length > 60 ? rows.filter(([path], i) => i < 50 || live.touched.has(path)) : rows;
  $('treehead').replaceChildren('The destination ', el('b', {}, `after event ${at}`));
  $('tree').replaceChildren(...shown.map(([path, entry]) => {
    const names = path.split('/'), hidden = path.includes('/_') || under(path, '/staging');
    const row = el('div', { title: path, className: (hidden ? 'hid' : '') + (live.touched.has(path) ? ' new' : '') });
    const label = el('span', { style: `padding-left:${(names.length - 2) * 13}px` }, brief(names.at(-1)) + (entry.folder ? '/' : ''));
    if (path === '/out/_SUCCESS') label.style.color = 'var(--green)';
    row.dataset.path = path; row.dataset.bytes = entry.folder ? '' : entry.bytes;
    row.append(label, entry.folder ? '' : el('span', {}, entry.bytes + ' B'), entry.folder ? '' : el('span', { className: 'by' }, byName(entry.by)));
    return row;
  }), ...(rows.length ? [] : [el('div', { className: 'hid' }, el('span', {}, 'nothing is there yet'))]),
  ...(shown.length < rows.length ? [el('div', {}, el('span', { className: 'soft' }, `and ${rows.length - shown.length} more`))] : []));
  const seen = rows.filter(([path, entry]) => /^\/out\/[^_.][^/]*$/.test(path) && !entry.folder).length, marker = live.files.has('/out/_SUCCESS');
  const few = marker && seen < last.reduces, told = few ? `_SUCCESS is there, and ${seen ? count(seen, 'part file') : 'no part file'} of ${last.reduces}.`
    : marker ? `_SUCCESS is there, and ${count(seen, 'part file')}.` : seen ? `${count(seen, 'part file')}, but no _SUCCESS: others may be missing.` : 'No _SUCCESS, and no part file.';
  $('reader').replaceChildren(tag(few ? 'Files are missing' : marker ? 'May be read' : 'Don’t read', few ? 'red' : marker ? 'green' : 'grey'), ' ' + told);
}
const STATES = { stable: ['flushed', 'green'], tail: ['not flushed', 'amber'], lost: ['lost', 'red'], torn: ['torn: lost', 'red'] };
function rowOf(words, state, strong, title) {
  const row = el('div', { className: state }, el('span', { title: title || '' }, words), tag(...STATES[state]));
  row.style.fontWeight = strong ? 600 : 400;
  row.dataset.state = state;
  return row;
}
function drawHistory() {
  const out = [];
  for (const [k, segment] of Object.entries(live.segments)) if (segment.records.length) {
    out.push(el('h3', {}, `Segment of master ${k}${segment.closed ? ', closed' : ''}`));
    let pool = [];
    const flush = () => {
      if (pool.length > 3) { const row = rowOf(count(pool.length, 'record') + ' of launches, maps and others', pool[0].state); row.dataset.records = pool.length; out.push(row); }
      else for (const r of pool) out.push(rowOf(`${RECORDS[r.kind]} ${byName(r.attempt)}`, r.state, false, r.text));
      pool = [];
    };
    for (const r of segment.records) {
      const big = r.kind === 'unsuccessful' || (r.kind === 'reduce' || r.kind === 'failed') && laneAt[r.attempt] !== undefined;
      if (big || pool.length && pool[0].state !== r.state) flush();
      if (big) out.push(rowOf(r.kind === 'unsuccessful' ? 'the job failed' : `${RECORDS[r.kind]} ${byName(r.attempt)}`, r.state, r.kind === 'reduce', r.text));
      else pool.push(r);
    }
    flush();
  }
  $('hist').replaceChildren(...(out.length ? out : [el('div', { className: 'hid' }, el('span', { className: 'soft' }, 'no record yet'))]));
}
function drawPackets() {
  const way = packets.filter(p => p.sent <= at && !(p.got[0] <= at)), here = events[at].event === 'deliver' ? packets[events[at].packet] : null;
  const rows = [...(here ? [[here, 'delivered now']] : []), ...way.slice(-8).map(p => [p, 'to ' + p.to])];
  $('nethead').replaceChildren('In the network ', el('b', {}, `${way.length} under way`));
  $('net').replaceChildren(...rows.map(([p, words]) => el('div', { className: p === here ? 'hid' : '', title: p.says },
    el('span', {}, `${p.place} ${brief(p.says)}`), el('span', { className: 'by' }, words))));
  const more = way.length > 8 ? `and ${way.length - 8} older ones` : rows.length ? '' : 'nothing';
  if (more) $('net').append(el('div', {}, el('span', { className: 'soft' }, more)));
}
function drawState() {
  if (live.at > at) live = fresh();
  while (live.at < at) apply(live, events[live.at + 1]);
  drawTree(); drawHistory(); drawPackets();
  for (const card of document.querySelectorAll('.fate[data-attempt]')) {
    const marks = attempt(card.dataset.attempt).at;
    card.querySelectorAll('.ladder i').forEach((rung, i) => rung.classList.toggle('r', marks[LADDER[i][0]] <= at));
    card.classList.toggle('on', pin === card.dataset.attempt);
  }
}

// ---- the list of events
const moreOf = e => [e.call ? `${e.call}: ${e.answer}` : '', ...e.packets.map(p => `sends packet ${p.place} to ${p.to}: ${p.says}`),
  e.line ? `line ${e.line} of the input${e.calm ? ' (the calm made it)' : ''}` : e.thread ? 'by ' + e.thread : ''].filter(Boolean);
function foldOf(c) {
  const some = events.slice(c.from, c.to + 1), number = (one, many, test) => { const n = some.filter(test).length; return n ? [count(n, one, many)] : []; };
  const what = [...number('store call', 'store calls', e => e.call), ...number('packet delivered', 'packets delivered', e => e.event === 'deliver')];
  const item = el('li', { className: 'fold' + (c.from > at ? ' later' : '') }, el('button', { className: 'ev', title: 'unfold' }, el('b', {}, '⋯'), icon(),
    el('span', {}, `${some.length} more: ${what.join(', ') || wordsOf(some[0])}`)));
  item.firstChild.dataset.gap = c.from;
  item.dataset.a = own.map(f => f.attempt).filter(name => some.some((e, n) => touches[c.from + n].has(name))).join(' ');
  return item;
}
function itemOf(c) {
  const i = c.i, e = events[i], mark = headMark(e), item = el('li', { className: (i === at ? 'at' : i > at ? 'later' : '') + (e.deciding ? '' : ' minor') },
    el('button', { className: 'ev' }, el('b', {}, i), icon(mark ? mark.sign : 'small'), el('span', {}, wordsOf(e))));
  item.firstChild.dataset.i = i;
  item.dataset.a = [...touches[i]].join(' ');
  if (i === at) { item.setAttribute('aria-current', 'step'); item.append(el('div', { className: 'more' }, ...moreOf(e).map(text => el('div', {}, text)))); }
  return item;
}
const light = name => { $('lit').textContent = name ? `.a:not([data-a~="${name}"]) { opacity: .14 } .story li:not([data-a~="${name}"]) { opacity: .3 }` : ''; };
function draw() {
  const steps = stops(), n = steps.indexOf(at);
  $('slider').max = steps.length - 1; $('slider').value = n;
  $('count').textContent = `step ${n + 1} of ${steps.length}`;
  $('now').replaceChildren(el('b', {}, at), wordsOf(events[at]));
  drawLanes(); drawState(); light(pin);
  $('story').replaceChildren(...columns().map(c => c.gap ? foldOf(c) : itemOf(c)));
  try { history.replaceState(null, '', '#at=' + at); } catch { /* a frame without an address */ }
}

// ---- hands
function go(to) {
  const steps = stops(), n = Math.max(0, steps.indexOf(at));
  at = to === 'first' ? steps[0] : to === 'last' ? steps.at(-1) : to === 'next' ? steps[Math.min(n + 1, steps.length - 1)] : to === 'prev' ? steps[Math.max(n - 1, 0)] : to;
  draw();
}
function playing(yes) {
  clearInterval(timer);
  timer = yes ? setInterval(() => { go('next'); if (at === stops().at(-1)) playing(false); }, 1100) : 0;
  document.querySelectorAll('[data-go=play] path').forEach((path, i) => path.toggleAttribute('hidden', !timer === !!i));
}
document.addEventListener('click', ev => {
  const d = ev.target.closest('[data-go],[data-i],[data-gap],[data-attempt]')?.dataset;
  if (!d) return;
  if (d.go === 'play') { if (!timer && at === stops().at(-1)) go('first'); playing(!timer); } else if (d.go) go(d.go);
  else if (d.i) go(+d.i);
  else if (d.gap) { unfolded.add(+d.gap); go(+d.gap); }
  else { pin = pin === d.attempt ? null : d.attempt; draw(); }
});
document.addEventListener('keydown', ev => {
  const to = { ArrowRight: 'next', ArrowLeft: 'prev', Home: 'first', End: 'last', j: 'next', k: 'prev' }[ev.key];
  if (ev.ctrlKey || ev.metaKey || ev.altKey || ev.target.type === 'range') return;
  if (to) { ev.preventDefault(); go(to); }
  if (ev.key === ' ' && ev.target === document.body) { ev.preventDefault(); document.querySelector('[data-go=play]').click(); }
  if (ev.key === 'a') $('all').click();
  if (ev.key === 'Escape') { pin = null; draw(); }
});
$('slider').addEventListener('input', () => go(stops()[+$('slider').value]));
$('all').addEventListener('change', () => {
  all = $('all').checked;
  const steps = stops();
  if (!steps.includes(at)) at = steps.filter(i => i <= at).at(-1) ?? steps[0];
  draw();
});
const tip = ev => {
  const hit = ev.target.closest && ev.target.closest('[data-tip]');
  $('tip').hidden = !hit;
  if (!hit) return;
  $('tip').replaceChildren(...hit.dataset.tip.split('\n').map((text, i) => el('div', { className: i === 1 ? 'mono' : i ? 'soft' : '' }, text)));
  const box = hit.getBoundingClientRect(), x = Math.min((ev.clientX || box.right) + 12, innerWidth - 350);
  $('tip').style.left = Math.max(6, x) + 'px';
  $('tip').style.top = Math.min((ev.clientY || box.bottom) + 12, innerHeight - 90) + 'px';
};
for (const kind of ['pointermove', 'focusin', 'pointerdown']) document.addEventListener(kind, tip);
for (const kind of ['pointerover', 'focusin']) document.addEventListener(kind, ev => {
  const node = ev.target.closest && ev.target.closest('[data-attempt]');
  light(node ? node.dataset.attempt : pin);
});
for (const [kind, width] of [['beforeprint', '680px'], ['afterprint', '']]) addEventListener(kind, () => { document.body.style.width = width; draw(); });
let size = innerWidth;
addEventListener('resize', () => { if (innerWidth !== size) { size = innerWidth; draw(); } });

$('app').hidden = false;
if (events.length) {
  const asked = new URLSearchParams(location.hash.slice(1)).get('at');
  at = asked !== null && events[+asked] ? +asked : events.length - 1;
  if (!stops().includes(at)) all = $('all').checked = true;
  drawHead();
  draw();
} else {
  drawHead();
}
