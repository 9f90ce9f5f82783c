// ---- the tree and the history at an event, by the calls that were made
const fresh = () => ({ files: new Map([['/staging', { folder: true }]]), touched: new Set(), fence: 0, barred: new Set(), segments: {}, alive: new Set(), at: -1 });
const RECORDS = { started: 'launched', map: 'success', reduce: 'success', failed: 'failed' };
const isHistory = e => e.call !== undefined && /^(append (started|map|reduce|failed|unsuccessful)\b|flush$|read$)/.test(e.call);
const wasMade = (state, e, caller) => e.answer === 'done'
  || e.answer === 'unanswered' && caller.generation >= state.fence && !state.barred.has(caller.attempt);
const change = (state, path, entry) => { state.files.set(path, entry); state.touched.add(path); };
function makeFolders(state, path, by) {
  path.split('/').slice(1).reduce((top, name) => {
    const here = top + '/' + name;
    if (!state.files.has(here)) change(state, here, { folder: true, by });
    return here;
  }, '');
}
function move(state, from, to) {
  for (const [path, entry] of [...state.files]) if (under(path, from)) {
    state.files.delete(path);
    change(state, to + path.slice(from.length), entry);
  }
}
function callNames(state, e, caller) {
  const [word, path, more] = e.call.split(' '), files = state.files;
  if (!wasMade(state, e, caller)) return;
  const by = caller.attempt || 'master ' + caller.generation;
  if (word === 'mkdirs') makeFolders(state, path, by);
  if (word === 'create') change(state, path, { bytes: 0, by });
  if (word === 'append' && files.has(path)) { files.get(path).bytes += +more; state.touched.add(path); }
  if (word === 'delete') for (const one of [...files.keys()]) if (under(one, path)) files.delete(one);
  if (word === 'rename') move(state, path, more);
  if (word === 'bar') state.barred.add(path);
}
// a record as its line in a segment has it, for its length; the first of a segment of version 2 comes with the version
const VERSION_LINE = '{"version":2}\n'.length;
function recordOf(text) {
  const [, kind, name, rest] = /^(\w+) ?(attempt_\S+)? ?(.*)$/.exec(text);
  const number = word => (new RegExp(word + ' (\\d+)').exec(rest) || [])[1], o = name ? { attempt: name } : {};
  if (number('bytes') !== undefined) o.bytes = +number('bytes');
  o.event = kind;
  if (number('incarnation') !== undefined) o.incarnation = +number('incarnation');
  if (number('node') !== undefined) o.node = +number('node');
  return { kind, attempt: name, text: JSON.stringify(o) };
}
function callHistory(state, e, caller) {
  if (e.call === 'read' || !wasMade(state, e, caller)) return;
  const segment = state.segments[caller.generation] ??= { records: [] };
  if (e.call === 'flush') { for (const r of segment.records) if (r.state === 'tail') r.state = 'stable'; return; }
  const record = recordOf(e.call.slice('append '.length)), head = segment.records.length || caller.generation < last.v2from ? 0 : VERSION_LINE;
  segment.records.push({ ...record, bytes: record.text.length + 1 + head, state: 'tail' });
}
// a crash, or the next master: of what is not flushed these bytes stay
function closeSegment(state, generation, kept) {
  const segment = state.segments[generation];
  if (!segment || segment.closed) return;
  segment.closed = true;
  let left = kept;
  for (const r of segment.records) if (r.state === 'tail') {
    r.state = left >= r.bytes ? 'stable' : left > 0 ? 'torn' : 'lost';
    left -= r.bytes;
  }
}
function apply(state, e) {
  state.touched = new Set();
  if (e.event === 'start') {
    state.fence = e.generation;
    if (state.alive.has(e.generation - 1)) closeSegment(state, e.generation - 1, e.kept);
    state.alive.add(e.generation);
  }
  if (e.event === 'crash') { closeSegment(state, e.generation, e.kept); state.alive.delete(e.generation); }
  if (e.call !== undefined) {
    const name = e.container && containers[e.container].attempt;
    const caller = { generation: name ? parts(name).generation : e.generation, attempt: name };
    (isHistory(e) ? callHistory : callNames)(state, e, caller);
  }
  state.at = e.place;
}
