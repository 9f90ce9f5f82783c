'use strict';
// The lines of `play --json`: each event, and last what came of the run.
const $ = id => document.getElementById(id);
const lines = $('run').textContent.trim().split('\n').map(line => JSON.parse(line));
const last = lines[lines.length - 1], events = lines.slice(0, -1);

// ---- names
const ATTEMPT = /attempt_\d+_\d+_([mr])_(\d+)_(\d+)/;
const parts = name => {
  const found = ATTEMPT.exec(name);
  return { map: found[1] === 'm', task: +found[2], number: +found[3], generation: 1 + Math.floor(found[3] / 1000) };
};
const nameOf = name => { const p = parts(name); return `${p.map ? 'map' : 'reduce'} ${p.task} attempt ${p.number}`; };
const capital = text => text[0].toUpperCase() + text.slice(1);
const brief = text => text.replace(/(attempt|task)_\d+_\d+_/g, '$1_…_');
const count = (n, one, many = one + 's') => `${n} ${n === 1 ? one : many}`;
const under = (path, top) => path === top || path.startsWith(top + '/');

// ---- marks: how each is drawn, and in whose lane; its words are the line's own
const SIGNS = {
  launched: ['ring', 'launch'], allowed: ['yes', 'may commit'], denied: ['no', 'hears no'],
  committed: ['commit', 'commits'], recorded: ['rec', 'recorded', 'history'], won: ['win', 'wins', 'history'],
  lost: ['x', 'lost', 'history'], refused: ['no', 'refused'], barred: ['no', 'barred', 'store'],
  failed: ['x', 'failed'], killed: ['x', 'killed'], died: ['x', 'dies'], 'ended with its node': ['x', 'ends'],
  'given up': ['up', 'given up'], superseded: ['up', 'superseded'], starts: ['ring', 'starts'],
  crashes: ['x', 'crashes'], stops: ['no', 'stops'], 'begins the job commit': ['job', 'job commit'],
  publishes: ['part', 'publishes', 'store'], completes: ['star', '_SUCCESS', 'store'],
  restarts: ['up', 'restarts'], 'is given up': ['up', 'given up'], succeeded: ['told', 'reported'],
};
const KEY = [['ring', 'begins'], ['yes', 'may commit'], ['commit', 'task commit'], ['rec', 'recorded, not flushed'],
  ['win', 'winner is stable'], ['job', 'job commit'], ['part', 'published'], ['star', '_SUCCESS'], ['told', 'reported'],
  ['fail', 'reported failed'], ['x', 'dies, crashes, lost'], ['no', 'refused, stops'], ['up', 'given up, superseded']];
const jobMark = (mark, e) => mark.of !== 'job' ? SIGNS[mark.is]
  : [mark.is === 'failed' ? 'fail' : 'told', 'reported', 'master ' + e.generation];
const marksOf = e => (e.marks || []).filter(m => m.is !== 'ended').map(m => {
  const [sign, word, lane] = jobMark(m, e);
  return { ...m, sign, word, lane: lane || m.of, attempt: ATTEMPT.test(m.of) ? m.of : undefined };
});
const isMaps = m => m.attempt !== undefined && parts(m.attempt).map;

// ---- who is who: containers by the packets that launch them, packets by their places
const containers = {}, packets = [], masters = {}, attempts = {};
const attemptOf = who => { const c = containers[who.replace('container ', '')]; return c && c.attempt; };
const attempt = name => attempts[name] ??= { id: name, ...parts(name), at: {} };
const senderOf = e => e.container ? 'container ' + e.container : e.event === 'deliver' ? packets[e.packet].to
  : e.generation ? 'master ' + e.generation : 'node ' + e.node;
const actorOf = e => e.event === 'restart' ? 'node ' + e.node : senderOf(e);
for (const e of events) {
  for (const p of e.packets) {
    packets[p.place] = { ...p, sent: e.place, from: senderOf(e), got: [] };
    const [word, id, name] = p.says.split(' ');
    if (word === 'Launch') containers[id] = { id, attempt: name, node: +p.to.slice(5) };
  }
  if (e.event === 'deliver') {
    const p = packets[e.packet], [word, id] = p.says.split(' ');
    p.got.push(e.place);
    if (word === 'Launch' && containers[id].born === undefined) containers[id].born = e.place;
  }
  for (const m of e.marks || []) {
    if (ATTEMPT.test(m.of)) attempt(m.of).at[m.is] ??= e.place;
    const k = m.of.startsWith('master ') ? m.of : undefined;
    if (m.is === 'starts') masters[k] = { from: e.place };
    if (k && (m.is === 'crashes' || m.is === 'stops')) masters[k].to ??= e.place;
  }
}
const ENDS = ['killed', 'died', 'ended with its node', 'ended'];
for (const c of Object.values(containers)) {
  const ends = ENDS.map(word => attempt(c.attempt).at[word]).filter(place => place !== undefined);
  if (ends.length) c.ended = Math.min(...ends);
  attempt(c.attempt).container = c;
}
const winners = new Set(last.winners.filter(Boolean));
const fates = last.fates.map(f => ({ ...f, a: attempt(f.attempt) }));
const TONES = { won: 'green', lost: 'red', undecided: 'amber', unfinished: 'grey', killed: 'grey' };
const toneOf = fate => TONES[fate] || 'red';

// ---- the words of an event: its sentence, or what it is
function wordsOf(e) {
  if (e.sentence) return e.sentence;
  if (e.event === 'deliver') return `${capital(packets[e.packet].to)} gets packet ${e.packet}: ${brief(packets[e.packet].says)}`;
  const who = e.container ? capital(nameOf(containers[e.container].attempt)) : `Master ${e.generation}`;
  if (e.event === 'compute') return `${who} computes ${count(e.bytes, 'byte')}`;
  if (e.event === 'launch') return `${who} launches ${brief(e.task)} on node ${e.node}`;
  return `${who}: ${e.call ? `${brief(e.call)}: ${e.answer}` : e.name}`;
}
