// Reads recordings of the tool. A recording is {mode, own, arguments, script, bad, slots, runs: {manager: frames}}, and a
// frame a command with its replies: tools/heap_picture says what is asked between the commands.
'use strict';

const isPaged = manager => manager === 'cf' || manager === 'nm';
const linesOf = text => (text || '').split('\n').filter(line => line);
const numbers = text => ((text || '').match(/(?<!\S)\d+(?!\S)/g) || []).map(Number);

// ---- A recording or a link as text: compressed, in base64. A link has two letters that need no escape.

async function unpackText(data) {
  const bytes = Uint8Array.from(atob(data.replace(/-/g, '+').replace(/_/g, '/')), c => c.charCodeAt(0));
  return new Response(new Blob([bytes]).stream().pipeThrough(new DecompressionStream('gzip'))).text();
}

async function packText(text) {
  const packed = new Response(new Blob([text]).stream().pipeThrough(new CompressionStream('gzip')));
  const letters = Array.from(new Uint8Array(await packed.arrayBuffer()), it => String.fromCharCode(it));
  return btoa(letters.join('')).replace(/\+/g, '-').replace(/\//g, '_').replace(/=/g, '');
}

// A column of a recording: each text by the differences of its numbers from those of the text before.
function column(made) {
  const number = /\b(?:0|[1-9]\d{0,8})\b/g;
  let last = '';
  return made.map(one => {
    if (one === null) return undefined;
    if (one[0] === '=') return (last = one.slice(1));
    const differences = one.split(' ');
    let i = 0;
    return (last = last.replace(number, old => String(Number(old) + Number(differences[i++] || 0))));
  });
}

async function unpack(data) {
  const made = JSON.parse(await unpackText(data));
  for (const [manager, columns] of Object.entries(made.runs)) {
    const names = Object.keys(columns);
    const read = names.map(name => column(columns[name]));
    made.runs[manager] = (read[0] || []).map((_, i) => Object.fromEntries(names.map((name, j) => [name, read[j][i]])));
  }
  return made;
}

// ---- What the picture needs

// A pause, so that the page is not held up.
const pause = () => new Promise(done => setTimeout(done));

// Adds to each frame what the command changed, and the reports in numbers.
async function prepare(made) {
  for (const frames of Object.values(made.runs)) {
    await pause();
    prepareRun(frames);
  }
  if (made.mode === 'slice') findJobs(made);
  return made;
}

function prepareRun(frames) {
  const live = new Map();
  let bytes = { asked: 0, taken: 0, held: 0 }, refused = 0, moves = 0;
  for (const frame of frames) {
    const put = (id, to) => {
      frame.changes.push({ id, from: live.get(id), to });
      if (to) live.set(id, to);
      else live.delete(id);
    };
    const [verb, name, length] = (frame.tokens = frame.text.split(' '));
    const id = Number(name), ok = frame.reply === 'ok', no = /^(refused|busy)/.test(frame.reply);
    const [asked, taken, held] = numbers(frame.frag);
    const grew = frame.frag ? (taken - bytes.taken) / 8 : 0;
    if (frame.frag) bytes = { asked, taken, held };
    const [last, bound, moved] = numbers(frame.steps);
    refused += no;
    moves = moved ?? moves;
    const cost = 'mfz'.includes(verb) && (ok || no) ? { last, bound } : null;
    Object.assign(frame, { verb, id, ok, no, bytes, cost, refused, moves, changes: [], line: Number(frame.line) });
    // A resize keeps the slot, or takes one that is larger by as much as the slots in use grew.
    if (ok && frame.at) {
      const words = (verb === 'z' && live.has(id) ? live.get(id).words : 0) + grew;
      put(id, { at: Number(frame.at.slice(3)), words, bytes: Number(length) });
    }
    if (ok && verb === 'f' && frame.steps) put(id, null);
    if (frame.moved) {
      const [who, to] = numbers(frame.moved), from = live.get(who);
      put(who, { ...from, at: to });
      frame.move = { id: who, from: from.at, to, words: from.words };
    }
  }
}

// In mode slice: the job that is pending after each frame, with its slot, which is cleared or which an object leaves; and
// which object a free moves, on which pages. One job can follow another: its slot is known once its object has moved a word.
function findJobs({ runs: { cf: frames }, arguments: given, slots }) {
  const quantum = Number((given.match(/--quantum (\d+)/) || [0, 16])[1]);
  const lengths = new Map();
  const placesOf = frame => new Map(linesOf(frame.words).map(line => [line.split(' ')[0], line]));
  const jobOf = (line, mover) => {
    const [id, at] = numbers(line), words = slots[lengths.get(id)];
    return { at, words, mover, left: words - quantum };
  };
  let job = null, old = new Map();
  for (const frame of frames) {
    const now = placesOf(frame);
    const mover = [...now.keys()].find(id => old.has(id) && old.get(id) !== now.get(id));
    if (frame.verb === 'm' && frame.ok) lengths.set(frame.id, numbers(frame.text)[1]);
    if (frame.verb === 's') {
      const [left] = numbers(frame.reply);
      const another = left > (job ? job.left : 0);
      if (!left) job = null;
      else if (mover && mover !== job?.mover && !(job && another)) job = { ...jobOf(old.get(mover), mover), left, printed: left };
      else job = { ...(another ? {} : job), left, printed: left };
    }
    if (frame.verb === 'f' && frame.ok) {
      job = jobOf(old.get(mover || String(frame.id)), mover);
      frame.slot = job.words;
      if (mover) frame.carries = { id: Number(mover), from: job.at, words: job.words, ...startOf(now.get(mover)) };
      if (job.left <= 0) job = null;
    }
    frame.job = job;
    old = now;
  }
}

// Where the first words of an object are, and how many of them are there, by its pieces in mode slice.
function startOf(line) {
  const [, ...found] = numbers(line), first = found.findIndex((it, j) => j % 3 === 1 && it === 0);
  return { to: found[first - 1], done: found[first + 1] };
}

// ---- Questions to a recording

// The objects that live after frame i of a run, by id.
function objectsAt(frames, i) {
  const live = new Map();
  for (const { id, to } of frames.slice(0, i + 1).flatMap(it => it.changes)) {
    if (to) live.set(id, to);
    else live.delete(id);
  }
  return live;
}

// What a reply of `walk` says: its classes and totals, or with blocks the blocks.
function walkOf(text) {
  const lines = (text || '').split('\n'), last = lines.pop(), found = numbers(last);
  if (last.startsWith('blocks')) return { used: found[0], gaps: found[1], largest: found[2] };
  const classes = lines.map(numbers).map(([words, slots, live, pages, partly]) => ({ words, slots, live, pages, partly }));
  return { classes, live: found[0], pages: found[1], free: found[2] };
}

// What the `walk` of each task says after a frame of mode quota.
function tasksOf(frame) {
  return (frame?.tasks || '').split(/^task /m).slice(1).map(text => {
    const [id, ...rest] = text.trim().split('\n');
    return { id: Number(id), ...walkOf(rest.join('\n')) };
  });
}
