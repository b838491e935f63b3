// What the page says of a command: what it did, why, what it cost, and what is proved of it.
'use strict';

const NAMES = { cf: 'Compact-fit', nm: 'Non-moving', tlsf: 'TLSF', half: 'Half-Fit' };
const HINTS = {
  cf: 'moves an object to close a gap', nm: 'Compact-fit that moves by a block table',
  tlsf: 'moves nothing', half: 'moves nothing',
};
const ofManagers = () => tape.mode === 'run' || tape.mode === 'compare';

// The figures above a picture, as [name, label, value].
function figures(manager, frames, i) {
  const s = settings(), frame = frames[i];
  if (!s || !frame) return [];
  const refused = ['refused', tape.mode === 'slice' ? 'refused or busy' : 'refused', frame.refused];
  const live = n => ['live', tape.mode === 'large' ? 'spines, parts, short objects' : 'live objects', n];
  if (tape.mode === 'slice') {
    const left = frame.verb === 's' ? numbers(frame.reply)[0] : '–';
    return [live(linesOf(frame.words).length), ['left', 'words left by this slice', left], refused];
  }
  if (tape.mode === 'quota') {
    const sum = name => tasksOf(frame).reduce((all, it) => all + it[name], 0);
    return [live(sum('live')), ['pages', 'pages in use', sum('pages')], refused];
  }
  const walk = walkOf(frame.walk), free = walk.free ?? s.pages;
  const space = isPaged(manager)
    ? [['pages', 'pages in use', walk.pages ?? 0], ['free', 'pages free', free], ['largest', 'largest free', free ? size(s.bytes) : '–']]
    : [['left', 'free in all', size(s.pages * s.bytes - frame.bytes.taken)], ['gaps', 'free blocks', walk.gaps ?? 1], ['largest', 'largest free', size(8 * (walk.largest ?? s.pages * s.words))]];
  if (tape.mode === 'large') return [live(walk.live ?? 0), ...space, refused];
  return [live(objectsAt(frames, i).size), ...space, refused, ['moves', 'moved', frame.moves]];
}

// ---- What the command did

const REFUSED = {
  'refused size': 'the object with its header exceeds a page',
  'refused proxy': 'every proxy is in use',
  'refused sum': 'the quotas would exceed the pages',
  'refused used': 'the task uses more pages than that',
};

// The slot that a resize gave its object, if that is another one.
const newSlot = frame => frame.verb === 'z' && frame.changes.find(it => it.id === frame.id && it.to.at !== it.from.at)?.to;

function sentence(manager, frames, i) {
  const frame = frames[i], s = settings();
  if (!frame) return tape.bad ? 'The run ended before this command.' : '';
  if (frame.no) return `<span class="no">✕ ${plain(frame.reply)}</span>: ${causeSaid(manager, frame)}.`;
  if (frame.verb === 'heap' && frame.ok) return `${count(s.pages, 'page')} of ${size(s.bytes)}, all free.`;
  if (frame.verb === 'm' && frame.ok) return mallocSaid(manager, frames, i);
  if ('fz'.includes(frame.verb) && frame.ok) return freeSaid(manager, frames, i);
  return otherSaid(frame) || `The reply is <code>${plain(frame.reply.split('\n').pop().slice(0, 90))}</code>.`;
}

// Why a command was refused.
function causeSaid(manager, frame) {
  const s = settings();
  if (REFUSED[frame.reply]) return REFUSED[frame.reply];
  if (frame.reply === 'busy') return frame.verb === 'f' ? 'the job of an earlier free is pending' : 'only the slot of the pending job is left';
  if (tape.mode === 'quota') return 'the task would need more pages than its quota';
  if (isPaged(manager)) return 'no slot of its size is free, and too few pages are';
  const free = s.pages * s.bytes - frame.bytes.taken, largest = 8 * walkOf(frame.walk).largest;
  return `no free block serves: ${size(free)} are free in all, but the largest block has ${size(largest)}`;
}

function mallocSaid(manager, frames, i) {
  const { id, tokens } = frames[i], bytes = size(Number(tokens[2])), it = objectsAt(frames, i).get(id);
  if (!it) return `Object ${id} is made, ${bytes}.${partsSaid(id, frames, i, n => ` It exceeds a page, so it has a spine and ${n} parts.`)}`;
  const place = isPaged(manager) ? `a slot of ${it.words} words on page ${pageOf(it.at)}` : `a block of ${it.words} words from word ${it.at} on`;
  return `Object ${id}, ${bytes}, gets ${place}.`;
}

// What a free or a resize did.
function freeSaid(manager, frames, i) {
  const frame = frames[i], slot = newSlot(frame), paged = isPaged(manager);
  const place = slot ? `, in a slot of ${slot.words} words on page ${pageOf(slot.at)}` : '';
  const said = frame.verb === 'f' ? `Object ${frame.id} is freed. ` : `Object ${frame.id} now has ${size(Number(frame.tokens[2]))}${place}. `;
  if (tape.mode === 'slice') return said + jobSaid(frame);
  if (tape.mode === 'large') return said + partsSaid(frame.id, frames, i, n => `Its spine and its ${n} parts are freed.`);
  if (tape.mode === 'quota') return said;
  if (frame.move) {
    const { id, from, to } = frame.move, left = [...objectsAt(frames, i).values()].some(it => pageOf(it.at) === pageOf(from));
    const free = left ? '' : `, and <em>page ${pageOf(from)} is free again</em>`;
    return `${said}<em>Object ${id} moves</em> from page ${pageOf(from)} into the gap on page ${pageOf(to)}${free}.`;
  }
  if (paged) return said + (slot ? 'No other object has to move.' : 'Nothing has to move.');
  return said + (frame.verb === 'f' ? 'Its block becomes a gap; nothing moves.' : '');
}

// In mode large: what is said of the parts of the object that was last made with this id, if it exceeds a page.
function partsSaid(id, frames, i, say) {
  const made = tape.mode === 'large' && frames.slice(0, i + 1).findLast(it => it.verb === 'm' && it.ok && it.id === id);
  const parts = made ? Math.ceil(Number(made.tokens[2]) / (settings().bytes - 8)) : 1;
  return parts > 1 ? say(parts) : '';
}

// What a free does in mode slice.
function jobSaid({ carries, job, slot }) {
  if (!carries) return job ? `Its slot of ${count(slot, 'word')} is cleared a slice at a time; each <code>s</code> does one.` : 'Its slot is cleared in one slice.';
  const { id, from, to, done, words } = carries;
  const way = `<em>Object ${id} moves</em> from page ${pageOf(from)} into the gap on page ${pageOf(to)}`;
  return job ? `${way}, a slice at a time: ${done} of the ${words} words of its slot so far. Each <code>s</code> moves more.` : `${way}, in one slice.`;
}

// What the other commands did, but for those whose reply says all.
function otherSaid({ verb, id, ok, reply, tokens: [, , one, two] }) {
  const [left] = numbers(reply);
  if (verb === 's') return left ? `A slice of the job is done; ${count(left, 'word')} are left.` : 'No job is pending any more.';
  if (verb === 'w' && ok) return `${count(two.length / 2, 'byte')} of object ${id} are written, from byte ${one} on.`;
  if (verb === 'r' && reply[0] === '=') return `Object ${id} is read, from byte ${one} on: <code>${plain(reply.slice(1, 60))}</code>.`;
  if (verb === 't') return `Task ${id} is the present task now.`;
  if (verb === 'quota' && ok) return `Task ${id} may use ${count(Number(one), 'page')} now.`;
  if (verb === 'need' && ok) return `Task ${id} declares at most ${count(Number(two), 'live object')} of ${size(Number(one))}.`;
  if (verb === 'admit' && reply === 'yes') return `The quota of task ${id} is enough for what it declared.`;
  if (verb === 'admit' && reply.startsWith('no ')) return `The quota of task ${id} is not enough: of the objects that it declared, number ${left} would be refused.`;
  return '';
}

// ---- What is proved

// Sentences of README and docs/GUARANTEES.md with the name that carries each; checks/page compares them with the two.
const CLAIM = {
  step: ["Each call of a manager makes the change that its contract describes, and no other. It returns a refusal other than OutOfMemory only if its cause holds.", 'MovingHeap, NonMovingHeap, TagHeap'],
  run: ["fixed, but for a manager's choices: a new object's number, the address of a new or resized object, which object moves, the steps (within the bound)", 'MeetsHeadline'],
  refused: ['With pages and every bound 1, Space means that the objects with the new one need more pages than there are', 'lack_of_room_is_arithmetic_at_bound_one'],
  malloc: ['an unused handle, an object of zeros', 'Manager::malloc'],
  free: ['moves at most one object', 'Manager::free'],
  partly: ['no class has an empty page or more partly full pages than its bound', 'KeepsRules'],
  blocks: ['the blocks fill the region, no two free ones are neighbours', 'KeepsRules'],
  resize: ['the first bytes stay, added ones are zeros', 'Manager::resize'],
  cost: ['A refused malloc, free or, with pages, resize changes only the recorded steps of the last call.', ''],
  read: ["A read returns its object's bytes as last written (new ones are zeros), whatever moved.", 'reads_give_what_was_written'],
  output: ['With pages and every bound k = 1, the output is a function of kind and script, unless the script has a q, b, p or steps.', 'one_transcript'],
  equal: ['Two calls of cf_main with equal arguments and input give equal output, however the input is chunked. Conditions: both end in status 0, 3 or 7; the managers passed are of equal kinds, and promise an order, as those of main do.', 'equal_scripts_get_equal_output'],
  physical: ["On NonMovingHeap an object keeps its physical blocks until it is freed or resized to another class", 'PagedHeap::free'],
  bad: ['a line within the limit is not in the grammar at its place', ''],
  slice: ['a function of script and quantum, but for the word p prints', 'MeetsSliced'],
  busy: ["A malloc's Busy means that with the new object and the job's slot the objects need more pages than there are", 'when_no_slot_is_left'],
  pending: ['a free of a live id is busy exactly while a job is pending', 'who_is_busy_and_how_long'],
  moving: ['MovingHeap · 17 · 20 + s · 34 + s + t', ''],
  nonmoving: ['NonMovingHeap · 18 · 22 + s + s/2 · 38 + 3(s + t)/2', ''],
  tags: ['TLSF, Half-Fit · 25 · 41 + s', ''],
  slices: ['SlicedHeap · 17 · 23 + q, then 15 + q a slice', ''],
  quotas: ['QuotaHeap · 17 · 20 + s', ''],
  words: ['does at most q of the n words left, where q is the quantum', 'SlicedHeap::step'],
  fixed: ['a function of the script', { large: 'MeetsLarge', quota: 'MeetsTasks' }],
  tasks: ["No page holds objects of two tasks, and a task's calls change no object and no quota of another task", 'a_task_is_answered_from_its_own'],
  alone: ['Other tasks affect a task only in that its quota lines may be refused.', 'tasks_are_isolated_in_a_script'],
  quota: ["the task's objects with the new one would need more pages than its quota", 'QuotaHeap::malloc'],
  set: ['all quotas would exceed the pages. Used: the task uses more', 'QuotaHeap::set_quota'],
  admit: ["After yes the task's mallocs reply ok or live as long as its quota is no smaller and its live objects, the new one included, are within what it had declared", 'an_admitted_task_is_served'],
  parts: ['all spines and parts would need more pages than there are', 'LargeHeap::malloc'],
  long: ['A malloc or free of a long object takes at most the steps of one malloc or free for each part and for the spine, and of an access of four bytes for each part.', 'LargeHeap'],
  counted: ['A step accesses a table entry or word, swaps two entries, or moves a word.', ''],
  classes: ['a class with n live objects, m to a page, has at most ⌊n/m⌋ + k pages; k, 1 to 64, may be partly full.', ''],
};

// What stands before a claim that is no whole sentence.
const LEAD = {
  run: 'The reply is ', slice: 'The reply is ', fixed: 'The reply is ',
  malloc: 'A malloc makes ', free: 'A free ', resize: 'Of a resize: ', words: 'A slice ',
  partly: 'Afterwards (the bound is k) ', blocks: 'Afterwards ',
  quota: 'Refused space: ', set: 'Refused sum: ', parts: 'Refused space: ',
  bad: 'The next line is bad. The run ends so if ', classes: 'Of Compact-fit, moving or not, it is proved that ', long: 'Of long objects: ',
};

function claim(name) {
  const [text, who] = CLAIM[name], by = typeof who === 'string' ? who : who[tape.mode];
  return `<p>${LEAD[name] || ''}<q>${plain(text)}</q>${by ? ` <small>${by}</small>` : ''}</p>`;
}

// The names of the claims for a command on a manager, the most telling first.
function claimsFor(manager, { verb, no, ok, reply }) {
  const space = reply === 'refused space', read = verb === 'r' || verb === 'w' ? 'read' : '';
  if (tape.mode === 'slice') return [no ? reply === 'busy' && (verb === 'f' ? 'pending' : 'busy') : read || ('sf'.includes(verb) && 'words'), 'slice'];
  if (tape.mode === 'quota') {
    if (no) return [verb === 'm' ? space && 'quota' : 'set', 'fixed'];
    return [read || { admit: 'admit', need: 'admit', t: 'alone' }[verb] || 'tasks', 'fixed'];
  }
  if (tape.mode === 'large') return [space ? 'parts' : read, 'fixed'];
  const paged = isPaged(manager);
  if (read) return ['read', 'run'];
  if (no) return ['cost', paged && verb === 'm' ? 'refused' : 'step'];
  if (verb === 'm' && ok) return ['malloc', paged ? 'partly' : 'blocks'];
  if (verb === 'f' && ok) return paged ? [manager === 'nm' ? 'physical' : 'free', 'partly', 'read'] : ['blocks', 'read'];
  if (verb === 'z' && ok) return ['resize', 'partly'];
  if (verb === 'walk' || verb === 'frag') return ['output', 'equal'];
  return verb === 'heap' ? ['equal'] : ['run', 'equal'];
}

// ---- The four questions of a newcomer, answered for the command that is shown

function answers() {
  const s = settings(), manager = shown[0], frame = tape.runs[manager][at];
  const answer = (title, text) => `<div><h3>${title}</h3>${text}</div>`;
  if (!s || !frame) return answer('What is shown?', '<p>The script has no command that was answered.</p>') + (tape.bad ? answer('What is proved of this line?', claim('bad')) : '');
  const names = claimsFor(manager, frame).filter(it => it);
  if (tape.bad && at === length() - 1) names.push('bad');
  const whose = ofManagers() ? NAMES[manager] : `mode ${tape.mode}`;
  const proved = `<p>Proved of ${whose}, for every script and not only this one:</p>${names.map(claim).join('')}`;
  return answer(isPaged(manager) ? 'What is a page, a slot, a proxy?' : 'What is a block, a proxy?', pageAnswer(s, manager, frame))
    + answer(...moveAnswer(s, manager, frame)) + answer('What does it cost?', costAnswer(frame)) + answer('What is proved of this line?', proved);
}

function pageAnswer(s, manager, frame) {
  const proxy = `<p>A <b>proxy</b> is the entry of a table that has an object's address. The program holds only its number${isPaged(manager) ? ', so an object can move' : ''}.</p>`;
  if (!isPaged(manager)) return `<p>A <b>block</b> is a run of words of any length. ${NAMES[manager]} cuts the memory into blocks, free or in use, and has no pages: the picture shows the memory in rows of ${s.words} words.</p>${proxy}`;
  const [{ to, from } = {}] = frame.changes, slot = frame.slot || (to || from)?.words;
  return `<p>A <b>page</b> is one of the equal parts of the memory, here ${count(s.pages, 'page')} of ${s.words} words. An empty one is free for objects of any size.</p>
    <p>A <b>slot</b> is one of the equal parts of a page in use${slot ? `, here ${slot} words` : ''}. An object with its header takes one. Pages with slots of one size are a class.</p>${proxy}`;
}

// The question on moves, and its answer; in modes quota and large, which show no moves, what is new there.
function moveAnswer(s, manager, frame) {
  const said = (title, text) => [title, `<p>${text}</p>${ofManagers() && isPaged(manager) ? claim('classes') : ''}`];
  const few = `at most k = ${s.k} ${s.k === 1 ? 'page' : 'pages'}`, are = s.k === 1 ? 'is' : 'are';
  if (tape.mode === 'quota') return said('What is a quota?', 'Tasks share the memory, but no page. A task may use as many pages as its quota has, whatever the others do.');
  if (tape.mode === 'large') return said('What is a spine?', 'A list of the parts of an object that exceeds a page. Each part but the last fills a page, so no long run of free words is needed.');
  if (tape.mode === 'slice') {
    const job = 'A job is done in slices, so that no call takes long.';
    if (!frame.carries && !frame.job?.mover) return said('What is a job?', `What a free leaves to do: to clear the slot, or to move another object into it. ${job}`);
    return said('Why does it move?', `At most one page of a class may be partly full, so another object fills the gap. ${job} Until the last one, the object's first words are at its new place and the others at the old one.`);
  }
  if (!isPaged(manager)) return said('Why did nothing move?', `${NAMES[manager]} never moves an object. So free words may lie in gaps, each too short.`);
  if (frame.move) {
    const { from, to } = frame.move;
    return said('Why did it move?', `Of a class ${few} may be partly full (<code>k</code> lines set others). The gap on page ${pageOf(to)} would have made one more, so an object of the partly full page ${pageOf(from)} fills it.`);
  }
  if (newSlot(frame)) return said('Why did it move?', `The new length needs a slot of another class, so the object's bytes move there. Then ${few} of a class ${are} partly full, and no other object has to move.`);
  return said('Why did nothing move?', frame.ok && 'fz'.includes(frame.verb) ? `Without a move ${few} of that class ${are} partly full.` : 'This command neither frees nor resizes an object.');
}

// The steps of the command on each manager that is shown, with the most that a call of its kind takes.
function costAnswer({ verb, cost }) {
  const most = (name, cell) => `<q>${plain(CLAIM[name][0].split(' · ')[cell])}</q>`;
  if (tape.mode === 'large') return claim('long') + claim('counted');
  if (tape.mode === 'slice') return `<p>A malloc takes at most ${most('slices', 1)} steps, a free ${most('slices', 2)}. q is the quantum: the most words of a slice.</p>${claim('counted')}`;
  if (tape.mode === 'quota') return `<p>A malloc takes at most ${most('quotas', 1)} steps, a free ${most('quotas', 2)}. s counts the words of its slot.</p>${claim('counted')}`;
  if (cost?.last === undefined) return `<p>The tool prints no steps for this command.</p>${claim('counted')}`;
  const call = { m: 'a malloc', f: 'a free', z: 'a resize' }[verb];
  const said = shown.filter(it => tape.runs[it][at]?.cost?.last !== undefined).map(it => {
    const one = tape.runs[it][at], row = { cf: 'moving', nm: 'nonmoving', tlsf: 'tags', half: 'tags' }[it];
    const slot = one.verb === 'f' && one.ok && one.changes[0]?.from.words;
    const here = slot ? `, here s = <span data-words="${it}">${slot}</span>` : '';
    return `<p>${NAMES[it]}: <span data-steps="${it}">${count(one.cost.last, 'step')}</span>; proved of ${call}: at most ${most(row, ' mfz'.indexOf(verb))}${here}.</p>`;
  });
  const words = { m: '', f: 's counts the words of the slot or block.', z: 's counts the words of the old slot, t those of the smaller one.' }[verb];
  const wider = cost.bound ? `The tool prints the wider bound of every manager with pages, also of one of your own: <span data-bound>${cost.bound}</span>.` : '';
  return `${said.join('')}<p>${words} ${wider}</p>${claim('counted')}`;
}
