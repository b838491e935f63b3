// The pictures, as markup: each place and length in them is read off a reply of the tool.
'use strict';

// The width of a word in pixels, which drawHeap sets.
let unit = 1;

const plain = text => String(text).replace(/[&<>"]/g, c => `&#${c.charCodeAt(0)};`);
const count = (n, word) => `${n.toLocaleString('en')} ${word}${n === 1 ? '' : 's'}`;
const size = bytes => `${bytes.toLocaleString('en')} B`;
const percent = (part, whole) => `${Number(((100 * part) / whole).toFixed(3))}%`;
const hue = id => Math.round(id * 137.508 + 205) % 360;
const pageOf = word => Math.floor(word / settings().words);

// The settings of the heap; null if there is none.
function settings() {
  const [frames] = Object.values(tape.runs), first = frames[0];
  if (!first || first.verb !== 'heap' || !first.ok) return null;
  const [pages, bytes, k, proxies] = numbers(first.text);
  return { pages, bytes, k, proxies, words: bytes / 8 };
}

// ---- The region

const spot = (at, words, s) => `left:${percent(at % s.words, s.words)};width:${percent(words, s.words)}`;

// One piece of an object on its page: `words` from word `at` on, the first of which is its word `index`. `used` of its words
// are its header and bytes.
function piece({ id, used, how, said }, at, index, words, s) {
  const solid = Math.max(0, Math.min(words, used - index));
  const style = `${spot(at, words, s)};--h:${hue(id)};--u:${percent(solid, words)}`;
  const name = words * unit < 20 ? '' : index ? `${id}…` : id;
  return `<i role="img" class="${how}" style="${style}" data-id="${id}" data-at="${at}" data-words="${words}" title="${plain(said)}">${name}</i>`;
}

// A place that was left, or where a job works.
const outline = (at, words, s, kind, said) => `<u class="${kind}" style="${spot(at, words, s)}">${said}</u>`;

// The pages of a region, as {free, html}: `inside` has [page, markup], and `slots` the {words, slots} of each page in use. The
// pages of a manager with blocks are only rows of the picture.
function pagesOf(s, inside, slots, paged) {
  const markup = Array.from({ length: s.pages }, () => '');
  for (const [page, text] of inside) markup[page] += text;
  return markup.map((text, page) => {
    const free = paged && !slots.has(page), of = slots.get(page);
    const name = paged ? `page ${page}` : `words ${page * s.words} to ${(page + 1) * s.words - 1}`;
    const about = unit * s.words < 180 ? '' : of ? ` · ${count(of.slots, 'slot')} of ${of.words} words` : free ? ' · free' : '';
    const style = of ? `--slot:${percent(of.words, s.words)};--end:${percent(of.words * of.slots, s.words)}` : '';
    const label = s.pages <= 40 ? `<span>${name}${about}</span>` : '';
    return { free, html: `${label}<div class="box ${of ? 'slots' : ''}" style="${style}" title="${name}${about}">${text}</div>` };
  });
}

// In modes run and compare: the objects, and where those were that the command freed or moved.
function sceneOfRun(manager, frames, i) {
  const s = settings(), frame = frames[i], paged = isPaged(manager), inside = [], slots = new Map();
  const made = new Set((frame?.changes || []).filter(it => it.to).map(it => it.id));
  const classes = new Map((walkOf(frame?.walk).classes || []).map(it => [it.words, it.slots]));
  // A block can go on in the next row.
  const lay = (it, draw) => {
    for (let at = it.at, index = 0; index < it.words; ) {
      const page = Math.floor(at / s.words), words = Math.min(it.words - index, s.words * (page + 1) - at);
      inside.push([page, draw(at, index, words)]);
      at += words;
      index += words;
    }
  };
  for (const { id, from, to } of frame?.changes || []) {
    if (!from || (to && to.at === from.at)) continue;
    const [kind, said] = to ? ['left', `${id} left`] : ['', `${id} freed`];
    lay(from, (at, _, words) => outline(at, words, s, kind, said));
  }
  for (const [id, it] of objectsAt(frames, i)) {
    const said = `object ${id}: ${count(it.bytes, 'byte')}, ${it.words} words from word ${it.at} on`;
    const object = { id, used: 1 + Math.ceil(it.bytes / 8) + !paged, how: made.has(id) ? 'new' : '', said };
    if (paged) slots.set(Math.floor(it.at / s.words), { words: it.words, slots: classes.get(it.words) || Math.floor(s.words / it.words) });
    lay(it, (at, index, words) => piece(object, at, index, words, s));
  }
  return pagesOf(s, inside, slots, paged);
}

// In mode slice: each object, the one that moves in two halves, and the slot of the job.
function sceneOfSlices(frames, i) {
  const s = settings(), frame = frames[i], inside = [], slots = new Map(), lengths = new Map();
  const use = (at, words) => slots.set(pageOf(at), { words, slots: Math.floor(s.words / words) });
  for (const one of frames.slice(0, i + 1)) if (one.verb === 'm' && one.ok) lengths.set(one.id, numbers(one.text)[1]);
  for (const line of linesOf(frame?.words)) {
    const [id, ...places] = numbers(line), slot = tape.slots[lengths.get(id)], used = 1 + Math.ceil(lengths.get(id) / 8);
    const isNew = frame.id === id && frame.verb === 'm' && frame.ok;
    for (let j = 0; j < places.length; j += 3) {
      const [at, index, n] = places.slice(j, j + 3);
      const how = `${places.length > 3 ? 'half' : ''} ${isNew ? 'new' : ''}`;
      const said = `object ${id}: its words ${index} to ${index + n - 1} are at word ${at}`;
      use(at, slot);
      // The piece with the last word has the rest of the slot.
      inside.push([pageOf(at), piece({ id, used, how, said }, at, index, index + n === used ? slot - index : n, s)]);
    }
  }
  const job = frame?.job;
  if (job?.words) {
    use(job.at, job.words);
    inside.push([pageOf(job.at), outline(job.at, job.words, s, 'left', `job${job.printed ? `: ${count(job.printed, 'word')} left` : ''}`)]);
  }
  return pagesOf(s, inside, slots, true);
}

// ---- Pages without places, for modes quota and large

const group = (how, data, title, about, markup) => `<div class="group ${how}" ${data}><b>${title}<small>${about}</small></b><div class="row">${markup}</div></div>`;

// The pages of each class as `walk` counts them: with bound 1 all but one are full. `colour` returns a number for a class.
function countedPages(s, classes, colour) {
  return classes.map(it => {
    const style = `--slot:${percent(it.words, s.words)};--end:${percent(it.words * it.slots, s.words)}`;
    const full = it.pages - it.partly;
    return Array.from({ length: it.pages }, (_, page) => {
      const used = page < full ? it.slots : it.live - full * it.slots;
      const slot = j => `<i style="${spot(j * it.words, it.words, s)};--h:${hue(colour(it))};--u:100%"></i>`;
      const cells = Array.from({ length: used }, (_, j) => slot(j)).join('');
      return `<div class="page ${it.slots > 24 ? 'tiny' : ''}"><span>${used} of ${count(it.slots, 'slot')} · ${it.words} words</span>
        <div class="box slots" style="${style}" data-words="${it.words}" data-used="${used}">${cells}</div></div>`;
    }).join('');
  }).join('');
}

function emptyPages(n, said) {
  const more = n > 24 ? `<span class="chip">and ${n - 24} more</span>` : '';
  return `<div class="page free"><span>${said}</span><div class="box"></div></div>`.repeat(Math.min(n, 24)) + more;
}

function sceneOfTasks(frames, i) {
  const s = settings(), tasks = tasksOf(frames[i]), lengths = new Map(tasks.map(it => [it.id, new Map()]));
  for (const one of frames.slice(0, i + 1)) {
    const own = lengths.get(Number(one.task));
    if (one.ok && one.verb === 'm') own.set(one.id, numbers(one.text)[1]);
    if (one.ok && one.verb === 'f') own.delete(one.id);
  }
  const groups = tasks.map(task => {
    const objects = [...lengths.get(task.id)].slice(0, 30).map(([id, bytes]) => `<span class="chip">object ${id}: ${size(bytes)}</span>`);
    const markup = countedPages(s, task.classes, () => task.id + 1) + emptyPages(task.free, 'in its quota') + objects.join('');
    const data = `data-task="${task.id}" data-pages="${task.pages}" data-free="${task.free}"`;
    const about = `quota ${count(task.pages + task.free, 'page')}, ${task.pages} used`;
    return group(Number(frames[i].task) === task.id ? 'present' : '', data, `Task ${task.id}`, about, markup);
  });
  const rest = tasks.reduce((left, it) => left - it.pages - it.free, s.pages);
  return groups.join('') + group('', '', 'No task', `${count(rest, 'page')} in no quota`, emptyPages(rest, 'in no quota'));
}

function sceneOfParts(frames, i) {
  const s = settings(), walk = walkOf(frames[i].walk), full = s.bytes - 8, live = new Map();
  let before = 0;
  for (const one of frames.slice(0, i + 1)) {
    const now = walkOf(one.walk).live || 0;
    if (one.ok && one.verb === 'm') live.set(one.id, { bytes: numbers(one.text)[1], inner: now - before });
    if (one.ok && one.verb === 'f') live.delete(one.id);
    before = now;
  }
  const objects = [...live].map(([id, { bytes, inner }]) => {
    const isNew = frames[i].id === id && frames[i].verb === 'm' && frames[i].ok;
    const chip = (text, how = '') => `<span class="chip ${how} ${isNew ? 'new' : ''}">${text}</span>`;
    const part = (p, length) => chip(`part ${p + 1}: ${size(length)}, slot of ${tape.slots[length]} words`);
    const parts = inner - 1, shown = Array.from({ length: Math.min(parts, 12) }, (_, p) => part(p, p + 1 < parts ? full : bytes - p * full));
    const spine = chip(`spine: ${count(parts, 'part')}, slot of ${tape.slots[4 * parts]} words`, 'spine');
    const markup = parts ? `${spine} → ${shown.join(' ')}${parts > 12 ? ' …' : ''}` : chip(`one slot of ${tape.slots[bytes]} words`);
    return group('', `data-object="${id}" data-inner="${inner}"`, `Object ${id}`, size(bytes), markup);
  });
  const pages = countedPages(s, walk.classes, it => it.words) + emptyPages(walk.free, 'free');
  return group('', '', 'Pages', `${walk.pages} in use, ${walk.free} free`, pages) + objects.join('');
}

// ---- The move

// An arrow from where the object was to where it is, and the object on its way. It begins beside the name there, and bends
// towards that row.
function drawMove(grid, arrow, { id, from, to, words }, animate) {
  const s = settings(), all = grid.getBoundingClientRect();
  const within = (word, part) => {
    const box = grid.children[pageOf(word)].querySelector('.box').getBoundingClientRect();
    const along = ((word % s.words) + words * part) / s.words;
    return { x: box.left - all.left + box.width * along, y: box.top - all.top + box.height / 2 };
  };
  const old = within(from, 0.5), end = within(to, 0.5), back = end.x < old.x, start = within(from, back ? 0.12 : 0.88);
  const [x, y] = [end.x - start.x, end.y - start.y], far = Math.hypot(x, y) || 1;
  const bend = (Math.min(50, far / 4) / far) * (x * y < 0 ? -1 : 1);
  const control = { x: (start.x + end.x) / 2 + y * bend, y: (start.y + end.y) / 2 - x * bend };
  const turn = Math.atan2(end.y - control.y, end.x - control.x);
  const behind = (by, off) => `${end.x - by * Math.cos(turn - off)} ${end.y - by * Math.sin(turn - off)}`;
  grid.querySelector('u.left')?.classList.toggle('back', back);
  arrow.innerHTML = `<path d="M${start.x} ${start.y}Q${control.x} ${control.y} ${behind(7, 0)}"/>
    <circle cx="${start.x}" cy="${start.y}" r="4"/><polygon points="${end.x} ${end.y} ${behind(13, 0.45)} ${behind(13, -0.45)}"/>`;
  const item = grid.querySelector(`i[data-id="${id}"]`);
  if (!item || !animate || matchMedia('(prefers-reduced-motion: reduce)').matches) return;
  const box = item.parentElement, way = `translate(${old.x - end.x}px, ${old.y - end.y}px)`;
  box.style.overflow = 'visible';
  item.animate([{ transform: way }, { transform: 'none' }], { duration: playing ? 450 : 700, easing: 'ease-in-out' }).onfinish = () => { box.style.overflow = ''; };
}
