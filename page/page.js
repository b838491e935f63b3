// Plays a recording, command by command. frames.js reads it, picture.js draws it, said.js explains it.
'use strict';

const $ = id => document.getElementById(id);
const MODES = {
  slice: 'a free does its work in slices',
  quota: 'tasks share the pages, each within its quota',
  large: 'an object may exceed a page: a spine lists its parts',
};
const SLOTS = "Solid: the object's header and bytes. Hatched in its colour: the rest of its slot. Grey hatching: the words past a page's last slot. ";
const LEGENDS = {
  slice: `${SLOTS}Dashed: the two halves of an object that moves, and the slot of the job.`,
  quota: 'Filled: slots in use, in the colour of their task. Dashed: free pages. ▶: the present task, whose calls the script makes.',
  large: 'Filled: slots in use, in a colour for each size. Dashed: free pages, and spines.',
};

// What is shown: a recording, which is the example `row` unless it is a script of the reader's; the managers, one or two; and
// the command. `playing` is the timer of the next command, `requests` counts what was asked for, `cache` has the pages drawn.
let tape, row, shown = [], at = 0, playing = 0, requests = 0, cache = [];

// What runs scripts here: live.js, with the module. A page that tools/heap_picture made for one script has none.
const live = typeof NorphuenLive === 'undefined' ? null : NorphuenLive;

const length = () => Math.max(...Object.values(tape.runs).map(it => it.length), 0);

// ---- The pictures

// Shows these managers, one or two.
function beside(managers) {
  const names = Object.keys(tape.runs);
  shown = managers.filter((it, n) => tape.runs[it] && managers.indexOf(it) === n).slice(0, 2);
  if (!shown.length) shown = names.slice(0, 1);
  cache = [];
  const title = (manager, n) => {
    if (names.length === 1) return `Mode ${tape.mode}<small>${MODES[tape.mode] || ''}</small>`;
    const options = names.map(it => `<option value="${it}" ${it === manager ? 'selected' : ''}>${NAMES[it]}</option>`);
    return `<select aria-label="The manager ${n ? 'beside it' : 'that is shown'}">${options.join('')}</select><small>${HINTS[manager]}</small>`;
  };
  $('heaps').innerHTML = shown.map((manager, n) => `<section class="heap card"><h2>${title(manager, n)}</h2>
    <dl class="facts ${shown.length > 1 ? '' : 'few'}"></dl><p class="said" ${n ? '' : 'aria-live="polite"'}></p>
    <div class="view" role="group"><div class="pages"></div><svg class="arrow" aria-hidden="true"></svg></div></section>`).join('');
  $('heaps').querySelectorAll('select').forEach((pick, n) => {
    // If it is the manager beside it, the two change places.
    pick.onchange = () => beside(shown.map((it, m) => (m === n ? pick.value : it === pick.value ? shown[n] : it)));
  });
  $('legend').textContent = `${LEGENDS[tape.mode] || `${SLOTS}Dashed: where the object was that was freed or has moved.`} A word has 8 bytes.`;
  listLines();
  drawStrip();
  show(at);
}

function drawHeap(n, animate) {
  const manager = shown[n], frames = tape.runs[manager], s = settings(), card = $('heaps').children[n];
  const view = card.querySelector('.view'), [grid, arrow] = view.children, facts = figures(manager, frames, at);
  card.querySelector('.facts').innerHTML = facts.map(([name, label, value]) => `<div><dt>${label}</dt><dd data-fact="${name}">${value}</dd></div>`).join('');
  card.querySelector('.said').innerHTML = sentence(manager, frames, at);
  view.setAttribute('aria-label', `${NAMES[manager]}: ${facts.map(([, label, value]) => `${value} ${label}`).join(', ')}`);
  arrow.innerHTML = '';
  if (!s || !frames.length) return;
  const i = Math.min(at, frames.length - 1);
  if (tape.mode === 'quota' || tape.mode === 'large') {
    grid.className = '';
    grid.innerHTML = tape.mode === 'quota' ? sceneOfTasks(frames, i) : sceneOfParts(frames, i);
    return;
  }
  // Pages beside each other, and their height.
  const [, columns, high] = [[4, 1, 40], [10, 1, 20], [32, 2, 24], [128, 4, 16], [512, 8, 10], [4096, 16, 10]].find(([most]) => s.pages <= most);
  unit = (view.clientWidth / columns - 8) / s.words;
  grid.className = `pages ${s.pages > 128 ? 'tiny' : ''}`;
  grid.style.cssText = `--columns:${columns};--high:${high}px`;
  drawPages(grid, n, tape.mode === 'slice' ? sceneOfSlices(frames, i) : sceneOfRun(manager, frames, i));
  if (frames[at]?.move) drawMove(grid, arrow, frames[at].move, animate);
}

// Draws the pages that have changed.
function drawPages(grid, n, pages) {
  const old = cache[n] || [], name = it => `page ${it.free ? 'free' : ''}`;
  if (!cache[n]) grid.innerHTML = pages.map(it => `<div class="${name(it)}">${it.html}</div>`).join('');
  else pages.forEach((it, page) => {
    if (it.html === old[page].html) return;
    grid.children[page].className = name(it);
    grid.children[page].innerHTML = it.html;
  });
  cache[n] = pages;
}

// ---- The strip: above, what each manager did, command by command; below, a curve of bytes or of steps

// What a command did, with its mark: its height and its place in a row of 12.
const MARKS = { m: ['made', 0, 5], f: ['freed', 5, 5], v: ['freed, one moved', 3, 8], x: ['refused', 0, 11] };

function kindOf({ no, move, carries, ok, verb }) {
  if (no) return 'x';
  if (move || carries) return 'v';
  return ok && 'mf'.includes(verb) ? verb : '';
}

function drawStrip() {
  const n = Math.max(1, length()), frames = tape.runs[shown[0]], hasSteps = frames.some(it => it.cost?.last);
  const chart = hasSteps ? $('chart').value : 'bytes', hasCurve = hasSteps || frames.some(it => it.frag);
  const rows = shown.flatMap((manager, line) => Object.entries(MARKS).map(([kind, [, y, high]]) => {
    const marks = tape.runs[manager].map((frame, i) => kindOf(frame) === kind ? `M${i + 0.1} ${12 * line + y}h.8v${high}h-.8z` : '');
    return `<path class="${kind}" d="${marks.join('')}"/>`;
  }));
  const top = 12 * shown.length + 2, tall = hasCurve ? 56 : top;
  const values = frames.map(chart === 'bytes' ? it => [it.bytes.asked, it.bytes.held] : it => [it.cost?.last || 0, it.cost?.bound || 0]);
  const most = values.flat().reduce((one, other) => Math.max(one, other), 1);
  const curve = j => values.map((it, i) => `V${(56 - (55 - top) * it[j] / most).toFixed(2)}H${i + 1}`).join('');
  const curves = hasCurve ? `<path class="asked" d="M0 56${curve(0)}V56z"/><path class="held" d="M0 56${curve(1)}"/>` : '';
  $('chart').hidden = !hasSteps;
  $('strip').setAttribute('viewBox', `0 0 ${n} ${tall}`);
  $('strip').style.height = hasCurve ? '' : '18px';
  $('strip').innerHTML = `${rows.join('')}${curves}<path class="here" d=""/>`;
  $('strip').setAttribute('aria-label', `What each of the ${n} commands did${hasCurve ? `, and a curve of ${chart}` : ''}`);
  const signs = Object.entries(MARKS).map(([kind, [text, y, high]]) => `<b><svg viewBox="0 0 9 11" aria-hidden="true"><path class="${kind}" d="M0 ${y}h9v${high}h-9z"/></svg>${text}</b> `);
  const about = chart === 'bytes' ? `area: bytes asked for, line: bytes held by ${NAMES[shown[0]]}, up to ${size(most)}` : `area: steps by ${NAMES[shown[0]]}, line: the bound that the tool prints, up to ${most}`;
  $('key').firstElementChild.innerHTML = `${signs.join('')}${shown.length > 1 ? `rows: ${shown.map(it => NAMES[it]).join(', ')}; ` : ''}${hasCurve ? about : ''}`;
}

// ---- The script with the replies

// Each hundred lines are a list of their own, so that lists out of sight cost nothing.
function listLines() {
  const said = new Map(), reply = (text, no) => `<span class="said ${no ? 'no' : ''}" data-reply>${plain(text)}</span>`;
  const [first, other] = shown.map(it => tape.runs[it]);
  for (const frame of first) said.set(frame.line, reply(frame.reply, frame.no));
  (other || []).forEach((frame, i) => {
    if (first[i]?.reply === frame.reply) return;
    const text = `${NAMES[shown[1]]}: ${plain(frame.reply.split('\n').pop().slice(0, 70))}`;
    said.set(frame.line, `${said.get(frame.line) || ''}<span class="other ${frame.no ? 'no' : ''}">${text}</span>`);
  });
  if (tape.bad) said.set(tape.bad[0], reply(tape.bad[1], true));
  const items = tape.script.replace(/\n$/, '').split('\n').map((text, i) => {
    const replies = said.get(i + 1);
    return replies ? `<li value="${i + 1}"><code>${plain(text)}</code>${replies}</li>` : `<li value="${i + 1}" class="note">${plain(text)}</li>`;
  });
  const lists = [];
  for (let i = 0; i < items.length; i += 100) {
    const some = items.slice(i, i + 100);
    lists.push(`<ol aria-label="Lines ${i + 1} to ${i + some.length} with their replies">${some.join('')}</ol>`);
  }
  $('lines').innerHTML = tape.script ? lists.join('') : '<p>The script is empty.</p>';
}

// Scrolls to a line. Lists out of sight have a guessed height until they are near, so it looks again in the next frames.
function scrollLines(line, again) {
  const list = $('lines'), y = line.getBoundingClientRect().top - list.getBoundingClientRect().top;
  if (y < 20 || y > list.clientHeight - 50) list.scrollTop += y - list.clientHeight / 2;
  cancelAnimationFrame(scrollLines.next);
  if (again) scrollLines.next = requestAnimationFrame(() => scrollLines(line, again - 1));
}

// ---- What is shown

// Shows the command i.
function show(i, animate) {
  at = Math.max(0, Math.min(i, length() - 1));
  shown.forEach((_, n) => drawHeap(n, animate));
  $('asked').innerHTML = answers();
  $('strip').querySelector('.here').setAttribute('d', `M${at + 0.5} 0V56`);
  const frame = shown.map(it => tape.runs[it][at]).find(it => it);
  $('slide').value = at;
  $('count').textContent = $('slide').ariaValueText = frame ? `${at + 1} of ${length()}: ${frame.text.slice(0, 20)}` : 'no command';
  $('lines').querySelector('[aria-current]')?.removeAttribute('aria-current');
  const line = frame && $('lines').querySelector(`li[value="${frame.line}"]`);
  if (line) {
    line.setAttribute('aria-current', 'true');
    scrollLines(line, 5);
  }
  clearTimeout(show.link);
  show.link = setTimeout(link, 300);
}

// Shows a recording from command `first` on.
function present(made, about, first, managers) {
  tape = made;
  play(false);
  $('about').textContent = `${about}${tape.arguments ? ` Arguments: ${tape.arguments}.` : ''}`;
  if ($('edit').value !== tape.script) $('edit').value = tape.script;
  $('slide').max = Math.max(0, length() - 1);
  at = first;
  beside(managers || [tape.own, tape.own === 'cf' ? 'tlsf' : 'cf']);
}

// Shows an example.
async function choose(name, first, managers) {
  const mine = ++requests, found = RECORDINGS.find(it => it[0] === name) || RECORDINGS.find(it => it[0] === 'gaps') || RECORDINGS[0];
  const made = await unpack(found[2]).then(prepare);
  if (mine !== requests) return;
  row = found;
  $('pick').value = row[0];
  present(made, row[1], first, managers);
  document.body.dataset.ready = row[0];
}

// Runs a script on the module and shows it from command `first` on. If it can't be run, says why, and returns false; also if
// another script or example was asked for meanwhile.
async function edit(script, first, managers) {
  const mine = ++requests, wait = setTimeout(() => { if (mine === requests) $('fault').textContent = 'The script runs …'; }, 300);
  let made, packed, why = '';
  try {
    [made, packed] = await Promise.all([live.record(script).then(prepare), packText(script)]);
  } catch (fault) {
    if (!(fault instanceof live.Fault)) throw fault;
    why = `✕ ${fault.message}`;
  } finally {
    clearTimeout(wait);
  }
  if (mine !== requests) return false;
  $('fault').textContent = why;
  if (why) return false;
  const kept = made.own === tape?.own && shown.length && shown.every(it => made.runs[it]) ? shown : undefined;
  present(Object.assign(made, { packed }), 'A script that runs in this page.', first, managers || kept);
  document.body.dataset.ready = 'script';
  return true;
}

// ---- The link to what is shown: the example or the script, the command and the managers

function link() {
  const hash = `#${tape.packed ? `script=${tape.packed}` : `example=${encodeURIComponent(row[0])}`}&at=${at}&of=${shown.join()}`;
  if (playing || location.hash === hash) return;
  try {
    history.replaceState(null, '', hash);
  } catch {
    location.hash = hash;
  }
}

function readLink() {
  const given = new URLSearchParams(location.hash.slice(1));
  return { example: given.get('example'), script: given.get('script'), first: Number(given.get('at')) || 0, managers: given.get('of')?.split(',') };
}

async function openLink() {
  const { example, script, first, managers } = readLink();
  $('fault').textContent = '';
  const text = live && script && (await unpackText(script).catch(() => null));
  if (!text || !(await edit(text, first, managers))) await choose(example, first, managers);
}

// Whether the link is that of another recording or command.
function linkIsOther() {
  const { example, script, first } = readLink();
  return first !== at || (script ? script !== tape.packed : tape.packed || example !== row[0]);
}

// ---- Playing

// Plays on; a move is shown longest, and a long script takes a minute at most.
function play(on) {
  clearTimeout(playing);
  playing = 0;
  $('play').textContent = on ? 'Pause' : 'Play';
  if (!on) return;
  if (at >= length() - 1) show(0);
  const haste = Math.min(1, 60000 / (300 * length()));
  const pace = () => {
    const frames = shown.map(it => tape.runs[it][at]);
    return Math.max(16, haste * (frames.some(it => it?.move) ? 1100 : frames.some(it => it?.no) ? 700 : 180));
  };
  const next = () => {
    if (at >= length() - 1) return play(false);
    show(at + 1, true);
    playing = setTimeout(next, pace());
  };
  playing = setTimeout(next, 250);
}

// Stops, and shows the command i.
function go(i, animate) {
  play(false);
  show(i, animate);
}

const BUTTONS = {
  first: () => go(0),
  back: () => go(at - 1),
  play: () => play(!playing),
  next: () => go(at + 1, true),
  last: () => go(length()),
};
const KEYS = { Home: 'first', ArrowLeft: 'back', ' ': 'play', ArrowRight: 'next', End: 'last' };

function onKey(event) {
  const name = KEYS[event.key];
  // Where the key has a meaning of its own, it keeps it.
  if (!name || event.target.matches('select, textarea, summary') || event.ctrlKey || event.metaKey || event.altKey) return;
  if (name === 'play' && event.target.matches('button')) return;
  event.preventDefault();
  BUTTONS[name]();
}

async function begin() {
  $('pick').innerHTML = RECORDINGS.map(([name]) => `<option value="${plain(name)}">${plain(name.replace(/_/g, ' '))}</option>`).join('');
  $('live').hidden = $('change').hidden = !live;
  if (!RECORDINGS.length) {
    $('about').textContent = 'There is no recordings.js beside this page.';
    return;
  }
  // The editor is shown once its script has run.
  $('change').onclick = async () => {
    $('edit').hidden = !$('edit').hidden || !(await edit(tape.script, at));
    if (!$('edit').hidden) $('edit').focus();
  };
  $('edit').oninput = () => {
    clearTimeout(edit.later);
    edit.later = setTimeout(() => edit($('edit').value, at), 300);
  };
  $('pick').onchange = () => {
    $('fault').textContent = '';
    choose($('pick').value, 0);
  };
  $('chart').onchange = () => {
    drawStrip();
    show(at);
  };
  $('slide').oninput = () => go(Number($('slide').value));
  $('strip').onclick = event => {
    const box = $('strip').getBoundingClientRect();
    go(Math.floor(((event.clientX - box.left) / box.width) * length()));
  };
  $('lines').onclick = event => {
    const item = event.target.closest('li');
    if (!item) return;
    const i = tape.runs[shown[0]].findIndex(it => it.line >= item.value);
    go(i < 0 ? length() : i, true);
  };
  for (const [id, press] of Object.entries(BUTTONS)) $(id).onclick = press;
  document.onkeydown = onKey;
  addEventListener('resize', () => tape && shown.forEach((_, n) => drawHeap(n)));
  await openLink();
  // Opened without a link, the page plays from just before the first move.
  if (!location.hash && row[0] === 'gaps') {
    const move = tape.runs.cf.findIndex(it => it.move), still = matchMedia('(prefers-reduced-motion: reduce)').matches;
    show(still ? move : move - 3);
    play(!still);
  }
  addEventListener('hashchange', () => linkIsOther() && openLink());
}

begin();
