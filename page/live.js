// Runs scripts on the tool itself, norphuen.wasm, which tools/wasm_of makes, and records them as tools/heap_picture does: the
// comments there say what is asked, and why. checks/page_live compares the two.
'use strict';

// What a worker does, so that the page is not held up. The worker gets the text of this function, so that it needs no file:
// nothing outside is named here.
function work() {
  class Fault extends Error {}

  // ---- The module. Its addresses have 64 bits. It imports three functions that take and return memory. Here they hand out its
  // own memory from its heap base on, and return none: a run begins at the heap base again, since each run returns all that it took.
  class Tool {
    constructor(module) {
      const env = {
        rattle_alloc: (to, size, align) => this.answer(to, this.block(Number(size), Number(align))),
        rattle_realloc: (to, at, kept, size, align) => {
          const next = this.block(Number(size), Number(align));
          if (next) new Uint8Array(this.memory.buffer).copyWithin(next, Number(at), Number(at) + Number(kept));
          this.answer(to, next);
        },
        rattle_dealloc: () => {},
      };
      const { exports } = new WebAssembly.Instance(module, { env });
      Object.assign(this, { call: exports.cf_page_run, memory: exports.memory, base: Number(exports.__heap_base.value) });
    }

    // The address of a new block; 0 if there is no memory.
    block(size, align) {
      const unit = Math.max(16, align), from = Math.ceil(this.free / unit) * unit, lacks = from + size - this.memory.buffer.byteLength;
      if (lacks > 0) {
        try {
          this.memory.grow(BigInt(Math.ceil(Math.max(lacks, 1 << 20) / 65536)));
        } catch {
          return 0;
        }
      }
      this.free = from + size;
      return from;
    }

    // Writes what the function returns in C: whether there is a block, and its address.
    answer(to, at) {
      new BigUint64Array(this.memory.buffer, Number(to), 2).set([BigInt(at > 0), BigInt(at || 16)]);
    }

    put(bytes) {
      const at = this.block(bytes.length, 16);
      if (at) new Uint8Array(this.memory.buffer).set(bytes, at);
      return at;
    }

    // The status and the output of the program with these arguments; the input and the output are bytes. With status 5 the
    // output was longer than the room for it, and it runs again.
    run(words, input, room = 1 << 20) {
      this.free = this.base;
      const lines = new TextEncoder().encode(words.join('\n'));
      const at = [this.put(lines), lines.length, this.put(input), input.length, this.block(room, 16), room, this.block(8, 16)];
      if (!at[0] || !at[2] || !at[4] || !at[6]) return { status: 6, output: new Uint8Array() };
      const status = this.call(...at.map(BigInt)), count = Number(new DataView(this.memory.buffer).getBigUint64(at[6], true));
      return status === 5 ? this.run(words, input, count) : { status, output: new Uint8Array(this.memory.buffer, at[4], count).slice() };
    }
  }

  // ---- The recorder

  const MANAGERS = ['cf', 'nm', 'tlsf', 'half'], MODES = ['run', 'compare', 'slice', 'quota', 'large'];
  const MOST_WORDS = 4000000, WRITTEN = 4096;
  let tool;

  const tokens = text => text.split(/\s+/).filter(it => it);
  const fields = frame => frame.text.split(' ');
  const number = reply => Number(reply.split(' ').pop());

  function ask(words, script) {
    const { status, output } = tool.run(words, new TextEncoder().encode(script));
    return { status, output: new TextDecoder().decode(output) };
  }

  // The replies in an output without names: a line each, but that of `walk` ends with its total.
  function repliesOf(output) {
    const replies = [];
    let walk = [];
    for (const line of output.split('\n').slice(0, -1)) {
      walk.push(line);
      if (!line.startsWith('class ')) { replies.push(walk.join('\n')); walk = []; }
    }
    return replies;
  }

  // Lines with questions between them: each question has what takes its reply.
  class Asked {
    lines = [];
    takers = [];
    add(line, take = () => {}) { this.lines.push(line); this.takers.push(take); }
    play(words) {
      const { status, output } = ask(words, this.lines.map(it => `${it}\n`).join('')), replies = repliesOf(output);
      if (status || replies.length !== this.lines.length) throw new Fault(`the tool ended with status ${status} in a recording`);
      this.takers.forEach((take, i) => take(replies[i]));
    }
  }

  // A frame for each command that was answered: its line, its words, an id without leading zeros, and its reply.
  function framesOf(script, replies) {
    const commands = script.split('\n').map((text, i) => [i + 1, tokens(text)]).filter(([, words]) => words.length && !words[0].startsWith('#'));
    return replies.map((reply, i) => {
      const [line, [verb, ...rest]] = commands[i];
      return { line: String(line), text: [verb, ...rest.slice(0, 1).map(it => String(Number(it))), ...rest.slice(1)].join(' '), reply };
    });
  }

  // A question must not change a reply.
  function same(frame, reply) {
    if (frame.reply === reply) return;
    throw new Fault(`line ${frame.line}: with questions the tool replies ${reply.slice(0, 40)}, not ${frame.reply.slice(0, 40)}`);
  }

  function recordReports(words, frames, questions, places) {
    const asked = new Asked(), before = {};
    frames.forEach((frame, i) => {
      const [verb, name] = fields(frame);
      if (places && 'fz'.includes(verb)) asked.add(`q ${name}`, reply => { before[i] = reply; });
      asked.add(frame.text, reply => same(frame, reply));
      if (places && 'mz'.includes(verb) && frame.reply === 'ok') asked.add(`q ${name}`, reply => { frame.at = reply; });
      // A `k` needs to stand before all other commands.
      if (i + 1 < frames.length && frames[i + 1].text.startsWith('k ')) return;
      for (const question of questions) asked.add(question, reply => { frame[question] = reply; });
    });
    asked.play(words);
    return before;
  }

  function recordPlaces(words, frames) {
    const gaps = recordReports(words, frames, ['steps', 'frag', 'walk'], true), asked = new Asked(), owners = {};
    let moves = 0;
    frames.forEach((frame, i) => {
      asked.add(frame.text);
      const [verb, name] = fields(frame);
      if (verb === 'm' && frame.at) asked.add(`p ${number(frame.at)}`, reply => { owners[reply.slice(8)] = name; });
      const found = /moves (\d+)/.exec(frame.steps || '');
      if (found && Number(found[1]) > moves) {
        moves = Number(found[1]);
        asked.add(`p ${number(gaps[i])}`, reply => { frame.moved = `${owners[reply.slice(8)]} ${gaps[i]}`; });
      }
    });
    asked.play(words);
  }

  function recordTasks(words, frames) {
    const naming = frames.map(fields).filter(([verb]) => ['t', 'quota', 'need', 'admit'].includes(verb));
    const tasks = [...new Set([0, ...naming.map(([, task]) => Number(task))])].sort((a, b) => a - b), asked = new Asked();
    let present = 0;
    for (const frame of frames) {
      asked.add(frame.text, reply => same(frame, reply));
      if (frame.text.startsWith('t ')) present = Number(fields(frame)[1]);
      Object.assign(frame, { task: String(present), tasks: '' });
      for (const task of tasks) {
        asked.add(`t ${task}`);
        asked.add('walk', reply => { frame.tasks += `task ${task}\n${reply}\n`; });
      }
      asked.add(`t ${present}`);
    }
    asked.play(words);
  }

  // The word i of an object in the run that records mode `slice`.
  const filling = (name, i) => 1n << 63n | BigInt(name) << 32n | BigInt(i);

  function hexOf(name, length) {
    let hex = '';
    for (let i = 1; i <= Math.ceil(length / 8); i++) hex += filling(name, i).toString(16).match(/../g).reverse().join('');
    return hex.slice(0, 2 * length);
  }

  function recordWords(words, frames, region) {
    if (region * frames.length > MOST_WORDS) {
      throw new Fault(`mode slice: ${frames.length} commands on a region of ${region} words are too many to record`);
    }
    const asked = new Asked(), seen = [];
    const show = into => {
      const all = [];
      into.push(all);
      for (let word = 0; word < region; word++) asked.add(`p ${word}`, reply => all.push(BigInt(`0x${reply}`)));
    };
    for (const frame of frames) {
      const [verb, name, size] = fields(frame), shown = [];
      if (!'wrp'.includes(verb)) asked.add(frame.text, reply => same(frame, reply));
      if (verb === 'm' && frame.reply === 'ok') {
        show(shown);
        const hex = hexOf(name, Number(size));
        for (let at = 0; 2 * at < hex.length; at += WRITTEN) asked.add(`w ${name} ${at} ${hex.slice(2 * at, 2 * (at + WRITTEN))}`);
      }
      show(shown);
      seen.push(shown);
    }
    asked.play(words);
    const live = new Map(), headers = {};
    let before = Array(region).fill(0n);
    frames.forEach((frame, i) => {
      const [verb, name, size] = fields(frame), shown = seen[i];
      if (verb === 'm' && frame.reply === 'ok') {
        // Only the header of a new object differs from what was there, since its bytes are zeros.
        live.set(name, Number(size));
        headers[name] = shown[0].find((word, at) => word !== before[at]);
      }
      if (verb === 'f' && frame.reply === 'ok') live.delete(name);
      before = shown[shown.length - 1];
      frame.words = [...live].map(([one, length]) => `${one}${piecesOf(before, one, headers[one], length)}\n`).join('');
    });
  }

  // The pieces of an object, as ` WORD INDEX COUNT`: a word of the region, and of the object, whose word 0 is its header.
  function piecesOf(words, name, header, length) {
    const pieces = [], last = Math.ceil(length / 8), mine = filling(name, 0) >> 32n;
    words.forEach((word, at) => {
      const piece = pieces[pieces.length - 1];
      let index = word >> 32n === mine ? Number(word & 0xffffffffn) : word === header ? 0 : null;
      if (index === null && length % 8 && piece && piece[1] + piece[2] === last && piece[0] + piece[2] === at) {
        // The last word, of which the object has only some bytes.
        index = word === (filling(name, last) & (1n << BigInt(8 * (length % 8))) - 1n) ? last : null;
      }
      if (index === null) return;
      if (piece && piece[0] + piece[2] === at && piece[1] + piece[2] === index) piece[2]++;
      else pieces.push([at, index, 1]);
    });
    return pieces.map(it => ` ${it.join(' ')}`).join('');
  }

  function slotsOf(pageBytes, all) {
    const lengths = [...new Set(all)].filter(it => it <= pageBytes - 8).sort((a, b) => a - b), asked = new Asked(), slots = {};
    asked.add(`heap 1 ${pageBytes} 1 1`);
    for (const length of lengths) {
      asked.add(`m 0 ${length}`);
      asked.add('frag', reply => { slots[length] = Number(/taken (\d+)/.exec(reply)[1]) / 8; });
      asked.add('f 0');
    }
    asked.play(['run']);
    return slots;
  }

  // The recording of a script, whose arguments a comment names as in examples/. Its runs are lists of frames.
  function record(script) {
    const given = tokens((/^# arguments: (.*)$/m.exec(script) || ['', ''])[1]);
    const mode = given[0] && !given[0].startsWith('-') ? given[0] : 'run', many = mode === 'run' || mode === 'compare';
    if (!MODES.includes(mode)) throw new Fault(`mode ${mode} has no picture: only ${MODES.join(', ')} have one`);
    const own = given.includes('--manager') ? given[given.indexOf('--manager') + 1] : 'cf';
    const made = { mode, own, arguments: given.join(' '), script, runs: {} };
    const refused = ask(given.length ? given : ['run'], '').status;
    if (refused) throw new Fault(`the tool ended with status ${refused}`);
    for (const manager of many ? MANAGERS : ['cf']) {
      const words = many ? ['run', '--manager', manager] : given, { status, output } = ask(words, script);
      if (![0, 3, 7].includes(status)) throw new Fault(`the tool ended with status ${status}`);
      const replies = repliesOf(output);
      if (status === 3) made.bad = [number(replies[replies.length - 1]), replies.pop()];
      const frames = (made.runs[manager] = framesOf(script, replies));
      if (!frames.length || !frames[0].text.startsWith('heap ')) continue;
      const [, pages, bytes] = fields(frames[0]).map(Number), full = bytes - 8;
      if (many) recordPlaces(words, frames);
      else if (mode === 'quota') recordTasks(words, frames);
      else if (mode === 'large') recordReports(words, frames, ['walk', 'frag']);
      else recordWords(words, frames, (pages * bytes) / 8);
      if (mode === 'slice' || mode === 'large') {
        const lengths = frames.map(fields).filter(([verb]) => verb === 'm').map(([, , length]) => Number(length));
        made.slots = slotsOf(bytes, [...lengths, ...lengths.map(it => 4 * Math.ceil(it / full)), ...lengths.map(it => it % full), full]);
      }
    }
    return made;
  }

  onmessage = ({ data: { module, task, given } }) => {
    try {
      tool = new Tool(module);
      postMessage({ made: { record, run: (...words) => tool.run(...words) }[task](...given) });
    } catch (fault) {
      if (!(fault instanceof Fault)) throw fault;
      postMessage({ fault: fault.message });
    }
  };
}

const NorphuenLive = (() => {
  class Fault extends Error {}
  let loading, stop = () => {};

  // The bytes of the module: those that a page in one file has, compressed, or those of the file beside the page.
  async function bytes() {
    if (window.NORPHUEN) {
      const packed = Uint8Array.from(atob(window.NORPHUEN), c => c.charCodeAt(0));
      return new Response(new Blob([packed]).stream().pipeThrough(new DecompressionStream('gzip'))).arrayBuffer();
    }
    const lacks = new Fault('this page has no module: tools/wasm_of makes norphuen.wasm, '
      + 'which is served beside it, or which tools/heap_picture live puts into it');
    if (location.protocol === 'file:') throw lacks;
    const answer = await fetch('norphuen.wasm').catch(() => { throw lacks; });
    if (!answer.ok) throw lacks;
    return answer.arrayBuffer();
  }

  async function load() {
    try {
      return await WebAssembly.compile(await bytes());
    } catch (error) {
      loading = null;
      throw error instanceof Fault ? error : new Fault(`this browser can't run the module: ${error.message}`);
    }
  }

  // Has a new worker do a task. A task that is under way ends with a fault.
  async function ask(task, ...given) {
    const module = await (loading ||= load());
    stop();
    const address = URL.createObjectURL(new Blob([`(${work})()`])), worker = new Worker(address);
    try {
      return await new Promise((done, fail) => {
        stop = () => fail(new Fault('another script was asked for'));
        worker.onmessage = ({ data: { made, fault } }) => fault ? fail(new Fault(fault)) : done(made);
        worker.onerror = error => fail(new Error(error.message));
        worker.postMessage({ module, task, given });
      });
    } finally {
      worker.terminate();
      URL.revokeObjectURL(address);
    }
  }

  return { Fault, record: script => ask('record', script), run: (...given) => ask('run', ...given) };
})();
