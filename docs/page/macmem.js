'use strict';
// macmem for the page: the module runs in a worker, so that the page goes on however long a call takes.

// The worker. It gets the module's bytes, and then one request after another, each of which it answers. It keeps nothing between two
// requests but the instance; after a trap it drops that too.
function macmemWorker() {
  const FILE_FAULT = 65537;
  const MUCH = 256 * 1024 * 1024; // an instance whose memory has grown past this is not kept
  const FAULT_BYTES = 16, ROW_BYTES = 16; // macmem_fault and macmem_row of include/macmem.h
  const toBytes = new TextEncoder(), toText = new TextDecoder();
  const rooms = new Map(); // how much room for its bytes a call was last given
  let module = null;
  self.instance = null;

  // The module's memory, and the blocks of it that one call takes.
  class Blocks {
    constructor(exports) {
      this.exports = exports;
      this.taken = [];
    }
    take(size) {
      const at = this.exports.host_alloc(BigInt(Math.max(size, 1)));
      if (at === 0n) throw new RangeError('the module has no memory left');
      this.taken.push(at);
      return at;
    }
    put(bytes) {
      const at = this.take(bytes.length);
      new Uint8Array(this.exports.memory.buffer).set(bytes, Number(at));
      return at;
    }
    view(at, size) {
      return new DataView(this.exports.memory.buffer, Number(at), size);
    }
    copy(at, size) {
      return new Uint8Array(this.exports.memory.buffer).slice(Number(at), Number(at) + size);
    }
    free() {
      for (const at of this.taken) this.exports.host_free(at);
    }
  }

  // The words of a call for its arguments: bytes are an address and a count, and an address or a count is a BigInt.
  function words(blocks, given) {
    return given.flatMap(it => it instanceof Uint8Array ? [blocks.put(it), BigInt(it.length)] : [it]);
  }

  // Calls an export that gives items of a size, and a fault if it has one. A first call may find too little room; a second has enough.
  function call(name, given, { each = 1, faulty = true } = {}) {
    self.instance ??= new WebAssembly.Instance(module, {});
    const exports = self.instance.exports, blocks = new Blocks(exports);
    const before = words(blocks, given), count = blocks.take(8), fault = blocks.take(FAULT_BYTES);
    for (let room = rooms.get(name) ?? 4096; ; ) {
      const out = blocks.take(room * each);
      const code = exports[name](...before, out, BigInt(room), count, ...(faulty ? [fault] : []));
      const made = code === 0 ? Number(blocks.view(count, 8).getBigUint64(0, true)) : 0;
      if (made > room) {
        room = made;
        continue;
      }
      rooms.set(name, Math.max(room, made));
      const told = blocks.view(fault, FAULT_BYTES);
      const answer = {
        code,
        bytes: blocks.copy(out, made * each),
        line: code === FILE_FAULT ? Number(told.getBigUint64(0, true)) : 0,
        error: code === FILE_FAULT ? told.getInt16(8, true) : code,
      };
      blocks.free();
      return answer;
    }
  }

  const text = (...words) => toText.decode(call(...words).bytes);
  const whole = script => toBytes.encode(script);

  // What a call gives, in lines: its bytes, and the place of each line's end.
  function lines(...words) {
    const { bytes } = call(...words), ends = [];
    for (let at = bytes.indexOf(10); at >= 0; at = bytes.indexOf(10, at + 1)) ends.push(at);
    if (bytes.length > (ends.at(-1) ?? -1) + 1) ends.push(bytes.length);
    return { bytes, ends: Uint32Array.from(ends) };
  }

  // The lines of a text before a line.
  function linesBefore(script, line) {
    let at = 0;
    for (let n = 1; n < line && at < script.length; n++) {
      const end = script.indexOf(10, at);
      at = end < 0 ? script.length : end + 1;
    }
    return script.subarray(0, at);
  }

  // A resource, as a macmem_row has it.
  function row(view, at) {
    return { size: Number(view.getBigUint64(at, true)), kind: view.getUint32(at + 8, true), id: view.getInt16(at + 12, true) };
  }

  const answers = {
    // A script's transcript. Of one with faulty lines it is that of the lines before the first, and `faults` says what is wrong.
    replay({ size, script }) {
      let read = whole(script);
      let told = call('macmem_script_transcript', [size, read]);
      if (told.code !== FILE_FAULT) return { code: told.code, transcript: toText.decode(told.bytes), faults: '', read: script.length };
      const faults = text('macmem_script_faults', [read], { faulty: false });
      read = linesBefore(read, told.line);
      told = call('macmem_script_transcript', [size, read]);
      return { code: told.code, transcript: toText.decode(told.bytes), faults, read: toText.decode(read).length };
    },
    // The zone after a line.
    zone({ size, script, line }) {
      const read = whole(script), at = BigInt(line);
      return { picture: text('macmem_script_picture', [size, at, read]), list: lines('macmem_script_list', [size, at, read]) };
    },
    // The call of a line in words, and the zone before and after it.
    call({ size, script, line }) {
      const read = whole(script), at = BigInt(line);
      return { words: text('macmem_script_words', [size, at, at, read]), steps: text('macmem_script_steps', [size, at - 1n, at, read]) };
    },
    // What a file is, and what its fork holds.
    fork({ file }) {
      const check = text('macmem_fork_check', [file], { faulty: false });
      const info = text('macmem_fork_info', [file]);
      const found = call('macmem_fork_rows', [file], { each: ROW_BYTES });
      const view = new DataView(found.bytes.buffer);
      const rows = Array.from({ length: found.bytes.length / ROW_BYTES }, (_, n) => row(view, n * ROW_BYTES));
      return { code: found.code, error: found.error, check, info, rows, listing: lines('macmem_fork_listing', [file]) };
    },
    // A fork as source of Rez.
    derez({ file, typed }) {
      return { source: lines('macmem_fork_derez', [file, typed]) };
    },
    // The bytes of a resource, and its statement in Rez if that is asked for.
    resource({ file, kind, id, stated }) {
      const { bytes } = call('macmem_fork_get', [file, kind, id]);
      return { bytes, source: stated ? text('macmem_fork_show', [file, kind, id, 1]) : '' };
    },
    // What is wrong with a statement.
    lint({ source }) {
      return { faults: text('macmem_source_faults', [whole(source)], { faulty: false }) };
    },
    // The file with a resource set to what a statement states, in the wrapper that the file has.
    set({ file, kind, id, source }) {
      const { code, error, line, bytes } = call('macmem_fork_state', [file, kind, id, whole(source), 1]);
      return { code, error, line, bytes };
    },
  };

  function answer({ kind, request }) {
    try {
      const began = performance.now(), made = answers[kind](request);
      const used = self.instance.exports.memory.buffer.byteLength;
      if (used > MUCH) self.instance = null;
      return { ...made, took: performance.now() - began, used };
    } catch (error) {
      self.instance = null;
      rooms.clear();
      return { trap: String(error.message ?? error) };
    }
  }

  self.onmessage = ({ data }) => {
    if (data.module) {
      try {
        module = new WebAssembly.Module(data.module);
      } catch (error) {
        self.unable = String(error.message ?? error);
      }
    } else {
      const made = module ? answer(data) : { unable: self.unable };
      self.postMessage(made, Object.values(made).flatMap(it => it?.ends ? [it.bytes.buffer, it.ends.buffer] : []));
    }
  };
}

// A worker, and the requests that wait for it. Of each kind only the newest waits; what it took the place of is answered by null.
class Macmem {
  // `bytes` is a promise of the module's bytes. `say` is called with what the user must know, and `slow`, if it is set, when a request takes
  // long, and when that has an end.
  constructor(bytes, say) {
    this.bytes = bytes;
    this.say = say;
    this.waiting = new Map();
    this.busy = null;
    this.worker = null;
  }

  // Asks for what `answers` above gives for a kind of request.
  ask(kind, request) {
    return new Promise(resolve => {
      this.waiting.get(kind)?.resolve(null);
      this.waiting.delete(kind);
      this.waiting.set(kind, { kind, request, resolve });
      this.next();
      setTimeout(() => this.hurry(), 1000);
    });
  }

  // Of each kind of request, the kinds of which nobody needs the answer once such a request waits.
  static outdated = {
    replay: ['replay', 'zone', 'call'], zone: ['zone', 'call'], call: ['call'],
    fork: ['fork', 'derez', 'resource', 'lint'], derez: ['derez'], resource: ['resource'], lint: ['lint'], set: [],
  };

  // Ends what has run for a second, if nobody needs it any more.
  hurry() {
    if (!this.busy || performance.now() - this.busy.began < 1000) return;
    if ([...this.waiting.keys()].some(kind => Macmem.outdated[kind].includes(this.busy.kind))) this.stop();
  }

  // Ends what runs; the worker goes with it.
  stop() {
    this.worker?.terminate();
    this.worker = null;
    if (this.busy) this.done(null);
  }

  // Gives the answer to what ran, and goes on with what waits.
  done(made) {
    const { resolve, timer } = this.busy;
    this.busy = null;
    clearTimeout(timer);
    this.slow?.(false);
    resolve(made);
    this.next();
  }

  async start() {
    const source = `'use strict';(${macmemWorker})()`;
    const address = URL.createObjectURL(new Blob([source], { type: 'text/javascript' }));
    const worker = new Worker(address);
    URL.revokeObjectURL(address);
    worker.onmessage = ({ data }) => this.answered(data);
    this.worker = worker;
    worker.postMessage({ module: await this.bytes });
  }

  async next() {
    if (this.busy || this.waiting.size === 0) return;
    const [kind, asked] = this.waiting.entries().next().value;
    this.waiting.delete(kind);
    this.busy = asked;
    asked.began = performance.now();
    asked.timer = setTimeout(() => this.slow?.(true), 700);
    if (!this.worker) await this.start();
    if (this.busy === asked) this.worker.postMessage({ kind, request: asked.request });
  }

  answered(made) {
    if (made.unable) this.say(`This browser can't run the module: ${made.unable}.`);
    if (made.trap) this.say(`The module stopped: ${made.trap}. Its instance was dropped; the next request gets a fresh one.`);
    this.done(made.unable || made.trap ? null : made);
  }
}
