'use strict';

// Calls the library. Each answer has an instance of its own, whose memory is dropped after it, so nothing of one answer reaches the
// next, not even after a trap.

const ENCODER = new TextEncoder();

// The room for an answer, in bytes. One that is longer is asked for again, with as much room as it needs.
const ROOM = 1 << 20;

class Library {
  constructor(module) {
    this.module = module;
  }

  // The answer to words, without the name of the program, over files, which are pairs of a path and its bytes: the status, and the
  // bytes for standard output and for standard error. Words, paths and bytes are text or a Uint8Array.
  answer(words, files) {
    const first = this.run(words, files, ROOM);
    return first.size <= ROOM ? first : this.run(words, files, first.size);
  }

  run(words, files, room) {
    const { exports } = new WebAssembly.Instance(this.module, {});
    const reserve = (size) => {
      const at = exports.host_alloc(BigInt(size));
      if (!at) throw new RangeError('out of memory');
      return at;
    };
    const put = (bytes) => {
      const at = reserve(bytes.length);
      new Uint8Array(exports.memory.buffer, at, bytes.length).set(bytes);
      return at;
    };
    // The place and the number of the lengths, and of the bytes, of a list of texts.
    const pack = (texts) => {
      const all = texts.map((text) => (typeof text === 'string' ? ENCODER.encode(text) : text));
      const lengths = Uint32Array.from(all, (bytes) => bytes.length);
      const joined = new Uint8Array(lengths.reduce((sum, length) => sum + length, 0));
      let end = 0;
      for (const bytes of all) {
        joined.set(bytes, end);
        end += bytes.length;
      }
      return [put(new Uint8Array(lengths.buffer)), BigInt(lengths.length), put(joined), BigInt(joined.length)];
    };
    const passed = [['pamcheck', ...words], files.map(([path]) => path), files.map(([, bytes]) => bytes)].flatMap(pack);
    const text = reserve(room), answered = reserve(24);
    exports.pam_web_answer(...passed, text, BigInt(room), answered);
    const view = new DataView(exports.memory.buffer, answered, 24);
    const [length, refusalLength, status] = [0, 8, 16].map((at) => Number(view.getBigUint64(at, true)));
    const said = new Uint8Array(exports.memory.buffer, text, room);
    const part = (from, to) => said.slice(Math.min(from, room), Math.min(to, room));
    return { status, size: length + refusalLength, out: part(0, length), err: part(length, length + refusalLength) };
  }
}

if (typeof module !== 'undefined') module.exports = { Library };
