// The library in workers, so that the page stays alive while an answer takes long, and one that takes too long can be stopped. There are
// two, so that what is asked after each key does not wait for pictures and comparisons.

class LibraryWorker {
  constructor(onChange) {
    // Who waits, by the number of what was asked.
    this.waiting = new Map();
    this.asked = 0;
    this.onChange = onChange;
  }

  // Begins with the library that is promised.
  start(place, library) {
    const worker = new Worker(place);
    this.worker = worker;
    worker.onmessage = ({ data }) => this.settle(data.id, data);
    worker.onerror = (event) => this.settleAll({ status: 6, text: '', refusal: `the worker stopped: ${event.message}\n` });
    this.ready = library.then((module) => worker.postMessage({ module }));
    this.ready.catch(() => {});
  }

  settle(id, answer) {
    const done = this.waiting.get(id);
    this.waiting.delete(id);
    this.onChange();
    if (done) done(answer);
  }

  settleAll(answer) {
    for (const id of [...this.waiting.keys()]) this.settle(id, answer);
  }

  // The answer to words over files, or null if it was stopped.
  async answer(words, files) {
    const id = ++this.asked;
    const answered = new Promise((done) => this.waiting.set(id, done));
    this.onChange();
    await this.ready;
    if (this.waiting.has(id)) this.worker.postMessage({ id, words, files });
    return answered;
  }

  // Ends all answers that are under way.
  stop() {
    this.worker.terminate();
    this.settleAll(null);
  }
}

// The digits of base 85, as Python has them, with a comma in place of `<`.
const DIGITS = '0123456789ABCDEFGHIJKLMNOPQRSTUVWXYZabcdefghijklmnopqrstuvwxyz!#$%&()*+-;,=>?@^_`{|}~';

// The bytes of a text of five digits for four bytes each. The last digits may be left out, one for each byte that is not there.
function bytesFrom85(text) {
  const values = new Uint8Array(128);
  [...DIGITS].forEach((digit, value) => { values[digit.charCodeAt(0)] = value; });
  const missing = (5 - (text.length % 5)) % 5, whole = text + DIGITS.at(-1).repeat(missing);
  const bytes = new DataView(new ArrayBuffer((whole.length / 5) * 4));
  for (let at = 0; at < whole.length; at += 5) {
    let value = 0;
    for (let next = at; next < at + 5; next += 1) value = value * 85 + values[whole.charCodeAt(next)];
    bytes.setUint32((at / 5) * 4, value);
  }
  return new Uint8Array(bytes.buffer, 0, bytes.byteLength - missing);
}

const Engine = {
  // How many answers are under way, for whoever shows it.
  onBusy: () => {},

  // The library, whose bytes stand in the page compressed. It is compiled once, for both workers, while it is unpacked.
  compiled() {
    const packed = bytesFrom85($('library').textContent);
    const unpacked = new Blob([packed]).stream().pipeThrough(new DecompressionStream('gzip'));
    return WebAssembly.compileStreaming(new Response(unpacked, { headers: { 'Content-Type': 'application/wasm' } }));
  },

  // Resolves when the library is there.
  start() {
    const source = $('worker').textContent;
    this.place = URL.createObjectURL(new Blob([source], { type: 'text/javascript' }));
    this.library = this.compiled();
    const changed = () => this.onBusy(this.quick.waiting.size + this.patient.waiting.size);
    this.quick = new LibraryWorker(changed);
    this.patient = new LibraryWorker(changed);
    this.begin();
    return this.library;
  },

  begin() {
    for (const one of [this.quick, this.patient]) one.start(this.place, this.library);
  },

  // The findings, which are asked for after each key.
  check(words, files) {
    return this.quick.answer(words, files);
  },

  // Any other answer.
  answer(words, files) {
    return this.patient.answer(words, files);
  },

  // Ends all answers that are under way, and begins anew.
  stop() {
    for (const one of [this.quick, this.patient]) one.stop();
    this.begin();
  },
};
