'use strict';

// Answers requests by the library of the page: a line of JSON each on standard input, and one on standard output. Bytes are in base64.
//
//   node tests/page/answers.js LIBRARY.wasm

const fs = require('fs');
const path = require('path');
const readline = require('readline');
const { Library } = require(path.join(__dirname, '..', '..', 'page', 'module.js'));

const library = new Library(new WebAssembly.Module(fs.readFileSync(process.argv[2])));
const bytes = (text) => new Uint8Array(Buffer.from(text, 'base64'));
const base64 = (data) => Buffer.from(data).toString('base64');

readline.createInterface({ input: process.stdin }).on('line', (line) => {
  const { words, files } = JSON.parse(line);
  let said;
  try {
    const { status, out, err } = library.answer(words.map(bytes), files.map((file) => file.map(bytes)));
    said = { status, out: base64(out), err: base64(err) };
  } catch (error) {
    said = { fault: String(error) };
  }
  process.stdout.write(`${JSON.stringify(said)}\n`);
});
