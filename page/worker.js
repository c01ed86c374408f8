'use strict';

// Answers one request after another: first the library, then words and files.
let library;

const decoded = (bytes) => new TextDecoder('utf-8', { ignoreBOM: true }).decode(bytes);

self.onmessage = ({ data }) => {
  if (data.module) {
    library = new Library(data.module);
    return;
  }
  try {
    const { status, out, err } = library.answer(data.words, data.files);
    self.postMessage({ id: data.id, status, text: decoded(out), refusal: decoded(err) });
  } catch (error) {
    self.postMessage({ id: data.id, status: 6, text: '', refusal: `pamcheck stopped: ${error}\n` });
  }
};
