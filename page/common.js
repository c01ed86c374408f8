// What all parts share: the elements of the page, and what is known at the moment.

const $ = (id) => document.getElementById(id);

// An element with these properties. Text comes in as text alone, never as markup.
const element = (name, properties = {}) => Object.assign(document.createElement(name), properties);

// For each element, what its children show.
const drawn = new WeakMap();

// Gives an element a child for each of these texts, which tell all that it shows. Where nothing changed the children stay, with the focus
// that one may have.
function renew(parent, texts, make) {
  const old = drawn.get(parent) ?? [];
  let start = 0, oldEnd = old.length, end = texts.length;
  while (start < oldEnd && start < end && old[start] === texts[start]) start += 1;
  while (oldEnd > start && end > start && old[oldEnd - 1] === texts[end - 1]) {
    oldEnd -= 1;
    end -= 1;
  }
  const next = parent.children[oldEnd] ?? null;
  const added = document.createDocumentFragment();
  for (let at = start; at < end; at += 1) added.append(make(at));
  for (let at = oldEnd; at > start; at -= 1) parent.children[at - 1].remove();
  parent.insertBefore(added, next);
  drawn.set(parent, texts);
}

const clear = (...ids) => ids.forEach((id) => renew($(id), []));

// A text as far as it is shown: a line of a file may have a mebibyte.
const MAX_TEXT = 600;
const shown = (text) => (text.length > MAX_TEXT ? `${text.slice(0, MAX_TEXT)}.. (${text.length} characters)` : text);

// From the gravest on.
const LEVELS = ['error', 'warning', 'note'];

const KINDS = ['auth', 'account', 'password', 'session'];

const state = {
  files: new Map(),
  old: new Map(),
  services: new Set(),
  open: '',
  findings: [],
  // How often the files were changed.
  turn: 0,
  // What is said beside the title.
  said: '',
  // For each stack, the answers that are chosen, by the number of the module.
  answers: new Map(),
};

const count = (number, one) => `${number} ${one}${number === 1 ? '' : 's'}`;

// Tells whoever hears the page. It has no other live region, so that one thing is told at a time.
function tell(text) {
  if ($('told').textContent !== text) $('told').textContent = text;
}

// The objects of an answer in JSON Lines.
const linesOf = (text) => text.split('\n').filter(Boolean).map((line) => JSON.parse(line));
