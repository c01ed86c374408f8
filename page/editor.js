// The text of one file, with a line under each word that a finding is about.

// Beyond this, a text is shown without marks, since a browser lays out a second copy of it for them.
const MAX_MARKED = 200000;

const editor = { area: $('text'), marks: $('marks'), gutter: $('gutter') };

// Where in a line the word is that a finding quotes: the first of its quoted words that the line has. A finding without one is about
// the whole line, without the blanks at its ends.
function wordIn(line, sentence) {
  for (const [, word] of sentence.matchAll(/"((?:[^"\\]|\\.)*)"/g)) {
    const at = word === '' ? -1 : line.indexOf(word);
    if (at >= 0) return [at, at + word.length];
  }
  const start = line.length - line.trimStart().length;
  return [start, Math.max(line.trimEnd().length, start)];
}

// The parts of a line to mark: from, to and level, without those that a graver one covers.
function partsOf(line, findings) {
  const parts = findings.map((finding) => [...wordIn(line, finding.sentence), finding.level]);
  parts.sort((one, other) => LEVELS.indexOf(one[2]) - LEVELS.indexOf(other[2]));
  const kept = [];
  for (const part of parts) {
    if (part[0] < part[1] && kept.every((other) => part[1] <= other[0] || other[1] <= part[0])) kept.push(part);
  }
  return kept.sort((one, other) => one[0] - other[0]);
}

function markedLine(line, findings) {
  const row = element('div');
  let end = 0;
  for (const [from, to, level] of partsOf(line, findings)) {
    row.append(line.slice(end, from), element('span', { className: level, textContent: line.slice(from, to) }));
    end = to;
  }
  row.append(`${line.slice(end)}\n`);
  return row;
}

// The findings about lines of the file that is open.
const findingsHere = () => state.findings.filter((finding) => finding.line !== null && nameOf(finding.file) === state.open);

const toldOf = (findings) => findings.map(({ level, sentence }) => `${level} ${sentence}`).join('\n');

const MAX_NUMBERS = 10000;
const MAX_PLACES = 20;

// Tells whoever hears the text of its findings.
function note(number, lines) {
  const places = `${lines.length === 1 ? 'in line' : 'in lines'} ${lines.slice(0, MAX_PLACES).join(', ')}`;
  const text = number > 0 ? `${count(number, 'finding')}, ${places}. F8 goes to the next one.` : 'No finding is about a line of this file.';
  if ($('note').textContent !== text) $('note').textContent = text;
}

// Marks the lines of the file that is open.
function mark() {
  const found = findingsHere(), byLine = new Map();
  for (const finding of found) byLine.set(finding.line, [...(byLine.get(finding.line) ?? []), finding]);
  const { value } = editor.area, lines = value.split('\n');
  const at = (index) => byLine.get(index + 1) ?? [];
  const marked = value.length > MAX_MARKED ? [] : lines;
  renew(editor.marks, marked.map((line, index) => `${line}\n${toldOf(at(index))}`), (index) => markedLine(lines[index], at(index)));
  const levels = lines.slice(0, MAX_NUMBERS).map((_, index) => LEVELS.find((level) => at(index).some((one) => one.level === level)) ?? '');
  renew(editor.gutter, levels.map((level, index) => `${index} ${level}`),
    (index) => element('div', { className: levels[index], textContent: index + 1 }));
  note(found.length, [...byLine.keys()].sort((one, other) => one - other));
}

// The marks scroll with the text.
function follow() {
  const { scrollLeft, scrollTop } = editor.area;
  editor.marks.style.transform = `translate(${-scrollLeft}px, ${-scrollTop}px)`;
  editor.gutter.style.transform = `translateY(${-scrollTop}px)`;
}

// Selects the word of a finding, or its line.
function goTo(line, sentence) {
  const lines = editor.area.value.split('\n');
  if (line === null || line > lines.length) return editor.area.focus();
  const start = lines.slice(0, line - 1).reduce((sum, text) => sum + text.length + 1, 0);
  const [from, to] = wordIn(lines[line - 1], sentence);
  editor.area.focus();
  editor.area.setSelectionRange(start + from, start + to);
  const height = parseFloat(getComputedStyle(editor.area).lineHeight);
  editor.area.scrollTop = Math.max(0, (line - 4) * height);
  follow();
}

editor.area.addEventListener('scroll', follow);

// F8 goes to the next finding of the file that is open, as in other editors.
addEventListener('keydown', (event) => {
  if (event.key !== 'F8') return;
  event.preventDefault();
  const here = findingsHere();
  if (here.length === 0) return;
  const line = editor.area.value.slice(0, editor.area.selectionStart).split('\n').length;
  const next = here.find((finding) => finding.line > line) ?? here[0];
  goTo(next.line, next.sentence);
  tell(`Line ${next.line}, ${next.level}: ${shown(next.sentence)}`);
});
