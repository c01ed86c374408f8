// What `check` finds, each with what `explain` says of it.

const explained = new Map();

async function explain(number, item, button) {
  const old = item.querySelector('.explanation');
  button.setAttribute('aria-expanded', String(!old));
  if (old) return old.remove();
  if (!explained.has(number)) {
    const said = await Engine.answer(['explain', number], []);
    if (!said) return undefined;
    explained.set(number, said.text || said.refusal);
  }
  item.append(element('pre', { className: 'explanation', textContent: explained.get(number) }));
  return undefined;
}

function explainButton(number, item) {
  const button = element('button', { type: 'button', className: 'link', textContent: `What is ${number}?` });
  button.setAttribute('aria-expanded', 'false');
  button.addEventListener('click', () => explain(number, item, button));
  return button;
}

// Which stacks a finding is about, in the words of `check`.
function aboutOf(finding) {
  if (finding.service !== null) return `${finding.service} ${finding.type}`;
  const more = finding.service_count - finding.services.length;
  const services = [...finding.services, ...(more > 0 ? [`${more} more`] : [])];
  return [finding.types.join(', '), services.join(', ')].filter(Boolean).join('; ');
}

function findingItem(finding) {
  const item = element('li', { className: finding.level });
  const name = nameOf(finding.file);
  const place = finding.line === null ? name : `${name}:${finding.line}`;
  item.append(element('span', { className: 'level', textContent: finding.level }));
  if (state.files.has(name)) {
    const go = element('button', { type: 'button', className: 'link mono', textContent: place });
    go.addEventListener('click', () => { open(name); goTo(finding.line, finding.sentence); });
    item.append(go);
  } else {
    item.append(element('span', { className: 'mono', textContent: `${place} ` }));
  }
  item.append(shown(`${finding.name}: ${finding.sentence}`), ' ');
  const about = aboutOf(finding);
  if (about) item.append(element('span', { className: 'about', textContent: `(${shown(about)}) ` }));
  item.append(element('br'), explainButton(finding.number, item));
  const service = finding.service ?? finding.services[0], kind = finding.type ?? finding.types[0];
  if (state.services.has(service) && kind) {
    const has = finding.answers.length > 0;
    const show = element('button', { type: 'button', className: 'link', textContent: has ? 'Show this run' : 'Show the stack' });
    show.addEventListener('click', () => showStack(service, kind, has ? finding.answers : null));
    item.append(show);
  }
  return item;
}

const MAX_SHOWN = 500;

// An item of a list that says this and no more.
const sayingItem = (textContent, className = '') => element('li', { textContent, className });

// The item in place of findings where the files are refused.
function refusalItem(number) {
  const item = element('li', { className: 'error' });
  item.append(explainButton(number, item));
  return item;
}

// Each text that tells what an item of the list shows, with what makes the item.
function itemsOf({ findings, last, refusal }) {
  const number = /^pamcheck: ([A-Z]+\d+) /.exec(refusal)?.[1];
  if (number) return [[number, () => refusalItem(number)]];
  const items = findings.slice(0, MAX_SHOWN).map((finding) => {
    const { file, service, services } = finding;
    const there = `${state.files.has(nameOf(file))} ${state.services.has(service ?? services[0])}`;
    return [`${JSON.stringify(finding)} ${there}`, () => findingItem(finding)];
  });
  const add = (text, className) => items.push([text, () => sayingItem(text, className)]);
  if (findings.length > MAX_SHOWN) add(`and ${findings.length - MAX_SHOWN} more`);
  if (findings.length === 0 && last) add('Nothing is wrong that pamcheck knows of.', 'good');
  return items;
}

function showFindings(said) {
  state.findings = said.findings;
  mark();
  $('summary').textContent = shown(said.refusal) || summaryOf(said.last);
  const items = itemsOf(said);
  renew($('findings'), items.map(([text]) => text), (at) => items[at][1]());
  showNames();
}

// The stacks that were looked at, and what was found of each level.
const levelsOf = ({ stacks, errors, warnings, notes }) =>
  `${count(stacks, 'stack')}: ${count(errors, 'error')}, ${count(warnings, 'warning')}, ${count(notes, 'note')}`;

const summaryOf = (last) => (last ? `${count(last.services, 'service')}, ${levelsOf(last)}` : '');
