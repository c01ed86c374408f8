// One stack: what its modules answer, what it then decides, and a picture of its runs.

const FAILURES = { auth: 'auth_err', account: 'perm_denied', password: 'authtok_err', session: 'session_err' };
const CODES = [
  'success', 'open_err', 'symbol_err', 'service_err', 'system_err', 'buf_err', 'perm_denied', 'auth_err', 'cred_insufficient',
  'authinfo_unavail', 'user_unknown', 'maxtries', 'new_authtok_reqd', 'acct_expired', 'session_err', 'cred_unavail', 'cred_expired',
  'cred_err', 'no_module_data', 'conv_err', 'authtok_err', 'authtok_recover_err', 'authtok_lock_busy', 'authtok_disable_aging',
  'try_again', 'ignore', 'abort', 'authtok_expired', 'module_unknown', 'bad_item', 'conv_again',
];

// What the table of facts says of modules without arguments: the codes for each kind that it names, as `auth` of `pam_env`.
const facts = new Map();

// The table of facts that the library has, once it was asked for it.
let ownFacts = '';

// Reads the table, after the lines of a file of facts, which come first.
function readFacts() {
  facts.clear();
  const given = withRole(state.files, 'facts').map(([, file]) => file.text);
  readLines([...given, ownFacts].join('\n'));
}

function readLines(text) {
  for (const line of text.split('\n')) {
    const [name, ...words] = line.split(' ');
    const from = words.findIndex((word) => ['checks', 'passes', 'fails'].includes(word));
    if (from !== 0 || facts.has(name)) continue;
    const kinds = {};
    let here = [];
    for (const word of words.slice(1)) {
      if (word.split(',').every((one) => KINDS.includes(one))) here = word.split(',');
      else for (const kind of here) kinds[kind] = [...(kinds[kind] ?? []), word];
    }
    facts.set(name, kinds);
  }
}

const moduleName = (path) => path.split('/').pop().replace(/\.so$/, '');

// The answer that is chosen at first: whatever the table of facts allows where that is little, else success or one failure, since a
// module that may answer all 31 codes makes a picture that nobody can read.
function usualAnswer(module, kind) {
  const name = moduleName(module.path);
  if (name === 'pam_permit') return 'success';
  if (name === 'pam_deny' || facts.get(name)?.[kind]) return 'any';
  return 'either';
}

const stackKey = () => `${$('service').value}/${$('kind').value}`;

const answerOf = (module) => state.answers.get(stackKey())?.get(module.number) ?? usualAnswer(module, $('kind').value);

// The words `--set` for the answers that are chosen.
function settings(modules) {
  const kind = $('kind').value;
  const codes = (answer) => (answer === 'either' ? `success,${FAILURES[kind]}` : answer);
  return modules.flatMap((module) => (answerOf(module) === 'any' ? [] : ['--set', `${module.number}=${codes(answerOf(module))}`]));
}

function chooseAnswer(number, answer) {
  const key = stackKey();
  if (!state.answers.has(key)) state.answers.set(key, new Map());
  state.answers.get(key).set(number, answer);
  refreshStack();
}

function answerChoice(module) {
  const failure = FAILURES[$('kind').value];
  const select = element('select');
  select.setAttribute('aria-label', shown(`Answer of module ${module.number}, ${module.path}`));
  const usual = [
    ['either', `success or ${failure}`], ['any', 'any that it may give'], ['success', 'success'], [failure, failure], ['ignore', 'ignore'],
  ];
  const others = CODES.filter((code) => !usual.some(([value]) => value === code));
  const group = element('optgroup', { label: 'one other code' });
  group.append(...others.map((code) => new Option(code, code)));
  select.append(...usual.map(([value, text]) => new Option(text, value)), group);
  select.value = answerOf(module);
  select.addEventListener('change', () => chooseAnswer(module.number, select.value));
  return select;
}

function moduleRow(line) {
  const row = element('tr');
  const place = element('button', { type: 'button', className: 'link mono', textContent: `${line.file}:${line.line}` });
  place.addEventListener('click', () => { open(line.file); goTo(line.line, ''); });
  const indent = `${'\u00a0\u00a0'.repeat(line.depth)}`;
  if (line.kind === 'substack') {
    row.className = 'sub';
    row.append(element('td', { textContent: `${indent}substack ${line.target}` }), cell(place), element('td'));
    return row;
  }
  const name = element('td');
  const words = line.arguments.map((word) => ` ${word}`).join('');
  name.append(`${indent}${line.number} `, element('b', { textContent: shown(line.path) }), shown(words));
  const rule = cell(place);
  rule.append(element('br'), shown(`${line.dashed ? '-' : ''}${line.control}`));
  row.append(name, rule, cell(answerChoice(line)));
  return row;
}

// The rows of a stack. Those that are there already only get the answers that are chosen.
function showModules(lines) {
  const key = stackKey(), body = $('modules').tBodies[0];
  renew(body, lines.map((line) => `${key} ${JSON.stringify(line)}`), (at) => moduleRow(lines[at]));
  lines.forEach((line, at) => {
    if (line.kind === 'module') body.children[at].querySelector('select').value = answerOf(line);
  });
}

function cell(...nodes) {
  const td = element('td');
  td.append(...nodes);
  return td;
}

// A set of codes as `outcomes` writes it.
function setText(codes) {
  const others = CODES.filter((code) => !codes.includes(code));
  if (others.length === 0) return 'any';
  return others.length < codes.length ? `but:${others.join(',')}` : codes.join(',');
}

const stepText = ({ number, module, codes }) => `${number} ${module} ${setText(codes)}`;

function outcomeRow({ decision, ways, steps }) {
  const row = element('tr', { className: decision === 'success' ? 'success' : '' });
  const way = shown(steps.map(stepText).join(', ')) || 'no module is asked';
  row.append(...[decision, ways, way].map((textContent) => element('td', { textContent })));
  return row;
}

// The most characters of a picture that is shown.
const MAX_PICTURE = 3 << 20;

// The picture that is shown.
let pictured = '';

function showPicture(svg) {
  if (svg !== '' && svg === pictured) return undefined;
  pictured = svg;
  if ($('save').href) URL.revokeObjectURL($('save').href);
  $('save').hidden = !svg;
  $('save').removeAttribute('href');
  if (!svg) return $('picture').replaceChildren();
  // As a picture, an SVG runs no script and loads nothing.
  const src = URL.createObjectURL(new Blob([svg], { type: 'image/svg+xml' }));
  $('save').href = src;
  const alt = `The runs of ${$('service').value} ${$('kind').value}. The table above says what they decide.`;
  const isLarge = svg.length > MAX_PICTURE;
  const large = { textContent: 'This picture is too large to be shown here.' };
  return $('picture').replaceChildren(isLarge ? element('p', large) : element('img', { src, alt }));
}

// The words of a command about the stack that is chosen, and the files by the paths that they name. A name may begin with a dash, so it
// stands after `--`.
function stackSource(command, options = []) {
  const { words, files } = sourceOf(state.files, command);
  return [[command, ...words, ...options, '--', $('service').value, $('kind').value], files];
}

function showRefusedStack(refusal) {
  $('stack').hidden = true;
  $('refusal').textContent = shown(refusal);
  showPicture('');
}

// The stack that is chosen, with the answers that are chosen.
async function refreshStack() {
  const turn = (state.stackTurn = (state.stackTurn ?? 0) + 1);
  if ($('service').value === '') return showRefusedStack('');
  const said = await Engine.answer(...stackSource('show', ['--json']));
  ownFacts ||= (await Engine.answer(['facts'], []))?.text ?? '';
  if (!said || turn !== state.stackTurn) return undefined;
  if (said.status !== 0) return showRefusedStack(said.refusal);
  readFacts();
  const lines = linesOf(said.text).filter((line) => line.kind !== 'stack');
  showModules(lines);
  $('stack').hidden = false;
  const set = settings(lines.filter((line) => line.kind === 'module'));
  const outcomes = await Engine.answer(...stackSource('outcomes', ['--json', ...set]));
  if (!outcomes || turn !== state.stackTurn) return undefined;
  const rows = linesOf(outcomes.text).filter((line) => line.kind === 'outcome');
  renew($('outcomes').tBodies[0], rows.map((row) => JSON.stringify(row)), (at) => outcomeRow(rows[at]));
  const graph = await Engine.answer(...stackSource('graph', ['--format', 'svg', ...set]));
  if (!graph || turn !== state.stackTurn) return undefined;
  $('refusal').textContent = shown(outcomes.refusal || graph.refusal);
  return showPicture(graph.status === 0 ? graph.text : '');
}

// Shows a stack, with these answers of its modules, or with those that are chosen.
function showStack(service, kind, answers) {
  $('service').value = service;
  $('kind').value = kind;
  if (answers) state.answers.set(stackKey(), new Map(answers.map(({ number, code }) => [number, code])));
  refreshStack();
  $('stack-title').scrollIntoView({ behavior: 'smooth' });
}
