// The page as a whole: which files there are, and when the answers are asked for again.

const examples = JSON.parse($('examples').textContent);

// The time after the last key before all but the findings is asked for again, and after which an answer counts as one that takes long,
// in milliseconds.
const PAUSE = 150;
const PATIENCE = 400;
// How often the findings are asked for before anybody has changed a file.
const WARMING = 4;

function showServices() {
  const chosen = $('service').value, names = servicesOf(state.files);
  state.services = new Set(names);
  renew($('service'), names, (at) => new Option(names[at], names[at]));
  $('service').value = names.includes(chosen) ? chosen : ['sshd', 'login'].find((name) => names.includes(name)) ?? names[0] ?? '';
}

// Says something beside the title, until there is something else to say.
function say(text) {
  state.said = text;
  if ($('stop').hidden) $('state').textContent = text;
}

// ---- the answers about the files

// Asks for the findings, and shows them unless the files have changed since. Returns whether an answer came.
async function check() {
  const turn = state.turn, began = performance.now();
  if (servicesOf(state.files).length === 0) {
    showFindings({ findings: [], last: null, refusal: '' });
    return true;
  }
  const { words, files } = sourceOf(state.files, 'check');
  const said = await Engine.check(['check', ...words, '--json'], files);
  if (!said || turn !== state.turn) return Boolean(said);
  const lines = linesOf(said.text), findings = lines.filter((line) => line.kind === 'finding');
  const last = lines.find((line) => line.kind === 'checked');
  showFindings({ findings, last, refusal: said.status > 1 ? said.refusal : '' });
  document.body.dataset.first ??= Math.round(performance.now());
  say(`Checked in ${Math.max(1, Math.round(performance.now() - began))} ms`);
  return true;
}

// What is under way of the findings.
let checking = null;

// Asks for the findings until they are those of the files as they are. While an answer is under way none is asked for, so no more than
// one comes too late.
async function checkAll() {
  for (;;) {
    const turn = state.turn;
    if (!(await check())) return say('Stopped');
    if (turn === state.turn) return undefined;
  }
}

function refreshFindings() {
  checking ??= checkAll().finally(() => { checking = null; });
  return checking;
}

const after = (pause) => new Promise((done) => setTimeout(done, pause));

// Asks for all answers. The findings come first, unless they take long.
async function refreshAll() {
  const turn = state.turn, findings = refreshFindings();
  await Promise.race([findings, after(PATIENCE)]);
  await Promise.all([findings, refreshStack(), refreshChanges(), refreshPolicy()]);
  if (turn !== state.turn) return;
  tell($('summary').textContent);
  document.body.dataset.turn = turn;
}

let waiting;

// The files are others: the findings are asked for at once, and all else after a pause.
function changed(pause = 0) {
  state.turn += 1;
  document.body.dataset.asked = state.turn;
  refreshFindings();
  showServices();
  clearTimeout(waiting);
  waiting = setTimeout(refreshAll, pause);
}

// ---- where files come from

// Begins with other files, and with those that they are compared with, if there are others.
function begin({ files, old = files, policy = '', service = '', kind = 'auth' }) {
  state.files = files;
  state.old = new Map(old);
  state.answers.clear();
  state.findings = [];
  clear('findings', 'changes', 'rules');
  showPicture('');
  for (const id of ['summary', 'compared', 'held', 'refusal']) $(id).textContent = '';
  $('stack').hidden = true;
  $('policy').value = policy;
  $('kind').value = kind;
  $('filter').value = '';
  showServices();
  if (servicesOf(files).includes(service)) $('service').value = service;
  open(files.has(service) ? service : [...files.keys()][0]);
  changed();
}

function beginExample(name) {
  const { files, old, policy, service, kind } = examples.find((example) => example.name === name);
  begin({ files: filesOf(files), old: old && filesOf(old), policy, service, kind });
}

// Begins with files that are dropped or chosen. Where none of them is a service's, they come to those that are there.
async function beginFound(promised) {
  const found = await promised;
  if (found.length === 0) return;
  if (found.length >= MAX_DROPPED) {
    say('There are too many files. Drop etc alone');
    return;
  }
  const files = await configurationIn(found);
  if (files.size === 0) {
    say('No file of these is one of Linux-PAM');
    return;
  }
  if (servicesOf(files).length === 0) {
    for (const [name, file] of files) {
      makeRoomFor(file.role);
      state.files.set(name, file);
    }
    state.files = inOrder(state.files);
    open([...files.keys()][0]);
    changed();
    return;
  }
  $('example').value = '';
  history.replaceState(null, '', location.pathname + location.search);
  begin({ files });
}

// ---- links

async function share() {
  const value = { files: [...state.files].map(sharedFile), policy: $('policy').value, service: $('service').value, kind: $('kind').value };
  if (!areSameFiles(state.old, state.files)) value.old = [...state.old].map(sharedFile);
  state.link = await packed(value);
  location.hash = state.link;
  try {
    await navigator.clipboard.writeText(location.href);
    say('The link is copied');
  } catch {
    say('The link is in the address bar');
  }
  tell(state.said);
}

async function beginLink() {
  const text = location.hash.slice(1);
  if (text === '' || text === state.link) return false;
  state.link = text;
  try {
    const { files, old, policy, service, kind } = await unpacked(text);
    const named = (list) => inOrder(filesOf(list.map(unsharedFile).filter(([name, , role]) => isNameFor(role, name))));
    const more = { policy: String(policy ?? ''), service: String(service ?? ''), kind: KINDS.includes(kind) ? kind : 'auth' };
    begin({ files: named(files), old: old && named(old), ...more });
    return true;
  } catch (error) {
    say(`The link holds no files: ${error.message}`);
    return false;
  }
}

// ---- events

editor.area.addEventListener('input', () => {
  state.files.set(state.open, new GivenFile(bytesOf(editor.area.value), state.files.get(state.open).role));
  changed(PAUSE);
  $('caution').textContent = '';
  mark();
});
$('policy').addEventListener('input', () => { clearTimeout(waiting); waiting = setTimeout(refreshAll, PAUSE); });
$('needs').addEventListener('click', addNeeds);
$('service').addEventListener('change', refreshStack);
$('kind').addEventListener('change', refreshStack);
$('reset').addEventListener('click', () => { state.answers.delete(stackKey()); refreshStack(); });
$('fit').addEventListener('change', () => $('picture').classList.toggle('fit', $('fit').checked));
$('remember').addEventListener('click', () => { state.old = new Map(state.files); refreshChanges(); });
$('restore').addEventListener('click', () => {
  begin({ files: new Map(state.old), policy: $('policy').value, service: $('service').value, kind: $('kind').value });
});
$('example').addEventListener('change', () => $('example').value && beginExample($('example').value));
$('share').addEventListener('click', share);
$('skip').addEventListener('click', () => editor.area.focus());
$('stop').addEventListener('click', () => Engine.stop());

const sayUnread = (error) => say(`These files cannot be read: ${error.message}`);

for (const id of ['choose', 'choose-folder']) {
  $(id).addEventListener('change', async ({ target }) => { await beginFound(chosen(target.files)).catch(sayUnread); target.value = ''; });
}
addEventListener('hashchange', beginLink);
addEventListener('dragover', (event) => { event.preventDefault(); document.body.classList.add('dropping'); });
addEventListener('dragleave', (event) => { if (!event.relatedTarget) document.body.classList.remove('dropping'); });
addEventListener('drop', (event) => {
  event.preventDefault();
  document.body.classList.remove('dropping');
  beginFound(dropped(event.dataTransfer)).catch(sayUnread);
});

let busy;

Engine.onBusy = (size) => {
  if (size === 0) {
    clearTimeout(busy);
    busy = undefined;
    $('stop').hidden = true;
    $('state').textContent = state.said;
  } else if (busy === undefined) {
    busy = setTimeout(() => { $('stop').hidden = false; $('state').textContent = 'Working'; tell('Working'); }, PATIENCE);
  }
};

// Asks for the findings a few times while nobody waits, since a browser compiles anew and better what is run often. So the first key is
// answered as fast as those after it.
async function warm() {
  for (let at = 0; at < WARMING; at += 1) {
    await after(PATIENCE);
    const { words, files } = sourceOf(state.files, 'check'), began = performance.now();
    if (checking || servicesOf(state.files).length === 0) continue;
    await Engine.check(['check', ...words, '--json'], files);
    if (performance.now() - began > PATIENCE) return;
  }
}

// The milliseconds since the page was asked for stay beside its text, until the library is there and until the first findings are.
async function load() {
  const library = Engine.start();
  library.then(() => { document.body.dataset.loaded = Math.round(performance.now()); },
    (error) => say(`This browser cannot run the page: ${error.message}`));
  $('kind').append(...KINDS.map((kind) => new Option(kind, kind)));
  $('example').append(new Option('choose one', ''), ...examples.map(({ name }) => new Option(name, name)));
  if (!(await beginLink())) {
    $('example').value = examples[0].name;
    beginExample(examples[0].name);
  }
  offerNeeds();
  warm();
}

load();
