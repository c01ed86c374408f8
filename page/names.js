// The list of the files, and what is done with one: it is opened, made, renamed, removed, or read as something else.

const MAX_NAMES = 300;

// The levels of the findings about each file.
function levelsByName() {
  const levels = new Map();
  for (const { file, level } of state.findings) {
    const name = nameOf(file);
    levels.set(name, [...(levels.get(name) ?? []), level]);
  }
  return levels;
}

function nameItem(name, levels, role) {
  const button = element('button', { type: 'button', textContent: name });
  const worst = LEVELS.find((level) => levels.includes(level));
  const more = [];
  if (role !== 'service') {
    more.push(ROLES[role].title);
    button.append(element('span', { className: 'role', textContent: ROLES[role].title }));
  }
  if (worst) {
    more.push(`${count(levels.length, 'finding')}, the gravest of level ${worst}`);
    button.classList.add(worst);
    button.append(element('span', { className: `count level ${worst}`, textContent: levels.length }));
  }
  if (more.length > 0) button.setAttribute('aria-label', [name, ...more].join(', '));
  button.addEventListener('click', () => open(name));
  const item = element('li');
  item.append(button);
  return item;
}

function showNames() {
  const wanted = $('filter').value;
  const names = [...state.files.keys()], found = names.filter((name) => name.includes(wanted)), listed = found.slice(0, MAX_NAMES);
  $('filter').hidden = names.length <= 12;
  const levels = levelsByName(), of = (name) => [name, levels.get(name) ?? [], state.files.get(name).role];
  const more = [];
  if (found.length > MAX_NAMES) more.push(`and ${found.length - MAX_NAMES} more: find one by its name`);
  if (names.length === 0) more.push('No file. Drop a pam.d folder anywhere, or begin with an example.');
  const texts = [...listed.map((name) => of(name).join('\n')), ...more];
  renew($('names'), texts, (at) => (at < listed.length ? nameItem(...of(listed[at])) : element('li', { textContent: texts[at] })));
  listed.forEach((name, at) => $('names').children[at].firstChild.setAttribute('aria-current', String(name === state.open)));
}

function open(name) {
  state.open = name;
  const file = state.files.get(name);
  editor.area.value = file ? file.text : '';
  editor.area.disabled = !file;
  editor.area.setAttribute('aria-label', file ? `Text of the file ${name}` : 'No file is open');
  $('caution').textContent = file ? file.caution : '';
  $('rename').disabled = $('remove').disabled = $('role').disabled = !file;
  $('role').value = file ? file.role : 'service';
  showNames();
  mark();
  follow();
}

function putFile(name, file) {
  state.files.set(name, file);
  state.files = inOrder(state.files);
  open(name);
  changed();
}

// Of what there is one at most, those that are there are read no more.
function makeRoomFor(role) {
  if (!ROLES[role].isOne) return;
  for (const [name, { bytes }] of withRole(state.files, role)) state.files.set(name, new GivenFile(bytes, 'none'));
}

// Reads the file that is open as something else.
function changeRole(role) {
  const file = state.files.get(state.open), name = nameWith(role, state.open);
  if (name !== state.open && state.files.has(name)) {
    $('caution').textContent = `There is a file ${name}. Rename one of the two.`;
    $('role').value = file.role;
    return;
  }
  makeRoomFor(role);
  state.files.delete(state.open);
  putFile(name, new GivenFile(file.bytes, role));
}

// ---- names that are typed

let onName = null;

function askName(name, role, then) {
  onName = { role, then };
  $('naming').hidden = false;
  $('name').value = name;
  $('name-fault').textContent = '';
  $('name').focus();
  $('name').select();
}

function endName() {
  $('naming').hidden = true;
  onName = null;
}

$('naming').addEventListener('submit', (event) => {
  event.preventDefault();
  const name = $('name').value, { role, then } = onName;
  if (!isNameFor(role, name)) $('name-fault').textContent = 'A name has a letter or more, and that of a service no slash.';
  else if (state.files.has(name) && name !== state.open) $('name-fault').textContent = 'There is a file with this name.';
  else {
    endName();
    then(name);
    editor.area.focus();
  }
});
$('no-name').addEventListener('click', () => { endName(); editor.area.focus(); });
$('add').addEventListener('click', () => askName('', 'service', (name) => putFile(name, new GivenFile(new Uint8Array()))));
$('rename').addEventListener('click', () => {
  const file = state.files.get(state.open);
  askName(state.open, file.role, (name) => {
    state.files.delete(state.open);
    putFile(nameWith(file.role, name), file);
  });
});
$('remove').addEventListener('click', () => {
  state.files.delete(state.open);
  open([...state.files.keys()][0]);
  changed();
});
$('filter').addEventListener('input', showNames);
$('role').append(...Object.entries(ROLES).map(([role, { title }]) => new Option(title, role)));
$('role').addEventListener('change', () => changeRole($('role').value));
