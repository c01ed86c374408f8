// The files of a configuration: those that are edited, and those that they are compared with.

// The most bytes that the fragment of a link may hold once it is unpacked.
const MAX_SHARED = 8 << 20;
// The most files that are looked at of what is dropped.
const MAX_DROPPED = 100000;

const bytesOf = (text) => new TextEncoder().encode(text);
const textOf = (bytes) => new TextDecoder('utf-8', { ignoreBOM: true }).decode(bytes);

const areSame = (one, other) => one === other || (one.length === other.length && one.every((byte, at) => byte === other[at]));

// A file as it is given. An editor shows its text, in which bytes that are no UTF-8, and carriage returns, are not as they are; so the
// bytes stay what they were until the text is changed.
class GivenFile {
  constructor(bytes, role = 'service') {
    this.bytes = bytes;
    this.role = role;
  }

  get text() {
    return textOf(this.bytes);
  }

  // What an edit of the text would change besides, or nothing.
  get caution() {
    if (!areSame(bytesOf(this.text), this.bytes)) return 'This file is not UTF-8. An edit here replaces each byte that is not.';
    if (this.bytes.includes(13)) return 'This file has carriage returns. An edit here removes them.';
    return '';
  }
}

// Files of a name, a text or bytes, and a role.
const filesOf = (given) =>
  new Map(given.map(([name, text, role]) => [name, new GivenFile(typeof text === 'string' ? bytesOf(text) : text, role)]));

// Files of services come first, and all in the order of their names.
const inOrder = (files) => new Map([...files].sort(([one, { role }], [other, { role: otherRole }]) => {
  const isLater = role !== 'service', isOtherLater = otherRole !== 'service';
  if (isLater !== isOtherLater) return isLater ? 1 : -1;
  return one < other ? -1 : one > other ? 1 : 0;
}));

const areSameFiles = (one, other) =>
  one.size === other.size && [...one].every(([name, file]) => {
    const same = other.get(name);
    return same !== undefined && same.role === file.role && areSame(file.bytes, same.bytes);
  });

const isName = (name) => name !== '' && name !== '.' && name !== '..' && !name.includes('/');

// The name of a service has no slash. That of another file may be a path.
const isNameFor = (role, name) => (role === 'service' ? isName(name) : name.split('/').every(isName));

// The name that a file gets with a role.
function nameWith(role, name) {
  if (role === 'service') return lastOf(name);
  return role === 'vendor' ? `usr/lib/${FOLDER}/${lastOf(name)}` : name;
}

// ---- what is dropped or chosen

// The files below an entry of the system, with the path of each, as long as there is room for them.
async function entriesOf(entry, path, found) {
  if (found.length >= MAX_DROPPED) return;
  if (entry.isFile) {
    found.push([path, await new Promise((done, fail) => entry.file(done, fail))]);
    return;
  }
  const reader = entry.createReader();
  for (;;) {
    const some = await new Promise((done, fail) => reader.readEntries(done, fail));
    if (some.length === 0) return;
    for (const one of some) await entriesOf(one, `${path}/${one.name}`, found);
  }
}

// The same of a handle, which is how Chromium lets a page that was opened from a disk read a folder.
async function handlesOf(handle, path, found) {
  if (found.length >= MAX_DROPPED) return;
  if (handle.kind === 'file') {
    found.push([path, await handle.getFile()]);
    return;
  }
  for await (const one of handle.values()) await handlesOf(one, `${path}/${one.name}`, found);
}

// The files that are dropped. What is dropped has to be asked for before the first pause.
async function dropped(transfer) {
  const items = [...transfer.items].filter(({ kind }) => kind === 'file'), plain = chosen(transfer.files), found = [];
  const promised = items.map((item) => item.getAsFileSystemHandle?.().catch(() => null));
  const entries = items.map((item) => item.webkitGetAsEntry?.()), all = await Promise.all(promised);
  for (const [at, handle] of all.entries()) {
    if (handle) await handlesOf(handle, handle.name, found);
    else if (entries[at]) await entriesOf(entries[at], entries[at].name, found);
  }
  return found.length > 0 ? found : plain;
}

const chosen = (list) => [...list].map((file) => [file.webkitRelativePath || file.name, file]);

const folderOfPath = (path) => path.split('/').slice(0, -1).join('/');

const depthOf = (folder) => (folder === '' ? 0 : folder.split('/').length);

const highest = (folders) => folders.reduce((one, other) => (depthOf(other) < depthOf(one) ? other : one));

// The folder of the services in these paths: the first `pam.d`, but for a vendor's; or else that of etc/pam.conf, or the highest one.
function homeIn(paths) {
  const folders = paths.map(folderOfPath);
  const named = folders.filter((folder) => lastOf(folder) === FOLDER && !`/${folder}`.endsWith(`/usr/lib/${FOLDER}`));
  if (named.length > 0) return highest(named);
  const single = paths.filter((path) => `/${path}`.endsWith(`/etc/${SINGLE}`)).map(folderOfPath);
  return highest(single.length > 0 ? single : folders);
}

// The path below the root of a system whose services are in a folder, or nothing if it is not below.
function belowRoot(path, home) {
  const [, root] = /^(|.*\/)etc(?:\/pam\.d)?$/.exec(home) ?? [];
  return root !== undefined && path.startsWith(root) ? path.slice(root.length) : undefined;
}

// The name of the file of the modules of a system, which is that of no service.
const MODULES_NAME = 'usr/lib/security';

// Where a system has modules.
const MODULE_PLACE = /^(?:usr\/)?lib(?:64)?\/(?:[^/]*-linux-gnu[^/]*\/)?security\/[^/]+\.so$/;

// What a file is whose name alone is known.
const LOOSE = { 'access.conf': 'access', 'time.conf': 'time', group: 'group' };

// The role of a file with this path, or nothing.
function roleAt(path, home) {
  if (home === '' && Object.hasOwn(LOOSE, path)) return LOOSE[path];
  const isSystem = lastOf(home) !== FOLDER && belowRoot(path, home) !== undefined;
  if (folderOfPath(path) === home && (!isSystem || lastOf(path) === SINGLE)) return 'service';
  const below = belowRoot(path, home);
  return below && Object.keys(ROLES).find((role) => ROLES[role].place?.test(below));
}

// The configuration in these files, of which only those are read that belong to it. The modules that a system has become one file.
async function configurationIn(found) {
  const home = homeIn(found.map(([path]) => path));
  const read = found.map(([path, file]) => [path, file, roleAt(path, home)]).filter(([, , role]) => role);
  const named = await Promise.all(read.map(async ([path, file, role]) =>
    [role === 'service' ? lastOf(path) : belowRoot(path, home) ?? path, new Uint8Array(await file.arrayBuffer()), role]));
  const modules = found.map(([path]) => belowRoot(path, home)).filter((path) => path && MODULE_PLACE.test(path));
  if (modules.length > 0) named.push([MODULES_NAME, modules.sort().map((path) => `/${path}\n`).join(''), 'modules']);
  return inOrder(filesOf(named));
}

// ---- a link that holds the files

const toBase64 = (bytes) => {
  let text = '';
  for (const byte of bytes) text += String.fromCharCode(byte);
  return btoa(text).replace(/\+/g, '-').replace(/\//g, '_').replace(/=+$/, '');
};

const fromBase64 = (text) => Uint8Array.from(atob(text.replace(/-/g, '+').replace(/_/g, '/')), (c) => c.charCodeAt(0));

async function packed(value) {
  const stream = new Blob([JSON.stringify(value)]).stream().pipeThrough(new CompressionStream('deflate-raw'));
  return toBase64(new Uint8Array(await new Response(stream).arrayBuffer()));
}

async function unpacked(text) {
  const reader = new Blob([fromBase64(text)]).stream().pipeThrough(new DecompressionStream('deflate-raw')).getReader();
  const parts = [];
  let size = 0;
  for (;;) {
    const { done, value } = await reader.read();
    if (done) break;
    size += value.length;
    if (size > MAX_SHARED) throw new RangeError('the link holds too much');
    parts.push(value);
  }
  return JSON.parse(await new Blob(parts).text());
}

// A file in a link: its name, its text or where that is not all of it its bytes in base64, and its role unless that is of a service.
function sharedFile([name, file]) {
  const role = file.role === 'service' ? [] : [file.role];
  return file.caution ? [name, null, toBase64(file.bytes), ...role] : [name, file.text, null, ...role];
}

function unsharedFile([name, text, bytes, role = 'service']) {
  return [String(name), typeof text === 'string' ? text : fromBase64(String(bytes)), Object.hasOwn(ROLES, role) ? role : 'none'];
}
