// What each file is read as, and the words and paths by which the library is told.

const FOLDER = 'pam.d';
const SINGLE = 'pam.conf';

// Each role: its title, where a system has such files, the option that passes one, and whether there is one at most.
const ROLES = {
  service: { title: 'service file' },
  vendor: { title: 'service file of a vendor', place: /^usr\/lib\/pam\.d\/[^/]+$/ },
  access: { title: 'access table', place: /^etc\/security\/access(\.d\/[^/]+)?\.conf$/, option: '--access' },
  time: { title: 'time table', place: /^etc\/security\/time\.conf$/, option: '--time', isOne: true },
  group: { title: 'group file', place: /^etc\/group$/, option: '--group', isOne: true },
  facts: { title: 'facts of modules', option: '--facts', isOne: true },
  accept: { title: 'findings to accept', option: '--accept', isOne: true },
  modules: { title: 'names of modules' },
  none: { title: 'not read' },
};

// The roles whose files a command takes, besides those of services.
const TAKEN = {
  check: ['modules', 'access', 'time', 'group', 'facts', 'accept'],
  policy: ['modules', 'facts'],
  needs: ['modules', 'facts'],
  outcomes: ['modules', 'facts'],
  graph: ['modules', 'facts'],
  compare: ['modules', 'facts'],
};

// The folder in memory of the files that are no service's.
const OTHERS = 'other';
const VENDOR_FOLDER = 'vendor';
const MODULES_FOLDER = 'modules';

const lastOf = (path) => path.split('/').pop();

const withRole = (files, role) => [...files].filter(([, file]) => file.role === role);

const isSingle = (files) => {
  const named = withRole(files, 'service');
  return named.length === 1 && named[0][0] === SINGLE && withRole(files, 'vendor').length === 0;
};

// The services of a vendor's folder, without those that the first folder has too.
const ownOfVendor = (files) => withRole(files, 'vendor').filter(([name]) => files.get(lastOf(name))?.role !== 'service');

// The services: those that the rules of a pam.conf name, or those that have a file.
function servicesOf(files) {
  if (isSingle(files)) {
    const words = files.get(SINGLE).text.split('\n').map((line) => line.trim().split(/\s+/)[0].toLowerCase());
    return [...new Set(words.filter((word) => word !== '' && !word.startsWith('#')))].sort();
  }
  return [...withRole(files, 'service'), ...ownOfVendor(files)].map(([name]) => lastOf(name));
}

// The paths of a module that a line names, by its name or by the path that it has on a system. Where that begins with /usr/lib, the
// module is found without /usr too, since systems have one folder for both.
function pathsOfModule(line) {
  const named = `${MODULES_FOLDER}/${lastOf(line)}`;
  return line.startsWith('/') ? [named, line, line.replace(/^\/usr\/lib/, '/lib')] : [named];
}

// The paths of the modules that a file names, a line each.
function modulePaths(text) {
  const lines = text.split('\n').map((line) => line.trim()).filter((line) => line !== '' && !line.startsWith('#') && !line.endsWith('/'));
  return lines.flatMap(pathsOfModule);
}

// The option for a role and the files of it, as words and as files by their paths.
function passed(role, found) {
  if (role === 'modules') {
    const paths = [...new Set(found.flatMap(([, file]) => modulePaths(file.text)))];
    return { words: paths.length > 0 ? ['--modules', MODULES_FOLDER] : [], files: paths.map((path) => [path, new Uint8Array()]) };
  }
  const paths = found.map(([name]) => `${OTHERS}/${name}`);
  return { words: paths.flatMap((path) => [ROLES[role].option, path]), files: found.map(([, file], at) => [paths[at], file.bytes]) };
}

// What a command takes of the files besides those of services.
function othersOf(files, command) {
  const all = (TAKEN[command] ?? []).map((role) => passed(role, withRole(files, role)));
  return { words: all.flatMap(({ words }) => words), files: all.flatMap((one) => one.files) };
}

// The words that name the services, and their files by their paths.
function servicesSource(files) {
  if (isSingle(files)) return { words: ['--conf', SINGLE], files: [[SINGLE, files.get(SINGLE).bytes]] };
  const own = withRole(files, 'service').map(([name, file]) => [`${FOLDER}/${name}`, file.bytes]);
  const vendor = withRole(files, 'vendor').map(([name, file]) => [`${VENDOR_FOLDER}/${lastOf(name)}`, file.bytes]);
  return { words: ['--dir', FOLDER, ...(vendor.length > 0 ? ['--vendor-dir', VENDOR_FOLDER] : [])], files: [...own, ...vendor] };
}

// The words of a command about these files, and the files by the paths that the words name.
function sourceOf(files, command) {
  const services = servicesSource(files), others = othersOf(files, command);
  return { words: [...services.words, ...others.words], files: [...services.files, ...others.files] };
}

// The files of services as one folder, for a comparison.
const folderOf = (files, folder) =>
  [...withRole(files, 'service'), ...ownOfVendor(files)].map(([name, file]) => [`${folder}/${lastOf(name)}`, file.bytes]);

// The name of the file with this path, as a finding tells it.
function nameOf(path) {
  const [folder, ...rest] = path.split('/');
  const name = rest.join('/');
  if (folder === VENDOR_FOLDER) return `usr/lib/${FOLDER}/${name}`;
  return name !== '' && (folder === FOLDER || folder === OTHERS) ? name : path;
}
