"""The files of a source, read plainly from `docs/SPECIFICATION.md`: a folder, two of them, one file, or a system.

What is at hand is a tree: a dictionary from names to bytes, or to a dictionary for a folder. A link out of its folder is marked."""

from model import stacks
from model.faults import Fault

SOURCES = [b"--dir", b"--conf", b"--root"]
WITH = b"--with"
NOT_FOUND = b"there is no such file or folder; mend the name"
NO_FOLDER = b"it is no folder, or a part of its path is none; write the name of a folder"
IS_FOLDER = b"it is a folder; write the name of a file"
LOOPING = b"its links lead back to themselves; mend one of them"
FAILED = b"it cannot be read; look what it is"
# What is in a tree in the place of a link that leads back to itself.
LOOP = "a loop of links"
# What is in a tree in the place of any other link that leads nowhere.
DEAD = "a link that leads nowhere"
# What is in a tree in the place of a file that the system does not permit to read.
SHUT = "a file that may not be read"
NOT_PERMITTED = b"the system does not permit it; run pamcheck as a user who may read it"
# The most bytes of a name of a file; the system answers of a longer one that it is too long, and not that it is not there.
LONGEST = 255


def judge(options, has_default):
    """Refuses more than one source, or none where there is no default."""
    given = [name for name in SOURCES if name in options]
    if not given and b"--vendor-dir" not in options and has_default:
        options[b"--root"] = b"/"
    elif len(given) != 1 or b"--vendor-dir" in options and given != [b"--dir"]:
        raise Fault("U2")


def candidates(options, words=()):
    """The names and files of the candidates: of those of these words that are files, and of the options. Refuses candidates of another
    form, and any beside one file, which has no names."""
    given = [(word.rpartition(b"/")[2], word) for word in words if b"/" in word]
    given += [value.partition(b"=")[::2] for value in options.get(WITH, [])]
    if any(not name or b"/" in name or not file or b"--conf" in options for name, file in given):
        raise Fault("U15")
    return given


class Outside(bytes):
    """The bytes of a file to which a link leads that leads out of its folder."""


class Source:
    """The files of the source that the options name, the paths under which they are read, where `None` has that of the whole, and the
    names of those that only the second folder has, of those that are links which lead out of a folder, of links which lead nowhere, and of
    files that cannot be read, which are empty here."""

    def __init__(self, options, tree, given=()):
        self.tree = tree
        self.candidates = given
        self.paths = {}
        self.of_vendor = set()
        self.dead = set()
        self.shut = []
        if b"--dir" in options:
            self.files = self.folders([options[name] for name in (b"--dir", b"--vendor-dir") if name in options])
        elif b"--conf" in options:
            self.files = self.single(options[b"--conf"], read(tree, options[b"--conf"]))
        else:
            self.files = self.system(options[b"--root"])
        self.outside = {name for name, data in self.files.files.items()
                        if isinstance(data, Outside) and b"--dir" in options and name not in dict(given)}

    def folders(self, names):
        """The candidates, the files of a folder, and those of a second one, each of a name that those before it have not; an entry of the
        first that is no file hides one too."""
        files = {}
        for name, file in self.candidates:
            if name not in files:
                files[name] = read(self.tree, file)
                self.paths[name] = file
        above = set()
        for folder in names:
            there = {name.encode(): data for name, data in listed(self.tree, folder).items()}
            for name, data in sorted((name, data) for name, data in there.items() if name not in above):
                if name not in files and (isinstance(data, bytes) or data == SHUT):
                    files[name] = b"" if data == SHUT else data
                    self.shut += [name] * (data == SHUT)
                    self.paths[name] = joined(folder, name)
                    if folder != names[0]:
                        self.of_vendor.add(name)
            dead = {name for name, data in there.items() if data in (DEAD, LOOP)}
            above |= there.keys() - dead
            self.dead |= dead
        self.dead -= files.keys()
        self.paths[None] = names[0]
        return stacks.Files(stacks.DIR, files)

    def single(self, path, data):
        """The one file, or none."""
        self.paths = {None: path, b"pam.conf": path}
        return stacks.Files(stacks.SINGLE, {b"pam.conf": data} if isinstance(data, bytes) else {})

    def system(self, root):
        """The files of a system: of its folders, else of its one file; candidates are for the first folder that is there."""
        listed(self.tree, root)
        folder, vendor, conf = (joined(root, name) for name in (b"etc/pam.d", b"usr/lib/pam.d", b"etc/pam.conf"))
        there = [home for home in (folder, vendor) if isinstance(found(self.tree, home), dict)]
        if self.candidates and not there:
            raise Fault("V1", folder, told=NOT_FOUND)
        return self.folders(there) if there else self.single(conf, found(self.tree, conf))


# A tree

def joined(folder, name):
    """The path of a name in a folder."""
    return folder + name if folder.endswith(b"/") else folder + b"/" + name


def found(tree, path):
    """The bytes or the folder at a path, or `None`; a file of the system has its whole path as its name."""
    if path.decode() in tree:
        return tree[path.decode()]
    if path.startswith(b"/"):
        return None
    trail = [tree]
    for name in path.decode().split("/"):
        if not trail or not isinstance(trail[-1], dict):
            return None
        trail = trail[:-1] if name == ".." else trail if name in ("", ".") else trail + [trail[-1].get(name)]
    return trail[-1] if trail else None


def why_unread(tree, name, there):
    """Why what is there is not what is to be read."""
    if isinstance(there, dict):
        return IS_FOLDER
    if there == LOOP:
        return LOOPING
    if there is None and len(name.partition(b"/")[0]) > LONGEST:
        return FAILED
    above = [name[:at] for at in range(1, len(name)) if name[at:at + 1] == b"/"]
    is_below_file = any(isinstance(found(tree, folder), bytes) for folder in above)
    return NO_FOLDER if is_below_file or there is not None else NOT_FOUND


def listed(tree, name):
    """The entries of a folder that the words name."""
    folder = found(tree, name)
    if not isinstance(folder, dict):
        raise Fault("V1", name, told=why_unread(tree, name, folder))
    return folder


def read(tree, name):
    """The bytes of a file that the words name."""
    data = found(tree, name)
    if not isinstance(data, bytes):
        raise Fault("V1", name, told=why_unread(tree, name, data))
    return data
