"""What a check is given besides its configuration, read plainly from `docs/SPECIFICATION.md`: modules, facts and accepted findings."""
import os
import re

from model import faults, stacks
from model.faults import LineFault
from model.sources import found, joined, read

CLASSES = (b"checks", b"ignores", b"passes", b"fails")
MOST_ARGUMENTS = 2
TABLES = (("group", b"--group", b"etc/group"), ("access", b"--access", b"etc/security/access.conf"),
          ("time", b"--time", b"etc/security/time.conf"))
# The folder of the access tables that come after that of a root.
ACCESS_FOLDER = b"etc/security/access.d"
LIBRARIES = (b"lib", b"lib64", b"usr/lib", b"usr/lib64")


def lines_of(data):
    """The lines of a file, numbered, each without a carriage return at its end."""
    return [(number, line[:-1] if line.endswith(b"\r") else line) for number, line in enumerate(data.split(b"\n"), 1)]


# Facts

def facts(data):
    """The rows of a facts file, as lists of words."""
    faults.judge_whole(b"facts", data, "TE12", "TE10")
    rows = faults.judged(b"facts", lines_of(data), lambda number, line: row_of(line))
    return [row for row in rows if row]


def named_rows(data):
    """The number of each line of a facts file that has a row, and the name of its module."""
    return [(number, re.split(rb"[ \t]+", line.strip(b" \t"))[0]) for number, line in lines_of(data)
            if line.strip(b" \t") and not line.startswith(b"#")]


def row_of(line):
    """The words of a row, with its class, kinds and codes in lower case; none of a comment or a blank line."""
    words = [word for word in re.split(rb"[ \t]", line) if word]
    if line.startswith(b"#") or not words:
        return []
    name, rest = words[0], words[1:]
    if rest[:1] == [b"knows"]:
        return known_row(name, rest[1:])
    of_class = next((at for at, word in enumerate(rest[:MOST_ARGUMENTS + 1]) if word in CLASSES), None)
    if b"/" in name or name.endswith(b".so") or of_class is None:
        raise LineFault("TE16")
    return [name] + rest[:of_class + 1] + judged_codes([word.lower() for word in rest[of_class + 1:]])


def known_row(name, words):
    """The words of a row of an argument that a module knows, with its kinds."""
    kinds = words[1].lower().split(b",") if len(words) > 1 else stacks.KINDS
    if b"/" in name or name.endswith(b".so") or not 1 <= len(words) <= 2 or not set(kinds) <= set(stacks.KINDS):
        raise LineFault("TE16")
    return [name, b"knows", words[0], b",".join(kinds)]


def judged_codes(words):
    """The kinds and codes after a class: each list of kinds has a code."""
    named, needs_code = False, False
    for word in words:
        if set(word.split(b",")) <= set(stacks.KINDS) and not needs_code:
            named, needs_code = True, True
        elif word in stacks.CODES and named:
            needs_code = False
        else:
            raise LineFault("TE16")
    if needs_code:
        raise LineFault("TE16")
    return words


# Accepted findings

def accepted(data):
    """The lines of an accept file that have words, each with the key of a finding."""
    faults.judge_whole(b"accept", data, "TE12", "TE10")
    keys = faults.judged(b"accept", enumerate(data.split(b"\n"), 1), key_of_line)
    return [key for key in keys if key]


def key_of_line(number, line):
    """The number of a line and its key, none for a line without words."""
    words = []
    for word in re.findall(rb"[^ \t\r]+", line):
        if word.startswith(b"#"):
            break
        words.append(word)
    if not words:
        return None
    has_kind = len(words) < 3 or words[2].lower() in stacks.KINDS
    if not re.fullmatch(rb"(E|L|S|A|T|TE)[0-9]{1,2}", words[0]) or len(words) > 3 or not has_kind:
        raise LineFault("TE15")
    return number, b" ".join(words)


# Tables

def tables(options, tree, of_root=("group", "access", "time")):
    """The path and the bytes of each table that is named, or else of those of the root, if they are some of these and are there. They have
    the names that faults give them: the access tables are `access`, `access[2]` and so on."""
    root = options.get(b"--root")
    given = {}
    for table, option, own in TABLES:
        paths = tables_of_root(tree, root, table, own) if root is not None and table in of_root else []
        if option in options:
            paths = options[option] if isinstance(options[option], list) else [options[option]]
        for number, path in enumerate(paths, 1):
            given[table if number == 1 else "%s[%d]" % (table, number)] = path, read(tree, path)
    return given


def passwd(options, tree, of_root=False):
    """The bytes of the passwd file that is named, or else of that of the root, if it is to be read and is there. `None` if there is none."""
    path = options.get(b"--passwd")
    if path is None and of_root and options.get(b"--root") is not None:
        own = joined(options[b"--root"], b"etc/passwd")
        path = own if found(tree, own) is not None else None
    return None if path is None else judged_passwd(path, read(tree, path))


def judged_passwd(path, data):
    """The bytes of a passwd file, unless they are too many or have a NUL byte."""
    if len(data) > faults.MOST_BYTES:
        raise faults.Fault("V1", path, told=b"it is longer than 1 MiB; name a shorter one")
    if b"\0" in data:
        raise faults.Fault("V1", path, told=b"it has a NUL byte; remove it")
    return data


def named_access(given):
    """The name and the bytes of each access table."""
    return [(table.encode(), data) for table, (_, data) in given.items() if table.startswith("access")]


def tables_of_root(tree, root, table, own):
    """The paths of the tables of a root that are there."""
    paths = [joined(root, own)] if found(tree, joined(root, own)) is not None else []
    folder = joined(root, ACCESS_FOLDER)
    if table == "access" and isinstance(found(tree, folder), dict):
        entries = {os.fsencode(name): data for name, data in found(tree, folder).items()}
        paths += [joined(folder, name) for name, data in sorted(entries.items())
                  if isinstance(data, bytes) and name.endswith(b".conf") and not name.startswith(b".")]
    return paths


# Modules

def there(root, folders, files, found):
    """The paths at which a module is there, in order, or `None` if there is no folder of modules. `found` is what is at a path, or `None`."""
    inner = []
    if root is not None:
        for library in LIBRARIES:
            path = joined(root, library)
            names = found(path) if isinstance(found(path), dict) else {}
            inner += [path] + [joined(path, name) for name in sorted(map(os.fsencode, names)) if b"-linux-gnu" in name and is_text(name)]
    known = [folder for folder in [joined(folder, b"security") for folder in inner] + list(folders) if isinstance(found(folder), dict)]
    if not known:
        return None
    named = dict.fromkeys(path for data in files.files.values() for path in paths_with_folder(files.form, data))
    paths = []
    for folder in known:
        entries = {os.fsencode(name): data for name, data in found(folder).items()}
        paths += sorted(name for name, data in entries.items() if isinstance(data, bytes) or not is_text(name))
        paths += [path for path in named
                  if not path.startswith(b"/") and is_below(path, lambda path: isinstance(found(joined(folder, path)), bytes))]
    return dict.fromkeys(paths + [path for path in named if path.startswith(b"/") and is_below(path, lambda path: is_at(root, path, found))])


def paths_with_folder(form, data):
    """The module paths of the lines of a file that contain a slash."""
    if b"\0" in data or len(data) > faults.MOST_BYTES:
        return
    for _, line in stacks.logical_lines(data):
        try:
            texts = [text for _, text in stacks.words_of(line)]
        except LineFault:
            continue
        yield from (path for path in texts[2 + (form == stacks.SINGLE):][:1] if b"/" in path)


def is_below(path, looked_at):
    """Whether a module is at a path that is looked at, without the names `$ISA` in it; one that is not UTF-8 cannot be, and counts as there."""
    return looked_at(b"/".join(name for name in path.split(b"/") if name != b"$ISA")) if is_text(path) else True


def is_text(name):
    """Whether a name is UTF-8."""
    try:
        name.decode()
    except UnicodeDecodeError:
        return False
    return True


def is_at(root, path, found):
    """Whether a file is at an absolute path, of the system with this root or of the running one."""
    if root is None:
        return os.path.isfile(path)
    return isinstance(found(joined(root, path.lstrip(b"/"))), bytes)


def files_below(root, found):
    """Whether something is at an absolute path of the system with this root; `None` where there is no root. A path that is not UTF-8 counts as
    there."""
    return None if root is None else lambda path: not is_text(path) or found(joined(root, path.lstrip(b"/"))) is not None
