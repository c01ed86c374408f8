"""Roots of other systems: below `--root DIR` a link is followed inside DIR, as the system would follow it after a chroot(2).

Each case is a root with links, and what is seen of it: the files that a process below it would read. Where a link would lead to a
file outside if the running system followed it, there is one, which says so. Expected is the plain reading's answer over what is
seen, without any link."""
import os
import shutil
from collections import namedtuple

from hostile import refusals
from hostile.running import Answer, Difference, write
from hostile.streams import OtherUser, expect
from model import plain
from model.sources import NO_FOLDER

MOST_LINKS = 40
NO_FILE = b"it is no regular file; put one in its place"
UNREAD = b"it cannot be read; look what it is"
INSIDE = b"auth required pam_inside.so\naccount required pam_access.so\naccount required pam_time.so\n"
OUTSIDE = INSIDE.replace(b"inside", b"outside")
OTHER = b"auth required pam_deny.so\naccount required pam_deny.so\n"
TABLES = {"access.conf": b"+:root:ALL\n-:ALL:ALL\n", "time.conf": b"*;*;*;Al0000-2400\n", "group": b"adm:x:4:alice\n"}
FAULTY = {"access.conf": b"outside\n", "time.conf": b"outside\n", "group": b"outside\n"}
MODULES = {"pam_inside.so": b"", "pam_access.so": b"", "pam_time.so": b"", "pam_deny.so": b""}

Case = namedtuple("Case", "files links seen")


def nested(files):
    """The tree with the files at these paths; a path that ends in a slash is an empty folder."""
    tree = {}
    for path, data in files.items():
        *folders, name = path.strip("/").split("/")
        folder = tree
        for part in folders:
            folder = folder.setdefault(part, {})
        if path.endswith("/"):
            folder.setdefault(name, {})
        else:
            folder[name] = data
    return tree


def below(folder, files):
    """These files, below a folder."""
    return {folder + "/" + name: data for name, data in files.items()}


def make(root, files, links=()):
    """Makes a root with these files, and links to these targets."""
    os.mkdir(root)
    for path, data in files.items():
        path = root + "/" + path
        os.makedirs(os.path.dirname(path), exist_ok=True)
        if not path.endswith("/"):
            write(path, data)
    for path, target in dict(links).items():
        path = os.fsencode(root + "/" + path)
        os.makedirs(os.path.dirname(path), exist_ok=True)
        os.symlink(os.fsencode(target), path)


def chain(path, target, links):
    """Links in a row, the first at this path, the last to this target."""
    names = [path] + ["row/%d" % number for number in range(1, links)]
    return {name: "/" + following for name, following in zip(names, names[1:] + [target])}


# What lies outside

def outside():
    """The files outside of the root, to which the running system would follow links."""
    return {"pam.d/login": OUTSIDE, "pam.d/more": OUTSIDE, "pam.conf": b"login " + OUTSIDE, "login": OUTSIDE,
            **below("tables", FAULTY), **below("lib/security", {"pam_outside.so": b"", "pam_alone.so": b""}),
            **below("security", {"pam_outside.so": b"", "pam_alone.so": b""}),
            "users.db": b"", **below("own", {"access": b"", "limits": b""})}


# What is in each root, and what is seen of it. `out` is the path of what lies outside, without its first slash.

def entries(out):
    """Links to files, in the folder of files."""
    login = "etc/pam.d/login"
    seen = {login: INSIDE}
    yield Case({out + "/login": INSIDE}, {login: "/" + out + "/login"}, seen)
    yield Case({"etc/authselect/login": INSIDE}, {login: "../authselect/login"}, seen)
    yield Case({"etc/authselect/login": INSIDE}, {login: "/etc/authselect/login"}, seen)
    yield Case({"out/login": INSIDE}, {login: "../../../out/login"}, seen)
    yield Case({"out/login": INSIDE}, {login: "../../../../../../../../out/login"}, seen)
    yield Case({"out/login": INSIDE}, {login: "/../../out/./login", "etc/pam.d/up": "/.."}, seen)
    yield Case({out + "/login": INSIDE}, {login: "//" + out + "//login"}, seen)
    yield Case({"deep/login": INSIDE, "deep/er/": None, "etc/pam.d/su": OTHER}, {login: "folder/../login", "etc/pam.d/folder": "/deep/er"},
               {**seen, "etc/pam.d/su": OTHER})
    yield Case({out + "/login": INSIDE}, {login: "../row", "etc/row": "/other", "other": "../" + out + "/login"}, seen)
    yield Case({"store/1/login": INSIDE}, {login: "/etc/static/login", "etc/static": "/store/1"}, seen)


def nowhere(out):
    """Entries that lead nowhere inside, wherever they would lead outside."""
    su = {"etc/pam.d/su": OTHER}
    long = {"long": "n" * 256, "ring": "ring", "there": "/etc/pam.d/back", "back": "../pam.d/there", "through": "su/x"}
    for target in ("/" + out + "/login", "../../../out/login", "/" + out, "/", "..", "su/", "su/.", "su/..", "/dev/zero", *long.values()):
        yield Case(su, {"etc/pam.d/login": target, **below("etc/pam.d", long)}, su)


def folders(out):
    """Links to folders: that of the files, the second one, and what is above them."""
    both = {"etc/pam.d/login": INSIDE, "usr/lib/pam.d/more": OTHER}
    for path, target in (("etc/pam.d", "/" + out + "/pam.d"), ("etc/pam.d", "../../out/pam.d"), ("etc", "/" + out), ("etc", "../out")):
        home = "out" if ".." in target else out
        yield Case({home + "/pam.d/login": INSIDE}, {path: target}, {"etc/pam.d/login": INSIDE})
        yield Case({"usr/lib/pam.d/more": OTHER}, {path: target}, {"usr/lib/pam.d/more": OTHER})
        yield Case({"usr/lib/pam.d/more": OTHER, home + "/pam.d/login": INSIDE}, {path: target}, both)
    for path, target in (("usr/lib/pam.d", "/" + out + "/pam.d"), ("usr/lib/pam.d", "../../../out/pam.d"), ("usr/lib", "/" + out),
                         ("usr", "/merged")):
        home = {"/merged": "merged/lib", "../../../out/pam.d": "out"}.get(target, out)
        yield Case({"etc/pam.d/login": INSIDE, home + "/pam.d/more": OTHER}, {path: target}, both)
        yield Case({"etc/pam.d/login": INSIDE}, {path: target}, {"etc/pam.d/login": INSIDE})
    yield Case({"etc/pam.d/login": INSIDE, out + "/login": OTHER, "vendor/": None},
               {"usr/lib/pam.d": "/vendor", "vendor/more": "/" + out + "/login"}, both)
    vendor = {"usr/lib/pam.d/login": INSIDE, "etc/pam.conf": b"login auth required pam_outside.so\n"}
    yield Case(vendor, {}, vendor)
    yield Case({**vendor, "etc/pam.d": b""}, {}, vendor)
    hidden = {"etc/pam.d/login/": None, "etc/pam.d/su": OTHER, "usr/lib/pam.d/login": INSIDE, "usr/lib/pam.d/su": INSIDE}
    yield Case(hidden, {}, hidden)
    yield Case({**{path: data for path, data in hidden.items() if data}, "store/": None}, {"etc/pam.d/login": "/store"}, hidden)
    gone = {"etc/pam.d/su": OTHER, "usr/lib/pam.d/login": INSIDE}
    yield Case(gone, {"etc/pam.d/login": "/gone"}, gone)


def single(out):
    """Links for the one file."""
    conf = b"".join(b"login " + line + b"\n" for line in INSIDE.splitlines())
    seen = {"etc/pam.conf": conf}
    yield Case({out + "/pam.conf": conf}, {"etc/pam.conf": "/" + out + "/pam.conf"}, seen)
    yield Case({"out/pam.conf": conf}, {"etc/pam.conf": "../../out/pam.conf"}, seen)
    yield Case({"etc/pam.conf": conf}, {"etc/pam.d": "/" + out + "/pam.d"}, seen)
    yield Case({"etc/pam.conf": conf}, {"etc/pam.d": "pam.d"}, seen)
    yield Case({"etc/": None}, {"etc/pam.conf": "/" + out + "/pam.conf"}, {})
    yield Case({"etc/": None}, {"etc/pam.conf": "pam.conf"}, {})


def modules(out):
    """Links to folders of modules, and to modules that rules name by absolute paths."""
    rules = b"auth required pam_inside.so\nauth required pam_outside.so\nauth required pam_alone.so\n"
    files = {"etc/pam.d/login": rules, "lib64/security/": None}
    there = below("lib/security", MODULES)
    for path, target, home in (("lib", "usr/lib", "usr/lib/security"), ("lib", "/" + out + "/lib", out + "/lib/security"),
                               ("lib/security", "/" + out + "/security", out + "/security"),
                               ("lib/security", "../../out/security", "out/security")):
        yield Case({**files, **below(home, MODULES)}, {path: target}, {**files, **there})
        yield Case(files, {path: target}, files)
    triplet = "usr/lib/x86_64-linux-gnu"
    for path, target, home in ((triplet, "/" + out, out + "/security"), (triplet + "/security", "/" + out + "/security", out + "/security"),
                               (triplet, "../../../out", "out/security")):
        yield Case({**files, **below(home, MODULES)}, {path: target}, {**files, **there})
        yield Case(files, {path: target}, files)
    yield Case({**files, **there, "lib64/x.cpython-x86_64-linux-gnu.so": b""},
               {"lib/ring-linux-gnu": "ring-linux-gnu", "lib64/gone-linux-gnu": "/gone", "lib/file-linux-gnu": "security/pam_deny.so"},
               {**files, **there})
    yield Case({**files, "lib/security/pam_alone.so/": None, "lib/security/pam_outside.so": b""}, {"lib/security/pam_inside.so": "/gone"},
               {**files, "lib/security/pam_outside.so": b""})
    rules = "auth required /%s/security/pam_alone.so\nauth required /mods/pam_alone.so\nauth required /mods/pam_inside.so\n" % out
    files = {"etc/pam.d/login": rules.encode(), "lib64/security/": None}
    yield Case(files, {"mods": "/" + out + "/security"}, files)
    yield Case(files, {"mods": "../out/security"}, files)
    yield Case({**files, **below(out + "/security", MODULES)}, {"mods": "/" + out + "/security"}, {**files, **below("mods", MODULES)})
    yield Case({**files, **below("own", MODULES)}, {"mods": "../own"}, {**files, **below("mods", MODULES)})
    yield Case({**files, "own": b""}, {"mods/pam_alone.so": "../../own"}, {**files, "mods/pam_alone.so": b""})


def tables(out):
    """Links for the tables and what is above them."""
    login = {"etc/pam.d/login": INSIDE}
    homes = {"access.conf": "etc/security/", "time.conf": "etc/security/", "group": "etc/"}
    seen = {**login, **{homes[name] + name: data for name, data in TABLES.items()}}
    for target, home in (("/" + out + "/tables/", out + "/tables"), ("../../../out/tables/", "out/tables")):
        links = {homes[name] + name: target + name for name in TABLES}
        yield Case({**login, **below(home, TABLES)}, links, seen)
        yield Case(login, links, login)
    in_folder = {name: data for name, data in seen.items() if name != "etc/group"}
    yield Case({**login, **below(out + "/tables", TABLES)}, {"etc/security": "/" + out + "/tables"}, in_folder)
    yield Case(login, {"etc/security": "../../out/tables"}, login)


def access_tables(out):
    """The access tables beside that of a system: regular files of a folder, by their names, and links to such."""
    files = {"etc/pam.d/login": INSIDE, "etc/security/access.conf": b"+:root:ALL\n"}
    folder = "etc/security/access.d"
    faulty = {"/10-x.conf": b"# in the second table\n\nfault\n", "/2.conf": b"fault\n", "/B.conf": b"+:root:ALL\nfault\n", "/b.conf": b""}
    no_tables = {"/.c.conf": b"fault\n", "/.conf": b"fault\n", "/conf": b"fault\n", "/x.conf.bak": b"fault\n", "/y.CONF": b"fault\n"}
    in_folder = {folder + name: data for name, data in faulty.items()}
    beside = {folder + name: data for name, data in no_tables.items()}
    for seen in ({**files, **in_folder}, {"etc/pam.d/login": INSIDE, **in_folder}, {**files, folder + "/": None}, {**files, folder: b"fault\n"}):
        yield Case(seen, {}, seen)
    yield Case({**files, **in_folder, **beside, folder + "/d.conf/x.conf": b"fault\n"}, {}, {**files, **in_folder})
    yield Case({**files, **in_folder}, {folder + "/a.conf": "gone", folder + "/c.conf": "c.conf", folder + "/d.conf": "../../pam.d"},
               {**files, **in_folder})
    more = {"/n.conf": b"fault\n"}
    for target, home in (("/" + out + "/tables", out + "/tables"), ("../../../../out/tables", "out/tables")):
        yield Case({**files, **in_folder, **below(home, {"n.conf": b"fault\n"})}, {folder + "/n.conf": target + "/n.conf"},
                   {**files, **in_folder, **{folder + name: data for name, data in more.items()}})
        yield Case({**files, **in_folder}, {folder + "/n.conf": target + "/access.conf"}, {**files, **in_folder})
        yield Case({**files, **below(home, {"n.conf": b"fault\n", "group": b"fault\n"})}, {folder: target[3 * target.startswith("."):]},
                   {**files, folder + "/n.conf": b"fault\n"})
    yield Case(files, {folder: "access.d"}, files)


def named_files(out):
    """Links to files that arguments name, and to what is above them."""
    rules = (b"auth required pam_unix.so\nauth required pam_userdb.so db=/etc/users\naccount required pam_access.so accessfile=/etc/own/access\n"
             b"session required pam_limits.so conf=/etc/own/limits\n")
    files = {"etc/pam.d/login": rules}
    both = {"access": b"", "limits": b""}
    seen = {**files, "etc/users.db": b"", **below("etc/own", both)}
    yield Case(seen, {}, seen)
    yield Case(files, {}, files)
    yield Case({**files, "store/users": b"", **below("store/own", both)}, {"etc/users.db": "/store/users", "etc/own": "../store/own"}, seen)
    yield Case(files, {"etc/users.db": "/" + out + "/users.db", "etc/own": "../../out/own"}, files)
    yield Case({**files, "etc/own/": None}, {"etc/users.db": "users.db", "etc/own/access": "/etc/own/limits", "etc/own/limits": "access"}, files)
    yield Case({**files, "etc/users": b"", "etc/own": b""}, {}, {**files, "etc/users": b"", "etc/own": b""})
    yield Case({**files, "etc/users.db/": None, "etc/own/limits/": None}, {"etc/own/access": "limits"},
               {**files, "etc/users.db/": None, "etc/own/limits/": None, "etc/own/access/": None})
    yield Case({**files, **below(out + "/own", both)}, chain("etc/own", out + "/own", MOST_LINKS), {**files, **below("etc/own", both)})
    yield Case({**files, **below(out + "/own", both)}, chain("etc/own", out + "/own", MOST_LINKS + 1), files)


def rows(out):
    """As many links as are followed, and one more; those of the folder count too."""
    su, seen = {"etc/pam.d/su": OTHER}, {"etc/pam.d/su": OTHER, "etc/pam.d/login": INSIDE}
    for links in (2, MOST_LINKS, MOST_LINKS + 1):
        yield Case({**su, out + "/login": INSIDE}, chain("etc/pam.d/login", out + "/login", links), seen if links <= MOST_LINKS else su)
        yield Case({"pam.d/su": OTHER, "pam.d/login": INSIDE}, chain("etc/pam.d", "pam.d", links), seen if links <= MOST_LINKS else {})
    for links in (MOST_LINKS - 1, MOST_LINKS):
        yield Case({"pam.d/su": OTHER, out + "/login": INSIDE}, {"etc/pam.d": "/pam.d", **chain("pam.d/login", out + "/login", links)},
                   seen if links < MOST_LINKS else su)


ROOTS = [entries, nowhere, folders, single, modules, tables, access_tables, named_files, rows]


# The runs

def requests(root):
    """What is asked of a root; beside it is a root `plain` without links, of which the same is seen."""
    yield ["show", "login", "auth", "--root", root]
    yield ["check", "--root", root]
    yield ["compare", "--root", root, "plain"]
    yield ["compare", "--root", "plain", root]


def over_cases(program):
    """Each request over each root."""
    out = os.getcwd().strip("/") + "/out"
    runs = 0
    for case in (case for cases in ROOTS for case in cases(out)):
        make("root", case.files, case.links)
        make("plain", case.seen)
        seen = nested(case.seen)
        for words in requests("root"):
            expect(words, Answer(*plain.answer(words, {"root": seen, "plain": seen})), program.run(words), {"root": case.links, **seen})
            runs += 1
        shutil.rmtree("root")
        shutil.rmtree("plain")
    return runs


def words_are_followed(program):
    """Links and `..` in the words themselves are followed by the system, also out of the folder of the words."""
    make("root", {"out/login": INSIDE, "x/": None}, {"etc/pam.d/login": "../../x/../out/login"})
    os.symlink("root", "linked")
    os.symlink("out/../linked/.", "again")
    names = ["linked", "again", "out/../root", "root/", "./root//", "root/.", os.getcwd() + "/root", "out/../again"]
    seen = nested({"etc/pam.d/login": INSIDE})
    for name in names:
        words = ["check", "--root", name]
        shown = Answer(*plain.answer(["check", "--root", "root"], {"root": seen}))
        expected = shown._replace(stdout=shown.stdout.replace(b"root/etc", name.encode() + b"/"[name.endswith("/"):] + b"etc"))
        expect(words, expected, program.run(words), {"root": seen})
    shutil.rmtree("root")
    os.remove("linked")
    os.remove("again")
    return len(names)


def unread(program):
    """What cannot be followed is V1, with the name that it has elsewhere."""
    su, runs = {"etc/pam.d/su": OTHER}, 0
    for files, links, command, name, told in (
            (su, {"etc/pam.d/login": b"not\xfftext"}, "show", "login", b""),
            (su, {"etc/pam.d/login": "x", "etc/pam.d/x": b"/not\xfftext/x"}, "show", "login", b""),
            ({"etc": b""}, {}, "show", "root/etc/pam.d", b""),
            ({}, {"etc": "etc"}, "show", "root/etc/pam.d", b""),
            ({}, {"etc": "etc"}, "check", "root/etc/pam.d", b"its links lead back to themselves; mend one of them"),
            ({"file": b""}, {"etc": "/file"}, "show", "root/etc/pam.d", b""),
            ({**su, "vendor": b""}, {"usr/lib/pam.d": "/vendor"}, "show", "root/usr/lib/pam.d", b""),
            ({**su, "etc/security": b""}, {}, "check", "root/etc/security/access.conf", NO_FOLDER),
            ({**su, "folder/": None}, {"etc/group": "/folder"}, "check", "root/etc/group", NO_FILE),
            ({**su, "folder/": None}, {"etc/security/access.conf": "/folder"}, "check", "root/etc/security/access.conf", NO_FILE),
            (su, {"etc/security/access.d/x.conf": b"not\xfftext"}, "check", "root/etc/security/access.d/x.conf", UNREAD),
            ({**su, "etc/security/access.d/\udcff": b""}, {}, "check", "root/etc/security/access.d", UNREAD),
            ({**su, "usr": b""}, {}, "check", "root/usr/lib/pam.d", NO_FOLDER)):
        make("root", files, links)
        words = [command, *["su", "auth"][:2 * (command == "show")], "--root", "root"]
        line = b"pamcheck: V1 Read %s%s\n" % (name.encode(), told and b": " + told)
        expect(words, Answer(b"", line, 5), program.run(words), nested(files))
        shutil.rmtree("root")
        runs += 1
    return runs


def closed(program):
    """A link through a folder that may not be searched leads somewhere, and a file that an argument names may be in such a folder."""
    user = OtherUser(program)
    if not user.exists:
        return 0
    make("root", {"etc/pam.d/su": OTHER, "closed/inner/login": INSIDE}, {"etc/pam.d/login": "/closed/inner/login"})
    os.chmod("root/closed", 0)
    words = ["show", "su", "auth", "--root", "root"]
    expect(words, Answer(b"", b"pamcheck: V1 Read login\n", 5), user.run(words), {})
    os.chmod("root/closed", 0o700)
    shutil.rmtree("root")
    make("root", {"etc/pam.d/su": b"account required pam_access.so accessfile=/closed/own.conf\n", "closed/own.conf": b""})
    os.chmod("root/closed", 0)
    line = b"pamcheck: V1 Read root/closed/own.conf: the system does not permit it; run pamcheck as a user who may read it\n"
    words = ["check", "--root", "root"]
    expect(words, Answer(b"", line, 5), user.run(words), {})
    os.chmod("root/closed", 0o700)
    shutil.rmtree("root")
    return 2


def refused(program):
    """An allocation that is refused on the way along a link ends the run: nothing is taken to lead nowhere for want of memory."""
    shared = refusals.library()
    if shared is None:
        return 0
    absolute = INSIDE + b"auth required /mods/pam_own.so\n"
    make("root", {"out/login": absolute, "out/security/pam_own.so": b"", "out/group": b"adm::4:alice\n"},
         {"etc/pam.d": "../pam.d", "pam.d/login": "/out/login", "lib": "/out", "mods": "lib/security", "etc/group": "../../out/group",
          "etc/security/access.d/1.conf": "/out/group"})
    words, runs = ["check", "--root", "root"], 0
    whole = program.run(words)
    for later in (0, 1):
        for got in refusals.answers(program, words, shared, later):
            if got != whole and (got.status != 6 or got.stdout):
                raise Difference("an allocation is refused to %s, which answers %r" % (" ".join(words), got))
            runs += 1
    shutil.rmtree("root")
    return runs


def run(program):
    """How many runs were made."""
    program.hold({})
    make("out", outside())
    count = sum(check(program) for check in (over_cases, words_are_followed, unread, closed, refused))
    shutil.rmtree("out")
    return count
