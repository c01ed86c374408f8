"""Small worked files, each cut short at every byte, and with every byte replaced by each of ten others.

A case is the words and the tree of files; every case is answered as the plain reading answers it.
"""

REPLACEMENTS = b"\0\n\r\\[]#=\x80\xff"

FOLDER = {
    "login": b"""# login \\
auth required a.so [query=a \\] b] \\
  debug # note \\
-auth [success=1 default=ignore] b.so
@include common
auth substack inner x
account include common
""",
    "common": b"""auth [SUCCESS=ok auth_err=die default=bad incomplete=2] pam_unix.so
account required /lib/pam_access.so
Account optional pam_time.so
""",
    "inner": b"""auth sufficient /lib/c.so
-Auth [default=reset] [d e]""",
    "other": b"auth requisite pam_deny.so\n",
}
CONF = b"""LOGIN Auth REQUIRED /lib/Sec.so Nullok
login -auth [success=2 default=die] b.so # x
login auth \\
 sufficient c.so
other auth requisite [a b]
ftp account optional d.so
"""
ACCESS = b"""# comment
-:ALL EXCEPT (wheel) bob:10.0.0.0/8 ::1
+ : alice,dora EXCEPT root : LOCAL .org\r
-:ALL:2001:db8::/32 192.168. pts/0
+:wheel:tty1 1::2.3.4.5/ffff::
-:ALL:ALL EXCEPT local
"""
GROUP = b"""wheel:x:10:alice,bob
adm::4:\r
users:*:100:,dora,carol,
wheel:x:11:erin
"""
TIME = b"""# hours
login|su ; tty* & !ttyp* ; !root ; !Al0000-2400 \\
 | Wk1800-0800
*;*;alice | bob & b*b;MoMoTu0900-1730 & !Wd2200-0600
"""
RETURNS = b"""# known
a.so success auth_err
 b.so IGNORE\r
pam_unix.so  new_authtok_reqd\tsuccess
pam_time.so abort
"""
EXCHANGED = [[command, "login", "account", "--dir", "d", "--user", "alice"]
             for command in ("paths", "outcomes", "graph")]
STACK = b"""auth required a.so
auth [success=1 default=ignore] b.so
auth sufficient pam_unix.so
account required pam_access.so
account required pam_time.so
"""
HOST = {"login": STACK + b"""account optional pam_access.so listsep=,
session required pam_access.so fieldsep=+ listsep=
"""}
POLICY = b"""# why
log*,!su auth needs a[x] or b
* *	obeys a.so and b=failure # x
su auth,account never succeeds with a=any and b[d<=3]=success without c=but:Ignore
login auth can decide auth_err,failure
login auth always asks a before c
"""
JUDGED = {"login": b"""auth sufficient a.so x
auth required b.so d=3
account required /c.so
""", "su": b"auth required a.so\n"}
CURSORS = [b"0.0.12", b"25.1", b"6.0", b"-"]
MOMENT = b"2024-05-06T17:29:59"
CANDIDATE = b"login=o/other"
FILE = b"o/other"

SHOW = ["show", "login", "auth"]
DECIDE = ["decide", "login", "auth", "success", "auth_err", "success", "new_authtok_reqd", "ignore"]
PATHS = ["paths", "login", "auth", "--limit", "6"]
OUTCOMES = ["outcomes", "login", "auth"]
GRAPH = ["graph", "login", "auth"]
MERMAID = [*GRAPH, "--format", "mermaid"]
FORMATS = [b"dot", b"mermaid", b"svg"]
FORMS = [b"short", b"full", b"json", b"sarif", b"patch"]
# Words of `paths`, and too few words for what they begin with, and too many.
OTHER_WORDS = [["--limit", "3"], ["--after", "0"], ["--before", "0"], ["more"], ["--access", "access"], ["--returns"],
               ["--time", "time", "--user", "alice"], ["--zone", "UTC0"], ["--at-unix", "x"], ["--conf", "pam.conf"]]
TABLES = ["--access", "access", "--group", "group", "--time", "time", "--returns", "returns", "--user", "alice",
          "--at", MOMENT]
CHECK = ["check", "--dir", "h", "--access", "access", "--group", "group", "--time", "time", "--fail-on", "note"]
ACCESS_WORDS = [["access", "login", "--access", "access", "--group", "group", *login] for login in (
    ["--user", "alice", "--rhost", "10.1.2.3"], ["--user", "bob", "--tty", "/dev/tty1"],
    ["--user", "dora", "--rhost", "host.example.ORG"], ["--user", "carol", "--rhost", "2001:DB8::1"],
    ["--user", "alice"], ["--user", "root", "nodefgroup", "--rhost", "1::2.3.4.6"],
    ["--user", "erin", "--rhost", "192.168.0.1", "listsep=:, "], ["--user", "alice", "fieldsep=:+-", "--tty", "pts/0"])]
TIME_WORDS = [["time", "login", "--time", "time", *login] for login in (
    ["--user", "alice", "--tty", "tty1", "--at", "2024-05-06T07:59"], ["--user", "bob", "--at", "2024-05-07T12:00"],
    ["--user", "root", "--tty", "/dev/tty2", "--at", "2024-05-11T21:59"],
    ["--user", "alice", "--tty", "ttyp0", "--at-unix", "1715400000"])]


def changed(data):
    """Every prefix of the bytes, and the bytes with each one replaced by each of ten others."""
    for end in range(len(data) + 1):
        yield data[:end]
    for position, byte in enumerate(data):
        for other in REPLACEMENTS:
            if other != byte:
                yield data[:position] + bytes([other]) + data[position + 1:]


def of_file(data, name, tree, asked, at_once=1):
    """The cases of one changed file in a tree; `at_once` of the words that are asked in turn for each change."""
    turn = 0
    for change in changed(data):
        for _ in range(at_once):
            yield asked[turn % len(asked)], {**tree, name: change}
            turn += 1


def configurations():
    """A folder, of which one file at a time is changed, and `pam.conf`."""
    asked = [[*words, "--dir", "d"] for words in (
        SHOW, DECIDE, GRAPH, OUTCOMES, PATHS, ["show", "login", "account"], SHOW, MERMAID)]
    for name, data in FOLDER.items():
        for change in changed(data):
            words = asked[len(change) % len(asked)]
            asked = asked[1:] + asked[:1]
            yield words, {"d": {**FOLDER, name: change}}
    yield from of_file(CONF, "pam.conf", {}, [[*words, "--conf", "pam.conf"] for words in (
        SHOW, [*DECIDE[:3], "success", "auth_err", "success"], PATHS, OUTCOMES, GRAPH,
        ["show", "ftp", "auth"], MERMAID)])


def exchanged():
    """Pairs of files, both ways round: the answer says which of them is read as what. The first pair is a group file and
    an access table each way."""
    group, access = b"-:ALL:10:bob ALL\n", b"+:ALL:10:bob ALL\n"
    yield from both_ways(group, access, ["access", "login", "--group", "first", "--access", "second", "--user", "alice"])
    for asked in EXCHANGED:
        yield from both_ways(group, access, [*asked, "--group", "first", "--access", "second"])
        yield from both_ways(b"", b"*;*;*;!Al0000-2400\n", [*asked, "--returns", "first", "--time", "second", "--at", MOMENT])
        yield from both_ways(b"", b"-:ALL:ALL\n", [*asked, "--returns", "first", "--access", "second"])
        yield from both_ways(b"", b"-:ALL:ALL\n", [*asked, "--time", "first", "--access", "second", "--at", MOMENT])


def both_ways(first, second, asked):
    for files in ((first, second), (second, first)):
        yield asked, {"first": files[0], "second": files[1], "d": {"login": STACK}}


def tables():
    """An access table, a group file, a time table and a returns file, alone and under `paths`, `outcomes`, `graph` and `check`."""
    tree = {"access": ACCESS, "group": GROUP, "time": TIME, "returns": RETURNS, "d": {"login": STACK}, "h": HOST}
    auth = [*PATHS, "--dir", "d", *TABLES]
    account = ["paths", "login", "account", "--limit", "6", "--dir", "d", *TABLES]
    counted = [*OUTCOMES, "--dir", "d", *TABLES]
    graph = [*GRAPH, "--dir", "d", *TABLES]
    yield from of_file(ACCESS, "access", tree, [*ACCESS_WORDS, account, CHECK, CHECK])
    yield from of_file(GROUP, "group", tree, [*ACCESS_WORDS, account, CHECK])
    yield from of_file(TIME, "time", tree, [*TIME_WORDS, account, CHECK, CHECK])
    yield from of_file(RETURNS, "returns", tree, [auth, account, counted, graph])


def policies():
    """A policy, which is judged over a small host."""
    yield from of_file(POLICY, "policy", {"d": JUDGED}, [["policy", "policy", "--dir", "d"], ["policy", "policy", "--dir", "d", "--json"]])


def words():
    """Cursors, a moment, formats, candidates and names in the words."""
    tree = {"access": ACCESS, "group": GROUP, "time": TIME, "returns": RETURNS, "d": {"login": STACK},
            "o": {"other": b"auth requisite a.so\n"}}
    for cursor in CURSORS:
        for change in changed(cursor):
            for side in ("--after", "--before"):
                yield [*PATHS, "--dir", "d", "--returns", "returns", side, change], tree
    for change in changed(MOMENT):
        yield ["time", "login", "--time", "time", "--user", "alice", "--at", change], tree
    for name in FORMATS:
        for change in changed(name):
            yield [*GRAPH, "--dir", "d", *TABLES, "--format", change], tree
    for change in (change for name in FORMS for change in changed(name)):
        yield ["check", "--dir", "d", "--format", change], tree
        yield ["check", "--dir", "d", "--json", "--format", change], tree
    for change in changed(CANDIDATE):
        yield [*SHOW, "--dir", "d", "--with", change], tree
        yield ["check", "login", "--dir", "d", "--with", change], tree
    for change in changed(FILE):
        yield ["check", "--dir", "d", change], tree
    for more in OTHER_WORDS:
        yield [*GRAPH, "--dir", "d", *more], tree
        yield [*OUTCOMES, "--dir", "d", *more], tree
    for template in (["show", "{}", "auth", "--dir", "d"], ["show", "login", "{}", "--dir", "d"],
                     ["outcomes", "login", "{}", "--dir", "d"],
                     ["graph", "{}", "auth", "--dir", "o"], ["graph", "{}", "auth", "--dir", "o", "--format", "mermaid"],
                     ["graph", "{}", "auth", "--dir", "o", "--format", "svg"],
                     ["decide", "login", "account", "success", "{}", "--dir", "d"],
                     ["access", "login", "{}", "--access", "access", "--user", "bob"],
                     ["access", "login", "--access", "access", "--user", "bob", "--rhost", "{}"],
                     ["access", "login", "--access", "access", "--user", "{}", "--group", "group", "--tty", "tty1"],
                     ["time", "{}", "--time", "time", "--user", "bob", "--at", MOMENT, "--tty", "tty1"]):
        for change in (change for text in (b"login", b"auth_err", b"2001:db8::a", b"alice") for change in changed(text)):
            yield [change if word == "{}" else word for word in template], tree


def without_nul(cases):
    """The cases that a command line can have."""
    for asked, tree in cases:
        if not any(isinstance(word, bytes) and b"\0" in word for word in asked):
            yield asked, tree
