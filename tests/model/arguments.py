"""The arguments of modules, read plainly from `docs/SPECIFICATION.md`: S15 to S20, S23 and S24.

What modules know is the table of the program, `crates/pam_facts/src/arguments/table.rt`, which is data and no code."""
import re
from functools import lru_cache
from pathlib import Path

from model import spelling

TABLE = Path(__file__).resolve().parents[2] / "crates/pam_facts/src/arguments/table.rt"
BOOLEANS = b"true yes on 1 false no off 0".split()
PATTERNS = {b"number": rb"[-+]?[0-9]+", b"number-or-never": rb"[-+]?[0-9]+|never", b"octal": rb"[-+]?[0-7]+",
            b"bool": rb"(?i:%s)" % b"|".join(BOOLEANS)}
# The number of what is wrong, what is said before and after the argument, and how to mend it.
SAID = {"S15": (b" knows no argument ", b"", b"mend it, or remove it"),
        "S16": (b" takes ", b" for an argument that it begins with", b"write that argument"),
        "S17": (b" does not read ", b" in this kind", b"remove it"),
        "S18": (b" cannot use the value of ", b"", b"write one that its manual page names"),
        "S20": (b" takes by ", b" only a password that a module before it asked for, and no run asks for one, so it fails",
                b"remove the argument, or ask for the password before it"),
        "S23": (b" stores passwords by a weak hash with ", b"", b"write yescrypt in its place"),
        "S24": (b" does not find the file of ", b"", b"make the file, or mend its path")}
# What a module does without its file, by what S24 says of it.
WITHOUT_FILE = [b", so it always fails", b", so it lets pass whoever asks"]
# The argument by which a module is told of a file that it needs, and the kinds in which it reads it.
EACH = "auth account password session"
FILES = {b"pam_access": (b"accessfile", EACH), b"pam_listfile": (b"file", EACH), b"pam_localuser": (b"file", EACH), b"pam_issue": (b"issue", "auth"),
         b"pam_userdb": (b"db", "auth account"), b"pam_faillock": (b"conf", "auth account"), b"pam_radius_auth": (b"conf", "auth session"),
         b"pam_duo": (b"conf", "auth"), b"pam_time": (b"conffile", "account"), b"pam_passwdqc": (b"config", "password"),
         b"pam_limits": (b"conf", "session")}
# Where the argument is not told.
UNTOLD = b"an argument is not one that the module takes; mend it, or remove it"
NAMES = {"S15": "UnknownArgument", "S16": "LongerWord", "S17": "ArgumentOfOtherKind", "S18": "BadValue", "S19": "BadArguments",
         "S20": "NoToken", "S23": "WeakHash", "S24": "MissingFile"}
# What the arguments of a rule lack as a whole.
LACKS = [b"pam_exec.so has no program to run, so it always fails; name one after its options",
         b"pam_listfile.so lacks one of item=, sense= and file=, so it always answers as onerr= says; write all three",
         b"pam_userdb.so has no database, so it always fails; name one by db=",
         b"pam_usertype.so has no type of user to test for, so it always fails; write issystem or isregular",
         b"pam_succeed_if.so has a condition that it cannot judge, so it always fails; write a field, a test and a value for each"]
FLAGS = b"debug use_uid quiet quiet_fail quiet_success audit".split()
CONDITION = (rb"(user|login|name|uid|gid|shell|home|dir|homedir|ruser|rhost|tty|service)\0"
             rb"(<=?|>=?|l[te]|g[te]|eq|ne|!?=|[=!]~|(no)?glob|(not)?(in|ingroup|innetgr))\0[^\0]*\0")
KINDS = [b"auth", b"account", b"password", b"session"]
REACTIONS = [b"ignores", b"logs", b"fails"]
# What is wrong with a word that a module refuses.
REFUSED = "S15", REACTIONS.index(b"fails")
# Words by which a module takes only a password that a module before it asked for, by kind, each with the modules that have it.
TAKERS = {b"auth": {b"use_first_pass": b"""pam_unix pam_ldap pam_sss pam_winbind pam_userdb pam_radius_auth pam_pwdfile
                        pam_google_authenticator pam_oath pam_yubico pam_mysql pam_ccreds pam_pkcs11""".split(),
                    b"force_first_pass": [b"pam_krb5"]},
          b"password": {b"use_authtok": b"""pam_unix pam_ldap pam_sss pam_winbind pam_krb5 pam_pwhistory pam_pwquality pam_passwdqc
                            pam_cracklib""".split(),
                        b"use_first_pass": [b"pam_unix"]}}
# Modules that check new passwords, each with the word by which it refuses none.
REFUSERS = [(b"pam_cracklib", None), (b"pam_passwdqc", b"enforce=none"), (b"pam_pwhistory", b"remember=0"), (b"pam_pwquality", b"enforcing=0")]
# Modules that store a new password.
STORERS = b"pam_unix pam_ldap pam_sss pam_winbind pam_krb5".split()
# Modules that ask for no password which others can take.
NEVER_ASKERS = set(b"""pam_deny pam_permit pam_env pam_access pam_nologin pam_faildelay pam_faillock pam_group pam_issue pam_keyinit pam_limits
    pam_succeed_if pam_rootok pam_wheel pam_listfile pam_localuser pam_securetty pam_shells pam_usertype pam_warn pam_debug pam_echo
    pam_selinux pam_sepermit pam_mail pam_motd pam_lastlog pam_rhosts pam_timestamp pam_time pam_canonicalize_user pam_tmpdir pam_cap
    pam_systemd pam_u2f pam_fprintd pam_duo pam_ssh_agent_auth""".split())


@lru_cache(None)
def table():
    """The words of each module's line, after its name."""
    text = re.search(r'const TABLE: &\[u8\] = b"\\\n(.*?)";', TABLE.read_text(), re.S)[1]
    lines = re.sub(r"\\\n\s*", "", text.replace("\\n\\\n", "\n")).encode()
    return {words[0]: words[1:] for words in (line.split() for line in lines.splitlines())}


class Row:
    """An argument that a module knows."""

    def __init__(self, word, kinds):
        form, _, own = word.partition(b"@")
        self.kinds = (own or kinds).split(b",")
        form, _, weak = form.partition(b"!")
        self.weak_in = weak.split(b",")
        marks, self.argument, value = re.fullmatch(rb"([*?~]*)([^:]*)(?::(.*))?", form).groups()
        self.flags = re.I if b"*" in marks else 0
        self.value = value and (PATTERNS.get(value) or b"|".join(map(re.escape, value.split(b"|"))))
        may_follow = rb".*" if self.argument.endswith(b"=") else rb"(=.*)?" if b"?" in marks else b""
        self.whole = re.compile(rb"(?s)%s%s" % (re.escape(self.argument), may_follow), self.flags)
        self.longer = re.compile(rb"(?s)%s.*" % re.escape(self.argument.removesuffix(b"=")), self.flags) if b"~" in marks else None


@lru_cache(None)
def rows(name):
    kinds, _, *arguments = table()[name]
    return [Row(word, kinds) for word in arguments]


def reaction(name, kind):
    """What a module does with a word that it does not know; `None` where it takes any."""
    does, _, kinds = table()[name][1].partition(b"@")
    if does == b"free":
        return None
    return does if kind in (kinds or table()[name][0]).split(b",") else b"ignores"


def is_ignored(does):
    """Whether a module goes on without a word, by the number of what it does."""
    return REACTIONS[does] == b"ignores"


@lru_cache(None)
def wrong(name, kind, word):
    """What is wrong with an argument of a rule: its number, and what the module then does, or `None`."""
    if name not in table():
        return None
    whole = [row for row in rows(name) if row.whole.fullmatch(word)]
    longer = [row for row in rows(name) if row.longer and row.longer.fullmatch(word)]
    for row in whole:
        if kind in row.kinds:
            if kind in row.weak_in:
                return "S23", 0
            value = word.partition(b"=")[2] if b"=" in word else None
            is_right = row.value is None or value is None or re.fullmatch(row.value, value)
            return None if is_right else ("S18", 0)
    if any(kind in row.kinds for row in longer):
        return "S16", 0
    if whole or longer:
        return "S17", 0
    does = reaction(name, kind)
    return None if does is None else ("S15", REACTIONS.index(does))


def lack(name, kind, words):
    """What the arguments of a rule lack as a whole, by its position in LACKS, or `None`."""
    if name == b"pam_exec":
        of_type = b"type=" + (b"open_session" if kind == b"session" else kind)
        options = rb"(?i:debug|expose_authtok|quiet|quiet_log|seteuid|stdout|(?s:log=.*))|" + of_type
        return 0 if all(re.fullmatch(options, word) for word in words) else None
    if name == b"pam_listfile":
        return None if all(any(word.startswith(front) for word in words) for front in (b"item=", b"sense=", b"file=")) else 1
    if name == b"pam_userdb" and kind == b"auth":
        return None if any(word.lower().startswith(b"db=") for word in words) else 2
    if name == b"pam_usertype":
        return None if b"issystem" in words or b"isregular" in words else 3
    if name == b"pam_succeed_if":
        # No word has a NUL.
        conditions = b"".join(word + b"\0" for word in words if word not in FLAGS)
        return None if re.fullmatch(b"(?is)(%s)*" % CONDITION, conditions) else 4
    return None


def file_of(name, kind, word):
    """The path of the file that an argument names, and without which its module cannot do; `None` of any other argument."""
    argument, kinds = FILES.get(name, (None, ""))
    front, sign, path = word.partition(b"=")
    if front != argument or kind.decode() not in kinds.split() or not path.startswith(b"/"):
        return None
    return path + b".db" * (argument == b"db")


def without_file(name):
    """What a module does without its file, by its position in WITHOUT_FILE."""
    return 1 if name in (b"pam_time", b"pam_duo") else 0


def takes(name, kind, word):
    """Whether a module has a word by which it takes only a password that a module before it asked for."""
    return name in TAKERS.get(kind, {}).get(word, [])


def stores(name, words):
    """Whether a module stores a new password, for which it asks itself where none asked before."""
    return name in STORERS and not any(takes(name, b"password", word) for word in words)


def counts(name, words):
    """Whether a rule is one of pam_faillock that counts failures."""
    return name == b"pam_faillock" and [word for word in words if word in (b"preauth", b"authfail", b"authsucc")][-1:] == [b"authfail"]


def may_ask(name, kind, words):
    """Whether a module may ask for a password that modules after it can take."""
    return name not in NEVER_ASKERS and not any(takes(name, kind, word) for word in words)


def fails_by_lack(name, kind, words):
    """Whether a module always fails, by what its arguments lack."""
    # pam_exec runs nothing in the first pass of `password`, and pam_listfile answers as its `onerr=` says.
    return lack(name, kind, words) not in (None, 1, 0 if kind == b"password" else None)


def as_facts():
    """The table as lines of a facts file."""
    return b"".join(b"%s knows %s %s\n" % (name, row.argument, b",".join(row.kinds)) for name in table() for row in rows(name))


def nearest(name, word):
    """The nearest argument of a module: of a word with a value only its name counts."""
    front, sign, _ = word.partition(b"=")
    return spelling.nearest([row.argument for row in rows(name)], front + sign)


def sentence(name, file, number, does, word, quote, shown):
    """What is said of a wrong argument of a module with this name and this file."""
    before, after, mending = SAID[number]
    if number == "S15" and REACTIONS[does] == b"fails":
        after = b", so it always fails"
    if number == "S24":
        after = WITHOUT_FILE[does]
    if number == "S15" and (word in KINDS or word.endswith(b".so")):
        mending = b"put a line feed before the next rule"
    near = nearest(name, word) if number in ("S15", "S16") else None
    return shown(file) + before + quote(word) + after + spelling.hidden(word) + b"; " + (mending if near is None else b"did you mean %s?" % quote(near))
