"""Names that are meant to do harm on a terminal, in a shell, or in the text around them: of services, targets, modules,
arguments, folders, candidates and tables.

Each answer is the plain reading's. Besides, no control character of a name comes out of `check`, `compare`, `graph` and `explain`,
nor out of `policy`, nor out of `outcomes` and `needs` after their headers, U+009B included, which some terminals take as the begin of an
escape; so each line is one that the program wrote. Nor does a character that cannot be seen, or that turns the direction of the text.
The texts of drawings are printable ASCII. What `show`, headers and faults say of names is their own bytes."""
import os
import re

from hostile import compared
from hostile.running import Answer, Difference, agrees, difference
from model import plain, said

NAMES = ["line\nfeed", "\nlogin:1: error: E1 NulByte: none", "\x1b[31mred\x1b[0m", "\x1b]0;title\x07", "\x1b[2J", "cr\rhere", "tab\there",
         "back\\slash", "\\x0a", 'quo"te', "quo'te", '"];x[', "<b>&amp;", "-->", "]]>", "#1;", "$(id)", "`id`", "%s%n", "a b", " ", ":1:",
         "-", "--help", "[x", "x]", "\x7f", "\x01\x02", "\u202eright", "\u009b31m", "\ufefflogin", "log\u200bin", "a\u00a0b",
         "\u2028login:1: E1", "\u2060\u2069", "\u00e9", "\U0001f512", "n" * 255, "*", "?", "=", ",", "#"]
# A name of a file cannot be any of these.
CONTROL = re.compile(rb"[\x00-\x09\x0b-\x1f\x7f]|\xc2[\x80-\xa0]|\xe2\x80[\x8b-\x8f\xa8-\xae]|\xe2\x81[\xa0-\xaf]|\xef\xbb\xbf")
NO_ASCII = re.compile(rb"[^\n\x20-\x7e]")
CHECKED = re.compile(rb".*: (error|warning|note): [A-Z]+[0-9]+ [A-Za-z0-9]+: |checked [0-9]+ services?, ", re.DOTALL)
JUDGED = re.compile(rb".*:[0-9]+: (error|warning): P[0-9] [A-Za-z]+: |checked [0-9]+ rules?, ", re.DOTALL)
REST = b"account required pam_unix.so\n"


def trees(name):
    """Configurations with a name at each place where one can be, and the services to ask for."""
    data = name.encode()
    word = b"[" + data.replace(b"]", rb"\]") + b"]"
    rule = b"auth [success=1 default=ignore] %s\nauth requisite pam_deny.so\n" % (word if b"#" not in data and b"\n" not in data else b"a.so")
    words = data if re.fullmatch(rb"[^\s#\[]+", data) else b"x"
    yield "login", {"login": b"auth include %s\nauth substack %s\n" % (words, word) + rule, name: rule + REST}
    yield name, {name: rule + b"auth requird b.so\n", "login": REST}
    yield name, {name: rule + REST, "login": b"auth required a.so %s %s\n" % (words, word) + REST}
    yield name, {"other": REST, name.upper(): b"auth sufficient %s\n" % word}


def answered(program, words, tree):
    """The answer, which has to be the plain reading's."""
    expected = Answer(*plain.answer(words, tree))
    got = program.run(words)
    if not agrees(expected, got):
        raise difference(words, tree, expected, got)
    return got


def harmless(words, tree, got, harmful, line=None):
    """Refuses an answer with a harmful byte, or with a line that is no line of this form."""
    lines = got.stdout.splitlines() if line else []
    if harmful.search(got.stdout) or not all(line.match(text) for text in lines):
        raise difference(words, tree, Answer(b"no such byte, and no such line", b"", got.status), got)


def of_tree(program, service, folder):
    """How many answers over a folder were tried."""
    # The name as far as it is one word of a policy: of a service and of a module.
    word = re.sub(rb"[\s#/!*,=[\]]", b"", service.encode()) or b"x"
    policy = b"* auth never asks pam_deny\n*,%s auth needs %s\n* account can succeed with %s=any\n" % (word, word, word)
    stack, tree = [service, "auth", "--dir=d"], {"d": folder, "e": {**folder, "login": REST}, "c": folder[min(folder)], "p": policy}
    program.hold(tree)
    for words in (["check", "--dir=d"], ["check", "--dir=d", "--with=%s=c" % service, "--fail-on=note"]):
        harmless(words, tree, answered(program, words, tree), CONTROL, CHECKED)
    for words in (["policy", "p", "--dir=d"], ["policy", "--dir=d", "p", "--set=a.so=success,auth_err"]):
        harmless(words, tree, answered(program, words, tree), CONTROL, JUDGED)
    stacks = [] if service.startswith("-") else [["show", *stack], ["outcomes", *stack], ["needs", *stack]]
    for words in stacks:
        got = answered(program, words, tree)
        if words[0] != "show":
            harmless(words, tree, got._replace(stdout=got.stdout.partition(b" modules\n")[2]), CONTROL)
    drawings = [["graph", *stack, "--format", name] for name in ("dot", "mermaid", "svg")] if stacks else []
    for words in drawings:
        harmless(words, tree, answered(program, words, tree), NO_ASCII)
    # The plain reading cuts the steps of a line at commas.
    has_comma = any("," in name or b"," in data for name, data in folder.items())
    comparisons = [] if has_comma else [[b"compare", b"d", b"e"], [b"compare", b"e", b"d"]]
    for words in comparisons:
        harmless(words, tree, compared.judged(program, words, tree), CONTROL)
    return 4 + len(stacks) + len(drawings) + len(comparisons)


def of_paths(program, name):
    """How many answers were tried where the name is that of a folder or a file that the words name."""
    if "/" in name or name.startswith("-"):
        return 0
    tree = {name: {"login": b"auth requird a.so\naccount required pam_access.so\n", "table": b"x\n", "accept": b"S6\nS7 x\n"}}
    program.hold(tree)
    table = "%s/table" % name
    asked = [["policy", name + "/accept", "--dir", name],
             ["check", "--dir", name, "--access", table, "--group", table], ["check", "--dir", name, "--accept", name + "/accept"],
             ["check", "--conf", name + "/login"], ["check", "--dir", name, "--with", "login=%s/table" % name]]
    for words in asked:
        harmless(words, tree, answered(program, words, tree), CONTROL, CHECKED)
    # What cannot be read is named as the words name it.
    for words in (["check", "--dir", name + "/gone"], ["check", "--dir", name, "--facts", name], ["compare", name, name + "gone"]):
        answered(program, words, tree)
    return len(asked) + 3


def of_explain(program, name):
    """A number that there is not, which is told as names are."""
    if name.startswith("-"):
        return 0
    got = program.run(["explain", name])
    if got != Answer(b"", b"pamcheck: U14 NoSuchNumber: %s\n" % said.number(os.fsencode(name)), 2):
        raise Difference("explain %r: %s" % (name, got))
    return 1


def run(program):
    """How many answers were tried."""
    runs = 0
    for name in NAMES:
        runs += sum(of_tree(program, service, folder) for service, folder in trees(name))
        runs += of_paths(program, name) + of_explain(program, name)
    return runs
