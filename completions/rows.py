"""The words of pamcheck, from the tables of its sources: the commands with their arguments of pam_words, which `clap` is given; the
names of return codes of pam_codes; and the numbers of pam_explain.

Nothing is compiled. Each table has a regular form, and text of another form is refused with its place."""
import json
import re
from collections import namedtuple
from pathlib import Path

# The forms of arguments that are words, and those that are options with a value.
WORDS = {"Positional", "OptionalPositional", "Repeated", "RequiredWords"}
OPTIONS = {"Optional", "RepeatedOption", "Required", "RequiredRepeated", "Number"}
FLAG = "Flag"
REPEATED = {"Repeated", "RequiredWords", "RepeatedOption", "RequiredRepeated"}

Command = namedtuple("Command", "name about rows")
Words = namedtuple("Words", "commands codes numbers")


class Row(namedtuple("Row", "constant form id name help")):
    """A row of argument_rows.rt, with the name of its constant."""

    @property
    def is_word(self):
        return self.form in WORDS

    @property
    def is_flag(self):
        return self.form == FLAG

    @property
    def is_repeated(self):
        return self.form in REPEATED

    @property
    def option(self):
        return "--" + self.id

    @property
    def listed(self):
        """The words that the beginning of the help lists: `a, b or c`, with remarks in parentheses."""
        words = re.split(r", | or ", re.sub(r" \(.*?\)", "", re.split(r"[:;]", self.help)[0]))
        if len(words) == 1 or " " in "".join(words):
            raise NotUnderstood("%s: the help does not begin with a list of words: %s" % (self.constant, self.help))
        return words


class NotUnderstood(Exception):
    """A text that has not the form of its table."""


STRING = r'("(?:[^"\\\n]|\\.)*")'
SKIPPED = re.compile(r"\s+|//[^\n]*|(?:ghost )?use [^;]*;")
ROW = re.compile(r"pub\(crate\) const (\w+): ArgRow = ArgRow \{\s*form: ArgForm::(\w+),\s*id:\s*%s,\s*name:\s*%s,\s*help:\s*%s,\s*\};"
                 % (STRING, STRING, STRING))
ARM = re.compile(r"(?m)^ +(Argument|Word)::(\w+) => rows::(\w+),$")
WORD = re.compile(r"const (\w+): Argument = Argument::Word\(Word::(\w+)\);")
COMMAND = re.compile(r"CommandRow \{\s*name:\s*%s,\s*about:\s*%s,\s*examples: examples::\w+,\s*args: &\[([\w\s,]*)\],\s*\}"
                     % (STRING, STRING))
# What else stands in the file of the commands: the type of their rows, and the tables around them.
AROUND = re.compile(r"#\[derive\([\w, ]*\)\]\s*pub\(crate\) struct CommandRow \{[^}]*\}|pub\(crate\) static \w+: \[CommandRow; \d+\] = \[|,|\];")


class Sources:
    """The files of sources below a folder, which are read by their names."""

    def __init__(self, top):
        self.top = Path(top)

    def read(self, path):
        return Path(self.top, path).read_text(encoding="utf-8")

    def pieces(self, path, *forms):
        """The pieces of a file, each a match of one of the forms. Between them only comments and imports may stand."""
        text, at = self.read(path), 0
        while at < len(text):
            found = next(filter(None, (form.match(text, at) for form in (SKIPPED, *forms))), None)
            if not found:
                raise NotUnderstood("%s:%d: not understood: %s" % (path, text.count("\n", 0, at) + 1, text[at:].split("\n")[0]))
            if found.re is not SKIPPED:
                yield found
            at = found.end()

    def look_up(self, table, name, path, what):
        if name not in table:
            raise NotUnderstood("%s: there is no %s %s, in the form that is understood" % (path, what, name))
        return table[name]


PAM_WORDS = "crates/pam_words/src/"


def rows(sources):
    """The rows of arguments by their constants."""
    path, of = PAM_WORDS + "argument_rows.rt", {}
    for found in sources.pieces(path, ROW):
        constant, form, *texts = found.groups()
        if form not in WORDS | OPTIONS | {FLAG}:
            raise NotUnderstood("%s: %s: the form %s is not known" % (path, constant, form))
        of[constant] = Row(constant, form, *map(json.loads, texts))
    return of


def commands(sources):
    """The commands in order, each with the rows of its arguments."""
    in_rows, in_arguments, in_commands = (PAM_WORDS + name for name in ("argument_rows.rt", "arguments.rt", "commands.rt"))
    of_constant = rows(sources)
    arms = {kind + "::" + name: constant for kind, name, constant in ARM.findall(sources.read(in_arguments))}
    words, found_commands = {}, []
    for found in sources.pieces(in_commands, WORD, COMMAND, AROUND):
        if found.re is WORD:
            words[found[1]] = "Word::" + found[2]
        elif found.re is COMMAND:
            arguments = (words.get(name, "Argument::" + name) for name in re.findall(r"\w+", found[3]))
            constants = [sources.look_up(arms, argument, in_arguments, "arm of") for argument in arguments]
            of = [sources.look_up(of_constant, constant, in_rows, "row") for constant in constants]
            found_commands.append(Command(json.loads(found[1]), json.loads(found[2]), of))
    return found_commands


def codes(sources):
    """The names of return codes in the order of their numbers."""
    path = "crates/pam_codes/src/code.rt"
    text = sources.read(path)
    count = re.search(r"(?m)^pub const CODES: usize = (\d+);$", text)
    arms = re.findall(r'(?m)^ +(\d+) => "(\w+)",$', text)
    if not count or [int(number) for number, _ in arms] != list(range(int(count[1]))):
        raise NotUnderstood("%s: the names are not those of as many codes as CODES says" % path)
    return [name for _, name in arms]


def numbers(sources):
    """The numbers of faults and findings in the order in which `explain` lists them: that of the families, and in each of its rows."""
    folder, of = "crates/pam_explain/src/", []
    for family in re.findall(r"(?m)^ +\d+ => of_(\w+)\(row\),$", sources.read(folder + "table.rt")):
        path = folder + family + ".rt"
        text = sources.read(path)
        of_constant = dict(re.findall(r'(?m)^pub const (\w+): Explanation = Explanation \{\n    number: "(\w+)",$', text))
        listed = re.findall(r"(?m)^ +\d+ => &(\w+),$", text)
        of += [sources.look_up(of_constant, constant, path, "number of") for constant in listed]
    if not of:
        raise NotUnderstood(folder + "table.rt: there are no families")
    return of


def read(top):
    """All words of the tree in this folder."""
    sources = Sources(top)
    return Words(commands(sources), codes(sources), numbers(sources))
