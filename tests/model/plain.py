"""A slow and plain reading of `docs/SPECIFICATION.md`: from words and files to what the program must say.

`answer` gives standard output, standard error and the status for the words after the program's name, over a tree of
files: a dictionary from names to bytes, or to a dictionary for a folder. What the parser of the command line prints for
words that it does not take is its own, so standard error is `None` then. Help and `explain` are not covered.
"""
import re
from itertools import islice

from model import arguments, compare, full, graph, json_lines, needs, patch, policies, policy_text, readings, said, sarif, services, sources, stacks, tables
from model import zones
from model import given as plain_given
from model import host as plain_host
from model import outcomes as plain_outcomes
from model.faults import Fault
from model.sources import found, listed, read

ANSWERS = b" --answers --facts"
KNOWING = b" --modules --access --time --group --passwd --returns --set --user --rhost --tty --at --at-unix --zone"
SOURCES = b"--dir --vendor-dir --conf --root --with"
OPTIONS = {
    b"check": SOURCES + b" --modules --access --time --group --facts --accept --fail-on --format --json",
    b"compare": b"--conf --root --json --modules --facts --returns --set",
    b"show": SOURCES + b" --as --json",
    b"decide": SOURCES + b" --json",
    b"paths": SOURCES + b" --json --limit --after --before --decision --asks" + KNOWING,
    b"outcomes": SOURCES + b" --json" + ANSWERS + KNOWING,
    b"graph": SOURCES + b" --format" + ANSWERS + KNOWING,
    b"policy": SOURCES + b" --facts --fail-on --json" + KNOWING,
    b"needs": SOURCES + b" --facts --json" + KNOWING,
    b"access": b"--access --user --group --passwd --rhost --tty --json",
    b"time": b"--time --user --tty --at --at-unix --zone --json",
    b"facts": b"",
    b"version": b"",
}
OF_PATHS = (b"paths", b"outcomes", b"graph")
# Those that ask for the answers that facts leave, by the facts of policies.
OF_POLICIES = (b"policy", b"needs")
OF_LOGINS = (*OF_PATHS, *OF_POLICIES)
REPEATED = (b"--access", b"--modules", b"--with", b"--set")
FLAGS = {b"compare": [b"--conf", b"--root", b"--json"],
         **dict.fromkeys([b"check", b"show", b"decide", b"paths", b"outcomes", *OF_POLICIES, b"access", b"time"], [b"--json"])}
WITH_SOURCE = [name for name, options in OPTIONS.items() if options.startswith(SOURCES)]
ABOUT = (b"facts", b"version")
VERSION = "1.0.0 (proved with rattle, logic dac8208d650f15bf)"
# The forms of a check.
FORMS = (b"short", b"full", b"json", b"sarif", b"patch")
REQUIRED = {b"access": [b"--access", b"--user"], b"time": [b"--time", b"--user"]}
MOST_ARGUMENTS = {b"compare": 4, b"facts": 0, b"version": 0, b"show": 2, b"paths": 2, b"outcomes": 2, b"graph": 2, b"needs": 2, b"time": 1}
LEAST_ARGUMENTS = {b"check": 0, b"compare": 2, b"facts": 0, b"version": 0, b"show": 1, b"decide": 2, b"paths": 2, b"outcomes": 2, b"graph": 2,
                   b"needs": 2, b"policy": 1, b"access": 1, b"time": 1}
MOST_COUNTED = 2 ** 128


class WrongWords(Exception):
    """Words that the command line does not take."""


def answer(words, tree):
    """Standard output, standard error and the status."""
    words = [word if isinstance(word, bytes) else word.encode() for word in words]
    try:
        request = Request(words)
        text, status = request.answer(tree)
        return text, request.unread, status
    except Fault as fault:
        return b"", fault_line(fault, words), fault.status()
    except WrongWords:
        return b"", None, 2


def fault_line(fault, words):
    """The line of a fault of these words on standard error."""
    words = [word if isinstance(word, bytes) else word.encode() for word in words]
    return fault.line() if fault.number == "U1" else said.line(fault, *parsed(words))


# Texts

def word_text(text):
    """A path or argument as it is printed."""
    if text and not re.search(rb"[ \t\r]", text) and not text.startswith(b"["):
        return text
    return b"[" + text.replace(b"]", rb"\]") + b"]"


def shown_word_text(text):
    """A word text in which no control character is left, and none that is unseen."""
    if word_text(text) == text:
        return plain_host.shown(text)
    return b"[" + rb"\]".join(map(plain_host.shown, text.split(b"]"))) + b"]"


def item_lines(items, indentation):
    """The lines of `show`."""
    for item in items:
        if isinstance(item, stacks.Substack):
            yield b"%ssub %s:%d %s\n" % (indentation, item.file, item.line, item.target)
            yield from item_lines(item.items, indentation + b"  ")
        else:
            words = [b"%d" % item.number, b"%s:%d" % (item.file, item.line)]
            words += [b"-"] * item.dashed + [stacks.control_text(item.control)]
            words += [word_text(text) for text in [item.path] + item.arguments]
            yield indentation + b" ".join(words) + b"\n"


def cursor_text(key):
    """The text of a cursor."""
    return b".".join(b"%d" % number for number in key) or b"-"


def count_text(count):
    """A number of paths as it is printed."""
    return b"%d" % count if count < MOST_COUNTED else b"%d+" % MOST_COUNTED


def outcome_line(decision, count, steps, modules):
    """The line of a decision, with the first of its paths."""
    text = b"%s %s ways, first %s" % (decision, count_text(count), cursor_text(stacks.key_of(steps)))
    names = [shown_word_text(modules[number - 1].path.rpartition(b"/")[2]) for number, _ in steps]
    answers = [b" %s %s" % (name, stacks.class_text(codes)) for name, (_, codes) in zip(names, steps)]
    return text + b":" * bool(steps) + b",".join(answers) + b"\n"


# Requests

class Request:
    """What the words ask for, or their refusal."""

    unread = b""  # what a check says of files that cannot be read, on standard error

    def __init__(self, words):
        for word in words:
            try:
                word.decode()
            except UnicodeDecodeError:
                raise Fault("U1") from None
        self.command, self.arguments, self.options = parsed(words)
        self.judge()
        self.candidates = sources.candidates(self.options, self.arguments if self.command == b"check" else [])
        if self.command == b"check":
            self.services = [word.rpartition(b"/")[2] for word in self.arguments]

    def judge(self):
        """Refuses words, the candidates aside."""
        if self.command in WITH_SOURCE:
            sources.judge(self.options, self.command in (b"check", b"outcomes", b"graph", *OF_POLICIES))
        if self.options.get(b"--fail-on", b"warning") not in plain_host.LEVELS:
            raise Fault("U13")
        if self.command == b"compare":
            self.judge_sides()
            self.settings = settings_of(self.options)
        if self.command == b"policy":
            self.settings = settings_of(self.options)
            self.judge_login_and_moment()
        if self.command == b"check":
            self.form = self.options.get(b"--format", b"json" if self.is_json() else b"short")
            if self.form not in FORMS or self.is_json() and self.form != b"json":
                raise Fault("U12")
        if self.command in (b"check", b"compare", b"policy", *ABOUT):
            return
        self.service = self.arguments[0].lower()
        if self.command in (b"show", b"decide", b"needs", *OF_PATHS):
            self.kinds = [word.lower() for word in self.arguments[1:2]] or stacks.KINDS
            self.kind = self.kinds[0]
            if self.kind not in stacks.KINDS:
                raise Fault("U3")
        if self.command == b"decide":
            self.codes = [code.lower() for code in self.arguments[2:]]
            if not set(self.codes) <= set(stacks.CODES):
                raise Fault("U4")
        self.format = self.options.get(b"--format", b"dot")
        if self.format not in graph.FORMATS:
            raise Fault("U12")
        self.answers = self.options.get(b"--answers", b"any" if self.command == b"paths" else b"possible")
        if self.answers not in (b"any", b"possible"):
            raise Fault("U20")
        self.decisions = decisions_of(self.options[b"--decision"]) if b"--decision" in self.options else set()
        self.settings = settings_of(self.options)
        if self.command in (b"needs", b"time", *OF_PATHS):
            self.judge_login_and_moment()
        if b"--as" in self.options and (self.options[b"--as"] not in readings.RELEASES or self.is_json()):
            raise Fault("U16")

    def judge_sides(self):
        """Refuses both forms of the sides of a comparison, and a word that is no kind."""
        if b"--conf" in self.options and b"--root" in self.options:
            raise Fault("U2")
        if self.kind_named() not in (None, *stacks.KINDS):
            raise Fault("U3")

    def kind_named(self):
        """The kind that is compared, if one is named."""
        return self.arguments[3].lower() if len(self.arguments) > 3 else None

    def judge_login_and_moment(self):
        given = self.options
        if (b"--access" in given or b"--time" in given) and b"--user" not in given:
            raise Fault("U5")
        both = b"--at" in given and b"--at-unix" in given
        zone_alone = b"--zone" in given and b"--at-unix" not in given
        no_number = not re.fullmatch(rb"[0-9]{1,12}", given.get(b"--at-unix", b"0"))
        missing = b"--time" in given and b"--at" not in given and b"--at-unix" not in given
        if both or zone_alone or no_number or missing:
            raise Fault("U6")
        if b"--after" in given and b"--before" in given:
            raise Fault("U8")
        if b"--decision" in given and b"--asks" in given:
            raise Fault("U11")

    def answer(self, tree):
        """The text on standard output and the status."""
        if self.command == b"facts":
            return b"".join(b" ".join(row) + b"\n" for row in plain_host.FACTS) + arguments.as_facts(), 0
        if self.command == b"version":
            return b"pamcheck %s\n" % VERSION.encode(), 0
        if self.command == b"compare":
            text, status = self.comparison(tree).whole()
            return b"".join(map(json_lines.compared, text.splitlines())) if self.is_json() else text, status
        source = sources.Source(self.options, tree, self.candidates) if self.command in WITH_SOURCE else None
        self.tables, self.access_tables, self.there, self.passwd = {}, [], None, None
        if source and source.shut and self.command != b"check":
            raise Fault("V1", source.shut[0], told=sources.NOT_PERMITTED)
        if self.command in OF_LOGINS:
            self.learn(source, tree)
        for option in (b"--group", b"--time", b"--facts", b"--returns"):
            is_asked = option != b"--facts" or self.command in OF_POLICIES or self.command in OF_PATHS and self.answers == b"possible"
            if option in self.options and is_asked and self.command != b"check":
                self.tables[option] = read(tree, self.options[option])
        if self.command == b"access":
            self.passwd = plain_given.passwd(self.options, tree)
            self.access_tables = plain_given.named_access(plain_given.tables(self.options, tree))
            return self.access()
        if self.command == b"time":
            moment = self.moment()
            granted, line = tables.TimeTable(self.tables[b"--time"]).decide(self.login(), moment)
            if self.is_json():
                return json_lines.login("time", granted, None if granted else line), 0 if granted else 1
            return (b"granted\n", 0) if granted else (b"denied line %d\n" % line, 1)
        if self.command == b"check":
            return self.check(source, tree)
        if self.command == b"policy":
            return self.policy(source, [(name, read(tree, name)) for name in self.arguments])
        if self.command == b"needs":
            return self.needs(source.files)
        if self.command == b"show":
            return b"".join([self.shown(source.files, kind) for kind in self.kinds]), 0
        if self.command in (b"outcomes", b"graph"):
            services.judge(source.files, self.arguments[:1], self.options)
            self.facts = tuple(tuple(row) for row in plain_given.facts(self.tables.get(b"--facts", b"")))
        items, modules = stacks.resolve(source.files, self.service, self.kind)
        header = b"%s %s %d modules\n" % (self.service, self.kind, len(modules))
        if self.is_json():
            header = json_lines.stack(self.service, self.kind, modules)
        if self.command == b"decide":
            text, status = self.decide(items, modules)
            return header + text, status
        if self.command == b"graph":
            return graph.drawing(self.format, self.service, self.kind, items, modules, self.known(modules)), 0
        if self.command == b"outcomes":
            return header + self.outcomes(items, modules), 0
        return header + self.page(items, modules), 0

    def shown(self, files, kind):
        """What `show` says of a kind."""
        if b"--as" in self.options:
            return readings.shown(files, self.service, kind, self.options[b"--as"], shown_word_text)
        items, modules = stacks.resolve(files, self.service, kind)
        if self.is_json():
            return json_lines.stack(self.service, kind, modules) + b"".join(json_lines.items(items))
        return b"%s %s %d modules\n" % (self.service, kind, len(modules)) + b"".join(item_lines(items, b""))

    def is_json(self):
        """Whether JSON is asked for by its option."""
        return b"--json" in self.options

    def folders(self, tree):
        """The folders of modules that are named."""
        folders = self.options.get(b"--modules", [])
        for folder in folders:
            listed(tree, folder)
        return folders

    def learn(self, source, tree):
        """Looks for the modules, and reads the tables of the system that tell of the login."""
        folders = self.folders(tree)
        self.there = plain_given.there(self.options.get(b"--root"), folders, source.files, lambda path: found(tree, path))
        told = (["group", "access"] + ["time"] * (self.moment_words() != [])) * bool(self.options.get(b"--user"))
        given = plain_given.tables(self.options, tree, told)
        self.tables = {option: given[table][1] for table, option, _ in plain_given.TABLES if table in given}
        self.access_tables = plain_given.named_access(given)
        self.passwd = plain_given.passwd(self.options, tree, bool(told))

    def check(self, source, tree):
        """What is wrong with a host."""
        folders = self.folders(tree)
        given = plain_given.tables(self.options, tree)
        data = {name: read(tree, self.options[name]) if name in self.options else b"" for name in (b"--facts", b"--accept")}
        services.judge_root(source.files, self.options)
        services.judge(source.files, self.services, self.options, source.dead)
        form, files = source.files.form, source.files.files
        if self.candidates:
            services.judge_candidates(plain_host.Host(form, files, self.services), [name for name, _ in self.candidates])
        named = self.services
        if source.shut:
            self.unread = b"".join(said.line(Fault("V1", source.paths[name], told=sources.NOT_PERMITTED), b"check", [], {}) for name in source.shut)
            named = services.left(plain_host.Host(form, files, self.services), source.shut)
            if not named:
                return b"", 5
        facts = plain_given.facts(data[b"--facts"])
        accepted = plain_given.accepted(data[b"--accept"])
        there = plain_given.there(self.options.get(b"--root"), folders, source.files, lambda path: found(tree, path))
        host = plain_host.Host(form, files, named, there, facts, source.of_vendor, source.outside,
                               plain_given.files_below(self.options.get(b"--root"), lambda path: found(tree, path)))
        host.dead, host.is_whole = source.dead, not source.shut
        host.fact_lines = self.options.get(b"--facts", b""), plain_given.named_rows(data[b"--facts"])
        accept = self.options.get(b"--accept", b""), accepted
        levels = plain_host.levels_of(*plain_host.unaccepted(host, accept, given))
        status = 5 if source.shut else plain_host.status(levels, self.options.get(b"--fail-on", b"warning"))
        if self.form == b"json":
            return b"".join(json_lines.check(host, source.paths, accept, given)), status
        if self.form == b"sarif":
            return sarif.check(VERSION, host, source.paths, accept, given), status
        if self.form == b"patch":
            return patch.check(host, source.paths, accept, given), status
        if self.form == b"full":
            return plain_host.text(host, source.paths, accept, given, full.below), status
        return plain_host.text(host, source.paths, accept, given), status

    def policy(self, source, named):
        """Whether the rules of policies hold."""
        form, files = source.files.form, source.files.files
        if self.candidates:
            services.judge_candidates(plain_host.Host(form, files), [name for name, _ in self.candidates])
        self.read_facts()
        rules = []
        for name, data in named:
            rules += policy_text.rules_of(name, data, len(rules))
        self.moment()
        self.judge_keys(source.files)
        judgement = policies.Judgement(policies.Host(source.files, self.there, self.facts, self.answers_at), rules)
        status = plain_host.status(judgement.levels, self.options.get(b"--fail-on", b"warning"))
        return judgement.json() if self.is_json() else judgement.text(), status

    def needs(self, files):
        """The rules that hold of a stack."""
        services.judge(files, self.arguments[:1], self.options)
        self.read_facts()
        self.moment()
        self.judge_keys(files)
        items, modules = stacks.resolve(files, self.service, self.kind)
        codes = self.answers_at(self.service, self.kind, modules)
        plain_outcomes.outcomes(items, codes)  # refuses too many places
        self.stack = policies.Stack(self.kind, items, modules, codes, self.facts)
        rules = needs.Rules(self.stack).all()
        if self.is_json():
            return json_lines.stack(self.service, self.kind, modules) + b"".join(json_lines.needs(self.arguments[0], self.kind, rules)), 0
        return needs.told(self.arguments[0], self.kind, modules, rules), 0

    def read_facts(self):
        """The rows of the facts file."""
        self.facts = tuple(tuple(row) for row in plain_given.facts(self.tables.get(b"--facts", b"")))

    def judge_settings(self, is_module):
        """Refuses the first value of `--set` whose key is that of no module, or that leaves no code."""
        told = said.key(self.settings, is_module)
        if told is not None:
            raise Fault("U10", told=told)

    def judge_keys(self, files):
        """Refuses a key that is no module's name, and one whose codes leave none."""
        side = compare.Side(files, self.there, self.facts, {}, self.settings)
        self.judge_settings(side.calls)

    def answers_at(self, service, kind, modules):
        """The codes that each module of a stack may answer."""
        self.service, self.kind = service, kind
        known = self.told(modules)
        for key, codes in self.settings:
            for position, module in enumerate(modules):
                if key == module.path.rpartition(b"/")[2] and (self.there is None or module.path in self.there):
                    known[position] = codes
        return known

    def side(self, name, tree):
        """The files of a side of a comparison, and the paths at which a module is there."""
        form = b"--conf" if b"--conf" in self.options else b"--root" if b"--root" in self.options else b"--dir"
        files = sources.Source({form: name}, tree).files
        folders = self.folders(tree)
        return files, plain_given.there(name if form == b"--root" else None, folders, files, lambda path: found(tree, path))

    def comparison(self, tree):
        """What changes from one configuration to another."""
        sides = [self.side(name, tree) for name in self.arguments[:2]]
        data = {name: read(tree, self.options[name]) if name in self.options else b"" for name in (b"--facts", b"--returns")}
        if len(self.arguments) > 2:
            services.judge_sides(*(files for files, _ in sides), self.arguments[2], self.arguments[:2])
        facts = plain_given.facts(data[b"--facts"])
        returns = tables.returns_of(data[b"--returns"])
        old, new = [compare.Side(files, there, facts, returns, self.settings) for files, there in sides]
        self.judge_settings(lambda key: old.calls(key) or new.calls(key))
        return compare.Comparison(old, new, self.arguments[2] if len(self.arguments) > 2 else None, self.kind_named())


    def login(self):
        """The login that the words tell."""
        return tables.Login(self.service, *(self.options.get(name, b"") for name in (b"--user", b"--tty", b"--rhost")))

    def moment_words(self):
        """The options of the moment that are given."""
        return [option for option in (b"--at", b"--at-unix") if option in self.options]

    def moment(self):
        """The moment that the words tell, if any."""
        if b"--at" in self.options:
            return tables.civil(self.options[b"--at"])
        if b"--at-unix" in self.options:
            return zones.instant(int(self.options[b"--at-unix"]), self.options.get(b"--zone", b"UTC0"))
        return None

    def access(self):
        groups = tables.Groups(self.tables.get(b"--group", b""), self.passwd)
        granted, line, position = tables.answer_of_tables(self.access_tables, self.arguments[1:], self.login(), groups)
        names = self.options[b"--access"]
        table = names[position] if len(names) > 1 and position is not None else None
        if self.is_json():
            return json_lines.login("access", granted, line, table), 0 if granted else 1
        place = b"no line" if line is None else b"line %d" % line
        place += b"" if table is None else b" of " + plain_host.shown(table)
        return b"%s %s\n" % (b"granted" if granted else b"denied", place), 0 if granted else 1

    def decide(self, items, modules):
        if len(self.codes) != len(modules):
            raise Fault("DE1", b"want %d" % len(modules))
        asked, decision = stacks.run(items, self.codes)
        status = 0 if decision == b"success" else 1
        if self.is_json():
            return b"".join(json_lines.step(*one) for one in asked) + json_lines.decision(decision), status
        text = b""
        for module, code, state in asked:
            action = module.control[stacks.CODES.index(code)]
            action = action if isinstance(action, bytes) else b"jump:%d" % action
            text += b"%d %s %s %s %s %s\n" % (module.number, word_text(module.path), code, action, *state)
        return text + b"decision %s\n" % decision, status

    def said(self, module):
        """The codes of a module of which neither a setting, nor a table, nor a line of the returns file tells."""
        if self.command in OF_POLICIES:
            return policies.possible(module, self.kind, self.facts)
        if self.answers == b"any":
            return set(stacks.CODES)
        return plain_host.possible(module, self.kind, self.facts)

    def known(self, modules):
        """The codes that each module may answer, with what is set for it."""
        names = [module.path.rpartition(b"/")[2] for module in modules]
        return self.with_settings(names, modules, self.told(modules))

    def told(self, modules):
        """The codes that each module may answer, without what is set."""
        moment = self.moment()
        has_access, has_time = bool(self.access_tables), b"--time" in self.tables
        names = [module.path.rpartition(b"/")[2] for module in modules]

        def needs_access(name, arguments):
            own = any(argument.startswith(b"accessfile=") for argument in arguments)
            return name == b"pam_access.so" and has_access and not own

        def needs_time(name, arguments):
            own = any(argument.startswith(b"conffile=") for argument in arguments)
            return name == b"pam_time.so" and has_time and not own and self.kind == b"account"

        groups = None
        if any(needs_access(name, module.arguments) for name, module in zip(names, modules)):
            groups = tables.Groups(self.tables.get(b"--group", b""), self.passwd)
        by_arguments = {}  # what the table answers where it is read with these arguments
        known = [None] * len(modules)
        for position, (name, module) in enumerate(zip(names, modules)):
            answers = None
            if needs_access(name, module.arguments):
                arguments = tuple(module.arguments)
                if arguments not in by_arguments:
                    by_arguments[arguments] = tables.answer_of_tables(self.access_tables, arguments, self.login(), groups)
                answers = by_arguments[arguments]
            elif needs_time(name, module.arguments):
                answers = tables.TimeTable(self.tables[b"--time"]).decide(self.login(), moment)
            if answers is not None:
                known[position] = {b"success" if answers[0] else b"perm_denied"}
        returns = tables.returns_of(self.tables.get(b"--returns", b""))
        for position, (name, module) in enumerate(zip(names, modules)):
            is_there = self.there is None or module.path in self.there
            known[position] = known[position] or returns.get(name) or self.said(module) if is_there else {b"module_unknown"}
        return known

    def with_settings(self, names, modules, known):
        """The codes that each module may answer, with what is set for it."""
        keys = [{name, b"%d" % module.number, b"%s:%d" % (module.file, module.line)} for name, module in zip(names, modules)]
        self.judge_settings(lambda key: any(key in own for own in keys))
        for key, codes in self.settings:
            for position, module in enumerate(modules):
                if key in keys[position] and (self.there is None or module.path in self.there):
                    known[position] = codes
        return known

    def outcomes(self, items, modules):
        """The lines of `outcomes` after the header."""
        found = plain_outcomes.outcomes(items, self.known(modules))
        total = sum(count for count, _ in found.values())
        if self.is_json():
            lines = [json_lines.outcome(code, *found[code], modules) for code in stacks.CODES if code in found]
            return b"".join(lines) + json_lines.total(total)
        lines = [outcome_line(code, *found[code], modules) for code in stacks.CODES if code in found]
        return b"".join(lines) + b"total %s ways\n" % count_text(total)

    def paths(self, items, modules, allowed):
        """The paths that the filter lets through, in order."""
        if b"--decision" not in self.options and b"--asks" not in self.options:
            return stacks.listing([(items, stacks.START)], stacks.START, allowed)
        number = int(self.options.get(b"--asks", b"0"))
        if number > len(modules):
            raise Fault("U9")
        plain_outcomes.outcomes(items, allowed)  # refuses too many places
        return plain_outcomes.meeting(items, allowed, self.decisions, number)

    def page(self, items, modules):
        """The lines of `paths` after the header."""
        paths = self.paths(items, modules, self.known(modules))
        for option in (b"--after", b"--before"):
            if option in self.options:
                cursor = stacks.cursor_of(self.options[option])
                stacks.judge_cursor(items, cursor)
        if b"--after" in self.options:
            paths = (path for path in paths if stacks.key_of(path[0]) > cursor)
        if b"--before" in self.options:
            paths = reversed([path for path in paths if stacks.key_of(path[0]) < cursor])
        limit = int(self.options.get(b"--limit", b"1000"))
        printed = list(islice(paths, limit + 1))
        more = len(printed) > limit
        if self.is_json():
            return json_lines.page(printed[:limit], more, b"--before" in self.options, modules)
        text = b""
        for steps, decision in printed[:limit]:
            text += b"%s %s" % (cursor_text(stacks.key_of(steps)), decision)
            text += b"".join(b" %d=%s" % (number, stacks.class_text(codes)) for number, codes in steps) + b"\n"
        if not more:
            return text + b"end %d paths\n" % len(printed)
        last = cursor_text(stacks.key_of(printed[limit - 1][0]))
        side = b"before" if b"--before" in self.options else b"after"
        return text + b"more %d paths %s %s\n" % (limit, side, last)


def settings_of(options):
    """The key and the codes of each value of `--set`."""
    settings = []
    for value in options.get(b"--set", []):
        key, sign, codes = value.partition(b"=")
        if not sign or not key:
            raise Fault("U17")
        settings.append((key, decisions_of(codes)))
    return settings


def decisions_of(text):
    """The codes of a set in the form in which `paths` prints it."""
    if text == b"any":
        return set(stacks.CODES)
    but = text.startswith(b"but:")
    named = {name.lower() for name in text[4 * but:].split(b",")}
    if not named <= set(stacks.CODES):
        raise Fault("U4")
    return set(stacks.CODES) - named if but else named


def parsed(words):
    """The command, its arguments and its options by name; an option has its value after `=` or as the next word."""
    if not words or words[0] not in OPTIONS:
        raise WrongWords
    command, words = words[0], words[1:]
    arguments, options = [], {}
    while words:
        word = words.pop(0)
        if not word.startswith(b"--"):
            arguments.append(word)
            continue
        name, sign, value = word.partition(b"=")
        is_flag = name in FLAGS.get(command, [])
        if name not in OPTIONS[command].split() or name in options and name not in REPEATED:
            raise WrongWords
        if is_flag == bool(sign) and (is_flag or not words and not sign):
            raise WrongWords
        value = value if sign or is_flag else words.pop(0)
        options[name] = options.get(name, []) + [value] if name in REPEATED else value
    least = LEAST_ARGUMENTS[command]
    if not least <= len(arguments) <= MOST_ARGUMENTS.get(command, len(arguments)):
        raise WrongWords
    if any(name not in options for name in REQUIRED.get(command, [])):
        raise WrongWords
    for number in (options.get(b"--limit", b"1"), options.get(b"--asks", b"1")):
        if not re.fullmatch(rb"[0-9]{1,7}", number) or not 1 <= int(number) <= 1000000:
            raise WrongWords
    return command, arguments, options
