"""The commands side by side on drawn hosts: what one of them says must follow from what the others say.

No answer is compared with the plain reading here, so a mistake that both share shows where two commands contradict each other.
For a service and a kind of each host, `show`, `outcomes`, `paths` with its filters and pages, `decide`, `graph` and `check` are
compared as text and as JSON; `show` without a kind is compared with `show` of each, and `compare` is given the host twice."""
import json
import pathlib
import re

from drawn import files, hosts
from hostile.running import Answer, Difference, shown
from model.stacks import CODES

IN_ORDER = ["auth", "account", "password", "session"]
# Those that are drawn.
KINDS = ["auth", *IN_ORDER]
LIMIT = 40
ANY = ["--answers", "any"]
PAGE = 9
GUARDS = {"pam_deny.so", "pam_warn.so"}
FINDING = re.compile(rb"(error|warning|note): ([A-Z]+[0-9]+) ([A-Za-z0-9]+): ")
END = {"dot": re.compile(rb"^ *d([0-9]+) \[", re.M), "mermaid": re.compile(rb'^ *d([0-9]+)(?:\(\[|\{\{)"', re.M),
       "svg": re.compile(rb'<g id="d([0-9]+)"')}


class Asked:
    """A stack of a host, and the answers of the program about it."""

    def __init__(self, program, service, kind):
        self.program = program
        self.stack = [service, kind, "--dir", "d"]

    def run(self, *words):
        return self.program.run(list(words))

    def lines(self, command, *more):
        """The lines of an answer about the stack, which must be one."""
        got = self.run(command, *self.stack, *more)
        same("status of %s %s" % (command, more), 0, got.status)
        same("standard error of %s %s" % (command, more), b"", got.stderr)
        return got.stdout.splitlines()

    def objects(self, command, *more):
        return [json.loads(line) for line in self.lines(command, *more, "--json")]


def same(what, one, other):
    if one != other:
        raise Difference("%s\none: %s\nother: %s" % (what, shown(repr(one).encode()), shown(repr(other).encode())))


def name_of(path):
    return path.rpartition("/")[2]


def compare_lists(asked):
    """The modules of `show`, as text and as JSON."""
    header, *lines = asked.lines("show")
    found, *objects = asked.objects("show")
    modules = [item for item in objects if item["kind"] == "module"]
    same("modules of show and its first line", found["modules"], len(modules))
    same("lines of show", len(lines), len(objects))
    same("the first line of show", header.split()[-2:], [b"%d" % len(modules), b"modules"])
    return modules


def compare_outcomes(asked, modules):
    """The decisions of `outcomes` for any answers, as text and as JSON, with the first path to each."""
    _, *lines, last = asked.lines("outcomes", *ANY)
    _, *outcomes, total = asked.objects("outcomes", *ANY)
    told = [(line.split(None, 1)[0].decode(), line.split()[1].decode()) for line in lines]
    same("outcomes as text and as JSON", told, [(found["decision"], found["ways"]) for found in outcomes])
    same("total as text and as JSON", last.split()[1].decode(), total["ways"])
    if not total["ways"].endswith("+"):
        same("the sum of all ways", int(total["ways"]), sum(int(found["ways"]) for found in outcomes))
    for found in outcomes[:2] + outcomes[-1:]:
        compare_first(asked, modules, found)
    return outcomes


def compare_possible(asked, outcomes):
    """The decisions of `outcomes` for possible answers, which are some of those for any, each in no more ways."""
    *possible, total = asked.objects("outcomes")[1:]
    same("what is possible and its name", asked.lines("outcomes"), asked.lines("outcomes", "--answers", "possible"))
    ways = {found["decision"]: number_of(found["ways"]) for found in outcomes}
    more = [found["decision"] for found in possible if number_of(found["ways"]) > ways.get(found["decision"], 0)]
    same("decisions that are possible in more ways than any answers give", [], more)
    same("a decision is possible", True, number_of(total["ways"]) > 0)
    return possible


def number_of(ways):
    return int(ways.rstrip("+"))


def compare_first(asked, modules, found):
    """The first path to a decision: `paths` finds it first, and `decide` decides so."""
    page = asked.objects("paths", "--decision", found["decision"], "--limit", "1")
    same("the first path to %s" % found["decision"], {**found, "kind": "path", "ways": None}, {**page[1], "ways": None})
    answers = {step["number"]: step["codes"][0] for step in found["steps"]}
    codes = [answers.get(module["number"], "abort") for module in modules]
    got = asked.run("decide", *asked.stack[:2], *codes, "--dir", "d", "--json")
    *steps, decision = [json.loads(line) for line in got.stdout.splitlines()[1:]]
    same("what decide decides", found["decision"], decision["code"])
    same("the status of decide", int(found["decision"] != "success"), got.status)
    same("what decide asks", [step["number"] for step in found["steps"]], [step["number"] for step in steps])


def whole_listing(asked, *more):
    """The paths of pages, each begun where the one before it ends."""
    paths, after = [], []
    while True:
        *found, page = asked.objects("paths", "--limit", str(PAGE), *more, *after)[1:]
        same("the paths of a page", page["paths"], len(found))
        paths += found
        if page["next"] is None:
            return paths
        after = ["--after=" + page["next"]]


def compare_listings(asked, outcomes, modules):
    """The listing as one page, as text and as JSON, in pages, from its end, and by its filters."""
    *paths, _ = asked.objects("paths", "--limit", str(LIMIT))[1:]
    same("the listing and its pages", paths, whole_listing(asked))
    *lines, _ = asked.lines("paths", "--limit", str(LIMIT))[1:]
    same("paths as text", [line.split()[:2] for line in lines], [[p["cursor"].encode(), p["decision"].encode()] for p in paths])
    *before, _ = asked.objects("paths", "--limit", str(LIMIT), "--before=" + paths[-1]["cursor"])[1:]
    same("the listing from its end", paths[-2::-1] if len(paths) > 1 else [], before)
    for found in outcomes:
        same("ways to " + found["decision"], int(found["ways"]), sum(p["decision"] == found["decision"] for p in paths))
    for module in modules[:1] + modules[-1:]:
        number = module["number"]
        same("the paths that ask %d" % number, [p for p in paths if number in [step["number"] for step in p["steps"]]],
             whole_listing(asked, "--asks", str(number)))


def compare_drawings(asked, outcomes, *more):
    """The ends of each drawing are the decisions."""
    ends = sorted(CODES.index(found["decision"].encode()) for found in outcomes)
    for form, pattern in END.items():
        got = asked.run("graph", *asked.stack, "--format", form, *more)
        if got.status == 0:
            same("the ends of " + form, ends, sorted(int(number) for number in pattern.findall(got.stdout)))


def compare_checks(asked, *words):
    """The findings of `check`, as text and as JSON."""
    text = asked.run("check", "--dir", "d", *words)
    found = asked.run("check", "--dir", "d", *words, "--json")
    same("the status of check as text and as JSON", text.status, found.status)
    *findings, checked = [json.loads(line) for line in found.stdout.splitlines()]
    told = [(match[1].decode(), match[2].decode(), match[3].decode()) for match in map(FINDING.search, text.stdout.splitlines()) if match]
    same("findings as text and as JSON", told, [(f["level"], f["number"], f["name"]) for f in findings])
    for level in ("error", "warning", "note"):
        same("the count of each " + level, checked[level + "s"], sum(f["level"] == level for f in findings))
    same("the status of check", int(checked["errors"] + checked["warnings"] > 0), found.status)
    return findings


def has(findings, number, service, kind):
    """Whether a check of one service finds this of its stack, which it tells at the file that is the cause."""
    return any(f["number"] == number and service in f["services"] and f["type"] == kind for f in findings)


def refuses_arguments(findings, kind):
    """Whether a module of these stacks always fails because of its arguments, which `check` knows and `outcomes` does not."""
    return any(f["number"] in ("S15", "S19") and "so it always fails" in f["sentence"] and kind in f["types"] for f in findings)


def is_included(service):
    """Whether a file of the folder may include that of the service, which is then none that a program asks for where `other` answers."""
    words = re.compile(rb"(?:include|substack)\s+\S*" + re.escape(service.encode()), re.IGNORECASE)
    return any(words.search(file.read_bytes()) for file in pathlib.Path("d").iterdir() if file.is_file())


def compare_with_check(findings, service, kind, modules, outcomes):
    """A stack that no possible answers let succeed is found to let nobody in, unless it is meant to deny, and no other stack is."""
    is_meant = all(name_of(module["path"]) in GUARDS for module in modules) or name_of(modules[0]["path"]) == "pam_deny.so"
    is_shut = all(found["decision"] != "success" for found in outcomes)
    if not is_meant and not is_included(service) and (is_shut or not refuses_arguments(findings, kind)):
        same("S1 where nothing decides success", is_shut, has(findings, "S1", service, kind))


def compare_with_itself(asked):
    """A host beside itself: nothing changes, and what is refused is refused on both sides."""
    got = asked.run("compare", "d", "d", "--json")
    *lines, counts = [json.loads(line) for line in got.stdout.splitlines()]
    same("what compare finds of a host beside itself", {"refused"}, {"refused", *(line["kind"] for line in lines if line["kind"] != "as")})
    same("equal and refused stacks", counts["stacks"], counts["equal"] + counts["refused"])
    same("the status of compare", 3 if counts["refused"] else 0, got.status)
    return {(line["service"], line["type"]) for line in lines if line["kind"] == "refused"}


def compare_stack(asked, service, kind, findings):
    """The answers about a stack that is accepted."""
    modules = compare_lists(asked)
    outcomes = compare_outcomes(asked, modules)
    possible = compare_possible(asked, outcomes)
    compare_drawings(asked, outcomes, *ANY)
    compare_drawings(asked, possible)
    compare_with_check(findings, service, kind, modules, possible)
    ways = asked.objects("outcomes", *ANY)[-1]["ways"]
    if not ways.endswith("+") and 0 < int(ways) <= LIMIT:
        compare_listings(asked, outcomes, modules)


def compare_kinds(asked, service):
    """`show` of all kinds, and of each."""
    for form in ([], ["--json"]):
        each = [asked.run("show", service, kind, "--dir", "d", *form) for kind in IN_ORDER]
        whole = Answer(b"".join(one.stdout for one in each), b"", 0)
        first = next((one for one in each if one.status != 0), whole)
        same("show of all kinds %s" % form, first, asked.run("show", service, "--dir", "d", *form))


def compare_host(program, service, kind):
    asked = Asked(program, service, kind)
    compare_checks(asked)
    compare_kinds(asked, service)
    refused = compare_with_itself(asked)
    got = asked.run("show", *asked.stack)
    findings = compare_checks(asked, service)
    same("refused by show and by compare", got.status != 0, (service, kind) in refused)
    if got.status == 0:
        compare_stack(asked, service, kind, findings)
    else:
        # E10 is a warning, and refuses all the same.
        same("a fault of check where show refuses", True, any(f["number"].startswith("E") for f in findings))


def run(program, count):
    """How many hosts were asked."""
    drawing = hosts.Hosts(files.SEED + 1)
    for _ in range(count):
        tree = {"d": hosts.folder(drawing.files())}
        program.hold(tree)
        service = drawing.of(sorted(name for name in tree["d"] if re.fullmatch("[a-z-]+", name)) or ["other"])
        kind = drawing.of(KINDS)
        try:
            compare_host(program, service, kind)
        except Difference as found:
            raise Difference("%s %s: %s\nfiles: %s" % (service, kind, found, tree)) from None
    return count
