"""Memory refused: the program under limits in steps from too little to enough.

The limit is one on its data, which is what it allocates.

Under the least limits the system cannot start a program: it is ended by a signal, or the loader of shared libraries ends
it with the status 127 (126 is the shell's own). From the first limit under which the program says anything itself, each
run is refused memory, with the status 6 and the line that is due there, or gives its whole answer. A run goes through its
phases in the same order each time, so under a higher limit it never ends in an earlier one."""
import resource

from hostile.changed import ACCESS, FOLDER, GROUP, MOMENT, RETURNS, STACK, TIME
from hostile.running import Answer, Difference, agrees, difference
from model import plain

NOT_STARTED = (-9, -11, 126, 127)
PAGE = resource.getpagesize() // 1024
MOST = 1 << 17
WHOLE_IN_TURN = 6

# What a run answers when memory is refused to it, phase by phase. A line of want of memory has the status 6.
U7 = b"pamcheck: U7 Memory\n"
E17 = b"pamcheck: E17 Memory\n"
TE11 = b"pamcheck: TE11 Memory\n"
# The line of another fault has no memory: its status alone is left.
UNSAID = "unsaid"
# The answer is whole. The standard library's `collect` moves a list that it has made into memory that just fits it, and
# keeps the list where it is if that is refused. There are two: the words, and the service in lower case; `graph` makes the
# second one twice. For the caches that a graph is made with it asks for all room at once, and again as the list grows if that is
# refused.
KEPT = "kept"

# The words are gathered, and their list fitted; standard output gets its buffer; `clap` reads the words.
WORDS = [U7, KEPT, E17, U7]
# What is wrong with words that are refused: they are read once more, and the wrong one is put into lower case, and fitted.
MISTAKES = WORDS + [UNSAID, KEPT]
# The folder and the files are read, then the configuration.
STACKS = WORDS + [E17]
# The moment takes no memory, so there is no M3. The service is put into lower case, and fitted.
LOGINS = STACKS + [KEPT]
TABLES = LOGINS + [TE11]
# The flat program, and the texts of a page; a cursor takes no memory.
PAGES = LOGINS + [E17]
TABLE_PAGES = TABLES + [E17]
# The caches of a graph, the graph, and what is counted over it.
GRAPH = [KEPT, E17]
GRAPHS = PAGES + GRAPH
TABLE_GRAPHS = TABLE_PAGES + GRAPH
# `outcomes` and `graph`, and where a service is named `check` and `compare`, first look up whether it is there: in lower case, and fitted.
LOOKED_UP = STACKS + [KEPT, E17]
OUTCOMES = LOOKED_UP + [KEPT, E17] + GRAPH
TABLE_OUTCOMES = LOOKED_UP + [KEPT, TE11, E17] + GRAPH
# A comparison reads two configurations and the facts file, then the returns file; then it compares.
COMPARES = STACKS
TABLE_COMPARES = STACKS + [TE11, E17]
NAMED_COMPARES = LOOKED_UP + [TE11, E17]
# The title of a drawing, which has the service in lower case once more, and the layout of a picture.
DRAWINGS = OUTCOMES + [KEPT, E17]
TABLE_DRAWINGS = TABLE_OUTCOMES + [KEPT, E17]

# The facts and the findings; then the list of the services, by which findings are accepted; then the findings that are listed, and
# the names of the files, among which the right words for wrong ones are; and to print, the lists of the paths and of the services.
# The three lists ask for room again where it is refused once. With more than four paths, their list grows.
LISTS = [KEPT, E17] + [KEPT] * 2
# The two graphs of a stack. If it has no modules, nothing else takes memory between them. Where it has S1 or S2, there are two more: those
# of the stack of its file by itself, which may be the cause.
STACK_GRAPHS = {"+": GRAPH * 2, "-": [KEPT, *GRAPH], "!": GRAPH * 4}


def judged(stacks, before=STACKS):
    """The phases until stacks are judged, each with modules (`+`), with modules and S1 or S2 (`!`), or without modules (`-`)."""
    return before + [phase for stack in stacks for phase in STACK_GRAPHS[stack]]


def checks(stacks, before=STACKS):
    """The phases of a check of these stacks."""
    return judged(stacks, before) + LISTS


TREE = {"d": FOLDER, "stack": {"login": STACK}, "pam.conf": b"login auth required a.so x\n" * 40, "access": ACCESS,
        "group": GROUP, "time": TIME, "returns": RETURNS, "facts": b"pam_own passes auth success\n", "accept": b"S6\nS2 login auth\n",
        "m": {"a.so": b""}, "old": {"login": b"auth required a.so\n"}, "new": {"login": b"auth optional a.so\nauth optional b.so x\n"},
        "big": {"login": STACK + b"session required [success=ok default=bad] a.so [d e]\n" * 2000}}
ACCESS_TABLE = ["--access", "access", "--group", "group", "--user", "alice"]
TIME_TABLE = ["--time", "time", "--at", MOMENT]
RETURNS_FILE = ["--returns", "returns"]
PATHS = ["paths", "login", "auth", "--dir", "stack"]
ACCOUNT = ["paths", "login", "account", "--dir", "stack"]
ASKED = [
    (["show", "login", "auth", "--dir", "d"], STACKS),
    (["decide", "login", "auth", *["success"] * 3, "--dir", "stack"], STACKS),
    (["show", "login", "auth", "--conf", "pam.conf"], STACKS),
    (["show", "login", "auth", "--dir", "big"], STACKS),
    (["show", "login", "--dir", "d"], STACKS),
    ([*PATHS, "--after", "0.0"], PAGES),
    ([*PATHS, "--before", "12.0", "--limit", "9"], PAGES),
    # No module of this stack needs a table, so none is read.
    ([*PATHS, *ACCESS_TABLE, *TIME_TABLE], PAGES),
    ([*PATHS, *RETURNS_FILE], TABLE_PAGES),
    ([*ACCOUNT, *ACCESS_TABLE], TABLE_PAGES),
    ([*ACCOUNT, *ACCESS_TABLE, "--access", "access"], TABLE_PAGES),
    ([*ACCOUNT, "--user", "alice", *TIME_TABLE], TABLE_PAGES),
    ([*ACCOUNT, *ACCESS_TABLE, *TIME_TABLE, *RETURNS_FILE], TABLE_PAGES),
    ([*PATHS, "--decision", "success", "--before", "12.0"], GRAPHS),
    ([*ACCOUNT, "--asks", "1", *ACCESS_TABLE, *RETURNS_FILE], TABLE_GRAPHS),
    (["access", "login", *ACCESS_TABLE, "--rhost", "10.1.2.3", "nodefgroup"], TABLES),
    (["time", "login", *TIME_TABLE, "--user", "alice", "--tty", "tty1"], TABLES),
    (["time", "login", "--time", "time", "--user", "alice", "--at-unix", "1715400000",
      "--zone", "CET-1CEST,M3.5.0,M10.5.0/3"], TABLES),
    (["outcomes", "login", "auth", "--dir", "stack"], OUTCOMES),
    (["outcomes", "login", "auth", "--dir", "stack", "--facts", "facts"], OUTCOMES),
    (["outcomes", "login", "account", "--dir", "stack", *ACCESS_TABLE, *TIME_TABLE, *RETURNS_FILE], TABLE_OUTCOMES),
    (["graph", "login", "auth", "--dir", "stack"], DRAWINGS),
    (["graph", "login", "account", "--dir", "stack", "--format", "mermaid", *ACCESS_TABLE, *TIME_TABLE, *RETURNS_FILE],
     TABLE_DRAWINGS),
    (["graph", "login", "account", "--dir", "stack", "--format", "svg", *ACCESS_TABLE, *RETURNS_FILE], TABLE_DRAWINGS),
    (["check", "--dir", "d"], [*checks("++--+---++--+---"), KEPT]),
    (["check", "LOGIN", "--dir", "d", "--vendor-dir", "stack"], [*checks("++--", LOOKED_UP), KEPT]),
    (["check", "--conf", "pam.conf", "--fail-on", "note"], checks("+---")),
    (["show", "login", "auth", "--dir", "d", "--with", "login=d/common", "--with=new=d/other"], STACKS),
    (["check", "--dir", "stack", "--modules", "m", "--facts", "facts", "--accept", "accept"], checks("+!--")),
    (["compare", "old", "new"], COMPARES),
    (["compare", "new", "old", "LOGIN", "auth", "--modules", "m", "--facts", "facts", *RETURNS_FILE], NAMED_COMPARES),
    (["compare", "pam.conf", "pam.conf", "--conf"], COMPARES),
    (["show", "login", "auth", "--dir", "big", "--json"], STACKS),
    (["decide", "login", "auth", *["success"] * 3, "--dir", "stack", "--json"], STACKS),
    (["outcomes", "login", "account", "--dir", "stack", "--json", *ACCESS_TABLE, *RETURNS_FILE], TABLE_OUTCOMES),
    (["access", "login", *ACCESS_TABLE, "--rhost", "10.1.2.3", "--json"], TABLES),
    (["access", "login", *ACCESS_TABLE, "--access", "access", "--rhost", "10.1.2.3"], TABLES),
    (["time", "login", *TIME_TABLE, "--user", "alice", "--json"], TABLES),
    (["compare", "new", "old", "--json", *RETURNS_FILE], TABLE_COMPARES),
    # The service is put into lower case, and fitted; then a release reads one file, and its rules are kept.
    (["show", "login", "auth", "--dir", "big", "--as", "linux-pam-1.5"], PAGES),
    (["show", "login", "auth", "--conf", "pam.conf", "--as", "linux-pam-1.7"], PAGES),
    (["version"], WORDS),
    (["show"], WORDS),
    (["show", "login", "atuh", "--dir", "d"], [*WORDS, UNSAID]),
    (["time", "login", "--time", "time", "--user", "alice"], [*WORDS, UNSAID]),
    (["graph", "login", "auth", "--dir", "d", "--format", "gif"], [*MISTAKES, UNSAID]),
    (["show", "login", "auth", "--dir", "d", "--with", "login=d/common", "--with", "new"], [*WORDS, UNSAID]),
    (["show", "login", "auth", "--dir", "gone"], [*STACKS, UNSAID]),
    (["show", "login", "auth", "--dir", "d", "--with", "login=gone"], [*STACKS, UNSAID]),
    (["show", "ftp", "auth", "--conf", "pam.conf"], [*STACKS, UNSAID]),
    (["time", "login", "--time", "time", "--user", "alice", "--at", "2024-05-06"], [*STACKS, UNSAID]),
    (["access", "login", *ACCESS_TABLE, "listsep=,"], [*TABLES, UNSAID]),
    (["check", "--dir", "stack", "--facts", "group"], [*STACKS, UNSAID]),
    (["check", "--dir", "stack", "--accept", "group"], [*judged("++--"), UNSAID]),
    (["compare", "old", "gone"], [*STACKS, UNSAID]),
    (["compare", "old", "new", "--returns", "group"], [*STACKS, UNSAID]),
    ([*PATHS, "--after", "3"], [*PAGES, UNSAID]),
    ([*ACCOUNT, *RETURNS_FILE, "--before", "x"], [*TABLE_PAGES, UNSAID]),
]


def answer_of(phase, whole):
    """What is answered when memory is refused in a phase."""
    if phase == KEPT:
        return whole
    return Answer(b"", b"", whole.status) if phase == UNSAID else Answer(b"", phase, 6)


def limited(program, words, kibibytes):
    """The answer under a limit. The C library is asked to take no more from the system than it needs at once."""
    return program.run_in_shell('export MALLOC_TOP_PAD_=0; ulimit -d %d; exec "$@"' % kibibytes, words)


def first_start(program):
    """The least limit, in steps of a page, under which the program starts, and the statuses under those below it."""
    statuses = set()
    kibibytes = 0
    while (status := limited(program, ASKED[0][0], kibibytes).status) in NOT_STARTED:
        statuses.add(status)
        kibibytes += PAGE
        if kibibytes > MOST:
            raise Difference("the program does not start under %d KiB" % MOST)
    return kibibytes, statuses


class Limits:
    """One request under rising limits: the answers that may still come, a phase each."""

    def __init__(self, words, phases):
        self.words = words
        self.whole = Answer(*plain.answer(words, TREE))
        self.due = [answer_of(phase, self.whole) for phase in phases if phase != KEPT]

    def judge(self, got, kibibytes):
        """Whether an answer is whole; any other must be that of this phase or of a later one.

        Where there is no memory for a line either, it is missing."""
        due = self.due
        if agrees(self.whole, got):
            self.due = []
            return True
        while due and got not in (due[0], due[0]._replace(stderr=b"")):
            due = due[1:]
        if not due:
            raise Difference("under a limit of %d KiB\n%s"
                             % (kibibytes, difference(self.words, TREE, (self.due or [self.whole])[0], got)))
        self.due = due
        return False


def refused(program):
    """How many runs there were, and what is told of the limits."""
    program.hold(TREE)
    first, statuses = first_start(program)
    runs, enough = 0, first
    for words, phases in ASKED:
        limits = Limits(words, phases)
        kibibytes, in_turn = first, 0
        while in_turn < WHOLE_IN_TURN:
            in_turn = in_turn + 1 if limits.judge(limited(program, words, kibibytes), kibibytes) else 0
            runs += 1
            kibibytes += PAGE
            if kibibytes > MOST:
                raise Difference("no whole answer under %d KiB: %s" % (MOST, words))
        enough = max(enough, kibibytes - WHOLE_IN_TURN * PAGE)
    told = "from %d KiB, the least with which the program starts, to %d KiB, enough for each; below, the statuses are %s"
    return runs, told % (first, enough, " and ".join(map(str, sorted(statuses))))
