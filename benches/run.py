#!/usr/bin/env python3
"""Measures the built program:

    python3 benches/run.py PROGRAM [--pages] [--outcomes] [--libraries PROGRAM] [--only WORD] [--runs N]

For each case the inputs are made anew in a temporary folder, in three sizes, the program is run once to warm up and then
N times over each, and the least processor time and the peak memory are printed, the start of the process included. It
needs Python's standard library and, for peak memory, /usr/bin/time. With --pages it also lists the paths of stacks in one
page, of three lengths; with --outcomes it counts the outcomes of these stacks and of the largest graphs; with --libraries
it also runs that program, which by the libraries alone decides one stack many times, explores stacks, and follows the walks of
their graphs.
"""
import argparse
import os
import subprocess
import tempfile
import time

MIB = 1048576


def repeated(line, size):
    """Whole lines up to the size, and a comment for the rest."""
    text = line * (size // len(line))
    return text + b"#" * (size - len(text))


def put(folder, name, data):
    with open(os.path.join(folder, name), "wb") as file:
        file.write(data)


def pam_d(**files):
    def make(folder):
        os.mkdir(os.path.join(folder, "d"))
        for name, data in files.items():
            put(folder, "d/" + name, data)
    return make


def folder_of(count):
    def make(folder):
        os.mkdir(os.path.join(folder, "d"))
        common = b"auth [success=1 default=ignore] pam_unix.so nullok\nauth requisite pam_deny.so\nauth required pam_permit.so\n"
        put(folder, "d/common-auth", common)
        for n in range(count - 1):
            put(folder, "d/service%d" % n, b"# service %d\n" % n * 20 + b"auth required pam_env.so\n@include common-auth\n")
    return make


STACK = b"auth required a.so\n"
DECIDE = ["decide", "login", "auth", "success", "--dir", "d"]
SIZES = (MIB // 4, MIB // 2, MIB)


def rules(line):
    """A stack, and this line again and again up to the size."""
    return lambda size: pam_d(login=STACK + repeated(line, size - len(STACK)))


def one_file(size):
    """A `pam.conf` whose rules are of other services."""
    def make(folder):
        put(folder, "pam.conf", b"login auth required a.so\n" + repeated(b"other session required pam_x.so debug\n", size - 25))
    return make


def access_tables(size):
    """Networks, lists with EXCEPT and groups, and a last line that grants; none of the others matches."""
    def make(folder):
        line = 0
        table = bytearray()
        while len(table) < size - 64:
            line += 1
            table += b"-:(group%d) EXCEPT bob EXCEPT user%d:10.%d.%d.0/24 2001:db8:%x::/48\n" % (
                line % 5000, line, line // 256 % 256, line % 256, line % 65536)
        put(folder, "access", bytes(table) + b"+:ALL:ALL\n")
        groups = bytearray()
        while len(groups) < size - 256:
            groups += b"group%d:x:%d:" % (len(groups) // 180, len(groups)) + b",".join(b"member%d" % n for n in range(18)) + b"\n"
        put(folder, "group", bytes(groups))
    return make


def time_tables(size):
    def make(folder):
        put(folder, "time", repeated(b"login&!ftp;tty*;!root|bob;Al0000-2400|Wk1800-0800\n", size))
    return make


def pairs():
    """The 676 names of two letters."""
    letters = b"abcdefghijklmnopqrstuvwxyz"
    return [bytes((one, other)) for one in letters for other in letters]


def group_tables(size):
    """Each token of the table is the name of a group, and the login is in none of them."""
    def make(folder):
        names = pairs()
        tokens = (size - len(b"-::ALL\n")) // len(b"aa ")
        put(folder, "access", b"-:" + b" ".join((names * (tokens // len(names) + 1))[:tokens]) + b":ALL\n")
        count = (size // len(names) - len(b"aa:x:1:\n")) // len(b"member000,")
        members = b",".join(b"member%03d" % n for n in range(count))
        put(folder, "group", b"".join(b"%s:x:1:%s\n" % (name, members) for name in names))
    return make


def table_readers(arguments):
    """Modules that read one access table of a quarter of a MiB, each with these arguments."""
    def sized(count):
        def make(folder):
            os.mkdir(os.path.join(folder, "d"))
            put(folder, "d/login", b"".join(b"account required pam_access.so " + arguments(n) + b"\n" for n in range(count)))
            put(folder, "access", repeated(b"-:root bob:10.0.0.0/8 192.0.2.7\n", MIB // 4))
        return make
    return sized


def included_files(count):
    """A service that includes this number of files of 4 kB, one after another."""
    def make(folder):
        os.mkdir(os.path.join(folder, "d"))
        put(folder, "d/login", b"".join(b"auth include part%d\n" % n for n in range(count)))
        for n in range(count):
            put(folder, "d/part%d" % n, STACK + repeated(b"session required pam_x.so debug\n", 4096))
    return make


HOST_COMMON = {
    "common-auth": b"auth [success=2 default=ignore] pam_unix.so nullok\nauth [success=1 default=ignore] pam_sss.so use_first_pass\n"
                   b"auth requisite pam_deny.so\nauth required pam_permit.so\nauth optional pam_cap.so\n",
    "common-account": b"account [success=1 new_authtok_reqd=done default=ignore] pam_unix.so\naccount requisite pam_deny.so\n"
                      b"account required pam_permit.so\n",
    "common-session": b"session [default=1] pam_permit.so\nsession requisite pam_deny.so\nsession required pam_permit.so\n"
                      b"session required pam_unix.so\nsession optional pam_systemd.so\n",
    "common-password": b"password [success=1 default=ignore] pam_unix.so obscure\npassword requisite pam_deny.so\n"
                       b"password required pam_permit.so\n",
    "other": b"@include common-auth\n@include common-account\n@include common-password\n@include common-session\n",
}
SERVICE = (b"auth requisite pam_nologin.so\n@include common-auth\naccount required pam_access.so\n@include common-account\n"
           b"@include common-session\n@include common-password\n")


def host(count):
    """A number of services, each of which includes the same four files."""
    def make(folder):
        pam_d(**HOST_COMMON)(folder)
        for n in range(count - len(HOST_COMMON)):
            put(folder, "d/service%d" % n, SERVICE)
    return make


def changed_host(count):
    """Two folders of a number of services, one line of whose common file differs."""
    def make(folder):
        host(count)(folder)
        os.rename(os.path.join(folder, "d"), os.path.join(folder, "old"))
        host(count)(folder)
        common = HOST_COMMON["common-auth"].replace(b"auth requisite pam_deny.so\n", b"")
        put(folder, "d/common-auth", common)
    return make


def reversed_stacks(count):
    """Two folders, whose stacks have the same modules in reverse orders."""
    def make(folder):
        rules_of = [b"auth required m%d.so\n" % n for n in range(count)]
        pam_d(login=b"".join(rules_of))(folder)
        os.rename(os.path.join(folder, "d"), os.path.join(folder, "old"))
        pam_d(login=b"".join(reversed(rules_of)))(folder)
    return make


def including(line):
    """A number of services, each of which includes a MiB of this line 240 times."""
    def sized(count):
        services = {"service%d" % n: b"@include big\n" * 240 + STACK for n in range(count)}
        return pam_d(big=repeated(line, MIB), **services)
    return sized


POLICIES = os.path.join(os.path.dirname(os.path.realpath(__file__)), "../examples/policies")
NAMED = ("sshd", "login", "su", "su-l", "sudo", "passwd")


def judged_host(count):
    """The policies of the examples, and a host of a number of files that has the services of which they speak."""
    def make(folder):
        host(count - len(NAMED))(folder)
        for name in NAMED:
            put(folder, "d/" + name, SERVICE)
        for name in ("mfa", "lockout", "su", "cis"):
            with open(os.path.join(POLICIES, name + ".policy"), "rb") as file:
                put(folder, name + ".policy", file.read())
    return make


def many_rules(count):
    """A number of rules about all stacks of a host of 40 files."""
    def make(folder):
        host(40)(folder)
        put(folder, "policy", b"* * never asks pam_unix[md5]\n" * count)
    return make


READERS = ["paths", "login", "account", "--dir", "d", "--access", "access", "--user", "alice", "--limit", "1"]

CASES = [
    # name, words, the maker of the input of a size, the sizes, and the files of a size's bytes
    ("start-up: one decide of two lines", ["decide", "login", "auth", "success", "auth_err", "--dir", "d"],
     lambda size: pam_d(login=b"auth required a.so\nauth sufficient b.so\n"), (0,), 0),
    ("1 MiB of comments", DECIDE, rules(b"# nothing to see here\n"), SIZES, 1),
    ("1 MiB of one comment", DECIDE, lambda size: pam_d(login=STACK + b"#" * (size - len(STACK))), SIZES, 1),
    ("1 MiB of continuations", DECIDE, lambda size: pam_d(login=STACK + b"\\\n" * ((size - len(STACK)) // 2)), SIZES, 1),
    ("1 MiB of rules of another kind", DECIDE, rules(b"session required pam_x.so debug\n"), SIZES, 1),
    ("1 MiB of one rule's arguments", DECIDE, lambda size: pam_d(login=STACK[:-1] + b" debug" * ((size - len(STACK)) // 6)),
     SIZES, 1),
    ("a pam.conf of 1 MiB", [*DECIDE[:4], "--conf", "pam.conf"], one_file, SIZES, 1),
    ("a folder of 200 files", ["show", "service7", "auth", "--dir", "d"], folder_of, (50, 100, 200), 0),
    ("256 includes of a 60 kB file", ["show", "login", "auth", "--dir", "d"],
     lambda count: pam_d(login=b"auth include big\n" * count + STACK, big=repeated(b"session required pam_x.so debug\n", 60000)),
     (64, 128, 256), 0),
    ("256 includes of a file each, of 4 kB", ["show", "login", "auth", "--dir", "d"], included_files, (64, 128, 256), 0),
    ("256 modules that read one access table, equally", READERS, table_readers(lambda n: b"nodefgroup"), (64, 128, 256), 0),
    ("256 modules that read it with separators of their own", READERS, table_readers(lambda n: b"fieldsep=:" + pairs()[n].upper()),
     (64, 128, 256), 0),
    ("names of groups of 1 MiB, and 676 groups", ["access", "login", "--access", "access", "--group", "group", "--user", "alice"],
     group_tables, SIZES, 2),
    ("an access table and a group file of 1 MiB each", ["access", "login", "--access", "access", "--group", "group", "--user", "alice",
                                                        "--rhost", "10.1.2.3"], access_tables, SIZES, 2),
    ("a time table of 1 MiB", ["time", "login", "--time", "time", "--user", "alice", "--tty", "tty1", "--at", "2024-05-06T10:00"],
     time_tables, SIZES, 1),
    ("check of a host of 40 files", ["check", "--dir", "d"], host, (10, 20, 40), 0),
    ("check of services that include 1 MiB of `session` rules 240 times", ["check", "--dir", "d"], including(b"session required a.so\n"),
     (25, 50, 100), 0),
    ("check of services that include 1 MiB of targets that are not there 240 times", ["check", "--dir", "d"], including(b"session include x\n"),
     (25, 50, 100), 0),
    ("comparison of a host of 30 files with itself", ["compare", "d", "d"], host, (8, 15, 30), 0),
    ("comparison of hosts of 40 files, one line of them changed", ["compare", "old", "d"], changed_host, (10, 20, 40), 0),
    ("comparison of stacks of 12 modules in reverse orders", ["compare", "old", "d", "login", "auth"], reversed_stacks, (3, 6, 12), 0),
    ("four policies of 31 rules over a host of 40 files", ["policy", "mfa.policy", "lockout.policy", "su.policy", "cis.policy", "--dir", "d"],
     judged_host, (12, 20, 40), 0),
    ("a policy of 1,000 rules about all stacks of a host of 40 files", ["policy", "policy", "--dir", "d"], many_rules, (250, 500, 1000), 0),
    ("check of a host of 10,000 files", ["check", "--dir", "d"], host, (2500, 5000, 10000), 0),
]


def run(command, folder):
    """What a run writes on standard error, and the processor seconds that it takes."""
    process = subprocess.Popen(command, cwd=folder, stdin=subprocess.DEVNULL, stdout=subprocess.DEVNULL, stderr=subprocess.PIPE)
    said = process.stderr.read()
    _, status, usage = os.wait4(process.pid, 0)
    process.returncode = os.waitstatus_to_exitcode(status)
    if process.returncode not in (0, 1):
        raise SystemExit("%s: status %d: %s" % (" ".join(command), process.returncode, said.decode()))
    return said, usage.ru_utime + usage.ru_stime


def measure(program, words, folder, runs):
    """The least processor seconds of these runs, and the peak memory in megabytes."""
    least = min(run([program] + words, folder)[1] for _ in range(runs + 1))
    return least, int(run(["/usr/bin/time", "-q", "-f", "%M", program] + words, folder)[0].split()[-1]) / 1000


def measure_cases(program, cases, only, runs):
    print("| Case | a quarter | half | whole | MiB a second | memory: a quarter | whole |")
    print("|---|---|---|---|---|---|---|")
    for name, words, make, sizes, files in cases:
        if only not in name:
            continue
        rows = []
        for size in sizes:
            with tempfile.TemporaryDirectory() as folder:
                make(size)(folder)
                rows.append(measure(program, words, folder, runs))
        (first, first_peak), (least, peak) = rows[0], rows[-1]
        smaller = ["%.1f ms" % (row[0] * 1000) for row in rows[:-1]] or ["-", "-"]
        speed = "%.0f" % (files / least) if files else "-"
        print("| %s | %s | %.1f ms | %s | %s | %.1f MB |" % (
            name, " | ".join(smaller), least * 1000, speed, "%.1f MB" % first_peak if len(rows) > 1 else "-", peak))


def measure_decisions(program):
    for modules in (10, 64):
        times = []
        with tempfile.TemporaryDirectory() as folder:
            put(folder, "login", STACK * modules)
            for _ in range(5):
                begin = time.perf_counter()
                subprocess.run([program, "measure", "decisions", "1000000", "login"], cwd=folder, stdout=subprocess.DEVNULL, check=True)
                times.append(time.perf_counter() - begin)
        print("decisions of %d modules: %.1f million a second" % (modules, 1 / min(times)))


def lines(count, line):
    return "".join((line(n) if callable(line) else line) + "\n" for n in range(count))


CODES = """success open_err symbol_err service_err system_err buf_err perm_denied auth_err cred_insufficient authinfo_unavail
user_unknown maxtries new_authtok_reqd acct_expired session_err cred_unavail cred_expired cred_err no_module_data conv_err
authtok_err authtok_recover_err authtok_lock_busy authtok_disable_aging try_again ignore abort authtok_expired
module_unknown bad_item""".split()

STACKS = [
    # name, paths to give, text
    ("Debian's `common-auth`, 3 modules", 1000000,
     "auth [success=1 default=ignore] pam_unix.so nullok\nauth requisite pam_deny.so\nauth required pam_permit.so\n"),
    ("`sufficient`, `required`", 1000000, "auth sufficient a.so\nauth required b.so\n"),
    ("8 `required`", 1000000, lines(8, "auth required a.so")),
    ("56 `required`", 1000000, lines(56, "auth required a.so")),
    ("256 `required`", 100000, lines(256, "auth required a.so")),
    ("64 `[success=1 default=ignore]`", 1000000, lines(64, "auth [success=1 default=ignore] a.so")),
    ("256 `[success=1 default=ignore]`", 100000, lines(256, "auth [success=1 default=ignore] a.so")),
    ("40 of failing, done and jumps", 1000000, lines(40, lambda n: "auth [success=2 ignore=ignore new_authtok_reqd=1 default=bad] a.so"
                                                       if n % 3 else "auth [success=done auth_err=1 default=ignore] a.so")),
    ("40 that die", 1000000, lines(40, "auth [success=1 ignore=ignore new_authtok_reqd=ok default=die] a.so")),
    ("30 of jumps and resets", 1000000,
     lines(30, "auth [success=2 auth_err=1 perm_denied=3 user_unknown=die ignore=reset default=ignore] a.so")),
    ("120 of 31 jumps each", 1000000,
     lines(120, "auth [%s default=31] a.so" % " ".join("%s=%d" % (code, n + 1) for n, code in enumerate(CODES)))),
]

OUTCOMES = ["outcomes", "login", "auth", "--dir", "d"]
IGNORED = "auth [default=ignore] a.so"
RESET = "auth [success=reset default=ignore] a.so"
JUMPS = "auth [%s] a.so" % " ".join("%s=%d" % (code, n + 1) for n, code in enumerate(CODES + ["conv_again"]))


def one_stack(text):
    return lambda size: pam_d(login=text.encode())


def products(line):
    """A stack whose substack is entered in 31 states: 436 places, and for each of its last lines 930, which are the pairs of
    an entry state and a state. If these lines jump, the second of them is never asked."""
    return lambda count: pam_d(
        login=(lines(1, IGNORED) + lines(1, "auth [default=ok] a.so") + lines(13, IGNORED) + lines(1, "auth substack s")).encode(),
        s=(lines(1, "auth [success=reset default=bad] a.so") + lines(count, line) + lines(1, RESET)).encode())


OUTCOME_CASES = [(name, OUTCOMES, one_stack(text), (0,), 0) for name, _, text in STACKS] + [
    ("256 lines of `[success=1 default=ignore]`", OUTCOMES,
     lambda count: pam_d(login=lines(count, "auth [success=1 default=ignore] a.so").encode()), (64, 128, 256), 0),
    ("65,536 places with few classes", OUTCOMES, products(RESET), (17, 34, 69), 0),
    ("65,536 places with 31 classes each", OUTCOMES, products(JUMPS), (18, 35, 70), 0),
]


def measure_paths(program):
    print("| Stack | million paths a second | steps a path | modules a path | peak memory |")
    print("|---|---|---|---|---|")
    for name, limit, text in STACKS:
        with tempfile.TemporaryDirectory() as folder:
            put(folder, "login", text.encode())
            words = [program, "measure", "paths", str(limit), "login"]
            times = []
            for _ in range(5):
                begin = time.perf_counter()
                done = subprocess.run(words, cwd=folder, stdout=subprocess.PIPE, check=True)
                times.append(time.perf_counter() - begin)
            peak = int(run(["/usr/bin/time", "-q", "-f", "%M"] + words, folder)[0].split()[-1])
        paths, modules, steps = (int(word) for word in done.stdout.decode().split() if word.isdigit())
        print("| %s | %.2f | %.2f | %.1f | %.1f MB |" % (name, paths / min(times) / 1e6, steps / paths, modules / paths, peak / 1000))


def measure_graphs(program):
    """Walks to a decision other than success, without the time in which the graph is made and its walks are counted."""
    print("| Stack | nodes | million walks a second | modules a walk | peak memory |")
    print("|---|---|---|---|---|")
    for name, limit, text in STACKS:
        with tempfile.TemporaryDirectory() as folder:
            put(folder, "login", text.encode())

            def least(count):
                return min(run([program, "measure", "graphs", str(count), "login"], folder)[1] for _ in range(6))

            done = subprocess.run([program, "measure", "graphs", str(limit), "login"], cwd=folder, stdout=subprocess.PIPE, check=True)
            nodes, _, walks, steps = (int(word) for word in done.stdout.decode().split() if word.isdigit())
            peak = int(run(["/usr/bin/time", "-q", "-f", "%M", program, "measure", "graphs", str(limit), "login"], folder)[0].split()[-1])
            seconds = least(limit) - least(0)
        speed = "%.2f" % (walks / seconds / 1e6) if seconds > 0.001 else "-"
        each = "%.1f" % (steps / walks) if walks else "-"
        print("| %s | %d | %s | %s | %.1f MB |" % (name, nodes, speed, each, peak / 1000))


def measure_pages(program, runs):
    print("| Stack | lines | a quarter | half | whole | million lines a second | memory: a quarter | whole |")
    print("|---|---|---|---|---|---|---|---|")
    for name, limit, text in STACKS:
        with tempfile.TemporaryDirectory() as folder:
            pam_d(login=text.encode())(folder)
            words = ["paths", "login", "auth", "--dir", "d", "--limit"]
            page = subprocess.run([program] + words + [str(limit)], cwd=folder, stdout=subprocess.PIPE, check=True).stdout
            count = page.count(b"\n") - 2
            rows = [measure(program, words + [str(max(1, count // parts))], folder, runs) for parts in (4, 2, 1)]
        least, peak = rows[-1]
        print("| %s | %d | %s | %.2f | %.1f MB | %.1f MB |" % (
            name, count, " | ".join("%.1f ms" % (row[0] * 1000) for row in rows), count / least / 1e6, rows[0][1], peak))


def main():
    parser = argparse.ArgumentParser()
    parser.add_argument("program")
    parser.add_argument("--pages", action="store_true")
    parser.add_argument("--outcomes", action="store_true")
    parser.add_argument("--libraries")
    parser.add_argument("--only", default="")
    parser.add_argument("--runs", type=int, default=20)
    args = parser.parse_args()
    program = os.path.abspath(args.program)
    measure_cases(program, CASES, args.only, args.runs)
    if args.pages:
        measure_pages(program, args.runs)
    if args.outcomes:
        measure_cases(program, OUTCOME_CASES, args.only, args.runs)
    if args.libraries:
        libraries = os.path.abspath(args.libraries)
        measure_decisions(libraries)
        measure_paths(libraries)
        measure_graphs(libraries)


if __name__ == "__main__":
    main()
