#!/usr/bin/env python3
"""Measures the recipes for many hosts:

    python3 benches/fleet.py PROGRAM [--hosts N] [--runs N] [--roots FOLDER]

Roots of small systems are made in a temporary folder, or in FOLDER if it is not there yet. One in ten has a mistake. They are checked one after another by
`xargs`, by `examples/recipes/fleet` and by `examples/recipes/fleet.py` with four workers, which need Debian's packages parallel
and python3-distributed. Printed are the least seconds, processor time and memory of some runs: the memory is the most that one
process took. It needs GNU time as /usr/bin/time."""
import argparse
import os
import subprocess
import tempfile
from pathlib import Path

from run import HOST_COMMON, SERVICE, put

RECIPES = Path(__file__).resolve().parent.parent / "examples" / "recipes"
SERVICES = ["chfn", "chpasswd", "chsh", "cron", "login", "newusers", "passwd", "runuser", "runuser-l", "sshd", "su", "su-l", "sudo", "sudo-i"]
MODULES = ["pam_access.so", "pam_cap.so", "pam_deny.so", "pam_nologin.so", "pam_permit.so", "pam_sss.so", "pam_systemd.so", "pam_unix.so"]
TABLES = {"etc/group": b"root:x:0:\nadm:x:4:alice\nsudo:x:27:alice,bob\n", "etc/security/access.conf": b"+:root:LOCAL\n+:(adm):10.0.0.0/8\n-:ALL:ALL\n"}
# In a file, a text and what is there in its place.
MISTAKES = [("sshd", b"@include common-auth\n", b"@include common-auht\n"), ("common-auth", b"requisite", b"requisit"),
            ("common-auth", b"auth requisite pam_deny.so\n", b""), ("login", b"\n", b"\r\n"),
            ("sudo", b"pam_access.so", b"pam_acess.so"), ("common-account", b"success=1", b"success=4")]
ONE_IN = 10
FOLDERS = ["etc/pam.d", "etc/security", "usr/lib/x86_64-linux-gnu/security"]


def make_root(root, number):
    """The root of a host; every tenth has a mistake, one after another of those above."""
    files = {**HOST_COMMON, **dict.fromkeys(SERVICES, SERVICE)}
    if number % ONE_IN == 0:
        name, old, new = MISTAKES[number // ONE_IN % len(MISTAKES)]
        files[name] = files[name].replace(old, new)
    for folder in FOLDERS:
        os.makedirs(os.path.join(root, folder))
    for name, data in files.items():
        put(root, "etc/pam.d/" + name, data)
    for name, data in TABLES.items():
        put(root, name, data)
    for name in MODULES:
        put(root, "usr/lib/x86_64-linux-gnu/security/" + name, b"")


def measured(command, environment):
    """The lines of a run, its seconds, its processor seconds and those of all that it starts, and the most megabytes of one process."""
    done = subprocess.run(["/usr/bin/time", "-q", "-f", "%e %U %S %M", *command], env=environment, stdin=subprocess.DEVNULL,
                          capture_output=True, check=False)
    seconds, user, system, memory = map(float, done.stderr.split()[-4:])
    return done.stdout.splitlines(), seconds, user + system, memory / 1000


def main():
    parser = argparse.ArgumentParser()
    parser.add_argument("program")
    parser.add_argument("--hosts", type=int, default=10000)
    parser.add_argument("--runs", type=int, default=3)
    parser.add_argument("--roots")
    given = parser.parse_args()
    with tempfile.TemporaryDirectory() as folder:
        os.makedirs(folder + "/bin")
        os.symlink(os.path.abspath(given.program), folder + "/bin/pamcheck")
        environment = {**os.environ, "PATH": folder + "/bin:" + os.environ["PATH"]}
        roots = given.roots or folder + "/roots"
        for number in range(0 if os.path.isdir(roots) else given.hosts):
            make_root("%s/host%05d" % (roots, number), number)
        one_by_one = ["sh", "-c", 'ls "$0" | xargs -I{} pamcheck check --root "$0/{}"', roots]
        commands = [("`xargs`, one after another", one_by_one), ("`fleet`", [str(RECIPES / "fleet"), roots]),
                    ("`fleet.py --workers 4`", [str(RECIPES / "fleet.py"), "--workers", "4", roots])]
        print("| %d hosts, by | seconds | hosts a second | processor time of a host | memory |" % given.hosts)
        print("|---|---|---|---|---|")
        for name, command in commands:
            runs = [measured(command, environment) for _ in range(given.runs)]
            seconds, processor, memory = (min(run[at] for run in runs) for at in (1, 2, 3))
            print("| %s | %.1f | %.0f | %.2f ms | %.0f MB |" % (
                name, seconds, given.hosts / seconds, 1000 * processor / given.hosts, memory), flush=True)
            checked = sum(b"checked " in line for line in runs[0][0])
            if checked != given.hosts:
                raise SystemExit("%s: %d hosts checked" % (name, checked))


if __name__ == "__main__":
    main()
