"""Faulty programs, which the groups of `tests/hostile` have to notice: scripts around the real one, each wrong in one thing."""
import os
import shlex
import tempfile

from hostile.running import beside_each_other

# A script that keeps the answer and its status, to write it otherwise.
KEPT = '"$program" "$@" >"$0.out"; status=$?; %s "$0.out"; exit $status'
RIGHT = KEPT % "cat"
# A group that takes a second, and refuses nothing of the right script.
QUICK = "exchanged files"
# What is wrong with a program, the group that has to notice it, and the script.
FAULTY = [
    ("it drops the last line", "drawn hosts", KEPT % "sed '$d'"),
    ("it says only the first finding", "drawn hosts", KEPT % "sed -s -n '1p;1!{$p}'"),
    ("its SARIF is one line off", "drawn hosts", KEPT % "sed '/sarif-2.1.0/s/\"startLine\":1}/\"startLine\":2}/'"),
    ("its status is always 0", "drawn hosts", '"$program" "$@"; exit 0'),
    ("it answers as it did before", "drawn hosts",
     'kept="$0.$(echo "$*" | cksum | tr " " -)"; [ -e "$kept" ] || { "$program" "$@" >"$kept" 2>"$kept.err"; echo $? >"$kept.status"; }; '
     'cat "$kept"; cat "$kept.err" >&2; exit "$(cat "$kept.status")"'),
    ("it prints an escape of a name as it is", "names", KEPT % r"sed 's/\\x1b/\x1b/g'"),
    ("it takes a failed write for an answer", "failing writers", '"$program" "$@"; status=$?; [ $status != 5 ] || exit 0; exit $status'),
    ("it does not look into a second folder", "second folders",
     'for word; do shift; case $word in --vendor-dir=*) ;; *) set -- "$@" "$word" ;; esac; done; exec "$program" "$@"'),
    ("it reads a file in two parts", "files that change",
     'file=r/etc/pam.d/login; cp -r . "$0.d" 2>/dev/null; { head -c 500 $file; sleep 0.01; tail -c +501 $file; } >"$0.d/$file" 2>/dev/null; '
     'cd "$0.d" && exec "$program" "$@"'),
    ("it takes the old for the new", "drawn pairs",
     'old=$2 new=$3; [ "$1" != compare ] || { shift 3; set -- compare "$new" "$old" "$@"; }; exec "$program" "$@"'),
    ("it takes 64 MiB more", "worst hosts",
     'exec python3 -c "import os, sys; kept = b\'x\' * 2 ** 26; os.execv(sys.argv[1], sys.argv[1:])" "$program" "$@"'),
]


def script(program, folder, number, lines):
    """The path of a script around a program."""
    path = os.path.join(folder, str(number))
    with open(path, "w", encoding="utf-8") as file:
        file.write("#!/bin/sh\nprogram=%s\n%s\n" % (shlex.quote(program), lines))
    os.chmod(path, 0o755)
    return path


def tried(path, groups):
    """What is wrong with the programs that their groups do not notice, or with the right one, and how many programs there are."""
    programs = [*FAULTY, ("nothing is wrong", QUICK, RIGHT)]
    with tempfile.TemporaryDirectory() as folder:
        asked = [(script(path, folder, number, lines), groups, group) for number, (_, group, lines) in enumerate(programs)]
        noticed = [difference is not None for _, _, difference in beside_each_other(asked)]
    found = [(wrong, group) for (wrong, group, lines), is_noticed in zip(programs, noticed) if is_noticed == (lines == RIGHT)]
    return found, len(programs)
