"""What `check --format patch` writes, applied by patch(1) and by git to the files that were checked.

Both take it without fuzz and make the same files of it. A check of these has none of the findings whose words were replaced, and no
fault at a line without one before. What else comes or goes is of services that read a line that was mended."""
import json
import os
import shutil
import subprocess

from drawn import hosts
from hostile.running import Difference, shown

TOOLS = {"patch": ["patch", "-p1", "-s", "-f", "-F0", "-r", "-"], "git": ["git", "apply", "--whitespace=nowarn", "-"]}
MENDED = {"S5", "S15", "S16"}


def found(program, words):
    """The findings of a check."""
    got = program.run([*words, "--json"])
    return [one for one in map(json.loads, got.stdout.splitlines()) if one["kind"] == "finding"], got.status


def applied(tool, tree, patch):
    """The files of a tree after a tool has applied a patch to a copy of them, which is left in a folder of its name."""
    os.mkdir(tool)
    for name in tree:
        copy = shutil.copytree if os.path.isdir(name) else shutil.copy
        copy(name, os.path.join(tool, name))
    done = subprocess.run(TOOLS[tool], cwd=tool, input=patch, stdout=subprocess.PIPE, stderr=subprocess.STDOUT, timeout=60)
    if done.returncode or done.stdout:
        raise Difference("%s refuses a patch: %s\n%s" % (tool, shown(done.stdout), shown(patch)))
    return contents(tool)


def contents(folder):
    """The bytes of each file below a folder."""
    data = {}
    for path, _, names in os.walk(folder):
        for name in names:
            with open(os.path.join(path, name), "rb") as file:
                data[os.path.relpath(os.path.join(path, name), folder)] = file.read()
    return data


def changed_lines(old, new):
    """The files and lines that differ."""
    return {(name, number) for name in new for number, (one, other) in enumerate(zip(old[name].split(b"\n"), new[name].split(b"\n")), 1)
            if one != other}


def at(finding):
    return finding["file"], finding["line"]


def services(findings):
    """The services that meet findings, or `None` where not all are named."""
    named = set()
    for one in findings:
        if one["service_count"] > 2:
            return None
        named.update(one["services"])
    return named


def key(finding):
    return finding["number"], *at(finding), finding["type"], finding["service"]


def is_fault(finding):
    return finding["number"].startswith("E")


def judge(lines, before, after):
    """What is wrong with the findings after a patch that changed these lines, or `None`."""
    for line in lines:
        was, now = ([one for one in findings if at(one) == line] for findings in (before, after))
        if any(map(is_fault, now)):
            return "a mended line has a fault: %s" % (line,)
        words = [sum(one["number"] in MENDED for one in findings) for findings in (was, now)]
        if not any(map(is_fault, was)) and words[1] >= words[0]:
            return "a finding at %s is left" % (line,)
    faults = [{key(one) for one in findings if is_fault(one)} for findings in (before, after)]
    if faults[1] - faults[0]:
        return "new faults: %s" % (faults[1] - faults[0])
    touched = services(one for one in before if at(one) in lines)
    for one, others in [(one, after) for one in before] + [(one, before) for one in after]:
        own = services([one])
        is_apart = touched is not None and own and not own & touched and at(one) not in lines
        if is_apart and key(one) not in map(key, others):
            return "a finding of a service that reads no mended line comes or goes: %s" % one
    return None


def of_host(program, words, tree):
    """The number of lines that the patch of a host changes."""
    program.hold(tree)
    got = program.run([*words, "--format", "patch"])
    before, status = found(program, words)
    if got.status != status or got.stderr and got.stdout:
        raise Difference("%s --format patch ends with %d, and as JSON with %d" % (" ".join(words), got.status, status))
    if not got.stdout:
        return 0
    old, made = contents("."), [applied(tool, tree, got.stdout) for tool in TOOLS]
    os.chdir("patch")
    after, _ = found(program, words)
    os.chdir("..")
    lines = changed_lines({name: old[name] for name in made[0]}, made[0])
    wrong = "patch and git make other files" if made[0] != made[1] else judge(lines, before, after)
    if wrong:
        raise Difference("%s\nwords: %s\ntree: %r\npatch: %s" % (wrong, " ".join(words), tree, shown(got.stdout)))
    for tool in TOOLS:
        shutil.rmtree(tool)
    return len(lines)


def run(program, count):
    """How many hosts were checked, and how many lines were mended."""
    missing = [tool for tool in TOOLS if shutil.which(tool) is None]
    if missing:
        return 0, "%s is not there" % " and ".join(missing)
    mended = 0
    for words, tree in hosts.cases(count):
        mended += of_host(program, [word for word in words if word != "--json"], tree)
    return count, "%d lines mended" % mended
