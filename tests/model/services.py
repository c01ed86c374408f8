"""Services and candidates that the words name, read plainly from `docs/SPECIFICATION.md`: a name that is no service is refused (U18), so
is a check of a root without a configuration, and so is the name of a candidate whose file no service that is checked reads (U19)."""

from model import faults, host, spelling, stacks
from model.faults import Fault, LineFault


NO_CONFIGURATION = b": there is none of etc/pam.d, usr/lib/pam.d and etc/pam.conf below %s; write the root folder of a system"


def of_rules(data):
    """The services of the rules of pam.conf, each once, or `None` where it has a fault, which may hide one."""
    if len(data) > faults.MOST_BYTES or b"\0" in data:
        return None
    try:
        rules = [stacks.rule_of(stacks.SINGLE, number, line) for number, line in stacks.logical_lines(data)]
    except LineFault:
        return None
    return list(dict.fromkeys(rule.service for rule in rules if rule))


def names(files):
    """The names of services: those of the files of a folder, or of the rules of pam.conf; `None` if any name may be one."""
    if files.form == stacks.DIR:
        return list(files.files)
    return of_rules(files.files.get(b"pam.conf", b""))


def hint(near):
    """What is said of the nearest name, if there is one."""
    return b"" if near is None else b'; did you mean "%s"?' % near


def place(options, form):
    """Where there is no file or rule."""
    if b"--root" in options:
        return b"etc/pam.d" if form == stacks.DIR else b"etc/pam.conf"
    return b" or ".join(options[name] for name in (b"--dir", b"--vendor-dir", b"--conf") if name in options)


def judge_root(files, options):
    """Refuses a root that has no configuration."""
    if files.form == stacks.SINGLE and not files.files:
        raise Fault("U18", said=host.shown(NO_CONFIGURATION % options[b"--root"]))


def judge(files, named, options, dead=()):
    """Refuses the first of the names that is no service of the configuration. It may be the name of one of these links that lead nowhere."""
    there = names(files)
    for name in named if there is not None else []:
        if name.lower() not in there:
            judge_root(files, options)
            if name.lower() in dead:
                raise Fault("U18", said=host.shown(b": " + spelling.DEAD_LINK % (b'"%s"' % name, b"")))
            what = b"file" if files.form == stacks.DIR else b"rule of"
            said = b': there is no %s "%s" in %s' % (what, name, place(options, files.form))
            raise Fault("U18", said=host.shown(said + hint(spelling.nearest(there, name.lower()))))


def judge_sides(old, new, name, sides):
    """Refuses a name that is no service of either side of a comparison, as these are named."""
    there = [names(files) for files in (old, new)]
    if None in there or any(name.lower() in one for one in there):
        return
    near = next((found for found in (spelling.nearest(one, name.lower()) for one in reversed(there)) if found is not None), None)
    said = b': neither %s nor %s has a service "%s"' % (*sides, name)
    raise Fault("U18", said=host.shown(said + hint(near)))


def left(checked, shut):
    """The services of a host no stack of which takes rules from one of these files."""
    return [service for service in checked.services
            if not any(file in shut for kind in stacks.KINDS for file in checked.survey(service, kind)[2])]


def judge_candidates(checked, names):
    """Refuses the first of the names whose file is read for none of the services of a host, where no fault may hide that it is."""
    surveys = [checked.survey(service, kind) for service in [*checked.services, b"other"] for kind in stacks.KINDS]
    faulty = [reached for _, faults, reached in surveys if reached and (faults or any(checked.read[file][1] for file in reached))]
    read = {file for _, _, reached in surveys for file in reached}
    for name in names if not faulty else []:
        if name not in read:
            near = spelling.nearest([other for other in checked.data if other != name], name.lower())
            raise Fault("U19", said=host.shown(b': no service that is checked reads "%s"' % name + hint(near)))
