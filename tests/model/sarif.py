"""What `check` prints as SARIF, read plainly from `docs/SARIF.md`."""
import json
from urllib.parse import quote

from model import explained, host, json_lines

SCHEMA = "https://json.schemastore.org/sarif-2.1.0.json"


def rule(row):
    """What a number means."""
    return {"id": row.number, "name": row.name, "shortDescription": {"text": row.meaning},
            "fullDescription": {"text": "%s\nLinux-PAM: %s" % (row.meaning, row.linux_pam)}, "help": {"text": "To mend it: " + row.mending}}


def region(at, column, length):
    """A line, and the columns of the word in it that is meant, if one is."""
    return {"startLine": at} if column is None else {"startLine": at, "startColumn": column, "endColumn": column + length}


def place(path, spot):
    """A file, and what is meant in it if that is not all of it."""
    scheme = "file://" if path.startswith(b"/") else ""
    meant = {"region": region(*spot)} if spot[0] else {}
    return {"physicalLocation": {"artifactLocation": {"uri": scheme + quote(path, safe="/")}, **meant}}


def result(path, spot, level, name, sentence, *_):
    return {"ruleId": json_lines.text(name).split(" ")[0], "level": json_lines.text(host.LEVELS[level]),
            "message": {"text": json_lines.text(sentence)}, "locations": [place(path, spot)]}


def check(version, *checked):
    """The document of a host, by a program of this version."""
    results = [result(*one) for one in json_lines.findings(*checked)]
    numbers = {one["ruleId"] for one in results}
    driver = {"name": "pamcheck", "version": version, "rules": [rule(row) for row in explained.explanations() if row.number in numbers]}
    document = {"$schema": SCHEMA, "version": "2.1.0", "runs": [{"tool": {"driver": driver}, "results": results}]}
    return json.dumps(document, ensure_ascii=False, separators=(",", ":")).encode() + b"\n"
