"""A root of a system that is dropped on the page, with files that are no service's; and what such a file is read as."""
import os

from page import visits

# Each table has a fault, and one module is not there.
FILES = {
    "etc/pam.d/login": ("auth required pam_unix.so\naccount required pam_access.so\naccount required pam_time.so\n"
                        "session required pam_gone.so\n"),
    "etc/pam.d/other": "".join("%s required pam_deny.so\n" % kind for kind in ("auth", "account", "password", "session")),
    "etc/security/access.conf": "+:root:LOCAL\n-:ALL\n",
    "etc/security/time.conf": "*;*;*;Mo0800\n",
    "etc/group": "wheel:x:10:root\nbad\n",
    "etc/passwd": "root:x:0:0::/root:/bin/sh\n",
    "usr/lib/x86_64-linux-gnu/security/pam_unix.so": "",
    "usr/lib/x86_64-linux-gnu/security/pam_access.so": "",
    "usr/lib/x86_64-linux-gnu/security/pam_time.so": "",
    "usr/lib/x86_64-linux-gnu/security/pam_deny.so": "",
    "usr/share/doc/readme": "nothing of PAM\n",
}
# What has to be on the page: names of files, and findings.
NAMES = ["login", "other", "etc/group", "etc/security/access.conf", "etc/security/time.conf", "usr/lib/security"]
FOUND = ["pam_gone.so", "etc/group:2", "etc/security/access.conf:2", "etc/security/time.conf:1"]
# An accept file, and facts of a module that nobody knows.
ACCEPT = "S5 login:4\n"
FACTS = "pam_gone passes session success\n"

LIST = "[...document.querySelectorAll('#names button')].map((it) => it.firstChild.textContent)"


def make(folder):
    for name, text in FILES.items():
        place = os.path.join(folder, name)
        os.makedirs(os.path.dirname(place), exist_ok=True)
        with open(place, "w", encoding="utf-8") as file:
            file.write(text)


def has(browser, names, found, what):
    visits.until(browser, "%s.join() === %r" % (LIST, ",".join(names)), "the files of %s" % what)
    visits.until(browser, "document.body.dataset.turn === document.body.dataset.asked", "the answers to %s" % what)
    text = visits.text_of(browser, "findings")
    for one in found:
        visits.expect(browser, one in text, "%s, a finding of %s" % (one, what))


def new_file(browser, name, text, role):
    """A file that is made on the page, and read as something else than a service's."""
    browser.value("(() => { %s.click(); return true; })()" % visits.at("add"))
    submit = "document.getElementById('naming').requestSubmit()"
    visits.act(browser, "%s; %s" % (visits.put("name", name, "input"), submit), "a new file")
    visits.act(browser, visits.put("text", text, "input"), "the text of a new file")
    visits.act(browser, visits.put("role", role, "change"), "a file that is read as something else")


def visit(browser, scratch):
    """Returns what was done."""
    make(scratch)
    browser.drop_folder(scratch)
    has(browser, NAMES, FOUND, "a root that is dropped")
    new_file(browser, "meant", ACCEPT, "accept")
    visits.expect(browser, "pam_gone.so" not in visits.text_of(browser, "findings"), "that a finding is accepted")
    visits.act(browser, visits.put("role", "none", "change"), "a file that is read no more")
    visits.expect(browser, "pam_gone.so" in visits.text_of(browser, "findings"), "the finding that is accepted no more")
    new_file(browser, "known", FACTS, "facts")
    done = ["a root was dropped", "files were read as accepted findings and as facts"]
    if browser.choose_folder("choose-folder", os.path.join(scratch, "etc")):
        has(browser, NAMES[:-1], FOUND[1:], "a folder that is chosen")
        done.append("a folder was chosen")
    browser.drop_folder(os.path.join(scratch, "etc", "pam.d"))
    has(browser, NAMES[:2], [], "a folder pam.d that is dropped")
    return done
