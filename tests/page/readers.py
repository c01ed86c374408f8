"""What a screen reader is told of the page, and the way through it by keys."""
from page import visits

# The roles of what somebody can do something with.
CONTROLS = {"button", "combobox", "textbox", "searchbox", "checkbox", "link", "listbox", "DisclosureTriangle"}
# The first places of the focus, each by the name of its element.
FIRST = ["skip", "example", "choose", "choose-folder", "share"]


def of_role(heard, role):
    return [one for one in heard if one[0] == role]


def named(heard, role, name):
    return [one for one in of_role(heard, role) if one[1] == name]


def tree(browser, heard):
    """Asserts of what is told while the first example is open at a file with findings."""
    for role, name, _, values in heard:
        if role in CONTROLS or values.get("focusable"):
            visits.expect(browser, name or role == "RootWebArea", "a name of a %s with %s" % (role, values))
    editor = [one for one in of_role(heard, "textbox") if one[1].startswith("Text of the file")]
    visits.expect(browser, len(editor) == 1, "one editor")
    visits.expect(browser, "2 findings, in lines 1, 2" in editor[0][2], "that the editor tells of its findings: %s" % editor[0][2])
    for name in ("Findings", "What has to hold", "What your edit changes"):
        visits.expect(browser, named(heard, "list", name), "a list %s" % name)
    visits.expect(browser, len(of_role(heard, "listitem")) >= 6, "the findings as items")
    visits.expect(browser, named(heard, "navigation", "Files of the configuration"), "the files as a way through the page")
    for name in ("What each module answers", "What the stack then decides"):
        visits.expect(browser, named(heard, "table", name), "a table %s" % name)
    visits.expect(browser, len(of_role(heard, "status")) == 1, "one place that is read aloud when it changes")
    visits.expect(browser, [one for one in of_role(heard, "image") if one[1].startswith("The runs of")], "what the picture shows, in words")
    visits.expect(browser, named(heard, "heading", "Findings"), "the headings")


def keys(browser):
    """The order of the focus on a page that was just loaded, and what keys do."""
    for name in FIRST:
        browser.press("Tab")
        visits.expect(browser, browser.value("document.activeElement.id") == name, "the focus on %s" % name)
    browser.value("(() => { %s.click(); return true; })()" % visits.at("skip"))
    visits.expect(browser, browser.value("document.activeElement.id") == "text", "the focus in the editor")
    browser.press("F8")
    told = browser.value("document.getElementById('told').textContent")
    visits.expect(browser, told.startswith("Line "), "what F8 tells: %s" % told)
    visits.expect(browser, browser.value("document.getElementById('text').selectionEnd > 0"), "a word that F8 selects")


def focus_stays(browser):
    """A choice leaves the focus where it is, though all is asked anew after it."""
    visits.act(browser, visits.put("example", "A login with LDAP", "change"), "an example")
    visits.until(browser, "document.querySelectorAll('#modules select').length > 1", "the modules")
    choose = ("const it = document.querySelector('#modules select'); it.focus(); it.value = 'ignore'; "
              "it.dispatchEvent(new Event('change'));")
    browser.value("(() => { %s return true; })()" % choose)
    visits.until(browser, visits.at("state") + ".textContent !== 'Working'", "the answers")
    browser.value("new Promise((done) => setTimeout(() => done(true), 500))")
    visits.expect(browser, browser.value("document.activeElement.matches('#modules select')"), "the focus on the answer that was chosen")
    open_other = "const it = [...document.querySelectorAll('#names button')].at(-1); it.focus(); it.click();"
    browser.value("(() => { %s return true; })()" % open_other)
    is_there = browser.value("document.activeElement.matches('#names button[aria-current=true]')")
    visits.expect(browser, is_there, "the focus on the file that was opened")


def visit(browser, address):
    """Returns what was done."""
    browser.go("about:blank")
    browser.go(address)
    visits.until(browser, "document.body && document.body.dataset.turn === '1'", "the first answers")
    keys(browser)
    browser.value("(() => { %s; return true; })()" % visits.choose_file("sshd"))
    visits.until(browser, "document.querySelector('#picture img') !== null", "the picture")
    heard = browser.heard()
    if heard is not None:
        tree(browser, heard)
    focus_stays(browser)
    return ["what a screen reader is told was asserted"] if heard is not None else []
