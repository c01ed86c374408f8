"""What a person does on the page, and what has to be seen then. Only what stands on the page is used, and no name of its script."""
import json
import time

SECONDS = 300
MARKUP = "<img src=x onerror=window.hit=1><script>window.hit=1</script>"


# 10,000 files.
MANY = "Array.from({ length: 10000 }, (_, at) => [`s${at}`, 'auth required pam_deny.so\\n'])"


class Unseen(Exception):
    """What had to be seen and was not."""


def expect(browser, found, what):
    if not found:
        raise Unseen("%s: not seen: %s" % (browser.name, what))


def wait(found, what):
    end = time.monotonic() + SECONDS
    while not found():
        if time.monotonic() > end:
            raise Unseen("not seen: %s" % what)
        time.sleep(0.02)


def until(browser, expression, what):
    wait(lambda: browser.value(expression), "%s: %s" % (browser.name, what))


def at(name):
    return "document.getElementById(%s)" % json.dumps(name)


def text_of(browser, name):
    return browser.value(at(name) + ".textContent")


def turn_of(browser):
    return int(browser.value("document.body.dataset.turn || 0"))


def act(browser, script, what):
    """Does something that lets all be asked anew, and waits for the answers."""
    before = turn_of(browser)
    browser.value("(() => { %s; return true; })()" % script)
    until(browser, "Number(document.body.dataset.turn) > %d && document.body.dataset.turn === document.body.dataset.asked" % before, what)


def put(name, value, event):
    """Gives an element of the page a value, as a person does."""
    return "{ const it = %s; it.value = %s; it.dispatchEvent(new Event(%s)); }" % (at(name), json.dumps(value), json.dumps(event))


def choose_file(name):
    return "[...document.querySelectorAll('#names button')].find((it) => it.firstChild.textContent === %s).click()" % json.dumps(name)


def drop(files):
    """Drops files, given by an expression for a list of pairs of a name and contents."""
    return ("const transfer = new DataTransfer(); for (const [name, contents] of %s) transfer.items.add(new File([contents], name)); "
            "window.dispatchEvent(new DragEvent('drop', { dataTransfer: transfer, cancelable: true }))" % files)


def first_sight(browser, address, pictures):
    browser.size(1400, 900, "light")
    browser.go(address)
    until(browser, "document.body && document.body.dataset.turn === '1'", "the first answers")
    expect(browser, "2 errors" in text_of(browser, "summary"), "the mistakes of the first example")
    browser.picture("%s/%s-first.png" % (pictures, browser.name))


def edit(browser):
    """A mistake that is typed and mended."""
    browser.value("(() => { %s; return true; })()" % choose_file("login"))
    act(browser, put("text", "auth requird pam_unix.so\naccount required pam_unix.so\n", "input"), "a mistake that is typed")
    expect(browser, "BadControl" in text_of(browser, "findings"), "the mistake as a finding")
    expect(browser, browser.value("document.querySelector('#marks .error').textContent") == "requird", "the wrong word, underlined")
    act(browser, put("text", "auth required pam_unix.so\naccount required pam_unix.so\n", "input"), "the mistake mended")
    expect(browser, browser.value("document.querySelector('#marks .error') === null"), "no line under the mended word")
    expect(browser, "changed" in text_of(browser, "compared"), "what the edit changes")


def switch(browser, pictures):
    """A stack, one of whose modules answers otherwise, and a policy."""
    browser.value("(() => { %s return true; })()" % put("service", "login", "change"))
    until(browser, "document.querySelectorAll('#modules select').length === 1", "the module of the stack")
    choice = "const it = document.querySelector('#modules select'); it.value = 'auth_err'; it.dispatchEvent(new Event('change'));"
    browser.value("(() => { %s return true; })()" % choice)
    until(browser, at("outcomes") + ".tBodies[0].textContent.startsWith('auth_err')", "the decision after an answer is switched")
    until(browser, "(document.querySelector('#picture img') || {}).naturalWidth > 0", "the picture")
    browser.value("(() => { %s return true; })()" % put("policy", "login auth needs pam_u2f", "input"))
    until(browser, at("rules") + ".textContent.startsWith('broken')", "a policy that does not hold")
    browser.picture("%s/%s-switched.png" % (pictures, browser.name))


def needs(browser):
    """Of a library that has the command, what it says holds today does, by the proofs of the policy beside it."""
    if browser.value(at("needs") + ".hidden"):
        return
    act(browser, put("example", "A login with LDAP", "change"), "an example whose rules are asked for")
    browser.value("(() => { %s.click(); return true; })()" % at("needs"))
    until(browser, "document.querySelector('#rules li') !== null", "the rules that hold today")
    verdicts = browser.value("[...document.querySelectorAll('#rules .level')].map((it) => it.textContent).join()")
    expect(browser, set(verdicts.split(",")) == {"holds"}, "rules that hold: %s" % verdicts)


def share(browser):
    browser.value("(() => { %s.click(); return true; })()" % at("share"))
    until(browser, "location.hash.length > 1", "the link")
    link = browser.value("location.href")
    browser.go("about:blank")
    browser.go(link)
    until(browser, "document.body && document.body.dataset.turn === '1'", "the files of the link")
    browser.value("(() => { %s; return true; })()" % choose_file("login"))
    text = browser.value(at("text") + ".value")
    expect(browser, text == "auth required pam_unix.so\naccount required pam_unix.so\n", "the text from the link")
    expect(browser, browser.value(at("policy") + ".value") == "login auth needs pam_u2f", "the policy from the link")


def hostile(browser):
    """Files that would do harm if the page took their text for more than text, or that are much."""
    name, text = json.dumps(MARKUP.replace("/", ":")), json.dumps('%s "%s"\n' % (MARKUP, MARKUP))
    act(browser, drop("[[%s, %s], ['sshd', %s]]" % (name, text, json.dumps("auth required " + MARKUP))), "files of markup")
    made = browser.value("window.hit === undefined && document.querySelector('main script, main img[src=x]') === null")
    expect(browser, made, "markup as text")
    act(browser, drop("[['sshd', new Uint8Array([97, 117, 116, 104, 32, 255, 0, 10])]]"), "bytes that are no text")
    expect(browser, "NulByte" in text_of(browser, "findings"), "the NUL byte as a finding")
    act(browser, drop("[['sshd', 'auth required '.padEnd(1 << 20, 'x')]]"), "a line of 1 MiB")
    act(browser, drop(MANY), "10,000 files")
    expect(browser, "10000 services" in text_of(browser, "summary"), "the summary of 10,000 services")
    act(browser, put("example", "A host with five mistakes", "change"), "the example after them")
    expect(browser, "2 errors" in text_of(browser, "summary"), "the mistakes of the example again")


def stop(browser):
    """An answer that takes long is stopped, and the page goes on."""
    browser.value("(() => { %s; return true; })()" % drop(MANY))
    until(browser, "!%s.hidden" % at("stop"), "the button that stops an answer")
    browser.value("(() => { %s.click(); return true; })()" % at("stop"))
    until(browser, "%s.textContent === 'Stopped'" % at("state"), "that the answer is stopped")
    act(browser, put("example", "A host with five mistakes", "change"), "the example after an answer that was stopped")
    expect(browser, "2 errors" in text_of(browser, "summary"), "the mistakes of the example after an answer that was stopped")


def visit(browser, address, pictures):
    """One visit, with pictures of it."""
    first_sight(browser, address, pictures)
    edit(browser)
    switch(browser, pictures)
    share(browser)
    hostile(browser)
    stop(browser)
    needs(browser)
    browser.size(400, 800, "dark")
    act(browser, put("example", "A login with LDAP", "change"), "an example on a narrow window")
    expect(browser, browser.value("document.documentElement.scrollWidth <= innerWidth"), "a page no wider than the window")
    browser.picture("%s/%s-narrow.png" % (pictures, browser.name))
    browser.size(1400, 900, "light")
