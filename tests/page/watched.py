"""What the page asks for, as a server sees it and as the browser tells it."""
import http.server
import os
import re
import threading

from page import visits

PAGE, CONTROL = "/pamcheck.html", "/control.html"
ASKING = '<!doctype html><title>control</title><link rel="icon" href="data:,"><img src="/seen.png" alt=""><script>fetch("/asked")</script>'
# What the page makes of itself, or has in itself.
OWN = ("blob:", "data:", "about:")


class Server:
    """A server on this machine that gives the page with its policy as a header, and remembers what it was asked for."""

    def __init__(self, page):
        with open(page, encoding="utf-8") as file:
            text = file.read()
        policy = re.search('http-equiv="Content-Security-Policy" content="([^"]*)"', text)[1] + "; frame-ancestors 'none'"
        pages = {PAGE: (text, policy), CONTROL: (ASKING, "default-src 'self' data: 'unsafe-inline'")}
        asked = self.asked = []

        class Handler(http.server.BaseHTTPRequestHandler):
            def do_GET(self):
                asked.append(self.path)
                text, rule = pages.get(self.path, ("", "default-src 'none'"))
                self.send_response(200 if text else 404)
                self.send_header("Content-Type", "text/html; charset=utf-8")
                self.send_header("Content-Security-Policy", rule)
                self.end_headers()
                self.wfile.write(text.encode())

            def log_message(self, *_):
                pass

        self.server = http.server.ThreadingHTTPServer(("127.0.0.1", 0), Handler)
        self.address = "http://127.0.0.1:%d" % self.server.server_port
        threading.Thread(target=self.server.serve_forever, daemon=True).start()

    def end(self):
        self.server.shutdown()
        self.server.server_close()


def others(browser, *addresses):
    """What the browser asked for besides these addresses, and what the page has in itself."""
    return [url for url in browser.requests if not url.startswith(OWN) and url.split("#")[0] not in addresses]


def is_watched(browser, server):
    """Asserts that a request which a page makes is seen, by the browser and by the server."""
    browser.go(server.address + CONTROL)
    for path in ("/seen.png", "/asked"):
        # Chromium tells while it answers.
        visits.wait(lambda path=path: browser.value("true") and path in server.asked and server.address + path in browser.requests,
                    "%s: that %s is asked for" % (browser.name, path))
    for seen in (browser.requests, browser.said, server.asked):
        seen.clear()


def visit(browser, page):
    """The page from a server. Asserts that it asks for nothing, even where its script is told to."""
    server = Server(page)
    try:
        is_watched(browser, server)
        browser.go(server.address + PAGE)
        visits.until(browser, "document.body && document.body.dataset.turn === '1'", "the first answers from a server")
        visits.edit(browser)
        visits.expect(browser, server.asked == [PAGE] and not others(browser, server.address + PAGE), "no request: %s" % server.asked)
        browser.said.clear()
        browser.value("fetch('/told').then(() => true, () => false)")
        browser.value("new Promise((done) => { const it = new Image(); it.onload = it.onerror = () => done(true); it.src = '/told.png'; })")
        visits.expect(browser, server.asked == [PAGE], "that the policy forbids what the script is told to ask for: %s" % server.asked)
        # The browser tells what it has forbidden.
        visits.wait(lambda: browser.value("true") and browser.said, "%s: the browser tells of what it forbids" % browser.name)
        browser.requests.clear()
        browser.said.clear()
    finally:
        server.end()
    return ["from a server it asked for itself alone, and its policy forbade more"]


def address_of(page):
    return "file://" + os.path.realpath(page)
