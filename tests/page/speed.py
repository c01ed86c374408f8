"""How long a page takes to load, and how long after a key the line under a wrong word is there. Nothing fails by it, since a machine may be
busy."""
import json
import os
import random
import sys
import time

sys.path.insert(0, os.path.join(os.path.dirname(os.path.realpath(__file__)), "..", "..", "benches"))
from run import HOST_COMMON, SERVICE

from page import visits

SERVICES = 40
KEYS = 60
LOADS = 20

# Puts the milliseconds from each key to the change of the lines that it leads to, and to the picture with it, into `seen`. A key makes a
# word wrong or right again, so that each change of `.error` is one answer.
WATCH = """
window.seen = [];
const marks = document.getElementById('marks'), area = document.getElementById('text');
let pressed = 0, wasWrong = false;
area.addEventListener('keydown', (event) => { pressed = event.timeStamp; }, true);
new MutationObserver(() => {
  const isWrong = marks.querySelector('.error') !== null;
  if (isWrong === wasWrong || pressed === 0) return;
  wasWrong = isWrong;
  const began = pressed, changed = performance.now() - began;
  pressed = 0;
  requestAnimationFrame(() => {
    const channel = new MessageChannel();
    channel.port1.onmessage = () => window.seen.push([changed, performance.now() - began]);
    channel.port2.postMessage(0);
  });
}).observe(marks, { childList: true, subtree: true });
"""


def host():
    """The host of `benches` with this number of files."""
    names = {**HOST_COMMON, **{"service%d" % number: SERVICE for number in range(SERVICES - len(HOST_COMMON))}}
    return [[name, data.decode()] for name, data in sorted(names.items())]


def shares(times):
    """The median, and what 95 in 100 do not pass."""
    ordered = sorted(times)
    return ordered[len(ordered) // 2], ordered[len(ordered) * 95 // 100]


def keys(browser, name="common-auth", number=KEYS):
    """For each of some keys the milliseconds until the lines have changed, and until they are seen."""
    visits.act(browser, visits.drop(json.dumps(host())), "a host of %d services" % SERVICES)
    word = "document.getElementById('text').value.indexOf('requisite') + 'requisite'.length"
    focus = "const it = document.getElementById('text'); it.focus(); const at = %s; it.setSelectionRange(at, at)" % word
    browser.value("(() => { %s; %s; %s; return true; })()" % (visits.choose_file(name), focus, WATCH))
    for count in range(number):
        browser.press("x" if count % 2 == 0 else "Backspace")
        visits.until(browser, "window.seen.length > %d" % count, "the answer after a key")
        time.sleep(random.uniform(0.2, 0.5))
    return browser.value("window.seen")


def loads(browser, address, number=LOADS):
    """For each of some visits the milliseconds from its beginning until the library is there, and until the first answer is seen."""
    found = []
    for _ in range(number):
        browser.go("about:blank")
        browser.go(address)
        visits.until(browser, "document.body && document.body.dataset.turn === '1'", "the first answers")
        found.append([float(browser.value("document.body.dataset." + name)) for name in ("loaded", "first")])
    return found


def told(times):
    changes, sights = zip(*times)
    return [("from a key until the lines are others", changes), ("from a key until these are seen", sights)]


def told_loads(found):
    libraries, findings = zip(*found)
    return [("from a visit until the library is there", libraries), ("from a visit until the first findings", findings)]
