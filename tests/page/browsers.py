"""Chromium and Firefox without a window, as far as the tests of the page need them."""
import base64
import json
import os
import shutil
import socket
import subprocess
import tempfile
import time

from page.events import Listener

# The most seconds until a browser answers.
SECONDS = 300

# Keys that are no letters: for Chromium by their numbers, and for Firefox by the characters of WebDriver.
KEY_NUMBERS = {"Backspace": 8, "Tab": 9, "F8": 119}
KEY_CODES = {"Backspace": "\ue003", "Tab": "\ue004", "F8": "\ue038"}

# For Firefox: a drag of a folder of the system, and its drop on the page.
DROP = """
const folder = Cc['@mozilla.org/file/local;1'].createInstance(Ci.nsIFile);
folder.initWithPath(path);
const dragged = new DataTransfer();
dragged.mozSetDataAt('application/x-moz-file', folder, 0);
const drags = Cc['@mozilla.org/widget/dragservice;1'].getService(Ci.nsIDragService);
drags.startDragSessionForTests(window, Ci.nsIDragService.DRAGDROP_ACTION_COPY);
const drag = drags.getCurrentSession(window);
drag.dataTransfer = dragged;
const drop = new DragEvent('drop', { cancelable: true, bubbles: true, composed: true, clientX: 300, clientY: 300 });
window.windowUtils.dispatchDOMEventViaPresShellForTesting(document.body, drop);
drag.endDragSession(true, 0);
"""


class Chromium:
    """Chromium, by the pipes of its devtools protocol. `requests` are the addresses that it asked for."""

    name = "chromium"

    def __init__(self, program):
        self.profile = tempfile.mkdtemp(prefix="page-chromium-")
        to_browser, self.to = os.pipe()
        self.back, from_browser = os.pipe()
        words = [program, "--headless=new", "--no-sandbox", "--disable-gpu", "--no-first-run", "--user-data-dir=" + self.profile,
                 "--remote-debugging-pipe", "about:blank"]
        # The browser reads its commands from the file 3, and writes to the file 4.
        shell = 'exec "$@" 3<&%d 4>&%d' % (to_browser, from_browser)
        self.process = subprocess.Popen(["bash", "-c", shell, "", *words], pass_fds=(to_browser, from_browser), stdout=subprocess.DEVNULL,
                                        stderr=subprocess.DEVNULL)
        os.close(to_browser)
        os.close(from_browser)
        self.asked, self.read, self.session, self.requests, self.said = 0, b"", None, [], []
        target = self.send("Target.createTarget", url="about:blank")["targetId"]
        self.session = self.send("Target.attachToTarget", targetId=target, flatten=True)["sessionId"]
        for domain in ("Page", "Runtime", "Network", "Log"):
            self.send(domain + ".enable")

    def send(self, method, **values):
        self.asked += 1
        message = {"id": self.asked, "method": method, "params": values}
        if self.session:
            message["sessionId"] = self.session
        os.write(self.to, json.dumps(message).encode() + b"\0")
        while True:
            said = self.receive()
            if said.get("id") == self.asked:
                if "error" in said:
                    raise RuntimeError(said["error"]["message"])
                return said["result"]

    def receive(self):
        while b"\0" not in self.read:
            part = os.read(self.back, 1 << 20)
            if not part:
                raise RuntimeError("chromium ended")
            self.read += part
        one, _, self.read = self.read.partition(b"\0")
        said = json.loads(one)
        values = said.get("params", {})
        if said.get("method") == "Network.requestWillBeSent":
            self.requests.append(values["request"]["url"])
        elif said.get("method") == "Runtime.exceptionThrown":
            self.said.append(values["exceptionDetails"].get("exception", {}).get("description", "an exception"))
        elif said.get("method") == "Log.entryAdded":
            self.said.append(values["entry"]["text"])
        return said

    def size(self, width, height, scheme):
        self.send("Emulation.setDeviceMetricsOverride", width=width, height=height, deviceScaleFactor=1, mobile=False)
        self.send("Emulation.setEmulatedMedia", features=[{"name": "prefers-color-scheme", "value": scheme}])

    def go(self, address):
        self.send("Page.navigate", url=address)

    def value(self, expression):
        said = self.send("Runtime.evaluate", expression=expression, awaitPromise=True, returnByValue=True)
        if "exceptionDetails" in said:
            raise RuntimeError(said["exceptionDetails"].get("exception", {}).get("description", "an exception"))
        return said["result"].get("value")

    def drop_folder(self, path):
        """A folder that is dragged from the system and dropped on the page."""
        data = {"items": [], "files": [path], "dragOperationsMask": 1}
        for kind in ("dragEnter", "dragOver", "drop"):
            self.send("Input.dispatchDragEvent", type=kind, x=300, y=300, data=data)

    def choose_folder(self, name, path):
        """A folder that is chosen for the element of this name. Returns whether this browser can be told to."""
        top = self.send("DOM.getDocument")["root"]["nodeId"]
        node = self.send("DOM.querySelector", nodeId=top, selector="#" + name)["nodeId"]
        self.send("DOM.setFileInputFiles", nodeId=node, files=[path])
        return True

    def heard(self):
        """What the browser tells a screen reader: of each thing that is not passed over, its role, its name, its description, and its
        properties. None where it cannot be asked."""
        found = []
        for node in self.send("Accessibility.getFullAXTree")["nodes"]:
            if not node.get("ignored"):
                role, name, told = (node.get(part, {}).get("value", "") for part in ("role", "name", "description"))
                found.append((role, name, told, {it["name"]: it["value"].get("value") for it in node.get("properties", [])}))
        return found

    def press(self, key):
        """A key that is pressed and let go: a letter, or `Backspace`, `Tab` or another by its name."""
        text = {"text": key} if len(key) == 1 else {"windowsVirtualKeyCode": KEY_NUMBERS[key]}
        self.send("Input.dispatchKeyEvent", type="keyDown", key=key, **text)
        self.send("Input.dispatchKeyEvent", type="keyUp", key=key)

    def picture(self, path):
        width, height = self.value("[innerWidth, document.documentElement.scrollHeight]")
        clip = {"x": 0, "y": 0, "width": width, "height": height, "scale": 1}
        data = self.send("Page.captureScreenshot", captureBeyondViewport=True, clip=clip)["data"]
        with open(path, "wb") as file:
            file.write(base64.b64decode(data))

    def end(self):
        self.process.kill()
        self.process.wait()
        shutil.rmtree(self.profile, ignore_errors=True)


def free_port():
    with socket.socket() as free:
        free.bind(("127.0.0.1", 0))
        return free.getsockname()[1]


class Firefox:
    """Firefox, by its protocol Marionette. `requests` are the addresses that it asked for, which WebDriver BiDi tells."""

    name = "firefox"

    def __init__(self, program):
        self.profile = tempfile.mkdtemp(prefix="page-firefox-")
        port, told = free_port(), free_port()
        with open(os.path.join(self.profile, "user.js"), "w", encoding="utf-8") as file:
            # Without the last one, a page is given no folder but by a window in which a person chooses it.
            file.write('user_pref("marionette.port", %d);\nuser_pref("datareporting.policy.dataSubmissionEnabled", false);\n'
                       'user_pref("dom.filesystem.pathcheck.disabled", true);\n' % port)
        words = [program, "--headless", "--marionette", "--remote-debugging-port", str(told), "--no-remote", "--profile", self.profile]
        self.process = subprocess.Popen(words, stdout=subprocess.DEVNULL, stderr=subprocess.DEVNULL)
        self.read, self.asked, self.said, self.requests = b"", 0, [], []
        self.stream = self.connect(port)
        self.message()
        capabilities = self.send("WebDriver:NewSession", webSocketUrl=True)["capabilities"]
        self.send("WebDriver:SetTimeouts", script=60000)
        Listener(capabilities["webSocketUrl"], self.told).begin("network.beforeRequestSent", "log.entryAdded")

    def told(self, event):
        values = event["params"]
        if event["method"] == "network.beforeRequestSent":
            self.requests.append(values["request"]["url"])
        elif event["method"] == "log.entryAdded" and values["level"] == "error":
            self.said.append(values["text"])

    def connect(self, port):
        for _ in range(SECONDS * 10):
            try:
                return socket.create_connection(("127.0.0.1", port), SECONDS)
            except OSError:
                time.sleep(0.1)
        raise RuntimeError("firefox does not answer")

    def message(self):
        while b":" not in self.read:
            self.read += self.stream.recv(1 << 16)
        size, _, rest = self.read.partition(b":")
        while len(rest) < int(size):
            rest += self.stream.recv(1 << 20)
        self.read = rest[int(size):]
        return json.loads(rest[:int(size)])

    def send(self, method, **values):
        self.asked += 1
        data = json.dumps([0, self.asked, method, values]).encode()
        self.stream.sendall(b"%d:%s" % (len(data), data))
        _, _, error, result = self.message()
        if error:
            raise RuntimeError(error["message"])
        return result

    def size(self, width, height, scheme):
        self.send("WebDriver:SetWindowRect", width=width, height=height)

    def go(self, address):
        self.send("WebDriver:Navigate", url=address)

    def value(self, expression):
        script = ("const [text, done] = arguments; "
                  "(async () => (%s))().then((value) => done([value]), (error) => done([null, String(error)]));" % expression)
        found = self.send("WebDriver:ExecuteAsyncScript", script=script, args=[""], sandbox=None)["value"]
        if len(found) > 1 and found[1]:
            raise RuntimeError(found[1])
        return found[0]

    def drop_folder(self, path):
        script = "(([path]) => { %s })(arguments)" % DROP
        self.send("WebDriver:ExecuteScript", script=script, args=[path], sandbox="system")

    def choose_folder(self, name, path):
        return False

    def heard(self):
        return None

    def press(self, key):
        value = key if len(key) == 1 else KEY_CODES[key]
        strokes = [{"type": kind, "value": value} for kind in ("keyDown", "keyUp")]
        self.send("WebDriver:PerformActions", actions=[{"type": "key", "id": "keys", "actions": strokes}])

    def picture(self, path):
        data = self.send("WebDriver:TakeScreenshot", full=True)["value"]
        with open(path, "wb") as file:
            file.write(base64.b64decode(data))

    def end(self):
        self.process.kill()
        self.process.wait()
        shutil.rmtree(self.profile, ignore_errors=True)


def installed():
    """The browsers of this machine: what starts each."""
    for names, kind in ((("chromium",), Chromium), (("firefox-esr", "firefox"), Firefox)):
        program = next(filter(None, map(shutil.which, names)), None)
        if program:
            yield lambda kind=kind, program=program: kind(program)
