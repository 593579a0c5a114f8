"""Headless Chromium, driven by its driver over HTTP."""
import base64
import contextlib
import json
import shutil
import socket
import subprocess
import time
import urllib.error
import urllib.request

ARGUMENTS = ["--headless=new", "--no-sandbox", "--disable-gpu", "--disable-dev-shm-usage", "--hide-scrollbars", "--force-color-profile=srgb"]


class Stopped(Exception):
    """The browser could not do what was asked: a part of the page is not there."""


def at_hand():
    return bool(shutil.which("chromium") and shutil.which("chromedriver"))


def free_port():
    with socket.socket() as one:
        one.bind(("127.0.0.1", 0))
        return one.getsockname()[1]


class Browser:
    def __init__(self, port, downloads):
        self.port, self.at = port, ""
        options = {"args": ARGUMENTS, "prefs": {"download.default_directory": str(downloads)}}
        asked = {"browserName": "chrome", "goog:chromeOptions": options, "goog:loggingPrefs": {"browser": "ALL", "performance": "ALL"}, "timeouts": {"script": 300_000, "pageLoad": 120_000}}
        self.at = f"/session/{self.ask('POST', '/session', {'capabilities': {'alwaysMatch': asked}})['sessionId']}"
        self.command("Browser.setDownloadBehavior", behavior="allow", downloadPath=str(downloads))

    def ask(self, method, path, body=None):
        data = json.dumps(body or {}).encode() if method == "POST" else None
        request = urllib.request.Request(f"http://127.0.0.1:{self.port}{self.at}{path}", data=data, method=method, headers={"Content-Type": "application/json"})
        try:
            with urllib.request.urlopen(request, timeout=400) as reply:
                return json.load(reply)["value"]
        except urllib.error.HTTPError as error:
            raise Stopped(json.load(error)["value"]["message"].splitlines()[0]) from None

    def command(self, name, **words):
        return self.ask("POST", "/goog/cdp/execute", {"cmd": name, "params": words})

    def look(self, width=1280, height=900, scheme="light", scale=1, mobile=False):
        self.command("Emulation.setDeviceMetricsOverride", width=width, height=height, deviceScaleFactor=scale, mobile=mobile)
        self.command("Emulation.setEmulatedMedia", media="", features=[{"name": "prefers-color-scheme", "value": scheme}])

    def open(self, page, mark=""):
        self.ask("POST", "/url", {"url": "about:blank"})
        self.ask("POST", "/url", {"url": page.as_uri() + mark})
        self.ready()

    def run(self, script, *words):
        return self.ask("POST", "/execute/sync", {"script": script, "args": list(words)})

    def wait(self, script, *words):
        """Runs the body of an async function, whose words are in `words`: what it returns."""
        text = "const done = arguments[arguments.length - 1], words = [...arguments].slice(0, -1); (async () => {" + script + "})().then((left) => done({ left }), (error) => done({ error: String(error && error.stack || error) }));"
        got = self.ask("POST", "/execute/async", {"script": text, "args": list(words)})
        if "error" in got:
            raise Stopped(got["error"])
        return got.get("left")

    def settle(self):
        """Waits until the page is drawn."""
        self.wait("await new Promise((go) => requestAnimationFrame(() => requestAnimationFrame(() => setTimeout(go, 60))));")

    def ready(self):
        for _ in range(1200):
            if self.run("return document.documentElement.dataset.ready") == "yes":
                break
            time.sleep(0.05)
        else:
            raise Stopped("the page is not ready after a minute")
        self.settle()

    def element(self, css):
        return list(self.ask("POST", "/element", {"using": "css selector", "value": css}).values())[0]

    def keys(self, css, text):
        self.ask("POST", f"/element/{self.element(css)}/value", {"text": text})
        self.settle()

    def choose(self, path):
        """Opens a file as a person does."""
        self.run("document.documentElement.dataset.ready = ''")
        self.ask("POST", f"/element/{self.element('#file')}/value", {"text": str(path)})
        self.ready()

    def pointer(self, *steps):
        self.ask("POST", "/actions", {"actions": [{"type": "pointer", "id": "mouse", "parameters": {"pointerType": "mouse"}, "actions": list(steps)}]})
        self.settle()

    def place(self, css, across=0.5, down=0.5):
        """A point of an element, in the window."""
        box = self.run("const box = document.querySelector(arguments[0]).getBoundingClientRect(); return [box.left, box.top, box.width, box.height]", css)
        return int(box[0] + across * box[2]), int(box[1] + down * box[3])

    def hover(self, css, across=0.5, down=0.5):
        x, y = self.place(css, across, down)
        self.pointer({"type": "pointerMove", "x": x, "y": y, "duration": 0})

    def click(self, css, across=0.5, down=0.5):
        x, y = self.place(css, across, down)
        self.pointer({"type": "pointerMove", "x": x, "y": y, "duration": 0}, {"type": "pointerDown", "button": 0}, {"type": "pointerUp", "button": 0})

    def drag(self, css, right, down):
        x, y = self.place(css)
        self.pointer({"type": "pointerMove", "x": x, "y": y, "duration": 0}, {"type": "pointerDown", "button": 0}, {"type": "pointerMove", "x": x + right, "y": y + down, "duration": 60}, {"type": "pointerUp", "button": 0})

    def errors(self):
        """What the console has, but for the advice on reading canvases, which tests do."""
        told = self.ask("POST", "/se/log", {"type": "browser"})
        return [entry["message"] for entry in told if entry["level"] in ("SEVERE", "WARNING") and "willReadFrequently" not in entry["message"]]

    def requests(self):
        """What was asked of a network or the disk since the last look, but for pages that the test opened."""
        told = [json.loads(entry["message"])["message"] for entry in self.ask("POST", "/se/log", {"type": "performance"})]
        asked = [one["params"] for one in told if one["method"] == "Network.requestWillBeSent"]
        return [one["request"]["url"][:100] for one in asked if one.get("type") != "Document" and not one["request"]["url"].startswith(("data:", "blob:"))]

    def shot(self, path, whole=False):
        words = {}
        if whole:
            size = self.run("return [document.documentElement.scrollWidth, document.documentElement.scrollHeight]")
            words = {"captureBeyondViewport": True, "clip": {"x": 0, "y": 0, "width": size[0], "height": min(size[1], 7000), "scale": 1}}
        path.write_bytes(base64.b64decode(self.command("Page.captureScreenshot", **words)["data"]))


@contextlib.contextmanager
def browser(downloads):
    port = free_port()
    driver = subprocess.Popen([shutil.which("chromedriver"), f"--port={port}", "--silent"], stdout=subprocess.DEVNULL, stderr=subprocess.DEVNULL)
    try:
        for _ in range(200):
            with contextlib.suppress(OSError):
                with urllib.request.urlopen(f"http://127.0.0.1:{port}/status", timeout=5) as reply:
                    if json.load(reply)["value"]["ready"]:
                        break
            time.sleep(0.1)
        one = Browser(port, downloads)
        yield one
        one.ask("DELETE", "")
    finally:
        driver.terminate()
        driver.wait()
