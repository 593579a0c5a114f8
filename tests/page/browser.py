"""Headless Chromium, driven by its driver over HTTP."""
import base64
import contextlib
import json
import os
import shutil
import subprocess
import time
import urllib.error
import urllib.request

PORT = 9000 + os.getpid() % 1000


class Stopped(Exception):
    """The browser could not do what was asked: a part of the page is not there. Or a check found the fault that was planted."""


def at_hand():
    return shutil.which("chromium") and shutil.which("chromedriver")


def ask(method, path, body=None):
    data = json.dumps(body or {}).encode() if method == "POST" else None
    request = urllib.request.Request(f"http://127.0.0.1:{PORT}{path}", data=data, method=method, headers={"Content-Type": "application/json"})
    try:
        with urllib.request.urlopen(request, timeout=120) as reply:
            return json.load(reply)["value"]
    except urllib.error.HTTPError as error:
        raise Stopped(json.load(error)["value"]["message"].splitlines()[0]) from None


class Browser:
    def __init__(self):
        options = {"args": ["--headless=new", "--no-sandbox", "--disable-gpu", "--disable-dev-shm-usage", "--hide-scrollbars", "--force-color-profile=srgb"]}
        asked = {"browserName": "chrome", "goog:chromeOptions": options, "goog:loggingPrefs": {"browser": "ALL"}}
        self.at = f"/session/{ask('POST', '/session', {'capabilities': {'alwaysMatch': asked}})['sessionId']}"

    def command(self, name, **words):
        return ask("POST", self.at + "/goog/cdp/execute", {"cmd": name, "params": words})

    def look(self, width=1100, height=1400, mobile=False, scheme="light", media=""):
        self.command("Emulation.setDeviceMetricsOverride", width=width, height=height, deviceScaleFactor=1, mobile=mobile)
        self.command("Emulation.setEmulatedMedia", media=media, features=[{"name": "prefers-color-scheme", "value": scheme}])

    def open(self, page, mark=""):
        ask("POST", self.at + "/url", {"url": "about:blank"})
        ask("POST", self.at + "/url", {"url": page.as_uri() + mark})

    def run(self, script, *words):
        return ask("POST", self.at + "/execute/sync", {"script": script, "args": list(words)})

    def settle(self, script="", *words):
        """Runs a script, waits until the page is drawn again, and answers what the script leaves."""
        wait = "const done = arguments[arguments.length - 1]; const left = (() => {" + script + "})(); requestAnimationFrame(() => requestAnimationFrame(() => setTimeout(() => done(left), 60)));"
        return ask("POST", self.at + "/execute/async", {"script": "const words = arguments;" + wait, "args": list(words)})

    def keys(self, css, text):
        found = list(ask("POST", self.at + "/element", {"using": "css selector", "value": css}).values())[0]
        ask("POST", f"{self.at}/element/{found}/value", {"text": text})
        self.settle()

    def point(self, x, y, tap=False):
        """The mouse over a place, or a finger on it and away."""
        kind, press = ("touch", [{"type": "pointerDown", "button": 0}, {"type": "pointerUp", "button": 0}]) if tap else ("mouse", [])
        steps = [{"type": "pointerMove", "x": x, "y": y, "duration": 0}, *press]
        ask("POST", self.at + "/actions", {"actions": [{"type": "pointer", "id": kind, "parameters": {"pointerType": kind}, "actions": steps}]})
        self.settle()

    def errors(self):
        """What the console has, but for the advice on reading canvases, which these tests do."""
        told = ask("POST", self.at + "/se/log", {"type": "browser"})
        return [entry["message"] for entry in told if entry["level"] in ("SEVERE", "WARNING") and "willReadFrequently" not in entry["message"]]

    def shot(self, path, whole=False):
        words = {}
        if whole:
            size = self.run("return [document.documentElement.scrollWidth, document.documentElement.scrollHeight]")
            words = {"captureBeyondViewport": True, "clip": {"x": 0, "y": 0, "width": size[0], "height": min(size[1], 8000), "scale": 1}}
        path.write_bytes(base64.b64decode(self.command("Page.captureScreenshot", **words)["data"]))

    def printed(self):
        """The page as a PDF of A4 sheets; sizes are in inches."""
        how = {"printBackground": True, "preferCSSPageSize": True, "generateTaggedPDF": False, "paperWidth": 8.27, "paperHeight": 11.69}
        return base64.b64decode(self.command("Page.printToPDF", **how)["data"])


@contextlib.contextmanager
def browser():
    driver = subprocess.Popen([shutil.which("chromedriver"), f"--port={PORT}", "--silent"], stdout=subprocess.DEVNULL, stderr=subprocess.DEVNULL)
    try:
        for _ in range(200):
            with contextlib.suppress(OSError):
                if ask("GET", "/status")["ready"]:
                    break
            time.sleep(0.1)
        one = Browser()
        yield one
        ask("DELETE", one.at)
    finally:
        driver.terminate()
        driver.wait()
