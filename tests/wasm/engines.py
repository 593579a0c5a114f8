"""Compares the WebAssembly module with the native library in an engine, for tests/wasm/chromium, tests/wasm/firefox and tests/wasm/jsc.

The calls are those of tests/wasm/vectors.py, 367,000 for each unit of SCALE (4 without it). A planted fault must be found after that. A browser is told the
address of a page on the loopback, which posts what it found; it needs no driver. Without the engine the test says so and has status 3.
"""
import contextlib
import ctypes
import functools
import glob
import http.server
import json
import os
import pathlib
import queue
import re
import shutil
import signal
import subprocess
import sys
import tempfile
import threading
import time

HERE = pathlib.Path(__file__).resolve().parent
ROOT = HERE.parent.parent
FAULT = "interpolation rounds down", r"/add nsw i32 %r[0-9]*, 32$/s/32$/31/"
# without these Firefox opens pages of its own, and stops a script that runs for long
PREFERENCES = {
    "browser.shell.checkDefaultBrowser": False, "browser.startup.homepage_override.mstone": "ignore", "datareporting.policy.dataSubmissionEnabled": False,
    "dom.max_script_run_time": 0,
}
SILENCE = 900  # seconds without a word from a browser


class Failed(Exception):
    """The engine ended, or said nothing."""


class Page(http.server.SimpleHTTPRequestHandler):
    """The folder of a comparison, and what the page in it posts."""

    def __init__(self, heard, *words, **named):
        self.heard = heard
        super().__init__(*words, **named)

    def guess_type(self, path):
        return "text/javascript" if str(path).endswith(".mjs") else super().guess_type(path)

    def do_GET(self):
        self.heard.put(None)
        super().do_GET()

    def do_POST(self):
        self.heard.put(json.loads(self.rfile.read(int(self.headers["Content-Length"]))))
        self.send_response(204)
        self.end_headers()

    def log_message(self, *_):
        pass


def in_browser(command, folder):
    """Opens page.html of the folder: what it posts."""
    heard = queue.Queue()
    server = http.server.ThreadingHTTPServer(("127.0.0.1", 0), functools.partial(Page, heard, directory=str(folder)))
    threading.Thread(target=server.serve_forever, daemon=True).start()
    home = pathlib.Path(tempfile.mkdtemp(dir=folder))
    (home / "user.js").write_text("".join(f"user_pref({json.dumps(name)}, {json.dumps(value)});\n" for name, value in PREFERENCES.items()))
    words = [word.replace("HOME", str(home)) for word in command]
    running = subprocess.Popen([*words, f"http://127.0.0.1:{server.server_address[1]}/page.html"], stdout=subprocess.DEVNULL, stderr=subprocess.DEVNULL,
                               env={**os.environ, "HOME": str(home)}, start_new_session=True)
    try:
        last = time.monotonic()
        while True:
            with contextlib.suppress(queue.Empty):
                found = heard.get(timeout=1)
                last = time.monotonic()
                if found:
                    return found
            if running.poll() is not None:
                raise Failed(f"it ended with status {running.returncode}")
            if time.monotonic() - last > SILENCE:
                raise Failed(f"it said nothing for {SILENCE} seconds")
    finally:
        with contextlib.suppress(ProcessLookupError):
            os.killpg(running.pid, signal.SIGKILL)
        running.wait()
        server.shutdown()
        server.server_close()


def in_shell(command, folder):
    """Runs jsc.mjs: what it prints."""
    ran = subprocess.run([*command, HERE / "jsc.mjs", "--", folder], capture_output=True, text=True)
    if ran.returncode:
        raise Failed(f"it ended with status {ran.returncode}: {(ran.stdout + ran.stderr).strip()[-300:]}")
    return json.loads(ran.stdout)


def number_of_browser(path):
    return re.search(r"\d[\w.]*", subprocess.run([path, "--version"], capture_output=True, text=True).stdout)[0]


def number_of_jsc(path):
    """The shell does not know its version; its library does."""
    library = re.search(r"=> (\S*javascriptcoregtk\S*)", subprocess.run(["ldd", path], capture_output=True, text=True).stdout)
    if not library:
        return "of an unknown version"
    return ".".join(str(getattr(ctypes.CDLL(library[1]), f"jsc_get_{part}_version")()) for part in ("major", "minor", "micro"))


# where each engine is, its words, how it runs, and its version
ENGINES = {
    "Chromium": (["chromium"], ["--headless=new", "--no-sandbox", "--disable-gpu", "--disable-dev-shm-usage", "--no-first-run", "--user-data-dir=HOME"], in_browser, number_of_browser),
    "Firefox": (["firefox-esr", "firefox"], ["--headless", "--no-remote", "--profile", "HOME"], in_browser, number_of_browser),
    "JavaScriptCore": (["jsc", "/usr/lib/*/webkit*/jsc", "/usr/lib/*/javascriptcoregtk*/jsc"], ["-m"], in_shell, number_of_jsc),
}


def main(name, scale="4", seed="1"):
    places, words, run, number = ENGINES[name]
    path = next(filter(None, (shutil.which(found) for place in places for found in ([place] if "/" not in place else glob.glob(place)))), None)
    if not path:
        print(f"not compared in {name}: there is no {' or '.join(place for place in places if '/' not in place)} (tests/wasm/install engines)")
        return 3
    engine = f"{name} {number(path)}"
    for tool in ("tools/libraries", "tools/wasm"):
        subprocess.run([ROOT / tool], check=True)
    with tempfile.TemporaryDirectory(ignore_cleanup_errors=True) as made:
        folder = pathlib.Path(made)
        subprocess.run([sys.executable, "-B", HERE / "vectors.py", folder, scale, seed], check=True)
        index = json.loads((folder / "index.json").read_text())
        for one in ("compare.mjs", "page.mjs"):
            shutil.copy(HERE / one, folder)
        (folder / "page.html").write_text('<!DOCTYPE html><meta charset="utf-8"><title>Comparison</title><script type="module" src="page.mjs"></script>')
        shutil.copy(ROOT / "target/wasm/knotpasture.wasm", folder / "module.wasm")

        def compared(most):
            (folder / "index.json").write_text(json.dumps({**index, "most": most}))
            found = run([path, *words], folder)
            if "failed" in found:
                raise Failed(found["failed"])
            return found

        try:
            started = time.monotonic()
            found = compared(False)
            seconds = time.monotonic() - started
            for what in found["different"]:
                print(f"  {what}")
            print(f"{found['made']:,} calls of {index['total']:,}, {found['count']:,} different, {seconds:.0f} s in {engine}", flush=True)
            if found["count"] or found["made"] != index["total"]:
                return 1
            subprocess.run([ROOT / "tools/wasm", FAULT[1], folder / "module.wasm"], check=True)
            found = compared(True)
        except Failed as error:
            print(f"tests/wasm: {engine}: {error}", file=sys.stderr)
            return 1
        if not found["count"]:
            print(f"tests/wasm: planted, and not found in {engine}: {FAULT[0]}", file=sys.stderr)
            return 1
        print(f"planted, {FAULT[0]}: {found['different'][0]}")
    return 0
