"""Opens a picture, store or probe in a page of the browser.

The page is one file that needs nothing else and cannot reach a network. It shows DDS textures (BC6H, BC7) and bare blocks with exposure, zoom and every
pixel's values; stores with their copies and damage; probes from inside. With a FILE the page opens it at once; without one it opens the file
that is dropped on it. It changes no file.

It prints where the page is. The browser is started by xdg-open.
"""
import base64
import json
import os
import pathlib
import shutil
import subprocess
import tempfile

from . import house
from .line import Line, Option

LINE = Line(
    "[FILE]",
    options=[
        Option("--no-browser", "start no browser"),
        Option("--out", "write the page there, where no file may be yet; without it to a folder of its own for temporary files", value="OUT.html"),
    ],
    example="knot open samples/road.probe",
)
# The most bytes of a file that is put into a page.
MOST = 64 << 20
GIVEN = '<script type="application/json" id="given">null</script>'


def page_text():
    """The page without a file: installed, or made of the sources."""
    installed = house.ROOT.parent.parent / "share/knotpasture/open.html"
    if not (house.ROOT / "tools/open-page").is_file():
        path = installed
    else:
        path = house.ROOT / "target/web/open.html"
        if not path.is_file():
            house.tell("knot open: building the page, which takes minutes the first time ..")
        if subprocess.run([house.ROOT / "tools/open-page", path], stdin=subprocess.DEVNULL, stdout=subprocess.DEVNULL).returncode != 0:
            raise house.Trouble("the page is not built: the reason is above")
    try:
        text = path.read_text()
    except OSError as error:
        raise house.Trouble(f"{path}: {house.reason(error)}") from None
    if text.count(GIVEN) != 1:
        raise house.Trouble(f"{path}: it is not the page that this command knows")
    return text


def page_with(text, name, data):
    """The page with a file in it. Nothing in JSON ends the element that it is in but '<'."""
    given = json.dumps({"name": name, "bytes": base64.b64encode(data).decode()}).replace("<", "\\u003c")
    return text.replace(GIVEN, GIVEN.replace("null", given))


def show(path):
    """Starts a browser; where there is none that can be started, that is said."""
    opener = shutil.which("xdg-open") or shutil.which("open")
    if opener:
        with open(os.devnull, "r+b") as nothing:
            subprocess.Popen([opener, path], stdin=nothing, stdout=nothing, stderr=nothing, start_new_session=True)
    else:
        house.tell("knot open: there is no xdg-open: open the page that is named above in a browser")


def run(asked):
    data = None if asked.file is None else house.read(asked.file, MOST)
    if data is not None and len(data) > MOST:
        raise house.Trouble(f"{house.shown(asked.file)}: it has more than {MOST:,} bytes: open the page without a file, and drop the file on it")
    text = page_text()
    if data is not None:
        text = page_with(text, os.path.basename(house.read_last), data)
    path = asked.out or pathlib.Path(tempfile.mkdtemp(prefix="knot-open-")) / "open.html"
    house.write_whole(path, text.encode(errors="surrogateescape"), over=False)
    house.put(f"{house.shown(path, 4096)}\n")
    if not asked.no_browser:
        show(os.path.abspath(path))
