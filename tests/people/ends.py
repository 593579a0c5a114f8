"""Files and endings: writing where there are no hard links, signals, crashes, what Python is told by others, standard output as OUT."""
import contextlib
import errno
import os
import shutil
import signal
import subprocess
import sys
from unittest import mock

from harness import KNOT, ROOT, SAMPLES, check, count, is_wrong, run, shell, wanted

sys.path.insert(0, str(ROOT))
from commands import ends, writing  # noqa: E402

FOUR = (SAMPLES / "four.store").read_bytes()


def refusing(number):
    def call(*_, **__):
        raise OSError(number, os.strerror(number))
    return call


def no_links():
    return mock.patch("os.link", refusing(errno.EPERM))


def no_replacing():
    return mock.patch("os.replace", refusing(errno.EIO))


def no_renaming():
    return mock.patch("commands.writing.renamed_without_replacing", lambda *_: False)


def without_links(folder):
    """Three ways to a name that is not taken: by a hard link, by a renaming that does not replace, by an empty file that is replaced."""
    for way, patches in {"links": [], "no links": [no_links, no_replacing], "neither links nor renaming": [no_links, no_renaming]}.items():
        name = f"writing, {way}"
        if not wanted(name):
            continue
        count()
        place = folder / way
        place.mkdir()
        (place / "old").write_bytes(b"as it was")
        (place / "link").symlink_to("nowhere")
        with contextlib.ExitStack() as patched:
            for patch in patches:
                patched.enter_context(patch())
            if not is_written(place / "new"):
                is_wrong(name, "new was not written")
            for taken in ("old", "link", "new"):
                if is_written(place / taken):
                    is_wrong(name, f"{taken} was written over")
        with no_links(), no_renaming(), no_replacing():
            if is_written(place / "failed"):
                is_wrong(name, "a renaming that failed was not told")
        left = {path.name: path.read_bytes() if not path.is_symlink() else None for path in place.iterdir()}
        if left != {"new": b"whole", "old": b"as it was", "link": None}:
            is_wrong(name, f"it leaves {left}")


def is_written(path):
    try:
        writing.write_whole(path, b"whole", over=False)
        return True
    except ends.Trouble:
        return False


def synced(folder):
    """The file is synced before it has its name, and the folder after that."""
    name = "writing, synced"
    if not wanted(name):
        return
    count()
    for over in (True, False):
        done = []
        true_fsync, true_replace, true_link = os.fsync, os.replace, os.link

        def fsync(file):
            done.append("folder" if os.path.isdir(f"/proc/self/fd/{file}") else "file")
            true_fsync(file)

        with mock.patch("os.fsync", fsync), mock.patch("os.replace", lambda *w: (done.append("name"), true_replace(*w))), \
                mock.patch("os.link", lambda *w: (done.append("name"), true_link(*w))):
            writing.write_whole(folder / f"synced {over}", b"whole", over=over)
        if done != ["file", "name", "folder"]:
            is_wrong(name, f"{done}")


SLOW = """
import os, sys, time
sys.path.insert(0, {root!r})
from commands import house
def slow(file):
    os.write(2, b"ready")
    time.sleep(30)
os.fsync = slow
sys.exit(house.main(["record", "take", {store!r}, "0", {out!r}]))
"""


def heed_signals():
    """A process that was started by nohup ignores SIGHUP, and so would the command."""
    for number in (signal.SIGTERM, signal.SIGHUP, signal.SIGINT):
        signal.signal(number, signal.SIG_DFL)


def signals(folder):
    """A command that is asked to end while it writes leaves nothing behind, and ends by the signal."""
    for number in (signal.SIGTERM, signal.SIGHUP, signal.SIGINT):
        name = f"signal {number.name}"
        if not wanted(name):
            continue
        count()
        script = SLOW.format(root=str(ROOT), store=str(SAMPLES / "four.store"), out=str(folder / "OUT"))
        child = subprocess.Popen([sys.executable, "-ISB", "-c", script], stderr=subprocess.PIPE, preexec_fn=heed_signals)
        child.stderr.read(5)
        before = sorted(path.name for path in folder.iterdir())
        child.send_signal(number)
        told = child.communicate(timeout=60)[1]
        ended = 130 if number == signal.SIGINT else -number
        if (child.returncode, told) != (ended, b"") or not before or list(folder.iterdir()):
            is_wrong(name, f"{child.returncode} {told!r}; {before} and then {sorted(folder.iterdir())}")


CRASH = """
import sys
sys.path.insert(0, {root!r})
from commands import house, infinities
def crash(asked):
    raise ValueError("first\\nsecond \\x1b[31m")
infinities.run = crash
sys.exit(house.main(["infinities", "x"]))
"""


def crashes(folder):
    if not wanted("crash"):
        return
    count()
    ran = run([sys.executable, "-ISB", "-c", CRASH.format(root=str(ROOT))])
    if ran.returncode != 3 or ran.stdout or ran.stderr.count(b"\n") != 1 or b"an unexpected error, ValueError: first\\nsecond \\x1b[31m" not in ran.stderr:
        is_wrong("crash", f"{ran.returncode} {ran.stdout!r} {ran.stderr!r}")
    house = folder / "house"
    shutil.copytree(ROOT / "commands", house / "commands", ignore=shutil.ignore_patterns("__pycache__", "files.py"))
    shutil.copy(KNOT, house)
    ran = run([house / "knot", "list"])
    if ran.returncode != 3 or ran.stderr.count(b"\n") != 1 or not ran.stderr.startswith(b"knot: it is not whole: "):
        is_wrong("crash, a module is missing", f"{ran.returncode} {ran.stderr!r}")


def others_python(folder):
    """Neither the folder that it runs in nor the environment gives knot other modules."""
    name = "other modules"
    if not wanted(name):
        return
    count()
    for module in ("os", "json", "re", "signal", "struct", "commands", "sitecustomize", "usercustomize"):
        (folder / f"{module}.py").write_text("raise SystemExit(99)\n")
    env = os.environ | {"PYTHONPATH": str(folder), "PYTHONSTARTUP": str(folder / "os.py"), "PYTHONVERBOSE": "1"}
    ran = run([KNOT, "list", "--json", SAMPLES / "four.store"], cwd=folder, env=env)
    if ran.returncode != 0 or ran.stderr or (folder / "__pycache__").exists():
        is_wrong(name, f"{ran.returncode} {ran.stderr!r}")


def standard_output(folder):
    four, twins = SAMPLES / "four.store", SAMPLES / "twins.store"
    for out in ("-", "/dev/stdout"):
        check(f"OUT is {out}", ["record", "take", four, "1", out], 0, FOUR[24:48])
        shell(f"OUT is {out}, with a count", f'"$knot" place "$samples"/twins.store {out} | "$knot" unplace - {folder}/back', 0, b"moved 9\n", "moved 9")
    if wanted("OUT is") and (folder / "back").read_bytes() != twins.read_bytes():
        is_wrong("OUT is -, with a count", "another store comes back")
    shell("OUT is /dev/stdout, a file", f'"$knot" record take "$samples"/four.store 1 /dev/stdout >{folder}/made && cmp -n 24 {folder}/made "$samples"/four.store -i 0:24', 0, b"")
    shell("standard output fails behind OUT", f'"$knot" place "$samples"/twins.store {folder}/out >/dev/full', 3, b"", f"standard output: no space left on device; {folder}/out is written all the same, whole")
    if wanted("standard output fails") and len((folder / "out").read_bytes()) != 288:
        is_wrong("standard output fails behind OUT", "OUT is not there")
    shell("standard output fails, and is OUT", '"$knot" record take "$samples"/four.store 1 - >/dev/full', 3, b"", "standard output: no space left on device")


def messages(folder):
    """No message paints the terminal or begins a second line, whatever the words are."""
    evil = "\x1b[31mred\x1b]0;title\x07\r\n\u202eback\x9b"
    for words in (["list", evil], ["list", f"--{evil}"], [evil], ["help", evil], ["fields", SAMPLES / "lamp.block", evil], ["fields", SAMPLES / "four.store", "1" + evil],
                  ["record", "take", SAMPLES / "four.store", "0", folder / evil / "x"], ["record", "make", evil, "signed", "x", "y"], ["record", "make", "1", evil, "x", "y"],
                  ["dds", "--make", evil, "3", "signed", "x", "y"], ["dds", "--make", "1", "3", evil, "x", "y"], ["probe", SAMPLES / "small.probe", evil],
                  ["probe", SAMPLES / "small.probe", "2", evil, "y"], ["check", "--form", evil, "x"], ["clean", folder / evil, "y"], ["--version", evil], [b"\x9b31m"], ["list", b"\x9b31m"]):
        name = f"message, {words[0]!r:.30} {len(words)}"
        if not wanted(name):
            continue
        count()
        ran = run([KNOT, *words])
        bad = [byte for byte in ran.stderr + ran.stdout if byte < 32 and byte != 10 or byte == 127]
        if ran.returncode not in (2, 3) or bad or ran.stderr.count(b"\n") != 1 or "\u202e".encode() in ran.stderr or b"\xc2\x9b" in ran.stderr:
            is_wrong(name, f"{ran.returncode} {ran.stderr!r}")
        try:
            ran.stderr.decode()
        except UnicodeDecodeError:
            is_wrong(name, f"{ran.stderr!r} is no UTF-8")


def endings(folder):
    for part in (without_links, synced, signals, crashes, others_python, standard_output, messages):
        (folder / part.__name__).mkdir()
        part(folder / part.__name__)
