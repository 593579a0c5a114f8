"""What the tests of tests/people share: they start `knot` as people do, and hold its status, what it prints and the line that it tells."""
import os
import pathlib
import subprocess
import sys

ROOT = pathlib.Path(__file__).resolve().parent.parent.parent
KNOT = ROOT / "knot"
SAMPLES = ROOT / "samples"
tried = wrong = 0
skipped = []


def count():
    global tried
    tried += 1


def is_wrong(name, what):
    global wrong
    wrong += 1
    print(f"{name}: {what}")


def wanted(name):
    return all(word in name for word in sys.argv[1:])


def run(words, **how):
    how = {"stdin": subprocess.DEVNULL} | how if "input" not in how else how
    return subprocess.run(words, stdout=how.pop("stdout", subprocess.PIPE), stderr=subprocess.PIPE, timeout=120, **how)


def check(name, words, status, out=None, told="", **how):
    """A command of knot: its status, its standard output where that is said, and a part of the one line that it tells."""
    if not wanted(name):
        return
    count()
    ran = run([KNOT, *words], **how)
    lines = ran.stderr.decode(errors="surrogateescape").splitlines()
    if ran.returncode != status:
        is_wrong(name, f"status {ran.returncode} and not {status}; {lines}")
    elif out is not None and ran.stdout != out:
        is_wrong(name, f"printed {ran.stdout[:200]!r} and not {out[:200]!r}")
    elif len(lines) != (0 if status == 0 else 1) or told not in "".join(lines):
        is_wrong(name, f"told {lines} and not '{told}'")
    elif any(len(line) > 700 for line in lines):
        is_wrong(name, f"told a line of {max(map(len, lines))} characters")


def shell(name, script, status, out=None, told=""):
    """The same through a shell, as in `knot .. | head -1`; $knot is the command."""
    if not wanted(name):
        return
    count()
    ran = run(["/bin/sh", "-c", script], env=os.environ | {"knot": str(KNOT), "samples": str(SAMPLES)})
    lines = ran.stderr.decode().splitlines()
    if (ran.returncode, out if out is not None else ran.stdout) != (status, ran.stdout) or told not in "".join(lines) or len(lines) > 1:
        is_wrong(name, f"status {ran.returncode}, printed {ran.stdout[:200]!r}, told {lines}; not {status}, {out!r}, '{told}'")
