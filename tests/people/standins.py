"""A `knot` whose programs fail: an installation of its own in which a script stands for each program.

Each script hands on what the true program answers, which is asked once and kept, and spoils it as the environment says: MODE for the program
NAME. So each command is tried with each of its programs ending early, printing nothing, too much or too little, failing behind whole output, or
warning first.
"""
import hashlib
import os
import shutil
import sys

from harness import ROOT, SAMPLES, count, is_wrong, run, wanted

sys.path.insert(0, str(ROOT))
from commands.programs import program_at  # noqa: E402

SCRIPT = """#!{python} -ISB
import hashlib, os, sys
name, given = os.path.basename(sys.argv[0]), sys.stdin.buffer.read()
print(name, file=open({used!r}, "a"))
key = hashlib.sha256("\\0".join([name, *sys.argv[1:]]).encode() + b"\\0" + given).hexdigest()
kept = os.path.join({kept!r}, key)
if not os.path.exists(kept):
    import subprocess
    true = subprocess.run([{run!r}, {programs!r}[name], *sys.argv[1:]], input=given, stdout=subprocess.PIPE, stderr=subprocess.PIPE)
    open(kept, "wb").write(true.stdout)
    open(kept + ".told", "wb").write(true.stderr)
out, told = open(kept, "rb").read(), open(kept + ".told", "rb").read()
mode = os.environ.get("MODE") if os.environ.get("NAME") == name else None
if mode == "warns":
    os.write(2, b"warning: cannot set the locale\\n")
if mode in ("half", "killed"):
    out = out[:len(out) // 2]
elif mode == "nothing":
    out = b""
elif mode == "lost":
    out = out[out.find(b"\\n") + 1 or 1:]
elif mode == "more":
    out += out[-1:] or b"x"
rest = memoryview(out)
while rest:
    rest = rest[os.write(1, rest):]
os.write(2, told)
if mode == "killed":
    os.kill(os.getpid(), 9)
sys.exit(7 if mode == "fails" else 0)
"""
# The programs that the commands run.
NAMES = {path.parent.parent.name for path in (ROOT / "crates").glob("run_*/src/main.rt")}
# How an answer is spoiled: each way at the first command that runs a program, the first three at every other one.
SPOILED = ["nothing", "half", "fails", "lost", "more", "killed"]


def commands(folder):
    """Each command with the words of a run that is done; OUT is where it writes."""
    four, lamp, five, probe, out = SAMPLES / "four.store", SAMPLES / "lamp.block", SAMPLES / "five.dds", SAMPLES / "small.probe", folder / "OUT"
    text = folder / "lamp.txt"
    text.write_text("format unsigned\nmode 11\nendpoint 0 red 40 green 34 blue 30\nendpoint 1 red 990 green 860 blue 610\n"
                    + "".join(f"indices {row} 0 0 1 1\n" for row in range(4)))
    (folder / "blocks").write_bytes(five.read_bytes()[148:])
    (folder / "face.dds").write_bytes(five.read_bytes()[:12] + b"\4\0\0\0" * 2 + five.read_bytes()[20:164])
    (folder / "one").write_bytes(four.read_bytes()[:24])
    return {
        "list": [four], "list --json": ["--json", four], "check": [SAMPLES / "covered.store"], "audit": [SAMPLES / "covered.store"], "infinities": [four],
        "list of places": ["--form", "32", probe], "audit of places": ["--form", "32", probe],
        "clean": [SAMPLES / "covered.store", out], "report": [SAMPLES / "covered.store", out],
        "fields": [lamp, "unsigned"], "fields --picture": [lamp, "unsigned", "--picture"], "fields of a store": [four, "0"],
        "block": [text, out], "block --into": [text, "--into", four, "0", out], "block --picture": [text, "--picture"],
        "record take": ["take", four, "0", out], "record put": ["put", four, "0", folder / "one", out],
        "place": [SAMPLES / "twins.store", out], "place of a record": [probe, "3", "+Y", "0", "1", out], "unplace": [SAMPLES / "unplaced.places", out],
        "probe": [probe, "2"], "probe without an edge": [probe], "probe of a face": [probe, "2", "0", out], "probe --make": ["--make", out, *6 * [folder / "face.dds"]],
        "dds": [five], "dds --first-level": ["--first-level", SAMPLES / "levels.dds"], "dds --relabel": ["--relabel", "unsigned", five, out], "dds --blocks": ["--blocks", five, out], "dds --make": ["--make", "5", "3", "signed", folder / "blocks", out], "pfm": [SAMPLES / "eight.dds", out],
        "export": [five, out, "--kind", "exr"], "export as PFM": [five, out, "--kind", "pfm"], "export as PNG": [five, out, "--kind", "png"], "export of a record": [four, "0", out, "--kind", "png"],
        "export of a face": [probe, "--face", "0", out, "--kind", "exr"], "export of BC7": [SAMPLES / "bc7.dds", out, "--kind", "png"],
    }


def built():
    """Where each program is, proved and built where it was not."""
    return {name: program_at(name) for name in sorted(NAMES)}


def house_of(folder):
    """An installation whose programs are scripts: its knot, and the file that names the programs that a command has run."""
    house = folder / "lib/knotpasture"
    for part in ("programs", "tools", "commands"):
        (house / part).mkdir(parents=True)
    shutil.copytree(ROOT / "commands", house / "commands", dirs_exist_ok=True, ignore=shutil.ignore_patterns("__pycache__"))
    if (ROOT / "web/page").is_dir():
        shutil.copytree(ROOT / "web/page", house / "web/page")
    for file in ("knot", "VERSION", "python/knotpasture/words.py"):
        shutil.copy(ROOT / file, house)
    (house / "BUILT").write_text("commit of the test\nkit of the test\n")
    (house / "tools/run").write_text('#!/bin/sh\nexec "$@"\n')
    (house / "tools/run").chmod(0o755)
    (folder / "kept").mkdir()
    programs = built()
    script = SCRIPT.format(python=sys.executable, used=str(folder / "used"), kept=str(folder / "kept"), run=str(ROOT / "tools/run"), programs=programs)
    for name in programs:
        (house / "programs" / name).write_text(script)
        (house / "programs" / name).chmod(0o755)
    summed = hashlib.sha256(script.encode()).hexdigest()
    (house / "sums").write_text("".join(f"{summed}  lib/knotpasture/programs/{name}\n" for name in programs))
    return house / "knot", folder / "used"


def left_in(folder):
    return sorted(path.name for path in folder.iterdir() if path.name.startswith(".knot-") or path.name == "OUT")


def outcome(knot, command, words, folder, **env):
    """Status, standard output, the lines of standard error, and what OUT then has."""
    (folder / "OUT").unlink(missing_ok=True)
    ran = run([knot, command.split()[0], *map(str, words)], env={"PATH": os.environ["PATH"], **env})
    return ran.returncode, ran.stdout, ran.stderr.decode().splitlines(), (folder / "OUT").read_bytes() if (folder / "OUT").exists() else None


def uses_kinds(command):
    """Whether a command goes by the rule of commands/kinds.py."""
    return "kinds.store_to_change" in (ROOT / "commands" / f"{command}.py").read_text()


def failing_programs(folder):
    asked = {command: words for command, words in commands(folder).items()
             if any(wanted(f"program {name} of {command}: {mode}") for name in NAMES for mode in [*SPOILED, "warns"])}
    changed = wanted("program that was changed")
    if not asked and not changed:
        return
    knot, used = house_of(folder)
    met = set()
    for command, words in asked.items():
        used.unlink(missing_ok=True)
        true = outcome(knot, command, words, folder)
        if true[0] != 0 or true[2]:
            is_wrong(f"program of {command}", f"{true[0]} {true[2]}, where nothing is spoiled")
            continue
        programs = sorted(set(used.read_text().split())) if used.exists() else []
        for name in programs:
            for mode in SPOILED[:3] if name in met else SPOILED:
                case = f"program {name} of {command}: {mode}"
                if not wanted(case):
                    continue
                count()
                status, out, told, made = outcome(knot, command, words, folder, MODE=mode, NAME=name)
                if (status, out, made, len(told)) != (3, b"", None, 1) or "Traceback" in told[0] or f"the program {name} " not in told[0] or left_in(folder):
                    is_wrong(case, f"status {status}, printed {out[:80]!r}, told {told}, left {left_in(folder)}")
            met.add(name)
            case = f"program {name} of {command}: warns"
            if wanted(case) and (command not in ("clean", "report") or uses_kinds("clean")):
                count()
                warned = outcome(knot, command, words, folder, MODE="warns", NAME=name)
                if warned != true:
                    is_wrong(case, f"{warned[0]} {warned[1][:80]!r} {warned[2]}, and not as without the warning")
    if changed:
        changed_program(knot, folder)


def changed_program(knot, folder):
    """A program that is not the one of the sums is not run, and --check names it."""
    count()
    program = knot.parent / "programs/run_list"
    program.write_text(program.read_text() + "# another\n")
    status, out, told, _ = outcome(knot, "list", [SAMPLES / "four.store"], folder)
    if (status, out) != (3, b"") or "the program run_list is not the one that was installed" not in told[0]:
        is_wrong("program that was changed", f"{status} {out!r} {told}")
    (knot.parent / "programs/run_check").unlink()
    status, out, told, _ = outcome(knot, "check", [SAMPLES / "four.store"], folder)
    if (status, out) != (3, b"") or "the program run_check is missing from this installation" not in told[0]:
        is_wrong("program that is missing", f"{status} {out!r} {told}")
    status, out, told, _ = outcome(knot, "--check", [], folder)
    if (status, out) != (3, b"") or "programs/run_list is another" not in told[0] or "programs/run_check: no such file" not in told[0]:
        is_wrong("program that was changed, --check", f"{status} {out!r} {told}")
