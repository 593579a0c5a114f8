"""The words of the command line: options anywhere, --, help, JSON, colours, numbers and refusals that say what is so."""
import json
import os
import pty
import re
import struct
import sys

from harness import KNOT, ROOT, SAMPLES, check, count, is_wrong, run, wanted

FOUR = SAMPLES / "four.store"
# What a listing needs, and no more: each of these would make every start slower.
SLOW = {"argparse", "hashlib", "json", "pathlib", "re", "runpy", "subprocess", "tempfile", "typing", "threading", "ctypes"}


def norms(folder):
    check("option behind the operand", ["list", FOUR, "--strict"], 0)
    check("-- and a name with dashes", ["list", "--", "--nope"], 3, b"", "--nope: no such file")
    check("-- between operands", ["place", "--", SAMPLES / "twins.store", folder / "--new"], 0, b"moved 9\n")
    check("a name that looks like an option", ["list", "-dash"], 2, b"", "there is no option '-dash'; a file of that name is ./-dash")
    check("did you mean, a command", ["lsit"], 2, b"", "there is no command 'lsit': did you mean 'list'?")
    check("did you mean, help", ["help", "adit"], 2, b"", "did you mean 'audit'?")
    check("did you mean, an option", ["list", "--strct"], 2, b"", "did you mean '--strict'?")
    check("did you mean, nothing like it", ["xyz"], 2, b"", "there is no command 'xyz'; see 'knot --help'")
    check("an option with a value that has none", ["list", "--strict=yes"], 2, b"", "--strict has no value")
    check("an option without its value", ["check", "--form"], 2, b"", "--form needs a value: --form 24|32")
    check("an empty file name", ["fields", ""], 2, b"", "FILE is empty", input=(SAMPLES / "lamp.block").read_bytes())
    check("an empty name of many", ["survey", FOUR, "", "--into", folder / "db"], 2, b"", "is empty")
    check("an empty OUT", ["export", SAMPLES / "five.dds", "", "--kind", "exr"], 2, b"", "OUT is empty")
    check("an empty DDS file name", ["export", "", folder / "out.exr"], 2, b"", "FILE is empty")
    check("a name as the usage has it", ["export", "-X.dds", folder / "out.exr"], 3, b"", "-X.dds: no such file")
    check("a name that only begins so", ["export", "-Xa.dds", folder / "out.exr"], 2, b"", "there is no option '-Xa.dds'; a file of that name is ./-Xa.dds")
    check("an option of a form without its value", ["export", SAMPLES / "small.probe", "--face"], 2, b"", "--face needs a value: --face F")
    check("an option of another form", ["dds", "--make", "x"], 2, b"", "it takes --make WIDTH HEIGHT FORMAT BLOCK-BYTES OUT, and 1 word is given")
    check("--version with a word", ["--version", "x"], 2, b"", "--version takes no words, and 'x' is one")
    check("help with two words", ["help", "list", "more"], 2, b"", "help takes one command, and 'more' is one more")
    check("--check of the repository", ["--check"], 3, b"", "knot is not installed here") if not (ROOT / "sums").exists() else None
    check("list --head", ["list", "--head", FOUR], 0, b"record tile answer mode mark red green blue\n" + run([KNOT, "list", FOUR]).stdout)
    if wanted("-V"):
        count()
        if run([KNOT, "-V"]).stdout != run([KNOT, "--version"]).stdout:
            is_wrong("-V", "it is not --version")


def helps(folder):
    """Each command's help has its usage, its options, the statuses and an example, in both ways to ask."""
    sys.path.insert(0, str(ROOT))
    from commands import house
    for name in house.COMMANDS:
        if not wanted(f"help of {name}"):
            continue
        count()
        text = run([KNOT, name, "x", "--help"]).stdout.decode()
        declared = getattr(house.command(name), "LINE", None)
        parts = ["status: 0 "] if declared is None else [f"usage: knot {name} ", "options:\n", "-h, --help", "status: 0 ", f"example:\n  $ knot {name.split()[0]}"]
        parts += [option.name for option in declared.options] if declared else []
        missing = [part for part in parts if part not in text and not part.startswith("example") or part.startswith("example") and "example:\n  $ " not in text]
        if missing or text != run([KNOT, "help", name]).stdout.decode():
            is_wrong(f"help of {name}", f"it has not {missing}")


def numbers(folder):
    lamp, out = SAMPLES / "lamp.block", folder / "out"
    check("a high record", ["fields", FOUR, "99999999999999"], 1, b"record refused 8\n", "there is no record 99999999999999: it has 4, from 0 on")
    check("a high record to take", ["record", "take", FOUR, "99999999999999", out], 1, b"record refused 8\n", "there is no record 99999999999999")
    check("a face below 0", ["probe", SAMPLES / "small.probe", "2", "-1", out], 2, b"", "FACE is 0 to 5 or one of +X, -X, +Y, -Y, +Z, -Z, and not '-1'")
    check("a face that is none", ["probe", SAMPLES / "small.probe", "2", "6", out], 1, b"store refused 24\n", "refused, 24: there is no face 6, only 0 to 5")
    for side in (2**32, 10**30, 10**5000):
        word = "9" * 5001 if side == 10**5000 else str(side)
        check(f"a width of {len(word)} digits", ["dds", "--make", word, "3", "signed", lamp, out], 2, b"", "WIDTH is a number from 0 to 4,294,967,295")
    check("a width with zeros before it", ["dds", "--make", "0" * 30 + "4", "4", "signed", lamp, out], 0, b"")
    check("a face of a probe with a faulty record", ["probe", SAMPLES / "small.probe", "1"], 1, None, ": record ")


def dds_file(**changes):
    """A whole file of 8 by 4 pixels with some of its header's numbers changed."""
    data = bytearray(148 + 32)
    for at, value in {0: 0x20534444, 4: 124, 8: 0x81007, 12: 4, 16: 8, 20: 32, 28: 1, 76: 32, 80: 4, 84: 0x30315844, 108: 0x1000, 128: 95, 132: 3, 136: 0, 140: 1}.items():
        struct.pack_into("<I", data, at, changes.get(f"at{at}", value))
    return bytes(data)


def causes(folder):
    path, out = folder / "a.dds", folder / "out"
    for changes, words in (({"at28": 5}, "it has 5 mip levels"), ({"at136": 4}, "it is a cube map"), ({"at140": 6}, "it is an array of 6 textures"), ({"at128": 97}, "its DXGI format is 97"),
                           ({"at132": 4}, "its dimension is 4"), ({"at84": 0x35545844}, "its code is 'DXT5' and not 'DX10'"), ({"at0": 0}, "it does not begin with 'DDS '"),
                           ({"at4": 100}, "its header says that it has 100 bytes"), ({"at80": 0}, "its pixel format has no code"), ({"at84": 0x1B}, "its code is '\\x1b\\x00\\x00\\x00'")):
        path.write_bytes(dds_file(**changes))
        for words_of in (["dds", path], ["dds", "--blocks", path, out], ["pfm", path, out]):
            check(f"cause of 13, {words}, {words_of[0]} {len(words_of)}", words_of, 1, b"file refused 13\n", f"{path}: refused, 13: {words}")
    path.write_bytes(dds_file(at128=98))
    check("cause of 13, BC7 as a Portable Float Map", ["pfm", path, out], 1, b"file refused 13\n", "its DXGI format is 98, which is BC7, and a Portable Float Map is made of BC6H")
    path.write_bytes(dds_file(at28=5))
    check("the way out of 13", ["dds", path], 1, b"file refused 13\n", "it has 5 mip levels, and only a texture of one level is taken: --first-level takes its first level")
    check("--first-level with --make", ["dds", "--make", "--first-level", "5", "3", "signed", path, out], 2, b"", "--first-level reads a file, and --make reads none")
    path.write_bytes(dds_file(at16=5000))
    check("limit of 14", ["dds", path], 1, b"file refused 14\n", "it is 5,000 by 4 pixels, and a side has 1 to 4,096")
    check("limit of 14, pfm", ["pfm", path, out], 1, b"file refused 14\n", "it is 5,000 by 4 pixels, and a side has 1 to 64")
    check("limit of 14, --make", ["dds", "--make", "0", "4", "signed", SAMPLES / "lamp.block", out], 1, b"file refused 14\n", "a side has 1 to 4,096")
    path.write_bytes(dds_file()[:100])
    check("cause of 13, short", ["dds", path], 1, b"file refused 13\n", "it has 100 bytes, and the header alone has 148")


def as_json(folder):
    """The same facts as the text has, and refusals too."""
    def facts(*words, status=0):
        count()
        ran = run([KNOT, *words])
        if ran.returncode != status:
            is_wrong(f"JSON, {words}", f"status {ran.returncode}, {ran.stderr!r}")
        return json.loads(ran.stdout)

    if not wanted("JSON"):
        return
    listing = facts("list", "--json", FOUR)
    lines = [" ".join(str(part) for part in (row["record"], row["tile"], row["answer"], "-" if row["mode"] is None else row["mode"], row["mark"], *(row["pixel15"] or "---"))) for row in listing["records"]]
    if lines + [" ".join(f"{word} {number}" for word, number in listing["counts"].items())] != run([KNOT, "list", FOUR]).stdout.decode().splitlines():
        is_wrong("JSON of list", f"{listing}")
    faults = facts("check", SAMPLES / "refused.store", "--json", status=1)
    text = run([KNOT, "check", SAMPLES / "refused.store"]).stdout.decode().splitlines()
    if [f"{fault['record']} {fault['tile']} {fault['verdict']} {fault['cause']} {fault['words']}" for fault in faults["faults"]] != text[:-1] or faults["refused"] != 6:
        is_wrong("JSON of check", f"{faults} {text}")
    expected = {
        ("infinities", FOUR): {"name": str(FOUR), "records": [{"record": 2, "tile": 9, "values": 16, "pixel": 0, "channel": "red"}], "counts": {"records": 1, "values": 16}},
        ("probe", SAMPLES / "small.probe", "2"): {"name": str(SAMPLES / "small.probe"), "edge": 2, "records": 24},
        ("dds", SAMPLES / "five.dds"): {"name": str(SAMPLES / "five.dds"), "width": 5, "height": 3, "format": "signed", "blocks": 2},
    }
    for words, wanted_facts in expected.items():
        if facts(*words, "--json") != wanted_facts:
            is_wrong(f"JSON of {words[0]}", f"{facts(*words, '--json')}")
    uneven = folder / "uneven"
    uneven.write_bytes(bytes(25))
    for words, number in {("list", uneven): 6, ("check", uneven): 6, ("audit", uneven): 6, ("infinities", uneven): 6, ("probe", uneven, "2"): 6, ("dds", uneven): 13,
                          ("list", "--strict", SAMPLES / "apart.store"): 12, ("probe", FOUR, "2"): 28, ("probe", SAMPLES / "covered.store", "2"): 28}.items():
        refusal = facts(*words, "--json", status=1)
        if (refusal["refused"], refusal["name"]) != (number, str(words[1] if words[1] != "--strict" else words[2])) or not refusal["reason"]:
            is_wrong(f"JSON of a refused {words[0]}", f"{refusal}")
    faulty = facts("probe", SAMPLES / "small.probe", "1", "--json", status=1)
    if faulty["refused"] != 21 or faulty["record"] != 1:
        is_wrong("JSON of a refused probe", f"{faulty}")


def on_terminal(words, **env):
    """What a command writes to a terminal."""
    ours, theirs = pty.openpty()
    ran = run([KNOT, *words], stdout=theirs, env={**{k: v for k, v in os.environ.items() if k != "NO_COLOR"}, "TERM": "xterm", **env})
    os.close(theirs)
    text = os.read(ours, 65536)
    os.close(ours)
    return ran.returncode, text


def colours(folder):
    if not wanted("colour"):
        return
    for words in (["check", SAMPLES / "refused.store"], ["audit", SAMPLES / "covered.store"], ["probe", SAMPLES / "small.probe", "2"]):
        count()
        plain = run([KNOT, *words]).stdout
        painted, bare, dumb = on_terminal(words)[1], on_terminal(words, NO_COLOR="1")[1], on_terminal(words, TERM="dumb")[1]
        if b"\x1b[" not in painted or b"\x1b" in bare + dumb + plain or re.sub(rb"\x1b\[[0-9]*m", b"", painted).replace(b"\r\n", b"\n") != plain:
            is_wrong(f"colour, {words[0]}", f"{painted!r} {bare!r}")


def imports(folder):
    """A listing loads none of the modules that take long."""
    if not wanted("imports"):
        return
    count()
    ran = run([sys.executable, "-I", "-S", "-B", "-X", "importtime", ROOT / "commands/__main__.py", "list", FOUR])
    loaded = {line.rsplit("|", 1)[1].strip() for line in ran.stderr.decode().splitlines() if line.startswith("import time:")}
    if ran.returncode or loaded & SLOW or "commands.list" not in loaded:
        is_wrong("imports", f"{ran.returncode} {sorted(loaded & SLOW)}")


def words(folder):
    for part in (norms, helps, numbers, causes, as_json, colours, imports):
        (folder / part.__name__).mkdir()
        part(folder / part.__name__)
