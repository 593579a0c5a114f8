"""What each command does with each kind of wrong file: the table of tests/people/wrong-files.md is what the commands are seen to do.

tests/people/run --table prints it, to be put there.
"""
import random
import re

from harness import ROOT, SAMPLES, check, count, is_wrong, run, skipped, wanted
from standins import uses_kinds

PAGE = ROOT / "tests/people/wrong-files.md"
CHANCE = random.Random(36)
BLACK = bytes(16)


def picture():
    """A block of mode 11."""
    return b"\x03" + CHANCE.randbytes(15)


def record(tile, form=0, block=None, spare=b"\0\0\0"):
    return tile.to_bytes(4, "little") + bytes([form]) + spare + (picture() if block is None else block)


def placed(tile, face, column, row, block=None, form=0):
    place = bytes([form, face]) + column.to_bytes(2, "little") + row.to_bytes(2, "little")
    return tile.to_bytes(4, "little") + place + bytes(6) + (picture() if block is None else block)


def probe(edge, block=None):
    places = [(face, column, row) for face in range(6) for row in range(edge) for column in range(edge)]
    return b"".join(placed(n, *place, block) for n, place in enumerate(places))


def files():
    """Each kind of file by its words in the table."""
    plain, bad = [record(n) for n in range(12)], record(99, 2)
    faces = [placed(n, n, 0, 1) for n in range(6)]
    dds = (SAMPLES / "five.dds").read_bytes()
    return {
        "an empty file": b"",
        "a store": b"".join(plain),
        "a store, one record of 12 refused": b"".join(plain[:-1]) + bad,
        "a store, half of it refused": b"".join(plain[:6]) + 6 * bad,
        "a store, more than half of it refused": b"".join(plain[:5]) + 7 * bad,
        "one record, and it is refused": bad,
        "a store of black tiles, one refused": b"".join(record(n, n == 1 and 2, BLACK) for n in range(12)),
        "a probe of edge 2": probe(2),
        "a probe of edge 15, black": probe(15, BLACK),
        "a probe of edge 15, black, one record refused": probe(15, BLACK)[:-32] + placed(9, 7, 0, 0),
        "a probe of edge 16": probe(16),
        "5 records with a place": b"".join(faces[:5]),
        "6 records with a place, one refused": b"".join(faces[:5]) + placed(5, 7, 0, 0),
        "12 records with a place, none placed": b"".join(placed(n, 255, 0, 0) for n in range(12)),
        "a DDS file": dds,
        "an older DDS file of 24 n bytes": dds[:84] + b"DXT1" + bytes(40) + bytes(64),
        "a Portable Float Map of 24 n bytes": b"PF\n4 4\n-1.0\n" + CHANCE.randbytes(192) + bytes(12),
        "240 bytes of anything": CHANCE.randbytes(240),
        "241 bytes of anything": CHANCE.randbytes(241),
        "70,000 bytes of zeros": bytes(70_000),
    }


def columns(folder):
    """The commands of each column of the table, with their words; None is the file. A command that does not go by the rule yet is left out."""
    out, one = str(folder / "OUT"), str(folder / "one")
    changing = [["clean", None, out], ["report", None, out]]
    for words in [words for words in changing if not uses_kinds(words[0])]:
        changing.remove(words)
        skipped.append(f"wrong files, {words[0]}: it does not go by commands/kinds.py yet")
    return {
        "list, audit": [["list", None], ["audit", None]],
        "infinities": [["infinities", None]],
        "check": [["check", None]],
        "clean, report, record": [*changing, ["record", "append", None, one, out]],
        "place": [["place", None, out]],
        "unplace": [["unplace", None, out]],
        "probe": [["probe", None, "2"]],
    }


def cell(words, path, out):
    """What a command does, in a word or two. It writes OUT where it is done and nowhere else, and tells one line at most."""
    out.unlink(missing_ok=True)
    words = [str(path) if word is None else word for word in words]
    ran = run([ROOT / "knot", *words])
    told, last = ran.stderr.decode().splitlines(), "".join(ran.stdout.decode(errors="replace").splitlines()[-1:])
    if out.exists() != (ran.returncode == 0 and str(out) in words) or len(told) > 1 or ran.returncode not in (0, 1):
        is_wrong(f"wrong file, {' '.join(words)}", f"status {ran.returncode}, told {told}, OUT is {'' if out.exists() else 'not '}there")
    if ran.returncode == 0:
        return "done, warns" if told else "done"
    refused = re.fullmatch("store refused ([0-9]+)(?: record [0-9]+)?", last)
    faulty = re.fullmatch("form (24|32) records ([0-9]+) refused ([0-9]+) damaged 0", last)
    return f"refused {refused[1]}" if refused else f"names {faulty[3]} of {faulty[2]}" if faulty else f"'{last}'"


def table(folder):
    """The table as it is seen: the outcomes of a column's commands, which are one unless something is wrong."""
    (folder / "one").write_bytes(record(1))
    made = columns(folder)
    rows = [["the file", *made], ["---"] * (1 + len(made))]
    for kind, data in files().items():
        (folder / "FILE").write_bytes(data)
        row = [kind]
        for commands in made.values():
            count()
            row.append(" / ".join(dict.fromkeys(cell(words, folder / "FILE", folder / "OUT") for words in commands)))
        rows.append(row)
    return rows


def lines_of(rows):
    return ["| " + " | ".join(row) + " |" for row in rows]


def wrong_files(folder):
    if not wanted("wrong file"):
        return
    seen = lines_of(table(folder))
    text = PAGE.read_text()
    page = text[text.find(seen[0]):].split("\n\n")[0].splitlines() if seen[0] in text else []
    for line in sorted(set(seen) ^ set(page)):
        is_wrong("wrong file, tests/people/wrong-files.md", f"{'seen' if line in seen else 'on the page'}: {line}")
    overridden(folder)


def placed_shown(path):
    """A probe is listed and audited as records with a place, without a warning."""
    for command, last in (("list", b"placed 24 unplaced 0 bad 0"), ("audit", b"damaged 0 refused 0 copies 0")):
        ran = run([ROOT / "knot", command, path])
        count()
        if (ran.returncode, ran.stdout.splitlines()[-1], ran.stderr) != (0, last, b""):
            is_wrong(f"wrong file, {command} of a probe", f"{ran.returncode} {ran.stdout[-60:]!r} {ran.stderr!r}")


def overridden(folder):
    """--as-store takes a file as it is given, and silences the warning; the line says what the file looks like, and of the flag."""
    path, out, one = folder / "FILE", folder / "OUT", folder / "one"
    path.write_bytes(probe(2))
    looks = f"{path}: it looks like a store of 24 records with a place, such as a probe; --as-store silences this"
    ran = run([ROOT / "knot", "infinities", path])
    count()
    if (ran.returncode, ran.stderr.decode()) != (0, f"knot infinities: {looks}\n"):
        is_wrong("wrong file, infinities warns", f"{ran.returncode} {ran.stderr!r}")
    for command in ("list", "audit", "infinities"):
        check(f"wrong file, {command} --as-store", [command, "--as-store", path], 0)
    placed_shown(path)
    out.unlink(missing_ok=True)
    check("wrong file, why", ["place", path, out], 1, b"store refused 28\n", f"{path}: refused, 28: it looks like a store of 24 records with a place, such as a probe; --as-store overrides")
    check("wrong file, place --as-store", ["place", SAMPLES / "small.probe", out, "--as-store"], 1, b"store refused 7\n", "refused, 7")
    check("wrong file, record --as-store", ["record", "append", path, one, out, "--as-store"], 0, b"")
    text = folder / "text"
    text.write_bytes(run([ROOT / "knot", "fields", SAMPLES / "lamp.block", "unsigned"]).stdout)
    check("wrong file, block --into", ["block", text, "--into", path, "3", out], 1, b"store refused 28\n", "refused, 28")
    check("wrong file, block --into --as-store", ["block", text, "--as-store", "--into", path, "3", out], 0, b"")
    path.write_bytes(probe(16))
    check("wrong file, list --as-store of a probe of edge 16", ["list", "--as-store", path], 1, b"store refused 5\n", "more than 2,000 records")
    path.write_bytes((SAMPLES / "covered.store").read_bytes())
    check("wrong file, unplace", ["unplace", path, out], 1, b"store refused 28\n", "it looks like a store of 12 records of 24 bytes")
    check("wrong file, probe --as-store", ["probe", path, "1", "--as-store"], 1, None, "refused, 7")
    check("wrong file, check of a probe", ["check", SAMPLES / "small.probe"], 0, b"form 32 records 24 refused 0 damaged 0\n")
    check("wrong file, a probe checked as 24-byte records", ["check", "--form", "24", SAMPLES / "small.probe"], 1, None, "of 32 records 20 are refused and 0 damaged")
    path.write_bytes(files()["an older DDS file of 24 n bytes"])
    check("wrong file, check of a DDS file", ["check", path], 1, None, "2 are refused and 0 damaged; it looks like a DDS file")
    path.write_bytes((SAMPLES / "covered.store").read_bytes())
    check("wrong file, 28 as JSON", ["probe", "--json", path, "1"], 1, None, "refused, 28")
