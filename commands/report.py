"""Writes a page to look at and sign before a clean-up.

OUT.html is one page that needs nothing else. It says first what is damaged or refused and what a clean-up would remove, with room for two
signatures on the first printed sheet; then the command that runs exactly the clean-up that is signed. Records that look alike are drawn beside
each other, copies are listed by the record that stays, and all records are small tiles. The page holds the SHA-256 of the store before and
after the clean-up, which 'knot clean --signed OUT.html' reads.

OUT.html must not be there yet; it is written whole or not at all. The same store, version and date make the same page, byte for byte. A refused
store is the line 'store refused' and the number, and nothing is written; so is, with 28, a file that looks like something else.
"""
import base64
import datetime
import hashlib
import html
import json
import os
import pathlib
import re
import shlex
import stat
import string
import struct

from . import audit, clean, house, infinities, kinds
from .line import AS_STORE, Line, Option

LINE = Line(
    "STORE OUT.html",
    options=[Option("--date", "the date on the page; without it today, in UTC", "YYYY-MM-DD"), Option("--force", "overwrite OUT.html where it is there"), AS_STORE],
    example="knot report --date 2026-11-16 samples/covered.store page.html",
)
ROOT = pathlib.Path(__file__).resolve().parent.parent
PAGE, SHARED = ROOT / "commands/page", ROOT / "web/page"
STYLES = [SHARED / "shared.css", PAGE / "page.css"]
SCRIPTS = [SHARED / name for name in ("colours.js", "records.js", "endpoints.js", "draw.js", "cards.js")] + [PAGE / "page.js"]
# the bytes of a record's 48 values, and of its fields
VALUES, FIELDS = 96, 44
# the programs over runs of blocks answer a record with these bytes before the values, and before the fields
BEFORE_VALUES, BEFORE_FIELDS = 4, 1
# the kinds of records by their letters in the page's data, as the sheet's filter names them
KINDS = {"": "all", "a": "looks alike", "c": "copies", "d": "damaged", "x": "refused"}
PICTURES = "sca"
# the rows of a printed column of a list: beside each other they fill a sheet of A4
COLUMN = 72


def count(number, word, words=None):
    return f"{number:,} {word if number == 1 else words or word + 's'}"


def are(number):
    return "is" if number == 1 else "are"


# ---- what is known of a store


class Facts:
    """What the proved programs tell of a store, and what a clean-up would leave."""

    def __init__(self, name, store):
        self.name, self.store = name, store
        self.text, self.audit = audit.audited(name, store)
        self.twins = self.audit["twins"]
        self.answers, self.kinds = kinds_of(store, self.twins)
        self.left, removed = removal(store)
        if removed != [(twin["record"], twin["tile"], twin["stays"], twin["stays_tile"]) for twin in self.twins if twin["verdict"] == "copy"]:
            raise house.Trouble("the audit's copies are not the records that the clean-up removes")
        self.removed = removed
        self.records, self.alike = len(store) // house.RECORD, self.kinds.count("a")
        self.damaged, self.refused = self.kinds.count("d"), self.kinds.count("x")
        self.before, self.after = (hashlib.sha256(data).hexdigest() for data in (store, self.left))
        told = self.audit["counts"]
        if (told.get("damaged", self.damaged), told.get("refused", self.refused)) != (self.damaged, self.refused):
            raise house.Trouble("the audit and the listing count other damaged or refused records")

    def tile(self, n):
        return int.from_bytes(self.store[n * house.RECORD:n * house.RECORD + 4], "little")

    @property
    def stays(self):
        return self.records - len(self.removed)

    @property
    def pictures(self):
        """How many pictures are shown by more than one record: each is of a record that is no twin itself."""
        twins = {twin["record"] for twin in self.twins}
        return len({twin["stays"] for twin in self.twins} - twins)


def kinds_of(store, twins):
    """Each record's answer and the letter of its kind, by the listing and the audit."""
    verdicts = {twin["record"]: twin["verdict"][0] for twin in twins}
    rows = [line.split() for line in house.listed(store).decode().splitlines()[:-1]]
    answers = [int(row[2]) for row in rows]
    return answers, "".join("x" if row[2] != "0" else "d" if row[3] == "0" else verdicts.get(n, "s") for n, row in enumerate(rows))


def removal(store):
    """The cleaned store, and for each removed record its number and tile and those of the record that stays."""
    left, told = clean.cleaned(store)
    lines = told.splitlines() if isinstance(told, (bytes, str)) else told
    words = [line.decode() if isinstance(line, bytes) else line for line in lines]
    return left, [tuple(map(int, line.split())) for line in words if re.fullmatch("[0-9]+( [0-9]+){3}", line.strip())]


def answered(program, records, before, size, asked):
    """What a program over a run of blocks answers for each of the records, without what is before it."""
    told, _ = house.program(program, b"".join(records[n] for n in asked))
    each = before + size
    if len(told) != each * len(asked):
        raise house.Trouble(f"the program {program} did not answer every record")
    answers = {n: told[k * each + before:(k + 1) * each] for k, n in enumerate(asked)}
    return b"".join(answers.get(n, bytes(size)) for n in range(len(records)))


def shown(store, kinds):
    """The values and the fields of each record that holds a picture, zeros for another."""
    records = [store[at + 4:at + 5] + store[at + 8:at + house.RECORD] for at in range(0, len(store), house.RECORD)]
    asked = [n for n, kind in enumerate(kinds) if kind in PICTURES]
    return answered("run_pixels", records, BEFORE_VALUES, VALUES, asked), answered("run_fields", records, BEFORE_FIELDS, FIELDS, asked)


def exposure(values):
    """In whole stops, the one exposure for all: the middle one of the lit pixels is at a quarter of white, or just below."""
    numbers = [number for (number,) in struct.iter_unpack("<e", values)]
    lit = sorted(top for top in map(max, numbers[::3], numbers[1::3], numbers[2::3]) if top > 0) or [0.25]
    return next((stops for stops in range(24, -16, -1) if lit[len(lit) // 2] * 2.0 ** stops <= 0.25), -16)


# ---- words


def damage_told(facts):
    """How many records are damaged and how many refused; nothing where none is."""
    total, said = count(facts.records, "record"), []
    if facts.damaged:
        said.append(f"{facts.damaged:,} of {total} {are(facts.damaged)} damaged")
    if facts.refused:
        said.append(f"{facts.refused:,} of {total} {are(facts.refused)} refused" if not facts.damaged else f"{facts.refused:,} {are(facts.refused)} refused")
    return " and ".join(said)


def removal_told(facts):
    removed = len(facts.removed)
    return f"The clean-up removes {removed:,} of {count(facts.records, 'record')}." if removed else "The clean-up removes nothing."


def alike_told(facts):
    if facts.alike == 1:
        return "1 record looks like an earlier one but has other bytes. It stays."
    return f"{facts.alike:,} records look like an earlier one but have other bytes. They stay." if facts.alike else ""


def verdict(facts):
    damage, rows = damage_told(facts), []
    if damage:
        them = "It has no picture and stays" if facts.damaged + facts.refused == 1 else "They have no picture and stay"
        rows.append(f'<p class="damage">{damage}.</p><p class="less">{them} in the store. <a href="#faults">See which</a> before you sign.</p>')
    rows.append(f"<p>{removal_told(facts)}</p>")
    if facts.removed:
        one = len(facts.removed) == 1
        rows.append(f'<p class="less">{"It is a copy" if one else "Each of them is a copy"}: a record with the same format and the same sixteen bytes stays.</p>')
    if facts.alike:
        rows.append(f'<p class="less">{alike_told(facts)} <a href="#twins">Look at {"it" if facts.alike == 1 else "them"}.</a></p>')
    return "".join(rows)


def mood(facts):
    return "worry" if facts.damaged + facts.refused else "removes" if facts.removed else "nothing"


def counts(facts):
    rows = [("records", facts.records, ""), ("damaged", facts.damaged, "bad"), ("refused", facts.refused, "bad"), ("removed", len(facts.removed), "goes"),
            ("stays" if facts.stays == 1 else "stay", facts.stays, ""), ("of them look alike", facts.alike, "")]
    return "".join(f'<li class="{name if number else ""}"><strong>{number:,}</strong>{word}</li>' for word, number, name in rows)


def safe(facts):
    if not facts.removed:
        return "The cleaned store would be the same file. No clean-up is needed."
    return ("Every picture of the store is still there afterwards, since a record is removed only if another with the same bytes stays. Removed tile numbers are "
            "kept in the receipt. The clean-up can be undone: <code>knot restore</code> brings back this store, byte for byte.")


def theorem(facts):
    covered = facts.audit["counts"]["covered"]
    if not facts.twins:
        return "No two records of this store show the same picture."
    return (f"The copies theorem covers {covered:,} of the {count(len(facts.twins), 'record')} that show the picture of an earlier one: there the same picture is proved to mean the same "
            "bytes. The clean-up does not rely on it, since it compares the bytes themselves.")


def signed(facts):
    name, removed = html.escape(facts.name), len(facts.removed)
    damage = damage_told(facts)
    return (f"The clean-up of {name} removes {removed:,} of {count(facts.records, 'record')}. It takes the store with SHA-256 <span class=\"sum\">{facts.before}</span> and "
            f"leaves a store of {count(facts.stays, 'record')} with SHA-256 <span class=\"sum\">{facts.after}</span>." + (f" {damage}; {'it stays' if facts.damaged + facts.refused == 1 else 'all of them stay'}." if damage else ""))


def twins_told(facts):
    if not facts.twins:
        return "No record shows the picture of an earlier one."
    removed = len(facts.removed)
    copies = f"{count(removed, 'copy is', 'copies are')} removed." if removed else ""
    return " ".join(text for text in (alike_told(facts), copies, "Each card shows one picture with all its records; those with records that look alike come first.") if text)


# ---- what to do next


def file_name(name, ending=""):
    """A file's name as a word of a shell; a name that does not print is left to the reader."""
    if not name.isprintable() or name == "standard input":
        return "STORE" + ending
    return shlex.quote(("./" if name.startswith("-") else "") + name + ending)


def command(which, text):
    return f'<div class="command"><pre><code id="{which}">{html.escape(text)}</code></pre><button type="button" data-copy="{which}">Copy</button></div>'


def next_steps(facts):
    if not facts.removed:
        return "<p>Nothing: there is no copy to remove.</p>"
    store, out, receipt, restored = (file_name(facts.name, ending) for ending in ("", ".cleaned", ".receipt", ".restored"))
    steps = [
        "Sign, in the lines above or on the first printed sheet.",
        "Run the clean-up. It refuses any store but the one that was signed, and writes the receipt before the cleaned store."
        + command("clean-command", f"knot clean {store} {out} --signed {facts.before} --receipt {receipt}"),
        "Check the result: its sum must be the second one above." + command("check-command", f"printf '%s  %s\\n' {facts.after} {out} | sha256sum -c"),
        "Keep the receipt beside the cleaned store. It has the tile number of each removed record and the record that stays for it. With it the clean-up can be undone:"
        + command("restore-command", f"knot restore {out} {receipt} {restored}"),
    ]
    return '<ol class="steps">' + "".join(f"<li>{step}</li>" for step in steps) + "</ol>"


# ---- lists


def table(heads, rows, name, shape="list"):
    """A list as tables of one printed column each; the screen shows them as one."""
    head = "<thead><tr>" + "".join(f'<th scope="col">{word}</th>' for word in heads) + "</tr></thead>"
    lines = ["<tr>" + "".join(f"<td>{cell}</td>" for cell in row) + "</tr>" for row in rows]
    columns = ["".join(lines[at:at + COLUMN]) for at in range(0, len(lines), COLUMN)]
    return f'<div class="{shape}" tabindex="0" role="group" aria-label="{name}">' + "".join(f"<table>{head}<tbody>{column}</tbody></table>" for column in columns) + "</div>"


def link(n):
    return f'<a href="#record-{n}">{n}</a>'


def faults(facts):
    if not facts.damaged + facts.refused:
        return ""
    told = ["<p>A clean-up leaves damaged and refused records as they are. To mend them, look at where the store came from.</p><ul class=\"faults\">"]
    if facts.damaged:
        told.append("<li>damaged: the block has a reserved mode, which no encoder writes. It holds no picture.</li>")
    told += [f"<li>refused, {answer}: {html.escape(house.MEANINGS[answer])}.</li>" for answer in sorted(set(facts.answers) - {0})]
    rows = [(link(n), facts.tile(n), "damaged" if kind == "d" else f"refused, {facts.answers[n]}") for n, kind in enumerate(facts.kinds) if kind in "dx"]
    return "".join(told) + "</ul>" + table(["record", "tile", "cause"], rows, "Damaged and refused records")


def removed_list(facts):
    if not facts.removed:
        return "<p>No tile is removed.</p>"
    rows = [(link(n), tile, stays_tile, link(stays)) for n, tile, stays, stays_tile in facts.removed]
    return table(["record", "tile removed", "tile that stays", "its record"], rows, "Removed tiles", "list four gone")


def infinities_list(facts):
    rows = []
    for line in house.over_store("run_infinities", facts.store, infinities.ENDS).decode().splitlines()[:-1]:
        n, tile, many, pixel, channel = line.split()
        rows.append((link(n), tile, many, f"{pixel}, {channel}"))
    return table(["record", "tile", "values", "first pixel"], rows, "Minus infinity", "list four") if rows else "<p>No value is minus infinity.</p>"


# ---- the page


def encoded(data):
    return base64.b64encode(data).decode()


def data_of(facts):
    values, fields = shown(facts.store, facts.kinds)
    return {
        "store": encoded(facts.store), "values": encoded(values), "fields": encoded(fields), "kinds": facts.kinds, "answers": facts.answers,
        "meanings": {answer: house.MEANINGS[answer] for answer in sorted(set(facts.answers) - {0})},
        "twins": [[twin["record"], twin["stays"], int(twin["verdict"] == "copy"), int(twin["covered"])] for twin in facts.twins],
        "exposure": exposure(values),
    }


def page_of(name, store, date):
    facts = Facts(name, store)
    told = {
        "name": name, "mood": mood(facts), "before": facts.before, "after": facts.after, "length": f"{len(store):,}", "records": count(facts.records, "record"),
        "leftTold": f"{count(facts.stays, 'record')}, {len(facts.left):,} bytes", "version": facts.audit["knot"], "commit": facts.audit["commit"], "kit": facts.audit["kit"],
        "date": date, "theorem": theorem(facts), "twinsTold": f"Pictures that several records show: {facts.pictures:,}", "told": twins_told(facts),
        "faultsTold": f"Damaged and refused records: {facts.damaged + facts.refused:,}", "alikeTold": f"Records that look alike: {facts.alike:,}",
        "removedTold": f"Removed tiles: {len(facts.removed):,}", "audit": audit.headed(facts.text, facts.audit),
    }
    has_faults = facts.damaged + facts.refused > 0
    made = {
        "css": "\n".join(path.read_text() for path in STYLES), "js": "\n".join(path.read_text() for path in SCRIPTS),
        "data": json.dumps(data_of(facts), separators=(",", ":")), "verdict": verdict(facts), "counts": counts(facts), "safe": safe(facts), "signed": signed(facts),
        "next": next_steps(facts), "faults": faults(facts), "faultsHidden": "" if has_faults else " hidden", "removed": removed_list(facts),
        "faultsLink": '<li><a href="#faults">Damaged and refused</a></li>' if has_faults else "", "infinities": infinities_list(facts),
        "sheetKinds": "".join(f'<option value="{letter}">{word}</option>' for letter, word in KINDS.items() if not letter or letter in facts.kinds),
    }
    template = string.Template((PAGE / "page.html").read_text())
    return template.substitute(made, **{key: html.escape(str(value)) for key, value in told.items()})


# ---- the command


def date_of(word):
    try:
        if re.fullmatch("[0-9]{4}-[0-9]{2}-[0-9]{2}", word):
            return datetime.date.fromisoformat(word).isoformat()
    except ValueError:
        pass
    raise house.Usage(f"--date takes a day as YYYY-MM-DD, and not '{house.shown(word, 40)}'")


def today():
    return datetime.datetime.now(datetime.timezone.utc).date().isoformat()


def is_device(path):
    """Whether a name is a device or a pipe, on which nothing is overwritten."""
    try:
        kind = os.stat(path).st_mode
    except (OSError, ValueError):
        return False
    return not stat.S_ISREG(kind) and not stat.S_ISDIR(kind)


def run(asked):
    date, out = today() if asked.date is None else date_of(asked.date), asked.out
    house.keep_apart(out, asked.store)
    over = asked.force or is_device(out)
    if not over and not house.is_standard_output(out) and os.path.lexists(out):
        raise house.Trouble(f"{house.shown(out)}: it is there already, and is left as it is (--force overwrites it)")
    store = kinds.store_to_change(asked.store, asked.as_store)
    name = os.path.basename(house.read_last)
    house.write_whole(out, page_of(name, store, date).encode(errors="backslashreplace"), over=over)
