"""Audits the twins of a store, before any of them is deleted, or the copies of a store of records with a place.

Without a STORE it reads standard input. Lines that begin with '#' have the version, the commit and the kit, and the store's name, SHA-256,
bytes and records. Then a line names the columns, and a line follows for each twin: number and tile, number and tile of the record that stays, the
verdict, and 'covered' where the copies theorem speaks of the two. A 'copy' has the same format and the same sixteen bytes as the record that
stays, and 'knot clean' removes it; an 'alike' has other bytes, and stays. The last line has the counts, damaged and refused records first. A
refused store is the line 'store refused' and the number.
Of records with a place each line is a copy: its number, tile, face, column and row, and those of the first record of the same format and bytes.
Both are needed, each at its place: no command removes a record with a place. A store is audited so where it reads better in that form; --form decides it.
"""
from . import house, kinds
from .line import AS_STORE, FORM, JSON, Line

LINE = Line("[STORE]", options=[FORM, JSON, AS_STORE], example="knot audit samples/covered.store")
ENDS = house.Text(
    6,
    "damaged refused copies alike covered before",
    rows=lambda damaged, refused, copies, alike, covered, before: copies + alike,
    head="record tile stays its-tile verdict theorem",
)
PLACES = house.Text(
    10, "damaged refused copies", rows=lambda damaged, refused, copies: copies, head="record tile face column row first its-tile its-face its-column its-row"
)
NEEDED = "# records with a place: each of two copies is needed at its place, and nothing is removed"


def identity():
    """What `knot --version` tells, by its first words: knot, commit, kit."""
    return dict(line.split(" ", 1) for line in house.version().splitlines())


def twins_in(rows):
    return [
        {"record": int(record), "tile": int(tile), "stays": int(stays), "stays_tile": int(stays_tile), "verdict": verdict, "covered": cover == "covered"}
        for record, tile, stays, stays_tile, verdict, cover in rows
    ]


def copies_in(rows):
    """The copies of a store of records with a place, each with the first record of its format and bytes: what is not placed is null."""
    def record(words):
        return {name: None if word == "-" else int(word) for name, word in zip(("record", "tile", "face", "column", "row"), words)}

    return [{**record(row[:5]), "first": record(row[5:])} for row in rows]


# Of each form the program, what its whole text is, and the rows by name.
FORMS = {kinds.PLAIN: ("run_audit", ENDS, "twins", twins_in), kinds.PLACED: ("run_places_audit", PLACES, "copies", copies_in)}


def audited(name, store, form=kinds.PLAIN):
    """What the audit tells of a store: the program's text, and the same facts by their names."""
    import hashlib
    program, shape, word, named = FORMS[form]
    text = house.over_store(program, store, shape, size=form).decode()
    _, *rows, last = [line.split() for line in text.splitlines()]
    facts = {
        **identity(),
        "store": {"name": name, "sha256": hashlib.sha256(store).hexdigest(), "bytes": len(store), "records": len(store) // form},
        word: named(rows),
        "counts": {word: int(number) for word, number in zip(last[::2], last[1::2])},
    }
    return text, facts


def headed(text, facts):
    """The program's text behind what it is of."""
    store = facts["store"]
    lines = [
        f"# knot {facts['knot']} commit {facts['commit']}",
        f"# kit {facts['kit']}",
        f"# store {store['name']}",
        f"# sha256 {store['sha256']}",
        f"# bytes {store['bytes']} records {store['records']}",
        *([NEEDED] if "twins" not in facts else []),
    ]
    return "\n".join(lines) + "\n" + text


def in_colour(text):
    return text.replace(" copy ", f" {house.painted('copy', 'good')} ").replace(" alike -", f" {house.painted('alike', 'doubtful')} -")


def run(asked):
    store, form = kinds.store_to_audit(asked)
    text, facts = audited(house.read_last, store, form)
    if asked.json:
        house.put_json(facts)
    else:
        house.put(headed(in_colour(text), facts))
