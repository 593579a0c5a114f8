"""Lists a store of tiles, record by record.

Without a STORE it reads standard input. It prints a line for each record: number, tile, answer, mode, mark and the three values of pixel 15
in hex. Mark 0 is the first record of its picture, 1 a twin of an earlier one, 2 a refused record. The last line has the counts of the three marks.
Records with a place have face, column and row in place of the mark, or '-' where they are not placed, and the last line counts placed, unplaced
and refused records. A store is listed so where it reads better in that form; --form decides it. A refused store is the line 'store refused' and the
number. If the file looks like something else, it is listed all the same and standard error says what it looks like.
"""
from . import house, kinds
from .line import AS_STORE, FORM, JSON, Line, Option

LINE = Line(
    "[STORE]",
    options=[
        Option("--strict", "refuse the store with 12 where a record that is not refused has a reserved mode; standard error names the first"),
        Option("--head", "print a line of column headings first"),
        FORM,
        JSON,
        AS_STORE,
    ],
    example="knot list samples/four.store",
)
HEADINGS = {kinds.PLAIN: "record tile answer mode mark red green blue", kinds.PLACED: "record tile answer mode face column row red green blue"}
PLACES = house.Text(10, "placed unplaced bad", rows=lambda *counts: sum(counts), records=lambda *counts: sum(counts))


def facts_of(text, form):
    """A listing by the names of its columns: what S-73 and S-103 print as '-' is null."""
    names = HEADINGS[form].split()[:-3]
    *rows, last = [line.split() for line in text.decode().splitlines()]

    def facts(words):
        values = words[len(names):]
        return {**{name: None if word == "-" else int(word) for name, word in zip(names, words)}, "pixel15": None if values[0] == "-" else values}

    return {"records": [facts(row) for row in rows], "counts": {word: int(number) for word, number in zip(last[::2], last[1::2])}}


def listed_places(store, strict):
    """The listing of a store of records with a place."""
    try:
        return house.over_store("run_places", bytes([strict]) + store, PLACES, size=kinds.PLACED)
    except house.Refused as error:
        damaged = [record for record, _, cause in kinds.Reading(store, kinds.PLACED).faults if cause == error.number]
        raise house.Refused(error.number, error.line, f"{error}: first damaged record {damaged[0]}") if damaged else error from None


def has_doubts(store, text):
    """Whether a listed file may look like something else: one with a refused record."""
    counts = [int(word) for word in text.splitlines()[-1].split()[1::2]]
    return counts[-1] > 0 and not kinds.is_sure(store, sum(counts), counts[-1])


def listed(asked):
    """The listing and its form, with a remark where the file looks like something else: a store without a refused record never does."""
    form, store = kinds.form_asked(asked), house.read(asked.store, kinds.MOST)
    if form == kinds.PLACED:
        return listed_places(store, asked.strict), form
    text = refused = None
    try:
        text = house.listed(store, asked.strict)
    except house.Refused as error:
        refused = error
    if form is None and (refused or has_doubts(store, text)):
        if kinds.form_to_show(store) == kinds.PLACED:
            return listed_places(store, asked.strict), kinds.PLACED
        kinds.remark_on(store)
    if refused:
        raise refused
    return text, kinds.PLAIN


def run(asked):
    text, form = listed(asked)
    if asked.json:
        house.put_json({"name": house.read_last, **({"form": form} if form == kinds.PLACED else {}), **facts_of(text, form)})
        return
    house.put((HEADINGS[form] + "\n").encode() + text if asked.head else text)
