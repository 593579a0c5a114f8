"""Moves a store to records with a place, or puts one record in its place.

MADE becomes a store of 32-byte records, none of them placed, with the tiles, formats and blocks of GIVEN, a store of 24-byte records. It prints
'moved' and the number of records. 'knot unplace' moves the store back to the same bytes.

With six words, OUT becomes STORE, which has records with a place, with record N on FACE at COLUMN and ROW: no other byte changes. FACE is 0 to 5
or +X, -X, +Y, -Y, +Z, -Z, in that order, or 'none' with column and row 0, which takes the place away. It prints the record and its place.

A refused store is the line 'store refused' and the number, and no file is written: 28 where the file looks like something else, 5 or 6 for its
length. Then 1 or 7 of the first refused record; of one record, 8 if there is none of that number, 1 or 7 of it, 17 for a FACE that is none or a
position of 'none'. What is written may not be what is read.
"""
from . import faces, house, kinds, moving
from .line import AS_STORE, Line

LINE = Line(
    "GIVEN MADE",
    "STORE N FACE COLUMN ROW OUT",
    options=[AS_STORE],
    example="knot place samples/twins.store new.store\nknot place new.store 3 +Y 0 1 placed.store",
    dashed=faces.DASHED,
    choices={"FACE": (*faces.NAMES, faces.NOWHERE)},
)
# The program takes a record's number in four bytes: a higher one is refused as this one is. A position has two bytes.
MOST, MOST_POSITION = 2**32 - 1, 2**16 - 1


def refused(number, n, face, count):
    reason = house.meaning(number)
    if number == 8:
        reason = house.no_record_in_words(n, count)
    elif number == 17:
        reason = f"record {n}: {'one that is not placed has column 0 and row 0' if face == faces.NONE else faces.no_face(face)}"
    elif number in (1, 7):
        reason = f"record {n}: {reason}"
    return house.Refused(number, f"store refused {number}\n", reason)


def put(asked):
    n = house.number(asked.n, "N")
    face = faces.number(asked.face, or_none=True)
    column, row = (house.number(word, what, MOST_POSITION) for word, what in ((asked.column, "COLUMN"), (asked.row, "ROW")))
    house.keep_apart(asked.out, asked.store)
    store = kinds.placed_to_change(asked.store, asked.as_store, "knot place GIVEN MADE makes records with a place of it")
    wish = min(n, MOST).to_bytes(4, "little") + bytes([face if face <= faces.NONE else faces.WRONG])
    wish += b"".join(position.to_bytes(2, "little") for position in (column, row))
    number, made = moving.answered("run_put", wish + store, len(store))
    if number != 0:
        raise refused(number, n, face, len(store) // kinds.PLACED)
    house.write_whole(asked.out, made)
    house.say(f"record {n} " + ("not placed\n" if face == faces.NONE else f"face {face} column {column} row {row}\n"), asked.out)


def run(asked):
    if asked.n is None:
        moving.move(asked, "run_place", kinds.store_to_change, kinds.PLAIN, kinds.PLACED)
    else:
        put(asked)
