"""Makes a block from the text that `knot fields` prints.

OUT then has the sixteen bytes of the block. With --into it has STORE with the block in record N, whose tile and format stay. --picture writes
nothing: it prints what the fields show, a line a pixel with red, green and blue in hex. The lines of TEXT may come in any order. Those that a
one-region block does not have may be left out, and so may region1, which follows from the partition. If the text does not parse, or no block
has its fields, the reason is told and nothing is written. A STORE that looks like something else is refused with 28. TEXT may be - for
standard input.
"""
from . import fieldtext, house, kinds
from .line import AS_STORE, Line, Option

LINE = Line(
    "TEXT OUT",
    "TEXT --into STORE N OUT",
    "--picture TEXT",
    options=[Option("--into", "put the block into a record of a store"), Option("--picture", "print what the fields show"), AS_STORE],
    example="knot fields samples/lamp.block unsigned | knot block - lamp.block",
)


def show(path):
    said = fieldtext.parsed(house.read(path, fieldtext.TEXT))
    fieldtext.block_of(said, house.read_last)
    house.put(fieldtext.picture_of(fieldtext.record_of({"region1": [fieldtext.region1_of(said)]} | said)))


def store_with_block(asked, said, name):
    n = house.number(asked.n, "N")
    store = kinds.store_to_change(asked.store, asked.as_store)
    record = house.record_in(store, n)
    if said["format"] != [record[4]]:
        said_format, own = fieldtext.FORMATS[said["format"][0]], fieldtext.FORMATS[record[4]]
        raise house.Usage(f"{name} is {said_format} and record {n} is {own}: a record's format stays")
    at = n * house.RECORD + 8
    return store[:at] + fieldtext.block_of(said, name) + store[at + house.BLOCK:]


def run(asked):
    if asked.picture:
        show(asked.text)
        return
    house.keep_apart(asked.out, asked.text, *[asked.store] if asked.into else [])
    said, name = fieldtext.parsed(house.read(asked.text, fieldtext.TEXT)), house.read_last
    house.write_whole(asked.out, store_with_block(asked, said, name) if asked.into else fieldtext.block_of(said, name))
