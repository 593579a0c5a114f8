"""Takes a record out of a store, puts one back, appends one, or makes one of a block.

take writes record N of STORE, 24 bytes, whatever is in it. put writes STORE with RECORD as its record N. append writes STORE with RECORD
behind its last. make writes a record of a tile number, a FORMAT (signed or unsigned) and the 16 bytes of a BLOCK. A record of 24 bytes is a
store of one, and an empty file a store of none. A RECORD that the record call refuses is not put into a store, and a STORE that looks like
something else is refused with 28. OUT is written whole or not at all, and is none of the files that are read.
"""
from . import fieldtext, house, kinds
from .line import AS_STORE, Line

LINE = Line(
    "take STORE N OUT",
    "put STORE N RECORD OUT",
    "append STORE RECORD OUT",
    "make TILE FORMAT BLOCK OUT",
    options=[AS_STORE],
    example="knot record take samples/four.store 1 one.record",
    choices={"FORMAT": fieldtext.FORMATS},
)
HIGHEST_TILE = 2**32 - 1


def whole_record(path):
    """A record by itself, which the record call does not refuse."""
    record = house.read(path, house.RECORD)
    if len(record) != house.RECORD:
        raise house.record_refused(6, f"a record has 24 bytes, and this {'more' if len(record) > house.RECORD else len(record)}")
    return house.record_in(record, 0)


def store_with(asked):
    """The store, and where its record N begins: there is one, whatever the record call answers for it."""
    n = house.number(asked.n, "N")
    store = kinds.store_to_change(asked.store, asked.as_store)
    count = len(house.record_answers(store))
    if n >= count:
        raise house.no_record(n, count)
    return store, n * house.RECORD


def take(asked):
    house.keep_apart(asked.out, asked.store)
    store, at = store_with(asked)
    return store[at:at + house.RECORD]


def put(asked):
    house.keep_apart(asked.out, asked.store, asked.record)
    store, at = store_with(asked)
    return store[:at] + whole_record(asked.record) + store[at + house.RECORD:]


def append(asked):
    house.keep_apart(asked.out, asked.store, asked.record)
    store = kinds.store_to_change(asked.store, asked.as_store)
    if len(house.record_answers(store)) == house.STORE // house.RECORD:
        raise house.record_refused(5, "it has 2,000 records, the most that a store has")
    return store + whole_record(asked.record)


def make(asked):
    tile = house.number(asked.tile, "TILE", HIGHEST_TILE)
    form = fieldtext.format_number(asked.format)
    house.keep_apart(asked.out, asked.block)
    block = house.read(asked.block, house.BLOCK)
    if len(block) != house.BLOCK:
        raise house.Refused(2, "block refused 2\n")
    return tile.to_bytes(4, "little") + bytes([form, 0, 0, 0]) + block


def run(asked):
    part = {"take": take, "put": put, "append": append, "make": make}[asked.chosen.split()[0]]
    house.write_whole(asked.out, part(asked))
