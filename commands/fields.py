"""Prints the fields of a block as text, from which `knot block` makes the block again.

A block of 16 bytes does not record its format, so pass signed or unsigned. FILE is a format and a block (17 bytes) or a record (24 bytes). Of a
STORE say which record, by its number. The fields are as stored, before any sign extension or transform. A
record's own format stays. A record that is refused and a block of a reserved mode have no fields.
"""
from . import fieldtext, house
from .line import Line, Option

LINE = Line(
    "BLOCK FORMAT",
    "FILE",
    "STORE N",
    options=[Option("--picture", "print what the block shows: a line a pixel, red, green and blue in hex")],
    example="knot fields samples/lamp.block unsigned\nknot fields samples/four.store 0",
    choices={"FORMAT": fieldtext.FORMATS},
)
# An answer of run_fields: a number, and the fields.
ANSWER = 45


def format_and_block(data, path, word):
    """What a file of one block holds, as run_fields reads it."""
    size, name = len(data), house.shown(path)
    if size == house.BLOCK:
        if word is None:
            raise house.Usage(f"{name} is a bare block, which does not say its format: add signed or unsigned")
        return bytes([fieldtext.format_number(word)]) + data
    if size == house.BLOCK + 1:
        own = data
    elif size == house.RECORD:
        own = own_block(house.record_in(data, 0))
    elif size and size % house.RECORD == 0:
        raise house.Usage(f"{name} is a store: say which record")
    else:
        many = "more than 48,000" if size > house.STORE else size
        raise house.Refused(2, "block refused 2\n", f"it has {many} bytes: a block has 16, with its format 17, a record of a store 24")
    if word is not None and own[0] != fieldtext.format_number(word):
        raise house.Usage(f"{name} says its own format, which is not {word}")
    return own


def own_block(record):
    return record[4:5] + record[8:]


def run(asked):
    # A word behind the file is a format or a number: the first of the two forms is the one that fits.
    path, word = asked.file or asked.block, asked.format
    data = house.read(path, house.STORE)
    if word is None or not word[:1].isdigit():
        given = format_and_block(data, path, word)
    else:
        given = own_block(house.record_in(data, house.number(word, "N")))
    written = house.ask("run_fields", given, lambda answer: len(answer) == ANSWER)
    if written[0] != 0:
        raise house.Refused(written[0], f"block refused {written[0]}\n")
    house.put(fieldtext.picture_of(written[1:]) if asked.picture else fieldtext.text_of(written[1:]))
