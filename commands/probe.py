"""Says whether a store is a probe, writes a face of it, or makes a probe.

STORE has records with a place, and EDGE is the number of blocks on an edge, 1 to 16; without it, the edge that fits the number of records. If the
store is a probe, it prints 'probe', the edge and the number of records. Else it prints 'store refused', the number and, if a record is why,
'record' and the number of the first such record; 19 without EDGE says that no edge fits. With a FACE, 0 to 5 or +X, -X, +Y, -Y, +Z, -Z, it prints
nothing and writes that face as a Portable Float Map: each block in the format of its own record, so that signed and unsigned ones may be on one
face. A refusal writes no file. A file that looks like something else is refused with 28.

--make writes a probe to OUT, of six DDS files in the order of the faces. All are squares of 4 to 64 pixels, of one size and one format, and their
blocks are taken as they are. A file that does not fit is the line 'file refused' and the number: 13, 14, 15 as 'knot dds' has them, 14 also for
more than 64 pixels on a side, 16 for a side that is no multiple of 4, 19 for width and height that differ, 15 for another size and 1 for another
format than the first file's.
"""
import re

from . import faces, house, kinds
from .line import AS_STORE, JSON, Line, Option

LINE = Line(
    "STORE [EDGE]",
    "STORE EDGE FACE OUT.pfm",
    "--make OUT +X.dds -X.dds +Y.dds -Y.dds +Z.dds -Z.dds",
    options=[
        Option("--make", "make a probe of six DDS files"),
        Option("--first-tile", "the tile number of the first record that --make makes, 0 if it is not given", value="N"),
        Option("--first-level", "take the first mip level of each DDS file"),
        JSON,
        AS_STORE,
    ],
    example="knot probe samples/small.probe\nknot probe samples/small.probe 2 0 face.pfm\nknot probe --make new.probe 0.dds 1.dds 2.dds 3.dds 4.dds 5.dds",
    dashed=faces.DASHED,
    choices={"FACE": faces.NAMES},
)
TELL, FACE, FIT, FACE_EXR = range(4)
# The number by which the program is asked for a face, by the kind of the file.
FACE_KINDS = {"pfm": FACE, "exr": FACE_EXR}
# The program takes an edge and a face of four bytes: a higher number is refused as this one is.
MOST = 2**32 - 1
REFUSED = rb"store refused ([0-9]+)(?: record ([0-9]+))?\n"
# The most pixels on a side of a face, and on a side of a block.
MOST_SIDE, BLOCK_SIDE = 64, 4


def reason(number, kind, face, record, length):
    if kind == FIT and number == 19:
        has = f"{length:,} bytes" if length % kinds.PLACED else f"{length // kinds.PLACED:,} records"
        has = f"more than {kinds.MOST // kinds.PLACED:,} records" if length > kinds.MOST else has
        return f"it has {has}, and a probe has 6 for each block of a face, a square of 1 to 16 blocks on an edge"
    if number == 24:
        return faces.no_face(face)
    return house.meaning(number) + (f": record {record['record']}" if record else "")


def answer_of(store, kind, edge, face, is_whole):
    """What the program answers, where it does not refuse."""
    question = bytes([kind]) + b"".join(min(number, MOST).to_bytes(4, "little") for number in (edge, face))
    answer = house.ask("run_probe", question + store, lambda answer: re.fullmatch(REFUSED, answer) or is_whole(answer, len(store)))
    refused = re.fullmatch(REFUSED, answer)
    if refused:
        record = {"record": int(refused[2])} if refused[2] else {}
        raise house.Refused(int(refused[1]), answer, reason(int(refused[1]), kind, face, record, len(store)), **record)
    return answer


def line_of(edge):
    return f"probe edge {edge} records {6 * edge * edge}\n"


def edge_of(length):
    """The edge of a probe of so many bytes; 0 if there is none."""
    return next((edge for edge in range(1, 17) if 6 * edge * edge * kinds.PLACED == length), 0)


def facts(asked, edge, name):
    """What is printed of a probe."""
    if not asked.json:
        return house.painted(line_of(edge).rstrip("\n"), "good") + "\n"
    import json
    return json.dumps({"name": name, "edge": edge, "records": 6 * edge * edge}, indent=1) + "\n"


def is_told(edge):
    """Whether an answer is the line of a probe: of that edge, or of the one that fits where none is said."""
    def is_whole(answer, length):
        fits = edge_of(length)
        return fits != 0 and edge in (None, fits) and answer == line_of(fits).encode()

    return is_whole


def tell(asked, edge):
    store = kinds.placed_to_change(asked.store, asked.as_store)
    answer = answer_of(store, FIT if edge is None else TELL, edge or 0, 0, is_told(edge))
    house.put(facts(asked, int(answer.split()[2]), house.read_last))


def face_file(store, edge, face, kind):
    """A face as the proved program writes it: a Portable Float Map or an OpenEXR file."""
    from . import pictures
    start, size = pictures.start_and_size(kind, BLOCK_SIDE * edge, BLOCK_SIDE * edge)
    return answer_of(store, FACE_KINDS[kind], edge, face, lambda answer, _: answer.startswith(start) and len(answer) == size)


def write_face(asked, edge, face):
    house.keep_apart(asked.out, asked.store)
    house.write_whole(asked.out, face_file(kinds.placed_to_change(asked.store, asked.as_store), edge, face, "pfm"))


def unfit(number, path, words):
    return house.Refused(number, f"file refused {number}\n", words, house.shown(path))


def face_of(path, first_level, first):
    """Size, format and blocks of a file that is one face: `first` has those of the first file."""
    from . import dds, fieldtext
    width, height, form, blocks = dds.read(path, first_level)
    if form not in fieldtext.FORMATS:
        raise unfit(13, path, "it is a BC7 texture, and a probe has BC6H blocks")
    if max(width, height) > MOST_SIDE:
        raise unfit(14, path, f"it is {width:,} by {height:,} pixels, and a face has at most {MOST_SIDE} on a side")
    if width % BLOCK_SIDE or height % BLOCK_SIDE:
        raise unfit(16, path, f"it is {width} by {height} pixels, and a side of a face is a multiple of {BLOCK_SIDE}")
    if width != height:
        raise unfit(19, path, f"it is {width} by {height} pixels, and a face is a square")
    if first and width != first[0]:
        raise unfit(15, path, f"it is {width} by {width} pixels, and the first file is {first[0]} by {first[0]}")
    if first and form != first[1]:
        raise unfit(1, path, f"it is {form}, and the first file is {first[1]}: a probe is made in one format")
    return width, form, blocks


def make(asked):
    from . import fieldtext, moving
    if asked.as_store:
        raise house.Usage("--as-store is for a store, and --make reads DDS files")
    paths = [getattr(asked, name) for name in ("+x", "_x", "+y", "_y", "+z", "_z")]
    tile = house.number(asked.first_tile or "0", "--first-tile", MOST)
    house.keep_apart(asked.out, *paths)
    found = []
    for path in paths:
        found.append(face_of(path, asked.first_level, found[0] if found else None))
    side, form, _ = found[0]
    edge = side // BLOCK_SIDE
    wish = bytes([fieldtext.FORMATS.index(form)]) + b"".join(number.to_bytes(4, "little") for number in (edge, tile))
    number, made = moving.answered("run_build", wish + b"".join(blocks for _, _, blocks in found), 6 * edge * edge * kinds.PLACED)
    if number != 0:
        raise house.Refused(number, f"probe refused {number}\n")
    house.write_whole(asked.out, made)
    house.say(facts(asked, edge, house.shown(asked.out)), asked.out)


def run(asked):
    if asked.make:
        make(asked)
        return
    if asked.first_tile is not None or asked.first_level:
        raise house.Usage("--first-tile and --first-level go with --make")
    edge = None if asked.edge is None else house.number(asked.edge, "EDGE")
    if asked.face is None:
        tell(asked, edge)
    else:
        write_face(asked, edge, faces.number(asked.face))
