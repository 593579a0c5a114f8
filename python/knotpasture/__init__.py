"""BC6H and BC7 blocks, stores of tiles, probes, DDS files, Portable Float Maps and OpenEXR files, by the calls of the Knotpasture library.

The library is proved to do what include/knotpasture.h says; this package is not proved. It hands over buffers with their lengths, never a copy
of them, and takes the answers apart.

Input is anything with a buffer of bytes (bytes, bytearray, memoryview, mmap, a numpy array of uint8 in any shape), in one piece. A format is
`signed`: False or True, or a format number of a file, 0 or 1; any other number the library refuses. Results are numpy arrays. Input that is no such
thing raises TypeError, a buffer that is not in one piece or a number out of range ValueError; what the library refuses raises `Refused`, and
nothing lent has changed then.

    >>> import knotpasture
    >>> knotpasture.decode(bytes(32), signed=False).shape
    (2, 4, 4, 3)

The calls run without Python's lock and may run on any number of threads at once; what is lent to one must not change meanwhile.
"""
from __future__ import annotations

import ctypes
import operator
from dataclasses import dataclass
from typing import Any, NamedTuple, Optional, Union

import numpy
from numpy.typing import NDArray

from . import _library
from .survey import survey
from .words import WORDS

__version__ = "1.1.0"

BLOCK_SIZE, VALUES, FIELDS, BC7_BYTES = 16, 48, 32, 64
RECORD_SIZE, STORE_LIMIT, SCRATCH_VALUES, RECEIPT_ENTRY = 24, 48_000, 49, 8
PLACED_SIZE, PLACED_STORE_LIMIT, FACES, NO_FACE, EDGE_LIMIT, PROBE_TABLE = 32, 64_000, 6, 255, 16, 1536
DDS_HEADER, DDS_LIMIT, DDS_LEVELS, PFM_LIMIT, EXR_LIMIT = 148, 4096, 13, 4096, 4096
BC7_RESERVED, BC7_LINEAR, BC7_SRGB = 8, 0, 1

# The marks of a twin list.
KEPT, TWIN, BAD = 0, 1, 2

Bytes = Union[bytes, bytearray, memoryview, NDArray[numpy.uint8]]
Signed = Union[bool, int]


class Refused(Exception):
    """The library did nothing: `number` is one of the numbers of the header, `words` what it means, `record` the record that is why, or None."""

    def __init__(self, number: int, record: Optional[int] = None) -> None:
        self.number, self.record = number, record
        self.words = WORDS.get(number, "a number that this version does not know")
        super().__init__(f"refused, {number}: {self.words}" + ("" if record is None else f": record {record}"))

    def __reduce__(self) -> tuple[type[Refused], tuple[int, Optional[int]]]:
        return Refused, (self.number, self.record)


# ---- what is lent


def _bytes(lent: Any, what: str) -> NDArray[numpy.uint8]:
    """The bytes of a buffer as a flat array over the same memory."""
    if isinstance(lent, numpy.ndarray):
        if lent.dtype != numpy.uint8:
            raise TypeError(f"{what}: an array of uint8 is wanted, and not of {lent.dtype}")
        if not lent.flags.c_contiguous:
            raise ValueError(f"{what}: the array is not in one piece: numpy.ascontiguousarray makes one that is")
        return numpy.asarray(lent).reshape(-1)
    try:
        view = memoryview(lent)
    except TypeError:
        raise TypeError(f"{what}: bytes, or an array of uint8, are wanted, and not {type(lent).__name__}") from None
    if view.itemsize != 1 or view.format not in ("B", "b", "c"):
        raise TypeError(f"{what}: a buffer of bytes is wanted, and not one of format {view.format!r}")
    if not view.c_contiguous:
        raise ValueError(f"{what}: the buffer is not in one piece")
    return numpy.frombuffer(view, numpy.uint8) if view.nbytes else numpy.empty(0, numpy.uint8)


def _room(out: Any, kinds: tuple[Any, ...], given: NDArray[numpy.uint8]) -> NDArray[Any]:
    """Lent room as a flat array over the same memory, which shares none with what is read."""
    if not isinstance(out, numpy.ndarray) or out.dtype not in [numpy.dtype(kind) for kind in kinds]:
        wanted = " or ".join(numpy.dtype(kind).name for kind in kinds)
        raise TypeError(f"out: an array of {wanted} is wanted, and not {out.dtype if isinstance(out, numpy.ndarray) else type(out).__name__}")
    if not (out.flags.c_contiguous and out.flags.aligned and out.flags.writeable):
        raise ValueError("out: the array is not in one piece, not aligned, or may not be written")
    if numpy.may_share_memory(out, given):
        raise ValueError("out: the array shares memory with the input")
    return numpy.asarray(out).reshape(-1)


def _number(value: Any, what: str, bits: int) -> int:
    try:
        number = operator.index(value)
    except TypeError:
        raise TypeError(f"{what}: a whole number is wanted, and not {type(value).__name__}") from None
    if not 0 <= number < 1 << bits:
        raise ValueError(f"{what}: {number} is not 0 to {(1 << bits) - 1}")
    return number


def _format(signed: Any) -> int:
    return int(signed) if isinstance(signed, (bool, numpy.bool_)) else _number(signed, "signed", 8)


def _done(word: int, record: Optional[int] = None) -> int:
    if word & 0xFF:
        raise Refused(word & 0xFF, record)
    return word


def _part(word: int, low: int, bits: int = 16) -> int:
    return word >> low & (1 << bits) - 1


# ---- blocks


class Decoded(NamedTuple):
    """Values of blocks, and how many of them are minus infinity."""

    values: NDArray[numpy.float16]
    infinite: int


def decode_counted(blocks: Bytes, signed: Signed, out: Optional[NDArray[Any]] = None) -> Decoded:
    """`decode`, and how many of the values are minus infinity."""
    given, form = _bytes(blocks, "blocks"), _format(signed)
    count = given.size // BLOCK_SIZE
    room = numpy.empty(count * VALUES, numpy.float16) if out is None else _room(out, (numpy.float16, numpy.uint16), given)
    done, infinite = ctypes.c_size_t(), ctypes.c_size_t()
    _done(_library.call("knot_blocks_pixels")(
        given.ctypes.data, given.size, form, room.ctypes.data, room.size, ctypes.byref(done), ctypes.byref(infinite)))
    return Decoded(room[: done.value * VALUES].view(numpy.float16).reshape(-1, 4, 4, 3), infinite.value)


def decode(blocks: Bytes, signed: Signed, out: Optional[NDArray[Any]] = None) -> NDArray[numpy.float16]:
    """The pixels of a run of BC6H blocks: float16, (blocks, 4 rows, 4 columns, 3), row 0 on top, in one call.

    They are written to `out`, a float16 or uint16 array of 48 values or more a block, where that is given; what is returned is then a part of it.
    Refusals: 1, 9, 3.
    """
    return decode_counted(blocks, signed, out).values


class Shown(NamedTuple):
    """What one block shows: values (4, 4, 3); its mode, 0 where that is reserved; how many of the values are minus infinity."""

    values: NDArray[numpy.float16]
    mode: int
    infinite: int


def show(block: Bytes, signed: Signed) -> Shown:
    """What one BC6H block shows, with its mode. Refusals: 1, 2."""
    given, room = _bytes(block, "block"), numpy.empty(VALUES, numpy.float16)
    word = _done(_library.call("knot_block_pixels")(given.ctypes.data, given.size, _format(signed), room.ctypes.data, room.size))
    return Shown(room.reshape(4, 4, 3), _part(word, 8, 8), _part(word, 16, 8))


@dataclass(frozen=True)
class Fields:
    """The fields of a block, as stored: `dataclasses.replace` changes some, and `write` makes a block of them."""

    format: int
    mode: int
    endpoints: tuple[tuple[int, int, int], ...]
    partition: int
    in_region_1: int
    indices: tuple[int, ...]

    @staticmethod
    def of(numbers: Any) -> Fields:
        """The fields of 32 numbers in the order of the header."""
        n = [operator.index(number) for number in numbers]
        if len(n) != FIELDS:
            raise ValueError(f"a field record has {FIELDS} numbers, and not {len(n)}")
        return Fields(n[0], n[1], tuple((n[at], n[at + 1], n[at + 2]) for at in range(2, 14, 3)), n[14], n[15], tuple(n[16:]))

    def numbers(self) -> NDArray[numpy.uint16]:
        """The 32 numbers in the order of the header."""
        flat = [self.format, self.mode, *(value for end in self.endpoints for value in end), self.partition, self.in_region_1, *self.indices]
        return numpy.array([_number(value, "a field", 16) for value in flat], numpy.uint16)


def fields(block: Bytes, signed: Signed) -> Fields:
    """The fields of a block. Refusals: 1, 2, 4."""
    given, numbers = _bytes(block, "block"), numpy.empty(FIELDS, numpy.uint16)
    _done(_library.call("knot_block_fields")(given.ctypes.data, given.size, _format(signed), numbers.ctypes.data, numbers.size))
    return Fields.of(numbers)


def write(record: Fields) -> bytes:
    """The block of a field record. Refusals: 1, 10."""
    numbers, block = _field_numbers(record), numpy.empty(BLOCK_SIZE, numpy.uint8)
    _done(_library.call("knot_write_block")(numbers.ctypes.data, numbers.size, block.ctypes.data, block.size))
    return block.tobytes()


def show_fields(record: Fields) -> NDArray[numpy.float16]:
    """What a field record shows, (4, 4, 3), without a block written first. Refusals: 1, 10."""
    numbers, room = _field_numbers(record), numpy.empty(VALUES, numpy.float16)
    _done(_library.call("knot_fields_pixels")(numbers.ctypes.data, numbers.size, room.ctypes.data, room.size))
    return room.reshape(4, 4, 3)


def _field_numbers(record: Any) -> NDArray[numpy.uint16]:
    if not isinstance(record, Fields):
        raise TypeError(f"fields: Fields are wanted, and not {type(record).__name__}")
    return record.numbers()


def trusted(block: Bytes, signed: Signed) -> bool:
    """Whether a block by itself meets the premises of the copies theorem. False for any other length or format."""
    given = _bytes(block, "block")
    return bool(_library.call("knot_is_trusted")(given.ctypes.data, given.size, _format(signed)))


# ---- faces


def face(blocks: Bytes, width: int, height: int, signed: Signed, out: Optional[NDArray[Any]] = None) -> NDArray[numpy.float16]:
    """A face of width by height blocks in row order as a picture: (4 height rows, 4 width columns, 3), row 0 on top, each block decoded once.

    It is written to `out`, where that is given: a float16 or uint16 array of that shape, which may be a window of a larger picture (rows apart,
    pixels side by side). Refusals: 1, 15.
    """
    return _face("knot_face_pixels", 3, blocks, width, height, signed, out)


def face_rgba(blocks: Bytes, width: int, height: int, signed: Signed, out: Optional[NDArray[Any]] = None) -> NDArray[numpy.float16]:
    """`face` with a fourth channel, alpha, 1.0 in every pixel."""
    return _face("knot_face_rgba", 4, blocks, width, height, signed, out)


def _face(name: str, channels: int, blocks: Bytes, width: int, height: int, signed: Signed, out: Any) -> NDArray[numpy.float16]:
    given, form = _bytes(blocks, "blocks"), _format(signed)
    wide, high = _number(width, "width", 64), _number(height, "height", 64)
    fits, shape = given.size == BLOCK_SIZE * wide * high, (4 * high, 4 * wide, channels)
    if out is None:
        # of a size that is refused no room is made
        out = numpy.empty(shape if fits else (0, 0, channels), numpy.float16)
    elif not isinstance(out, numpy.ndarray) or out.dtype not in (numpy.float16, numpy.uint16):
        raise TypeError("out: an array of float16 or uint16 is wanted")
    elif out.shape != shape:
        raise ValueError(f"out: its shape is {out.shape}, and that of the face {shape}")
    elif out.size and (out.strides[2] != 2 or out.strides[1] != 2 * channels or out.strides[0] < 2 * channels * shape[1] or out.strides[0] % 2):
        raise ValueError("out: its pixels are not side by side, or its rows not one below the other")
    elif not (out.flags.aligned and out.flags.writeable) or numpy.may_share_memory(out, given):
        raise ValueError("out: the array is not aligned, may not be written, or shares memory with the input")
    pitch = out.strides[0] // 2 if out.size else channels * shape[1] if fits else 0
    room = pitch * (shape[0] - 1) + channels * shape[1] if out.size else 0
    _done(_library.call(name)(given.ctypes.data, given.size, wide, high, form, out.ctypes.data, room, pitch, ctypes.byref(ctypes.c_size_t())))
    shown: NDArray[numpy.float16] = out.view(numpy.float16)
    return shown


# ---- BC7


def decode_bc7(blocks: Bytes, out: Optional[NDArray[numpy.uint8]] = None) -> NDArray[numpy.uint8]:
    """The pixels of a run of BC7 blocks: uint8, (blocks, 4 rows, 4 columns, red green blue alpha), in one call. Refusals: 9, 3."""
    given = _bytes(blocks, "blocks")
    room = numpy.empty(given.size // BLOCK_SIZE * BC7_BYTES, numpy.uint8) if out is None else _room(out, (numpy.uint8,), given)
    done = ctypes.c_size_t()
    _done(_library.call("knot_bc7_blocks_pixels")(given.ctypes.data, given.size, room.ctypes.data, room.size, ctypes.byref(done)))
    return room[: done.value * BC7_BYTES].reshape(-1, 4, 4, 4)


class ShownBc7(NamedTuple):
    """What one BC7 block shows: values (4, 4, 4); its mode, BC7_RESERVED where that is reserved."""

    values: NDArray[numpy.uint8]
    mode: int


def show_bc7(block: Bytes) -> ShownBc7:
    """What one BC7 block shows, with its mode. Refusals: 2."""
    given, room = _bytes(block, "block"), numpy.empty(BC7_BYTES, numpy.uint8)
    word = _done(_library.call("knot_bc7_pixels")(given.ctypes.data, given.size, room.ctypes.data, room.size))
    return ShownBc7(room.reshape(4, 4, 4), _part(word, 8, 8))


# ---- the store


class Record(NamedTuple):
    """A record of a store: tile number, format, and the sixteen bytes of its block as a part of the store."""

    tile: int
    format: int
    block: NDArray[numpy.uint8]


def record(store: Bytes, n: int) -> Record:
    """Record n of a store of 24-byte records. Refusals: 5, 6, 8, 1, 7."""
    given, at = _bytes(store, "store"), _number(n, "n", 64)
    word = _done(_library.call("knot_record_at")(given.ctypes.data, given.size, at))
    start = _library.call("knot_record_block")(given.ctypes.data, given.size, at)
    return Record(_part(word, 32, 32), _part(word, 8, 8), given[start:start + BLOCK_SIZE])


def tile(store: Bytes, n: int) -> int:
    """The tile number of record n, whatever else the record holds, and 0 where there is no such record."""
    given = _bytes(store, "store")
    return int(_library.call("knot_tile_at")(given.ctypes.data, given.size, _number(n, "n", 64)))


class Twins(NamedTuple):
    """A mark for each record of a store (KEPT, TWIN, BAD), and how many have each."""

    marks: NDArray[numpy.uint8]
    kept: int
    twins: int
    bad: int


def twins(store: Bytes) -> Twins:
    """Marks each record of a store. Refusals: 5, 6."""
    given = _bytes(store, "store")
    count = min(given.size, STORE_LIMIT) // RECORD_SIZE
    # the call that has its space lent: knot_twin_list takes more stack than a thread of Python may have
    marks, scratch = numpy.empty(count, numpy.uint8), numpy.empty(count * SCRATCH_VALUES, numpy.uint16)
    word = _done(_library.call("knot_twin_list_in")(
        given.ctypes.data, given.size, marks.ctypes.data, marks.size, scratch.ctypes.data, scratch.size))
    return Twins(marks, _part(word, 16), _part(word, 32), _part(word, 48))


def first_damaged(store: Bytes) -> Optional[int]:
    """The first record that is not refused and has a reserved mode; None where there is none."""
    given = _bytes(store, "store")
    found = int(_library.call("knot_first_damaged")(given.ctypes.data, given.size))
    return None if found == given.size // RECORD_SIZE else found


def strict_twins(store: Bytes) -> Twins:
    """`twins` of a store in which no record is damaged. Refusals: 5, 6, 12, which names the first damaged record."""
    damaged = first_damaged(store)
    if damaged is not None:
        raise Refused(12, damaged)
    return twins(store)


class Cleaned(NamedTuple):
    """The records that stay, byte for byte, and how many there are; how many are removed."""

    store: NDArray[numpy.uint8]
    stay: int
    removed: int


def clean(store: Bytes) -> Cleaned:
    """A store without its copies: records of which an earlier one that stays has the same format and the same block bytes. Refusals: 5, 6."""
    given = _bytes(store, "store")
    room = numpy.empty(min(given.size, STORE_LIMIT), numpy.uint8)
    word = _done(_library.call("knot_clean_store")(given.ctypes.data, given.size, room.ctypes.data, room.size))
    stay = _part(word, 16)
    return Cleaned(room[: stay * RECORD_SIZE], stay, _part(word, 32))


class CleanedWithReceipt(NamedTuple):
    """A cleaned store, how many records stay and are removed, and the receipt: the bytes that `restore_store` takes back."""

    store: NDArray[numpy.uint8]
    stay: int
    removed: int
    receipt: NDArray[numpy.uint8]


def clean_with_receipt(store: Bytes) -> CleanedWithReceipt:
    """`clean`, and a receipt of what was removed: of each record 8 bytes, its number, that of the record that stays, and its tile.

    Numbers have 2 bytes and a tile 4, low byte first. Refusals: 5, 6.
    """
    given = _bytes(store, "store")
    size = min(given.size, STORE_LIMIT)
    room, paper = numpy.empty(size, numpy.uint8), numpy.empty(size // RECORD_SIZE * RECEIPT_ENTRY, numpy.uint8)
    word = _done(_library.call("knot_clean_with_receipt")(
        given.ctypes.data, given.size, room.ctypes.data, room.size, paper.ctypes.data, paper.size))
    stay, removed = _part(word, 16), _part(word, 32)
    return CleanedWithReceipt(room[: stay * RECORD_SIZE], stay, removed, paper[: removed * RECEIPT_ENTRY])


def restore_store(cleaned: Bytes, receipt: Bytes) -> NDArray[numpy.uint8]:
    """The store as it was before `clean_with_receipt` wrote these two. Refusals: 5, 6, 25."""
    given, paper = _bytes(cleaned, "cleaned"), _bytes(receipt, "receipt")
    records = given.size // RECORD_SIZE + paper.size // RECEIPT_ENTRY
    room = numpy.empty(min(records * RECORD_SIZE, STORE_LIMIT), numpy.uint8)
    word = _done(_library.call("knot_restore_store")(
        given.ctypes.data, given.size, paper.ctypes.data, paper.size, room.ctypes.data, room.size))
    return room[: _part(word, 16) * RECORD_SIZE]


def first_of(store: Bytes, n: int) -> int:
    """The record that stays for record n where `clean` removes that; n where it stays, and where there is no such record."""
    given = _bytes(store, "store")
    return int(_library.call("knot_first_of")(given.ctypes.data, given.size, _number(n, "n", 64)))


def first_twin(store: Bytes, n: int) -> int:
    """The first earlier record that record n is a twin of; n where it is no twin, is refused, or is not there."""
    given = _bytes(store, "store")
    return int(_library.call("knot_first_twin")(given.ctypes.data, given.size, _number(n, "n", 64)))


def covered(store: Bytes, n: int, earlier: int) -> bool:
    """Whether the copies theorem covers two records of a store: twins that are covered are copies of each other, byte for byte."""
    given = _bytes(store, "store")
    return bool(_library.call("knot_is_covered")(given.ctypes.data, given.size, _number(n, "n", 64), _number(earlier, "earlier", 64)))


# ---- records with a place, and the probe


class PlacedRecord(NamedTuple):
    """A record with a place: tile number, format, face (None where it is not placed), column, row, and its block as a part of the store."""

    tile: int
    format: int
    face: Optional[int]
    column: int
    row: int
    block: NDArray[numpy.uint8]


def placed_record(store: Bytes, n: int) -> PlacedRecord:
    """Record n of a store of records with a place. Refusals: 5, 6, 8, 1, 7, 17."""
    given, at = _bytes(store, "store"), _number(n, "n", 64)
    column, row = ctypes.c_uint16(), ctypes.c_uint16()
    word = _done(_library.call("knot_placed_record_at")(given.ctypes.data, given.size, at, ctypes.byref(column), ctypes.byref(row)))
    start = _library.call("knot_placed_record_block")(given.ctypes.data, given.size, at)
    face = _part(word, 16, 8)
    return PlacedRecord(
        _part(word, 32, 32), _part(word, 8, 8), face if face < FACES else None, column.value, row.value, given[start:start + BLOCK_SIZE])


def _done_with_record(word: int, record: int) -> int:
    """The word of a call that names the record that is why it refuses."""
    return _done(word, record if word & 0xFF in (1, 7, 17, 18, 20, 21, 22) else None)


def _moved(name: str, store: Bytes, size: int, limit: int, new_size: int) -> NDArray[numpy.uint8]:
    given = _bytes(store, "store")
    room = numpy.empty(min(given.size, limit) // size * new_size, numpy.uint8)
    word = _library.call(name)(given.ctypes.data, given.size, room.ctypes.data, room.size)
    _done_with_record(word, _part(word, 32))
    return room[: _part(word, 16) * new_size]


def place(store: Bytes) -> NDArray[numpy.uint8]:
    """A store of 24-byte records as one of records with a place, none of them placed. Refusals: 5, 6; with the first faulty record 1, 7."""
    return _moved("knot_place_store", store, RECORD_SIZE, STORE_LIMIT, PLACED_SIZE)


def unplace(store: Bytes) -> NDArray[numpy.uint8]:
    """The way back, for a store in which no record is placed. Refusals: 5, 6; with the first faulty record 1, 7, 17, 18."""
    return _moved("knot_unplace_store", store, PLACED_SIZE, PLACED_STORE_LIMIT, RECORD_SIZE)


def put_place(store: Bytes, n: int, face: Optional[int], column: int = 0, row: int = 0) -> NDArray[numpy.uint8]:
    """The store with the place of record n set, or taken away where face is None; every other byte is the store's.

    Refusals: 5, 6, 8; with record n 1, 7; 17, of the place that is given.
    """
    given = _bytes(store, "store")
    room = numpy.empty(min(given.size, PLACED_STORE_LIMIT), numpy.uint8)
    place = _number(NO_FACE if face is None else face, "face", 8), _number(column, "column", 16), _number(row, "row", 16)
    word = _library.call("knot_put_place")(given.ctypes.data, given.size, _number(n, "n", 64), *place, room.ctypes.data, room.size)
    _done(word, _part(word, 32) if word & 0xFF in (1, 7) else None)
    return room


def probe_check(store: Bytes, edge: int) -> None:
    """Returns where a store is a probe of the edge. Refusals: 19, 5, 6; with the first faulty record 1, 7, 17, 20, 21, 22; 23."""
    given = _bytes(store, "store")
    word = _library.call("knot_probe_check")(given.ctypes.data, given.size, _number(edge, "edge", 32))
    _done_with_record(word, _part(word, 16))


def probe_pixel(store: Bytes, edge: int, face: int, x: int, y: int) -> NDArray[numpy.float16]:
    """Red, green and blue of a pixel of a probe. Refusals: those of `probe_check`, with its record, then 24."""
    given, faulty = _bytes(store, "store"), ctypes.c_size_t()
    numbers = [_number(value, what, 32) for what, value in (("edge", edge), ("face", face), ("x", x), ("y", y))]
    word = _library.call("knot_probe_pixel")(given.ctypes.data, given.size, *numbers, ctypes.byref(faulty))
    _done_with_record(word, faulty.value)
    return _triple(word)


def _triple(word: int) -> NDArray[numpy.float16]:
    return numpy.array([_part(word, low) for low in (16, 32, 48)], numpy.uint16).view(numpy.float16)


def probe_open(store: Bytes, edge: int) -> NDArray[numpy.uint16]:
    """Checks a probe once: a table by which `probe_pixel_in` asks for its pixels. Refusals: those of `probe_check`, with its record."""
    given, table = _bytes(store, "store"), numpy.empty(PROBE_TABLE, numpy.uint16)
    word = _library.call("knot_probe_open")(given.ctypes.data, given.size, _number(edge, "edge", 32), table.ctypes.data, table.size)
    _done_with_record(word, _part(word, 16))
    return table


def probe_pixel_in(store: Bytes, table: NDArray[numpy.uint16], edge: int, face: int, x: int, y: int) -> NDArray[numpy.float16]:
    """What `probe_pixel` answers, by the table that `probe_open` of the same store and edge gave. Refusals: 19, 24, 3, 23, 8, 1."""
    given = _bytes(store, "store")
    if not isinstance(table, numpy.ndarray) or table.dtype != numpy.uint16 or not (table.flags.c_contiguous and table.flags.aligned):
        raise TypeError("table: an array of uint16 in one piece is wanted, as probe_open gives it")
    numbers = [_number(value, what, 32) for what, value in (("edge", edge), ("face", face), ("x", x), ("y", y))]
    return _triple(_done(_library.call("knot_probe_pixel_in")(given.ctypes.data, given.size, table.ctypes.data, table.size, *numbers)))


def probe_face(store: Bytes, edge: int, face: int) -> NDArray[numpy.float16]:
    """A whole face of a probe: (4 edge rows, 4 edge columns, 3), row 0 on top. Refusals: those of `probe_check`, without the record, then 24."""
    given = _bytes(store, "store")
    edge, face = _number(edge, "edge", 32), _number(face, "face", 32)
    side = 4 * min(edge, EDGE_LIMIT)
    room = numpy.empty((side, side, 3), numpy.float16)
    _done(_library.call("knot_probe_face")(given.ctypes.data, given.size, edge, face, room.ctypes.data, room.size))
    return room


def probe_edge(store: Bytes) -> int:
    """The edge of a probe by its store's length; 0 where no edge has that length."""
    given = _bytes(store, "store")
    return int(_library.call("knot_probe_edge")(given.ctypes.data, given.size))


def probe_build(blocks: Bytes, signed: Signed, edge: int, first_tile: int = 0) -> NDArray[numpy.uint8]:
    """A probe of the blocks of its six faces, face by face and row by row. Record n has the tile number first_tile + n. Refusals: 19, 1, 15."""
    given, edge = _bytes(blocks, "blocks"), _number(edge, "edge", 32)
    room, records = numpy.empty(6 * min(edge, EDGE_LIMIT) ** 2 * PLACED_SIZE, numpy.uint8), ctypes.c_size_t()
    _done(_library.call("knot_probe_build")(
        given.ctypes.data, given.size, _format(signed), edge, _number(first_tile, "first_tile", 32), room.ctypes.data, room.size, ctypes.byref(records)))
    return room[: records.value * PLACED_SIZE]


# ---- files


class Dds(NamedTuple):
    """A DDS file: width and height in pixels, format, and its blocks, (blocks, 16), as a part of the file."""

    width: int
    height: int
    format: int
    blocks: NDArray[numpy.uint8]


def dds_head(head: Bytes) -> tuple[int, int, int]:
    """Width, height and format from the first 148 bytes of a DDS file. Refusals: 13, 14."""
    given = _bytes(head, "head")
    word = _done(_library.call("knot_dds_head")(given.ctypes.data, given.size))
    return _part(word, 16), _part(word, 32), _part(word, 8, 8)


def dds_read(file: Bytes) -> Dds:
    """Size, format and blocks of a whole DDS file. Refusals: 13, 14, 15."""
    return _dds("knot_dds_read", "knot_dds_blocks", file)


def bc7_dds_read(file: Bytes) -> Dds:
    """Size, format and blocks of a whole DDS file of BC7 blocks: format 0 is DXGI's 98, 1 is 99, sRGB. Refusals: 13, 14, 15."""
    return _dds("knot_bc7_dds_read", "knot_bc7_dds_blocks", file)


def dds_first_level(file: Bytes) -> Dds:
    """Size, format and blocks of the largest level of a DDS file with 1 to 13 mip levels. Refusals: 13, 14, 15."""
    return _dds("knot_dds_first_level", "knot_dds_first_blocks", file)


def bc7_dds_first_level(file: Bytes) -> Dds:
    """`dds_first_level` of BC7 blocks, with the formats of `bc7_dds_read`. Refusals: 13, 14, 15."""
    return _dds("knot_bc7_dds_first_level", "knot_bc7_dds_first_blocks", file)


def _dds(reading: str, starting: str, file: Bytes) -> Dds:
    given = _bytes(file, "file")
    word = _done(_library.call(reading)(given.ctypes.data, given.size))
    start = _library.call(starting)(given.ctypes.data, given.size)
    width, height = _part(word, 16), _part(word, 32)
    count = -(-width // 4) * -(-height // 4)
    return Dds(width, height, _part(word, 8, 8), given[start:start + BLOCK_SIZE * count].reshape(-1, BLOCK_SIZE))


def dds_write(blocks: Bytes, signed: Signed, width: int, height: int) -> NDArray[numpy.uint8]:
    """A DDS file of blocks in row order. Refusals: 1, 14, 15."""
    given = _bytes(blocks, "blocks")
    return _file("knot_dds_write", given, signed, width, height, DDS_HEADER + given.size)


def pfm_length(width: int, height: int) -> int:
    """The bytes of the Portable Float Map of a picture; 0 for a size that is refused."""
    return int(_library.call("knot_pfm_length")(_number(width, "width", 32), _number(height, "height", 32)))


def pfm_write(blocks: Bytes, signed: Signed, width: int, height: int) -> NDArray[numpy.uint8]:
    """A Portable Float Map of blocks in row order, each value exactly its half-float. Refusals: 1, 16, 15."""
    return _file("knot_pfm_write", _bytes(blocks, "blocks"), signed, width, height, pfm_length(width, height))


def exr_length(width: int, height: int) -> int:
    """The bytes of the OpenEXR file of a picture; 0 for a size that is refused."""
    return int(_library.call("knot_exr_length")(_number(width, "width", 32), _number(height, "height", 32)))


def exr_write(blocks: Bytes, signed: Signed, width: int, height: int) -> NDArray[numpy.uint8]:
    """An OpenEXR file of blocks in row order: one part, no compression, channels B, G and R, each half-float as it is. Refusals: 1, 16, 15."""
    return _file("knot_exr_write", _bytes(blocks, "blocks"), signed, width, height, exr_length(width, height))


def _file(name: str, given: NDArray[numpy.uint8], signed: Signed, width: int, height: int, length: int) -> NDArray[numpy.uint8]:
    sides = _number(width, "width", 32), _number(height, "height", 32)
    room = numpy.empty(length, numpy.uint8)
    word = _done(_library.call(name)(given.ctypes.data, given.size, _format(signed), *sides, room.ctypes.data, room.size))
    return room[: word >> 8]
