"""Stores and their records as rows, by the proved calls: for a database, pandas, or an engine of your own.

    >>> from knotpasture.survey import survey
    >>> for store, records in survey(["samples"]): ...

What a record shows, its marks and verdicts come from the library; this module only reads files and puts the answers side by side. It needs the
standard library alone.
"""
from __future__ import annotations

import ctypes
import errno
import hashlib
import os
import stat
from typing import Any, Callable, Iterable, Iterator, NamedTuple, Optional, Union

from . import _library

RECORD, PLACED, STORE_LIMIT, PLACED_LIMIT, BLOCK = 24, 32, 48_000, 64_000, 16
VALUE_BYTES, ENTRY, MOST_RECORDS = 96, 8, 2000
TWIN = 1
LONG, UNEVEN = 5, 6
Path = Union[str, bytes, "os.PathLike[str]"]


class StoreRow(NamedTuple):
    """A file: what it is, and its counts. `answer` is 0, the number of a refusal, or None for a file that could not be read."""

    path: bytes
    sha256: Optional[str]
    bytes: Optional[int]
    form: Optional[int]
    answer: Optional[int]
    reason: Optional[str]
    records: int = 0
    refused: int = 0
    damaged: int = 0
    twins: int = 0
    copies: int = 0
    alike: int = 0
    infinite: int = 0


class RecordRow(NamedTuple):
    """A record of a store. A refused one has no mode, block or values; a store with places has no marks."""

    number: int
    tile: int
    format: Optional[int]
    face: Optional[int]
    column: Optional[int]
    row: Optional[int]
    answer: int
    mode: Optional[int]
    mark: Optional[int]
    verdict: Optional[str]
    stays: Optional[int]
    infinite: int
    block: Optional[bytes]
    values: Optional[bytes]


class Reading(NamedTuple):
    """What the record call answers for each record of a file in one form."""

    form: int
    bad_length: int
    answers: list[int]
    places: list[tuple[int, int]]

    def fits(self) -> bool:
        return self.bad_length == 0 and bool(self.answers) and not any(word & 0xFF for word in self.answers)

    def has_refused(self) -> bool:
        return self.bad_length != 0 or any(word & 0xFF for word in self.answers)


def plain_reading(data: bytes) -> Reading:
    if len(data) > STORE_LIMIT or len(data) % RECORD:
        return Reading(RECORD, LONG if len(data) > STORE_LIMIT else UNEVEN, [], [])
    call, size = _library.call("knot_record_at"), len(data)
    return Reading(RECORD, 0, [call(data, size, n) for n in range(size // RECORD)], [])


def placed_reading(data: bytes) -> Reading:
    if len(data) > PLACED_LIMIT or len(data) % PLACED:
        return Reading(PLACED, LONG if len(data) > PLACED_LIMIT else UNEVEN, [], [])
    call, size, column, row = _library.call("knot_placed_record_at"), len(data), ctypes.c_uint16(), ctypes.c_uint16()
    columns, rows = ctypes.addressof(column), ctypes.addressof(row)
    answers, places = [], []
    for n in range(size // PLACED):
        answers.append(call(data, size, n, columns, rows))
        places.append((column.value, row.value))
    return Reading(PLACED, 0, answers, places)


def reading_of(data: bytes) -> Reading:
    """The form in which a file is a store: that of 24-byte records, unless only the other one has no refused record."""
    plain = plain_reading(data)
    if not plain.has_refused():
        return plain
    placed = placed_reading(data)
    return placed if placed.fits() else plain


def verdicts_of(data: bytes) -> tuple[bytes, dict[int, tuple[str, int]]]:
    """The marks of a store of 24-byte records, and for each twin its verdict and the record that stays."""
    count = len(data) // RECORD
    marks, left, receipt = (ctypes.create_string_buffer(max(size, 1)) for size in (count, len(data), ENTRY * count))
    _library.call("knot_twin_list")(data, len(data), ctypes.addressof(marks), count)
    word = _library.call("knot_clean_with_receipt")(data, len(data), ctypes.addressof(left), len(data), ctypes.addressof(receipt), ENTRY * count)
    removed, entries = word >> 32 & 0xFFFF, receipt.raw
    found = {}
    for at in range(0, ENTRY * removed, ENTRY):
        found[int.from_bytes(entries[at:at + 2], "little")] = "copy", int.from_bytes(entries[at + 2:at + 4], "little")
    first_twin = _library.call("knot_first_twin")
    for n, mark in enumerate(marks.raw[:count]):
        if mark == TWIN and n not in found:
            found[n] = "alike", first_twin(data, len(data), n)
    return marks.raw[:count], found


def rows_of_store(path: bytes, data: bytes) -> tuple[StoreRow, list[RecordRow]]:
    """The rows of a store's bytes."""
    summed = hashlib.sha256(data).hexdigest()
    reading = reading_of(data)
    if reading.bad_length:
        words = "more than 2,000 records" if reading.bad_length == LONG else "not a whole number of records"
        return StoreRow(path, summed, len(data), None, reading.bad_length, f"the file has {words}"), []
    form, plain = reading.form, reading.form == RECORD
    marks, verdicts = verdicts_of(data) if plain else (b"", {})
    show, values = _library.call("knot_block_pixels"), ctypes.create_string_buffer(VALUE_BYTES)
    room, rows, head = ctypes.addressof(values), [], form - BLOCK
    refused = damaged = infinite = 0
    for n, word in enumerate(reading.answers):
        at = n * form
        tile, answer = int.from_bytes(data[at:at + 4], "little"), word & 0xFF
        mark = marks[n] if plain else None
        if answer:
            refused += 1
            rows.append(RecordRow(n, tile, None, None, None, None, answer, None, mark, None, None, 0, None, None))
            continue
        block, kind = data[at + head:at + form], word >> 8 & 0xFF
        shown = show(block, BLOCK, kind, room, 48)
        mode, count = shown >> 8 & 0xFF, shown >> 16 & 0xFF
        damaged += mode == 0
        infinite += count
        verdict, stays = verdicts.get(n, (None, None))
        face, (column, row) = (None, (None, None)) if plain else (word >> 16 & 0xFF, reading.places[n])
        rows.append(RecordRow(n, tile, kind, face, column, row, 0, mode, mark, verdict, stays, count, block, values.raw))
    copies = sum(verdict == "copy" for verdict, _ in verdicts.values())
    return StoreRow(path, summed, len(data), form, 0, None, len(rows), refused, damaged, len(verdicts), copies, len(verdicts) - copies, infinite), rows


def read_file(path: bytes) -> bytes:
    """The bytes of a file that may be a store: never more than tell that it is too long, and never of a device or a pipe, which might not end."""
    file = os.open(path, os.O_RDONLY | os.O_NONBLOCK | os.O_CLOEXEC)
    try:
        if not stat.S_ISREG(os.fstat(file).st_mode):
            raise OSError(errno.EINVAL, "it is no regular file")
        pieces, size = [], 0
        while size <= PLACED_LIMIT:
            piece = os.read(file, PLACED_LIMIT + 1 - size)
            if not piece:
                break
            pieces.append(piece)
            size += len(piece)
        return b"".join(pieces)
    finally:
        os.close(file)


def rows_of(path: Path) -> tuple[StoreRow, list[RecordRow]]:
    """The rows of a file. One that cannot be read has a row with the reason."""
    name = os.fsencode(path)
    try:
        data = read_file(name)
    except OSError as error:
        return StoreRow(name, None, None, None, None, (error.strerror or str(error)).lower()), []
    return rows_of_store(name, data)


def files_in(places: Iterable[Path]) -> Iterator[bytes]:
    """The files of places, each once, in order of name. A folder is walked; a link to a folder inside it is not followed."""
    seen = set()
    for place in places:
        top = os.fsencode(place)
        if not os.path.isdir(top):
            found: Iterable[bytes] = [top]
        else:
            found = (os.path.join(folder, name) for folder, folders, names in os.walk(top) if folders.sort() is None for name in sorted(names))
        for path in found:
            if path not in seen:
                seen.add(path)
                yield path


def survey(places: Iterable[Path], each: Callable[..., Iterable[Any]] = map) -> Iterator[tuple[StoreRow, list[RecordRow]]]:
    """The rows of every file of places: files, and folders of files. `each` is `map`, or that of a pool of processes."""
    return iter(each(rows_of, files_in(places)))
