"""The receipt of a clean-up as text: of which store, what was removed, and which record stays for it.

    # knot 0.10.0 commit 777b8ec
    # kit rattle-kit-5 ..
    # store covered.store
    # damaged 0 refused 0
    # before sha256 865c.. bytes 288 records 12
    # after sha256 7b1f.. bytes 168 records 7
    1 61 0 60
    stays 7 removed 5

A line between the head and the counts is a removed record and its tile, then the record that stays for it and that one's tile. Record
numbers count records of the store before the clean-up.
"""
import hashlib
import re
import struct
from typing import NamedTuple

from . import audit, house

# the most bytes of a receipt: a head, and a line for each record of the longest store
MOST = 4096 + 2000 * 32
# a removed record as `restore_store` takes it: number, the record that stays, tile
ENTRY = struct.Struct("<HHI")
LINE = re.compile(rb"([0-9]{1,5}) ([0-9]{1,10}) ([0-9]{1,5}) ([0-9]{1,10})")
COUNTS = re.compile(rb"stays ([0-9]{1,5}) removed ([0-9]{1,5})")
SUM = re.compile(rb"# (before|after) sha256 ([0-9a-f]{64}) bytes [0-9]{1,5} records [0-9]{1,5}")


class Removed(NamedTuple):
    """A removed record, and the one that stays for it."""

    record: int
    tile: int
    stays: int
    stays_tile: int


class Receipt(NamedTuple):
    """What a receipt says: the SHA-256 of both stores, and the removed records."""

    before: str
    after: str
    removed: list


def sha256(data):
    return hashlib.sha256(data).hexdigest()


def removed_record(line):
    """The removed record of a line, or None."""
    found = LINE.fullmatch(line)
    return Removed(*map(int, found.groups())) if found else None


def removed_in(lines):
    """The removed records of the program's lines, whose last has the counts."""
    return [removed_record(line) for line in lines.splitlines()[:-1]]


def store_facts(store):
    return {"sha256": sha256(store), "bytes": len(store), "records": len(store) // house.RECORD}


def text_of(facts, lines):
    """The whole text of a receipt: the head, and the lines of the program."""
    def told(word):
        store = facts[word]
        return f"# {word} sha256 {store['sha256']} bytes {store['bytes']} records {store['records']}"

    head = [
        *damage(facts),
        f"# knot {facts['knot']} commit {facts['commit']}",
        f"# kit {facts['kit']}",
        f"# store {facts['store']}",
        f"# damaged {facts['damaged']} refused {facts['refused']}",
        told("before"),
        told("after"),
    ]
    return "\n".join(head).encode(errors="surrogateescape") + b"\n" + lines


def damage(facts):
    """The first line of a receipt, where records of the store are damaged or refused."""
    damaged, refused, records = facts["damaged"], facts["refused"], facts["before"]["records"]
    if damaged or refused:
        yield f"# {damaged:,} of {records:,} records are damaged and {refused:,} refused: they stay as they are"


def facts_of(name, store, left, damaged, refused):
    """What the head of a receipt says."""
    return {**audit.identity(), "store": name, "damaged": damaged, "refused": refused, "before": store_facts(store), "after": store_facts(left)}


def bad(why):
    return house.Refused(25, "receipt refused 25\n", why)


def parsed(text):
    """The receipt that a text is; refused with 25 where it is none."""
    lines = text.split(b"\n")
    if len(text) > MOST or lines[-1:] != [b""]:
        raise bad("it is no receipt, or its last line is not whole")
    head = [line for line in lines[:-1] if line.startswith(b"#")]
    *body, counts = [line for line in lines[:-1] if not line.startswith(b"#")] or [b""]
    sums = {found[1].decode(): found[2].decode() for found in map(SUM.fullmatch, head) if found}
    if sums.keys() != {"before", "after"}:
        raise bad("its head does not have the sums of the store before and after the clean-up")
    closing = COUNTS.fullmatch(counts)
    if closing is None:
        raise bad("its last line does not have the counts")
    removed = [removed_record(line) for line in body]
    if None in removed:
        raise bad(f"line {lines.index(body[removed.index(None)]) + 1} is no line of a receipt")
    if len(removed) != int(closing[2]):
        raise bad(f"it has {len(removed)} removed records, and its last line says {int(closing[2])}")
    return Receipt(sums["before"], sums["after"], removed)


def packed(receipt):
    """The removed records as `restore_store` takes them."""
    for entry in receipt.removed:
        if entry.record > 0xFFFF or entry.stays > 0xFFFF or entry.tile > 0xFFFFFFFF:
            raise bad(f"record {entry.record}, tile {entry.tile}: a number is too large")
    return b"".join(ENTRY.pack(entry.record, entry.stays, entry.tile) for entry in receipt.removed)
