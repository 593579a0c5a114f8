"""A clean-up, its receipt and the way back in a few lines, and stores to try them on: what the proved calls are compared with."""

RECORD, ENTRY, STORE = 24, 8, 48_000
RESERVED = {0x13, 0x17, 0x1B, 0x1F}


def records(store):
    return [store[at:at + RECORD] for at in range(0, len(store), RECORD)]


def entry(number, stays, tile):
    return number.to_bytes(2, "little") + stays.to_bytes(2, "little") + tile


def entries(receipt):
    return [receipt[at:at + ENTRY] for at in range(0, len(receipt), ENTRY)]


def number_of(told):
    return int.from_bytes(told[:2], "little")


def stays_of(told):
    return int.from_bytes(told[2:4], "little")


def cleaned(store):
    """The records that stay, and the receipt of the others."""
    first, left, receipt = {}, [], []
    for n, record in enumerate(records(store)):
        sound = record[4] < 2 and not any(record[5:8]) and record[8] % 32 not in RESERVED
        shown = record[4], record[8:]
        if sound and shown in first:
            receipt.append(entry(n, first[shown], record[:4]))
            continue
        left.append(record)
        if sound:
            first[shown] = n
    return b"".join(left), b"".join(receipt)


def fits(receipt, total):
    """Whether the numbers rise and stay below the total, and each record that stays comes before."""
    told = [(number_of(one), stays_of(one)) for one in entries(receipt)]
    rising = all(before < after for (before, _), (after, _) in zip(told, told[1:]))
    return len(receipt) % ENTRY == 0 and rising and all(stays < number < total for number, stays in told)


def restored(left, receipt):
    """The store as it was, of a receipt that fits."""
    told, rest, store = {number_of(one): one for one in entries(receipt)}, iter(records(left)), []
    for n in range(len(left) // RECORD + len(told)):
        store.append(told[n][4:] + store[stays_of(told[n])][4:] if n in told else next(rest))
    return b"".join(store)


def cleaning_number(length, room, paper):
    count = length // RECORD
    return 5 if length > STORE else 6 if length % RECORD else 3 if room // RECORD < count or paper // ENTRY < count else 0


def restoring_number(left, receipt, room):
    total = len(left) // RECORD + len(receipt) // ENTRY
    if len(left) > STORE or total > STORE // RECORD:
        return 5
    return 6 if len(left) % RECORD else 25 if not fits(receipt, total) else 3 if room < total * RECORD else 0


# ---- stores


def record(tile, form, block, spare=b"\0\0\0"):
    return tile.to_bytes(4, "little") + bytes([form]) + spare + block


def random_store(r):
    """Few blocks, most of them near copies of each other, so that many come again, and few tile numbers."""
    base, most = r.randbytes(16), r.choice([3, 1 << 32])
    blocks = [base, bytes([0x13]) + base[1:], bytes(16), bytes([0x1F]) + bytes(15)]
    for _ in range(r.randrange(1, 8)):
        at = r.randrange(16)
        blocks.append(base[:at] + bytes([r.randrange(256)]) + base[at + 1:])
    return b"".join(
        record(r.randrange(most), r.choice([0, 0, 0, 1, 1, 2]), r.choice(blocks), r.choice([b"\0\0\0"] * 6 + [b"\0\1\0", b"\1\0\0", b"\0\0\1"]))
        for _ in range(r.randrange(r.choice([3, 12, 60]))))


def limit_stores():
    """Stores of 0, 1 and 2,000 records: equal, different, chained, in two formats, refused and reserved among copies, with repeated tiles."""
    one, two, reserved = bytes([3]) + bytes(15), bytes([7]) + bytes(15), bytes([0x13]) + bytes(15)
    different = [bytes([3]) + n.to_bytes(15, "little") for n in range(2000)]
    yield b""
    yield record(1, 0, one)
    yield record(1, 2, one)
    yield b"".join(record(n, 0, one) for n in range(2000))
    yield b"".join(record(n, 0, different[n]) for n in range(2000))
    yield b"".join(record(7, 0, different[n % 1000]) for n in range(2000))
    yield b"".join(record(n, 0, different[n // 2]) for n in range(2000))
    yield b"".join(record(n % 5, n % 2, one) for n in range(2000))
    yield b"".join(record(n, 2, one) for n in range(2000))
    yield b"".join(record(n, 0, reserved) for n in range(2000))
    yield b"".join(record(n, n % 3, (one, two, reserved)[n % 7 % 3], b"\0\1\0" if n % 11 == 0 else b"\0\0\0") for n in range(2000))
    yield b"".join(record(n, 0, different[0] if n == 1999 else different[n]) for n in range(2000))
    yield record(1, 0, one) * 3
    yield record(1, 2, one) + record(2, 0, one) * 2 + record(3, 0, two) + record(4, 0, one, b"\0\0\1") + record(5, 0, one)
