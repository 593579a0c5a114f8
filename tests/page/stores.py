"""Stores whose pages are looked at, and what is known of each record by another way than the page's."""
import functools
import json
import pathlib
import random
import struct
import subprocess

ROOT = pathlib.Path(__file__).resolve().parent.parent.parent
# by mode: the bits of the first endpoint, and of the others
PRECISION = {1: 10, 2: 7, 3: 11, 4: 11, 5: 11, 6: 9, 7: 8, 8: 8, 9: 8, 10: 6, 11: 10, 12: 11, 13: 12, 14: 16}
OTHERS = {1: "555", 2: "666", 3: "544", 4: "454", 5: "445", 6: "555", 7: "655", 8: "565", 9: "556", 10: "666", 11: "aaa", 12: "999", 13: "888", 14: "444"}
WEIGHTS = {8: [0, 9, 18, 27, 37, 46, 55, 64], 16: [0, 4, 9, 13, 17, 21, 26, 30, 34, 38, 43, 47, 51, 55, 60, 64]}


def knot(*words):
    return subprocess.run([ROOT / "knot", *words], capture_output=True)


def ran(program, data):
    return subprocess.run([ROOT / "tools/run", ROOT / "target/built" / program], input=data, stdout=subprocess.PIPE, check=True).stdout


# ---- what is known of a record


def records_of(store):
    return [store[at + 4:at + 5] + store[at + 8:at + 24] for at in range(0, len(store), 24)]


def values_of(store):
    """The 48 floats of each record, by the program over blocks and Python's own half-floats."""
    out = ran("run_pixels", b"".join(records_of(store)))
    return [struct.unpack("<48e", out[at + 4:at + 100]) for at in range(0, len(out), 100)]


def low_bits(number, bits):
    """A number of so many bits in two's complement."""
    number &= (1 << bits) - 1
    return number - (1 << bits) if number >> (bits - 1) else number


def transformed(signed, mode, stored):
    """The endpoints after the transform, of those as stored: docs/SCOPE.md, 'A block', 1."""
    p, widths = PRECISION[mode], [int(digit, 16) for digit in OTHERS[mode]]
    first = [low_bits(v, p) if signed else v for v in stored[0]]
    if mode in (10, 11):
        return [first] + [[low_bits(v, w) if signed else v for v, w in zip(end, widths)] for end in stored[1:]]
    sums = [[base + low_bits(v, w) for base, v, w in zip(first, end, widths)] for end in stored[1:]]
    return [first] + [[low_bits(v, p) if signed else v & ((1 << p) - 1) for v in end] for end in sums]


def pattern_between(a, b, w, p, signed):
    """The half-float pattern between two transformed endpoints of p bits at the weight w."""
    def wide(v):
        if not signed:
            return v if p >= 15 or v == 0 else 0xFFFF if v == (1 << p) - 1 else ((v << 16) + 0x8000) >> p
        if p >= 16 or v == 0:
            return v
        size = 0x7FFF if abs(v) >= (1 << (p - 1)) - 1 else ((abs(v) << 15) + 0x4000) >> (p - 1)
        return -size if v < 0 else size
    mixed = (wide(a) * (64 - w) + wide(b) * w + 32) >> 6
    if not signed:
        return mixed * 31 >> 6
    size = abs(mixed) * 31 >> 5
    return size | 0x8000 if mixed < 0 and size else size


def shows(ends, mode, signed, indices, patterns):
    """Whether the endpoints and indices are those of a picture: each pixel is a mix of one region's two endpoints."""
    weights = WEIGHTS[8 if mode <= 10 else 16]
    regions = [(ends[e], ends[e + 1]) for e in range(0, len(ends), 2)]
    mix = lambda region, w: [pattern_between(a, b, w, PRECISION[mode], signed) for a, b in zip(*region)]
    return all(any(mix(region, weights[indices[k]]) == list(patterns[3 * k:3 * k + 3]) for region in regions) for k in range(16))


def own_exposure(values):
    """The brightest exposure in whole stops at which nothing is above white."""
    top = max(abs(v) for v in values if v > -1e9)
    return next((stops for stops in range(24, -17, -1) if top * 2.0 ** stops <= 1), -16) if top else 0


class Facts:
    """What the commands tell of a store."""

    def __init__(self, path):
        self.path, self.name, self.store = path, path.name, path.read_bytes()
        self.audit = json.loads(knot("audit", "--json", path).stdout)
        self.text = knot("audit", path).stdout.decode().splitlines()
        self.rows = [line.split() for line in knot("list", path).stdout.decode().splitlines()[:-1]]
        self.infinities = [line.split() for line in knot("infinities", path).stdout.decode().splitlines()[:-1]]
        self.values = values_of(self.store)
        self.twins = self.audit["twins"]
        self.copies = [twin for twin in self.twins if twin["verdict"] == "copy"]
        self.alike = [twin for twin in self.twins if twin["verdict"] == "alike"]
        verdicts = {twin["record"]: twin["verdict"] for twin in self.twins}
        self.kinds = ["refused" if row[2] != "0" else "damaged" if row[3] == "0" else verdicts.get(n, "stays") for n, row in enumerate(self.rows)]
        gone = {twin["record"] for twin in self.copies}
        self.left = b"".join(self.store[24 * n:24 * n + 24] for n in range(len(self.rows)) if n not in gone)

    def classes(self):
        """The records of one picture by the first of them: those that look alike, and the copies. Those with alike ones are first."""
        found = {}
        for n, values in enumerate(self.values):
            if self.kinds[n] in ("stays", "copy", "alike"):
                found.setdefault((self.store[24 * n + 4], values), []).append(n)
        several = [(numbers[0], [n for n in numbers if self.kinds[n] == "alike"], [n for n in numbers if self.kinds[n] == "copy"]) for numbers in found.values() if len(numbers) > 1]
        return sorted(several, key=lambda one: (not one[1], one[0]))

    def count(self, kind):
        return self.kinds.count(kind)

    @functools.cached_property
    def extracted(self):
        out = ran("run_fields", b"".join(records_of(self.store)))
        return [out[at + 1:at + 45] for at in range(0, len(out), 45)]

    def fields(self, n):
        """What is stored in a record: signed or not, mode, endpoints, partition, indices row by row."""
        form, mode, *numbers = struct.unpack("<BB12HBB16B", self.extracted[n])
        regions = 2 if mode <= 10 else 1
        ends = [numbers[3 * e:3 * e + 3] for e in range(2 * regions)]
        return form == 1, mode, ends, numbers[12] if regions == 2 else None, [numbers[14 + 4 * row:18 + 4 * row] for row in range(4)]

    def pixel(self, n, k):
        return self.values[n][3 * k:3 * k + 3]


# ---- stores


def record(tile, form, block):
    return tile.to_bytes(4, "little") + bytes([form, 0, 0, 0]) + block


def region_counts():
    """How many pixels each partition has in region 1: of a block of mode 10 in that partition."""
    blocks = [b"\0" + (0x1E | partition << 77).to_bytes(16, "little") for partition in range(32)]
    out = ran("run_fields", b"".join(blocks))
    return [out[45 * partition + 28] for partition in range(32)]


def written(fields):
    """The block of each field record, by the proved writer."""
    out = ran("run_write", b"".join(fields))
    blocks = [out[at:at + 17] for at in range(0, len(out), 17)]
    assert all(len(block) == 17 and block[0] == 0 for block in blocks), "the writer refused the fields of a test store"
    return [block[1:] for block in blocks]


def same_ends(chance, many):
    """Pairs of blocks in modes 3 and 4 with the same endpoints after the transform, the same partition and the same indices: they show one picture."""
    counts, fields = region_counts(), []
    for _ in range(many):
        first = [chance.randrange(16, 2000) for _ in range(3)]
        partition, steps = chance.randrange(32), [[chance.randrange(-8, 8) for _ in range(3)] for _ in range(3)]
        # the fix-up pixels have a bit less: indices below 4 fit everywhere
        indices = bytes([0] + [chance.randrange(4) for _ in range(15)])
        for mode in (3, 4):
            widths = [int(digit, 16) for digit in OTHERS[mode]]
            ends = first + [step & (1 << w) - 1 for end in steps for step, w in zip(end, widths)]
            fields.append(struct.pack("<BB12HBB", 0, mode, *ends, partition, counts[partition]) + indices)
    blocks = written(fields)
    return list(zip(blocks[::2], blocks[1::2]))


NIGHT = {"damaged": 235, "refused": 3, "alike": 14, "copies": 731}


def night():
    """2,000 records as of a night: NIGHT's counts, copies of records that look alike among them, and lamps of one tile each a stop darker."""
    chance = random.Random(61)
    pairs = same_ends(chance, NIGHT["alike"])
    blocks, seen = [], set()
    while len(blocks) < 2000 - sum(NIGHT.values()) - len(pairs):
        block = bytes([0x03 | chance.randrange(8) << 5]) + chance.randbytes(15)
        if block not in seen:
            seen.add(block)
            blocks.append(block)
    stays = [(chance.randrange(2), block) for block in blocks] + [(0, pair[0]) for pair in pairs]
    chance.shuffle(stays)
    later = [(0, pair[1]) for pair in pairs]
    later += [chance.choice(stays[:200] + later[:7]) for _ in range(NIGHT["copies"])]
    later += [(0, b"\x13" + chance.randbytes(15)) for _ in range(NIGHT["damaged"])] + [(2, chance.randbytes(16)) for _ in range(NIGHT["refused"])]
    front = later[:NIGHT["alike"]]
    rest = later[NIGHT["alike"]:]
    chance.shuffle(rest)
    return b"".join(record(10_000 + 7 * n, form, block) for n, (form, block) in enumerate(stays + front + rest))


def black():
    return b"".join(record(n, 0, bytes(16)) for n in range(2000))


def black_apart():
    """2,000 black tiles, no two of the same bytes: endpoints are zero, and indices differ."""
    return b"".join(record(n, 0, bytes([3]) + bytes(8) + n.to_bytes(2, "little") + bytes(5)) for n in range(2000))


def infinite():
    """2,000 signed tiles with minus infinity: record 1 of samples/infinite.store."""
    block = (ROOT / "samples/infinite.store").read_bytes()[24 + 8:48]
    return b"".join(record(4_000_000_000 + n, 1, block) for n in range(2000))
