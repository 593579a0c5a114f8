"""Pictures to export, and what each of their rows has to be in each kind of file. The values of some blocks are worked out from the clauses
(tests/probe/model.py), those of the others are run_pixels's, which other tests hold; the bytes of BC7 are check_bc7's."""
import math
import os
import pathlib
import random
import struct
import subprocess
import sys

ROOT = pathlib.Path(__file__).resolve().parents[2]
# The knot that is tried: another one, such as an installed one, where KNOT names it.
KNOT = pathlib.Path(os.environ.get("KNOT", ROOT / "knot"))
sys.path[:0] = [str(ROOT / "tests")]
from dds import model as dds  # noqa: E402
from probe import model as probe  # noqa: E402

# The blocks that pictures are made of, and the rows of blocks of a large one: each is another.
BLOCKS, BANDS = 48, 24
UNSIGNED, SIGNED, BC7, BC7_SRGB = range(4)
DXGI = {UNSIGNED: 95, SIGNED: 96, BC7: 98, BC7_SRGB: 99}


def program(name, data):
    return subprocess.run([ROOT / "tools/run", name], input=data, stdout=subprocess.PIPE, check=True).stdout


def shown(blocks, signed):
    """The 48 patterns of each block, by the program over blocks."""
    told = program("run_pixels", b"".join(bytes([signed]) + block for block in blocks))
    return [struct.unpack_from("<48H", told, 100 * k + 4) for k in range(len(blocks))]


class Palette:
    """Blocks of a format with what they show: by pixel, three patterns or four bytes."""

    def __init__(self, form, chance):
        self.form, self.is_bc7 = form, form >= BC7
        if self.is_bc7:
            # every mode, and reserved blocks
            self.blocks = [((chance.getrandbits(128) >> mode + 1 << mode + 1 | 1 << mode) if mode < 8 else chance.getrandbits(120) << 8).to_bytes(16, "little")
                           for mode in [k % 9 for k in range(BLOCKS)]]
            told = program("check_bc7", b"".join(self.blocks))
            self.modes = {told[66 * k + 1] for k in range(BLOCKS)}
            self.pixels = [[told[66 * k + 2 + 4 * p:66 * k + 6 + 4 * p] for p in range(16)] for k in range(BLOCKS)]
            return
        worked = [probe.some_block(chance) for _ in range(BLOCKS // 2)]
        others = [chance.randbytes(16) for _ in range(BLOCKS // 2 - 1)] + [bytes.fromhex("0f000000800000000000000000000000")]
        self.blocks = worked + others
        values = [[value for pixel in probe.picture(block, form == SIGNED) for value in pixel] for block in worked] + shown(others, form)
        self.pixels = [[struct.pack("<3H", *each[3 * p:3 * p + 3]) for p in range(16)] for each in values]


class Picture:
    """A picture of random blocks of a palette. Its rows of blocks are drawn from BANDS different ones, neighbours never the same."""

    def __init__(self, palette, width, height, chance):
        self.palette, self.width, self.height = palette, width, height
        self.across, self.down = -(-width // 4), -(-height // 4)
        self.kinds = [[chance.randrange(BLOCKS) for _ in range(self.across)] for _ in range(min(self.down, BANDS))]
        self.order = list(range(len(self.kinds)))
        while len(self.order) < self.down:
            self.order.append(chance.choice([k for k in range(len(self.kinds)) if k != self.order[-1]]))
        chance.shuffle(self.order) if self.down <= BANDS else None
        self.made = {}

    def blocks(self):
        bands = [b"".join(self.palette.blocks[k] for k in kind) for kind in self.kinds]
        return b"".join(bands[k] for k in self.order)

    def file(self, **changes):
        """It as a DDS file; `changes` are numbers of the header by their names in tests/dds/model.py."""
        data = self.blocks()
        head = bytearray(dds.header(0, self.width, self.height, len(data)))
        for name, value in {"dxgi": DXGI[self.palette.form], **changes}.items():
            struct.pack_into("<I", head, dds.PLACES[name.replace("_", " ")], value)
        return bytes(head) + data

    def row(self, y, as_bytes=lambda row: row):
        """Row y in the bytes of a kind of file, worked out once for rows that are the same."""
        key = (self.order[y // 4], y % 4, as_bytes)
        if key not in self.made:
            pixels = b"".join(self.palette.pixels[k][4 * (y % 4) + x] for k in self.kinds[key[0]] for x in range(4))
            self.made[key] = as_bytes(pixels[:self.width * len(self.palette.pixels[0][0])])
        return self.made[key]


# ---- rows in the kinds of files, of rows of patterns


def as_floats(row):
    return struct.pack(f"<{len(row) // 2}f", *struct.unpack(f"<{len(row) // 2}e", row))


def screen_byte(value, stops):
    """The byte of the screen by the definition of sRGB (IEC 61966-2-1), in whole bytes: the nearest, the upper of two."""
    light = value * 2 ** stops
    light = 0 if not light > 0 else min(light, 1)
    return math.floor(255 * (light * 12.92 if light <= 0.0031308 else 1.055 * light ** (1 / 2.4) - 0.055) + 0.5)


def as_screen(stops):
    known = {}

    def row_of(row):
        patterns = struct.unpack(f"<{len(row) // 2}H", row)
        for pattern in set(patterns) - known.keys():
            known[pattern] = screen_byte(struct.unpack("<e", struct.pack("<H", pattern))[0], stops)
        return bytes(known[pattern] for pattern in patterns)

    return row_of


def brightest(row):
    """The brightest channel of each pixel, where it is above zero."""
    values = struct.unpack(f"<{len(row) // 2}e", row)
    return [top for top in (max(values[k:k + 3]) for k in range(0, len(values), 3)) if top > 0]


def middle_exposure(tops):
    """In whole stops: the middle one of the lit pixels is at a quarter of white, or just below."""
    middle = sorted(tops)[len(tops) // 2] if tops else 0.25
    return next((stops for stops in range(24, -17, -1) if middle * 2.0 ** stops <= 0.25), -16)


def some(seed):
    return random.Random(seed)
