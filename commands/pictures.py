"""Pictures of blocks, a few rows of blocks at a time, and the files that are made of them in Python: PNG and PAM.

A picture is never in memory whole. What its blocks show is asked of the proved programs.
"""
import os
import struct

from . import house, screen

# The blocks of a picture that are in memory at a time.
AT_A_TIME = 8192
# What run_pixels answers for a block: four bytes, and 48 values of two bytes; as words of four.
SHOWN, SHOWN_WORDS = 100, 25
BC7_SHOWN = 64
UNSIGNED, SIGNED, BC7, BC7_SRGB = range(4)
MARK = b"\x89PNG\r\n\x1a\n"
RGB, RGBA = 2, 6
# The bytes of a PNG's part that are written at a time, at least.
PART = 1 << 16


class Picture:
    """A picture of blocks: `read(at, size)` gives bytes of them, in rows of blocks from the top down."""

    def __init__(self, width, height, form, read):
        self.width, self.height, self.form, self.read = width, height, form, read
        self.across, self.down = -(-width // 4), -(-height // 4)

    def bands(self, first, count):
        """The block bytes of some rows of blocks."""
        size = house.BLOCK * self.across
        return self.read(size * first, size * count)

    def groups(self):
        """As many rows of blocks as are in memory at a time, from the top down: the first of them, and how many."""
        step = max(1, AT_A_TIME // self.across)
        return [(first, min(step, self.down - first)) for first in range(0, self.down, step)]

    def half_rows(self):
        """The patterns of each row from the top down, red, green, blue."""
        for first, count in self.groups():
            words, size = memoryview(shown(self.form, self.bands(first, count))).cast("I"), SHOWN_WORDS * self.across
            for y in range(4 * first, min(4 * (first + count), self.height)):
                row, band = memoryview(bytearray(24 * self.across)).cast("I"), words[size * (y // 4 - first):size * (y // 4 - first + 1)]
                for k in range(6):
                    row[k::6] = band[1 + 6 * (y % 4) + k::SHOWN_WORDS]
                yield row.cast("B").cast("H")[:3 * self.width]

    def byte_rows(self):
        """The bytes of each row of BC7 from the top down, red, green, blue, alpha."""
        for first, count in self.groups():
            blocks = self.bands(first, count)
            answer = house.ask("run_bc7", blocks, lambda answer: len(answer) == BC7_SHOWN * (len(blocks) // house.BLOCK))
            words, size = memoryview(answer).cast("Q"), 8 * self.across
            for y in range(4 * first, min(4 * (first + count), self.height)):
                row, band = memoryview(bytearray(16 * self.across)).cast("Q"), words[size * (y // 4 - first):size * (y // 4 - first + 1)]
                for k in range(2):
                    row[k::2] = band[2 * (y % 4) + k::8]
                yield row.cast("B")[:4 * self.width]

    def count_tops(self, tops):
        """Counts pixels by the pattern of their brightest channel: about 100,000 of them, those that the page chooses."""
        pixels, pitch = 16 * self.across * self.down, 4 * self.across
        step = max(1, pixels // screen.SAMPLES)
        for start in range(0, pixels, AT_A_TIME * step):
            places = [divmod(at, pitch) for at in range(start, min(pixels, start + AT_A_TIME * step), step)]
            wanted = {number: k for k, number in enumerate(dict.fromkeys(self.across * (y // 4) + x // 4 for y, x in places))}
            values = memoryview(shown(self.form, b"".join(self.read(house.BLOCK * number, house.BLOCK) for number in wanted))).cast("H")
            for y, x in places:
                at = SHOWN // 2 * wanted[self.across * (y // 4) + x // 4] + 2 + 3 * (4 * (y % 4) + x % 4)
                tops[screen.top_of(values[at:at + 3])] += 1


class Face:
    """A face of a probe by the OpenEXR file that the proved program makes of it."""
    form = UNSIGNED

    def __init__(self, side, file):
        self.width = self.height = side
        self.lines = file[-(8 + 6 * side) * side:]

    def half_rows(self):
        side = self.width
        for at in range(8, len(self.lines), 8 + 6 * side):
            line, row = memoryview(self.lines[at:at + 6 * side]).cast("H"), memoryview(bytearray(6 * side)).cast("H")
            for channel, plane in enumerate((2, 1, 0)):
                row[channel::3] = line[side * plane:side * (plane + 1)]
            yield row

    def count_tops(self, tops):
        for row in self.half_rows():
            for at in range(0, len(row), 3):
                tops[screen.top_of(row[at:at + 3])] += 1


def is_bc7(picture):
    return picture.form >= BC7


def with_format(form, blocks):
    """What run_pixels reads: a byte of the format before each block."""
    count = len(blocks) // house.BLOCK
    made = bytearray(count * (1 + house.BLOCK))
    made[0::1 + house.BLOCK] = bytes([form]) * count
    for k in range(house.BLOCK):
        made[k + 1::1 + house.BLOCK] = blocks[k::house.BLOCK]
    return made


def shown(form, blocks):
    """What blocks of BC6H show: 100 bytes each."""
    count = len(blocks) // house.BLOCK
    return house.ask("run_pixels", with_format(form, blocks), lambda answer: len(answer) == SHOWN * count and not any(answer[0::SHOWN]))


def exposure_of(pictures):
    """The exposure in stops that the page opens pictures at."""
    tops = [0] * screen.SIGN
    for picture in pictures:
        picture.count_tops(tops)
    return screen.middle_exposure(tops)


# ---- files


class Png:
    """A PNG that is written to an open file, a row at a time. It has said sRGB where the curve of its bytes is known."""

    def __init__(self, file, width, height, colours, is_srgb):
        import zlib
        self.file, self.size, self.crc = file, 0, zlib.crc32
        self.put(MARK)
        self.part(b"IHDR", struct.pack(">IIBBBBB", width, height, 8, colours, 0, 0, 0))
        if is_srgb:
            self.part(b"sRGB", b"\0")
        self.packer, self.packed = zlib.compressobj(LEVEL), bytearray()

    def put(self, data):
        house.write_all(self.file, data)
        self.size += len(data)

    def part(self, kind, data):
        self.put(struct.pack(">I", len(data)) + kind + data + struct.pack(">I", self.crc(kind + data)))

    def row(self, data):
        """A row, by the filter that leaves it as it is."""
        self.packed += self.packer.compress(b"\0" + data)
        if len(self.packed) >= PART:
            self.flush()

    def flush(self):
        self.part(b"IDAT", bytes(self.packed))
        self.packed.clear()

    def end(self):
        """The bytes of the whole file."""
        self.packed += self.packer.flush()
        self.flush()
        self.part(b"IEND", b"")
        return self.size


# How hard zlib tries: a picture to look at is written soon rather than small.
LEVEL = 3


def write_png(out, picture, stops):
    """A PNG of the picture at an exposure in stops. BC7 has it by itself: its bytes are the screen's already, and stay at 0 stops."""
    def make(file):
        if is_bc7(picture):
            png, table = Png(file, picture.width, picture.height, RGBA, stops or picture.form == BC7_SRGB), screen.byte_table(stops) if stops else None
            for row in picture.byte_rows():
                png.row(exposed(row, table) if table else bytes(row))
            return png.end()
        png, byte = Png(file, picture.width, picture.height, RGB, True), list(screen.half_table(stops)).__getitem__
        for row in picture.half_rows():
            png.row(bytes(map(byte, row)))
        return png.end()

    house.write_by(out, make)


def exposed(row, table):
    """A row of BC7 at another exposure: its alpha stays."""
    made = bytearray(bytes(row).translate(table))
    made[3::4] = row[3::4]
    return bytes(made)


def write_pam(out, picture):
    """A Portable Arbitrary Map of a BC7 picture, its bytes as they are."""
    head = b"P7\nWIDTH %d\nHEIGHT %d\nDEPTH 4\nMAXVAL 255\nTUPLTYPE RGB_ALPHA\nENDHDR\n" % (picture.width, picture.height)

    def make(file):
        house.write_all(file, head)
        for row in picture.byte_rows():
            house.write_all(file, row)
        return len(head) + 4 * picture.width * picture.height

    house.write_by(out, make)


# Of a file of values as they are: the number of its kind for run_export, the bytes at the start, and how many follow.
FLOATS = {
    "pfm": (0, lambda width, height: b"PF\n%d %d\n-1.0\n" % (width, height), lambda width, height: 12 * width * height),
    "exr": (1, lambda width, height: b"\x76\x2f\x31\x01\x02\0\0\0", lambda width, height: 305 + (16 + 6 * width) * height),
}


def start_and_size(kind, width, height):
    """How such a file begins, and how many bytes it has."""
    _, head, rest = FLOATS[kind]
    start = head(width, height)
    return start, len(start) + rest(width, height)


def float_pieces(picture, kind):
    """What run_export reads: a wish, and the rows of blocks in the order of the file, which is from the bottom up for a Portable Float Map."""
    number, size = FLOATS[kind][0], house.BLOCK * picture.across
    yield bytes([number, picture.form]) + struct.pack("<II", picture.width, picture.height)
    for first, count in picture.groups() if kind == "exr" else reversed(picture.groups()):
        data = picture.bands(first, count)
        yield data if kind == "exr" else b"".join(data[at:at + size] for at in range(len(data) - size, -1, -size))


def write_floats(out, picture, kind):
    """A file of the values as they are, by the proved program alone."""
    start, size = start_and_size(kind, picture.width, picture.height)

    def make(file):
        house.run_into("run_export", float_pieces(picture, kind), file, size)
        if os.pread(file, len(start), 0) != start:
            raise house.Trouble("the program run_export wrote another file than it was asked for")
        return size

    house.write_by(out, make)
