"""Portable Float Maps and their refusals as S-64 and S-65 state them, and nothing of the code."""
import struct

DDS_HEADER = 148


def header(width, height):
    return b"PF\n%d %d\n-1.0\n" % (width, height)


def float_bytes(pattern):
    """A half-float pattern as a 32-bit float, low byte first: Python's own reading of the pattern."""
    return struct.pack("<f", struct.unpack("<e", struct.pack("<H", pattern))[0])


def length(width, height):
    return len(header(width, height)) + 12 * width * height


def even(side):
    return side != 0 and side % 4 == 0 and side <= 4096


def refusal(size, form, width, height, room):
    """1, 16, 15, 3, first met first; 0 where it is done."""
    if form not in (0, 1):
        return 1
    if not even(width) or not even(height):
        return 16
    if size != width // 4 * (height // 4) * 16:
        return 15
    if room < length(width, height):
        return 3
    return 0


def pixel(values, width, x, y):
    """The three patterns of pixel (x, y), row 0 on top, of the values of blocks in row order, 48 a block."""
    block = y // 4 * (width // 4) + x // 4
    at = 48 * block + 3 * (4 * (y % 4) + x % 4)
    return values[at:at + 3]


def picture(values, width, height):
    """The whole file."""
    rows = []
    for y in reversed(range(height)):
        for x in range(width):
            rows += [float_bytes(pattern) for pattern in pixel(values, width, x, y)]
    return header(width, height) + b"".join(rows)


def dds(width, height, form, blocks, **other):
    """A DDS file of one level under the DX10 header; `other` puts words at bytes, as byte_28=3."""
    head = bytearray(struct.pack("<4s7I44x2I4s20xI16x5I", b"DDS ", 124, 0x81007, height, width, len(blocks), 0, 1, 32, 4, b"DX10", 0x1000, 95 + form, 3, 0, 1, 0))
    for name, word in other.items():
        struct.pack_into("<I", head, int(name.removeprefix("byte_")), word)
    return bytes(head) + blocks


def export_refusal(file):
    """Of the program: 13, 14 (also for a larger picture, by its header), 15, 16."""
    if len(file) < DDS_HEADER:
        return 13
    word = {at: struct.unpack_from("<I", file, at)[0] for at in range(0, DDS_HEADER, 4)}
    ours = (
        file[:4] == b"DDS " and word[4] == 124 and word[28] in (0, 1) and word[76] == 32 and word[80] & 4 and file[84:88] == b"DX10"
        and word[128] in (95, 96) and word[132] == 3 and not word[136] & 4 and word[140] == 1
    )
    if not ours:
        return 13
    height, width = word[12], word[16]
    if not 1 <= width <= 64 or not 1 <= height <= 64:
        return 14
    if len(file) - DDS_HEADER != -(-width // 4) * -(-height // 4) * 16:
        return 15
    if width % 4 or height % 4:
        return 16
    return 0
