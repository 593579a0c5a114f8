"""Files of any size from decoded values, written from S-64, S-92, S-98 and S-99 and not from the specification's symbols.

`values` are the patterns of whole blocks, 48 a block, blocks in row order; -(-width // 4) blocks a row.
"""
import struct

PFM, EXR = 0, 1


def along(side):
    return -(-side // 4)


def pattern(values, width, x, y, channel):
    """Channel 0 red, 1 green, 2 blue of pixel (x, y), row 0 on top."""
    block = (y // 4) * along(width) + x // 4
    return values[48 * block + 3 * (4 * (y % 4) + x % 4) + channel]


def float_bytes(half):
    return struct.pack("<f", struct.unpack("<e", struct.pack("<H", half))[0])


def pfm(values, width, height):
    rows = []
    for y in reversed(range(height)):
        rows.append(b"".join(float_bytes(pattern(values, width, x, y, channel)) for x in range(width) for channel in range(3)))
    return f"PF\n{width} {height}\n-1.0\n".encode() + b"".join(rows)


def attribute(name, kind, value):
    return name.encode() + b"\0" + kind.encode() + b"\0" + struct.pack("<I", len(value)) + value


def exr(values, width, height):
    channels = b"".join(name + b"\0" + struct.pack("<IIII", 1, 0, 1, 1) for name in (b"B", b"G", b"R")) + b"\0"
    window = struct.pack("<iiii", 0, 0, width - 1, height - 1)
    head = struct.pack("<II", 20000630, 2) + b"".join((
        attribute("channels", "chlist", channels), attribute("compression", "compression", b"\0"),
        attribute("dataWindow", "box2i", window), attribute("displayWindow", "box2i", window),
        attribute("lineOrder", "lineOrder", b"\0"), attribute("pixelAspectRatio", "float", struct.pack("<f", 1)),
        attribute("screenWindowCenter", "v2f", struct.pack("<ff", 0, 0)), attribute("screenWindowWidth", "float", struct.pack("<f", 1)))) + b"\0"
    lines = []
    for y in range(height):
        halves = struct.pack(f"<{3 * width}H", *(pattern(values, width, x, y, channel) for channel in (2, 1, 0) for x in range(width)))
        lines.append(struct.pack("<iI", y, len(halves)) + halves)
    first = len(head) + 8 * height
    table = b"".join(struct.pack("<Q", first + y * len(lines[0])) for y in range(height))
    return head + table + b"".join(lines)


def picture(kind, values, width, height):
    return (exr if kind == EXR else pfm)(values, width, height)


def wish(kind, form, width, height):
    return struct.pack("<BBII", kind, form, width, height)


def bands(kind, blocks, width):
    """The rows of blocks in the order of the file."""
    size = 16 * along(width)
    rows = [blocks[k:k + size] for k in range(0, len(blocks), size)]
    return rows if kind == EXR else rows[::-1]
