"""DDS files as S-61 to S-63 and S-94 to S-96 state them, and nothing of the code: what reading and writing answer."""
import struct

FLAGS, CAPS, LIMIT, BEFORE = 0x81007, 0x1000, 4096, 148

# where the numbers stand, by the public guide
PLACES = {
    "magic": 0, "size": 4, "flags": 8, "height": 12, "width": 16, "linear size": 20, "depth": 24, "levels": 28, "format size": 76,
    "format flags": 80, "code": 84, "bit count": 88, "caps": 108, "caps 2": 112, "caps 3": 116, "caps 4": 120, "reserved": 124,
    "dxgi": 128, "dimension": 132, "more flags": 136, "array": 140, "second flags": 144,
}


def number(file, name):
    return struct.unpack_from("<I", file, PLACES[name])[0]


# S-61, S-94: the DXGI numbers of BC6H, unsigned and signed, and of BC7, linear and sRGB
BC6H, BC7 = (95, 96), (98, 99)


def is_ours(file, formats=BC6H, most=1):
    """A header is ours exactly if .., for two DXGI formats and a most level count."""
    return (
        len(file) >= BEFORE
        and file[0:4] == b"DDS "
        and number(file, "size") == 124
        and number(file, "levels") <= most
        and number(file, "format size") == 32
        and number(file, "format flags") & 0x4 != 0
        and file[84:88] == b"DX10"
        and number(file, "dxgi") in formats
        and number(file, "dimension") == 3
        and number(file, "more flags") & 0x4 == 0
        and number(file, "array") == 1
    )


def in_range(width, height):
    return 1 <= width <= LIMIT and 1 <= height <= LIMIT


def block_bytes(width, height):
    """Rounded up to whole blocks, of 16 bytes each."""
    return -(-width // 4) * -(-height // 4) * 16


def level_sizes(width, height, levels):
    """S-95: a side is halved from level to level, rounded down, and 1 at least."""
    for _ in range(levels):
        yield width, height
        width, height = max(width // 2, 1), max(height // 2, 1)


def head(file, formats=BC6H, most=1):
    """Number, width, height and format from the header; zeros on a refusal."""
    if not is_ours(file, formats, most):
        return 13, 0, 0, 0
    width, height = number(file, "width"), number(file, "height")
    if not in_range(width, height):
        return 14, 0, 0, 0
    return 0, width, height, formats.index(number(file, "dxgi"))


def read(file, formats=BC6H, most=1):
    """The same of a whole file: the blocks of all levels are there, and nothing else."""
    answer = head(file, formats, most)
    if answer[0] == 0:
        sizes = level_sizes(*answer[1:3], number(file, "levels") or 1)
        if len(file) - BEFORE != sum(block_bytes(*size) for size in sizes):
            return 15, 0, 0, 0
    return answer


def blocks(file, formats=BC6H, most=1):
    """The blocks of the first level."""
    answer = read(file, formats, most)
    return file[BEFORE:BEFORE + block_bytes(*answer[1:3])] if answer[0] == 0 else b""


def told(file, most=1):
    """S-96: what the program tells: as BC6H, and where that answers 13 as BC7, whose formats are 2 and 3."""
    answer = read(file, BC6H, most)
    if answer[0] != 13:
        return answer
    number, width, height, form = read(file, BC7, most)
    return number, width, height, form if number else form + 2


def header(form, width, height, size, dxgi=None):
    made = bytearray(BEFORE)
    made[0:4], made[84:88] = b"DDS ", b"DX10"
    for name, value in (
        ("size", 124), ("flags", FLAGS), ("height", height), ("width", width), ("linear size", size), ("levels", 1), ("format size", 32),
        ("format flags", 0x4), ("caps", CAPS), ("dxgi", dxgi or 95 + form), ("dimension", 3), ("array", 1),
    ):
        struct.pack_into("<I", made, PLACES[name], value)
    return bytes(made)


def write(data, form, width, height, room):
    """The number, and the file."""
    if form not in (0, 1):
        return 1, b""
    if not in_range(width, height):
        return 14, b""
    if len(data) != block_bytes(width, height):
        return 15, b""
    if room < BEFORE + len(data):
        return 3, b""
    return 0, header(form, width, height, len(data)) + data
