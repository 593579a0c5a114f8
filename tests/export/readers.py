"""Readers of PFM, OpenEXR, PNG and PAM, written from the formats alone: each says what a file is and gives its rows, row 0 on top. A file that breaks
its format is a Broken."""
import struct
import zlib


class Broken(Exception):
    pass


def need(holds, what):
    if not holds:
        raise Broken(what)


class Image:
    """A file that is read: width, height, what else it says of itself, and a row by its number."""

    def __init__(self, width, height, row, **told):
        self.width, self.height, self.row, self.told = width, height, row, told


def lines_of(file, count):
    """So many lines of text at the start of a file."""
    return [file.readline().decode("ascii").rstrip("\n") for _ in range(count)]


def pfm(path):
    """A colour Portable Float Map of low byte first: a row is its floats, red, green, blue."""
    file = open(path, "rb")
    mark, sides, scale = lines_of(file, 3)
    need((mark, scale) == ("PF", "-1.0"), (mark, scale))
    width, height = map(int, sides.split(" "))
    start, size = file.tell(), 12 * width
    need(file.seek(0, 2) == start + size * height, "length")

    def row(y):
        file.seek(start + size * (height - 1 - y))
        return file.read(size)

    return Image(width, height, row)


def attributes(file):
    """The header of an OpenEXR file of one part: each attribute by its name, as type and bytes."""
    def word():
        said = b""
        while (sign := file.read(1)) != b"\0":
            need(sign and len(said) < 31, "a name")
            said += sign
        return said.decode("ascii")

    found = {}
    while name := word():
        kind, (size,) = word(), struct.unpack("<I", file.read(4))
        need(name not in found, f"{name} twice")
        found[name] = (kind, file.read(size))
    return found


def exr(path):
    """An OpenEXR file of one part, scan lines without compression, three channels of half-floats: a row is the patterns, red, green, blue."""
    file = open(path, "rb")
    need(file.read(8) == bytes.fromhex("762f310102000000"), "the mark, version 2 and no flags")
    said = attributes(file)
    wanted = {"channels": "chlist", "compression": "compression", "dataWindow": "box2i", "displayWindow": "box2i", "lineOrder": "lineOrder",
              "pixelAspectRatio": "float", "screenWindowCenter": "v2f", "screenWindowWidth": "float"}
    need({name: kind for name, (kind, _) in said.items()} == wanted, said)
    channels = b"".join(name + struct.pack("<IB3xII", 1, 0, 1, 1) for name in (b"B\0", b"G\0", b"R\0")) + b"\0"
    need(said["channels"][1] == channels, "channels B, G and R as HALF")
    need(said["compression"][1] == b"\0" and said["lineOrder"][1] == b"\0", "no compression, rising lines")
    x, y, right, bottom = struct.unpack("<4i", said["dataWindow"][1])
    need((x, y) == (0, 0) and said["displayWindow"] == said["dataWindow"], "windows")
    need(said["pixelAspectRatio"][1] == said["screenWindowWidth"][1] == struct.pack("<f", 1) and said["screenWindowCenter"][1] == bytes(8), "ratios")
    width, height = right + 1, bottom + 1
    places = struct.unpack(f"<{height}Q", file.read(8 * height))
    need(list(places) == [file.tell() + (8 + 6 * width) * k for k in range(height)], "the table of lines")
    need(file.seek(0, 2) == places[0] + (8 + 6 * width) * height, "length")

    def row(y):
        file.seek(places[y])
        need(struct.unpack("<ii", file.read(8)) == (y, 6 * width), f"line {y}")
        data, values = file.read(6 * width), bytearray(6 * width)
        for channel, plane in enumerate((2, 1, 0)):
            for byte in range(2):
                values[2 * channel + byte::6] = data[2 * width * plane + byte:2 * width * (plane + 1):2]
        return bytes(values)

    return Image(width, height, row)


def chunks(file):
    """The parts of a PNG, each with its sum held."""
    need(file.read(8) == b"\x89PNG\r\n\x1a\n", "the mark")
    kind = b""
    while kind != b"IEND":
        (size,), kind = struct.unpack(">I", file.read(4)), file.read(4)
        data = file.read(size)
        need(struct.unpack(">I", file.read(4))[0] == zlib.crc32(kind + data), f"the sum of {kind}")
        yield kind, data
    need(file.read(1) == b"", "nothing behind the end")


def png(path):
    """A PNG of eight bits whose rows have no filter: rows come in their order, once."""
    parts = chunks(open(path, "rb"))
    kind, data = next(parts)
    width, height, *rest = struct.unpack(">IIBBBBB", data)
    need(kind == b"IHDR" and rest[0] == 8 and rest[1] in (2, 6) and rest[2:] == [0, 0, 0], (kind, rest))
    size = 1 + width * {2: 3, 6: 4}[rest[1]]
    image = Image(width, height, None, colours=rest[1], srgb=False)

    def rows():
        packed, left = zlib.decompressobj(), bytearray()
        for kind, data in parts:
            if kind == b"IDAT":
                left += packed.decompress(data)
                at = 0
                while len(left) - at >= size:
                    need(left[at] == 0, "a filter")
                    yield bytes(left[at + 1:at + size])
                    at += size
                del left[:at]
            elif kind == b"sRGB":
                image.told["srgb"] = data == b"\0"
            else:
                need(kind == b"IEND", kind)
        need(packed.eof and not left and not packed.unused_data, "the end of the rows")
        image.told["ended"] = True

    each = rows()
    image.row = lambda y: next(each, None)
    return image


def pam(path):
    """A Portable Arbitrary Map of four channels of a byte: a row is red, green, blue, alpha."""
    file = open(path, "rb")
    head = lines_of(file, 7)
    need(head[0] == "P7" and head[3:] == ["DEPTH 4", "MAXVAL 255", "TUPLTYPE RGB_ALPHA", "ENDHDR"], head)
    width, height = (int(line.removeprefix(word)) for line, word in zip(head[1:3], ("WIDTH ", "HEIGHT ")))
    start = file.tell()
    need(file.seek(0, 2) == start + 4 * width * height, "length")

    def row(y):
        file.seek(start + 4 * width * y)
        return file.read(4 * width)

    return Image(width, height, row)
