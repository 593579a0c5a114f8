"""Reads and writes DDS files: one BC6H or BC7 texture under the DX10 header.

It prints the width, the height, the format and the number of blocks of FILE; without one it reads standard input. --blocks writes the block
bytes of FILE to OUT. A texture with mip levels is refused unless --first-level asks for its first level. --make writes a DDS file of the
BLOCK-BYTES to OUT; FORMAT is unsigned, signed, bc7 or bc7-srgb. --relabel writes a BC6H file anew as signed or unsigned, with the same blocks:
some encoders label signed files as unsigned. A refused file is the line 'file refused' and the number, and nothing is written: 13 the header
is not ours, 14 a side is not 1 to 4,096, 15 the block bytes are short or left over.
"""
from . import fieldtext, house
from .line import JSON, Line, Option

# The formats by the number that run_dds answers, each with its DXGI number.
FORMATS = {"unsigned": 95, "signed": 96, "bc7": 98, "bc7-srgb": 99}
NAMES = list(FORMATS)
LINE = Line(
    "[FILE]",
    "--blocks FILE OUT",
    "--make WIDTH HEIGHT FORMAT BLOCK-BYTES OUT",
    "--relabel signed|unsigned FILE OUT",
    options=[
        Option("--blocks", "write the block bytes alone"),
        Option("--make", "write a DDS file"),
        Option("--relabel", "write a BC6H file anew as signed or unsigned", "signed|unsigned"),
        Option("--first-level", "of a texture with mip levels take the first"),
        JSON,
    ],
    example="knot dds samples/five.dds\nknot dds --first-level samples/levels.dds\nknot dds --blocks samples/five.dds five.blocks\n"
    "knot dds --make 5 3 signed five.blocks again.dds\nknot dds --relabel unsigned again.dds other.dds",
    choices={"FORMAT": NAMES},
)
# The bytes before the blocks, the most block bytes of one level and of all, and the most pixels on a side.
HEADER, MOST_BLOCKS, MOST_CHAIN, MOST_SIDE = 148, 1 << 24, 22_369_648, 4096
MOST_LEVELS = 13
HIGHEST = 2**32 - 1
# The most bytes of a file, with all its levels: of a longer one, one byte more is read, which is enough to refuse it.
MOST = HEADER + MOST_CHAIN


def word_at(data, at):
    return int.from_bytes(data[at:at + 4], "little")


def header_fault(data, first_level=False, as_pfm=False, or_store=False):
    """Why a header is none of ours, in words: a test of S-61, S-94 or S-95 that it fails. The proved program decides; this only tells."""
    if data[:4] != b"DDS ":
        return "it does not begin with 'DDS ', as a DDS file does" + (": name a record N of a store, --face F or --all of a probe" if or_store else "")
    if len(data) < HEADER and data[84:88] in (b"DX10", b""):
        return f"it has {len(data)} bytes, and the header alone has {HEADER}"
    levels, code, dxgi = word_at(data, 28), data[84:88], word_at(data, 128)
    way_out = f"only a texture of one level is taken: {'knot export ' if as_pfm else ''}--first-level takes its first level"
    tests = [
        (word_at(data, 4) == 124, f"its header says that it has {word_at(data, 4)} bytes, and not 124"),
        (word_at(data, 76) == 32, f"its pixel format says that it has {word_at(data, 76)} bytes, and not 32"),
        (word_at(data, 80) & 4, "its pixel format has no code"),
        (code == b"DX10", f"its code is '{house.shown(code.decode('latin-1'))}' and not 'DX10'"),
        (not as_pfm or dxgi not in (98, 99), f"its DXGI format is {dxgi}, which is BC7, and a Portable Float Map is made of BC6H: knot export writes it as PNG or PAM"),
        (dxgi in FORMATS.values(), f"its DXGI format is {dxgi}, and BC6H's are 95 (unsigned) and 96 (signed), BC7's 98 and 99 (sRGB)"),
        (word_at(data, 132) == 3, f"its dimension is {word_at(data, 132)}, and not 3, a texture of two dimensions"),
        (not word_at(data, 136) & 4, "it is a cube map"),
        (word_at(data, 140) == 1, f"it is an array of {word_at(data, 140):,} textures"),
        (levels <= MOST_LEVELS, f"it has {levels:,} mip levels, and {MOST_LEVELS} are the most"),
        (levels <= 1 or first_level, f"it has {levels:,} mip levels, and {way_out}"),
    ]
    return next((words for holds, words in tests if not holds), house.meaning(13))


def blocks_fault(width, height, levels, there, most):
    """Why a file of that size and so many levels does not have the `there` block bytes that it has; more than `most` of them were not counted."""
    wanted = sum(block_bytes(max(1, width >> level), max(1, height >> level)) for level in range(levels))
    size = f"{width:,} by {height:,} pixels" + (f" in {levels} levels" if levels > 1 else "")
    return f"its blocks have {'more than ' if there > most else ''}{min(there, most):,} bytes, and those of {size} have {wanted:,}"


def refused(number, data=b"", most=MOST_SIDE, length=None, most_bytes=MOST, **context):
    """A refusal with its cause: `data` is the file that was read, if it was a file, or its header, with the file's `length`."""
    reason = None
    if number == 13:
        reason = header_fault(data, **context)
    elif number == 14:
        sides = f"it is {word_at(data, 16):,} by {word_at(data, 12):,} pixels, and " if data else ""
        reason = f"{sides}a side has 1 to {most:,}"
    elif number == 15 and data:
        there = (len(data) if length is None else length) - HEADER
        reason = blocks_fault(word_at(data, 16), word_at(data, 12), max(1, word_at(data, 28)), there, most_bytes - HEADER)
    if number in (14, 16) and context.get("as_pfm") and all(1 <= word_at(data, at) <= MOST_SIDE for at in (12, 16)):
        reason = f"{reason or house.meaning(number)}: knot export takes it"
    return house.Refused(number, f"file refused {number}\n", reason)


def block_bytes(width, height):
    return (width + 3) // 4 * ((height + 3) // 4) * house.BLOCK


def told_of(given, first_level):
    """What the proved program says of the bytes of a file, or of an open one: the number, the format's number, width and height."""
    told = house.ask("run_dds", given, lambda answer: len(answer) == 6 and answer[1] < len(NAMES), ["--first-level"] if first_level else [])
    return told[0], told[1], *(int.from_bytes(told[at:at + 2], "little") for at in (2, 4))


def read(path, first_level=False):
    """A file's width, height, format and block bytes, those of the first level where it has several."""
    data = house.read(path, MOST)
    number, form, width, height = told_of(data, first_level)
    if number != 0:
        raise refused(number, data, first_level=first_level)
    return width, height, NAMES[form], data[HEADER:HEADER + block_bytes(width, height)]


def show(asked):
    width, height, form, blocks = read(asked.file, asked.first_level)
    if asked.json:
        house.put_json({"name": house.read_last, "width": width, "height": height, "format": form, "blocks": len(blocks) // house.BLOCK})
    else:
        house.put(f"{width} {height} {form} {len(blocks) // house.BLOCK}\n")


def take_blocks(asked):
    house.keep_apart(asked.out, asked.file)
    house.write_whole(asked.out, read(asked.file, asked.first_level)[3])


def whole_file(width, height, form, blocks):
    """A DDS file: the proved writer makes the header. Its formats are BC6H's; for BC7 the DXGI number is put in, and the proved reader asked."""
    wish = bytes([NAMES.index(form) % 2]) + b"".join(side.to_bytes(4, "little") for side in (width, height))

    def is_whole(answer):
        return len(answer) == 1 and answer != b"\0" or answer[:5] == b"\0DDS " and len(answer) == 1 + HEADER

    told = house.ask("run_dds", wish + blocks, is_whole, ["--make"])
    if told[0] == 15:
        raise house.Refused(15, "file refused 15\n", blocks_fault(width, height, 1, len(blocks), MOST_BLOCKS))
    if told[0] != 0:
        raise refused(told[0])
    if form in fieldtext.FORMATS:
        return told[1:] + blocks
    made = told[1:129] + FORMATS[form].to_bytes(4, "little") + told[133:] + blocks
    wanted = bytes([0, NAMES.index(form)]) + b"".join(side.to_bytes(2, "little") for side in (width, height))
    house.ask("run_dds", made, lambda answer: answer == wanted)
    return made


def make(asked):
    if asked.first_level:
        raise house.Usage("--first-level reads a file, and --make reads none")
    sides = [house.number(word, what, HIGHEST) for word, what in ((asked.width, "WIDTH"), (asked.height, "HEIGHT"))]
    if asked.format not in FORMATS:
        raise house.Usage(f"a format is {', '.join(NAMES)}, and not '{house.shown(asked.format, 40)}'")
    house.keep_apart(asked.out, asked.block_bytes)
    house.write_whole(asked.out, whole_file(*sides, asked.format, house.read(asked.block_bytes, MOST_BLOCKS)))


def relabel(asked):
    """The same picture's blocks, said to be in the other format, or in the one that is said already."""
    fieldtext.format_number(asked.relabel)
    house.keep_apart(asked.out, asked.file)
    width, height, form, blocks = read(asked.file, asked.first_level)
    if form not in fieldtext.FORMATS:
        raise house.Refused(13, "file refused 13\n", f"its format is {form}, and only a BC6H file is signed or unsigned")
    house.write_whole(asked.out, whole_file(width, height, asked.relabel, blocks))


def run(asked):
    if asked.make:
        make(asked)
    elif asked.relabel is not None:
        relabel(asked)
    elif asked.blocks:
        take_blocks(asked)
    else:
        show(asked)
