"""Writes the picture of a DDS file of at most 64 by 64 pixels as a Portable Float Map.

OUT is a colour Portable Float Map, little-endian, rows from the bottom up. Each value is exactly its half-float pattern, and minus infinity
stays so. A refused file is the line 'file refused' and the number, and nothing is written: 13 the header is not ours, 14 a side is not 1 to 64,
15 the block bytes are short or left over, 16 a side is no multiple of 4.
"""
from . import house, pictures
from .dds import refused, word_at
from .line import Line

LINE = Line("FILE OUT.pfm", example="knot pfm samples/eight.dds eight.pfm")
# The bytes of the largest file that is taken, the header and 256 blocks, and its sides.
MOST, MOST_SIDE = 4244, 64


def is_whole(data, answer):
    """A refusal's number; or 0 and the whole file of the sides that the header says."""
    start, size = pictures.start_and_size("pfm", word_at(data, 16), word_at(data, 12))
    return len(answer) == 1 and answer != b"\0" or answer.startswith(b"\0" + start) and len(answer) == 1 + size


def run(asked):
    house.keep_apart(asked.out, asked.file)
    data = house.read(asked.file, MOST)
    told = house.ask("run_pfm", data, lambda answer: is_whole(data, answer))
    if told[0] != 0:
        raise refused(told[0], data, MOST_SIDE, most_bytes=MOST, as_pfm=True)
    house.write_whole(asked.out, told[1:])
