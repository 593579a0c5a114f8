"""Pillow as a decoder of BC7 blocks: pillow.py FILE.dds COUNT BLOCKS_A_ROW writes 64 bytes for each of the first COUNT blocks of the file."""
import sys

from PIL import Image

Image.MAX_IMAGE_PIXELS = None
name, count, row = sys.argv[1], int(sys.argv[2]), int(sys.argv[3])
with Image.open(name) as image:
    assert image.mode == "RGBA", image.mode
    pixels = image.tobytes()
line = 16 * row
for first in range(0, count, row):
    start = first // row * 4 * line
    for n in range(min(row, count - first)):
        at = start + 16 * n
        sys.stdout.buffer.write(b"".join(pixels[at + k * line:at + k * line + 16] for k in range(4)))
