"""The screen's bytes of a picture, as the page draws it (web/page/colours.js and screen.js): an exposure in stops, then the curve of sRGB."""
import math
import struct

# The exposures, in whole stops, that a picture is opened at.
DARKEST, BRIGHTEST = -16, 24
# How many pixels of a picture its exposure is chosen by, about.
SAMPLES = 100_000
PATTERNS, SIGN, MINUS_INFINITY = 65536, 0x8000, 0xFC00


def floats():
    """The number of each half-float pattern."""
    return struct.unpack(f"<{PATTERNS}e", struct.pack(f"<{PATTERNS}H", *range(PATTERNS)))


def byte_of(value, scale):
    """A channel's byte: the value is scaled by the exposure, cut to 0 to 1, and given the screen's gamma."""
    scaled = value * scale
    x = min(max(scaled, 0.0), 1.0) if scaled == scaled else 0.0
    return math.floor(255 * (12.92 * x if x <= 0.0031308 else 1.055 * x ** (1 / 2.4) - 0.055) + 0.5)


def half_table(stops):
    """The byte of each half-float pattern."""
    return bytes(byte_of(value, 2.0 ** stops) for value in floats())


def byte_table(stops):
    """The byte of each byte of a BC7 picture, which has the screen's gamma already; its linear light is a 32-bit float, as the page's is."""
    linear = [byte / 255 / 12.92 if byte <= 0.04045 * 255 else ((byte / 255 + 0.055) / 1.055) ** 2.4 for byte in range(256)]
    return bytes(byte_of(value, 2.0 ** stops) for value in struct.unpack("<256f", struct.pack("<256f", *linear)))


def top_of(triple):
    """The pattern of the brightest of a pixel's channels, 0 where none is above zero."""
    return max(0 if pattern >= SIGN else pattern for pattern in triple)


def middle_exposure(tops):
    """The exposure at which the middle one of the lit pixels is at a quarter of white or just below. `tops` counts pixels by the pattern of their
    brightest channel: patterns above zero rise as their numbers do."""
    numbers, at, lit = floats(), 0, sum(tops[1:SIGN])
    middle = 0.25
    for pattern in range(1, SIGN if lit else 1):
        at += tops[pattern]
        if at > lit // 2:
            middle = numbers[pattern]
            break
    return next((stops for stops in range(BRIGHTEST, DARKEST, -1) if middle * 2.0 ** stops <= 0.25), DARKEST)


def own_exposure(patterns):
    """The brightest exposure at which none of a tile's values is above white."""
    numbers = floats()
    top = max((abs(numbers[pattern]) for pattern in patterns if pattern != MINUS_INFINITY), default=0)
    return next((stops for stops in range(BRIGHTEST, DARKEST, -1) if top * 2.0 ** stops <= 1), DARKEST) if top else 0
