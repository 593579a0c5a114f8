"""The faces of a probe by number or by name, in the order of S-60."""
from . import house

NAMES = ("+X", "-X", "+Y", "-Y", "+Z", "-Z")
# The word for no face, for a record that is not placed.
NOWHERE = "none"
# The face of a record that is not placed, and the most that a byte has besides: no face, and refused as each other number is.
NONE, WRONG = 255, 254
# Names that begin as an option does, and yet are operands.
DASHED = tuple(name for name in NAMES if name.startswith("-"))


def number(word, what="FACE", or_none=False):
    """A face that the command line names, or with `or_none` none: whether there is one of that number, the proved program says."""
    if word.upper() in NAMES:
        return NAMES.index(word.upper())
    if or_none and word.lower() == NOWHERE:
        return NONE
    if not word.isascii() or not word.isdigit():
        names = f"{', '.join(NAMES)}{f', {NOWHERE}' if or_none else ''}"
        raise house.Usage(f"{what} is 0 to 5 or one of {names}, and not '{house.shown(word, 40)}'")
    return house.number(word, what)


def no_face(face):
    return f"there is no face {face if face < 10**20 else 'of so high a number'}, only 0 to 5"
