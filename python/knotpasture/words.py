"""What the number of a refusal means, in one line: the words of this package and of `knot`. It needs nothing else of the package.

tools/make-refusals writes this file from include/knotpasture.h.
"""

WORDS = {
    1: "the format is neither 0 (unsigned) nor 1 (signed)",
    2: "the block is not 16 bytes long",
    3: "the room for the result is too small",
    4: "the mode is reserved",
    5: "the store has more than 2,000 records",
    6: "the store's length is not a whole number of records",
    7: "a spare byte of a record is not zero",
    8: "there is no record of that number",
    9: "the blocks' length is not a multiple of 16",
    10: "no block has these fields",
    11: "the block's buffer is not 16 bytes long",
    12: "a record that is not refused has a reserved mode: the capture is damaged",
    13: "the header is not that of a DDS texture that the call reads",
    14: "the width or height is out of range",
    15: "the block bytes are short or left over for the size",
    16: "the width or height is zero, not a multiple of 4 or above 4,096",
    17: "the face is bad, or a record that is not placed has a position",
    18: "a placed record does not move back",
    19: "the edge is not 1 to 16",
    20: "a record is not placed",
    21: "a position is at or past the edge",
    22: "a place is taken twice",
    23: "a place is empty",
    24: "the face, x or y is out of range",
    25: "the receipt does not fit the store",
    26: "the store is not the one that was signed",
    27: "the receipt is of another store",
    28: "the file looks like something else",
}
