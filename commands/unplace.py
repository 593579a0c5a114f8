"""Moves a store of records with a place back to 24-byte records.

No record of GIVEN may be placed. MADE becomes the store of 24-byte records, the same bytes that 'knot place' made GIVEN of. It prints 'moved'
and the number of records. A refused store is the line 'store refused' and the number, and MADE stays as it is: 28 where the file looks like
something else, 5 or 6 for its length, then 1, 7, 17 of the first refused record, or 18 for a placed one. MADE may not be GIVEN.
"""
from . import kinds, moving
from .line import AS_STORE, Line

LINE = Line("GIVEN MADE", options=[AS_STORE], example="knot unplace new.store old.store")


def run(asked):
    moving.move(asked, "run_unplace", kinds.placed_to_change, kinds.PLACED, kinds.PLAIN)
