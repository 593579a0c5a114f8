"""Records of a store of 24-byte records, by what the proved record call answers for them."""
from . import programs
from .ends import Refused, meaning

# The sizes of a block and of a record, the largest store of 24-byte records, and of records with a place.
BLOCK, RECORD = 16, 24
STORE, PLACED_STORE = 48_000, 64_000


def record_answers(store):
    """What the record call answers for each record of a store: the third word of each line of the listing but the last."""
    return [int(line.split()[2]) for line in programs.listed(store).splitlines()[:-1]]


def record_refused(number_of, why=None):
    return Refused(number_of, f"record refused {number_of}\n", why)


def no_record_in_words(n, count):
    return f"there is no record {n if n < 10**20 else 'of so high a number'}: it has {count:,}, from 0 on"


def no_record(n, count):
    return record_refused(8, no_record_in_words(n, count))


def record_in(store, n):
    """Record n of a store, which the record call does not refuse."""
    answers = record_answers(store)
    if n >= len(answers):
        raise no_record(n, len(answers))
    if answers[n] != 0:
        raise record_refused(answers[n], f"record {n}: {meaning(answers[n])}")
    return store[n * RECORD:(n + 1) * RECORD]
