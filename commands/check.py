"""Names every faulty record of a store, of 24-byte records or of records with a place.

Without a STORE it reads standard input. It prints a line for each faulty record: number, tile, 'refused' or 'damaged', the number of the cause,
and the cause in words. A record is refused where the record call refuses it, and damaged where it is not refused and its block has a reserved
mode. The last line has the form and the counts. The form is the one in which fewer records are refused, and that of 24 bytes where both
have as many; --form decides it. If the file looks like something else, standard error says what. A store of a length that its form does not have is the line 'store refused' and the number.
"""
from . import house, kinds
from .line import FORM, JSON, Line

LINE = Line(
    "[STORE]",
    options=[FORM, JSON],
    example="knot check samples/refused.store",
    statuses="status: 0 no record is faulty; 1 one is, or the store is refused; 2 the words do not fit; 3 input, output or an unexpected error",
)
DAMAGED = 12
WORDS = {DAMAGED: "its block has a reserved mode"}


def fault(record, tile, cause):
    return {"record": record, "tile": tile, "verdict": "damaged" if cause == DAMAGED else "refused", "cause": cause, "words": WORDS.get(cause) or house.meaning(cause)}


def told(fault):
    verdict = house.painted(fault["verdict"], "doubtful" if fault["verdict"] == "damaged" else "bad")
    return f"{fault['record']} {fault['tile']} {verdict} {fault['cause']} {fault['words']}\n"


def run(asked):
    form, data = kinds.form_asked(asked), house.read(asked.store, kinds.MOST)
    reading = kinds.Reading(data, form) if form else kinds.likelier_reading(data)
    if reading.bad_length:
        raise house.Refused(reading.bad_length, f"store refused {reading.bad_length}\n")
    faults = [fault(*found) for found in reading.faults]
    counts = {"form": reading.form, "records": reading.records, "refused": reading.refused, "damaged": reading.damaged}
    if asked.json:
        house.put_json({"name": house.read_last, **counts, "faults": faults})
    else:
        closing = " ".join(f"{word} {number}" for word, number in counts.items())
        house.put("".join(map(told, faults)) + (closing if faults else house.painted(closing, "good")) + "\n")
    if faults:
        looks = kinds.looks_like(data, reading.form) if reading.refused else None
        verdict = f"of {reading.records:,} records {reading.refused:,} are refused and {reading.damaged:,} damaged"
        raise house.Faulty(f"{verdict}; it looks like {looks}" if looks else verdict)
