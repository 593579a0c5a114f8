"""Names the records of a store in which a value is minus infinity.

Without a STORE it reads standard input. It prints a line for each such record: number, tile, how many of its 48 values are minus infinity,
and the pixel and channel of the first. The last line has the counts. A refused store is the line 'store refused' and the number.
"""
from . import house, kinds
from .line import AS_STORE, JSON, Line

LINE = Line("[STORE]", options=[JSON, AS_STORE], example="knot infinities samples/four.store")
ENDS = house.Text(5, "records values", rows=lambda records, values: records)


def facts_of(text):
    *rows, last = [line.split() for line in text.decode().splitlines()]
    return {
        "records": [{"record": int(n), "tile": int(tile), "values": int(values), "pixel": int(pixel), "channel": channel} for n, tile, values, pixel, channel in rows],
        "counts": {word: int(number) for word, number in zip(last[::2], last[1::2])},
    }


def run(asked):
    text = house.over_store("run_infinities", kinds.store_to_show(asked.store, asked.as_store), ENDS)
    if asked.json:
        house.put_json({"name": house.read_last, **facts_of(text)})
    else:
        house.put(text)
