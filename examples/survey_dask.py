"""Copies across stores with Dask: python3 examples/survey_dask.py FOLDER..

The rows come from the proved calls (`knotpasture.survey`); Dask spreads the files over its workers and groups the rows. PYTHONPATH has python/.
"""
import sys

import dask.bag
from knotpasture.survey import files_in, rows_of


def tiles(path):
    """Each tile of a store that holds a picture: its format's byte with its sixteen, and where it is."""
    store, records = rows_of(path)
    return [(bytes([record.format]) + record.block, store.path, record.number, record.tile) for record in records if record.mode]


def main():
    files = dask.bag.from_sequence(files_in(sys.argv[1:]), npartitions=64)
    groups = files.map(tiles).flatten().groupby(lambda tile: tile[0])
    shared = groups.filter(lambda group: len({path for _, path, *_ in group[1]}) > 1)
    for key, found in shared.compute():
        print(key.hex(), *(f"{path.decode(errors='replace')}:{number}" for _, path, number, _ in found))


if __name__ == "__main__":
    main()
