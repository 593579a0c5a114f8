#!/usr/bin/env python3
"""Runs the proved programs over stores and writes what each printed, as JSON, for tests/wasm/programs.mjs: tests/wasm/programs.py COUNT SEED

The stores are the samples, COUNT by chance with twins, copies, damaged and refused records, and those at the limits. On another processor than x86-64 a
program runs under an emulator, at a tenth of a second a run.
"""
import base64
import json
import pathlib
import random
import struct
import subprocess
import sys

ROOT = pathlib.Path(__file__).resolve().parent.parent.parent
# The programs by their names in the package, and their crates.
CRATES = {"listing": "run_list", "audit": "run_audit", "infinities": "run_infinities", "cleaning": "run_clean"}
RUNS = [("listing",), ("listing", "--strict"), ("audit",), ("infinities",), ("cleaning",)]


def stores(count, chance):
    yield from (path.read_bytes() for path in sorted((ROOT / "samples").iterdir()) if path.stat().st_size <= 48_001)
    whole = [bytes.fromhex(text.ljust(32, "0")) for text in ("", "13", "0F00000080", "EF7F0000801F", "1E000000F8010000801F700000000038", "1E000000F801000080BF710000000038")]
    for n in range(count):
        blocks = whole + [chance.randbytes(16) for _ in range(3)]
        wrong, made = chance.choice([0, 0, 0.03, 0.3]), b""
        for _ in range(2000 if n == 0 else chance.choice([0, 1, 2, 3, 8, 20, chance.randrange(200)])):
            form, spare = (chance.choice([2, 255]) if chance.random() < wrong else chance.randrange(2)), int(chance.random() < wrong)
            made += struct.pack("<IBBH", chance.choice([0, chance.getrandbits(32), chance.getrandbits(8)]), form, spare, 0) + (chance.choice(blocks) if chance.random() < 0.7 else chance.randbytes(16))
        yield made
    yield from (bytes(25), bytes(48_001), bytes(48_024))


def printed(program, words, store):
    ran = subprocess.run([ROOT / "tools/run", ROOT / "target/built" / CRATES[program], *words], input=store, capture_output=True, check=True)
    return [base64.b64encode(ran.stdout).decode(), ran.stderr.decode()]


def main(count, seed):
    for crate in CRATES.values():
        subprocess.run([ROOT / "tools/prove", crate], stdout=subprocess.DEVNULL, check=True)
    rows = [{"store": base64.b64encode(store).decode(), "printed": [printed(program, words, store) for program, *words in RUNS]} for store in stores(int(count), random.Random(int(seed)))]
    json.dump({"runs": RUNS, "rows": rows}, sys.stdout)


main(*sys.argv[1:])
