#!/usr/bin/env python3
"""What the gate left below crates/*/out, while the sources are those that it passed.

tools/gate.py sum [CRATE..]   prints a hash of the kit, crates.txt, HANDLES and what a proof reads of the crates and of all that they stand on: src/, specs/
                              and proofs/. Without a crate, of every crate.
tools/gate.py keep SUM        after `rt ci` has passed: notes in target/gate what it built. SUM is that of all crates from before; with another one now
                              it stops, since a source changed meanwhile.

`rt ci` proves each crate from nothing, and builds the libraries and programs that it proved. With the note tools/prove takes its programs, and
tools/capture-module builds over its libraries, so that neither proves them again. A library counts while its kept sum is that of the note, and only
where the kit's other commands did not put one of their own in its place.
"""
import functools
import hashlib
import os
import pathlib
import subprocess
import sys

sys.dont_write_bytecode = True
ROOT = pathlib.Path(os.path.realpath(__file__)).parent.parent
sys.path.insert(0, str(ROOT / "tools"))
import kit  # noqa: E402
from crate_list import files, in_order, needs  # noqa: E402

NOTE = ROOT / "target/gate"
PARTS = ("src", "specs", "proofs")


def kit_id():
    """The kit's line; an OSError where there is no kit."""
    return subprocess.run(["rt", "version"], stdin=subprocess.DEVNULL, capture_output=True, text=True, check=True).stdout.strip()


def sum_of(path):
    try:
        return hashlib.sha256(pathlib.Path(path).read_bytes()).hexdigest()
    except OSError:
        return "none"


def sources(crates=None):
    """A hash of all that a proof of these crates reads, or of all crates."""
    table = needs(ROOT)
    summed = hashlib.sha256(kit_id().encode())
    paths = [ROOT / "crates.txt", ROOT / "HANDLES"]
    for crate in sorted(crate for crate in in_order(crates or table, table) if crate in table):
        for part in PARTS:
            paths += files(ROOT / "crates" / crate / part)
    for path in paths:
        summed.update(f"{os.path.relpath(path, ROOT)} {sum_of(path)}\n".encode())
    return summed.hexdigest()


def library(crate):
    return kit.library(ROOT, crate)


def program(crate):
    return ROOT / f"crates/{crate}/out/{crate}"


def keep(before):
    if sources() != before:
        sys.exit("tools/gate.py: a source changed while the gate ran: run it again")
    lines = [f"sources {before}"]
    for crate in needs(ROOT):
        if program(crate).is_file():
            lines.append(f"program {crate} {sum_of(program(crate))}")
        elif library(crate).is_dir() and not (library(crate).parent / "stamp").exists():
            lines.append(f"library {crate} {sum_of(library(crate) / 'format')}")
    NOTE.parent.mkdir(exist_ok=True)
    NOTE.write_text("\n".join(lines) + "\n")


@functools.lru_cache(maxsize=None)
def noted():
    """The note's lines, where it is of the sources as they were when first asked for; else none."""
    try:
        lines = NOTE.read_text().splitlines()
    except OSError:
        return []
    return lines if lines[:1] == [f"sources {sources()}"] else []


def program_of_gate(crate):
    """The program that the gate built of the sources as they are, or None."""
    built = program(crate)
    return built if f"program {crate} {sum_of(built)}" in noted() else None


def are_libraries_of_gate(crates):
    """Whether the library of each of these crates is the one that the gate built of the sources as they are."""
    lines = set(noted())
    return bool(lines) and all(f"library {crate} {sum_of(library(crate) / 'format')}" in lines and not (library(crate).parent / "stamp").exists() for crate in crates)


def main():
    word, *rest = sys.argv[1:] or [""]
    if word == "sum":
        print(sources(rest))
    elif word == "keep" and len(rest) == 1:
        keep(rest[0])
    else:
        print("usage: tools/gate.py sum [CRATE..] | keep SUM", file=sys.stderr)
        sys.exit(2)


if __name__ == "__main__":
    main()
