"""Writes a store without its copies, and a receipt that can undo it.

OUT, which must not exist yet, gets the records of STORE that stay, in order and byte for byte, whole or not at all. A record is removed if
an earlier record that stays has the same format and the same sixteen block bytes, and neither is refused or damaged. Records that only look
alike stay. The receipt names each removed record and its tile, and the record that stays for it; 'knot restore' undoes the clean-up with it. Without
--receipt it is printed. A refused store prints the line 'store refused' and the number, and nothing is written.
"""
import os
import re

from . import house, kinds, receipts
from .line import AS_STORE, JSON, Line, Option

LINE = Line(
    "STORE OUT",
    "--dry-run STORE",
    options=[
        Option("--receipt", "write the receipt to FILE, which must not exist yet; it is on disk before OUT is", "FILE"),
        Option("--signed", "refuse any other store (26): a page of 'knot report', or the SHA-256 of the store on it", "PAGE|SHA256"),
        Option("--strict", "refuse a store with a damaged record (12)"),
        Option("--dry-run", "print the receipt and write nothing"),
        AS_STORE,
        JSON,
    ],
    example="knot clean covered.store clean.store --signed covered.html --receipt clean.receipt",
)
SHA256 = re.compile("[0-9a-fA-F]{64}")
# the most bytes of a page of `knot report`
PAGE = 1 << 26
DAMAGED = 12
OUTPUT = re.compile(rb"((?:[0-9]+ [0-9]+ [0-9]+ [0-9]+\n)*)stays ([0-9]+) removed ([0-9]+)\n")


def cleaned(store):
    """The bytes of the cleaned store, and the lines that the program prints of it."""
    def is_whole(output):
        if re.fullmatch(rb"store refused [0-9]+\n", output):
            return True
        found = OUTPUT.match(output)
        stays, removed = (int(found[2]), int(found[3])) if found else (0, 0)
        return (found is not None and found[1].count(b"\n") == removed and len(output) == found.end() + stays * house.RECORD
                and len(store) == (stays + removed) * house.RECORD)

    output = house.ask("run_clean", store, is_whole)
    refused = re.fullmatch(rb"store refused ([0-9]+)\n", output)
    if refused:
        raise house.Refused(int(refused[1]), output)
    end = OUTPUT.match(output).end()
    return output[end:], output[:end]


def signed_sums(word):
    """The sums of the store before and after the clean-up that was signed; the second is None where only the first is given."""
    if SHA256.fullmatch(word):
        return word.lower(), None
    page = house.read(word, PAGE).decode(errors="replace")
    found = [re.findall(f'<meta name="knot-{name}" content="([0-9a-f]{{64}})">', page) for name in ("before", "after")]
    if [len(sums) for sums in found] != [1, 1]:
        raise house.Trouble(f"{house.shown(word)}: it is neither a SHA-256 nor a page of 'knot report', which has two of them")
    return found[0][0], found[1][0]


def hold(what, data, wanted, name):
    """Refuses a store that is not the signed one."""
    found = receipts.sha256(data)
    if wanted is not None and found != wanted:
        raise house.Refused(26, "store refused 26\n", f"{house.meaning(26)}: {what} has SHA-256 {found}, and {wanted} was signed", name)


def keep_new(path):
    if path is not None and not house.is_standard_output(path) and os.path.lexists(path):
        raise house.Trouble(f"{house.shown(path)}: it is there already, and is left as it is")


def write(receipt, text, out, left):
    """The receipt first: no cleaned store is there without it, also where something fails once the store has its name."""
    if receipt is not None:
        house.write_whole(receipt, text, over=False)
    try:
        house.write_whole(out, left, over=False)
    except BaseException:
        streams = house.is_standard_output(out) or receipt is not None and house.is_standard_output(receipt)
        if receipt is not None and not streams and not os.path.lexists(out):
            os.unlink(receipt)
        raise


def run(asked):
    keep_new(asked.out)
    keep_new(asked.receipt)
    if asked.dry_run and asked.receipt:
        raise house.Usage("--dry-run writes nothing, so it takes no --receipt")
    before, after = signed_sums(asked.signed) if asked.signed else (None, None)
    store = kinds.store_to_change(asked.store, asked.as_store)
    name = house.read_last
    hold("the store", store, before, name)
    left, lines = cleaned(store)
    hold("the cleaned store", left, after, name)
    reading = kinds.Reading(store, kinds.PLAIN)
    if asked.strict and reading.damaged:
        first = next(record for record, _, cause in reading.faults if cause == DAMAGED)
        raise house.Refused(DAMAGED, f"store refused {DAMAGED}\n", f"{reading.damaged:,} of {reading.records:,} records are damaged, the first is record {first}", name)
    facts = receipts.facts_of(name, store, left, reading.damaged, reading.refused)
    text = receipts.text_of(facts, lines)
    if not asked.dry_run:
        write(asked.receipt, text, asked.out, left)
    if asked.json:
        house.put_json({**facts, "removed": [entry._asdict() for entry in receipts.removed_in(lines)]})
    elif asked.receipt is None:
        house.say(text.decode(errors="surrogateescape"), asked.out or "")
    else:
        house.say("".join(f"{line}\n" for line in receipts.damage(facts)) + lines.decode().splitlines()[-1] + "\n", asked.out)
