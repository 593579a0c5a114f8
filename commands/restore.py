"""Restores a store from its cleaned one and the receipt of the clean-up.

OUT, which must not exist yet, gets the store as it was before 'knot clean', byte for byte, whole or not at all. RECEIPT is what 'knot clean'
wrote or printed. A receipt of another cleaned store is refused with 27, one that does not fit with 25. The store is written only if its
SHA-256 is the one that the receipt names. It prints 'records', their number, 'restored' and the number of records that came back.
"""
from . import audit, house, receipts
from .clean import keep_new
from .line import JSON, Line

LINE = Line("CLEANED RECEIPT OUT", options=[JSON], example="knot restore clean.store clean.receipt again.store")


def run(asked):
    keep_new(asked.out)
    cleaned = house.read(asked.cleaned, house.STORE)
    receipt = receipts.parsed(house.read(asked.receipt, receipts.MOST))
    restored = restored_of(cleaned, receipt)
    house.write_whole(asked.out, restored, over=False)
    records, back = len(restored) // house.RECORD, len(receipt.removed)
    if asked.json:
        house.put_json({**audit.identity(), "before": receipts.store_facts(restored), "after": receipts.store_facts(cleaned), "restored": back})
    else:
        house.say(f"records {records} restored {back}\n", asked.out)


def restored_of(cleaned, receipt):
    """The store before the clean-up, held to the receipt's two sums."""
    if receipts.sha256(cleaned) != receipt.after:
        raise house.Refused(27, "receipt refused 27\n", f"{house.meaning(27)}: the cleaned store's SHA-256 is not {receipt.after}")
    size = len(cleaned) + house.RECORD * len(receipt.removed)

    def is_whole(answer):
        return len(answer) == 1 + size if answer[:1] == b"\0" else len(answer) == 1

    answer = house.ask("run_restore", len(cleaned).to_bytes(4, "little") + cleaned + receipts.packed(receipt), is_whole)
    if answer[0] != 0:
        raise house.Refused(answer[0], f"receipt refused {answer[0]}\n")
    if receipts.sha256(answer[1:]) != receipt.before:
        raise receipts.bad(f"it does not give back the store that it names, of SHA-256 {receipt.before}")
    return answer[1:]
