"""The listing and the audit of records with a place as S-103 and S-104 state them, and nothing of the code. What a record is, is in
tests/places/model.py (S-53, S-54); what a block of mode 11 shows, in tests/probe/model.py (S-19 to S-23)."""
import pathlib
import struct
import sys

TESTS = pathlib.Path(__file__).resolve().parent.parent


def beside(folder):
    """The model of another folder, which has the same name."""
    import importlib.util
    spec = importlib.util.spec_from_file_location(f"{folder}_model", TESTS / folder / "model.py")
    module = importlib.util.module_from_spec(spec)
    sys.modules[spec.name] = module
    spec.loader.exec_module(module)
    return module


places, probe = beside("places"), beside("probe")
MODES = {0b00010: 3, 0b00110: 4, 0b01010: 5, 0b01110: 6, 0b10010: 7, 0b10110: 8, 0b11010: 9, 0b11110: 10, 0b00011: 11, 0b00111: 12, 0b01011: 13, 0b01111: 14}


def mode_of(block):
    """S-11: two bits; if they are 10 or 11, three more above them. 0 for a reserved mode."""
    return MODES.get(block[0] % 32, 0) if block[0] & 2 else 1 + block[0] % 2


def store_refusal(store):
    return places.LONG if len(store) > places.NEW_LIMIT else places.UNEVEN if len(store) % places.NEW else 0


def place_words(record):
    return f"{record.face} {record.column} {record.row}" if record.face < 6 else "- - -"


def identity_of(record):
    """What two copies share."""
    return record.form, record.block


class Record:
    def __init__(self, data):
        self.tile, self.form, self.face, self.column, self.row = struct.unpack_from("<IBBHH", data)
        self.block, self.answer = data[16:], places.new_refusal(data)
        self.mode = mode_of(self.block)
        self.damaged = self.answer == 0 and self.mode == 0
        self.place = place_words(self)


def records_of(store):
    return [Record(data) for data in places.split(store, places.NEW)]


def listing(store, pixel15, strict=False):
    """What is listed of a store; `pixel15(form, block)` gives the three values of pixel 15."""
    if refused := store_refusal(store):
        return f"store refused {refused}\n"
    records = records_of(store)
    if strict and any(record.damaged for record in records):
        return f"store refused {places.DAMAGED}\n"
    lines, counts = [], {"placed": 0, "unplaced": 0, "bad": 0}
    for n, record in enumerate(records):
        if record.answer:
            lines.append(f"{n} {record.tile} {record.answer} - - - - - - -\n")
            counts["bad"] += 1
            continue
        values = " ".join(f"{value:04X}" for value in pixel15(record.form, record.block))
        lines.append(f"{n} {record.tile} 0 {record.mode} {record.place} {values}\n")
        counts["placed" if record.face < 6 else "unplaced"] += 1
    return "".join(lines) + " ".join(f"{word} {number}" for word, number in counts.items()) + "\n"


COLUMNS = "record tile face column row first its-tile its-face its-column its-row\n"


def audit(store):
    """What is audited of a store: a copy is neither refused nor damaged, and an earlier such record has its format and its sixteen bytes."""
    if refused := store_refusal(store):
        return f"store refused {refused}\n"
    records, first, lines = records_of(store), {}, []
    for n, record in enumerate(records):
        if record.answer or record.damaged:
            continue
        earlier = first.setdefault(identity_of(record), n)
        if earlier < n:
            lines.append(f"{n} {record.tile} {record.place} {earlier} {records[earlier].tile} {records[earlier].place}\n")
    damaged, refused = sum(record.damaged for record in records), sum(record.answer != 0 for record in records)
    return COLUMNS + "".join(lines) + f"damaged {damaged} refused {refused} copies {len(lines)}\n"
