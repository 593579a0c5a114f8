"""Which kind of file a file is: a store of 24-byte records, a store of records with a place, or neither.

Neither form has a header, so that the bytes of one may pass for the other: the 32-byte records of a whole probe always have a length that
24 divides. The calls take such a file as it is given. The commands look at both readings first, by the proved program `run_check`; a listing
only does where its own counts leave a doubt (`is_sure`).
A file looks like something else than the store that it is given as when one of its records is refused and

- it begins as a DDS file or a Portable Float Map does, or
- the other reading fits better: it has records, and none of them is refused, or at most a quarter of the share that is refused here, or
- it has more than one record, and more than half of them are refused.

A length that no such store has counts as all of it refused. So a store without a refused record always passes, as an empty one does, and a
single refused record is told as what it is: a faulty record. A store of black tiles reads as records with a place too, nearly all of them in
one place: as such a store counts only one of which three quarters of the placed records have places of their own.

A whole probe never passes for a store of 24-byte records. Read so, its first, fourth, seventh .. record has its face and column where a record's
spare bytes are: on face 0 and in column 0 an edge of n blocks has n of them, and there are 2 n n.
"""
from . import house

# The two forms of a store by the bytes of a record; face, column and row of a record that is not placed.
PLAIN, PLACED = 24, 32
NO_PLACE = b"\xff\0\0\0\0"
# The most bytes of a store of either form: of a longer file one byte more is read, which is enough to refuse it.
MOST = house.PLACED_STORE

CHECKING = house.Text(3, "records refused damaged", rows=lambda records, refused, damaged: refused + damaged, records=lambda records, *_: records)


class Reading:
    """What the record calls say of a file in one of the two forms: its faulty records as (record, tile, cause), and the counts. `bad_length`
    is 5 or 6 for a length that no store of that form has, else 0."""

    def __init__(self, data, form):
        self.form, self.bad_length, self.faults = form, 0, []
        self.records = self.refused = self.damaged = 0
        self.places = [place for place in (data[at + 5:at + 10] for at in range(0, len(data), PLACED)) if place != NO_PLACE]
        try:
            *rows, counts = house.over_store("run_check", bytes([form]) + data, CHECKING, size=form).split(b"\n")[:-1]
        except house.Refused as error:
            self.bad_length = error.number
            return
        self.faults = [tuple(map(int, row.split())) for row in rows]
        self.records, self.refused, self.damaged = map(int, counts.split()[1::2])

    def has_refused(self):
        return self.bad_length != 0 or self.refused > 0

    def has_places_apart(self):
        """Three quarters of the placed records have places of their own, which those of a true store of that form have."""
        return self.form == PLAIN or 4 * len(set(self.places)) >= 3 * len(self.places)

    def share(self):
        """How much of it is refused."""
        return 1 if self.bad_length else self.refused / max(self.records, 1)

    def fits_better(self, own):
        return self.records > 0 and self.has_places_apart() and 4 * self.share() <= own.share()

    def mostly_refused(self):
        return self.records > 1 and 2 * self.refused > self.records


# How the words begin for a store that is one of the other form.
STORE_OF = "a store of"


def store_in_words(form, records):
    return f"{STORE_OF} {records:,} record{'' if records == 1 else 's'}{' with a place, such as a probe' if form == PLACED else ' of 24 bytes'}"


def signature_of(data):
    """What a file is that begins as one with a header does. The byte of a first record's format is then none: no store begins so unless that
    record is refused."""
    if data.startswith(b"DDS \x7c\0\0\0"):
        return "a DDS file"
    if data.startswith(b"PF\n") and data[3:5].replace(b" ", b"0").isdigit():
        return "a Portable Float Map"
    return None


def looks_like(data, form):
    """What a file that is given as a store of `form` looks like instead, in words; None where it may well be that store."""
    own = Reading(data, form)
    if not own.has_refused():
        return None
    if signed := signature_of(data):
        return signed
    other = Reading(data, PLACED if form == PLAIN else PLAIN)
    if other.fits_better(own):
        return store_in_words(other.form, other.records)
    return f"no store at all: {own.refused:,} of its {own.records:,} records are refused" if own.mostly_refused() else None


def is_sure(data, records, refused):
    """Whether a file is a store of 24-byte records for sure, by how many records its listing has and how many of them are refused: it has no
    header, at most half of the records are refused, and read as records with a place it has no smaller share of refused ones. Each of those
    with a format above 1 is refused. Where they are enough, `run_check` need not be asked."""
    others, least = len(data) // PLACED, sum(number > 1 for number in data[4::PLACED])
    is_no_better = len(data) % PLACED != 0 or least * records >= refused * others
    return signature_of(data) is None and 2 * refused <= records and is_no_better


def likelier_reading(data):
    """The reading of a file that has fewer of its records refused: that of 24-byte records where both have as many."""
    plain = Reading(data, PLAIN)
    placed = Reading(data, PLACED) if plain.has_refused() else plain
    return placed if placed.has_places_apart() and placed.share() < plain.share() else plain


def form_said(asked):
    """The form that --form says; None where it is not given."""
    if asked.form not in (None, "24", "32"):
        raise house.Usage(f"--form is 24 or 32, and not '{house.shown(asked.form, 40)}'")
    return int(asked.form) if asked.form else None


def form_asked(asked):
    """The form that a command line asks for; None where it leaves that to the file."""
    said = form_said(asked)
    if getattr(asked, "as_store", False):
        if said == PLACED:
            raise house.Usage("--as-store reads records of 24 bytes, and --form 32 those with a place")
        return PLAIN
    return said


def form_to_show(data):
    """The form in which a file is listed and audited: the likelier one, and that of 24-byte records for a file with a header."""
    return PLAIN if signature_of(data) else likelier_reading(data).form


def hold_store(data, form, as_store=False, way_out=""):
    """Refuses a file that looks like something else than a store of `form`. `way_out` says what to do with a store of the other form."""
    looks = None if as_store else looks_like(data, form)
    if looks:
        way = f": {way_out}" if way_out and looks.startswith(STORE_OF) else ""
        raise house.Refused(28, "store refused 28\n", f"it looks like {looks}{way}; --as-store overrides this")


def to_change(path, form, as_store, way_out=""):
    data = house.read(path, MOST)
    hold_store(data, form, as_store, way_out)
    return data


def store_to_change(path, as_store=False):
    """The bytes of a store of 24-byte records for a command that writes, or that people sign: refused with 28 where it looks like something else."""
    return to_change(path, PLAIN, as_store)


def placed_to_change(path, as_store=False, way_out=""):
    """The same of a store of records with a place."""
    return to_change(path, PLACED, as_store, way_out)


def store_to_show(path, as_store=False):
    """The bytes of a store of 24-byte records for a command that only shows: with a remark where it looks like something else."""
    data = house.read(path, MOST)
    if not as_store:
        remark_on(data)
    return data


def store_to_audit(asked):
    """The bytes of a store of either form, and the form: with a remark where it looks like something else and no form is asked for."""
    form, data = form_asked(asked), house.read(asked.store, MOST)
    if form is None:
        form = form_to_show(data)
        if form == PLAIN:
            remark_on(data)
    return data, form


def remark_on(data):
    looks = looks_like(data, PLAIN)
    if looks:
        house.remark(f"it looks like {looks}; --as-store silences this")
