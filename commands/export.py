"""Writes a picture of any size as a file that other programs open: PFM, EXR, PNG or PAM.

FILE is a DDS file of at most 4,096 by 4,096 pixels, BC6H or BC7. With N it is record N of a STORE of either form, 4 by 4 pixels. --face writes face
F of a PROBE, 0 to 5 or +X, -X, +Y, -Y, +Z, -Z; --all writes all six, to OUT.0.exr and on to OUT.5.exr for an OUT of OUT.exr. The end of OUT's name says what is written:

.pfm  a Portable Float Map, and .exr an OpenEXR file, of BC6H: each value is exactly its half-float pattern
.png  a picture to look at: BC6H as the page of 'knot open' draws it, at an exposure that is printed; BC7 with its alpha
.pam  the bytes of BC7 as they are

The picture is never in memory whole. Its size is the header's, also where that is no multiple of 4. A refused file is the line 'file refused' and the
number, a refused store or record likewise, and nothing is written: 8 there is no such record, 13 the header is not ours, 14 a side is not 1 to 4,096,
15 the block bytes are short or left over, 19 to 23 the store is no probe, 24 there is no such face, 28 it looks like something else.
"""
import os
import re

from . import dds, faces, house, kinds, pictures, probe, screen
from .line import AS_STORE, FORM, Line, Option

KINDS = ["pfm", "exr", "png", "pam"]
LINE = Line(
    "FILE OUT",
    "STORE N OUT",
    "PROBE --face F OUT",
    "PROBE --all OUT",
    options=[
        Option("--face", "write face F of a probe", "F"),
        Option("--all", "write all six faces"),
        Option("--exposure", "the exposure of a PNG; without it the one that the page opens with", "STOPS"),
        Option("--first-level", "take the first level of a DDS file that has mip levels"),
        Option("--kind", "what is written, where the name of OUT does not say it", "|".join(KINDS)),
        FORM,
        AS_STORE,
    ],
    example="knot export samples/five.dds five.exr\nknot export samples/five.dds five.png --exposure -2\nknot export samples/four.store 1 tile.pfm\n"
    "knot export samples/small.probe --all face.exr",
    dashed=faces.DASHED,
)
MOST_STOPS = 100
HEADER = dds.HEADER


# ---- what is asked for


def kind_of(asked):
    """What is written: by --kind, or by the end of OUT's name."""
    word = asked.kind if asked.kind is not None else os.path.splitext(asked.out)[1][1:]
    if word.lower() not in KINDS:
        said = f"'{house.shown(word, 40)}' is none" if asked.kind is not None else f"'{house.shown(asked.out, 40)}' ends with none: --kind says it"
        raise house.Usage(f"a kind is pfm, exr, png or pam, and {said}")
    return word.lower()


def stops_of(asked, kind):
    """The exposure that is asked for; None where none is."""
    word = asked.exposure
    if word is None:
        return None
    if not re.fullmatch(r"[+-]?([0-9]+(\.[0-9]*)?|\.[0-9]+)", word) or abs(float(word)) > MOST_STOPS:
        raise house.Usage(f"STOPS is a number from -{MOST_STOPS} to {MOST_STOPS}, and not '{house.shown(word, 40)}'")
    if kind != "png":
        raise house.Usage(f"--exposure is for a PNG: the values of a {kind.upper()} stay as they are")
    return float(word)


def hold_options(asked):
    """Options that are of one kind of input only."""
    if asked.first_level and asked.file is None:
        raise house.Usage("--first-level is for a DDS file, and a store has no levels")
    if asked.as_store and asked.file is not None:
        raise house.Usage("--as-store is for a store, and a DDS file has a header")
    if asked.form is not None and asked.store is None:
        raise house.Usage("--form is for a record of a store")


# ---- pictures


def texture(asked):
    """The picture of a DDS file, whose header and length the proved program has taken."""
    file = house.opened(asked.file, dds.MOST)
    number, form, width, height = dds.told_of(file, asked.first_level)
    if number != 0:
        raise dds.refused(number, house.some_of(file, 0, HEADER), length=house.read_through(file, dds.MOST), first_level=asked.first_level, or_store=True)
    return pictures.Picture(width, height, form, lambda at, size: house.part(file, HEADER + at, size))


def tile(asked):
    """The picture of a record of a store, of the form that fits it."""
    n, form = house.number(asked.n, "N"), kinds.form_said(asked)
    data = house.read(asked.store, kinds.MOST)
    reading = kinds.likelier_reading(data) if form is None else kinds.Reading(data, form)
    kinds.hold_store(data, reading.form, asked.as_store)
    if reading.bad_length:
        raise house.Refused(reading.bad_length, f"store refused {reading.bad_length}\n")
    if n >= reading.records:
        raise house.no_record(n, reading.records)
    record = data[n * reading.form:(n + 1) * reading.form]
    cause = next((cause for number, _, cause in reading.faults if number == n), 0)
    if cause == 12:
        house.remark(f"record {n} is damaged: its block has a reserved mode, and its picture is all zeros")
    elif cause:
        raise house.record_refused(cause, f"record {n}: {house.meaning(cause)}")
    return pictures.Picture(4, 4, record[4], lambda at, size: record[-house.BLOCK:][at:at + size])


# ---- writing


def write(out, picture, kind, stops):
    if kind == "png":
        pictures.write_png(out, picture, stops)
    elif kind == "pam":
        pictures.write_pam(out, picture)
    else:
        pictures.write_floats(out, picture, kind)


def hold_kind(picture, kind):
    """Half-floats go to the kinds that have them, bytes to those that have bytes."""
    if pictures.is_bc7(picture) and kind in pictures.FLOATS:
        raise house.Usage(f"{house.read_last} is BC7, which has bytes and no half-floats: .png and .pam take it")
    if not pictures.is_bc7(picture):
        hold_half_floats(kind, house.read_last)


def hold_half_floats(kind, name):
    if kind == "pam":
        raise house.Usage(f"{name} is BC6H, which has half-floats: .exr and .pfm take them as they are, .png as the screen shows them")


def tell_exposure(asked, stops):
    """Says which exposure was chosen, where none was asked for."""
    house.say(f"exposure {stops}\n", asked.out)


def export_one(asked, picture, kind, stops, own):
    """Writes one picture; `own` is its exposure where none is asked for."""
    hold_kind(picture, kind)
    chosen = kind == "png" and stops is None and not pictures.is_bc7(picture)
    stops = own(picture) if chosen else stops or 0
    write(asked.out, picture, kind, stops)
    if chosen:
        tell_exposure(asked, stops)


def tile_exposure(picture):
    return screen.own_exposure(memoryview(pictures.shown(picture.form, picture.bands(0, 1))).cast("H")[2:])


# ---- probes


def export_probe(asked, kind, stops):
    """One face, or all six: what is refused is refused before the first file is written."""
    hold_half_floats(kind, "a probe")
    wanted = list(range(len(faces.NAMES))) if asked.all else [faces.number(asked.face, "F")]
    outs = [face_name(asked.out, face) for face in wanted] if asked.all else [asked.out]
    for out in outs:
        house.keep_apart(out, asked.probe)
    store = kinds.placed_to_change(asked.probe, asked.as_store)
    edge = int(probe.answer_of(store, probe.FIT, 0, 0, probe.is_told(None)).split()[2])
    files = {face: probe.face_file(store, edge, face, "exr" if kind == "png" else kind) for face in wanted}
    if kind == "png":
        write_faces(asked, store, edge, files, outs, stops)
        return
    for out, file in zip(outs, files.values()):
        write_next(house.write_whole, out, file)


def write_next(write, out, *given):
    """Writes one of several files: where it fails, the message has those that are written."""
    try:
        write(out, *given)
    except house.Trouble as error:
        raise house.Trouble(f"{error}{house.written_so_far()}") from None


def write_faces(asked, store, edge, files, outs, stops):
    """Faces as PNGs, all at one exposure: without --exposure at the one of the whole probe."""
    chosen = stops is None
    if chosen:
        whole = [files.get(face) or probe.face_file(store, edge, face, "exr") for face in range(len(faces.NAMES))]
        stops = pictures.exposure_of([pictures.Face(4 * edge, file) for file in whole])
    for out, file in zip(outs, files.values()):
        write_next(pictures.write_png, out, pictures.Face(4 * edge, file), stops)
    if chosen:
        tell_exposure(asked, stops)


def face_name(out, face):
    """The name of a face's file: its number goes before the end of OUT."""
    if house.is_standard_output(out):
        raise house.Usage("--all writes six files, and standard output is one: --face writes a face to it")
    stem, end = os.path.splitext(out)
    return f"{stem}.{face}{end}"


def run(asked):
    kind = kind_of(asked)
    stops = stops_of(asked, kind)
    hold_options(asked)
    if asked.probe is not None:
        export_probe(asked, kind, stops)
        return
    house.keep_apart(asked.out, asked.store if asked.file is None else asked.file)
    if asked.file is not None:
        export_one(asked, texture(asked), kind, stops, lambda picture: pictures.exposure_of([picture]))
    else:
        export_one(asked, tile(asked), kind, stops, tile_exposure)
