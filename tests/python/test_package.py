"""The Python package: every function over the library, what it refuses, and what it must not take."""
import array
import ctypes
import dataclasses
import importlib.util
import inspect
import itertools
import mmap
import pathlib
import pickle
import re
import struct
import subprocess
import sys
import threading

import pytest

numpy = pytest.importorskip("numpy", reason="numpy is not at hand: tests/python/install installs it")

import knotpasture  # noqa: E402
from knotpasture import Refused, _library  # noqa: E402

if _library.places() == [_library.NAME]:
    # no library beside the package: only the machine's own may be tried; one that is there and does not load is a fault
    try:
        ctypes.CDLL(_library.NAME)
    except OSError:
        pytest.skip("libknotpasture is not built: run tools/libraries", allow_module_level=True)

ROOT = pathlib.Path(__file__).resolve().parent.parent.parent
SAMPLES = ROOT / "samples"
HEADER = (ROOT / "include/knotpasture.h").read_text()
B2 = bytes([0x13] + 15 * [0])
B3 = bytes.fromhex("03000000F81F000000000000000000F0")
B6 = bytes.fromhex("0F000000800000000000000000000000")
C9 = bytes.fromhex("40C01F0004000000") + bytes.fromhex("1132547698BADCFE")


def sample(name):
    return (SAMPLES / name).read_bytes()


def refused(number, call, *words, record=None, **more):
    with pytest.raises(Refused) as told:
        call(*words, **more)
    assert (told.value.number, told.value.record) == (number, record)
    assert str(told.value).startswith(f"refused, {number}: {knotpasture.WORDS[number]}")


def has(name):
    return hasattr(_library.library(), name)


# ---- the package beside the header


def declared():
    """What the header declares: answer and parameters of each call."""
    found = {}
    for answer, name, words in re.findall(r"^(\w+) (knot_\w+)\(([^)]*)\);", HEADER, re.MULTILINE):
        kinds = [re.fullmatch(r"(?:const )?(\w+) (\*?)\w+", " ".join(word.split())) for word in words.split(",")]
        found[name] = (answer, [kind[1] + kind[2] for kind in kinds])
    return found


TYPES = {"uint8_t": ctypes.c_uint8, "uint16_t": ctypes.c_uint16, "uint32_t": ctypes.c_uint32, "uint64_t": ctypes.c_uint64, "size_t": ctypes.c_size_t, "bool": ctypes.c_bool}


def test_calls_are_the_headers():
    calls = declared()
    assert len(calls) == HEADER.count(");\n") >= 30
    for name, (answer, words) in calls.items():
        assert _library.CALLS[name] == (TYPES[answer], [ctypes.c_void_p if word.endswith("*") else TYPES[word] for word in words]), name
    assert {name for name in _library.CALLS if not has(name)} == set(_library.CALLS) - set(calls)


def test_words_and_numbers_are_the_commands():
    said = subprocess.run([sys.executable, "-B", "-c", "from commands import house; print(house.MEANINGS)"], cwd=ROOT, capture_output=True, text=True, check=True)
    assert said.stdout.strip() == str(knotpasture.WORDS) and list(knotpasture.WORDS) == list(range(1, 29))
    numbers = {int(number) for number in re.findall(r"^    KNOT_[A-Z_]+ = (\d+),? +/\*", HEADER[HEADER.index("enum knot_answer"):HEADER.index("enum knot_format")], re.MULTILINE)}
    assert numbers - {0} == set(knotpasture.WORDS)


def test_constants_are_the_headers():
    for name, value in re.findall(r"KNOT_([A-Z0-9_]+) = (0x[0-9A-F]+|\d+)", HEADER):
        if hasattr(knotpasture, name):
            assert getattr(knotpasture, name) == int(value, 0), name
    assert re.search(r'KNOT_VERSION "(.*)"', HEADER)[1] == knotpasture.__version__ == (ROOT / "VERSION").read_text().strip()


def test_every_function_has_its_words():
    for name, thing in vars(knotpasture).items():
        if not name.startswith("_") and getattr(thing, "__module__", "") == "knotpasture":
            assert inspect.getdoc(thing), name


# ---- blocks


def stored(crate, size, shown):
    """The stored run of a program: its pieces of input and what it wrote for each."""
    given, wrote = (ROOT / f"crates/{crate}/stdin").read_bytes(), (ROOT / f"crates/{crate}/stdout").read_bytes()
    count = len(given) // size
    assert len(wrote) >= count * shown
    return [(given[n * size:(n + 1) * size], wrote[n * shown:(n + 1) * shown]) for n in range(count)]


def test_stored_blocks():
    pieces = stored("run_pixels", 17, 100)
    by_format = {0: [], 1: []}
    for piece, wrote in pieces:
        if piece[0] > 1:
            refused(1, knotpasture.show, piece[1:], piece[0])
            continue
        shown = knotpasture.show(piece[1:], piece[0])
        assert (shown.mode, shown.infinite) == (wrote[1], wrote[2])
        assert shown.values.tobytes() == wrote[-96:]
        by_format[piece[0]].append((piece[1:], wrote[-96:], wrote[2]))
    for form, blocks in by_format.items():
        values, infinite = knotpasture.decode_counted(b"".join(block for block, _, _ in blocks), bool(form))
        assert values.shape == (len(blocks), 4, 4, 3) and values.dtype == numpy.float16
        assert values.tobytes() == b"".join(wrote for _, wrote, _ in blocks)
        assert infinite == sum(count for _, _, count in blocks)
    assert len(pieces) > 1000


def test_shapes_and_values():
    values = knotpasture.decode(B3, False)
    assert values[0, 3, 3].tolist() == [65504.0, 0.0, 0.0] and values[0, 0].max() == 0
    assert numpy.isneginf(knotpasture.decode(B6, True)[0, :, :, 0]).all()
    assert knotpasture.decode(b"", True).shape == (0, 4, 4, 3)
    assert knotpasture.show(B2, False).mode == 0


def test_refusals_of_blocks():
    refused(9, knotpasture.decode, bytes(17), False)
    refused(1, knotpasture.decode, bytes(17), 2)
    refused(3, knotpasture.decode, bytes(32), False, out=numpy.zeros(95, numpy.float16))
    refused(2, knotpasture.show, bytes(15), False)
    refused(4, knotpasture.fields, B2, False)
    refused(2, knotpasture.fields, b"", True)
    out = numpy.full(95, 7, numpy.uint16)
    refused(3, knotpasture.decode, bytes(32), False, out=out)
    assert (out == 7).all()


def test_out():
    out = numpy.full(100, 7, numpy.uint16)
    values = knotpasture.decode(B3 + B3, False, out=out)
    assert values.base is not None and numpy.shares_memory(values, out) and values.shape == (2, 4, 4, 3)
    assert out[45] == 0x7BFF and (out[96:] == 7).all()
    whole = numpy.zeros((2, 4, 4, 3), numpy.float16)
    assert numpy.shares_memory(knotpasture.decode(B3 + B3, False, out=whole), whole) and whole[1, 3, 3, 0] == 65504


def test_no_copy_of_the_input():
    """A change of the lent bytes is seen by a result that is a part of them."""
    store = bytearray(sample("four.store"))
    block = knotpasture.record(store, 0).block
    store[8] ^= 255
    assert block[0] == store[8]
    with pytest.raises(BufferError):
        store.append(0)


def test_a_large_face():
    count = 1_048_576
    blocks = numpy.tile(numpy.frombuffer(B3 + B6 + bytes(16) + B2, numpy.uint8), count // 4)
    values, infinite = knotpasture.decode_counted(blocks, True)
    assert values.shape == (count, 4, 4, 3) and values.nbytes == 96 * count and infinite == 16 * count // 4
    assert values.flags.owndata is False and values.base.nbytes == values.nbytes
    part = knotpasture.decode(B3 + B6 + bytes(16) + B2, True)
    assert (values.reshape(-1, 4, 4, 4, 3).view(numpy.uint16) == part.view(numpy.uint16)).all()


def test_buffers_of_every_kind():
    expected = knotpasture.decode(B3 + B6, True).tobytes()
    rows = numpy.frombuffer(B3 + B6, numpy.uint8).reshape(2, 16)
    room = mmap.mmap(-1, 32)
    room[:] = B3 + B6
    for lent in (bytearray(B3 + B6), memoryview(B3 + B6), rows, rows.reshape(2, 4, 4), array.array("B", B3 + B6), room, memoryview(rows), numpy.ma.array(rows)):
        assert knotpasture.decode(lent, True).tobytes() == expected
    for signed in (True, 1, numpy.bool_(True), numpy.uint8(1), numpy.int64(1)):
        assert knotpasture.decode(B3 + B6, signed).tobytes() == expected


@pytest.mark.parametrize("lent", [None, 7, "03", [3] * 16, object(), numpy.zeros(16, numpy.int8), numpy.zeros(16, numpy.uint16), numpy.zeros(4, numpy.float32),
                                  array.array("H", 8 * [0]), memoryview(numpy.zeros(8, numpy.uint16)), numpy.array([b"x"], object), numpy.zeros(16, bool)])
def test_wrong_types(lent):
    for call in (lambda it: knotpasture.decode(it, True), lambda it: knotpasture.fields(it, True), knotpasture.twins, knotpasture.clean, knotpasture.decode_bc7,
                 knotpasture.clean_with_receipt, lambda it: knotpasture.restore_store(it, b""), lambda it: knotpasture.restore_store(b"", it),
                 knotpasture.dds_read, lambda it: knotpasture.record(it, 0), lambda it: knotpasture.probe_face(it, 1, 0), lambda it: knotpasture.trusted(it, 0)):
        with pytest.raises(TypeError):
            call(lent)


def test_not_in_one_piece():
    for lent in (numpy.zeros(32, numpy.uint8)[::2], numpy.zeros((16, 2), numpy.uint8).T, numpy.zeros((2, 16), numpy.uint8)[:, :8], memoryview(bytes(32))[::2],
                 numpy.asfortranarray(numpy.zeros((4, 4), numpy.uint8))):
        with pytest.raises(ValueError):
            knotpasture.decode(lent, False)
    with pytest.raises(ValueError):
        view = memoryview(bytes(16))
        view.release()
        knotpasture.decode(view, False)


def test_wrong_out():
    still, odd = numpy.zeros(48, numpy.float16), numpy.zeros(97, numpy.uint8)[1:].view(numpy.float16)
    still.flags.writeable = False
    for out in (still, odd, numpy.zeros(96, numpy.float16)[::2]):
        with pytest.raises(ValueError):
            knotpasture.decode(B3, False, out=out)
    for out in (bytearray(96), numpy.zeros(48, numpy.int16), numpy.zeros(48, numpy.float32), [0] * 48, "x"):
        with pytest.raises(TypeError):
            knotpasture.decode(B3, False, out=out)
    shared = numpy.zeros(96, numpy.uint8)
    with pytest.raises(ValueError):
        knotpasture.decode(shared[:16], False, out=shared.view(numpy.uint16))
    with pytest.raises(TypeError):
        knotpasture.decode_bc7(C9, out=numpy.zeros(64, numpy.uint16))


def test_wrong_formats_and_numbers():
    for signed in (None, "signed", 1.0, [1], numpy.float16(1)):
        with pytest.raises(TypeError):
            knotpasture.decode(B3, signed)
    for signed in (-1, 256, 1 << 70):
        with pytest.raises(ValueError):
            knotpasture.decode(B3, signed)
    store = sample("four.store")
    for n in (-1, 1 << 64):
        for call in (knotpasture.record, knotpasture.tile, knotpasture.first_of, knotpasture.placed_record):
            with pytest.raises(ValueError):
                call(store, n)
    for n in (1.0, "0", None):
        with pytest.raises(TypeError):
            knotpasture.record(store, n)
    for size in ((-4, 4), (4, 1 << 32)):
        with pytest.raises(ValueError):
            knotpasture.pfm_write(B3, False, *size)
        with pytest.raises(ValueError):
            knotpasture.dds_write(B3, False, *size)
    with pytest.raises(ValueError):
        knotpasture.probe_face(b"", 1 << 32, 0)


# ---- fields


def test_fields_and_back():
    lamp = sample("lamp.block")
    fields = knotpasture.fields(lamp, False)
    assert (fields.format, fields.mode, fields.endpoints[1], fields.indices[10]) == (0, 11, (990, 860, 610), 15)
    assert knotpasture.write(fields) == lamp and knotpasture.Fields.of(fields.numbers()) == fields
    assert (knotpasture.show_fields(fields) == knotpasture.decode(lamp, False)[0]).all()
    edited = dataclasses.replace(fields, endpoints=((40, 34, 30), (900, 860, 610), (0, 0, 0), (0, 0, 0)))
    assert knotpasture.show_fields(edited)[0, :2].view(numpy.uint16).tolist() == [[0x04E7, 0x042D, 0x03B1], [0x0B69, 0x0A6D, 0x0815]]
    refused(10, knotpasture.write, dataclasses.replace(fields, mode=15))
    refused(10, knotpasture.show_fields, dataclasses.replace(fields, partition=1))
    refused(1, knotpasture.write, dataclasses.replace(fields, format=2))
    for wrong in (dataclasses.replace(fields, mode=-1), dataclasses.replace(fields, mode=1 << 16)):
        with pytest.raises(ValueError):
            knotpasture.write(wrong)
    for wrong in (None, b"", fields.numbers(), [0] * 32):
        with pytest.raises(TypeError):
            knotpasture.write(wrong)
    refused(10, knotpasture.write, dataclasses.replace(fields, indices=fields.indices[1:]))
    with pytest.raises(ValueError):
        knotpasture.Fields.of(range(31))


def test_trusted():
    assert knotpasture.trusted(B3, False) and not knotpasture.trusted(B6, True)
    assert not knotpasture.trusted(B3[1:], False) and not knotpasture.trusted(B3, 2)


# ---- BC7


def test_stored_bc7():
    pieces = stored("check_bc7", 16, 66)
    for piece, wrote in pieces[:200]:
        values, mode = knotpasture.show_bc7(piece)
        assert (0, mode, values.tobytes()) == (wrote[0], wrote[1], wrote[2:])
    run = knotpasture.decode_bc7(b"".join(piece for piece, _ in pieces))
    assert run.shape == (len(pieces), 4, 4, 4) and run.dtype == numpy.uint8
    assert run.tobytes() == b"".join(wrote[2:] for _, wrote in pieces)
    refused(9, knotpasture.decode_bc7, C9[1:])
    refused(2, knotpasture.show_bc7, C9[1:])
    refused(3, knotpasture.decode_bc7, C9, out=numpy.zeros(63, numpy.uint8))
    assert knotpasture.show_bc7(bytes(16)).mode == knotpasture.BC7_RESERVED


# ---- the store


def test_records():
    store = sample("four.store")
    assert knotpasture.record(store, 2)[:2] == (9, 1) and knotpasture.record(store, 2).block.tobytes() == store[56:72]
    refused(1, knotpasture.record, store, 3)
    refused(8, knotpasture.record, store, 4)
    refused(8, knotpasture.record, store, (1 << 64) - 1)
    refused(6, knotpasture.record, store[1:], 0)
    assert [knotpasture.tile(store, n) for n in (0, 3, 4)] == [7, 10, 0]


def test_twins_beside_the_other_call():
    """twins goes by the call that has its space lent; knot_twin_list and knot_strict_twin_list answer the same."""
    for name in ("four", "twins", "apart", "covered", "refused", "infinite"):
        store = sample(f"{name}.store")
        marks, raw = (ctypes.c_uint8 * 64)(), (ctypes.c_uint8 * 64)()
        word = _library.call("knot_twin_list")(store, len(store), marks, 64)
        twins = knotpasture.twins(store)
        assert twins.marks.tolist() == list(marks)[: len(store) // 24]
        assert (twins.kept, twins.twins, twins.bad) == (word >> 16 & 0xFFFF, word >> 32 & 0xFFFF, word >> 48)
        word = _library.call("knot_strict_twin_list")(store, len(store), raw, 64)
        if word & 0xFF:
            refused(word & 0xFF, knotpasture.strict_twins, store, record=knotpasture.first_damaged(store))
        else:
            assert knotpasture.first_damaged(store) is None
            assert (knotpasture.strict_twins(store).marks == twins.marks).all()
    assert knotpasture.first_damaged(sample("apart.store")) == 0


@pytest.mark.parametrize("call", [knotpasture.twins, knotpasture.strict_twins, knotpasture.clean, knotpasture.clean_with_receipt, knotpasture.place])
def test_stores_at_their_limits(call):
    call(b"")
    call(bytes(48_000))
    refused(6, call, bytes(25))
    refused(6, call, bytes(47_999))
    refused(5, call, bytes(48_001))
    refused(5, call, bytes(1 << 24))


def test_clean():
    store = sample("covered.store")
    cleaned = knotpasture.clean(store)
    assert (cleaned.stay, cleaned.removed, cleaned.store.size) == (7, 5, 7 * 24)
    assert [knotpasture.first_of(store, n) for n in (1, 4, 11, 99)] == [0, 4, 10, 99]
    stay = [n for n in range(12) if knotpasture.first_of(store, n) == n]
    assert cleaned.store.tobytes() == b"".join(store[24 * n:24 * n + 24] for n in stay)


def test_clean_and_restore():
    for name in ("four", "twins", "apart", "covered", "refused", "infinite"):
        store = sample(f"{name}.store")
        plain, cleaned = knotpasture.clean(store), knotpasture.clean_with_receipt(store)
        assert (cleaned.stay, cleaned.removed, cleaned.store.tobytes()) == (plain.stay, plain.removed, plain.store.tobytes())
        gone = [n for n in range(len(store) // 24) if knotpasture.first_of(store, n) != n]
        entries = [n.to_bytes(2, "little") + knotpasture.first_of(store, n).to_bytes(2, "little") + store[24 * n:24 * n + 4] for n in gone]
        assert cleaned.receipt.tobytes() == b"".join(entries)
        assert knotpasture.restore_store(cleaned.store, cleaned.receipt).tobytes() == store
    equal = bytes(48_000)
    cleaned = knotpasture.clean_with_receipt(equal)
    assert (cleaned.stay, cleaned.removed) == (1, 1999)
    assert knotpasture.restore_store(cleaned.store, cleaned.receipt).tobytes() == equal


def test_restore_refusals():
    entry = b"\1\0\0\0\7\0\0\0"
    assert knotpasture.restore_store(bytes(24), entry).tobytes() == bytes(24) + b"\7" + bytes(23)
    assert knotpasture.restore_store(b"", b"").size == 0
    refused(5, knotpasture.restore_store, bytes(48_001), b"")
    refused(5, knotpasture.restore_store, bytes(48_000), entry)
    refused(5, knotpasture.restore_store, b"", bytes(16_008))
    refused(6, knotpasture.restore_store, bytes(23), entry)
    for receipt in (entry[1:], entry + b"\0", entry + entry, b"\2" + entry[1:], b"\0" + entry[1:], entry[:2] + b"\1" + entry[3:]):
        refused(25, knotpasture.restore_store, bytes(24), receipt)


def test_in_a_thread_with_a_small_stack():
    found, before = [], threading.stack_size(131_072)
    try:
        thread = threading.Thread(target=lambda: found.append(knotpasture.strict_twins(bytes(48_000))))
        thread.start()
        thread.join()
    finally:
        threading.stack_size(before)
    assert found[0].twins == 1999


def test_threads_at_once():
    blocks, found = (B3 + B6) * 5000, []
    expected = knotpasture.decode(blocks, True).tobytes()
    threads = [threading.Thread(target=lambda: found.append(knotpasture.decode(blocks, True).tobytes() == expected)) for _ in range(4)]
    for thread in threads:
        thread.start()
    for thread in threads:
        thread.join()
    assert found == 4 * [True]


# ---- records with a place, and the probe


def test_places():
    old = sample("twins.store")
    new = knotpasture.place(old)
    assert new.size == len(old) // 24 * 32 and knotpasture.unplace(new).tobytes() == old
    assert knotpasture.placed_record(new, 0).face is None
    placed = sample("placed.places")
    refused(18, knotpasture.unplace, placed, record=0)
    new[32 * 2 + 5] = 5
    refused(18, knotpasture.unplace, new, record=2)
    refused(7, knotpasture.place, old[:48 + 7] + b"\1" + old[48 + 8:], record=2)
    refused(8, knotpasture.placed_record, placed, 5)
    refused(5, knotpasture.unplace, bytes(64_001))
    one = struct.pack("<IBBHH6x", 4294967295, 1, 5, 0x1234, 1) + B3
    record = knotpasture.placed_record(one, 0)
    assert record[:5] == (4294967295, 1, 5, 0x1234, 1) and record.block.tobytes() == B3


def test_put_place():
    """Holds S-91."""
    store = knotpasture.place(sample("twins.store"))
    put = knotpasture.put_place(store, 2, 5, 0x1234, 7)
    assert knotpasture.placed_record(put, 2)[2:5] == (5, 0x1234, 7)
    assert [k for k in range(store.size) if put[k] != store[k]] == [69, 70, 71, 72]
    assert knotpasture.put_place(put, 2, None).tobytes() == store.tobytes()
    put[64 + 5] = 9
    assert knotpasture.put_place(put, 2, 0)[64 + 5] == 0
    put[32 + 4], put[15] = 2, 1
    refused(1, knotpasture.put_place, put, 1, 0, record=1)
    refused(7, knotpasture.put_place, put, 0, 0, record=0)
    refused(17, knotpasture.put_place, store, 0, 6)
    refused(17, knotpasture.put_place, store, 0, None, 1)
    refused(8, knotpasture.put_place, store, store.size // 32, 6)
    refused(6, knotpasture.put_place, store[1:], 0, 0)
    refused(5, knotpasture.put_place, bytes(64_032), 0, 0)
    for place in ((256, 0, 0), (0, 65536, 0), (0, 0, -1)):
        with pytest.raises(ValueError):
            knotpasture.put_place(store, 0, *place)


def test_probe_opened_once():
    """Holds S-93."""
    store = sample("small.probe")
    table = knotpasture.probe_open(store, 2)
    assert sorted(table.tolist()) == 1512 * [0] + [*range(1, 25)]
    for face in range(6):
        shown = knotpasture.probe_face(store, 2, face)
        for y, x in itertools.product(range(8), range(8)):
            assert knotpasture.probe_pixel_in(store, table, 2, face, x, y).tobytes() == shown[y, x].tobytes()
    refused(19, knotpasture.probe_open, store, 17)
    refused(23, knotpasture.probe_open, store, 3)
    refused(22, knotpasture.probe_open, store + store[-32:], 2, record=24)
    refused(19, knotpasture.probe_pixel_in, store, table[:1], 0, 6, 0, 0)
    refused(24, knotpasture.probe_pixel_in, store, table[:1], 2, 6, 0, 0)
    refused(3, knotpasture.probe_pixel_in, store, table[:1535], 2, 0, 0, 0)
    refused(23, knotpasture.probe_pixel_in, store, table, 3, 0, 8, 0)
    refused(8, knotpasture.probe_pixel_in, b"", table, 2, 0, 0, 0)
    damaged = bytearray(store)
    damaged[4::32] = bytes([2]) * 24
    refused(1, knotpasture.probe_pixel_in, damaged, table, 2, 0, 0, 0)
    for wrong in (table.astype(numpy.uint32), table.tolist(), table[::2], table.tobytes()):
        with pytest.raises(TypeError):
            knotpasture.probe_pixel_in(store, wrong, 2, 0, 0, 0)


def test_probe():
    store = sample("small.probe")
    assert knotpasture.probe_check(store, 2) is None
    refused(23, knotpasture.probe_check, store, 3)
    refused(22, knotpasture.probe_check, store + store[-32:], 2, record=24)
    refused(19, knotpasture.probe_check, store, 17)
    refused(19, knotpasture.probe_face, store, (1 << 32) - 1, 0)
    refused(24, knotpasture.probe_face, store, 2, 6)
    refused(24, knotpasture.probe_pixel, store, 2, 0, 8, 0)
    refused(22, knotpasture.probe_pixel, store + store[-32:], 2, 6, 0, 0, record=24)
    face = knotpasture.probe_face(store, 2, 3)
    assert face.shape == (8, 8, 3)
    for y in range(8):
        for x in range(8):
            assert knotpasture.probe_pixel(store, 2, 3, x, y).tobytes() == face[y, x].tobytes()


def test_probe_built():
    blocks = b"".join(bytes(16) if k % 5 else B3 for k in range(24))
    store = knotpasture.probe_build(blocks, True, 2, 0xFFFFFFF0)
    assert store.size == 24 * 32 and knotpasture.probe_edge(store) == 2 and knotpasture.probe_check(store, 2) is None
    shown = knotpasture.decode(blocks, True)
    for face, row, column in itertools.product(range(6), range(2), range(2)):
        n = 4 * face + 2 * row + column
        record = knotpasture.placed_record(store, n)
        assert record[:5] == ((0xFFFFFFF0 + n) % 2**32, 1, face, column, row) and record.block.tobytes() == blocks[16 * n : 16 * n + 16]
        part = knotpasture.probe_face(store, 2, face)[4 * row : 4 * row + 4, 4 * column : 4 * column + 4]
        assert part.tobytes() == shown[n].tobytes()
    refused(19, knotpasture.probe_build, blocks, 2, 0)
    refused(19, knotpasture.probe_build, blocks, 2, 17)
    refused(1, knotpasture.probe_build, blocks, 2, 1)
    refused(15, knotpasture.probe_build, blocks, 1, 1)
    assert [knotpasture.probe_edge(bytes(192 * n * n)) for n in range(18)] == [*range(17), 0] and knotpasture.probe_edge(bytes(191)) == 0


# ---- files


def test_dds():
    file = sample("five.dds")
    dds = knotpasture.dds_read(file)
    assert dds[:3] == (5, 3, 1) == knotpasture.dds_head(file[:148]) and dds.blocks.shape == (2, 16)
    assert knotpasture.dds_write(dds.blocks, dds.format, dds.width, dds.height).tobytes() == file
    refused(15, knotpasture.dds_read, file[:-1])
    refused(13, knotpasture.dds_read, b"")
    refused(13, knotpasture.dds_head, file[:147])
    refused(14, knotpasture.dds_write, B3, False, 0, 4)
    refused(15, knotpasture.dds_write, B3, False, 8, 4)
    refused(1, knotpasture.dds_write, B3, 2, 0, 0)


def with_levels(width, height, levels, dxgi, size):
    """A DDS file of `size` bytes of blocks, each byte another."""
    head = bytearray(struct.pack("<4s7I44x2I4s20xI16x5I", b"DDS ", 124, 0x81007, height, width, 0, 0, levels, 32, 4, b"DX10", 0x1000, dxgi, 3, 0, 1, 0))
    return bytes(head) + bytes(k * k % 251 for k in range(size))


def test_dds_of_bc7():
    """Holds S-94."""
    for dxgi, number in ((98, knotpasture.BC7_LINEAR), (99, knotpasture.BC7_SRGB)):
        file = with_levels(5, 3, 1, dxgi, 32)
        dds = knotpasture.bc7_dds_read(file)
        assert dds[:3] == (5, 3, number) and dds.blocks.tobytes() == file[148:]
        assert knotpasture.decode_bc7(dds.blocks).shape == (2, 4, 4, 4)
        refused(13, knotpasture.dds_read, file)
        refused(15, knotpasture.bc7_dds_read, file + b"x")
    for dxgi in (95, 96, 97, 100):
        refused(13, knotpasture.bc7_dds_read, with_levels(5, 3, 1, dxgi, 32))
    # one number for the readers of both formats, and of files with levels: its words name neither
    for read in (knotpasture.dds_read, knotpasture.bc7_dds_read, knotpasture.dds_first_level, knotpasture.bc7_dds_first_level):
        with pytest.raises(knotpasture.Refused) as found:
            read(b"")
        assert not re.search("BC6H|BC7|level", str(found.value)), found.value
    refused(14, knotpasture.bc7_dds_read, with_levels(4097, 3, 1, 98, 32))
    refused(13, knotpasture.bc7_dds_read, with_levels(5, 3, 2, 98, 48))


def test_dds_with_levels():
    """Holds S-95."""
    for (width, height, levels), sizes in {(5, 3, 0): (2,), (5, 3, 1): (2,), (5, 3, 3): (2, 1, 1), (16, 8, 4): (8, 2, 1, 1), (12, 1, 13): (3, 2) + 11 * (1,), (9, 5, 2): (6, 1)}.items():
        for first, reading, single in ((95, knotpasture.dds_first_level, knotpasture.dds_read), (98, knotpasture.bc7_dds_first_level, knotpasture.bc7_dds_read)):
            for number in (0, 1):
                file = with_levels(width, height, levels, first + number, 16 * sum(sizes))
                dds = reading(file)
                assert dds[:3] == (width, height, number) and dds.blocks.tobytes() == file[148 : 148 + 16 * sizes[0]]
                refused(15, reading, file + b"x")
                refused(15, reading, file[:-1])
                refused(13, reading, with_levels(width, height, levels, 193 - first - number, 16 * sum(sizes)))
                if levels > 1:
                    refused(13, single, file)
                else:
                    assert single(file).blocks.tobytes() == dds.blocks.tobytes()
    refused(13, knotpasture.dds_first_level, with_levels(5, 3, 14, 95, 16 * 15))
    refused(14, knotpasture.dds_first_level, with_levels(0, 3, 13, 95, 0))


def test_pfm():
    dds = knotpasture.dds_read(sample("eight.dds"))
    file = knotpasture.pfm_write(dds.blocks, dds.format, dds.width, dds.height).tobytes()
    assert file.startswith(b"PF\n8 4\n-1.0\n") and len(file) == knotpasture.pfm_length(8, 4)
    picture = numpy.frombuffer(file[12:], "<f4").reshape(4, 8, 3)[::-1]
    blocks = knotpasture.decode(dds.blocks, dds.format)
    assert (picture == numpy.concatenate(list(blocks), axis=1).astype(numpy.float32)).all()
    assert knotpasture.pfm_length(5, 4) == 0
    refused(16, knotpasture.pfm_write, B3, False, 5, 4)
    refused(15, knotpasture.pfm_write, B3, False, 8, 4)


def exr_parts(file):
    """The attributes of an OpenEXR file of one part by their names, with their types, and the bytes behind the header."""
    assert struct.unpack_from("<II", file) == (20000630, 2)
    found, at = {}, 8
    while file[at]:
        name, kind = file[at:].split(b"\0", 2)[:2]
        at += len(name) + len(kind) + 2
        size = struct.unpack_from("<I", file, at)[0]
        found[name.decode()], at = (kind.decode(), file[at + 4:at + 4 + size]), at + 4 + size
    return found, at + 1


def exr_picture(file):
    """Width, height and the patterns of an uncompressed OpenEXR file, (height, width, 3), as the format's own page reads them: line by line where the
    table says, channel by channel in the order of the list."""
    parts, at = exr_parts(file)
    assert parts["compression"] == ("compression", b"\0") and parts["lineOrder"] == ("lineOrder", b"\0")
    left, top, right, bottom = struct.unpack("<4i", parts["dataWindow"][1])
    width, height = right - left + 1, bottom - top + 1
    assert parts["displayWindow"] == parts["dataWindow"] and parts["dataWindow"][0] == "box2i" and (left, top) == (0, 0)
    listed, names = parts["channels"][1], []
    while listed != b"\0":
        name, rest = listed.split(b"\0", 1)
        assert struct.unpack_from("<IB3xII", rest) == (1, 0, 1, 1)
        names, listed = [*names, name.decode()], rest[16:]
    assert names == sorted(names) and set(names) == set("RGB")
    lines = numpy.empty((height, len(names), width), "<u2")
    for y, start in enumerate(struct.unpack_from(f"<{height}Q", file, at)):
        assert struct.unpack_from("<II", file, start) == (y, 2 * len(names) * width)
        lines[y] = numpy.frombuffer(file, "<u2", len(names) * width, start + 8).reshape(len(names), width)
    assert start + 8 + 2 * len(names) * width == len(file)
    return width, height, lines[:, [names.index(name) for name in "RGB"]].transpose(0, 2, 1)


def test_exr():
    """Holds S-92: the file, read by its own header and table, shows what the blocks show."""
    pieces = b"".join(piece[1:] for piece, _ in stored("run_pixels", 17, 100))
    for width, height, signed in ((4, 4, False), (8, 4, True), (4, 8, False), (28, 20, True), (64, 12, False), (4, 1000, True)):
        size = width * height
        blocks = (pieces * (size // len(pieces) + 1))[:size]
        file = knotpasture.exr_write(blocks, signed, width, height).tobytes()
        assert len(file) == knotpasture.exr_length(width, height) == 313 + 8 * height + (8 + 6 * width) * height
        shown = by_rows(knotpasture.decode(blocks, signed), width // 4, height // 4)
        wide, high, patterns = exr_picture(file)
        assert (wide, high) == (width, height) and (patterns == shown.view(numpy.uint16)).all()
    parts, at = exr_parts(file)
    assert at == 313 and parts["pixelAspectRatio"] == parts["screenWindowWidth"] == ("float", struct.pack("<f", 1))
    assert parts["screenWindowCenter"] == ("v2f", bytes(8)) and list(parts) == sorted(parts)
    assert knotpasture.exr_length(5, 4) == knotpasture.exr_length(4, 4100) == knotpasture.exr_length(0, 4) == 0
    assert knotpasture.exr_length(4096, 4096) == 100_729_145
    refused(1, knotpasture.exr_write, B3, 2, 5, 4)
    refused(16, knotpasture.exr_write, B3, False, 5, 4)
    refused(15, knotpasture.exr_write, B3, False, 8, 4)


# ---- faces, and the pairs of an audit: where the library that is loaded has the calls


def by_rows(values, width, height):
    """A picture of blocks in row order, without the library's own call."""
    return values.reshape(height, width, 4, 4, 3).transpose(0, 2, 1, 3, 4).reshape(4 * height, 4 * width, 3)


@pytest.mark.skipif(not has("knot_face_pixels"), reason="the library has no knot_face_pixels")
@pytest.mark.parametrize("call, channels", [(knotpasture.face, 3), (knotpasture.face_rgba, 4)])
def test_faces(call, channels):
    blocks = b"".join(piece[1:] for piece, _ in stored("run_pixels", 17, 100)[:35])
    expected = by_rows(knotpasture.decode(blocks, True), 7, 5)
    face = call(blocks, 7, 5, True)
    assert face.shape == (20, 28, channels) and face[:, :, :3].tobytes() == expected.tobytes()
    assert channels == 3 or (face[:, :, 3] == 1.0).all()
    picture = numpy.full((30, 40, channels), 7, numpy.float16)
    window = picture[5:25, 6:34]
    assert numpy.shares_memory(call(blocks, 7, 5, True, out=window), picture)
    assert window.tobytes() == face.tobytes()
    picture[5:25, 6:34] = 7
    assert (picture == 7).all()
    assert call(b"", 0, 3, True).shape == (12, 0, channels)
    refused(15, call, blocks, 5, 5, True)
    refused(15, call, blocks, 1 << 62, 4, True)
    refused(1, call, blocks, 5, 5, 2)
    for out in (picture[5:25, 6:33], picture[25:5:-1, 6:34], picture[5:25, 6:34].astype(numpy.float16).transpose(1, 0, 2), picture[:20, :28].copy(order="F")):
        with pytest.raises(ValueError):
            call(blocks, 7, 5, True, out=out)
    with pytest.raises(TypeError):
        call(blocks, 7, 5, True, out=numpy.zeros((20, 28, channels), numpy.float32))


@pytest.mark.skipif(not has("knot_first_twin"), reason="the library has no knot_first_twin")
def test_pairs_of_an_audit():
    store = sample("covered.store")
    pairs = [(n, knotpasture.first_twin(store, n)) for n in range(14)]
    assert [pair for pair in pairs if pair[0] != pair[1]] == [(1, 0), (3, 2), (4, 2), (6, 5), (8, 7), (9, 7), (11, 10)]
    assert [knotpasture.covered(store, n, twin) for n, twin in pairs if n != twin] == [True, True, False, True, True, False, True]
    assert not knotpasture.covered(store, 1, 99)


# ---- the refusal, and the library


def test_refused_is_an_error_that_travels():
    error = pickle.loads(pickle.dumps(Refused(22, 17)))
    assert (error.number, error.record, error.words) == (22, 17, "a place is taken twice")
    assert str(error) == "refused, 22: a place is taken twice: record 17"
    assert issubclass(Refused, Exception) and not issubclass(Refused, (TypeError, ValueError))


def test_no_library():
    said = subprocess.run([sys.executable, "-B", "-c", "import knotpasture; knotpasture.decode(b'', True)"], capture_output=True, text=True,
                          env={"PYTHONPATH": str(ROOT / "python"), "KNOTPASTURE_LIBRARY": "/nowhere/libknotpasture.so"})
    assert said.returncode == 1 and "OSError: libknotpasture is not found" in said.stderr and "/nowhere/libknotpasture.so" in said.stderr


def test_loader_before_the_library(tmp_path, monkeypatch):
    """Where libknotload.so stands beside the library it is opened first, so that the machine's loader takes the library for its processor."""
    monkeypatch.delenv("KNOTPASTURE_LIBRARY", raising=False)
    package, lib = tmp_path / "python/knotpasture", tmp_path / "lib"
    package.mkdir(parents=True)
    lib.mkdir()
    source = pathlib.Path(knotpasture.__file__).with_name("_library.py")
    (package / "_library.py").write_bytes(source.read_bytes())
    spec = importlib.util.spec_from_file_location("copied_library", package / "_library.py")
    copied = importlib.util.module_from_spec(spec)
    spec.loader.exec_module(copied)
    assert copied.places() == [copied.NAME]
    (lib / copied.LOADER).touch()
    assert copied.places() == [copied.NAME]
    (lib / copied.NAME).touch()
    assert copied.places() == [str(lib / copied.LOADER), str(lib / copied.NAME), copied.NAME]
    (lib / copied.LOADER).unlink()
    assert copied.places() == [str(lib / copied.NAME), copied.NAME]
