#!/usr/bin/env python3
"""Calls the native library over random, damaged and limiting input, and writes each call with all that it left: tests/wasm/vectors.py FOLDER SCALE SEED

A file NAME.bin has for each call: the call's number (1 byte); for each parameter what was given, and for lent room and slots what the library left
there; the answer (8 bytes). Lent input is a size (4 bytes) and its bytes, or SAME for the input before; NULL is a null pointer. index.json names the
files and has the calls with their parameters. tests/wasm/compare.mjs makes the same calls in WebAssembly.
"""
import ctypes
import json
import pathlib
import platform
import random
import re
import runpy
import struct
import sys

ROOT = pathlib.Path(__file__).resolve().parent.parent.parent
LIBRARY = ROOT / f"target/lib/{platform.machine()}/libknotpasture.so"
PARSED = runpy.run_path(str(ROOT / "tools/web-calls"))["calls_of"]
NULL, SAME = 0xFFFFFFFF, 0xFFFFFFFE
TYPES = {"u8": ctypes.c_uint8, "u16": ctypes.c_uint16, "u32": ctypes.c_uint32, "u64": ctypes.c_uint64, "bool": ctypes.c_bool}
PACKED = {"u8": "<B", "u16": "<H", "u32": "<I", "u64": "<Q"}
FILL = bytes((37 * k + 11) & 255 for k in range(1 << 20))
# lengths and numbers that 32 bits would cut
HUGE = [1 << 32, (1 << 32) + 16, (1 << 32) + 24, (1 << 32) + 48, 1 << 63, (1 << 64) - 16, (1 << 64) - 1]
BLOCK, RECORD, PLACED, VALUES = 16, 24, 32, 48


class Native:
    """The library, and the files that its calls are written to."""

    def __init__(self, folder):
        text = (ROOT / "include/knotpasture.h").read_text()
        self.calls = PARSED(re.sub(r"/\*.*?\*/", "", text, flags=re.S))
        self.folder, self.library, self.file, self.last = folder, ctypes.CDLL(str(LIBRARY)), None, None
        self.bound, self.counts = {}, dict.fromkeys(self.calls, 0)
        for number, (name, call) in enumerate(self.calls.items()):
            kinds = [one.split()[0] for one in call["takes"]]
            function = getattr(self.library, name)
            function.restype = TYPES[call["answers"]]
            function.argtypes = [kind for one in kinds for kind in ([TYPES[one]] if one in TYPES else [ctypes.c_void_p] if one.startswith("slot") else [ctypes.c_void_p, ctypes.c_uint64])]
            self.bound[name] = number, kinds, function

    def open(self, name):
        self.close()
        self.file, self.last = open(self.folder / f"{name}.bin", "wb"), None

    def close(self):
        if self.file:
            self.file.close()

    def __call__(self, name, *given):
        """Makes a call. Given is for lent input bytes, or (None, length) for a null pointer; for lent room how many elements, or (None, length); for a
        number that number; nothing for a slot. Answers the word and what room and slots then hold."""
        number, kinds, function = self.bound[name]
        words, pieces, left, kept, rest = [], [bytes([number])], [], [], list(given)
        for kind in kinds:
            if kind.startswith("slot"):
                room = ctypes.create_string_buffer(b"\x5A" * 8, 8)
                words.append(ctypes.addressof(room))
                left.append((len(pieces), room, 8))
                pieces.append(b"")
                continue
            value = rest.pop(0)
            if kind in PACKED:
                words.append(value)
                pieces.append(struct.pack(PACKED[kind], value))
            elif isinstance(value, tuple):
                words += [None, value[1]]
                pieces.append(struct.pack("<IQ", NULL, value[1]))
            elif kind.startswith("in"):
                kept.append(value)
                count = len(value) * 8 // int(kind[2:])
                words += [ctypes.cast(ctypes.c_char_p(value), ctypes.c_void_p), count]
                if value is self.last:
                    pieces.append(struct.pack("<IQ", SAME, count))
                else:
                    pieces.append(struct.pack("<IQ", len(value), count) + value)
                    self.last = value
            else:
                size = value * int(kind[3:]) // 8
                room = ctypes.create_string_buffer((FILL * (size // len(FILL) + 1))[:size] if size > len(FILL) else FILL[:size], max(size, 1))
                words += [ctypes.addressof(room), value]
                pieces.append(struct.pack("<IQ", size, value))
                left.append((len(pieces), room, size))
                pieces.append(b"")
        assert not rest, name
        word = int(function(*words))
        outs = []
        for at, room, size in left:
            pieces[at] = room.raw[:size]
            outs.append(pieces[at])
        self.file.write(b"".join(pieces) + struct.pack("<Q", word))
        self.counts[name] += 1
        return word, outs


class Vectors:
    def __init__(self, folder, scale, seed):
        self.call, self.scale, self.chance = Native(folder), scale, random.Random(seed)

    def times(self, count):
        return range(max(1, int(count * self.scale)))

    def some(self, *choices):
        return self.chance.choice(choices)

    def now_and_then(self, share):
        return self.chance.random() < share

    # ---- what calls are made over

    def bc6(self):
        """A block: by chance, with a mode of each kind, with few or many bits, with one bit or all but one."""
        bits, which = self.chance.getrandbits, self.chance.random()
        block = bits(128)
        if which < 0.5:
            block = block & ~31 | bits(5)
        elif which < 0.6:
            block = block & bits(128) & bits(128) & ~31 | bits(5)
        elif which < 0.7:
            block = (block | bits(128) | bits(128)) & ~31 | bits(5)
        elif which < 0.72:
            block = self.some(0, (1 << 128) - 1, 1 << bits(7), ((1 << 128) - 1) ^ 1 << bits(7))
        return block.to_bytes(16, "little")

    def bc7(self):
        """A block with a mode of each kind, the reserved one among them."""
        block, mode = self.chance.getrandbits(128), self.chance.randrange(9)
        return ((block >> mode + 1 << mode + 1 | 1 << mode) if mode < 8 else block >> 8 << 8).to_bytes(16, "little")

    def pool(self):
        """Blocks of which several show one picture: black and white in several ways, and ends that are the same."""
        made = [self.bc6() for _ in range(self.chance.randrange(1, 5))]
        made += [bytes.fromhex(text.ljust(32, "0")) for text in ("", "13", "0F00000080", "EF7F0000801F", "EF7F0000001F")]
        made += [bytes.fromhex(text) for text in ("03000000F81F000000000000000000F0", "07000000F80F000000000000000000F0", "1E000000F8010000801F700000000038", "1E000000F801000080BF710000000038")]
        end = [self.chance.getrandbits(10) for _ in range(3)]
        for _ in range(2):
            numbers = struct.pack("<32H", 0, 11, *end, *end, *[0] * 8, self.chance.randrange(8), *(self.chance.randrange(16) for _ in range(15)))
            word, outs = self.call("knot_write_block", numbers, 16)
            made += [outs[0]] * (word == 0)
        return made

    def store(self, count, wrong):
        blocks, made = self.pool(), bytearray()
        for _ in range(count):
            form = self.some(2, 255) if self.now_and_then(wrong) else self.chance.randrange(2)
            spare = (0, self.chance.randrange(256), 0) if self.now_and_then(wrong) else (0, 0, 0)
            made += struct.pack("<IB3B", self.some(0, self.chance.getrandbits(32), self.chance.getrandbits(8)), form, *spare)
            made += self.chance.choice(blocks) if self.now_and_then(0.7) else self.bc6()
        return bytes(made)

    def probe(self, edge):
        places = [(face, column, row) for face in range(6) for column in range(edge) for row in range(edge)]
        self.chance.shuffle(places)
        return [struct.pack("<IBBHH6x", self.chance.getrandbits(32), self.chance.randrange(2), *place) + self.bc6() for place in places]

    # ---- groups of calls

    def blocks(self):
        call = self.call
        for form in (0, 1):
            call.open(f"blocks-{form}")
            for _ in self.times(55_000):
                call("knot_block_pixels", self.bc6(), form, VALUES)
            for _ in self.times(12_000):
                block = self.bc6()
                word, (numbers,) = call("knot_block_fields", block, form, 32)
                call("knot_is_trusted", block, form)
                if word & 255:
                    continue
                if self.now_and_then(0.3):
                    changed = bytearray(numbers)
                    struct.pack_into("<H", changed, 2 * self.chance.randrange(32), self.some(0, 1, 7, 15, 31, 63, 1023, 65535, self.chance.getrandbits(16), self.chance.getrandbits(5)))
                    numbers = bytes(changed)
                call("knot_write_block", numbers, BLOCK)
                call("knot_fields_pixels", numbers, VALUES)
        call.open("bc7")
        for _ in self.times(45_000):
            call("knot_bc7_pixels", self.bc7(), 64)

    def refusals(self):
        call = self.call
        call.open("refusals")
        for _ in self.times(5_000):
            block = (2 * self.bc6())[:self.some(0, 1, 15, 16, 16, 17, 32)]
            form, room = self.some(0, 1, 2, 3, 128, 255), self.some(0, 1, 47, 48, 49, 60)
            call("knot_block_pixels", block, form, room)
            call("knot_is_trusted", block, form)
            call("knot_block_fields", block, form, self.some(0, 31, 32, 40))
            numbers = bytes(self.chance.getrandbits(8) if self.now_and_then(0.3) else 0 for _ in range(64))[:2 * self.some(0, 31, 32, 32, 32)]
            call("knot_write_block", numbers, self.some(0, 15, 16, 17))
            call("knot_fields_pixels", numbers, room)
            call("knot_bc7_pixels", block, self.some(0, 63, 64, 70))

    def huge(self):
        """Lengths and numbers beyond 32 bits, refused before anything is read."""
        call, none = self.call, (None, 0)
        call.open("huge")
        for number in HUGE:
            far = (None, number)
            for form in (0, 1, 2):
                for name in ("knot_block_pixels", "knot_block_fields", "knot_blocks_pixels"):
                    call(name, far, form, none)
                call("knot_is_trusted", far, form)
                call("knot_blocks_pixels", none, form, far)
                for name in ("knot_face_pixels", "knot_face_rgba"):
                    for given in ((none, number, 0, form, none, number), (none, 0, number, form, far, number), (far, 1, 1, form, none, 0), (self.bc6(), 1, 1, form, 100, number),
                                  (none, 1 << 32, 1 << 32, form, none, 0), ((None, 16), (1 << 32) + 1, (1 << 32) - 1, form, none, 0)):
                        call(name, *given)
                for name in ("knot_dds_write", "knot_pfm_write", "knot_exr_write"):
                    call(name, far, form, 4, 4, none)
            for name in ("knot_write_block", "knot_fields_pixels", "knot_bc7_pixels", "knot_bc7_blocks_pixels"):
                call(name, far, none)
            for name in ("knot_record_at", "knot_record_block", "knot_tile_at", "knot_first_twin", "knot_first_of", "knot_placed_record_at", "knot_placed_record_block"):
                if name != "knot_tile_at":  # which reads a record whatever the store's length is
                    call(name, far, 0)
                call(name, none, number)
                call(name, bytes(96), number)
            call("knot_is_covered", far, 1, 0)
            call("knot_is_covered", bytes(96), 1, number)
            call("knot_first_damaged", far)
            for name in ("knot_twin_list", "knot_strict_twin_list", "knot_clean_store", "knot_place_store", "knot_unplace_store"):
                call(name, far, none)
                call(name, none, far)
            call("knot_twin_list_in", far, none, none)
            call("knot_probe_check", far, 2)
            call("knot_probe_pixel", far, 2, 0, 0, 0)
            call("knot_probe_face", far, 2, 0, none)
            call("knot_put_place", far, 0, 0, 0, 0, none)
            call("knot_put_place", bytes(96), number, 0, 0, 0, 96)
            call("knot_probe_open", far, 2, none)
            call("knot_probe_pixel_in", far, none, 2, 0, 0, 0)
            call("knot_probe_edge", far)
            call("knot_probe_build", far, 0, 2, 0, none)
            call("knot_probe_build", none, 0, 2, 0, far)

    def runs(self):
        call = self.call
        call.open("runs")
        for name, block, size in (("knot_blocks_pixels", self.bc6, VALUES), ("knot_bc7_blocks_pixels", self.bc7, 64)):
            for _ in self.times(250):
                count = self.some(0, 1, 2, 3, 7, 64, 600)
                data = b"".join(block() for _ in range(count)) + b"x" * (self.now_and_then(0.1) * self.chance.randrange(1, 16))
                room = max(0, size * count + self.some(0, 0, 1, 40, -1))
                for form in ((0,), (1,), (self.some(2, 255),)) if size == VALUES else ((),):
                    call(name, data, *form, room)

    def faces(self):
        call = self.call
        call.open("faces")
        for _ in self.times(500):
            wide, high = self.some((0, 0), (0, 5), (1, 1), (1, 9), (9, 1), (self.chance.randrange(1, 20), self.chance.randrange(1, 20)))
            data, form = b"".join(self.bc6() for _ in range(wide * high)), self.some(0, 1, 0, 1, 2)
            for name, row in (("knot_face_pixels", 12), ("knot_face_rgba", 16)):
                pitch = max(0, row * wide + self.some(0, 0, 1, 5, 64, -1))
                room = max(0, pitch * (4 * high - 1) + row * wide + self.some(0, 0, 3, -1)) if high else self.some(0, 10)
                call(name, data[:len(data) - self.now_and_then(0.05)], wide, high, form, room, pitch)

    def over_store(self, store, numbers):
        call, count = self.call, len(store) // RECORD
        marks = max(0, count + self.some(0, 0, 0, 5, -1))
        call("knot_twin_list", store, marks)
        call("knot_strict_twin_list", store, marks)
        call("knot_twin_list_in", store, marks, max(0, 49 * count + self.some(0, 0, 7, -1)))
        call("knot_first_damaged", store)
        call("knot_clean_store", store, max(0, len(store) + self.some(0, 0, 0, 9, -1)))
        for n in numbers:
            for name in ("knot_record_at", "knot_record_block", "knot_tile_at", "knot_first_of"):
                call(name, store, n)
            twin, _ = call("knot_first_twin", store, n)
            for earlier in (twin, self.chance.randrange(count + 3)):
                call("knot_is_covered", store, n, earlier)
        word, outs = call("knot_place_store", store, max(0, PLACED * count + self.some(0, 0, 0, 9, -1)))
        if word & 255 or not count:
            return
        moved = bytearray(outs[0][:PLACED * count])
        if self.now_and_then(0.4):
            moved[PLACED * self.chance.randrange(count) + self.chance.randrange(4, 16)] = self.some(0, 1, 5, 6, 255)
        self.over_placed(bytes(moved))

    def over_placed(self, store):
        count = len(store) // PLACED
        self.call("knot_unplace_store", store, RECORD * count + self.some(0, 0, 4))
        for n in range(min(count + 1, 4)):
            self.call("knot_put_place", store, n, self.some(0, 5, 6, 255), self.some(0, 0, self.chance.getrandbits(16)), self.some(0, 0, self.chance.getrandbits(16)), max(0, len(store) + self.some(0, 0, 4, -1)))
        for n in range(min(count + 1, 8)):
            self.call("knot_placed_record_at", store, n)
            self.call("knot_placed_record_block", store, n)

    def stores(self):
        self.call.open("stores")
        for _ in self.times(700):
            store = self.store(self.some(0, 1, 2, 3, 8, 20, self.chance.randrange(60)), self.some(0, 0, 0.03, 0.3)) + bytes(self.now_and_then(0.05) * self.chance.randrange(1, 24))
            self.over_store(store, [*range(len(store) // RECORD), len(store) // RECORD, 1 << 32, (1 << 64) - 1])
        for count in [2000, 1999, 2001, 1500] + [2000] * len(self.times(2)):
            self.over_store(self.store(count, self.some(0, 0.01)), [self.chance.randrange(count + 1) for _ in range(20)])
        for path in sorted((ROOT / "samples").iterdir()):
            store = path.read_bytes()
            self.over_store(store, range(min(60, len(store) // RECORD) + 2))

    def placed(self):
        """Records with a place that are not placed, up to the limit and a record beyond it."""
        self.call.open("placed")
        for count in [1999, 2000, 2001] + [self.chance.randrange(1, 40) for _ in self.times(20)]:
            store = b"".join(struct.pack("<IBB10x", self.chance.getrandbits(32), self.chance.randrange(2), 255) + self.bc6() for _ in range(count))
            self.over_placed(store)
            for n in (count - 1, count):
                self.call("knot_placed_record_at", store, n)
                self.call("knot_placed_record_block", store, n)
            for edge in (1, 16):
                self.call("knot_probe_check", store, edge)

    def probes(self):
        call = self.call
        call.open("probes")
        for turn in self.times(300):
            edge = 16 if turn % 60 == 0 else self.some(1, 1, 2, 2, 3, 4, 5)
            records, asked, fault = self.probe(edge), edge, self.chance.random()
            if fault < 0.25:
                k = self.chance.randrange(len(records))
                changed = bytearray(records[k])
                changed[self.chance.randrange(4, 16)] = self.some(0, 1, 2, 5, 6, 255)
                records[k] = bytes(changed)
            elif fault < 0.3:
                records[self.chance.randrange(len(records))] = self.chance.choice(records)
            elif fault < 0.35:
                records.pop()
            elif fault < 0.4:
                asked = self.some(0, 17, edge + 1, 1 << 31, (1 << 32) - 1)
            store = b"".join(records) + b"x" * self.now_and_then(0.03)
            call("knot_probe_check", store, asked)
            for face in self.chance.sample(range(7), 2):
                call("knot_probe_face", store, asked, face, max(0, VALUES * edge * edge + self.some(0, 0, 4, -1)))
            for _ in range(6):
                call("knot_probe_pixel", store, asked, self.chance.randrange(6), self.chance.randrange(4 * edge + self.now_and_then(0.1)), self.chance.randrange(4 * edge + self.now_and_then(0.1)))
            call("knot_probe_pixel", store, asked, 1 << 31, 0, 0)
            _, (table,) = call("knot_probe_open", store, asked, 1536 + self.some(0, 0, 0, 4, -1))
            if self.now_and_then(0.3):
                table = struct.pack("<1536H", *(self.some(0, self.chance.randrange(len(records) + 3), 65535) for _ in range(1536)))
            for _ in range(6):
                call("knot_probe_pixel_in", store, table, asked, self.chance.randrange(6), self.chance.randrange(4 * edge + self.now_and_then(0.1)), self.chance.randrange(4 * edge + self.now_and_then(0.1)))
            call("knot_probe_edge", store)
            blocks = b"".join(self.bc6() for _ in range(6 * edge * edge)) + b"x" * self.now_and_then(0.1)
            room = max(0, PLACED * 6 * edge * edge + self.some(0, 0, 0, 4, -1))
            call("knot_probe_build", blocks, self.some(0, 0, 1, 1, 2), asked, self.chance.getrandbits(32), room)
            self.over_placed(store)

    def files(self):
        call = self.call
        call.open("files")
        for _ in self.times(700):
            wide, high = self.some((1, 1), (4, 4), (5, 3), (self.chance.randrange(1, 50), self.chance.randrange(1, 50)), (4 * self.chance.randrange(1, 12), 4 * self.chance.randrange(1, 12)), (0, 4), (4, 0), (4097, 1))
            count = -(-wide // 4) * -(-high // 4) if wide <= 4096 else 0
            data, form = b"".join(self.bc6() for _ in range(count)) + b"x" * self.now_and_then(0.05), self.some(0, 1, 0, 1, 2)
            word, outs = call("knot_dds_write", data, form, wide, high, max(0, 148 + len(data) + self.some(0, 0, 5, -1)))
            file = outs[0][:word >> 8] if not word & 255 else self.chance.randbytes(self.some(0, 10, 148, 164))
            for _ in range(3):
                for name in ("knot_dds_head", *(f"knot_{which}" for which in ("dds_read", "dds_blocks", "bc7_dds_read", "bc7_dds_blocks", "dds_first_level", "dds_first_blocks", "bc7_dds_first_level", "bc7_dds_first_blocks"))):
                    call(name, file)
                if file:
                    changed = bytearray(file)
                    changed[self.chance.randrange(min(148, len(file)))] = self.some(0, 1, 2, 4, 95, 96, 98, 255)
                    file = bytes(changed) if self.now_and_then(0.8) else file[:-1]
            length, _ = call("knot_pfm_length", wide, high)
            call("knot_pfm_length", self.chance.getrandbits(32), 4)
            call("knot_pfm_write", data, form, wide, high, max(0, (length or 40) + self.some(0, 0, 5, -1)))
            length, _ = call("knot_exr_length", wide, high)
            call("knot_exr_length", self.chance.getrandbits(32), 4)
            call("knot_exr_write", data, form, wide, high, max(0, (length or 40) + self.some(0, 0, 5, -1)))
        # a picture of a thousand pixels a side, whose result grows the memory
        data = b"".join(self.bc6() for _ in range(1024)) * 64
        call("knot_face_rgba", data, 256, 256, 1, 4096 * 1024, 4096)
        call("knot_pfm_write", data, 0, 1024, 1024, 12_582_912 + 40)

    def everything(self):
        """Every call of the header, those that no group above knows too, over input by the names of its parameters and over what calls left before."""
        call = self.call
        call.open("everything")
        left = [b""]
        for _ in self.times(60):
            store, probe = self.store(self.chance.randrange(20), self.some(0, 0.2)), b"".join(self.probe(self.some(1, 2)))
            inputs = {
                "block": [self.bc6(), self.bc7()], "numbers": [struct.pack("<32H", 0, 11, *[0] * 30)], "blocks": [self.bc6() * self.chance.randrange(9)],
                "store": [store, probe], "old": [store], "table": [struct.pack("<1536H", *range(1536))], "file": [(ROOT / "samples/five.dds").read_bytes()],
            }
            for name, described in call.calls.items():
                given = []
                for kind, what in (one.split() for one in described["takes"]):
                    if kind.startswith("in"):
                        data = self.chance.choice(inputs[what] if what in inputs and self.now_and_then(0.8) else left)
                        given.append(data[:len(data) - len(data) % (int(kind[2:]) // 8)])
                    elif kind.startswith("out"):
                        given.append(self.some(0, 16, 48, 64, 480, 1000, 4000))
                    elif kind in PACKED:
                        given.append(self.some(0, 0, 1, 1, 2, 3, 4, 8, 12, 255))
                _, outs = call(name, *given)
                left = [b"", *left[-40:], *outs]

    def write(self):
        for group in (self.blocks, self.refusals, self.huge, self.runs, self.faces, self.stores, self.placed, self.probes, self.files, self.everything):
            # the pool of blocks is made by calls, which need a file
            group()
        self.call.close()
        folder = self.call.folder
        index = {"calls": [[name, *call["takes"]] for name, call in self.call.calls.items()], "files": sorted(path.stem for path in folder.glob("*.bin")), "total": sum(self.call.counts.values())}
        (folder / "index.json").write_text(json.dumps(index))
        return self.call.counts


def main(folder, scale, seed):
    path = pathlib.Path(folder)
    path.mkdir(parents=True, exist_ok=True)
    counts = Vectors(path, float(scale), int(seed)).write()
    print(f"{sum(counts.values()):,} native calls of {len(counts)}, the least {min(counts.values()):,}")


main(*sys.argv[1:])
