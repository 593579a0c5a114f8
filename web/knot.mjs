/**
 * BC6H and BC7 blocks, stores of tiles, probes, DDS files, Portable Float Maps and OpenEXR files, by the calls of Knotpasture's WebAssembly module.
 *
 * The calls are proved to do what include/knotpasture.h says, up to the module that the Rattle kit hands to its compiler. How WebAssembly is made of
 * that module was compared by running. This file is not proved: it copies bytes in, copies results out, and takes answers apart.
 *
 * Input is a Uint8Array or an ArrayBuffer. A format is `signed`: false or true, or the format number of a file. Values are half-float patterns in a
 * Uint16Array; `floats` turns them into numbers, exactly. Input of another kind throws TypeError and a number out of range RangeError, before the
 * module is called; what the library refuses throws `Refused`.
 */
import {
  BAD, BC7_BYTES, BLOCK_SIZE, CALLS, DDS_HEADER, EDGE_LIMIT, FACES, FIELDS, NO_FACE, PARTS, PLACED_SIZE, PLACED_STORE_LIMIT, PROBE_TABLE,
  RECORD_SIZE, SCRATCH_VALUES, STORE_LIMIT, VALUES, WORDS,
} from "./calls.mjs";

const PAGE = 65536;
// Lent places start at multiples of this, above the module's own data.
const ALIGNED = 64;
// A memory never shrinks: an instance whose memory is larger than this is thrown away after the call.
const KEPT_MEMORY = 64 << 20;
const MOST_MEMORY = 0xFFFF0000;
// How many blocks `modes` copies in at once.
const MODES_AT_ONCE = 65536;
const ARRAYS = { 8: Uint8Array, 16: Uint16Array, 32: Uint32Array, 64: BigUint64Array };
// The bytes of a receipt for each removed record.
const ENTRY_SIZE = 8;
// The answers of a probe's check and of the two moves that name a record.
const BAD_PLACE = 17, NAMES_RECORD = new Set([1, 7, 17, 18, 20, 21, 22]);

/** The library did nothing. `number` is one of the header's, `words` what it means, `record` the record that is why, or null. */
export class Refused extends Error {
  constructor(number, record = null) {
    const words = WORDS[number] ?? "a number that this version does not know";
    super(`refused, ${number}: ${words}${record === null ? "" : `: record ${record}`}`);
    Object.assign(this, { name: "Refused", number, words, record });
  }
}

// ---- what is handed over

function bytesOf(given, what) {
  if (given instanceof ArrayBuffer) return new Uint8Array(given);
  if (given instanceof Uint8Array || given instanceof Uint8ClampedArray) return given;
  throw new TypeError(`${what}: a Uint8Array is wanted`);
}

// A whole number of so many bits: WebAssembly would cut off what is above.
function numberOf(given, what, bits) {
  const value = typeof given === "boolean" ? Number(given) : given;
  if (typeof value !== "number" && typeof value !== "bigint") throw new TypeError(`${what}: a whole number is wanted`);
  if (typeof value === "number" && !Number.isSafeInteger(value)) throw new RangeError(`${what}: ${value} is not a whole number`);
  if (value < 0 || BigInt(value) >> BigInt(bits)) throw new RangeError(`${what}: ${value} is not 0 to ${(1n << BigInt(bits)) - 1n}`);
  return bits === 64 ? BigInt(value) : Number(value);
}

// A part of an answer's word, by the name of the header's macro.
function part(word, name) {
  const [low, bits] = PARTS[name];
  return Number(word >> BigInt(low) & (1n << BigInt(bits)) - 1n);
}

// Throws a refusal; `names` is the part of the word that has the record which is why.
function done(word, names = null) {
  return doneWithRecord(word, names && PARTS[names] ? part(word, names) : null);
}

function doneWithRecord(word, record) {
  const answer = part(word, "ANSWER");
  if (answer) throw new Refused(answer, NAMES_RECORD.has(answer) ? record : null);
  return word;
}

// Red, green and blue of a pixel's word.
function triple(word) {
  return Uint16Array.of(part(word, "RED"), part(word, "GREEN"), part(word, "BLUE"));
}

// Of each call: kind, bits and name of each parameter.
const PARAMETERS = Object.fromEntries(Object.entries(CALLS).map(([name, { takes }]) => [name, takes.map((one) => {
  const [, kind, bits, what] = /^([a-z]+)(\d+) (\w+)$/.exec(one);
  return { kind, bits: Number(bits), what };
})]));

// ---- half-floats

/** The number of a half-float pattern, exact. */
export function half(pattern) {
  const sign = pattern & 0x8000 ? -1 : 1, exponent = pattern >> 10 & 31, digits = pattern & 1023;
  if (exponent === 31) return digits ? NaN : sign * Infinity;
  return exponent ? sign * (1024 + digits) * 2 ** (exponent - 25) : sign * digits * 2 ** -24;
}

let table = null;

/** The numbers of patterns, each exact. */
export function floats(patterns) {
  table ??= Float32Array.from({ length: 65536 }, (_, pattern) => half(pattern));
  return Float32Array.from(patterns, (pattern) => table[pattern]);
}

/** The calls over a compiled module. It has no state that a caller sees: calls do not depend on those before them. */
export class Knotpasture {
  #module;
  #calls = null;
  #start = 0;
  #memory = null;

  constructor(module) {
    if (WebAssembly.Module.imports(module).length) throw new TypeError("the module wants imports: it is not Knotpasture's");
    this.#module = module;
  }

  // An instance; a new one where the last was thrown away.
  #instance() {
    if (!this.#calls) {
      this.#calls = new WebAssembly.Instance(this.#module, {}).exports;
      this.#start = Math.ceil(this.#calls.__heap_base.value / ALIGNED) * ALIGNED;
      this.#memory = new Uint8Array(this.#calls.memory.buffer);
    }
    return this.#calls;
  }

  #throwAway() {
    this.#calls = this.#memory = null;
  }

  // Memory of at least so many bytes.
  #reach(end) {
    const short = end - this.#memory.length;
    if (short > 0) {
      this.#calls.memory.grow(Math.ceil(short / PAGE));
      this.#memory = new Uint8Array(this.#calls.memory.buffer);
    }
    return this.#memory;
  }

  // One call. `given` has by the parameter's name: an array for input, how many elements for room, a number; slots are made here. Answers the
  // word, and by its name what each room and each slot then holds.
  #call(name, given) {
    const calls = this.#instance(), words = [], inputs = [], results = [];
    if (!calls[name] || !PARAMETERS[name]) throw new Error(`the module has no ${name}: it is of another version than this package`);
    let end = this.#start;
    const lay = (size) => {
      const at = end;
      end = Math.ceil((at + size) / ALIGNED) * ALIGNED;
      if (end > MOST_MEMORY) throw new RangeError(`${name}: input and result have more than 4 GiB`);
      return at;
    };
    for (const { kind, bits, what } of PARAMETERS[name]) {
      const value = given[what];
      if (kind === "in") {
        inputs.push([lay(value.byteLength), value]);
        words.push(inputs.at(-1)[0], BigInt(value.length));
      } else if (kind === "out") {
        results.push({ what, bits, at: lay(value * bits / 8), count: value });
        words.push(results.at(-1).at, BigInt(value));
      } else if (kind === "slot") {
        results.push({ what, bits, at: lay(8), count: 1, slot: true });
        words.push(results.at(-1).at);
      } else {
        words.push(numberOf(value, what, bits));
      }
    }
    const memory = this.#reach(end);
    for (const [at, value] of inputs) memory.set(new Uint8Array(value.buffer, value.byteOffset, value.byteLength), at);
    for (const { at, slot } of results) if (slot) memory.fill(0, at, at + 8);
    let answer;
    try {
      answer = calls[name](...words);
    } catch (error) {
      // a trap leaves the stack where it was
      this.#throwAway();
      throw error;
    }
    // WebAssembly's numbers have signs, the header's have none
    const left = { word: typeof answer === "bigint" ? BigInt.asUintN(64, answer) : BigInt(answer >>> 0) };
    for (const { what, bits, at, count, slot } of results) {
      const there = new ARRAYS[bits](memory.buffer.slice(at, at + count * bits / 8));
      left[what] = slot ? Number(there[0]) : there;
    }
    if (memory.length > KEPT_MEMORY) this.#throwAway();
    return left;
  }

  // ---- blocks

  /** The values of a run of BC6H blocks, 48 patterns a block, and how many are minus infinity. Refusals: 1, 9. */
  decodeCounted(blocks, signed) {
    const given = bytesOf(blocks, "blocks");
    const { word, out, infinite } = this.#call("knot_blocks_pixels", { blocks: given, format: signed, out: Math.floor(given.length / BLOCK_SIZE) * VALUES });
    done(word);
    return { values: out, infinite };
  }

  /** The values of a run of BC6H blocks, 48 patterns a block: pixel 0 red, green, blue, then pixel 1. Refusals: 1, 9. */
  decode(blocks, signed) {
    return this.decodeCounted(blocks, signed).values;
  }

  /** What one BC6H block shows, with its mode, 0 where that is reserved. Refusals: 1, 2. */
  show(block, signed) {
    const { word, out } = this.#call("knot_block_pixels", { block: bytesOf(block, "block"), format: signed, out: VALUES });
    done(word);
    return { values: out, mode: part(word, "MODE"), infinite: part(word, "INFINITIES") };
  }

  /** The mode of each BC6H block of a run, 0 where that is reserved: what `show` tells, block by block. Refusals: 1, 9. */
  modes(blocks, signed) {
    const form = numberOf(signed, "signed", 8);
    if (form > 1) throw new Refused(1);
    return this.#modes(blocks, (calls, at, out) => calls.knot_block_pixels(at, 16n, form, out, 48n));
  }

  /** The mode of each BC7 block of a run, BC7_RESERVED where that is reserved. Refusals: 9. */
  modesBc7(blocks) {
    return this.#modes(blocks, (calls, at, out) => calls.knot_bc7_pixels(at, 16n, out, 64n));
  }

  // A call for each block, over blocks that are copied in many at once.
  #modes(blocks, ask) {
    const given = bytesOf(blocks, "blocks");
    if (given.length % BLOCK_SIZE) throw new Refused(9);
    const found = new Uint8Array(given.length / BLOCK_SIZE), calls = this.#instance(), out = this.#start, first = out + 2 * ALIGNED;
    for (let from = 0; from < found.length; from += MODES_AT_ONCE) {
      const count = Math.min(MODES_AT_ONCE, found.length - from);
      this.#reach(first + BLOCK_SIZE * count).set(given.subarray(BLOCK_SIZE * from, BLOCK_SIZE * (from + count)), first);
      for (let n = 0; n < count; n++) found[from + n] = ask(calls, first + BLOCK_SIZE * n, out) >> 8 & 255;
    }
    return found;
  }

  /** The 32 numbers of a block's fields in the header's order. Refusals: 1, 2, 4. */
  fieldNumbers(block, signed) {
    const { word, numbers } = this.#call("knot_block_fields", { block: bytesOf(block, "block"), format: signed, numbers: FIELDS });
    done(word);
    return numbers;
  }

  /** The fields of a block, as stored. Refusals: 1, 2, 4. */
  fields(block, signed) {
    const n = [...this.fieldNumbers(block, signed)];
    return { format: n[0], mode: n[1], endpoints: [2, 5, 8, 11].map((at) => n.slice(at, at + 3)), partition: n[14], inRegion1: n[15], indices: n.slice(16) };
  }

  #numbersOf(record) {
    if (record instanceof Uint16Array) return record;
    const flat = [record.format, record.mode, ...record.endpoints.flat(), record.partition, record.inRegion1, ...record.indices];
    return Uint16Array.from(flat, (value) => numberOf(value, "a field", 16));
  }

  /** The block of a field record. Refusals: 1, 10. */
  write(record) {
    const { word, out } = this.#call("knot_write_block", { numbers: this.#numbersOf(record), out: BLOCK_SIZE });
    done(word);
    return out;
  }

  /** What a field record shows, without a block written first. Refusals: 1, 10. */
  showFields(record) {
    const { word, out } = this.#call("knot_fields_pixels", { numbers: this.#numbersOf(record), out: VALUES });
    done(word);
    return out;
  }

  /** Whether a block by itself meets the premises of the copies theorem. False for any other length or format. */
  trusted(block, signed) {
    return this.#call("knot_is_trusted", { block: bytesOf(block, "block"), format: signed }).word === 1n;
  }

  // ---- faces

  #face(name, channels, blocks, width, height, signed) {
    const given = bytesOf(blocks, "blocks"), wide = numberOf(width, "width", 64), high = numberOf(height, "height", 64);
    // of a size that is refused no room is made
    const fits = BigInt(given.length) === 16n * wide * high, row = fits ? 4 * channels * Number(wide) : 0;
    const { word, out, infinite } = this.#call(name, { blocks: given, width: wide, height: high, format: signed, out: fits ? 4 * Number(high) * row : 0, pitch: row });
    done(word);
    return { values: out, infinite };
  }

  /** `face`, and how many of the values are minus infinity. Refusals: 1, 15. */
  faceCounted(blocks, width, height, signed) {
    return this.#face("knot_face_pixels", 3, blocks, width, height, signed);
  }

  /** A face of width by height blocks in row order as rows of pixels, three patterns a pixel, row 0 on top. Refusals: 1, 15. */
  face(blocks, width, height, signed) {
    return this.faceCounted(blocks, width, height, signed).values;
  }

  /** `face` with a fourth value a pixel, alpha, 1.0 everywhere. Refusals: 1, 15. */
  faceRgba(blocks, width, height, signed) {
    return this.#face("knot_face_rgba", 4, blocks, width, height, signed).values;
  }

  // ---- BC7

  /** The pixels of a run of BC7 blocks, 64 bytes a block: red, green, blue, alpha. Refusals: 9. */
  decodeBc7(blocks) {
    const given = bytesOf(blocks, "blocks"), { word, out } = this.#call("knot_bc7_blocks_pixels", { blocks: given, out: Math.floor(given.length / BLOCK_SIZE) * BC7_BYTES });
    done(word);
    return out;
  }

  /** What one BC7 block shows, with its mode, BC7_RESERVED where that is reserved. Refusals: 2. */
  showBc7(block) {
    const { word, out } = this.#call("knot_bc7_pixels", { block: bytesOf(block, "block"), out: BC7_BYTES });
    done(word);
    return { values: out, mode: part(word, "MODE") };
  }

  // ---- the store

  /** Record n of a store of 24-byte records; its block is a part of the store. Refusals: 5, 6, 8, 1, 7. */
  record(store, n) {
    const given = bytesOf(store, "store"), word = done(this.#call("knot_record_at", { store: given, n }).word);
    const start = Number(this.#call("knot_record_block", { store: given, n }).word);
    return { tile: part(word, "TILE"), format: part(word, "FORMAT"), block: given.subarray(start, start + BLOCK_SIZE) };
  }

  /** The tile number of record n, whatever else the record holds, and 0 where there is no such record. */
  tile(store, n) {
    return Number(this.#call("knot_tile_at", { store: bytesOf(store, "store"), n }).word);
  }

  #listed(name, store) {
    const given = bytesOf(store, "store"), count = Math.floor(Math.min(given.length, STORE_LIMIT) / RECORD_SIZE);
    const { word, marks, scratch } = this.#call(name, { store: given, marks: count, scratch: count * SCRATCH_VALUES });
    done(word);
    return { list: { marks, kept: part(word, "KEPT_COUNT"), twins: part(word, "TWIN_COUNT"), bad: part(word, "BAD_COUNT") }, scratch };
  }

  /** A mark for each record of a store, KEPT, TWIN or BAD, and how many have each. Refusals: 5, 6. */
  twins(store) {
    return this.#listed("knot_twin_list", store).list;
  }

  /** `twins`, and the 48 values of each record, zeros for one that is refused. Refusals: 5, 6. */
  twinsShown(store) {
    const { list, scratch } = this.#listed("knot_twin_list_in", store), values = scratch.subarray(list.marks.length);
    // what stands there for a refused record is not the call's
    list.marks.forEach((mark, n) => { if (mark === BAD) values.fill(0, VALUES * n, VALUES * (n + 1)); });
    return { ...list, values };
  }

  /** `twins` of a store in which no record is damaged. Refusals: 5, 6, 12, which names the first damaged record. */
  strictTwins(store) {
    const damaged = this.firstDamaged(store);
    if (damaged !== null) throw new Refused(12, damaged);
    return this.#listed("knot_strict_twin_list", store).list;
  }

  /** The first record that is not refused and has a reserved mode; null where there is none. */
  firstDamaged(store) {
    const given = bytesOf(store, "store"), found = Number(this.#call("knot_first_damaged", { store: given }).word);
    return found === Math.floor(given.length / RECORD_SIZE) ? null : found;
  }

  /** A store without its copies, and how many records stay and are removed. Refusals: 5, 6. */
  clean(store) {
    const given = bytesOf(store, "store"), { word, out } = this.#call("knot_clean_store", { store: given, out: Math.min(given.length, STORE_LIMIT) });
    done(word);
    const stay = part(word, "STAY_COUNT");
    return { store: out.subarray(0, stay * RECORD_SIZE), stay, removed: part(word, "REMOVED_COUNT") };
  }

  /** `clean`, and a receipt by which `restoreStore` undoes it: 8 bytes for each removed record, its number, that of the record that stays, its tile. Refusals: 5, 6. */
  cleanWithReceipt(store) {
    const given = bytesOf(store, "store"), room = Math.min(given.length, STORE_LIMIT);
    const { word, out, receipt } = this.#call("knot_clean_with_receipt", { store: given, out: room, receipt: Math.floor(room / RECORD_SIZE) * ENTRY_SIZE });
    done(word);
    const stay = part(word, "STAY_COUNT"), removed = part(word, "REMOVED_COUNT");
    return { store: out.subarray(0, stay * RECORD_SIZE), stay, removed, receipt: receipt.subarray(0, removed * ENTRY_SIZE) };
  }

  /** The store as it was before `cleanWithReceipt` wrote these two. Refusals: 5, 6, 25. */
  restoreStore(cleaned, receipt) {
    const given = bytesOf(cleaned, "cleaned"), entries = bytesOf(receipt, "receipt"), records = Math.floor(given.length / RECORD_SIZE) + Math.floor(entries.length / ENTRY_SIZE);
    const { word, out } = this.#call("knot_restore_store", { cleaned: given, receipt: entries, out: Math.min(records * RECORD_SIZE, STORE_LIMIT) });
    done(word);
    return out.subarray(0, part(word, "RESTORED") * RECORD_SIZE);
  }

  /** The record that stays for record n where `clean` removes that; n where it stays, and where there is no such record. */
  firstOf(store, n) {
    return Number(this.#call("knot_first_of", { store: bytesOf(store, "store"), n }).word);
  }

  /** The first earlier record that record n is a twin of; n where it is no twin, is refused, or is not there. */
  firstTwin(store, n) {
    return Number(this.#call("knot_first_twin", { store: bytesOf(store, "store"), n }).word);
  }

  /** Whether the copies theorem covers two records of a store: twins that are covered are copies of each other. */
  covered(store, n, earlier) {
    return this.#call("knot_is_covered", { store: bytesOf(store, "store"), n, earlier }).word === 1n;
  }

  // ---- records with a place, and the probe

  /** Record n of a store of records with a place; its face is null where it is not placed. Refusals: 5, 6, 8, 1, 7, 17. */
  placedRecord(store, n) {
    const given = bytesOf(store, "store"), { word, column, row } = this.#call("knot_placed_record_at", { store: given, n });
    done(word);
    const start = Number(this.#call("knot_placed_record_block", { store: given, n }).word), face = part(word, "FACE");
    return { tile: part(word, "TILE"), format: part(word, "FORMAT"), face: face < FACES ? face : null, column, row, block: given.subarray(start, start + BLOCK_SIZE) };
  }

  #moved(name, what, store, limit, size, newSize) {
    const given = bytesOf(store, "store"), { word, out } = this.#call(name, { [what]: given, out: Math.floor(Math.min(given.length, limit) / size) * newSize });
    done(word, "UNMOVED_RECORD");
    return out.subarray(0, part(word, "MOVED") * newSize);
  }

  /** A store of 24-byte records as one of records with a place, none of them placed. Refusals: 5, 6; with the first faulty record 1, 7. */
  place(store) {
    return this.#moved("knot_place_store", "old", store, STORE_LIMIT, RECORD_SIZE, PLACED_SIZE);
  }

  /** The way back, for a store in which no record is placed. Refusals: 5, 6; with the first faulty record 1, 7, 17, 18. */
  unplace(store) {
    return this.#moved("knot_unplace_store", "store", store, PLACED_STORE_LIMIT, PLACED_SIZE, RECORD_SIZE);
  }

  /** The store with the place of record n set, or taken away where face is null. Refusals: 5, 6, 8; with record n 1, 7; 17, of the place that is given. */
  putPlace(store, n, face, column = 0, row = 0) {
    const given = bytesOf(store, "store"), room = Math.min(given.length, PLACED_STORE_LIMIT);
    const { word, out } = this.#call("knot_put_place", { store: given, n, face: face === null ? NO_FACE : face, column, row, out: room });
    if (part(word, "ANSWER") === BAD_PLACE) throw new Refused(BAD_PLACE);
    done(word, "UNMOVED_RECORD");
    return out;
  }

  /** Returns where a store is a probe of the edge. Refusals: 19, 5, 6; with the first faulty record 1, 7, 17, 20, 21, 22; 23. */
  probeCheck(store, edge) {
    done(this.#call("knot_probe_check", { store: bytesOf(store, "store"), edge }).word, "FAULTY_RECORD");
  }

  /** Red, green and blue of a pixel of a probe. Refusals: those of `probeCheck`, with its record, then 24. */
  probePixel(store, edge, face, x, y) {
    const { word, faulty } = this.#call("knot_probe_pixel", { store: bytesOf(store, "store"), edge, face, x, y });
    doneWithRecord(word, faulty);
    return triple(word);
  }

  /** Checks a probe once: a table by which `probePixelIn` asks for its pixels. Refusals: those of `probeCheck`, with its record. */
  probeOpen(store, edge) {
    const { word, table } = this.#call("knot_probe_open", { store: bytesOf(store, "store"), edge, table: PROBE_TABLE });
    done(word, "FAULTY_RECORD");
    return table;
  }

  /** What `probePixel` answers, by the table that `probeOpen` of the same store and edge gave. Refusals: 19, 24, 3, 23, 8, 1. */
  probePixelIn(store, table, edge, face, x, y) {
    if (!(table instanceof Uint16Array)) throw new TypeError("table: a Uint16Array is wanted, as probeOpen gives it");
    const { word } = this.#call("knot_probe_pixel_in", { store: bytesOf(store, "store"), table, edge, face, x, y });
    doneWithRecord(word, null);
    return triple(word);
  }

  /** A whole face of a probe, three patterns a pixel, row 0 on top. Refusals: those of `probeCheck`, without the record, then 24. */
  probeFace(store, edge, face) {
    const side = 4 * Math.min(numberOf(edge, "edge", 32), EDGE_LIMIT);
    const { word, out } = this.#call("knot_probe_face", { store: bytesOf(store, "store"), edge, face, out: 3 * side * side });
    done(word);
    return out;
  }

  /** The edge of a probe by its store's length; 0 where no edge has that length. */
  probeEdge(store) {
    return Number(this.#call("knot_probe_edge", { store: bytesOf(store, "store") }).word);
  }

  /** A probe of the blocks of its six faces, face by face and row by row; record n has the tile number firstTile + n. Refusals: 19, 1, 15. */
  probeBuild(blocks, signed, edge, firstTile = 0) {
    const side = Math.min(numberOf(edge, "edge", 32), EDGE_LIMIT);
    const { word, out, records } = this.#call("knot_probe_build", { blocks: bytesOf(blocks, "blocks"), format: signed, edge, first_tile: firstTile, out: 6 * side * side * PLACED_SIZE });
    done(word);
    return out.subarray(0, records * PLACED_SIZE);
  }

  // ---- files

  /** Width, height and format from the first 148 bytes of a DDS file. Refusals: 13, 14. */
  ddsHead(head) {
    const word = done(this.#call("knot_dds_head", { file: bytesOf(head, "head") }).word);
    return { width: part(word, "DDS_WIDTH"), height: part(word, "DDS_HEIGHT"), format: part(word, "DDS_FORMAT") };
  }

  /** Size, format and blocks of a whole DDS file; the blocks are a part of it. Refusals: 13, 14, 15. */
  ddsRead(file) {
    return this.#dds("knot_dds_read", "knot_dds_blocks", file);
  }

  /** Size, format and blocks of a whole DDS file of BC7 blocks: format 0 is DXGI's 98, 1 is 99, sRGB. Refusals: 13, 14, 15. */
  bc7DdsRead(file) {
    return this.#dds("knot_bc7_dds_read", "knot_bc7_dds_blocks", file);
  }

  /** Size, format and blocks of the largest level of a DDS file with 1 to 13 mip levels. Refusals: 13, 14, 15. */
  ddsFirstLevel(file) {
    return this.#dds("knot_dds_first_level", "knot_dds_first_blocks", file);
  }

  /** `ddsFirstLevel` of BC7 blocks, with the formats of `bc7DdsRead`. Refusals: 13, 14, 15. */
  bc7DdsFirstLevel(file) {
    return this.#dds("knot_bc7_dds_first_level", "knot_bc7_dds_first_blocks", file);
  }

  #dds(reading, starting, file) {
    const given = bytesOf(file, "file"), word = done(this.#call(reading, { file: given }).word), start = Number(this.#call(starting, { file: given }).word);
    const width = part(word, "DDS_WIDTH"), height = part(word, "DDS_HEIGHT"), bytes = Math.ceil(width / 4) * Math.ceil(height / 4) * BLOCK_SIZE;
    return { width, height, format: part(word, "DDS_FORMAT"), blocks: given.subarray(start, start + bytes) };
  }

  #file(name, blocks, signed, width, height, room) {
    const { word, out } = this.#call(name, { blocks: bytesOf(blocks, "blocks"), format: signed, width, height, out: room });
    done(word);
    return out.subarray(0, part(word, "FILE_LENGTH"));
  }

  /** A DDS file of blocks in row order. Refusals: 1, 14, 15. */
  ddsWrite(blocks, signed, width, height) {
    return this.#file("knot_dds_write", blocks, signed, width, height, DDS_HEADER + bytesOf(blocks, "blocks").length);
  }

  /** The bytes of the Portable Float Map of a picture; 0 for a size that is refused. */
  pfmLength(width, height) {
    return Number(this.#call("knot_pfm_length", { width, height }).word);
  }

  /** A Portable Float Map of blocks in row order, each value exactly its half-float. Refusals: 1, 16, 15. */
  pfmWrite(blocks, signed, width, height) {
    return this.#file("knot_pfm_write", blocks, signed, width, height, this.pfmLength(width, height));
  }

  /** The bytes of the OpenEXR file of a picture; 0 for a size that is refused. */
  exrLength(width, height) {
    return Number(this.#call("knot_exr_length", { width, height }).word);
  }

  /** An OpenEXR file of blocks in row order, each half-float as it is. Refusals: 1, 16, 15. */
  exrWrite(blocks, signed, width, height) {
    return this.#file("knot_exr_write", blocks, signed, width, height, this.exrLength(width, height));
  }
}

const STANDARD_INPUT = 0, STANDARD_OUTPUT = 1, STANDARD_ERROR = 2;
const FAILED = -1n, MISSING = -1n, TOO_LONG = -2n;

function joined(pieces) {
  const all = new Uint8Array(pieces.reduce((sum, one) => sum + one.length, 0));
  pieces.reduce((end, one) => (all.set(one, end), end + one.length), 0);
  return all;
}

/** A proved program that reads standard input and writes standard output and standard error: what C's read and write are to it stands here. */
export class Program {
  #module;

  constructor(module) {
    this.#module = module;
  }

  /** Runs it over the input, with the words of a command line: what it writes to standard output, `out`, and to standard error, `told`. */
  run(input, words = []) {
    const given = bytesOf(input, "input"), written = { [STANDARD_OUTPUT]: [], [STANDARD_ERROR]: [] };
    const line = ["program", ...words].map((word) => new TextEncoder().encode(word));
    let at = 0, memory = null;
    const bytes = () => new Uint8Array(memory.buffer), unsigned = (number) => Number(BigInt.asUintN(64, number));
    const { exports } = new WebAssembly.Instance(this.#module, { env: {
      read: (file, to, room) => {
        if (file !== STANDARD_INPUT) return FAILED;
        const piece = given.subarray(at, at + unsigned(room));
        bytes().set(piece, to);
        at += piece.length;
        return BigInt(piece.length);
      },
      write: (file, from, size) => {
        if (!written[file]) return FAILED;
        written[file].push(bytes().slice(from, from + unsigned(size)));
        return size;
      },
      rattle_arg: (n, to, room) => {
        const word = line[unsigned(n)];
        if (!word) return MISSING;
        bytes().set(word.subarray(0, unsigned(room)), to);
        return word.length <= unsigned(room) ? BigInt(word.length) : TOO_LONG;
      },
    } });
    memory = exports.memory;
    const status = exports.main();
    if (status) throw new Error(`the program ended with status ${status}`);
    return { out: joined(written[STANDARD_OUTPUT]), told: new TextDecoder().decode(joined(written[STANDARD_ERROR])) };
  }

  /** What it writes to standard output, as text. */
  text(input, words = []) {
    return new TextDecoder().decode(this.run(input, words).out);
  }
}
