// The package's functions, in node: node tests/wasm/wrapper.mjs PACKAGE ROOT
// Its calls are the header's and each has a function; its names are the Python package's; what functions give back fits what others do and what samples hold;
// what the library refuses, and what must not reach it; an instance that trapped or grew is thrown away.
import assert from "node:assert/strict";
import { readFileSync, readdirSync } from "node:fs";
import { pathToFileURL } from "node:url";

const [folder, root] = process.argv.slice(2), packaged = await import(pathToFileURL(`${folder}/knotpasture.mjs`));
const { load, loadProgram, Refused, Knotpasture, floats, half, CALLS, WORDS } = packaged;
const knot = await load(), sample = (name) => new Uint8Array(readFileSync(`${root}/samples/${name}`)), text = (path) => readFileSync(`${root}/${path}`, "utf8");
const same = (a, b, what) => assert.deepEqual(Buffer.from(a.buffer, a.byteOffset, a.byteLength), Buffer.from(b.buffer, b.byteOffset, b.byteLength), what);
const wrong = [];
let checks = 0;

function check(what, run) {
  checks++;
  try { run(); } catch (error) { wrong.push(`${what}: ${error.message.split("\n")[0]}`); }
}
function refused(number, call, record = null) {
  check(`refusal ${number}`, () => assert.throws(call, (error) => error instanceof Refused && error.number === number && error.record === record && error.words === WORDS[number] && error.message.startsWith(`refused, ${number}: `)));
}
const throws = (kind, call) => check(kind.name, () => assert.throws(call, (error) => error.constructor === kind));

// ---- beside the header and the Python package

const source = text("web/knot.mjs");
for (const name of Object.keys(CALLS)) check("wrappers", () => assert.ok(source.includes(`"${name}"`), `the header's ${name} has no function in web/knot.mjs: write one`));
for (const [, name] of source.matchAll(/part\(word, "(\w+)"\)/g)) if (name !== "RESTORED" || "knot_restore_store" in CALLS) check("parts", () => assert.ok(name in packaged.PARTS, `web/knot.mjs takes ${name} out of a word, which is no macro of the header`));
const camel = (name) => name.replace(/_([a-z0-9])/g, (_, letter) => letter.toUpperCase());
for (const [, name] of text("python/knotpasture/__init__.py").matchAll(/^def ([a-z]\w*)\(/gm)) {
  check("names", () => assert.equal(typeof Knotpasture.prototype[camel(name)], "function", `Python's ${name} has no function ${camel(name)} here`));
}
const types = text("web/knot.d.mts");
for (const name of Object.getOwnPropertyNames(Knotpasture.prototype)) if (name !== "constructor") check("types", () => assert.match(types, new RegExp(`^  /\\*\\*.*\\*/\\n  ${name}\\(`, "m"), `${name} is not in the types, or without a word`));
check("version", () => assert.equal(packaged.VERSION, JSON.parse(text("web/package.json")).version));
check("version", () => assert.equal(packaged.VERSION, text("VERSION").trim()));

// ---- blocks and faces

let seed = 42;
const chance = () => (seed = seed * 48271 % 2147483647) / 2147483647;
const bytes = (count) => Uint8Array.from({ length: count }, () => Math.floor(256 * chance()));
const MANY = 1024, SIDE = 32, blocks = bytes(16 * MANY), block = (n, of = blocks) => of.subarray(16 * n, 16 * n + 16);
for (const signed of [false, true]) {
  const { values, infinite } = knot.decodeCounted(blocks, signed), modes = knot.modes(blocks, signed), numbers = floats(values);
  same(knot.decode(blocks, signed), values, "decode");
  let counted = 0, several = 0;
  for (let n = 0; n < MANY; n++) {
    const shown = knot.show(block(n), signed);
    check("show", () => same(shown.values, values.subarray(48 * n, 48 * n + 48)));
    check("modes", () => assert.equal(shown.mode, modes[n]));
    counted += shown.infinite;
    if (!shown.mode) { refused(4, () => knot.fields(block(n), signed)); continue; }
    several++;
    const fields = knot.fields(block(n), signed);
    check("fields", () => same(knot.write(fields), block(n)));
    check("fields", () => same(knot.write(knot.fieldNumbers(block(n), signed)), block(n)));
    check("fields", () => same(knot.showFields(fields), shown.values));
  }
  check("infinite", () => assert.equal(counted, infinite));
  check("blocks of many kinds", () => assert.ok(several > MANY / 2 && several < MANY));
  const face = knot.faceCounted(blocks, SIDE, SIDE, signed), rgba = knot.faceRgba(blocks, SIDE, SIDE, signed), pfm = knot.pfmWrite(blocks, signed, 4 * SIDE, 4 * SIDE);
  check("face", () => { same(knot.face(blocks, SIDE, SIDE, signed), face.values); assert.equal(face.infinite, infinite); assert.equal(pfm.length, knot.pfmLength(4 * SIDE, 4 * SIDE)); });
  const view = new DataView(pfm.buffer, pfm.byteOffset), head = pfm.length - 12 * 16 * MANY;
  check("rows", () => {
    for (let y = 0; y < 4 * SIDE; y++) for (let x = 0; x < 4 * SIDE; x++) for (let c = 0; c < 3; c++) {
      const from = 48 * (SIDE * (y >> 2) + (x >> 2)) + 3 * (4 * (y & 3) + (x & 3)) + c, at = 4 * SIDE * y + x;
      assert.equal(face.values[3 * at + c], values[from]);
      assert.equal(rgba[4 * at + c], values[from]);
      assert.equal(rgba[4 * at + 3], packaged.OPAQUE);
      assert.ok(Object.is(view.getFloat32(head + 12 * (4 * SIDE * (4 * SIDE - 1 - y) + x) + 4 * c, true), numbers[from]));
      assert.ok(Object.is(half(values[from]), numbers[from]));
    }
  });
  const exr = knot.exrWrite(blocks, signed, 4 * SIDE, 4 * SIDE), lines = new DataView(exr.buffer, exr.byteOffset);
  check("exr", () => {
    assert.equal(exr.length, knot.exrLength(4 * SIDE, 4 * SIDE));
    for (let y = 0; y < 4 * SIDE; y++) for (let x = 0; x < 4 * SIDE; x++) for (let c = 0; c < 3; c++)
      assert.equal(lines.getUint16(Number(lines.getBigUint64(313 + 8 * y, true)) + 8 + 2 * ((2 - c) * 4 * SIDE + x), true), face.values[3 * (4 * SIDE * y + x) + c]);
  });
  const file = knot.ddsWrite(blocks, signed, 4 * SIDE, 4 * SIDE - 1), read = knot.ddsRead(file);
  check("dds", () => { same(read.blocks, blocks); assert.deepEqual([read.width, read.height, read.format], [4 * SIDE, 4 * SIDE - 1, Number(signed)]); });
  check("levels", () => {
    const four = knot.ddsWrite(blocks.subarray(0, 16), signed, 4, 4), two = Uint8Array.from([...four, ...blocks.subarray(16, 32)]);
    for (const [first, reading, single] of [[95, (one) => knot.ddsFirstLevel(one), (one) => knot.ddsRead(one)], [98, (one) => knot.bc7DdsFirstLevel(one), (one) => knot.bc7DdsRead(one)]]) {
      four[128] = two[128] = first + Number(signed);
      two[28] = 2;
      for (const { blocks: part, ...told } of [single(four), reading(four), reading(two)]) {
        same(part, blocks.subarray(0, 16));
        assert.deepEqual(told, { width: 4, height: 4, format: Number(signed) });
      }
      assert.throws(() => single(two), { number: 13 });
    }
  });
  check("dds head", () => assert.deepEqual(knot.ddsHead(file.subarray(0, 148)), { width: 4 * SIDE, height: 4 * SIDE - 1, format: Number(signed) }));
}
const sevens = knot.decodeBc7(blocks), sevenModes = knot.modesBc7(blocks);
for (let n = 0; n < MANY; n++) {
  const shown = knot.showBc7(block(n));
  check("bc7", () => { same(shown.values, sevens.subarray(64 * n, 64 * n + 64)); assert.equal(shown.mode, sevenModes[n]); });
}
check("a block by hand", () => assert.deepEqual([...knot.decode(Buffer.from("03000000F81F000000000000000000F0", "hex"), false)].slice(45), [0x7BFF, 0, 0]));
check("an ArrayBuffer", () => same(knot.decode(blocks.slice().buffer, false), knot.decode(blocks, false)));
check("a part of a buffer", () => same(knot.decode(block(7), false), knot.decode(block(7).slice(), false)));

// ---- the store

const covered = sample("covered.store"), placed = sample("placed.places"), small = sample("small.probe");
check("twins", () => { const { marks, ...counts } = knot.twins(covered); assert.deepEqual(counts, { kept: 5, twins: 7, bad: 0 }); assert.deepEqual(knot.strictTwins(covered).marks, marks); assert.deepEqual(knot.twinsShown(covered).marks, marks); });
for (const name of ["covered.store", "refused.store", "apart.store"]) {
  const store = sample(name), { values, marks } = knot.twinsShown(store);
  marks.forEach((mark, n) => check("twinsShown", () => same(values.subarray(48 * n, 48 * n + 48), mark === packaged.BAD ? new Uint16Array(48) : knot.show(store.subarray(24 * n + 8, 24 * n + 24), store[24 * n + 4]).values)));
}
check("clean", () => { const cleaned = knot.clean(covered); assert.deepEqual([cleaned.stay, cleaned.removed, cleaned.store.length], [7, 5, 168]); });
if ("knot_restore_store" in CALLS) {
  for (const name of readdirSync(`${root}/samples`).filter((one) => one.endsWith(".store"))) check("restore", () => {
    const store = sample(name), cleaned = knot.cleanWithReceipt(store);
    same(cleaned.store, knot.clean(store).store);
    assert.equal(cleaned.receipt.length, 8 * cleaned.removed);
    same(knot.restoreStore(cleaned.store, cleaned.receipt), store);
  });
  refused(25, () => knot.restoreStore(covered, new Uint8Array(7)));
  refused(25, () => knot.restoreStore(new Uint8Array(0), new Uint8Array(16)));
  refused(6, () => knot.restoreStore(covered.subarray(1), new Uint8Array(0)));
} else {
  check("an older module", () => assert.throws(() => knot.cleanWithReceipt(covered), /another version/));
}
const moveFault = "UNMOVED_RECORD" in packaged.PARTS;
refused(1, () => knot.place(sample("four.store")), moveFault ? 3 : null);
refused(18, () => knot.unplace(placed), moveFault ? 0 : null);
check("firsts", () => assert.deepEqual([knot.firstOf(covered, 1), knot.firstOf(covered, 4), knot.firstTwin(covered, 4), knot.firstTwin(covered, 0), knot.covered(covered, 1, 0), knot.covered(covered, 4, 2)], [0, 4, 2, 0, true, false]));
check("record", () => { const one = knot.record(covered, 5); assert.deepEqual([one.tile, one.format, knot.tile(covered, 5), knot.tile(covered, 99)], [65, 1, 65, 0]); same(one.block, covered.subarray(128, 144)); });
check("damaged", () => assert.deepEqual([knot.firstDamaged(sample("apart.store")), knot.firstDamaged(covered)], [0, null]));
check("moves", () => same(knot.unplace(knot.place(covered)), covered));
check("placed", () => assert.deepEqual([0, 3].map((n) => { const { block: _, ...rest } = knot.placedRecord(placed, n); return rest; }), [{ tile: 81, format: 0, face: 0, column: 0, row: 0 }, { tile: 84, format: 0, face: null, column: 0, row: 0 }]));
check("trusted", () => assert.equal(knot.trusted(covered.subarray(8, 24), false), true));
check("a probe", () => knot.probeCheck(small, 2));
const opened = knot.probeOpen(small, 2);
check("a table", () => assert.deepEqual([opened.length, [...opened].filter((holder) => holder).sort((a, b) => a - b)], [1536, Array.from({ length: 24 }, (_, n) => n + 1)]));
check("a place", () => {
  const put = knot.putPlace(placed, 3, 5, 258, 3), { face, column, row } = knot.placedRecord(put, 3);
  assert.deepEqual([face, column, row], [5, 258, 3]);
  same(knot.putPlace(put, 3, null), placed);
});
for (let face = 0; face < 6; face++) {
  const values = knot.probeFace(small, 2, face);
  for (let k = 0; k < 64; k++) check("probe", () => same(knot.probePixel(small, 2, face, k % 8, k >> 3), values.subarray(3 * k, 3 * k + 3)));
  for (let k = 0; k < 64; k++) check("an open probe", () => same(knot.probePixelIn(small, opened, 2, face, k % 8, k >> 3), values.subarray(3 * k, 3 * k + 3)));
}
check("edges", () => assert.deepEqual([small, small.subarray(1), new Uint8Array(0), new Uint8Array(192)].map((store) => knot.probeEdge(store)), [2, 0, 0, 1]));
check("a built probe", () => {
  const given = Uint8Array.from({ length: 96 }, (_, k) => (k % 16 ? 0 : 3)), store = knot.probeBuild(given, false, 1, 2 ** 32 - 1);
  knot.probeCheck(store, 1);
  for (let n = 0; n < 6; n++) {
    const { block, ...rest } = knot.placedRecord(store, n);
    assert.deepEqual(rest, { tile: (2 ** 32 - 1 + n) % 2 ** 32, format: 0, face: n, column: 0, row: 0 });
    same(block, given.subarray(16 * n, 16 * n + 16));
  }
});

// ---- refusals, and what must not be cut

refused(9, () => knot.decode(blocks.subarray(1), 0));
refused(1, () => knot.decode(blocks, 2));
refused(1, () => knot.modes(blocks, 255));
refused(9, () => knot.modes(blocks.subarray(1), 0));
refused(9, () => knot.modesBc7(blocks.subarray(1)));
refused(2, () => knot.show(blocks, 0));
refused(10, () => knot.write(new Uint16Array(32)));
refused(13, () => knot.ddsRead(blocks));
refused(15, () => knot.face(blocks, 3, 3, 0));
refused(15, () => knot.face(blocks, 2n ** 62n, 64, 0));
refused(15, () => knot.face(new Uint8Array(0), 2n ** 32n, 2n ** 32n, 0));
refused(5, () => knot.twins(new Uint8Array(48024)));
refused(6, () => knot.clean(new Uint8Array(25)));
refused(8, () => knot.record(covered, 99));
refused(8, () => knot.record(covered, 2n ** 32n));
refused(8, () => knot.record(covered, 2n ** 64n - 1n));
refused(12, () => knot.strictTwins(sample("apart.store")), 0);
refused(16, () => knot.pfmWrite(blocks, 0, 4 * SIDE - 2, 4 * SIDE));
refused(16, () => knot.exrWrite(blocks, 0, 4 * SIDE - 2, 4 * SIDE));
refused(17, () => knot.putPlace(placed, 3, 6));
refused(8, () => knot.putPlace(placed, 2n ** 32n, 0));
refused(23, () => knot.probeOpen(small, 3));
refused(20, () => knot.probeOpen(sample("unplaced.places"), 1), 0);
refused(3, () => knot.probePixelIn(small, opened.subarray(1), 2, 0, 0, 0));
refused(8, () => knot.probePixelIn(small.subarray(0, 32), opened.map(() => 2), 2, 0, 0, 0));
refused(19, () => knot.probeCheck(small, 17));
refused(20, () => knot.probeCheck(sample("unplaced.places"), 1), 0);
refused(20, () => knot.probePixel(sample("unplaced.places"), 1, 0, 0, 0), 0);
refused(19, () => knot.probeBuild(blocks, 0, 17));
refused(15, () => knot.probeBuild(blocks.subarray(1), 0, 1));
refused(24, () => knot.probeFace(small, 2, 6));
for (const call of [() => knot.decode(blocks, 256), () => knot.decode(blocks, -1), () => knot.modes(blocks, 256), () => knot.record(covered, 1.5), () => knot.record(covered, 2n ** 64n), () => knot.record(covered, -1),
  () => knot.probeCheck(small, 2 ** 32), () => knot.probePixel(small, 2, 0, 2n ** 32n, 0), () => knot.ddsWrite(blocks, false, 2 ** 32 + 4, 4), () => knot.write({ ...knot.fields(block(1), false), partition: 65536 })]) throws(RangeError, call);
for (const call of [() => knot.decode("blocks", 0), () => knot.decode([1, 2], 0), () => knot.show(new Uint16Array(8), 0), () => knot.decode(blocks, "signed"), () => knot.probePixelIn(small, [...opened], 2, 0, 0, 0), () => knot.record(covered), () => knot.twins(null)]) throws(TypeError, call);

// ---- an instance that trapped, or that grew, is thrown away

const exported = WebAssembly.Module.exports(new WebAssembly.Module(readFileSync(`${folder}/knotpasture.wasm`))).filter((one) => one.kind === "function").map((one) => one.name);
check("exports", () => assert.deepEqual(exported.sort(), Object.keys(CALLS).sort()));
const plain = WebAssembly.Instance;
let made = 0, trap = null;
WebAssembly.Instance = class { constructor(module, imports) { made++; const { exports } = new plain(module, imports); return { exports: trap ? { ...exports, [trap]: () => { throw new WebAssembly.RuntimeError("unreachable"); } } : exports }; } };
const second = new Knotpasture(new WebAssembly.Module(readFileSync(`${folder}/knotpasture.wasm`)));
trap = "knot_bc7_pixels";
check("one instance", () => { second.decode(block(0), 0); second.decode(block(1), 0); assert.equal(made, 1); });
check("a trap is told", () => assert.throws(() => second.showBc7(block(0)), WebAssembly.RuntimeError));
trap = null;
check("and the next call has a new instance", () => { second.showBc7(block(0)); assert.equal(made, 2); });
check("a large result", () => { const large = second.decode(new Uint8Array(16 << 20), 0); assert.equal(large.length, 48 << 20); assert.equal(made, 2); second.show(block(0), 0); assert.equal(made, 3); });
WebAssembly.Instance = plain;
check("another module", () => assert.throws(() => new Knotpasture(new WebAssembly.Module(readFileSync(`${folder}/audit.wasm`))), TypeError));

// ---- programs

const listing = await loadProgram("listing");
for (const name of readdirSync(`${root}/samples`).filter((one) => one.endsWith(".store"))) check("listing", () => assert.match(listing.text(sample(name)), /^kept \d+ twins \d+ bad \d+\n$/m));
check("strict", () => assert.deepEqual([listing.text(sample("apart.store"), ["--strict"]), listing.run(sample("apart.store"), ["--strict"]).told], ["store refused 12\n", "first damaged record 0\n"]));

for (const what of wrong.slice(0, 20)) console.log(`not so: ${what}`);
console.log(`the package: ${checks.toLocaleString("en")} checks, ${wrong.length} failed`);
process.exit(wrong.length ? 1 : 0);
