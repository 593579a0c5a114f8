// Times calls of the WebAssembly module, in node and in a browser: rows of [name, nanoseconds a unit], the best of many runs.
const MIB = 1 << 20;

export function timed(module, data, rounds) {
  const calls = new WebAssembly.Instance(module, {}).exports, places = {};
  let end = Math.ceil(calls.__heap_base.value / 64) * 64;
  for (const [name, size] of Object.entries({ bc6: MIB, bc7: MIB, store: 48000, slots: 64, marks: 2048, scratch: 196000, out: 192 * 65536 + 128 })) { places[name] = end; end = Math.ceil((end + size) / 64) * 64; }
  calls.memory.grow(Math.ceil((end - calls.memory.buffer.byteLength) / 65536));
  const bytes = new Uint8Array(calls.memory.buffer), rows = [];
  for (const name of ["bc6", "bc7", "store"]) bytes.set(data[name], places[name]);
  const best = (name, units, run) => {
    const warm = performance.now();
    let least = Infinity;
    while (performance.now() - warm < 300) run();
    for (let k = 0; k < rounds; k++) { const began = performance.now(); run(); least = Math.min(least, performance.now() - began); }
    rows.push([name, least * 1e6 / units]);
  };
  const { bc6, bc7, store, slots, marks, scratch, out } = places, all = BigInt(MIB);
  for (const [format, name] of [[0, "unsigned"], [1, "signed"]]) {
    best(`blocks_pixels, 65,536 ${name}`, 65536, () => calls.knot_blocks_pixels(bc6, all, format, out, 3145728n, slots, slots + 8));
    best(`face_rgba, 1,024 by 1,024 ${name}`, 65536, () => calls.knot_face_rgba(bc6, all, 256n, 256n, format, out, 4194304n, 4096n, slots));
    best(`block_pixels, a call a block, ${name}`, 4096, () => { for (let k = 0; k < 4096; k++) calls.knot_block_pixels(bc6 + 16 * k, 16n, format, out, 48n); });
  }
  best("pfm_write, 1,024 by 1,024 unsigned", 65536, () => calls.knot_pfm_write(bc6, all, 0, 1024, 1024, out, 12583012n));
  best("bc7_blocks_pixels, 65,536", 65536, () => calls.knot_bc7_blocks_pixels(bc7, all, out, 4194304n, slots));
  best("block_fields, a call a block", 4096, () => { for (let k = 0; k < 4096; k++) calls.knot_block_fields(bc6 + 16 * k, 16n, 0, out, 32n); });
  // a browser's clock has steps of a tenth of a millisecond
  const often = (count, call) => () => { for (let k = 0; k < count; k++) call(); };
  best("twin_list_in, 2,000 different", 10 * 2000, often(10, () => calls.knot_twin_list_in(store, 48000n, marks, 2000n, scratch, 98000n)));
  best("clean_store, 2,000 different", 100 * 2000, often(100, () => calls.knot_clean_store(store, 48000n, out, 48000n)));
  return rows;
}
