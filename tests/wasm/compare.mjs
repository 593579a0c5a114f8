// Makes the calls of tests/wasm/vectors.py in a WebAssembly module, and compares the answer, every lent byte, input and slots too, and guard bytes on both
// sides of each. It runs in node, in browsers and in jsc.
const PAGE = 65536, GUARD = 64, NULL = 0xFFFFFFFF, SAME = 0xFFFFFFFE, SLOT = 8;
const GUARD_BYTE = 0xC7, SLOT_BYTE = 0x5A;
const FILL = Uint8Array.from({ length: 1 << 20 }, (_, k) => 37 * k + 11 & 255);

export class Comparison {
  // `calls`: [name, "kind parameter", ..] of each call, by its number in the vectors.
  constructor(module, calls) {
    if (WebAssembly.Module.imports(module).length) throw new Error("the module wants imports");
    this.module = module;
    this.calls = calls.map(([name, ...takes]) => [name, takes.map((one) => /^[a-z]+/.exec(one)[0] + (/^u\d+/.test(one) ? /\d+/.exec(one)[0] : ""))]);
    this.made = 0;
    this.different = [];
    this.renew();
  }

  renew() {
    this.exports = new WebAssembly.Instance(this.module, {}).exports;
    this.start = Math.ceil(this.exports.__heap_base.value / GUARD) * GUARD;
    this.bytes = new Uint8Array(this.exports.memory.buffer);
  }

  // Room for so many bytes behind the places that are laid, with guards around them.
  lay(size) {
    const at = this.end + GUARD, end = Math.ceil((at + size + GUARD) / GUARD) * GUARD, short = end - this.bytes.length;
    if (short > 0) {
      this.exports.memory.grow(Math.ceil(short / PAGE) + 16);
      this.bytes = new Uint8Array(this.exports.memory.buffer);
    }
    this.bytes.fill(GUARD_BYTE, this.end, at);
    this.bytes.fill(GUARD_BYTE, at + size, end);
    this.guards.push([this.end, at], [at + size, end]);
    this.end = end;
    return at;
  }

  // What the call left where `wanted` stands in the file: the first byte that differs, or null.
  unlike(file, [at, wanted, size]) {
    const words = size >> 2, mine = new Uint32Array(this.bytes.buffer, at, words), theirs = new Uint32Array(file.buffer.slice(wanted, wanted + 4 * words));
    let k = 0;
    while (k < words && mine[k] === theirs[k]) k++;
    for (k *= 4; k < size; k++) if (this.bytes[at + k] !== file[wanted + k]) return `byte ${k} of ${size} is ${this.bytes[at + k]} and not ${file[wanted + k]}`;
    return null;
  }

  run(buffer) {
    const view = new DataView(buffer), file = new Uint8Array(buffer);
    let p = 0, last = null;
    while (p < file.length) {
      const [name, kinds] = this.calls[file[p++]], words = [], places = [];
      this.end = this.start;
      this.guards = [];
      for (const kind of kinds) {
        if (kind === "in" || kind === "out") {
          const size = view.getUint32(p, true), count = view.getBigUint64(p + 4, true);
          p += 12;
          if (size === NULL) { words.push(0, count); continue; }
          const [from, bytes] = size === SAME ? last : [p, size], at = this.lay(bytes);
          if (size !== SAME) p += size;
          if (kind === "in") {
            this.bytes.set(file.subarray(from, from + bytes), at);
            last = [from, bytes];
          } else {
            for (let k = 0; k < bytes; k += FILL.length) this.bytes.set(FILL.subarray(0, Math.min(FILL.length, bytes - k)), at + k);
          }
          places.push([at, from, bytes]);
          words.push(at, count);
        } else if (kind === "slot") {
          const at = this.lay(SLOT);
          this.bytes.fill(SLOT_BYTE, at, at + SLOT);
          places.push([at, p, SLOT]);
          words.push(at);
          p += SLOT;
        } else {
          const bits = Number(kind.slice(1));
          words.push(bits === 64 ? view.getBigUint64(p, true) : bits === 32 ? view.getUint32(p, true) : bits === 16 ? view.getUint16(p, true) : file[p]);
          p += bits / 8;
        }
      }
      const wanted = view.getBigUint64(p, true), why = this.call(name, words, wanted, file, places);
      p += 8;
      this.made++;
      if (why) this.different.push(`${name}: ${why}`);
    }
    return this;
  }

  call(name, words, wanted, file, places) {
    let answer;
    try {
      answer = this.exports[name](...words);
    } catch (error) {
      this.renew();
      return `it trapped: ${error.message}`;
    }
    const word = typeof answer === "bigint" ? BigInt.asUintN(64, answer) : BigInt(answer >>> 0);
    if (word !== wanted) return `it answers ${word.toString(16)} and not ${wanted.toString(16)}`;
    for (const place of places) {
      const unlike = this.unlike(file, place);
      if (unlike) return unlike;
    }
    for (const [from, to] of this.guards) for (let k = from; k < to; k++) if (this.bytes[k] !== GUARD_BYTE) return "it wrote beside what was lent";
    return null;
  }
}

// Compares a module over the files of index.json, whose bytes `read` hands over: how many calls were made, and what differed. With `most` it ends at the
// first file with a difference.
export async function compareFiles(module, index, read, most) {
  let made = 0, different = [];
  for (const name of index.files) {
    const comparison = new Comparison(module, index.calls).run(await read(name));
    made += comparison.made;
    different = different.concat(comparison.different);
    if (most && different.length) break;
  }
  return { made, different };
}
