"use strict";
// A store as a page holds it: each record's bytes, values, fields and kind, by its number.

// Kinds by their letters: the name, the sign on a sheet, and what a clean-up does with such a record.
const KINDS = {
  s: ["stays", "", "stays"],
  c: ["copy", "C", "a copy, removed"],
  a: ["alike", "A", "looks like an earlier one, stays"],
  d: ["damaged", "D", "damaged, stays"],
  x: ["refused", "\u00D7", "refused, stays"],
};

class Records {
  // `store` has 24 bytes a record, `values` 96 (48 patterns, low byte first), `fields` 44 (as stored), `kinds` a letter.
  constructor(store, values, fields, kinds) {
    Object.assign(this, { store, fields, kinds, count: store.length / 24 });
    this.values = Uint16Array.from({ length: values.length / 2 }, (_, k) => values[2 * k] | values[2 * k + 1] << 8);
  }

  tile(n) { return this.store.slice(24 * n, 24 * n + 4).reduceRight((number, byte) => 256 * number + byte, 0); }
  isSigned(n) { return this.store[24 * n + 4] === 1; }
  bytes(n) { return this.store.slice(24 * n, 24 * n + 24); }
  block(n) { return this.store.slice(24 * n + 8, 24 * n + 24); }
  patterns(n) { return this.values.subarray(48 * n, 48 * n + 48); }
  fieldsOf(n) { return this.fields.subarray(44 * n, 44 * n + 44); }
  kind(n) { return KINDS[this.kinds[n]]; }
  hasPicture(n) { return "sca".includes(this.kinds[n]); }

  told(n) { return `record ${n}, tile ${this.tile(n)}`; }
  pictureTold(n) { return `${this.told(n)}, ${this.isSigned(n) ? "signed" : "unsigned"}`; }
}

// The records that show one picture, as a class: `root`, the first of them; `alike`, those of other bytes, which stay; `copies`, which are removed, each with
// the record that stays for it. Classes with alike records come first, since those are what a person has to look at.
function classesOf(twins) {
  const roots = new Map(), classes = new Map();
  for (const twin of twins) {
    const root = roots.get(twin.stays) ?? twin.stays;
    if (!twin.copy) roots.set(twin.record, root);
    if (!classes.has(root)) classes.set(root, { root, alike: [], copies: [] });
    classes.get(root)[twin.copy ? "copies" : "alike"].push(twin);
  }
  const rising = [...classes.values()].sort((a, b) => a.root - b.root);
  return [...rising.filter((one) => one.alike.length), ...rising.filter((one) => !one.alike.length)];
}
