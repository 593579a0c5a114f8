"use strict";
// A block's fields in words: what is stored, and the endpoints after the transform, by the rule of docs/SCOPE.md ("A block").
// `fields` are 44 bytes: format, mode, four endpoints of three channels (2 bytes each), partition, the count of region 1, sixteen indices.

// By mode: the bits of the first endpoint, and of the others in red, green and blue.
const WIDTHS = [
  null, [10, 5, 5, 5], [7, 6, 6, 6], [11, 5, 4, 4], [11, 4, 5, 4], [11, 4, 4, 5], [9, 5, 5, 5], [8, 6, 5, 5], [8, 5, 6, 5], [8, 5, 5, 6],
  [6, 6, 6, 6], [10, 10, 10, 10], [11, 9, 9, 9], [12, 8, 8, 8], [16, 4, 4, 4],
];

const modeOf = (fields) => fields[1];
const hasSign = (fields) => fields[0] === 1;
const regionsOf = (fields) => modeOf(fields) <= 10 ? 2 : 1;
const isTransformed = (mode) => mode !== 10 && mode !== 11;
const storedEndpoint = (fields, e) => [0, 1, 2].map((c) => fields[2 + 2 * (3 * e + c)] | fields[3 + 2 * (3 * e + c)] << 8);
const indicesOf = (fields) => [...fields.subarray(28, 44)];

const signExtend = (number, bits) => number < 2 ** (bits - 1) ? number : number - 2 ** bits;
const keepBits = (number, bits) => (number % 2 ** bits + 2 ** bits) % 2 ** bits;

// Endpoint e after sign extension and transform, red, green and blue.
function endpointOf(fields, e) {
  const mode = modeOf(fields), signed = hasSign(fields), [precision, ...widths] = WIDTHS[mode];
  const first = storedEndpoint(fields, 0).map((number) => signed ? signExtend(number, precision) : number);
  if (e === 0) return first;
  return storedEndpoint(fields, e).map((number, c) => {
    const own = signed || isTransformed(mode) ? signExtend(number, widths[c]) : number;
    if (!isTransformed(mode)) return own;
    const sum = keepBits(first[c] + own, precision);
    return signed ? signExtend(sum, precision) : sum;
  });
}

// A channel of an endpoint stretched to 16 bits, between which a picture is interpolated.
function stretched(number, precision, signed) {
  if (!signed) return precision >= 15 || number === 0 ? number : number === 2 ** precision - 1 ? 65535 : Math.floor((65536 * number + 32768) / 2 ** precision);
  if (precision >= 16 || number === 0) return number;
  const size = Math.abs(number), most = 2 ** (precision - 1);
  return Math.sign(number) * (size >= most - 1 ? 32767 : Math.floor((32768 * size + 16384) / most));
}

const endpointsOf = (fields) => Array.from({ length: 2 * regionsOf(fields) }, (_, e) => endpointOf(fields, e));
const stretchedOf = (fields) => endpointsOf(fields).map((end) => end.map((number) => stretched(number, WIDTHS[modeOf(fields)][0], hasSign(fields))));

// What two blocks that show one picture have in common and what not, in a sentence.
function differenceTold(a, b) {
  const same = (of) => JSON.stringify(of(a)) === JSON.stringify(of(b));
  const mode = same(modeOf), indices = same(indicesOf), partition = same(regionsOf) && (regionsOf(a) === 1 || a[26] === b[26]);
  const equal = same(endpointsOf), ends = same(stretchedOf);
  if (ends && partition && indices) {
    if (mode) return "Same mode: other endpoints, which stretch to the same numbers.";
    return equal ? "Other mode, same endpoints: two ways to write one picture." : "Other mode, and endpoints which stretch to the same numbers.";
  }
  return `Same picture, other ${[[mode, "mode"], [ends, "endpoints"], [partition, "partition"], [indices, "indices"]].filter(([one]) => !one).map(([, name]) => name).join(", ")}.`;
}
