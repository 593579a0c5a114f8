// A caller of the package, for the types alone.
import { load, loadProgram, Refused, floats, BLOCK_SIZE, type Fields, type Knotpasture } from "knotpasture";

const knot: Knotpasture = await load();
const fields: Fields = knot.fields(new Uint8Array(BLOCK_SIZE), false);
const numbers: Float32Array = floats(knot.decode(knot.write({ ...fields, partition: 3 }), true));
const text: string = (await loadProgram("audit")).text(new ArrayBuffer(24), ["--strict"]);
try {
  knot.probeCheck(new ArrayBuffer(32), 1n);
} catch (error) {
  if (error instanceof Refused) console.log(error.number.toFixed(), error.record ?? "no record", error.words, numbers.length, text.length);
}
