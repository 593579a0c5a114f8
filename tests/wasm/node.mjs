// Compares a module with the vectors of a folder, in node: node tests/wasm/node.mjs MODULE FOLDER [most]
// With `most` it ends at the first file with a difference, as a planted fault needs no more.
import { readFileSync } from "node:fs";
import { compareFiles } from "./compare.mjs";

const [path, folder, most] = process.argv.slice(2), index = JSON.parse(readFileSync(`${folder}/index.json`, "utf8"));
const bytes = (name) => {
  const data = readFileSync(`${folder}/${name}.bin`);
  return data.buffer.slice(data.byteOffset, data.byteOffset + data.length);
};
const module = new WebAssembly.Module(readFileSync(path)), started = performance.now();
const { made, different } = await compareFiles(module, index, bytes, most);
for (const one of different.slice(0, 3)) console.log(`  ${one}`);
console.log(`${made.toLocaleString("en")} calls of ${index.total.toLocaleString("en")}, ${different.length.toLocaleString("en")} different, ${((performance.now() - started) / 1000).toFixed(0)} s in node ${process.versions.node}`);
process.exit(different.length || made !== index.total ? 1 : 0);
