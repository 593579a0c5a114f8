// Compares module.wasm with the vectors of a folder, in JavaScriptCore's shell: jsc -m tests/wasm/jsc.mjs -- FOLDER
import { compareFiles } from "./compare.mjs";

const [folder] = globalThis.arguments, bytes = (name) => {
  const data = readFile(`${folder}/${name}`, "binary");
  return data.buffer.slice(data.byteOffset, data.byteOffset + data.byteLength);
};
const index = JSON.parse(readFile(`${folder}/index.json`)), module = new WebAssembly.Module(bytes("module.wasm"));
const { made, different } = await compareFiles(module, index, (name) => bytes(`${name}.bin`), index.most);
print(JSON.stringify({ made, count: different.length, different: different.slice(0, 3) }));
