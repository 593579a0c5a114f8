// Compares module.wasm with the vectors beside it, in a browser, and posts what it found. tests/wasm/engines.py serves and opens it.
import { compareFiles } from "./compare.mjs";

const bytes = async (name) => {
  const reply = await fetch(name);
  if (!reply.ok) throw new Error(`${name}: ${reply.status}`);
  return reply.arrayBuffer();
};
let found;
try {
  const index = JSON.parse(new TextDecoder().decode(await bytes("index.json"))), module = await WebAssembly.compile(await bytes("module.wasm"));
  const { made, different } = await compareFiles(module, index, (name) => bytes(`${name}.bin`), index.most);
  found = { made, count: different.length, different: different.slice(0, 3) };
} catch (error) {
  found = { failed: String(error) };
}
await fetch("found", { method: "POST", body: JSON.stringify(found) });
