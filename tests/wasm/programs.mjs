// Runs the programs' modules over the stores of tests/wasm/programs.py and compares what they print: node tests/wasm/programs.mjs PACKAGE FILE
import { readFileSync } from "node:fs";
import { pathToFileURL } from "node:url";

const [folder, path] = process.argv.slice(2), { loadProgram } = await import(pathToFileURL(`${folder}/knotpasture.mjs`));
const { runs, rows } = JSON.parse(readFileSync(path, "utf8"));
let made = 0, different = 0;
for (const [k, [name, ...words]] of runs.entries()) {
  const program = await loadProgram(name);
  for (const { store, printed } of rows) {
    const { out, told } = program.run(new Uint8Array(Buffer.from(store, "base64")), words), wanted = Buffer.from(printed[k][0], "base64");
    made++;
    if (Buffer.compare(Buffer.from(out), wanted) || told !== printed[k][1]) {
      if (different++ < 3) console.log(`${[name, ...words].join(" ")}: a store of ${store.length * 3 >> 2} bytes: ${JSON.stringify(Buffer.from(out).toString("latin1").slice(-80))} and not ${JSON.stringify(wanted.toString("latin1").slice(-80))}`);
    }
  }
}
console.log(`the programs: ${made.toLocaleString("en")} runs over ${rows.length} stores, ${different} different`);
process.exit(different ? 1 : 0);
