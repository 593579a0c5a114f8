/**
 * The package `knotpasture`: the proved decoder of BC6H and BC7 blocks as WebAssembly.
 *
 *     import { load } from "knotpasture";
 *     const knot = await load();
 *     const { width, height, format, blocks } = knot.ddsRead(file);
 *     const values = knot.face(blocks, Math.ceil(width / 4), Math.ceil(height / 4), format);
 */
import { Knotpasture, Program } from "./knot.mjs";

export * from "./calls.mjs";
export * from "./knot.mjs";

async function compiled(source, name) {
  if (source instanceof WebAssembly.Module) return source;
  let bytes = source;
  if (bytes === undefined) {
    const url = new URL(name, import.meta.url);
    bytes = url.protocol === "file:" && typeof process !== "undefined" ? await (await import("node:fs/promises")).readFile(url) : await fetch(url);
  }
  if (typeof Response !== "undefined" && bytes instanceof Response) {
    if (!bytes.ok) throw new Error(`${bytes.url}: ${bytes.status} ${bytes.statusText}`);
    bytes = await bytes.arrayBuffer();
  }
  return WebAssembly.compile(bytes);
}

/** The calls. `source` is the module's bytes, a compiled module or a Response; without it knotpasture.wasm beside this file. */
export async function load(source) {
  return new Knotpasture(await compiled(source, "knotpasture.wasm"));
}

/** A proved program over a store: "listing", "audit", "infinities" or "cleaning". `source` as for `load`; without it NAME.wasm beside this file. */
export async function loadProgram(name, source) {
  return new Program(await compiled(source, `${name}.wasm`));
}
