import { Knotpasture, Program } from "./knot.mjs";

export * from "./calls.mjs";
export * from "./knot.mjs";

/** What a module is loaded from: its bytes, a compiled module or a Response. */
export type Source = BufferSource | WebAssembly.Module | Response;
/** The calls; without a source by knotpasture.wasm beside the package. */
export declare function load(source?: Source): Promise<Knotpasture>;
/** A proved program over a store; without a source by NAME.wasm beside the package. */
export declare function loadProgram(name: "listing" | "audit" | "infinities" | "cleaning", source?: Source): Promise<Program>;
