// Written by tools/web-calls from include/knotpasture.h and python/knotpasture/words.py: edit those, and run it again.

/** The version of the header that the calls are from. */
export declare const VERSION: "1.1.0";
export declare const UNSIGNED: 0;
export declare const SIGNED: 1;
export declare const KEPT: 0;
export declare const TWIN: 1;
export declare const BAD: 2;
export declare const BLOCK_SIZE: 16;
export declare const VALUES: 48;
export declare const FIELDS: 32;
export declare const RECORD_SIZE: 24;
export declare const STORE_LIMIT: 48000;
export declare const SCRATCH_VALUES: 49;
export declare const RECEIPT_ENTRY: 8;
export declare const OPAQUE: 15360;
export declare const PLACED_SIZE: 32;
export declare const PLACED_STORE_LIMIT: 64000;
export declare const FACES: 6;
export declare const NO_FACE: 255;
export declare const EDGE_LIMIT: 16;
export declare const PROBE_TABLE: 1536;
export declare const BC7_BYTES: 64;
export declare const BC7_RESERVED: 8;
export declare const DDS_HEADER: 148;
export declare const DDS_LIMIT: 4096;
export declare const DDS_FILE: 16777364;
export declare const BC7_LINEAR: 0;
export declare const BC7_SRGB: 1;
export declare const DDS_LEVELS: 13;
export declare const PFM_LIMIT: 4096;
export declare const PFM_FILE: 201326610;
export declare const EXR_HEADER: 313;
export declare const EXR_LIMIT: 4096;
export declare const EXR_FILE: 100729145;
/** What the number of a refusal means. */
export declare const WORDS: Readonly<Record<number, string>>;
/** The parts of an answer's word: the lowest bit, and how many bits. */
export declare const PARTS: Readonly<Record<string, readonly [number, number]>>;
/** What each call of the module answers and takes. */
export declare const CALLS: Readonly<Record<string, { readonly answers: string; readonly takes: readonly string[] }>>;
