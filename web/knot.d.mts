/**
 * BC6H and BC7 blocks, stores of tiles, probes, DDS files, Portable Float Maps and OpenEXR files. The calls are proved up to the module that the Rattle kit hands to its
 * compiler; this wrapper is not. What the library refuses throws `Refused`; input of another kind TypeError; a number out of range RangeError.
 */
export type Bytes = Uint8Array | Uint8ClampedArray | ArrayBuffer;
/** A format: false or 0 is unsigned, true or 1 signed; the library refuses any other number up to 255 (1). */
export type Signed = boolean | number;
export type Whole = number | bigint;

/** The library did nothing. */
export declare class Refused extends Error {
  constructor(number: number, record?: number | null);
  /** One of the header's numbers. */
  readonly number: number;
  /** What it means. */
  readonly words: string;
  /** The record that is why, or null. */
  readonly record: number | null;
}

/** Half-float patterns, and how many of them are minus infinity. */
export interface Decoded { values: Uint16Array; infinite: number }
/** What one block shows; its mode is 0 where that is reserved. */
export interface Shown extends Decoded { mode: number }
/** What one BC7 block shows; its mode is BC7_RESERVED where that is reserved. */
export interface ShownBc7 { values: Uint8Array; mode: number }
/** The fields of a block, as stored. */
export interface Fields { format: number; mode: number; endpoints: number[][]; partition: number; inRegion1: number; indices: number[] }
export interface StoreRecord { tile: number; format: number; block: Uint8Array }
/** A record with a place; its face is null where it is not placed. */
export interface PlacedRecord extends StoreRecord { face: number | null; column: number; row: number }
/** A mark for each record, KEPT, TWIN or BAD, and how many have each. */
export interface Twins { marks: Uint8Array; kept: number; twins: number; bad: number }
export interface Cleaned { store: Uint8Array; stay: number; removed: number }
/** A cleaned store and the receipt that `restoreStore` takes back. */
export interface CleanedWithReceipt extends Cleaned { receipt: Uint8Array }
export interface DdsHead { width: number; height: number; format: number }
export interface Dds extends DdsHead { blocks: Uint8Array }

/** The number of a half-float pattern, exact. */
export declare function half(pattern: number): number;
/** The numbers of patterns, each exact. */
export declare function floats(patterns: Iterable<number> | ArrayLike<number>): Float32Array;

/** The calls over a compiled module. */
export declare class Knotpasture {
  constructor(module: WebAssembly.Module);
  /** `decode`, and how many of the values are minus infinity. Refusals: 1, 9. */
  decodeCounted(blocks: Bytes, signed: Signed): Decoded;
  /** The values of a run of BC6H blocks, 48 patterns a block: pixel 0 red, green, blue, then pixel 1. Refusals: 1, 9. */
  decode(blocks: Bytes, signed: Signed): Uint16Array;
  /** What one BC6H block shows, with its mode. Refusals: 1, 2. */
  show(block: Bytes, signed: Signed): Shown;
  /** The mode of each BC6H block of a run, 0 where that is reserved. Refusals: 1, 9. */
  modes(blocks: Bytes, signed: Signed): Uint8Array;
  /** The mode of each BC7 block of a run, BC7_RESERVED where that is reserved. Refusals: 9. */
  modesBc7(blocks: Bytes): Uint8Array;
  /** The 32 numbers of a block's fields in the header's order. Refusals: 1, 2, 4. */
  fieldNumbers(block: Bytes, signed: Signed): Uint16Array;
  /** The fields of a block, as stored. Refusals: 1, 2, 4. */
  fields(block: Bytes, signed: Signed): Fields;
  /** The block of a field record. Refusals: 1, 10. */
  write(record: Fields | Uint16Array): Uint8Array;
  /** What a field record shows, without a block written first. Refusals: 1, 10. */
  showFields(record: Fields | Uint16Array): Uint16Array;
  /** Whether a block by itself meets the premises of the copies theorem. */
  trusted(block: Bytes, signed: Signed): boolean;
  /** `face`, and how many of the values are minus infinity. Refusals: 1, 15. */
  faceCounted(blocks: Bytes, width: Whole, height: Whole, signed: Signed): Decoded;
  /** A face of width by height blocks as rows of pixels, three patterns a pixel, row 0 on top. Refusals: 1, 15. */
  face(blocks: Bytes, width: Whole, height: Whole, signed: Signed): Uint16Array;
  /** `face` with a fourth value a pixel, alpha, 1.0 everywhere. Refusals: 1, 15. */
  faceRgba(blocks: Bytes, width: Whole, height: Whole, signed: Signed): Uint16Array;
  /** The pixels of a run of BC7 blocks, 64 bytes a block: red, green, blue, alpha. Refusals: 9. */
  decodeBc7(blocks: Bytes): Uint8Array;
  /** What one BC7 block shows, with its mode. Refusals: 2. */
  showBc7(block: Bytes): ShownBc7;
  /** Record n of a store of 24-byte records; its block is a part of the store. Refusals: 5, 6, 8, 1, 7. */
  record(store: Bytes, n: Whole): StoreRecord;
  /** The tile number of record n, and 0 where there is no such record. */
  tile(store: Bytes, n: Whole): number;
  /** A mark for each record of a store. Refusals: 5, 6. */
  twins(store: Bytes): Twins;
  /** `twins`, and the 48 values of each record, zeros for one that is refused. Refusals: 5, 6. */
  twinsShown(store: Bytes): Twins & { values: Uint16Array };
  /** `twins` of a store in which no record is damaged. Refusals: 5, 6, 12, which names the first damaged record. */
  strictTwins(store: Bytes): Twins;
  /** The first record that is not refused and has a reserved mode; null where there is none. */
  firstDamaged(store: Bytes): number | null;
  /** A store without its copies. Refusals: 5, 6. */
  clean(store: Bytes): Cleaned;
  /** `clean`, and a receipt by which `restoreStore` undoes it. Refusals: 5, 6. */
  cleanWithReceipt(store: Bytes): CleanedWithReceipt;
  /** The store as it was before `cleanWithReceipt` wrote these two. Refusals: 5, 6, 25. */
  restoreStore(cleaned: Bytes, receipt: Bytes): Uint8Array;
  /** The record that stays for record n where `clean` removes that; n where it stays. */
  firstOf(store: Bytes, n: Whole): number;
  /** The first earlier record that record n is a twin of; n where it is no twin. */
  firstTwin(store: Bytes, n: Whole): number;
  /** Whether the copies theorem covers two records of a store. */
  covered(store: Bytes, n: Whole, earlier: Whole): boolean;
  /** Record n of a store of records with a place. Refusals: 5, 6, 8, 1, 7, 17. */
  placedRecord(store: Bytes, n: Whole): PlacedRecord;
  /** A store of 24-byte records as one of records with a place, none of them placed. Refusals: 5, 6; with the first faulty record 1, 7. */
  place(store: Bytes): Uint8Array;
  /** The way back, for a store in which no record is placed. Refusals: 5, 6; with the first faulty record 1, 7, 17, 18. */
  unplace(store: Bytes): Uint8Array;
  /** The store with the place of record n set, or taken away where face is null. Refusals: 5, 6, 8; with record n 1, 7; 17, of the place that is given. */
  putPlace(store: Bytes, n: Whole, face: Whole | null, column?: Whole, row?: Whole): Uint8Array;
  /** Returns where a store is a probe of the edge. Refusals: 19, 5, 6; with the first faulty record 1, 7, 17, 20, 21, 22; 23. */
  probeCheck(store: Bytes, edge: Whole): void;
  /** Red, green and blue of a pixel of a probe. Refusals: those of `probeCheck`, with its record, then 24. */
  probePixel(store: Bytes, edge: Whole, face: Whole, x: Whole, y: Whole): Uint16Array;
  /** Checks a probe once: a table by which `probePixelIn` asks for its pixels. Refusals: those of `probeCheck`, with its record. */
  probeOpen(store: Bytes, edge: Whole): Uint16Array;
  /** What `probePixel` answers, by the table that `probeOpen` of the same store and edge gave. Refusals: 19, 24, 3, 23, 8, 1. */
  probePixelIn(store: Bytes, table: Uint16Array, edge: Whole, face: Whole, x: Whole, y: Whole): Uint16Array;
  /** A whole face of a probe, three patterns a pixel, row 0 on top. Refusals: those of `probeCheck`, then 24. */
  probeFace(store: Bytes, edge: Whole, face: Whole): Uint16Array;
  /** The edge of a probe by its store's length; 0 where no edge has that length. */
  probeEdge(store: Bytes): number;
  /** A probe of the blocks of its six faces, face by face and row by row; record n has the tile number firstTile + n. Refusals: 19, 1, 15. */
  probeBuild(blocks: Bytes, signed: Signed, edge: Whole, firstTile?: Whole): Uint8Array;
  /** Width, height and format from the first 148 bytes of a DDS file. Refusals: 13, 14. */
  ddsHead(head: Bytes): DdsHead;
  /** Size, format and blocks of a whole DDS file. Refusals: 13, 14, 15. */
  ddsRead(file: Bytes): Dds;
  /** Size, format and blocks of a whole DDS file of BC7 blocks: format 0 is DXGI's 98, 1 is 99, sRGB. Refusals: 13, 14, 15. */
  bc7DdsRead(file: Bytes): Dds;
  /** Size, format and blocks of the largest level of a DDS file with 1 to 13 mip levels. Refusals: 13, 14, 15. */
  ddsFirstLevel(file: Bytes): Dds;
  /** `ddsFirstLevel` of BC7 blocks, with the formats of `bc7DdsRead`. Refusals: 13, 14, 15. */
  bc7DdsFirstLevel(file: Bytes): Dds;
  /** A DDS file of blocks in row order. Refusals: 1, 14, 15. */
  ddsWrite(blocks: Bytes, signed: Signed, width: Whole, height: Whole): Uint8Array;
  /** The bytes of the Portable Float Map of a picture; 0 for a size that is refused. */
  pfmLength(width: Whole, height: Whole): number;
  /** A Portable Float Map of blocks in row order. Refusals: 1, 16, 15. */
  pfmWrite(blocks: Bytes, signed: Signed, width: Whole, height: Whole): Uint8Array;
  /** The bytes of the OpenEXR file of a picture; 0 for a size that is refused. */
  exrLength(width: Whole, height: Whole): number;
  /** An OpenEXR file of blocks in row order, each half-float as it is. Refusals: 1, 16, 15. */
  exrWrite(blocks: Bytes, signed: Signed, width: Whole, height: Whole): Uint8Array;
}

/** A proved program over standard input, standard output and standard error. */
export declare class Program {
  constructor(module: WebAssembly.Module);
  /** Runs it over the input with the words of a command line: what it writes to standard output and to standard error. */
  run(input: Bytes, words?: readonly string[]): { out: Uint8Array; told: string };
  /** What it writes to standard output, as text. */
  text(input: Bytes, words?: readonly string[]): string;
}
