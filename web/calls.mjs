// Written by tools/web-calls from include/knotpasture.h and python/knotpasture/words.py: edit those, and run it again.

export const VERSION = "1.1.0";
export const UNSIGNED = 0;
export const SIGNED = 1;
export const KEPT = 0;
export const TWIN = 1;
export const BAD = 2;
export const BLOCK_SIZE = 16;
export const VALUES = 48;
export const FIELDS = 32;
export const RECORD_SIZE = 24;
export const STORE_LIMIT = 48000;
export const SCRATCH_VALUES = 49;
export const RECEIPT_ENTRY = 8;
export const OPAQUE = 15360;
export const PLACED_SIZE = 32;
export const PLACED_STORE_LIMIT = 64000;
export const FACES = 6;
export const NO_FACE = 255;
export const EDGE_LIMIT = 16;
export const PROBE_TABLE = 1536;
export const BC7_BYTES = 64;
export const BC7_RESERVED = 8;
export const DDS_HEADER = 148;
export const DDS_LIMIT = 4096;
export const DDS_FILE = 16777364;
export const BC7_LINEAR = 0;
export const BC7_SRGB = 1;
export const DDS_LEVELS = 13;
export const PFM_LIMIT = 4096;
export const PFM_FILE = 201326610;
export const EXR_HEADER = 313;
export const EXR_LIMIT = 4096;
export const EXR_FILE = 100729145;

// What the number of a refusal means.
export const WORDS = Object.freeze({
  1: "the format is neither 0 (unsigned) nor 1 (signed)",
  2: "the block is not 16 bytes long",
  3: "the room for the result is too small",
  4: "the mode is reserved",
  5: "the store has more than 2,000 records",
  6: "the store's length is not a whole number of records",
  7: "a spare byte of a record is not zero",
  8: "there is no record of that number",
  9: "the blocks' length is not a multiple of 16",
  10: "no block has these fields",
  11: "the block's buffer is not 16 bytes long",
  12: "a record that is not refused has a reserved mode: the capture is damaged",
  13: "the header is not that of a DDS texture that the call reads",
  14: "the width or height is out of range",
  15: "the block bytes are short or left over for the size",
  16: "the width or height is zero, not a multiple of 4 or above 4,096",
  17: "the face is bad, or a record that is not placed has a position",
  18: "a placed record does not move back",
  19: "the edge is not 1 to 16",
  20: "a record is not placed",
  21: "a position is at or past the edge",
  22: "a place is taken twice",
  23: "a place is empty",
  24: "the face, x or y is out of range",
  25: "the receipt does not fit the store",
  26: "the store is not the one that was signed",
  27: "the receipt is of another store",
  28: "the file looks like something else",
});

// The parts of an answer's word: the lowest bit, and how many bits.
export const PARTS = Object.freeze({
  ANSWER: [0, 8],
  MODE: [8, 8],
  INFINITIES: [16, 8],
  FORMAT: [8, 8],
  TILE: [32, 32],
  KEPT_COUNT: [16, 16],
  TWIN_COUNT: [32, 16],
  BAD_COUNT: [48, 16],
  STAY_COUNT: [16, 16],
  REMOVED_COUNT: [32, 16],
  RESTORED: [16, 16],
  FACE: [16, 8],
  MOVED: [16, 16],
  UNMOVED_RECORD: [32, 16],
  RED: [16, 16],
  GREEN: [32, 16],
  BLUE: [48, 16],
  FAULTY_RECORD: [16, 16],
  DDS_FORMAT: [8, 8],
  DDS_WIDTH: [16, 16],
  DDS_HEIGHT: [32, 16],
  FILE_LENGTH: [8, 56],
});

// What each call answers and takes: inN and outN are lent elements of N bits, a pointer and a length; slotN is room for one number; uN a number.
export const CALLS = Object.freeze({
  knot_block_pixels: { answers: "u32", takes: ["in8 block", "u8 format", "out16 out"] },
  knot_blocks_pixels: { answers: "u32", takes: ["in8 blocks", "u8 format", "out16 out", "slot64 done", "slot64 infinite"] },
  knot_face_pixels: { answers: "u32", takes: ["in8 blocks", "u64 width", "u64 height", "u8 format", "out16 out", "u64 pitch", "slot64 infinite"] },
  knot_face_rgba: { answers: "u32", takes: ["in8 blocks", "u64 width", "u64 height", "u8 format", "out16 out", "u64 pitch", "slot64 infinite"] },
  knot_block_fields: { answers: "u32", takes: ["in8 block", "u8 format", "out16 numbers"] },
  knot_write_block: { answers: "u32", takes: ["in16 numbers", "out8 out"] },
  knot_fields_pixels: { answers: "u32", takes: ["in16 numbers", "out16 out"] },
  knot_record_at: { answers: "u64", takes: ["in8 store", "u64 n"] },
  knot_record_block: { answers: "u64", takes: ["in8 store", "u64 n"] },
  knot_tile_at: { answers: "u32", takes: ["in8 store", "u64 n"] },
  knot_twin_list: { answers: "u64", takes: ["in8 store", "out8 marks"] },
  knot_twin_list_in: { answers: "u64", takes: ["in8 store", "out8 marks", "out16 scratch"] },
  knot_strict_twin_list: { answers: "u64", takes: ["in8 store", "out8 marks"] },
  knot_first_damaged: { answers: "u64", takes: ["in8 store"] },
  knot_first_twin: { answers: "u64", takes: ["in8 store", "u64 n"] },
  knot_is_covered: { answers: "bool", takes: ["in8 store", "u64 n", "u64 earlier"] },
  knot_clean_store: { answers: "u64", takes: ["in8 store", "out8 out"] },
  knot_clean_with_receipt: { answers: "u64", takes: ["in8 store", "out8 out", "out8 receipt"] },
  knot_restore_store: { answers: "u64", takes: ["in8 cleaned", "in8 receipt", "out8 out"] },
  knot_first_of: { answers: "u64", takes: ["in8 store", "u64 n"] },
  knot_placed_record_at: { answers: "u64", takes: ["in8 store", "u64 n", "slot16 column", "slot16 row"] },
  knot_placed_record_block: { answers: "u64", takes: ["in8 store", "u64 n"] },
  knot_place_store: { answers: "u64", takes: ["in8 old", "out8 out"] },
  knot_unplace_store: { answers: "u64", takes: ["in8 store", "out8 out"] },
  knot_put_place: { answers: "u64", takes: ["in8 store", "u64 n", "u8 face", "u16 column", "u16 row", "out8 out"] },
  knot_probe_pixel: { answers: "u64", takes: ["in8 store", "u32 edge", "u32 face", "u32 x", "u32 y", "slot64 faulty"] },
  knot_probe_check: { answers: "u64", takes: ["in8 store", "u32 edge"] },
  knot_probe_face: { answers: "u32", takes: ["in8 store", "u32 edge", "u32 face", "out16 out"] },
  knot_probe_open: { answers: "u64", takes: ["in8 store", "u32 edge", "out16 table"] },
  knot_probe_pixel_in: { answers: "u64", takes: ["in8 store", "in16 table", "u32 edge", "u32 face", "u32 x", "u32 y"] },
  knot_probe_edge: { answers: "u64", takes: ["in8 store"] },
  knot_probe_build: { answers: "u32", takes: ["in8 blocks", "u8 format", "u32 edge", "u32 first_tile", "out8 out", "slot64 records"] },
  knot_is_trusted: { answers: "bool", takes: ["in8 block", "u8 format"] },
  knot_bc7_pixels: { answers: "u32", takes: ["in8 block", "out8 out"] },
  knot_bc7_blocks_pixels: { answers: "u64", takes: ["in8 blocks", "out8 out", "slot64 done"] },
  knot_dds_head: { answers: "u64", takes: ["in8 file"] },
  knot_dds_read: { answers: "u64", takes: ["in8 file"] },
  knot_dds_blocks: { answers: "u64", takes: ["in8 file"] },
  knot_bc7_dds_read: { answers: "u64", takes: ["in8 file"] },
  knot_bc7_dds_blocks: { answers: "u64", takes: ["in8 file"] },
  knot_dds_first_level: { answers: "u64", takes: ["in8 file"] },
  knot_dds_first_blocks: { answers: "u64", takes: ["in8 file"] },
  knot_bc7_dds_first_level: { answers: "u64", takes: ["in8 file"] },
  knot_bc7_dds_first_blocks: { answers: "u64", takes: ["in8 file"] },
  knot_dds_write: { answers: "u64", takes: ["in8 blocks", "u8 format", "u32 width", "u32 height", "out8 out"] },
  knot_pfm_write: { answers: "u64", takes: ["in8 blocks", "u8 format", "u32 width", "u32 height", "out8 out"] },
  knot_pfm_length: { answers: "u64", takes: ["u32 width", "u32 height"] },
  knot_exr_write: { answers: "u64", takes: ["in8 blocks", "u8 format", "u32 width", "u32 height", "out8 out"] },
  knot_exr_length: { answers: "u64", takes: ["u32 width", "u32 height"] },
});
