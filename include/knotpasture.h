/* Knotpasture: a decoder of BC6H and BC7 blocks. What is said here of a function's answer and of what it leaves in lent places is
 * proved, for slices of every length and contents; that a pointer and a length are such a slice is the caller's part. What is said of
 * memory, threads and stack is not a theorem: no source has state of its own or allocates, and the stack is measured.
 *
 * Link with libknotpasture.a or libknotpasture.so: `pkg-config --cflags --libs knotpasture` where tools/install put them, or a release is
 * unpacked; in the repository `tools/libraries` writes both.
 *
 * For x86-64 there are two more shared libraries, below lib/glibc-hwcaps: for processors with AVX2 and with AVX-512. glibc's loader takes the
 * best one by itself. The proof of these ends at the kit's module, from which the kit's clang compiled them; they are compared by running. For
 * the baseline alone, which the kit compiled, link libknotpasture.a or start the program with GLIBC_TUNABLES=glibc.cpu.hwcaps=-AVX2.
 *
 * No function keeps a pointer, allocates memory, has state of its own or fails: each answers for every input. A pointer is
 * followed by its length, in elements; it may be null where the length is 0. Lent input and lent output must not overlap.
 * The calls may run on any number of threads at once. "Stack" is what a call needs at most below its caller's frame, its return
 * address with it, in the archive for x86-64; what the C library's memset and memcpy take for themselves is not in it.
 *
 * An answer is one word. Its low byte is a number of this table, and 0 means done. Where several refusals apply, the order
 * that each call names decides, first met first; "record by record" is the lowest record first, with all of its checks. A refusal
 * changes no lent byte or value. What a word has no room for, a call puts into a slot whose pointer it is handed, which is not null; a
 * slot is part of the answer and is 0 on a refusal.
 */
#ifndef KNOTPASTURE_H
#define KNOTPASTURE_H

#include <stdbool.h>
#include <stddef.h>
#include <stdint.h>

#ifdef __cplusplus
extern "C" {
#endif

/* The version of this header: three numbers, of which the first is that of the shared library's name. */
#define KNOT_VERSION "1.1.0"

/* The numbers of an answer, their names and their meaning. The tables of Python, Rust, JavaScript and docs/CALLS.md are written from this one
 * by tools/make-refusals. 26 to 28 are answers of commands, not of calls.
 */
enum knot_answer {
    KNOT_DONE = 0,             /* done */
    KNOT_BAD_FORMAT = 1,       /* the format is neither 0 (unsigned) nor 1 (signed) */
    KNOT_BAD_BLOCK = 2,        /* the block is not 16 bytes long */
    KNOT_SHORT_OUTPUT = 3,     /* the room for the result is too small */
    KNOT_RESERVED_MODE = 4,    /* the mode is reserved */
    KNOT_LONG_STORE = 5,       /* the store has more than 2,000 records */
    KNOT_UNEVEN_STORE = 6,     /* the store's length is not a whole number of records */
    KNOT_SPARE_BYTE = 7,       /* a spare byte of a record is not zero */
    KNOT_NO_RECORD = 8,        /* there is no record of that number */
    KNOT_UNEVEN_BLOCKS = 9,    /* the blocks' length is not a multiple of 16 */
    KNOT_INVALID_RECORD = 10,  /* no block has these fields */
    KNOT_BAD_BUFFER = 11,      /* the block's buffer is not 16 bytes long */
    KNOT_RESERVED_BLOCK = 12,  /* a record that is not refused has a reserved mode: the capture is damaged */
    KNOT_FOREIGN_HEADER = 13,  /* the header is not that of a DDS texture that the call reads */
    KNOT_BAD_SIZE = 14,        /* the width or height is out of range */
    KNOT_BAD_BLOCKS = 15,      /* the block bytes are short or left over for the size */
    KNOT_UNEVEN_SIZE = 16,     /* the width or height is zero, not a multiple of 4 or above 4,096 */
    KNOT_BAD_PLACE = 17,       /* the face is bad, or a record that is not placed has a position */
    KNOT_PLACED_RECORD = 18,   /* a placed record does not move back */
    KNOT_BAD_EDGE = 19,        /* the edge is not 1 to 16 */
    KNOT_UNPLACED_RECORD = 20, /* a record is not placed */
    KNOT_PAST_EDGE = 21,       /* a position is at or past the edge */
    KNOT_TAKEN_PLACE = 22,     /* a place is taken twice */
    KNOT_EMPTY_PLACE = 23,     /* a place is empty */
    KNOT_NO_PIXEL = 24,        /* the face, x or y is out of range */
    KNOT_BAD_RECEIPT = 25,     /* the receipt does not fit the store */
    KNOT_OTHER_STORE = 26,     /* the store is not the one that was signed */
    KNOT_OTHER_RECEIPT = 27,   /* the receipt is of another store */
    KNOT_OTHER_FILE = 28       /* the file looks like something else */
};

enum knot_format { KNOT_UNSIGNED = 0, KNOT_SIGNED = 1 };

enum knot_mark {
    KNOT_KEPT = 0, /* neither of the other two; so is every reserved record that is not refused */
    KNOT_TWIN = 1, /* an earlier record that is not refused has the same format and the same 48 values, and neither is reserved */
    KNOT_BAD = 2   /* knot_record_at refuses the record */
};

enum {
    KNOT_BLOCK_SIZE = 16,     /* bytes of a block */
    KNOT_VALUES = 48,         /* values that a block shows */
    KNOT_FIELDS = 32,         /* numbers of a field record */
    KNOT_RECORD_SIZE = 24,    /* bytes of a record */
    KNOT_STORE_LIMIT = 48000, /* bytes of a store, at most */
    KNOT_SCRATCH_VALUES = 49, /* values of scratch space for each record of a store */
    KNOT_RECEIPT_ENTRY = 8    /* bytes of a receipt for each removed record */
};

/* The number of an answer. */
#define KNOT_ANSWER(word) ((unsigned)((word) & 0xFF))

/* The 48 half-float patterns of a block: pixel 0 red, green, blue, then pixel 1; pixel k is column k mod 4 of row k div 4,
 * row 0 on top. They become out[0] to out[47]; the rest of out stays.
 *
 * Answers the number in the low byte, the mode, 1 to 14, in the next, and in bits 16 to 23 how many of the 48 values are minus
 * infinity, 0xFC00. A reserved mode is done, with mode 0 and 48 zeros. Refusals: 1, 2, 3 (fewer than 48 values of room), in
 * this order, with mode and count 0.
 *
 * Stack: 200 bytes.
 */
uint32_t knot_block_pixels(const uint8_t *block, size_t block_length, uint8_t format, uint16_t *out, size_t out_length);

#define KNOT_MODE(word) ((unsigned)((word) >> 8 & 0xFF))
#define KNOT_INFINITIES(word) ((unsigned)((word) >> 16 & 0xFF))

/* The values of a run of blocks of one format, in one call: what knot_block_pixels writes for each in turn, block n's values
 * from out[48 n] on. The rest of out stays.
 *
 * Answers the number; *done becomes the number of blocks, which may be 0, and *infinite how many of the values are minus
 * infinity, 0xFC00. Refusals: 1, 9, 3 (fewer than 48 values of room a block), in this order; nothing is written, not even the
 * first block's values, and *done and *infinite become 0.
 *
 * Stack: 250 bytes.
 */
uint32_t knot_blocks_pixels(const uint8_t *blocks, size_t blocks_length, uint8_t format, uint16_t *out, size_t out_length,
                            size_t *done, size_t *infinite);

/* The pixels of a face of width by height blocks, in rows: the blocks in row order, the top row first, become rows of pixels from the top
 * down, pitch values from the start of one row to the start of the next. Width and height are in blocks, the pitch is in values. Channel c of
 * pixel (x, y), red, green, blue, is at out[pitch * y + 3 * x + c]: it is what knot_block_pixels writes of block width * (y div 4) + x div 4
 * for its pixel 4 * (y mod 4) + x mod 4. Every other value of out stays, those between two rows too. Each block is decoded once.
 *
 * Answers the number; *infinite becomes how many of the values are minus infinity, 0xFC00, and 0 on a refusal. A face without a block, width
 * or height 0 and no block bytes, is done and writes nothing, whatever pitch and room. Refusals: 1, 15 (not 16 * width * height block bytes),
 * 3 (a pitch below 12 * width, or fewer values of room than pitch * (4 * height - 1) + 12 * width), in this order.
 *
 * What knot_blocks_pixels writes of n blocks is a face of 1 by n with a pitch of 12.
 *
 * Stack: 500 bytes.
 */
uint32_t knot_face_pixels(const uint8_t *blocks, size_t blocks_length, size_t width, size_t height, uint8_t format, uint16_t *out,
                          size_t out_length, size_t pitch, size_t *infinite);

enum { KNOT_OPAQUE = 0x3C00 /* the alpha of every pixel: 1.0 */ };

/* What knot_face_pixels writes, with four values a pixel, alpha being KNOT_OPAQUE: channel c of pixel (x, y) is at
 * out[pitch * y + 4 * x + c]. Red, green and blue, the answer and *infinite are those of knot_face_pixels.
 *
 * Refusals: 1, 15, 3 (a pitch below 16 * width, or fewer values of room than pitch * (4 * height - 1) + 16 * width), in this order.
 *
 * Stack: 500 bytes.
 */
uint32_t knot_face_rgba(const uint8_t *blocks, size_t blocks_length, size_t width, size_t height, uint8_t format, uint16_t *out,
                        size_t out_length, size_t pitch, size_t *infinite);

/* The fields of a block: as stored, before any sign extension or transform, and the format that they are read in.
 *
 *   numbers[0]         format, as given
 *   numbers[1]         mode, 1 to 14
 *   numbers[2 to 13]   four endpoints: red, green, blue of the first, then of the second, third and fourth
 *   numbers[14]        partition
 *   numbers[15]        how many pixels lie in region 1
 *   numbers[16 to 31]  the sixteen pixels' indices, at full width
 *
 * Modes 11 to 14 have one region: their last two endpoints, partition and region count are 0.
 * Answers the number in the low byte and the mode in the next. Refusals: 1, 2, 4, 3 (fewer than 32 numbers of room).
 *
 * Stack: 1,450 bytes.
 */
uint32_t knot_block_fields(const uint8_t *block, size_t block_length, uint8_t format, uint16_t *numbers, size_t numbers_length);

/* The block of a field record, the way back of knot_block_fields: numbers as it writes them, out is then the sixteen bytes.
 *
 * A record is valid when its format is 0 or 1, its mode 1 to 14, each endpoint value fits its width (those of the last two
 * endpoints are 0 in modes 11 to 14), the partition is below 32 (0 in modes 11 to 14), the region count is that of the
 * partition, each index fits, and the indices of pixel 0 and of region 1's fix-up pixel have a zero top bit. Of a valid record
 * knot_block_fields gives the same numbers back; and of the fields of a block this gives the same bytes back.
 *
 * Answers the number alone. Refusals: 1, 10 (also for another count of numbers than 32), 11, in this order.
 *
 * Stack: 1,450 bytes.
 */
uint32_t knot_write_block(const uint16_t *numbers, size_t numbers_length, uint8_t *out, size_t out_length);

/* What a field record shows, without a block written first: numbers as knot_block_fields writes them, valid as knot_write_block says. The
 * 48 values become out[0] to out[47], as knot_block_pixels would write them of the record's block; the rest of out stays.
 *
 * Answers the number alone. Refusals: 1, 10 (also for another count of numbers than 32), 3, in this order.
 *
 * Stack: 1,800 bytes.
 */
uint32_t knot_fields_pixels(const uint16_t *numbers, size_t numbers_length, uint16_t *out, size_t out_length);

/* Record n of a store of 24-byte records: tile number (4 bytes, low byte first), format, three zero bytes, block.
 *
 * Answers the number in the low byte; where that is 0, the format in the next byte and the tile in the high 32 bits.
 * Refusals: 5, 6, 8, 1, 7.
 *
 * Stack: 50 bytes.
 */
uint64_t knot_record_at(const uint8_t *store, size_t store_length, size_t n);

#define KNOT_FORMAT(word) ((uint8_t)((word) >> 8 & 0xFF))
#define KNOT_TILE(word) ((uint32_t)((word) >> 32))

/* Where in the store the sixteen block bytes of record n start: 24 n + 8. 0 exactly when knot_record_at refuses n.
 *
 * Stack: 50 bytes.
 */
size_t knot_record_block(const uint8_t *store, size_t store_length, size_t n);

/* The tile number of record n, whatever else the record holds; 0 where there is no such record.
 *
 * Stack: 50 bytes.
 */
uint32_t knot_tile_at(const uint8_t *store, size_t store_length, size_t n);

/* Marks each record of a store as kept, twin or bad (enum knot_mark): marks[n] for record n; the rest of marks stays.
 *
 * Answers the number in the low byte; where that is 0, the number of kept records in bits 16 to 31, of twins in bits 32 to
 * 47, of bad ones in bits 48 to 63. Together they are the number of records. Refusals: 5, 6, 3 (fewer marks than records).
 *
 * Stack: 200,000 bytes.
 */
uint64_t knot_twin_list(const uint8_t *store, size_t store_length, uint8_t *marks, size_t marks_length);

#define KNOT_KEPT_COUNT(word) ((unsigned)((word) >> 16 & 0xFFFF))
#define KNOT_TWIN_COUNT(word) ((unsigned)((word) >> 32 & 0xFFFF))
#define KNOT_BAD_COUNT(word) ((unsigned)((word) >> 48))

/* What knot_twin_list does, over lent scratch space: KNOT_SCRATCH_VALUES values for each record of the store, for a caller that has not the
 * stack of knot_twin_list. Both run the same code. Where the number is 0, answer and marks are those of knot_twin_list.
 *
 * A refusal changes no value of scratch. Where the number is 0 and the store has c records: scratch[n] is a fingerprint of record n, the
 * 48 values from scratch[c + 48 n] on are those that knot_block_pixels writes for its block, and the rest of scratch stays, as does what
 * is there for a record that is refused. Neither answer nor marks depend on what it held before.
 *
 * Refusals: 5, 6, 3 (fewer marks than records, or scratch space for fewer).
 *
 * Stack: 400 bytes.
 */
uint64_t knot_twin_list_in(const uint8_t *store, size_t store_length, uint8_t *marks, size_t marks_length, uint16_t *scratch,
                           size_t scratch_length);

/* The twin list of a store in which no record is damaged. A damaged record is one that is not refused and has a reserved mode;
 * a store with one is refused whole. Where the number is 0, answer and marks are those of knot_twin_list.
 *
 * Refusals: 5, 6, 3, 12. A refusal's word is its number: every count in it is 0. A caller that has not its stack asks knot_first_damaged,
 * and calls knot_twin_list_in where that answers the number of records.
 *
 * Stack: 200,000 bytes.
 */
uint64_t knot_strict_twin_list(const uint8_t *store, size_t store_length, uint8_t *marks, size_t marks_length);

/* The number of the first damaged record; the number of records, store_length / 24, where none is. In a store that is too long (5)
 * or uneven (6) every record is refused, so none is damaged.
 *
 * Stack: 50 bytes.
 */
size_t knot_first_damaged(const uint8_t *store, size_t store_length);

/* The first earlier record that record n is a twin of (KNOT_TWIN): its number; n itself where n is no twin, and where knot_record_at refuses n
 * or there is no such record. So record n is a twin exactly where the answer is below n.
 *
 * Stack: 450 bytes.
 */
size_t knot_first_twin(const uint8_t *store, size_t store_length, size_t n);

/* Whether the copies theorem covers records n and earlier of a store: neither is refused, both have one format, knot_is_trusted holds of both
 * blocks in it, and the blocks have one mode and one partition. A twin n that is covered together with knot_first_twin of n has the same
 * sixteen block bytes as that record: what goes with it is its tile number. False where one of the two is refused or there is no such record.
 *
 * Stack: 1,800 bytes.
 */
bool knot_is_covered(const uint8_t *store, size_t store_length, size_t n, size_t earlier);

/* Writes the records of a store that stay, in order and byte for byte, to out; the rest of out stays. A record is removed exactly when
 * an earlier record that stays has the same format and the same sixteen block bytes, and neither is refused or reserved. Twins that only
 * look alike stay. A removed record's tile number is not in out: knot_clean_with_receipt keeps it in the receipt.
 *
 * Answers the number in the low byte; where that is 0, how many records stay in bits 16 to 31 (the first 24 bytes of out for each) and how
 * many are removed in bits 32 to 47. Refusals: 5, 6, 3 (room for fewer records than the store has); a refusal's word is its number.
 *
 * Stack: 8,500 bytes.
 */
uint64_t knot_clean_store(const uint8_t *store, size_t store_length, uint8_t *out, size_t out_length);

#define KNOT_STAY_COUNT(word) ((unsigned)((word) >> 16 & 0xFFFF))
#define KNOT_REMOVED_COUNT(word) ((unsigned)((word) >> 32 & 0xFFFF))

/* Cleans a store as knot_clean_store does, and writes a receipt of what was removed, by which knot_restore_store undoes it. The receipt has
 * KNOT_RECEIPT_ENTRY bytes for each removed record, in the order of their numbers: the record's number (2 bytes, low byte first), the number of
 * the record that stays for it (2 bytes), its tile (4 bytes). Both numbers are those of the store as it was. The rest of receipt and of out
 * stays.
 *
 * Where the number is 0, answer and out are those of knot_clean_store, and the receipt has an entry for each removed record. Refusals: 5, 6, 3
 * (room for fewer records than the store has, or receipt space below KNOT_RECEIPT_ENTRY bytes a record of the store); a refusal changes neither
 * out nor receipt, and its word is its number. out and receipt must not overlap.
 *
 * Stack: 12,500 bytes.
 */
uint64_t knot_clean_with_receipt(const uint8_t *store, size_t store_length, uint8_t *out, size_t out_length, uint8_t *receipt,
                                 size_t receipt_length);

/* Undoes a clean-up: writes to out the store that it read, from the records that it left and its receipt; the rest of out stays. Record n is what the entry of
 * number n says, its tile followed by bytes 4 to 23 of the record that stays for it; where no entry has that number, the next record of the
 * cleaned store. Of exactly the bytes that knot_clean_with_receipt wrote, the cleaned store and the receipt, it gives back the same store, byte
 * for byte. It cannot see whether a receipt that fits belongs to the cleaned store.
 *
 * Answers the number in the low byte; where that is 0, the number of records in bits 16 to 31. Refusals: 5 (a cleaned store above
 * KNOT_STORE_LIMIT bytes, or records and entries together above 2,000), 6, 25 (a receipt that is not whole, an entry's number that is not above
 * the one before or not below the number of records, or a record that stays that is not below it), 3 (fewer than 24 bytes of room a record), in
 * this order; the receipt is checked whole before anything is written, and a refusal's word is its number.
 *
 * Stack: 100 bytes.
 */
uint64_t knot_restore_store(const uint8_t *cleaned, size_t cleaned_length, const uint8_t *receipt, size_t receipt_length, uint8_t *out,
                            size_t out_length);

#define KNOT_RESTORED(word) ((unsigned)((word) >> 16 & 0xFFFF))

/* The record that stays for record n where knot_clean_store removes that; n where it stays, and where there is no such record.
 *
 * Stack: 100 bytes.
 */
size_t knot_first_of(const uint8_t *store, size_t store_length, size_t n);

/* ---- Records with a place ----
 *
 * A store of them has 32 bytes a record and no header: tile number (4 bytes), format (1), face (1), column (2), row (2), six zero
 * bytes, block (16); numbers low byte first. A face is 0 to 5, or 255 for a record that is not placed, whose column and row are 0.
 * For such stores 5 means more than KNOT_PLACED_STORE_LIMIT bytes and 6 a length that is not a multiple of KNOT_PLACED_SIZE.
 */
enum {
    KNOT_PLACED_SIZE = 32,           /* bytes of a record with a place */
    KNOT_PLACED_STORE_LIMIT = 64000, /* bytes of a store of them, at most */
    KNOT_FACES = 6,                  /* faces are 0 to 5 */
    KNOT_NO_FACE = 255               /* the face of a record that is not placed */
};

/* Record n of a store of records with a place.
 *
 * Answers the number in the low byte; where that is 0, the format in the next byte, the face in bits 16 to 23 and the tile in the
 * high 32 bits (KNOT_FORMAT, KNOT_FACE, KNOT_TILE); *column and *row become the record's. Refusals: 5, 6, 8, 1, 7, 17; *column and
 * *row become 0.
 *
 * Stack: 50 bytes.
 */
uint64_t knot_placed_record_at(const uint8_t *store, size_t store_length, size_t n, uint16_t *column, uint16_t *row);

#define KNOT_FACE(word) ((uint8_t)((word) >> 16 & 0xFF))

/* Where in the store the sixteen block bytes of record n start: 32 n + 16. 0 exactly when knot_placed_record_at refuses n. Stack: 50 bytes. */
size_t knot_placed_record_block(const uint8_t *store, size_t store_length, size_t n);

/* Moves a store of 24-byte records to one of records with a place, none of them placed: out[32 n] to out[32 n + 31] for record n,
 * with the same tile, format and block; the rest of out stays.
 *
 * Answers the number in the low byte; where that is 0, the number of records in bits 16 to 31. Refusals: 5, 6,
 * 3 (fewer than 32 bytes of room a record); then record by record 1, 7. For these two the first such record's number is in bits 32 to
 * 47, which are 0 for every other answer. Nothing is written then, not even the records before it.
 *
 * Stack: 50 bytes.
 */
uint64_t knot_place_store(const uint8_t *old, size_t old_length, uint8_t *out, size_t out_length);

/* Moves a store of records with a place back to one of 24-byte records: the store that knot_place_store made it of.
 * It writes out[24 n] to out[24 n + 23] for record n. No record may be placed.
 *
 * Answers as knot_place_store. Refusals: 5, 6, 3 (fewer than 24 bytes of room a record); then record by record 1, 7, 17, 18, with the
 * record's number.
 *
 * Stack: 50 bytes.
 */
uint64_t knot_unplace_store(const uint8_t *store, size_t store_length, uint8_t *out, size_t out_length);

#define KNOT_MOVED(word) ((unsigned)((word) >> 16 & 0xFFFF))
#define KNOT_UNMOVED_RECORD(word) ((unsigned)((word) >> 32 & 0xFFFF))

/* Sets the place of record n: writes to out the store with the face, column and row of record n set. Every other byte is the store's; the rest
 * of out stays. Face KNOT_NO_FACE, column 0 and row 0 take the place away. What place the record has does not matter.
 *
 * Answers as knot_place_store. Refusals: 5, 6, 3 (less room than the store has bytes), 8, 1, 7 (of record n, with its number; no other record
 * is looked at), 17 (of the place that is given), in this order.
 *
 * Stack: 50 bytes.
 */
uint64_t knot_put_place(const uint8_t *store, size_t store_length, size_t n, uint8_t face, uint16_t column, uint16_t row, uint8_t *out,
                        size_t out_length);

/* ---- The probe ----
 *
 * A probe is a store of records with a place and an edge of n blocks, 1 to KNOT_EDGE_LIMIT, in which each of the 6 faces has each of the
 * n columns in each of the n rows exactly once; so it has 6 n n records. Their order makes no difference to any answer. A face has
 * 4 n by 4 n pixels: pixel (x, y) is pixel (x mod 4, y mod 4) of the block at column x div 4, row y div 4, in the format of that block's
 * own record; row 0 is on top.
 *
 * knot_probe_check says in which order a store is checked.
 */
enum {
    KNOT_EDGE_LIMIT = 16,   /* blocks on an edge, at most */
    KNOT_PROBE_TABLE = 1536 /* values of the table of a probe that is opened: the places of the largest one */
};

/* The three half-float patterns of a pixel of a probe.
 *
 * Answers the number in the low byte; where that is 0, red in bits 16 to 31, green in bits 32 to 47, blue in bits 48 to 63. A
 * refusal is the number alone. *faulty becomes the first faulty record's number for 1, 7, 17, 20, 21 and 22, and 0 for every other
 * answer. Refusals: those of knot_probe_check, then 24. The store is checked at each call: for many pixels call
 * knot_probe_open once and then knot_probe_pixel_in, or paint a face by knot_probe_face.
 *
 * Stack: 3,500 bytes.
 */
uint64_t knot_probe_pixel(const uint8_t *store, size_t store_length, uint32_t edge, uint32_t face, uint32_t x, uint32_t y,
                          size_t *faulty);

#define KNOT_RED(word) ((uint16_t)((word) >> 16 & 0xFFFF))
#define KNOT_GREEN(word) ((uint16_t)((word) >> 32 & 0xFFFF))
#define KNOT_BLUE(word) ((uint16_t)((word) >> 48))

/* Whether a store is a probe of the edge.
 *
 * Answers the number in the low byte; for 1, 7, 17, 20, 21 and 22 the first faulty record's number in bits 16 to 31, which are 0 for
 * every other answer. Refusals: 19, 5, 6; then record by record 1, 7, 17, 20, 21, 22; then 23.
 *
 * Stack: 3,200 bytes.
 */
uint64_t knot_probe_check(const uint8_t *store, size_t store_length, uint32_t edge);

#define KNOT_FAULTY_RECORD(word) ((unsigned)((word) >> 16 & 0xFFFF))

/* A whole face of a probe: 16 n n pixels of three values, row by row from the top. What knot_probe_pixel answers for (x, y) is from
 * out[3 (4 n y + x)] on; the rest of out stays. Each block is decoded once.
 *
 * Answers the number alone. Refusals: those of knot_probe_check, then 24 (face), then 3 (fewer than 48 n n values of room).
 *
 * Stack: 5,000 bytes.
 */
uint32_t knot_probe_face(const uint8_t *store, size_t store_length, uint32_t edge, uint32_t face, uint16_t *out, size_t out_length);

/* Opens a probe: checks the store once, and fills a lent table by which knot_probe_pixel_in asks for pixels. Table value
 * 256 face + 16 row + column becomes the number of the record at that place, plus 1, and 0 where the probe has no such place; what is
 * behind the first KNOT_PROBE_TABLE values stays. No other table is right.
 *
 * Answers as knot_probe_check. Refusals: those of knot_probe_check, then 3 (fewer than KNOT_PROBE_TABLE values of room).
 *
 * Stack: 3,200 bytes.
 */
uint64_t knot_probe_open(const uint8_t *store, size_t store_length, uint32_t edge, uint16_t *table, size_t table_length);

/* A pixel of a probe that is open: what knot_probe_pixel answers of the same store and edge, where knot_probe_open of these was done and left
 * the table. It looks at one value of the table and at one record. With any other table it answers by what that says, and reads nothing
 * outside the store.
 *
 * Answers as knot_probe_pixel. Refusals: 19, 24, 3 (a table of fewer than KNOT_PROBE_TABLE values), 23 (no record in the table), 8 (a record
 * that the store has not), 1, in this order.
 *
 * Stack: 350 bytes.
 */
uint64_t knot_probe_pixel_in(const uint8_t *store, size_t store_length, const uint16_t *table, size_t table_length, uint32_t edge,
                             uint32_t face, uint32_t x, uint32_t y);

/* The edge by the store's length: the n of 1 to KNOT_EDGE_LIMIT with 192 n n bytes, or 0 if there is none. It reads no byte of the
 * store: knot_probe_check says whether the store is a probe of that edge. Stack: 50 bytes. */
size_t knot_probe_edge(const uint8_t *store, size_t store_length);

/* Makes a probe of the blocks of its six faces: face by face, row by row from the top, all in one format. Record f n n + row n + column
 * has the block at that column and row of face f; its tile number is first_tile plus the record's number, modulo 2^32. out[0] to
 * out[192 n n - 1] become the store, which is a probe of the edge; the rest of out stays. knot_probe_pixel and knot_probe_face of
 * exactly those bytes show the blocks.
 *
 * Answers the number alone; *records becomes the number of records, 6 n n. Refusals: 19, 1, 15 (not 96 n n bytes of blocks), 3 (fewer
 * than 192 n n bytes of room), in this order; nothing is written, and *records becomes 0.
 *
 * Stack: 100 bytes.
 */
uint32_t knot_probe_build(const uint8_t *blocks, size_t blocks_length, uint8_t format, uint32_t edge, uint32_t first_tile, uint8_t *out,
                          size_t out_length, size_t *records);

/* Whether a block meets by itself what the copies theorem asks: read in the format it is of mode 1 to 13; each of its regions has a
 * pixel at index 0 and one at the last index, 7 in two regions and 15 in one, and a channel whose palette values all differ; and, if
 * signed, no endpoint is after the transform the lowest number of its precision. Two such blocks of one format, mode and partition that
 * show the same 48 values are the same sixteen bytes: deleting one of the two loses nothing. False for any other format or length.
 *
 * Stack: 1,700 bytes.
 */
bool knot_is_trusted(const uint8_t *block, size_t block_length, uint8_t format);

/* The sixteen pixels of a BC7 block as bytes: pixel 0 red, green, blue, alpha, then pixel 1, in the order of knot_block_pixels. They become
 * out[0] to out[63], as interpolated, with no sRGB conversion; the rest of out stays.
 *
 * Answers the number in the low byte and the mode in the next: 0 to 7, or KNOT_BC7_RESERVED for a reserved block, which is done and shows 64
 * zeros, alpha too. Refusals: 2, 3 (fewer than 64 bytes of room), in this order, with mode 0.
 *
 * Stack: 300 bytes.
 */
uint32_t knot_bc7_pixels(const uint8_t *block, size_t block_length, uint8_t *out, size_t out_length);

enum { KNOT_BC7_BYTES = 64, KNOT_BC7_RESERVED = 8 };

/* The bytes of a run of BC7 blocks, in one call: what knot_bc7_pixels writes for each in turn, block n's bytes from out[64 n] on. The rest of
 * out stays.
 *
 * Answers the number; *done becomes the number of blocks, which may be 0. Refusals: 9, 3 (fewer than 64 bytes of room a block), in this order;
 * nothing is written, not even the first block's bytes, and *done becomes 0.
 *
 * Stack: 400 bytes.
 */
uint64_t knot_bc7_blocks_pixels(const uint8_t *blocks, size_t blocks_length, uint8_t *out, size_t out_length, size_t *done);

/* DDS files: one two-dimensional texture with one level, under the DX10 header; KNOT_DDS_HEADER bytes and then the blocks, in row order.
 * Width and height are 1 to KNOT_DDS_LIMIT pixels, and rounded up to whole blocks.
 */
enum {
    KNOT_DDS_HEADER = 148,      /* bytes before the blocks */
    KNOT_DDS_LIMIT = 4096,      /* pixels of a side, at most */
    KNOT_DDS_FILE = 16777364    /* bytes of a file, at most */
};

/* Size and format of a DDS file, from its first KNOT_DDS_HEADER bytes alone: a caller learns the size before it has the whole file.
 *
 * Answers the number in the low byte; where that is 0, the format in bits 8 to 15, the width in bits 16 to 31, the height in bits
 * 32 to 47; where it is not, nothing else. Refusals: 13, 14.
 *
 * Stack: 50 bytes.
 */
uint64_t knot_dds_head(const uint8_t *file, size_t file_length);

/* Size and format of a whole DDS file. Answers as knot_dds_head. Refusals: 13, 14, 15.
 *
 * Stack: 100 bytes.
 */
uint64_t knot_dds_read(const uint8_t *file, size_t file_length);

#define KNOT_DDS_FORMAT(word) ((unsigned)((word) >> 8 & 0xFF))
#define KNOT_DDS_WIDTH(word) ((unsigned)((word) >> 16 & 0xFFFF))
#define KNOT_DDS_HEIGHT(word) ((unsigned)((word) >> 32 & 0xFFFF))

/* Where in a DDS file the blocks start: KNOT_DDS_HEADER. 0 exactly when knot_dds_read refuses. They go on to the file's end. Stack: 100 bytes. */
size_t knot_dds_blocks(const uint8_t *file, size_t file_length);

/* What knot_dds_read answers, of BC7 blocks: DXGI format 98 is KNOT_BC7_LINEAR, 99 is KNOT_BC7_SRGB, and 13 means any other header.
 * Refusals: 13, 14, 15.
 *
 * Stack: 100 bytes.
 */
uint64_t knot_bc7_dds_read(const uint8_t *file, size_t file_length);

enum { KNOT_BC7_LINEAR = 0, KNOT_BC7_SRGB = 1 };

/* Where BC7 blocks start: KNOT_DDS_HEADER. 0 exactly when knot_bc7_dds_read refuses. They go on to the file's end. Stack: 100 bytes. */
size_t knot_bc7_dds_blocks(const uint8_t *file, size_t file_length);

/* Size and format of a DDS file with mip levels: 1 to KNOT_DDS_LEVELS of them, 0 taken as 1. The blocks of all levels are there and nothing
 * else, the largest level first; each side is half of the one before, rounded down, and 1 at least. Every other rule is knot_dds_read's, which
 * answers the same of a file of one level. Answers as knot_dds_head, of the largest level. Refusals: 13, 14, 15.
 *
 * Stack: 100 bytes.
 */
uint64_t knot_dds_first_level(const uint8_t *file, size_t file_length);

enum { KNOT_DDS_LEVELS = 13 /* mip levels of a file, at most */ };

/* Where the blocks of the largest level start: KNOT_DDS_HEADER. 0 exactly when knot_dds_first_level refuses. They are 16 bytes for each four by
 * four pixels of width by height, rounded up. Stack: 100 bytes. */
size_t knot_dds_first_blocks(const uint8_t *file, size_t file_length);

/* What knot_dds_first_level answers, of BC7 blocks: the format is as knot_bc7_dds_read says. Refusals: 13, 14, 15.
 *
 * Stack: 100 bytes.
 */
uint64_t knot_bc7_dds_first_level(const uint8_t *file, size_t file_length);

/* Where the BC7 blocks of the largest level start: KNOT_DDS_HEADER. 0 exactly when knot_bc7_dds_first_level refuses. Stack: 100 bytes. */
size_t knot_bc7_dds_first_blocks(const uint8_t *file, size_t file_length);

/* Writes a DDS file: KNOT_DDS_HEADER bytes and the blocks; the rest of out stays. knot_dds_read of exactly those bytes answers the same size
 * and format, and knot_dds_blocks says where the same blocks are.
 *
 * Answers the number in the low byte and the file's length in the bits above it, 0 on a refusal. Refusals: 1, 14, 15, 3 (less room than
 * KNOT_DDS_HEADER bytes and the blocks), in this order.
 *
 * Stack: 50 bytes.
 */
uint64_t knot_dds_write(const uint8_t *blocks, size_t blocks_length, uint8_t format, uint32_t width, uint32_t height, uint8_t *out,
                        size_t out_length);

#define KNOT_FILE_LENGTH(word) ((size_t)((word) >> 8))

/* Portable Float Maps: a picture of blocks in row order as 32-bit floats. The file is the header, `PF`, width, height and `-1.0`, and then the
 * rows from the bottom up. Pixel (x, y), row 0 on top, is at the header's length and 12 * ((height - 1 - y) * width + x): red, green and
 * blue, low byte first, each exactly its half-float pattern, subnormal patterns too; 0xFC00 is minus infinity. Width and height are multiples
 * of 4, 4 to KNOT_PFM_LIMIT.
 */
enum {
    KNOT_PFM_LIMIT = 4096,      /* pixels of a side, at most */
    KNOT_PFM_FILE = 201326610   /* bytes of a file, at most */
};

/* Writes a Portable Float Map; the rest of out stays.
 *
 * Answers the number in the low byte and the file's length in the bits above it (KNOT_FILE_LENGTH), 0 on a refusal. Refusals: 1, 16, 15, 3
 * (less room than the file has bytes), in this order.
 *
 * Stack: 650 bytes.
 */
uint64_t knot_pfm_write(const uint8_t *blocks, size_t blocks_length, uint8_t format, uint32_t width, uint32_t height, uint8_t *out,
                        size_t out_length);

/* The length of the Portable Float Map of a picture; 0 for a size that is refused. Stack: 50 bytes. */
size_t knot_pfm_length(uint32_t width, uint32_t height);

/* OpenEXR files: a picture of blocks in row order as half-floats, each pattern as it is. One part, scan lines from the top down, no
 * compression, channels B, G and R; the data window and the display window are the picture. Line y begins at
 * KNOT_EXR_HEADER + 8 height + (8 + 6 width) y, where entry y of the table behind the header says, with its number and the length of its
 * values, 4 bytes each; then come all blue values, all green ones and all red ones, 2 bytes each, low byte first. Width and height are
 * multiples of 4, 4 to KNOT_EXR_LIMIT.
 */
enum {
    KNOT_EXR_HEADER = 313,      /* bytes before the table of lines */
    KNOT_EXR_LIMIT = 4096,      /* pixels of a side, at most */
    KNOT_EXR_FILE = 100729145   /* bytes of a file, at most */
};

/* Writes an OpenEXR file; the rest of out stays.
 *
 * Answers the number in the low byte and the file's length in the bits above it (KNOT_FILE_LENGTH), 0 on a refusal. Refusals: 1, 16, 15, 3
 * (less room than the file has bytes), in this order.
 *
 * Stack: 550 bytes.
 */
uint64_t knot_exr_write(const uint8_t *blocks, size_t blocks_length, uint8_t format, uint32_t width, uint32_t height, uint8_t *out,
                        size_t out_length);

/* The length of the OpenEXR file of a picture; 0 for a size that is refused. Stack: 50 bytes. */
size_t knot_exr_length(uint32_t width, uint32_t height);

#ifdef __cplusplus
}
#endif

#endif
