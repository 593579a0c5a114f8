/* Calls the functions of knotpasture.h over blocks, fields and stores as a C program does, with good and bad input. Prints each check that fails.
 * Holds S-1, S-31, S-32, S-35, S-36, S-40, S-41, S-43 to S-45, S-47, S-48, S-80, S-82 to S-85, S-87. */
#include "knotpasture.h"

#include "check.h"

static const uint8_t B1[17] = {0};
static const uint8_t B2[16] = {0x13};
static const uint8_t B3[16] = {0x03, 0, 0, 0, 0xF8, 0x1F, 0, 0, 0, 0, 0, 0, 0, 0, 0, 0xF0};
static const uint8_t B4[16] = {0x07, 0, 0, 0, 0xF8, 0x0F, 0, 0, 0, 0, 0, 0, 0, 0, 0, 0xF0};
static const uint8_t B5[16] = {0x0B, 0, 0, 0, 0, 0x08};
static const uint8_t B6[16] = {0x0F, 0, 0, 0, 0x80};
static const uint8_t B7[16] = {0x2F, 0, 0, 0, 0x80};
static const uint8_t B9[16] = {0x1E, 0, 0, 0, 0, 0, 0, 0, 0x7E, 0xA0, 0x01};

/* Mode 14, red from -32768 to -32761: as signed, pixel 5 at index 1 is minus infinity, and no other value is. */
static const uint8_t ONE[16] = {0x0F, 0, 0, 0, 0xB8, 0, 0, 0, 0xFE, 0xFF, 0x1F, 0xFF, 0xFF, 0xFF, 0xFF, 0xFF};

enum { UNTOUCHED = 0xA55A };

static uint16_t values[160];

static void untouch(void)
{
    for (size_t k = 0; k < 160; k++) values[k] = UNTOUCHED;
}

/* The values from `from` up to `to` are all `value`. */
static int all(size_t from, size_t to, uint16_t value)
{
    for (size_t k = from; k < to; k++)
        if (values[k] != value) return 0;
    return 1;
}

static void pixels(void)
{
    untouch();
    CHECK(knot_block_pixels(NULL, 0, 2, NULL, 0) == KNOT_BAD_FORMAT);
    CHECK(knot_block_pixels(NULL, 0, 0, NULL, 0) == KNOT_BAD_BLOCK);
    CHECK(knot_block_pixels(B1, 16, 0, NULL, 0) == KNOT_SHORT_OUTPUT);
    CHECK(knot_block_pixels(B1, 15, 255, values, 47) == KNOT_BAD_FORMAT);
    CHECK(knot_block_pixels(B1, 15, 1, values, 64) == KNOT_BAD_BLOCK);
    CHECK(knot_block_pixels(B1, 17, 1, values, 64) == KNOT_BAD_BLOCK);
    CHECK(knot_block_pixels(B1, 16, 1, values, 47) == KNOT_SHORT_OUTPUT);
    CHECK(all(0, 64, UNTOUCHED));

    uint32_t answer = knot_block_pixels(B1, 16, KNOT_UNSIGNED, values, 48);
    CHECK(KNOT_ANSWER(answer) == KNOT_DONE && KNOT_MODE(answer) == 1 && all(0, 48, 0) && all(48, 64, UNTOUCHED));
    untouch();
    CHECK(knot_block_pixels(B2, 16, KNOT_SIGNED, values, 64) == KNOT_DONE && all(0, 48, 0) && all(48, 64, UNTOUCHED));
    answer = knot_block_pixels(B3, 16, KNOT_UNSIGNED, values, 64);
    CHECK(KNOT_MODE(answer) == 11 && all(0, 45, 0) && values[45] == 0x7BFF && all(46, 48, 0));
    answer = knot_block_pixels(B5, 16, KNOT_UNSIGNED, values, 64);
    CHECK(KNOT_MODE(answer) == 13 && values[0] == 0x3E03 && values[1] == 0 && values[45] == 0x3E03);
    answer = knot_block_pixels(B6, 16, KNOT_SIGNED, values, 64);
    CHECK(KNOT_MODE(answer) == 14 && values[0] == 0xFC00 && values[45] == 0xFC00 && KNOT_INFINITIES(answer) == 16);
    answer = knot_block_pixels(B6, 16, KNOT_UNSIGNED, values, 64);
    CHECK(KNOT_MODE(answer) == 14 && values[0] == 0x3E00 && KNOT_INFINITIES(answer) == 0);
    answer = knot_block_pixels(B7, 16, KNOT_SIGNED, values, 64);
    CHECK(KNOT_MODE(answer) == 14 && values[0] == 0xFBFF && KNOT_INFINITIES(answer) == 0);
    answer = knot_block_pixels(ONE, 16, KNOT_SIGNED, values, 64);
    CHECK(answer == 0x10E00 && values[12] == 0xFBF9 && values[15] == 0xFC00 && values[16] == 0 && KNOT_INFINITIES(answer) == 1);
    answer = knot_block_pixels(B9, 16, KNOT_SIGNED, values, 64);
    CHECK(KNOT_MODE(answer) == 10 && values[21] == 0 && values[24] == 0x85D0 && values[45] == 0x85D0);
}

/* What *done and *infinite then are: 99 where the call left them. */
static size_t blocks_done, infinite;

static uint32_t run(const uint8_t *blocks, size_t length, uint8_t format, size_t room)
{
    blocks_done = infinite = 99;
    return knot_blocks_pixels(blocks, length, format, values, room, &blocks_done, &infinite);
}

static int refused(uint32_t answer, uint32_t number)
{
    return answer == number && blocks_done == 0 && infinite == 0 && all(0, 160, UNTOUCHED);
}

static void runs(void)
{
    uint8_t blocks[49];
    for (int k = 0; k < 16; k++) {
        blocks[k] = B3[k];
        blocks[16 + k] = B5[k];
        blocks[32 + k] = B2[k];
    }
    blocks[48] = 0;

    untouch();
    CHECK(knot_blocks_pixels(NULL, 0, KNOT_SIGNED, NULL, 0, &blocks_done, &infinite) == KNOT_DONE && blocks_done == 0);
    CHECK(run(blocks, 0, KNOT_UNSIGNED, 160) == KNOT_DONE && blocks_done == 0 && all(0, 160, UNTOUCHED));
    for (size_t length = 0; length <= 49; length++)
        for (size_t room = 0; room <= 97; room += room == 0 || room == 49 ? 46 : 1)
            CHECK(refused(run(blocks, length, 2, room), KNOT_BAD_FORMAT));
    for (size_t room = 0; room <= 160; room++) {
        CHECK(refused(run(blocks, 15, KNOT_UNSIGNED, room), KNOT_UNEVEN_BLOCKS));
        CHECK(refused(run(blocks, 17, KNOT_SIGNED, room), KNOT_UNEVEN_BLOCKS));
        CHECK(refused(run(blocks, 33, KNOT_SIGNED, room), KNOT_UNEVEN_BLOCKS));
    }
    CHECK(refused(run(blocks, 16, KNOT_UNSIGNED, 0), KNOT_SHORT_OUTPUT));
    CHECK(refused(run(blocks, 16, KNOT_UNSIGNED, 47), KNOT_SHORT_OUTPUT));
    CHECK(refused(run(blocks, 32, KNOT_UNSIGNED, 48), KNOT_SHORT_OUTPUT));
    CHECK(refused(run(blocks, 32, KNOT_UNSIGNED, 95), KNOT_SHORT_OUTPUT));
    CHECK(refused(run(blocks, 48, KNOT_SIGNED, 143), KNOT_SHORT_OUTPUT));

    CHECK(run(blocks, 16, KNOT_UNSIGNED, 48) == KNOT_DONE && blocks_done == 1 && values[45] == 0x7BFF && all(48, 160, UNTOUCHED));
    untouch();
    CHECK(run(blocks, 16, KNOT_UNSIGNED, 49) == KNOT_DONE && blocks_done == 1 && values[45] == 0x7BFF && all(48, 160, UNTOUCHED));
    untouch();
    CHECK(run(blocks, 32, KNOT_UNSIGNED, 96) == KNOT_DONE && blocks_done == 2 && all(96, 160, UNTOUCHED));
    CHECK(all(0, 45, 0) && values[45] == 0x7BFF && all(46, 48, 0) && values[48] == 0x3E03 && values[93] == 0x3E03 && values[95] == 0);
    CHECK(run(blocks, 32, KNOT_UNSIGNED, 97) == KNOT_DONE && blocks_done == 2 && all(96, 160, UNTOUCHED));
    CHECK(run(blocks, 48, KNOT_UNSIGNED, 144) == KNOT_DONE && blocks_done == 3 && all(96, 144, 0) && all(144, 160, UNTOUCHED));
    CHECK(run(blocks, 48, KNOT_SIGNED, 145) == KNOT_DONE && blocks_done == 3 && infinite == 0 && all(144, 160, UNTOUCHED));

    for (int k = 0; k < 16; k++) {
        blocks[k] = B7[k];
        blocks[16 + k] = B6[k];
        blocks[32 + k] = ONE[k];
    }
    untouch();
    CHECK(refused(run(blocks, 48, 2, 47), KNOT_BAD_FORMAT) && refused(run(blocks, 48, KNOT_SIGNED, 143), KNOT_SHORT_OUTPUT));
    CHECK(run(blocks, 16, KNOT_SIGNED, 48) == KNOT_DONE && infinite == 0);
    CHECK(run(blocks, 32, KNOT_SIGNED, 96) == KNOT_DONE && infinite == 16);
    CHECK(run(blocks, 48, KNOT_SIGNED, 144) == KNOT_DONE && blocks_done == 3 && infinite == 17 && values[111] == 0xFC00);
    CHECK(run(blocks, 48, KNOT_UNSIGNED, 144) == KNOT_DONE && blocks_done == 3 && infinite == 0);
}

static void fields(void)
{
    untouch();
    /* the order 1, 2, 4, 3 */
    for (size_t length = 15; length <= 17; length++) {
        CHECK(knot_block_fields(B2, length, 2, values, 31) == KNOT_BAD_FORMAT);
        for (uint8_t format = 0; format < 2; format++)
            CHECK(knot_block_fields(B2, length, format, values, 31) == (length == 16 ? KNOT_RESERVED_MODE : KNOT_BAD_BLOCK));
    }
    CHECK(knot_block_fields(NULL, 0, 255, NULL, 0) == KNOT_BAD_FORMAT);
    CHECK(knot_block_fields(NULL, 0, 0, NULL, 0) == KNOT_BAD_BLOCK);
    CHECK(knot_block_fields(B2, 16, 2, values, 32) == KNOT_BAD_FORMAT);
    CHECK(knot_block_fields(B2, 16, 1, values, 31) == KNOT_RESERVED_MODE);
    CHECK(knot_block_fields(B2, 16, 0, values, 32) == KNOT_RESERVED_MODE);
    CHECK(knot_block_fields(B3, 16, 0, values, 31) == KNOT_SHORT_OUTPUT);
    CHECK(knot_block_fields(B3, 16, 1, NULL, 0) == KNOT_SHORT_OUTPUT);
    CHECK(all(0, 64, UNTOUCHED));

    uint32_t answer = knot_block_fields(B3, 16, KNOT_SIGNED, values, 32);
    CHECK(KNOT_ANSWER(answer) == KNOT_DONE && KNOT_MODE(answer) == 11 && values[0] == KNOT_SIGNED && values[1] == 11);
    CHECK(all(2, 5, 0) && values[5] == 0x3FF && all(6, 31, 0) && values[31] == 15 && all(32, 64, UNTOUCHED));
    answer = knot_block_fields(B9, 16, KNOT_UNSIGNED, values, 32);
    CHECK(KNOT_MODE(answer) == 10 && values[0] == KNOT_UNSIGNED && values[8] == 0x3F && values[11] == 0 && values[14] == 13 && values[15] == 8);
}

static uint8_t written[18];

static void untouch_bytes(void)
{
    for (size_t k = 0; k < 18; k++) written[k] = 0xA5;
}

static int untouched_bytes(void)
{
    for (size_t k = 0; k < 18; k++)
        if (written[k] != 0xA5) return 0;
    return 1;
}

/* The numbers of a block, one of them changed, are refused and nothing is written. */
static void refused_with(const uint8_t *block, size_t place, uint16_t number)
{
    knot_block_fields(block, 16, KNOT_UNSIGNED, values, 32);
    values[place] = number;
    CHECK(knot_write_block(values, 32, written, 16) == KNOT_INVALID_RECORD && untouched_bytes());
}

/* Each mode's widths: the first endpoint's, and red, green and blue of the others. */
static const uint8_t widths[15][4] = {
    {0}, {10, 5, 5, 5}, {7, 6, 6, 6}, {11, 5, 4, 4}, {11, 4, 5, 4}, {11, 4, 4, 5}, {9, 5, 5, 5}, {8, 6, 5, 5},
    {8, 5, 6, 5}, {8, 5, 5, 6}, {6, 6, 6, 6}, {10, 10, 10, 10}, {11, 9, 9, 9}, {12, 8, 8, 8}, {16, 4, 4, 4}};

static unsigned width_of(unsigned mode, size_t place)
{
    if (place < 3) return widths[mode][0];
    return place < 6 || mode <= 10 ? widths[mode][1 + place % 3] : 0;
}

/* A mode's record with every number at its largest comes back from its block; with any number one higher it is refused. */
static void largest(unsigned mode)
{
    unsigned two = mode <= 10;
    uint16_t numbers[32] = {(uint16_t)(mode % 2), (uint16_t)mode};
    for (size_t place = 0; place < 12; place++) numbers[2 + place] = (uint16_t)((1u << width_of(mode, place)) - 1);
    numbers[14] = two ? 13 : 0;
    numbers[15] = two ? 8 : 0;
    for (size_t pixel = 0; pixel < 16; pixel++)
        numbers[16 + pixel] = (two ? 7 : 15) >> (pixel == 0 || (two && pixel == 15));
    untouch_bytes();
    for (size_t place = 1; place < 32; place++) {
        if (numbers[place] == 0xFFFF) continue;
        numbers[place]++;
        CHECK(knot_write_block(numbers, 32, written, 16) == KNOT_INVALID_RECORD && untouched_bytes());
        numbers[place]--;
    }
    CHECK(knot_write_block(numbers, 32, written, 16) == KNOT_DONE && written[16] == 0xA5 && written[17] == 0xA5);
    CHECK(knot_block_fields(written, 16, (uint8_t)numbers[0], values, 32) == mode << 8);
    for (size_t place = 0; place < 32; place++) CHECK(values[place] == numbers[place]);
}

static void writing(void)
{
    untouch_bytes();
    /* the order 1, 10, 11 */
    knot_block_fields(B3, 16, KNOT_SIGNED, values, 32);
    values[0] = 2, values[1] = 0;
    CHECK(knot_write_block(values, 32, written, 15) == KNOT_BAD_FORMAT);
    values[0] = 256;
    CHECK(knot_write_block(values, 32, written, 16) == KNOT_BAD_FORMAT);
    values[0] = 1;
    CHECK(knot_write_block(values, 32, written, 15) == KNOT_INVALID_RECORD);
    CHECK(knot_write_block(NULL, 0, NULL, 0) == KNOT_INVALID_RECORD);
    values[1] = 11;
    CHECK(knot_write_block(values, 31, written, 16) == KNOT_INVALID_RECORD);
    CHECK(knot_write_block(values, 33, written, 16) == KNOT_INVALID_RECORD);
    for (size_t room = 0; room <= 18; room++)
        CHECK(room == 16 || knot_write_block(values, 32, written, room) == KNOT_BAD_BUFFER);
    CHECK(untouched_bytes());
    refused_with(B3, 1, 0);         /* mode */
    refused_with(B3, 1, 15);
    refused_with(B3, 1, 11 + 256);
    refused_with(B3, 8, 1);         /* a third endpoint in one region */
    refused_with(B3, 14, 1);        /* a partition in one region */
    refused_with(B3, 15, 1);        /* a region count in one region */
    refused_with(B3, 16, 8);        /* pixel 0's top bit */
    refused_with(B9, 14, 32);       /* partition */
    refused_with(B9, 15, 7);        /* region count */
    refused_with(B9, 31, 4);        /* the fix-up pixel's top bit */
    for (unsigned mode = 1; mode <= 14; mode++) largest(mode);

    const uint8_t *blocks[] = {B1, B3, B4, B5, B6, B9};
    for (size_t n = 0; n < sizeof blocks / sizeof *blocks; n++) {
        CHECK(KNOT_ANSWER(knot_block_fields(blocks[n], 16, n % 2, values, 32)) == KNOT_DONE);
        CHECK(knot_write_block(values, 32, written, 16) == KNOT_DONE);
        for (size_t k = 0; k < 16; k++) CHECK(written[k] == blocks[n][k]);
    }
}

static uint8_t store[48001];
static uint8_t marks[2001];

static void put_record(size_t n, uint32_t tile, uint8_t format, const uint8_t *block)
{
    uint8_t *record = store + KNOT_RECORD_SIZE * n;
    for (int k = 0; k < 4; k++) record[k] = (uint8_t)(tile >> 8 * k);
    record[4] = format;
    for (int k = 5; k < 8; k++) record[k] = 0;
    for (int k = 0; k < 16; k++) record[8 + k] = block[k];
}

/* The four records of the listing: tiles 7, 8, 9, 10. */
static void put_four(void)
{
    put_record(0, 7, 0, B3);
    put_record(1, 8, 0, B4);
    put_record(2, 9, 1, B6);
    put_record(3, 10, 2, B1);
}

static void records(void)
{
    put_four();
    CHECK(knot_record_at(NULL, 0, 0) == KNOT_NO_RECORD && knot_record_block(NULL, 0, 0) == 0 && knot_tile_at(NULL, 0, 0) == 0);
    uint64_t answer = knot_record_at(store, 96, 2);
    CHECK(KNOT_ANSWER(answer) == KNOT_DONE && KNOT_FORMAT(answer) == KNOT_SIGNED && KNOT_TILE(answer) == 9);
    CHECK(knot_record_block(store, 96, 2) == 56 && knot_tile_at(store, 96, 2) == 9);
    CHECK(knot_record_at(store, 96, 3) == KNOT_BAD_FORMAT && knot_record_block(store, 96, 3) == 0 && knot_tile_at(store, 96, 3) == 10);
    CHECK(knot_record_at(store, 96, 4) == KNOT_NO_RECORD && knot_record_block(store, 96, 4) == 0 && knot_tile_at(store, 96, 4) == 0);
    CHECK(knot_record_at(store, 96, SIZE_MAX) == KNOT_NO_RECORD && knot_record_block(store, 96, SIZE_MAX) == 0);
    CHECK(knot_record_at(store, 95, 0) == KNOT_UNEVEN_STORE && knot_record_at(store, 97, 0) == KNOT_UNEVEN_STORE);
    for (int spare = 5; spare < 8; spare++) {
        store[24 + spare] = 1;
        CHECK(knot_record_at(store, 96, 1) == KNOT_SPARE_BYTE && knot_record_block(store, 96, 1) == 0);
        store[24 + spare] = 0;
    }
    put_record(1, 0xFFFFFFFF, 1, B4);
    CHECK(knot_record_at(store, 96, 1) == 0xFFFFFFFF00000100 && knot_tile_at(store, 96, 1) == 0xFFFFFFFF);

    CHECK(knot_record_at(store, 48001, 0) == KNOT_LONG_STORE && knot_record_block(store, 48001, 0) == 0);
    CHECK(KNOT_ANSWER(knot_record_at(store, 48000, 1999)) == KNOT_DONE && knot_record_block(store, 48000, 1999) == 47984);
    CHECK(knot_record_at(store, 48000, 2000) == KNOT_NO_RECORD);
    CHECK(KNOT_ANSWER(knot_record_at(store, 47976, 1998)) == KNOT_DONE && knot_record_at(store, 47976, 1999) == KNOT_NO_RECORD);
}

static void twins(void)
{
    put_four();
    CHECK(knot_twin_list(NULL, 0, NULL, 0) == KNOT_DONE);
    for (int n = 0; n < 2001; n++) marks[n] = 9;
    CHECK(knot_twin_list(store, 48001, marks, 2001) == KNOT_LONG_STORE);
    CHECK(knot_twin_list(store, 47999, marks, 2001) == KNOT_UNEVEN_STORE);
    CHECK(knot_twin_list(store, 96, marks, 3) == KNOT_SHORT_OUTPUT);
    CHECK(marks[0] == 9 && marks[3] == 9 && marks[2000] == 9);

    uint64_t answer = knot_twin_list(store, 96, marks, 5);
    CHECK(KNOT_ANSWER(answer) == KNOT_DONE);
    CHECK(KNOT_KEPT_COUNT(answer) == 2 && KNOT_TWIN_COUNT(answer) == 1 && KNOT_BAD_COUNT(answer) == 1);
    CHECK(marks[0] == KNOT_KEPT && marks[1] == KNOT_TWIN && marks[2] == KNOT_KEPT && marks[3] == KNOT_BAD && marks[4] == 9);

    for (size_t n = 0; n < 2000; n++) put_record(n, 1, n % 2, B1);
    answer = knot_twin_list(store, 48000, marks, 2000);
    CHECK(KNOT_KEPT_COUNT(answer) == 2 && KNOT_TWIN_COUNT(answer) == 1998 && KNOT_BAD_COUNT(answer) == 0);
    CHECK(marks[0] == KNOT_KEPT && marks[1] == KNOT_KEPT && marks[2] == KNOT_TWIN && marks[1999] == KNOT_TWIN && marks[2000] == 9);

    for (size_t n = 0; n < 2000; n++) put_record(n, 1, n % 2, B2);
    answer = knot_twin_list(store, 48000, marks, 2000);
    CHECK(KNOT_KEPT_COUNT(answer) == 2000 && marks[0] == KNOT_KEPT && marks[1] == KNOT_KEPT && marks[1999] == KNOT_KEPT);
}

static void strict(void)
{
    put_four();
    CHECK(knot_strict_twin_list(NULL, 0, NULL, 0) == KNOT_DONE);
    CHECK(knot_strict_twin_list(store, 96, marks, 4) == knot_twin_list(store, 96, marks, 4));
    for (size_t n = 0; n < 2001; n++) marks[n] = 9;
    CHECK(knot_strict_twin_list(store, 96, marks, 5) == knot_twin_list(store, 96, marks + 5, 5));
    for (size_t n = 0; n < 5; n++) CHECK(marks[n] == marks[n + 5]);

    for (size_t n = 0; n < 2001; n++) marks[n] = 9;
    put_record(3, 10, 2, B2);
    CHECK(KNOT_ANSWER(knot_strict_twin_list(store, 96, marks + 4, 4)) == KNOT_DONE && marks[7] == KNOT_BAD);
    put_record(3, 10, 1, B2);
    store[24 * 3 + 6] = 1;
    CHECK(KNOT_ANSWER(knot_strict_twin_list(store, 96, marks + 4, 4)) == KNOT_DONE && marks[7] == KNOT_BAD);

    put_record(3, 10, 1, B2);
    CHECK(knot_strict_twin_list(store, 96, marks, 4) == KNOT_RESERVED_BLOCK && knot_first_damaged(store, 96) == 3);
    CHECK(knot_first_damaged(store, 72) == 3 && knot_first_damaged(store, 97) == 4 && knot_first_damaged(NULL, 0) == 0);
    put_record(1, 8, 0, B2);
    CHECK(knot_strict_twin_list(store, 96, marks, 4) == KNOT_RESERVED_BLOCK && knot_first_damaged(store, 96) == 1);
    CHECK(knot_strict_twin_list(store, 96, marks, 3) == KNOT_SHORT_OUTPUT);
    CHECK(knot_strict_twin_list(store, 97, marks, 4) == KNOT_UNEVEN_STORE);
    CHECK(knot_strict_twin_list(store, 48001, marks, 4) == KNOT_LONG_STORE);
    put_record(0, 7, 0, B2);
    CHECK(knot_strict_twin_list(store, 24, marks, 1) == KNOT_RESERVED_BLOCK);
    CHECK(knot_strict_twin_list(store, 24, NULL, 0) == KNOT_SHORT_OUTPUT);
    for (size_t n = 0; n < 4; n++) CHECK(marks[n] == 9);

    for (size_t n = 0; n < 2000; n++) put_record(n, 1, 0, B1);
    put_record(1999, 1, 0, B2);
    CHECK(knot_strict_twin_list(store, 48000, marks, 2000) == KNOT_RESERVED_BLOCK && marks[0] == 9);
    CHECK(knot_first_damaged(store, 48000) == 1999 && knot_first_damaged(store, 48001) == 2000);
}

/* The twin list over lent scratch space: what knot_twin_list answers and marks, whatever the scratch space held before. */
static void scratched(void)
{
    enum { ROOM = 2000 * KNOT_SCRATCH_VALUES };
    static uint16_t scratch[ROOM + 1], values[KNOT_VALUES];
    for (size_t n = 0; n < ROOM + 1; n++) scratch[n] = (uint16_t)(n * 40503);
    for (size_t n = 0; n < 4; n++) marks[n] = 9;
    CHECK(knot_twin_list_in(NULL, 0, NULL, 0, NULL, 0) == KNOT_DONE);
    put_four();
    /* 5, 6, 3 in this order; one value too few of scratch space is 3, and so is one mark too few */
    CHECK(knot_twin_list_in(store, 48001, NULL, 0, NULL, 0) == KNOT_LONG_STORE);
    CHECK(knot_twin_list_in(store, 97, NULL, 0, NULL, 0) == KNOT_UNEVEN_STORE);
    CHECK(knot_twin_list_in(store, 96, marks, 3, scratch, ROOM) == KNOT_SHORT_OUTPUT);
    CHECK(knot_twin_list_in(store, 96, marks, 4, scratch, 4 * KNOT_SCRATCH_VALUES - 1) == KNOT_SHORT_OUTPUT);
    CHECK(knot_twin_list_in(store, 96, marks, 4, NULL, 0) == KNOT_SHORT_OUTPUT);
    for (size_t n = 0; n < ROOM + 1; n++) CHECK(scratch[n] == (uint16_t)(n * 40503));
    for (size_t n = 0; n < 4; n++) CHECK(marks[n] == 9);

    uint64_t answer = knot_twin_list(store, 96, marks, 4);
    CHECK(KNOT_ANSWER(answer) == KNOT_DONE && KNOT_KEPT_COUNT(answer) == 2);
    for (size_t n = 0; n < 4; n++) marks[4 + n] = 9;
    CHECK(knot_twin_list_in(store, 96, marks + 4, 4, scratch, 4 * KNOT_SCRATCH_VALUES) == answer);
    for (size_t n = 0; n < 4; n++) CHECK(marks[n] == marks[4 + n]);
    /* the pictures stand behind the fingerprints; record 3 is refused and its places stay, as all behind does */
    for (size_t n = 0; n < 3; n++) {
        knot_block_pixels(store + 24 * n + 8, 16, store[24 * n + 4], values, KNOT_VALUES);
        for (size_t v = 0; v < KNOT_VALUES; v++) CHECK(scratch[4 + KNOT_VALUES * n + v] == values[v]);
    }
    CHECK(scratch[0] == scratch[1] && scratch[0] != scratch[2] && scratch[3] == (uint16_t)(3 * 40503));
    for (size_t n = 4 + 3 * KNOT_VALUES; n < ROOM + 1; n++) CHECK(scratch[n] == (uint16_t)(n * 40503));

    for (size_t n = 0; n < 2000; n++) put_record(n, n, n % 2, n % 3 ? B3 : B4);
    answer = knot_twin_list(store, 48000, marks, 2000);
    CHECK(KNOT_ANSWER(answer) == KNOT_DONE && KNOT_KEPT_COUNT(answer) + KNOT_TWIN_COUNT(answer) == 2000);
    static uint8_t again[2000];
    CHECK(knot_twin_list_in(store, 48000, again, 2000, scratch, ROOM) == answer && scratch[ROOM] == (uint16_t)(ROOM * 40503u));
    for (size_t n = 0; n < 2000; n++) CHECK(marks[n] == again[n]);
    CHECK(knot_twin_list_in(store, 48000, again, 2000, scratch, ROOM - 1) == KNOT_SHORT_OUTPUT);
}

static void cleaning(void)
{
    static uint8_t out[48001];
    for (size_t n = 0; n < sizeof out; n++) out[n] = 9;
    CHECK(knot_clean_store(NULL, 0, NULL, 0) == KNOT_DONE);
    put_four();
    CHECK(knot_clean_store(store, 48001, out, 48001) == KNOT_LONG_STORE);
    CHECK(knot_clean_store(store, 97, out, 48001) == KNOT_UNEVEN_STORE);
    CHECK(knot_clean_store(store, 96, out, 95) == KNOT_SHORT_OUTPUT);
    for (size_t n = 0; n < sizeof out; n++) CHECK(out[n] == 9);
    /* record 1 looks like record 0 and has other bytes */
    uint64_t answer = knot_clean_store(store, 96, out, 96);
    CHECK(KNOT_ANSWER(answer) == KNOT_DONE && KNOT_STAY_COUNT(answer) == 4 && KNOT_REMOVED_COUNT(answer) == 0);
    for (size_t n = 0; n < 96; n++) CHECK(out[n] == store[n]);
    /* 0 and 4 are copies, 1 has the other format, 2 and 3 are reserved, 5 is refused, 6 is 0 again */
    for (size_t n = 0; n < 7; n++) put_record(n, 70 + n, n == 1, n == 2 || n == 3 ? B2 : B3);
    store[24 * 5 + 7] = 1;
    for (size_t n = 0; n < sizeof out; n++) out[n] = 9;
    answer = knot_clean_store(store, 168, out, 168);
    CHECK(KNOT_ANSWER(answer) == KNOT_DONE && KNOT_STAY_COUNT(answer) == 5 && KNOT_REMOVED_COUNT(answer) == 2);
    for (size_t n = 0; n < 96; n++) CHECK(out[n] == store[n]);
    for (size_t n = 0; n < 24; n++) CHECK(out[96 + n] == store[120 + n]);
    for (size_t n = 120; n < sizeof out; n++) CHECK(out[n] == 9);
    for (size_t n = 0; n < 8; n++) CHECK(knot_first_of(store, 168, n) == (n == 4 || n == 6 ? 0 : n));
    CHECK(knot_clean_store(out, 120, store, 120) == (5 << 16));
    for (size_t n = 0; n < 120; n++) CHECK(out[n] == store[n]);

    for (size_t n = 0; n < 2000; n++) put_record(n, n, 0, B3);
    answer = knot_clean_store(store, 48000, out, 48000);
    CHECK(KNOT_ANSWER(answer) == KNOT_DONE && KNOT_STAY_COUNT(answer) == 1 && KNOT_REMOVED_COUNT(answer) == 1999 && out[120] == 9);
}

static uint8_t receipt[16009], back[48001];

/* The store of as many bytes comes back from what the clean-up with a receipt left of it. */
static void comes_back(size_t length, const uint8_t *out, uint64_t answer)
{
    size_t left = KNOT_RECORD_SIZE * KNOT_STAY_COUNT(answer), told = KNOT_RECEIPT_ENTRY * KNOT_REMOVED_COUNT(answer);
    for (size_t n = 0; n < sizeof back; n++) back[n] = 9;
    uint64_t restored = knot_restore_store(out, left, receipt, told, back, length);
    CHECK(restored == (uint64_t)(length / KNOT_RECORD_SIZE) << 16 && KNOT_RESTORED(restored) == length / KNOT_RECORD_SIZE);
    for (size_t n = 0; n < length; n++) CHECK(back[n] == store[n]);
    CHECK(back[length] == 9);
}

static void restoring(void)
{
    static uint8_t out[48001];
    for (size_t n = 0; n < sizeof out; n++) out[n] = 9;
    for (size_t n = 0; n < sizeof receipt; n++) receipt[n] = 9;
    CHECK(knot_clean_with_receipt(NULL, 0, NULL, 0, NULL, 0) == KNOT_DONE && knot_restore_store(NULL, 0, NULL, 0, NULL, 0) == KNOT_DONE);
    /* 0 and 4 are copies, 1 has the other format, 2 and 3 are reserved, 5 is refused, 6 is 0 again */
    for (size_t n = 0; n < 7; n++) put_record(n, 0x1000000 + 70 + n, n == 1, n == 2 || n == 3 ? B2 : B3);
    store[24 * 5 + 7] = 1;
    CHECK(knot_clean_with_receipt(store, 48001, out, 48001, receipt, 16009) == KNOT_LONG_STORE);
    CHECK(knot_clean_with_receipt(store, 169, out, 168, receipt, 56) == KNOT_UNEVEN_STORE);
    CHECK(knot_clean_with_receipt(store, 168, out, 167, receipt, 56) == KNOT_SHORT_OUTPUT);
    CHECK(knot_clean_with_receipt(store, 168, out, 168, receipt, 55) == KNOT_SHORT_OUTPUT);
    for (size_t n = 0; n < sizeof out; n++) CHECK(out[n] == 9);
    for (size_t n = 0; n < sizeof receipt; n++) CHECK(receipt[n] == 9);
    uint64_t answer = knot_clean_with_receipt(store, 168, out, 168, receipt, 56);
    CHECK(answer == knot_clean_store(store, 168, back, 168) && KNOT_STAY_COUNT(answer) == 5 && KNOT_REMOVED_COUNT(answer) == 2);
    for (size_t n = 0; n < 120; n++) CHECK(out[n] == back[n]);
    for (size_t n = 120; n < sizeof out; n++) CHECK(out[n] == 9);
    static const uint8_t told[16] = {4, 0, 0, 0, 74, 0, 0, 1, 6, 0, 0, 0, 76, 0, 0, 1};
    for (size_t n = 0; n < sizeof receipt; n++) CHECK(receipt[n] == (n < 16 ? told[n] : 9));
    comes_back(168, out, answer);

    for (size_t n = 0; n < sizeof back; n++) back[n] = 9;
    /* the order 5, 6, 25, 3 */
    CHECK(knot_restore_store(out, 48001, receipt, 15, back, 0) == KNOT_LONG_STORE);
    CHECK(knot_restore_store(out, 47999, receipt, 16, back, 0) == KNOT_LONG_STORE);
    CHECK(knot_restore_store(out, 119, receipt, 15, back, 0) == KNOT_UNEVEN_STORE);
    CHECK(knot_restore_store(out, 120, receipt, 15, back, 0) == KNOT_BAD_RECEIPT);
    CHECK(knot_restore_store(out, 120, receipt, 16, back, 167) == KNOT_SHORT_OUTPUT);
    static const uint8_t other[][2] = {{0, 0}, {8, 4}, {8, 3}, {8, 7}, {9, 1}, {2, 4}, {10, 6}, {2, 5}, {3, 1}};
    for (size_t k = 0; k < sizeof other / sizeof *other; k++) {
        uint8_t was = receipt[other[k][0]];
        receipt[other[k][0]] = other[k][1];
        CHECK(knot_restore_store(out, 120, receipt, 16, back, 168) == KNOT_BAD_RECEIPT);
        receipt[other[k][0]] = was;
    }
    for (size_t n = 0; n < sizeof back; n++) CHECK(back[n] == 9);

    for (size_t n = 0; n < 2000; n++) put_record(n, n, 0, B3);
    answer = knot_clean_with_receipt(store, 48000, out, 48000, receipt, 16000);
    CHECK(KNOT_STAY_COUNT(answer) == 1 && KNOT_REMOVED_COUNT(answer) == 1999 && receipt[15984] == 0xCF && receipt[15992] == 9);
    comes_back(48000, out, answer);
    CHECK(knot_restore_store(out, 48, receipt, 15992, back, 48001) == KNOT_LONG_STORE);
}

static void trusted(void)
{
    /* two regions, red from 0 to 63; signed with an end at -32, and with its neighbour */
    static const uint8_t two[16] = {0x1E, 0, 0, 0, 0xF8, 0x01, 0, 0, 0x80, 0x1F, 0x70, 0, 0, 0, 0, 0x38};
    static const uint8_t least[16] = {0x1E, 0, 0, 0, 0xF8, 0, 0, 0, 0xC0, 0x0F, 0x70, 0, 0, 0, 0, 0x38};
    static const uint8_t next[16] = {0x1E, 0, 0, 0, 0xF8, 0, 0, 0, 0xC2, 0x0F, 0x70, 0, 0, 0, 0, 0x38};
    CHECK(!knot_is_trusted(NULL, 0, KNOT_UNSIGNED) && !knot_is_trusted(B3, 15, KNOT_UNSIGNED) && !knot_is_trusted(B1, 17, KNOT_UNSIGNED));
    CHECK(knot_is_trusted(B3, 16, KNOT_UNSIGNED) && knot_is_trusted(B4, 16, KNOT_UNSIGNED));
    CHECK(!knot_is_trusted(B3, 16, 2) && !knot_is_trusted(B3, 16, 255));
    CHECK(!knot_is_trusted(B1, 16, KNOT_UNSIGNED) && !knot_is_trusted(B2, 16, KNOT_UNSIGNED));
    CHECK(!knot_is_trusted(B5, 16, KNOT_UNSIGNED) && !knot_is_trusted(B6, 16, KNOT_UNSIGNED) && !knot_is_trusted(B6, 16, KNOT_SIGNED));
    CHECK(knot_is_trusted(two, 16, KNOT_UNSIGNED) && knot_is_trusted(two, 16, KNOT_SIGNED));
    CHECK(knot_is_trusted(least, 16, KNOT_UNSIGNED) && !knot_is_trusted(least, 16, KNOT_SIGNED) && knot_is_trusted(next, 16, KNOT_SIGNED));
}

int main(void)
{
    pixels();
    runs();
    fields();
    writing();
    records();
    twins();
    strict();
    scratched();
    cleaning();
    restoring();
    trusted();
    printf("C: %u checks, %u failed\n", checks, failures);
    return failures != 0;
}
