/* Calls knot_fields_pixels as a C program does: its refusals in their order, what it writes and leaves, and that the fields of a block show
 * what the block shows. Prints each check that fails. Holds S-1, S-38, S-87. */
#include "knotpasture.h"

#include "check.h"

enum { UNTOUCHED = 0xA55A, ROOM = 64 };

static uint16_t numbers[33], values[ROOM], painted[ROOM];

static void untouch(void)
{
    for (size_t k = 0; k < ROOM; k++) values[k] = painted[k] = UNTOUCHED;
}

static int untouched(void)
{
    for (size_t k = 0; k < ROOM; k++)
        if (values[k] != UNTOUCHED) return 0;
    return 1;
}

/* The two calls write the same values and leave the same ones. */
static int same(void)
{
    for (size_t k = 0; k < ROOM; k++)
        if (values[k] != painted[k]) return 0;
    return 1;
}

static const uint8_t B3[16] = {0x03, 0, 0, 0, 0xF8, 0x1F, 0, 0, 0, 0, 0, 0, 0, 0, 0, 0xF0};
static const uint8_t B6[16] = {0x0F, 0, 0, 0, 0x80};
static const uint8_t B9[16] = {0x1E, 0, 0, 0, 0, 0, 0, 0, 0x7E, 0xA0, 0x01};

static void refusals(void)
{
    untouch();
    knot_block_fields(B3, 16, KNOT_SIGNED, numbers, 32);
    numbers[0] = 2, numbers[1] = 0;
    CHECK(knot_fields_pixels(numbers, 32, values, 47) == KNOT_BAD_FORMAT);
    numbers[0] = 1;
    CHECK(knot_fields_pixels(numbers, 32, values, 47) == KNOT_INVALID_RECORD);
    numbers[1] = 15;
    CHECK(knot_fields_pixels(numbers, 32, values, ROOM) == KNOT_INVALID_RECORD);
    CHECK(knot_fields_pixels(NULL, 0, NULL, 0) == KNOT_INVALID_RECORD);
    numbers[1] = 11;
    CHECK(knot_fields_pixels(numbers, 31, values, ROOM) == KNOT_INVALID_RECORD);
    CHECK(knot_fields_pixels(numbers, 33, values, ROOM) == KNOT_INVALID_RECORD);
    numbers[8] = 1; /* a third endpoint in one region */
    CHECK(knot_fields_pixels(numbers, 32, values, ROOM) == KNOT_INVALID_RECORD);
    numbers[8] = 0, numbers[16] = 8; /* pixel 0's top bit */
    CHECK(knot_fields_pixels(numbers, 32, values, ROOM) == KNOT_INVALID_RECORD);
    numbers[16] = 0;
    CHECK(knot_fields_pixels(numbers, 32, values, 47) == KNOT_SHORT_OUTPUT);
    CHECK(knot_fields_pixels(numbers, 32, NULL, 0) == KNOT_SHORT_OUTPUT);
    CHECK(untouched());
}

/* An endpoint edited by hand, and no block written: B6's first red one higher is B7, all FBFF; B3's second red lower, pixel 15 follows. */
static void edited(void)
{
    untouch();
    knot_block_fields(B6, 16, KNOT_SIGNED, numbers, 32);
    CHECK(knot_fields_pixels(numbers, 32, values, 48) == KNOT_DONE && values[0] == 0xFC00 && values[45] == 0xFC00 && values[1] == 0);
    numbers[2]++;
    CHECK(knot_fields_pixels(numbers, 32, values, 48) == KNOT_DONE && values[0] == 0xFBFF && values[45] == 0xFBFF && values[48] == UNTOUCHED);
    knot_block_fields(B3, 16, KNOT_UNSIGNED, numbers, 32);
    CHECK(knot_fields_pixels(numbers, 32, values, ROOM) == KNOT_DONE && values[45] == 0x7BFF && values[42] == 0 && values[48] == UNTOUCHED);
    numbers[5] = 0;
    CHECK(knot_fields_pixels(numbers, 32, values, ROOM) == KNOT_DONE && values[45] == 0);
    knot_block_fields(B9, 16, KNOT_SIGNED, numbers, 32);
    CHECK(knot_fields_pixels(numbers, 32, values, ROOM) == KNOT_DONE && values[21] == 0 && values[24] == 0x85D0 && values[45] == 0x85D0);
}

/* xorshift64*, from one seed. */
static uint64_t state = 0x9E3779B97F4A7C15u;

static uint64_t next(void)
{
    state ^= state >> 12, state ^= state << 25, state ^= state >> 27;
    return state * 0x2545F4914F6CDD1Du;
}

/* The fields of an unreserved block show what the block shows: random blocks of every mode, in both formats. */
static void blocks(void)
{
    static const uint8_t codes[14] = {0, 1, 2, 6, 10, 14, 18, 22, 26, 30, 3, 7, 11, 15};
    for (unsigned n = 0; n < 14000; n++) {
        uint8_t block[16], mode = codes[n % 14];
        uint64_t low = next(), high = next();
        for (size_t k = 0; k < 8; k++) block[k] = (uint8_t)(low >> (8 * k)), block[8 + k] = (uint8_t)(high >> (8 * k));
        block[0] = mode < 2 ? (uint8_t)((block[0] & 0xFC) | mode) : (uint8_t)((block[0] & 0xE0) | mode);
        uint8_t format = (n / 14) % 2;
        untouch();
        CHECK(knot_block_fields(block, 16, format, numbers, 32) == (n % 14 + 1) << 8);
        CHECK(KNOT_ANSWER(knot_block_pixels(block, 16, format, painted, ROOM)) == KNOT_DONE);
        CHECK(knot_fields_pixels(numbers, 32, values, ROOM) == KNOT_DONE && same());
    }
}

int main(void)
{
    refusals();
    edited();
    blocks();
    printf("C, fields shown: %u checks, %u failed\n", checks, failures);
    return failures != 0;
}
