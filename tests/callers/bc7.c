/* Calls the functions for BC7 of knotpasture.h as a C program does, with good and bad input. Prints each check that fails.
 * Holds S-1, S-66, S-72, S-80. */
#include "knotpasture.h"

#include "check.h"

/* C1, C4, C7, C9 and C11 of S-72, one behind the other, and a byte more. */
static const uint8_t BLOCKS[5 * 16 + 1] = {
    0x00, 0xFF, 0xFF, 0xFF, 0xFF, 0xFF, 0xFF, 0xFF, 0xFF, 0xFF, 0xFF, 0xFF, 0xFF, 0xFF, 0xFF, 0xFF,
    0x2C, 0xC1, 0x07, 0x00, 0x00, 0x00, 0x00, 0x04, 0x00, 0x00, 0x00, 0x40, 0xF8, 0xFF, 0xFF, 0xFF,
    0xD0, 0xE0, 0x8F, 0xF0, 0x01, 0x00, 0xCA, 0xC9, 0xC9, 0xC9, 0x89, 0xC6, 0xFA, 0x88, 0xC6, 0xFA,
    0x40, 0xC0, 0x1F, 0x00, 0x04, 0x00, 0x00, 0x00, 0x11, 0x32, 0x54, 0x76, 0x98, 0xBA, 0xDC, 0xFE,
    0xFF, 0xFF, 0xFF, 0xFF, 0xFF, 0xFF, 0xFF, 0xFF, 0xFF, 0xFF, 0xFF, 0xFF, 0xFF, 0xFF, 0xFF, 0xFF,
};

enum { C1 = 0, C4 = 16, C7 = 32, C9 = 48, C11 = 64, UNTOUCHED = 0xA5 };

static uint8_t out[5 * 64 + 2];

static void untouch(void)
{
    for (size_t k = 0; k < sizeof out; k++) out[k] = UNTOUCHED;
}

static int all(size_t from, size_t to, uint8_t value)
{
    for (size_t k = from; k < to; k++)
        if (out[k] != value) return 0;
    return 1;
}

/* The pixel whose bytes start at `at` is RRGGBBAA. */
static int pixel(size_t at, uint32_t shown)
{
    return ((uint32_t)out[at] << 24 | (uint32_t)out[at + 1] << 16 | (uint32_t)out[at + 2] << 8 | out[at + 3]) == shown;
}

static void limits(void)
{
    static const size_t SIZES[] = {0, 15, 16, 17}, ROOMS[] = {0, 63, 64, 65};
    for (size_t i = 0; i < 4; i++)
        for (size_t j = 0; j < 4; j++) {
            untouch();
            uint32_t word = knot_bc7_pixels(SIZES[i] ? BLOCKS + C9 : NULL, SIZES[i], ROOMS[j] ? out : NULL, ROOMS[j]);
            if (SIZES[i] != 16) CHECK(word == KNOT_BAD_BLOCK && all(0, sizeof out, UNTOUCHED));
            else if (ROOMS[j] < KNOT_BC7_BYTES) CHECK(word == KNOT_SHORT_OUTPUT && all(0, sizeof out, UNTOUCHED));
            else CHECK(word == 0x600 && pixel(0, 0x00000000) && pixel(60, 0xFF810101) && all(64, sizeof out, UNTOUCHED));
        }
}

static void pixels(void)
{
    untouch();
    uint32_t word = knot_bc7_pixels(BLOCKS + C1, 16, out, sizeof out);
    CHECK(KNOT_ANSWER(word) == KNOT_DONE && KNOT_MODE(word) == KNOT_BC7_RESERVED && all(0, 64, 0) && all(64, sizeof out, UNTOUCHED));
    word = knot_bc7_pixels(BLOCKS + C4, 16, out, sizeof out);
    CHECK(KNOT_MODE(word) == 2 && pixel(0, 0x540000FF) && pixel(40, 0x002B00FF) && pixel(44, 0x000008FF));
    word = knot_bc7_pixels(BLOCKS + C7, 16, out, sizeof out);
    CHECK(KNOT_MODE(word) == 4 && pixel(4, 0x242BDB16) && pixel(8, 0x4857B714) && pixel(60, 0xFF820008));
    word = knot_bc7_pixels(BLOCKS + C11, 16, out, sizeof out);
    CHECK(KNOT_ANSWER(word) == KNOT_DONE && KNOT_MODE(word) == 0 && all(0, 64, 0xFF));
}

static void runs(void)
{
    size_t done = 99;
    untouch();
    CHECK(knot_bc7_blocks_pixels(BLOCKS, 81, out, 0, &done) == KNOT_UNEVEN_BLOCKS && done == 0);
    done = 99;
    CHECK(knot_bc7_blocks_pixels(BLOCKS, 79, out, 5 * 64, &done) == KNOT_UNEVEN_BLOCKS && done == 0);
    done = 99;
    CHECK(knot_bc7_blocks_pixels(BLOCKS, 80, out, 5 * 64 - 1, &done) == KNOT_SHORT_OUTPUT && done == 0);
    done = 99;
    CHECK(knot_bc7_blocks_pixels(NULL, 0, NULL, 0, &done) == KNOT_DONE && done == 0);
    CHECK(all(0, sizeof out, UNTOUCHED));
    CHECK(knot_bc7_blocks_pixels(BLOCKS, 80, out, 5 * 64, &done) == KNOT_DONE && done == 5);
    CHECK(all(0, 64, 0) && pixel(64, 0x540000FF) && pixel(132, 0x242BDB16) && pixel(252, 0xFF810101) && all(256, 320, 0xFF));
    CHECK(all(320, sizeof out, UNTOUCHED));
    untouch();
    CHECK(knot_bc7_blocks_pixels(BLOCKS + C4, 16, out, 65, &done) == KNOT_DONE && done == 1 && pixel(0, 0x540000FF) && all(64, sizeof out, UNTOUCHED));
}

int main(void)
{
    limits();
    pixels();
    runs();
    printf("C, BC7: %u checks, %u failures\n", checks, failures);
    return failures != 0;
}
