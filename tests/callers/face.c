/* Calls the functions of knotpasture.h over a face of blocks, and those over the twins of a store, as a C program does, with good and bad
 * input. Prints each check that fails.
 *
 * The last part lends a window of a larger picture: the face stands in it, and what is around it stays.
 * Holds S-1, S-33, S-83, S-84, S-87.
 */
#include "knotpasture.h"

#include "check.h"

enum { WIDE = 3, HIGH = 2, BYTES = 16 * WIDE * HIGH, UNTOUCHED = 0xA55A, MOST = 1000 };

/* Six blocks: red of pixel 15 is 0x7BFF; as signed, minus infinity in all of red; reserved; as signed, minus infinity in red of pixel 5 alone;
 * two lower rows of 0x85D0 in red; mode 1. */
static const uint8_t BLOCKS[BYTES + 16] = {
    0x03, 0, 0, 0, 0xF8, 0x1F, 0, 0, 0, 0, 0, 0, 0, 0, 0, 0xF0, 0x0F, 0, 0, 0, 0x80, 0, 0, 0, 0, 0, 0, 0, 0, 0, 0, 0,
    0x13, 0, 0, 0, 0, 0, 0, 0, 0, 0, 0, 0, 0, 0, 0, 0, 0x0F, 0, 0, 0, 0xB8, 0, 0, 0, 0xFE, 0xFF, 0x1F, 0xFF, 0xFF, 0xFF, 0xFF, 0xFF,
    0x1E, 0, 0, 0, 0, 0, 0, 0, 0x7E, 0xA0, 0x01, 0, 0, 0, 0, 0, 0x48, 0x11, 0x22, 0x33, 0x44, 0x55, 0x66, 0x77, 0x88, 0x99, 0xAA, 0xBB, 0xCC, 0xDD, 0xEE, 0xFF};

static uint16_t out[MOST], run[48 * WIDE * HIGH];

static void untouch(void)
{
    for (size_t k = 0; k < MOST; k++) out[k] = UNTOUCHED;
}

static int untouched(void)
{
    for (size_t k = 0; k < MOST; k++)
        if (out[k] != UNTOUCHED) return 0;
    return 1;
}

static uint32_t ask(int lanes, const uint8_t *blocks, size_t length, size_t width, size_t height, uint8_t format, size_t room, size_t pitch, size_t *infinite)
{
    return lanes == 4 ? knot_face_rgba(blocks, length, width, height, format, out, room, pitch, infinite)
                      : knot_face_pixels(blocks, length, width, height, format, out, room, pitch, infinite);
}

static void refusals(int lanes)
{
    size_t infinite = 7, row = 4 * lanes * WIDE, huge = ~(size_t)0, exact = row * (4 * HIGH - 1) + row;
    untouch();
    CHECK(ask(lanes, NULL, 0, 1, 1, 2, 0, 0, &infinite) == KNOT_BAD_FORMAT && infinite == 0);
    CHECK(ask(lanes, NULL, 0, 1, 1, 1, 0, 0, &infinite) == KNOT_BAD_BLOCKS);
    CHECK(ask(lanes, BLOCKS, BYTES, WIDE, HIGH, 255, exact, row, &infinite) == KNOT_BAD_FORMAT);
    CHECK(ask(lanes, BLOCKS, BYTES - 1, WIDE, HIGH, 1, exact, row, &infinite) == KNOT_BAD_BLOCKS);
    CHECK(ask(lanes, BLOCKS, BYTES + 1, WIDE, HIGH, 1, exact, row, &infinite) == KNOT_BAD_BLOCKS);
    CHECK(ask(lanes, BLOCKS, BYTES + 16, WIDE, HIGH, 1, exact, row, &infinite) == KNOT_BAD_BLOCKS);
    CHECK(ask(lanes, BLOCKS, BYTES, WIDE + 1, HIGH, 1, exact, row, &infinite) == KNOT_BAD_BLOCKS);
    CHECK(ask(lanes, BLOCKS, BYTES, WIDE, HIGH - 1, 1, exact, row, &infinite) == KNOT_BAD_BLOCKS);
    CHECK(ask(lanes, BLOCKS, BYTES, 0, HIGH, 1, exact, row, &infinite) == KNOT_BAD_BLOCKS);
    CHECK(ask(lanes, BLOCKS, BYTES, WIDE, 0, 1, exact, row, &infinite) == KNOT_BAD_BLOCKS);
    CHECK(ask(lanes, BLOCKS, BYTES, huge, huge, 1, exact, row, &infinite) == KNOT_BAD_BLOCKS);
    CHECK(ask(lanes, BLOCKS, BYTES, WIDE, huge / WIDE + 1 + HIGH, 1, exact, row, &infinite) == KNOT_BAD_BLOCKS);
    CHECK(ask(lanes, BLOCKS, BYTES, (huge >> 4) + 1, 16, 1, exact, row, &infinite) == KNOT_BAD_BLOCKS);
    CHECK(ask(lanes, BLOCKS, BYTES, WIDE, HIGH, 1, MOST, row - 1, &infinite) == KNOT_SHORT_OUTPUT);
    CHECK(ask(lanes, BLOCKS, BYTES, WIDE, HIGH, 1, MOST, 0, &infinite) == KNOT_SHORT_OUTPUT);
    CHECK(ask(lanes, BLOCKS, BYTES, WIDE, HIGH, 1, exact - 1, row, &infinite) == KNOT_SHORT_OUTPUT);
    CHECK(ask(lanes, BLOCKS, BYTES, WIDE, HIGH, 1, exact, row + 1, &infinite) == KNOT_SHORT_OUTPUT);
    CHECK(ask(lanes, BLOCKS, BYTES, WIDE, HIGH, 1, row - 1, row, &infinite) == KNOT_SHORT_OUTPUT);
    CHECK(ask(lanes, BLOCKS, BYTES, WIDE, HIGH, 1, MOST, huge, &infinite) == KNOT_SHORT_OUTPUT);
    CHECK(ask(lanes, BLOCKS, BYTES, WIDE, HIGH, 1, MOST, huge / 7 + 1, &infinite) == KNOT_SHORT_OUTPUT);
    CHECK(ask(lanes, BLOCKS, BYTES, WIDE, HIGH, 1, 0, row, &infinite) == KNOT_SHORT_OUTPUT);
    /* a face without a block, whatever pitch and room */
    CHECK(ask(lanes, NULL, 0, 0, 0, 1, 0, 0, &infinite) == KNOT_DONE && infinite == 0);
    CHECK(ask(lanes, NULL, 0, 0, huge, 1, 0, 0, &infinite) == KNOT_DONE);
    CHECK(ask(lanes, BLOCKS, 0, huge, 0, 0, MOST, 1, &infinite) == KNOT_DONE);
    CHECK(ask(lanes, BLOCKS, 0, 0, 1, 2, MOST, 1, &infinite) == KNOT_BAD_FORMAT);
    CHECK(untouched());
}

/* Every value of out, where the face stands from out[0] on with the pitch. */
static int shows(int lanes, size_t width, size_t height, size_t pitch)
{
    for (size_t k = 0; k < MOST; k++) {
        size_t y = k / pitch, x = k % pitch / lanes, c = k % pitch % lanes;
        uint16_t expected = UNTOUCHED;
        if (y < 4 * height && x < 4 * width) expected = c == 3 ? KNOT_OPAQUE : run[48 * (width * (y / 4) + x / 4) + 3 * (4 * (y % 4) + x % 4) + c];
        if (out[k] != expected) return 0;
    }
    return 1;
}

static void faces(int lanes)
{
    static const size_t sides[][2] = {{3, 2}, {2, 3}, {1, 6}, {6, 1}};
    for (uint8_t format = 0; format < 2; format++) {
        size_t done, counted, infinite;
        CHECK(knot_blocks_pixels(BLOCKS, BYTES, format, run, 48 * WIDE * HIGH, &done, &counted) == KNOT_DONE);
        CHECK(counted == (format == KNOT_SIGNED ? 17 : 0));
        for (size_t k = 0; k < 4; k++) {
            size_t width = sides[k][0], height = sides[k][1], row = 4 * lanes * width;
            for (size_t pitch = row; pitch < row + 3 && pitch * (4 * height - 1) + row <= MOST; pitch++) {
                untouch();
                CHECK(ask(lanes, BLOCKS, BYTES, width, height, format, pitch * (4 * height - 1) + row, pitch, &infinite) == KNOT_DONE && infinite == counted);
                CHECK(shows(lanes, width, height, pitch));
            }
        }
    }
    /* the run itself */
    size_t infinite;
    if (lanes == 3) {
        untouch();
        CHECK(knot_face_pixels(BLOCKS, BYTES, 1, WIDE * HIGH, KNOT_SIGNED, out, 48 * WIDE * HIGH, 12, &infinite) == KNOT_DONE);
        for (size_t k = 0; k < 48 * WIDE * HIGH; k++) CHECK(out[k] == run[k]);
    }
}

/* A picture of 16 by 12 pixels of four values, in which block 3 of those above stands at (5, 2). */
static void window(void)
{
    enum { PITCH = 4 * 16, PICTURE = PITCH * 12, FIRST = PITCH * 2 + 4 * 5 };
    size_t infinite;
    untouch();
    CHECK(knot_face_rgba(BLOCKS + 48, 16, 1, 1, KNOT_SIGNED, out + FIRST, PICTURE - FIRST, PITCH, &infinite) == KNOT_DONE && infinite == 1);
    for (size_t y = 0; y < 12; y++)
        for (size_t x = 0; x < 16; x++) {
            int inside = 5 <= x && x < 9 && 2 <= y && y < 6;
            const uint16_t *pixel = out + PITCH * y + 4 * x;
            CHECK(inside ? pixel[3] == KNOT_OPAQUE : pixel[0] == UNTOUCHED && pixel[1] == UNTOUCHED && pixel[2] == UNTOUCHED && pixel[3] == UNTOUCHED);
            if (inside) CHECK((pixel[0] == 0xFC00) == (x == 6 && y == 3));
        }
}

/* Records 0 and 1 are copies, 2 and 3 too; 4 shows what 2 shows, by other bytes; 5 is as 0 in the other format; 6 is reserved, 7 refused. */
static void twins(void)
{
    static const uint8_t blocks[8][16] = {
        {0x03, 0, 0, 0, 0xF8, 0x1F, 0, 0, 0, 0, 0, 0, 0, 0, 0, 0xF0}, {0x03, 0, 0, 0, 0xF8, 0x1F, 0, 0, 0, 0, 0, 0, 0, 0, 0, 0xF0},
        {0x1E, 0, 0, 0, 0xF8, 0x01, 0, 0, 0x80, 0x1F, 0x70, 0, 0, 0, 0, 0x38}, {0x1E, 0, 0, 0, 0xF8, 0x01, 0, 0, 0x80, 0x1F, 0x70, 0, 0, 0, 0, 0x38},
        {0x1E, 0, 0, 0, 0xF8, 0x01, 0, 0, 0x80, 0xBF, 0x71, 0, 0, 0, 0, 0x38}, {0x03, 0, 0, 0, 0xF8, 0x1F, 0, 0, 0, 0, 0, 0, 0, 0, 0, 0xF0}, {0x13}, {0x03}};
    static const size_t firsts[9] = {0, 0, 2, 2, 2, 5, 6, 7, 8};
    static uint8_t store[8 * KNOT_RECORD_SIZE + 1], marks[8];
    size_t huge = ~(size_t)0;
    for (size_t n = 0; n < 8; n++) {
        uint8_t *record = store + KNOT_RECORD_SIZE * n;
        record[0] = n + 1;
        record[4] = n == 5 ? KNOT_SIGNED : n == 7 ? 2 : KNOT_UNSIGNED;
        for (size_t k = 0; k < 16; k++) record[8 + k] = blocks[n][k];
    }
    CHECK(KNOT_ANSWER(knot_twin_list(store, 192, marks, 8)) == KNOT_DONE);
    for (size_t n = 0; n < 9; n++) CHECK(knot_first_twin(store, 192, n) == firsts[n]);
    for (size_t n = 0; n < 8; n++) CHECK((marks[n] == KNOT_TWIN) == (knot_first_twin(store, 192, n) < n));
    CHECK(knot_first_twin(store, 192, huge) == huge && knot_first_twin(NULL, 0, 0) == 0 && knot_first_twin(store, 193, 1) == 1);
    for (size_t n = 0; n < 9; n++)
        for (size_t m = 0; m < 9; m++) {
            int one = (n < 2 && m < 2) || ((n == 2 || n == 3) && (m == 2 || m == 3)) || (n == 5 && m == 5);
            CHECK(n == 4 || m == 4 || knot_is_covered(store, 192, n, m) == one);
            CHECK(knot_is_covered(store, 192, n, m) == knot_is_covered(store, 192, m, n));
            CHECK(!knot_is_covered(store, 193, n, m));
        }
    CHECK(knot_is_covered(store, 192, 1, knot_first_twin(store, 192, 1)) && knot_is_covered(store, 192, 3, knot_first_twin(store, 192, 3)));
    CHECK(!knot_is_covered(store, 192, 4, knot_first_twin(store, 192, 4)));
    CHECK(!knot_is_covered(NULL, 0, 0, 0) && !knot_is_covered(store, 192, huge, 0) && !knot_is_covered(store, 192, 0, huge) && !knot_is_covered(store, 24, 0, 1));
}

int main(void)
{
    for (int lanes = 3; lanes < 5; lanes++) {
        refusals(lanes);
        faces(lanes);
    }
    window();
    twins();
    printf("C, faces and twins: %u checks, %u failed\n", checks, failures);
    return failures != 0;
}
