/* Calls the functions of knotpasture.h over OpenEXR files as a C program does, with good and bad input. Prints each check that fails.
 *
 * The last part writes the largest picture, 4,096 by 4,096 pixels. tests/python reads the files by their own headers.
 * Holds S-1, S-87, S-92.
 */
#include "knotpasture.h"

#include "check.h"

void *malloc(size_t size);
void free(void *room);
void *memset(void *to, int byte, size_t size);
void *memcpy(void *to, const void *from, size_t size);

enum { BYTES = 32, FRONT = KNOT_EXR_HEADER + 8 * 4, LINE = 8 + 6 * 8, LENGTH = FRONT + 4 * LINE, UNTOUCHED = 0xA5 };

/* As signed, minus infinity everywhere in red; and a block whose two lower rows have 0x85D0 in red. */
static const uint8_t BLOCKS[BYTES + 1] = {0x0F, 0, 0, 0, 0x80, 0, 0, 0, 0, 0, 0, 0, 0, 0, 0, 0, 0x1E, 0, 0, 0, 0, 0, 0, 0, 0x7E, 0xA0, 0x01};

static uint8_t out[LENGTH + 8];

static int untouched(size_t from)
{
    for (size_t k = from; k < sizeof out; k++)
        if (out[k] != UNTOUCHED) return 0;
    return 1;
}

static uint64_t number(const uint8_t *at, unsigned bytes)
{
    uint64_t n = 0;
    for (unsigned k = 0; k < bytes; k++) n |= (uint64_t)at[k] << 8 * k;
    return n;
}

static void refusals(void)
{
    memset(out, UNTOUCHED, sizeof out);
    CHECK(knot_exr_write(NULL, 0, 2, 0, 0, NULL, 0) == KNOT_BAD_FORMAT);
    CHECK(knot_exr_write(NULL, 0, 1, 0, 0, NULL, 0) == KNOT_UNEVEN_SIZE);
    CHECK(knot_exr_write(NULL, 0, 1, 8, 4, NULL, 0) == KNOT_BAD_BLOCKS);
    CHECK(knot_exr_write(BLOCKS, BYTES, 1, 8, 4, NULL, 0) == KNOT_SHORT_OUTPUT);
    CHECK(knot_exr_write(BLOCKS, BYTES, 2, 8, 4, out, LENGTH) == KNOT_BAD_FORMAT);
    CHECK(knot_exr_write(BLOCKS, BYTES, 1, 6, 4, out, LENGTH) == KNOT_UNEVEN_SIZE);
    CHECK(knot_exr_write(BLOCKS, BYTES, 1, 8, 4100, out, LENGTH) == KNOT_UNEVEN_SIZE);
    CHECK(knot_exr_write(BLOCKS, BYTES - 1, 1, 8, 4, out, LENGTH) == KNOT_BAD_BLOCKS);
    CHECK(knot_exr_write(BLOCKS, BYTES + 1, 1, 8, 4, out, LENGTH) == KNOT_BAD_BLOCKS);
    CHECK(knot_exr_write(BLOCKS, BYTES, 1, 8, 4, out, LENGTH - 1) == KNOT_SHORT_OUTPUT);
    CHECK(untouched(0));
    CHECK(knot_exr_length(0, 4) == 0 && knot_exr_length(4, 2) == 0 && knot_exr_length(4100, 4) == 0 && knot_exr_length(0xFFFFFFFC, 4) == 0);
}

static void picture(void)
{
    memset(out, UNTOUCHED, sizeof out);
    CHECK(knot_exr_length(8, 4) == LENGTH);
    uint64_t word = knot_exr_write(BLOCKS, BYTES, KNOT_SIGNED, 8, 4, out, sizeof out);
    CHECK(KNOT_ANSWER(word) == KNOT_DONE && KNOT_FILE_LENGTH(word) == LENGTH && untouched(LENGTH));
    CHECK(number(out, 4) == 20000630 && number(out + 4, 4) == 2 && out[KNOT_EXR_HEADER - 1] == 0);
    for (unsigned y = 0; y < 4; y++) {
        const uint8_t *line = out + FRONT + LINE * y;
        CHECK(number(out + KNOT_EXR_HEADER + 8 * y, 8) == (uint64_t)(line - out) && number(line, 4) == y && number(line + 4, 4) == 48);
        for (unsigned x = 0; x < 8; x++) {
            CHECK(number(line + 8 + 2 * x, 2) == 0 && number(line + 8 + 16 + 2 * x, 2) == 0);
            CHECK(number(line + 8 + 32 + 2 * x, 2) == (x < 4 ? 0xFC00 : y < 2 ? 0 : 0x85D0));
        }
    }
}

/* A picture of the largest size: every block is the second one above. */
static void largest(void)
{
    size_t bytes = (size_t)KNOT_EXR_LIMIT * KNOT_EXR_LIMIT, length = knot_exr_length(KNOT_EXR_LIMIT, KNOT_EXR_LIMIT);
    CHECK(length == KNOT_EXR_FILE);
    uint8_t *blocks = malloc(bytes), *file = malloc(length);
    CHECK(blocks != NULL && file != NULL);
    if (blocks == NULL || file == NULL) return;
    for (size_t k = 0; k < bytes; k += KNOT_BLOCK_SIZE) memcpy(blocks + k, BLOCKS + 16, KNOT_BLOCK_SIZE);
    CHECK(knot_exr_write(blocks, bytes, KNOT_SIGNED, KNOT_EXR_LIMIT, KNOT_EXR_LIMIT, file, length - 1) == KNOT_SHORT_OUTPUT);
    uint64_t word = knot_exr_write(blocks, bytes, KNOT_SIGNED, KNOT_EXR_LIMIT, KNOT_EXR_LIMIT, file, length);
    CHECK(KNOT_ANSWER(word) == KNOT_DONE && KNOT_FILE_LENGTH(word) == length);
    size_t line = 8 + 6 * (size_t)KNOT_EXR_LIMIT, last = number(file + KNOT_EXR_HEADER + 8 * (KNOT_EXR_LIMIT - 1), 8);
    CHECK(last + line == length && number(file + last, 4) == KNOT_EXR_LIMIT - 1);
    CHECK(number(file + length - 2, 2) == 0x85D0 && number(file + length - line - 2, 2) == 0x85D0 && number(file + length - 2 * line - 2, 2) == 0);
    free(blocks);
    free(file);
}

int main(void)
{
    refusals();
    picture();
    largest();
    printf("C, OpenEXR files: %u checks, %u failed\n", checks, failures);
    return failures != 0;
}
