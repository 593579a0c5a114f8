/* Calls the functions of knotpasture.h over Portable Float Maps as a C program does, with good and bad input. Prints each check that fails.
 *
 * The last part exports the largest picture, 4,096 by 4,096 pixels: a caller asks for the length, finds that much room, and writes.
 * Holds S-1, S-64, S-86, S-87.
 */
#include "knotpasture.h"

#include "check.h"

void *malloc(size_t size);
void free(void *room);
void *memset(void *to, int byte, size_t size);
void *memcpy(void *to, const void *from, size_t size);
int memcmp(const void *a, const void *b, size_t size);

enum { SIDE_BYTES = 32, LENGTH = 12 + 12 * 32, UNTOUCHED = 0xA5 };

/* As signed, minus infinity everywhere in red; and a block whose two lower rows have 0x85D0 in red. */
static const uint8_t BLOCKS[SIDE_BYTES + 1] = {0x0F, 0, 0, 0, 0x80, 0, 0, 0, 0, 0, 0, 0, 0, 0, 0, 0, 0x1E, 0, 0, 0, 0, 0, 0, 0, 0x7E, 0xA0, 0x01};

static uint8_t out[LENGTH + 8];

static int untouched(size_t from)
{
    for (size_t k = from; k < sizeof out; k++)
        if (out[k] != UNTOUCHED) return 0;
    return 1;
}

static float value(const uint8_t *at)
{
    float f;
    memcpy(&f, at, sizeof f);
    return f;
}

/* The value of channel c of pixel (x, y) of a picture of 8 by 4. */
static float at(unsigned x, unsigned y, unsigned c)
{
    return value(out + 12 + 12 * ((3 - y) * 8 + x) + 4 * c);
}

static void refusals(void)
{
    memset(out, UNTOUCHED, sizeof out);
    CHECK(knot_pfm_write(NULL, 0, 2, 0, 0, NULL, 0) == KNOT_BAD_FORMAT);
    CHECK(knot_pfm_write(NULL, 0, 1, 0, 0, NULL, 0) == KNOT_UNEVEN_SIZE);
    CHECK(knot_pfm_write(NULL, 0, 1, 8, 4, NULL, 0) == KNOT_BAD_BLOCKS);
    CHECK(knot_pfm_write(BLOCKS, SIDE_BYTES, 1, 8, 4, NULL, 0) == KNOT_SHORT_OUTPUT);
    CHECK(knot_pfm_write(BLOCKS, SIDE_BYTES, 2, 8, 4, out, LENGTH) == KNOT_BAD_FORMAT);
    CHECK(knot_pfm_write(BLOCKS, SIDE_BYTES, 1, 5, 4, out, LENGTH) == KNOT_UNEVEN_SIZE);
    CHECK(knot_pfm_write(BLOCKS, SIDE_BYTES, 1, 8, 4100, out, LENGTH) == KNOT_UNEVEN_SIZE);
    CHECK(knot_pfm_write(BLOCKS, SIDE_BYTES - 1, 1, 8, 4, out, LENGTH) == KNOT_BAD_BLOCKS);
    CHECK(knot_pfm_write(BLOCKS, SIDE_BYTES + 1, 1, 8, 4, out, LENGTH) == KNOT_BAD_BLOCKS);
    CHECK(knot_pfm_write(BLOCKS, SIDE_BYTES, 1, 8, 4, out, LENGTH - 1) == KNOT_SHORT_OUTPUT);
    CHECK(untouched(0));
    CHECK(knot_pfm_length(0, 4) == 0 && knot_pfm_length(4, 2) == 0 && knot_pfm_length(4100, 4) == 0 && knot_pfm_length(0xFFFFFFFC, 4) == 0);
}

static void picture(void)
{
    static const uint8_t lowest[4] = {0, 0, 0x80, 0xFF}, below[4] = {0, 0, 0xBA, 0xB8};
    memset(out, UNTOUCHED, sizeof out);
    CHECK(knot_pfm_length(8, 4) == LENGTH);
    uint64_t word = knot_pfm_write(BLOCKS, SIDE_BYTES, KNOT_SIGNED, 8, 4, out, sizeof out);
    CHECK(KNOT_ANSWER(word) == KNOT_DONE && KNOT_FILE_LENGTH(word) == LENGTH);
    CHECK(memcmp(out, "PF\n8 4\n-1.0\n", 12) == 0 && untouched(LENGTH));
    CHECK(memcmp(out + 12, lowest, 4) == 0 && memcmp(out + 12 + 48, below, 4) == 0);
    CHECK(at(0, 0, 0) < -3e38f && at(3, 3, 0) < -3e38f && at(0, 0, 1) == 0 && at(3, 3, 2) == 0);
    CHECK(at(4, 0, 0) == 0 && at(7, 1, 0) == 0 && at(4, 2, 0) < 0 && at(7, 3, 0) == at(4, 2, 0));
    CHECK(at(7, 3, 0) == -1488.0f / 16777216.0f);
}

/* A picture of the largest size: every block is the second one above. */
static void largest(void)
{
    size_t bytes = (size_t)KNOT_PFM_LIMIT * KNOT_PFM_LIMIT, length = knot_pfm_length(KNOT_PFM_LIMIT, KNOT_PFM_LIMIT);
    CHECK(length == KNOT_PFM_FILE);
    uint8_t *blocks = malloc(bytes), *file = malloc(length);
    CHECK(blocks != NULL && file != NULL);
    if (blocks == NULL || file == NULL) return;
    for (size_t k = 0; k < bytes; k += KNOT_BLOCK_SIZE) memcpy(blocks + k, BLOCKS + 16, KNOT_BLOCK_SIZE);
    CHECK(knot_pfm_write(blocks, bytes, KNOT_SIGNED, KNOT_PFM_LIMIT, KNOT_PFM_LIMIT, file, length - 1) == KNOT_SHORT_OUTPUT);
    uint64_t word = knot_pfm_write(blocks, bytes, KNOT_SIGNED, KNOT_PFM_LIMIT, KNOT_PFM_LIMIT, file, length);
    CHECK(KNOT_ANSWER(word) == KNOT_DONE && KNOT_FILE_LENGTH(word) == length);
    CHECK(memcmp(file, "PF\n4096 4096\n-1.0\n", 18) == 0);
    size_t row = 12 * (size_t)KNOT_PFM_LIMIT;
    CHECK(value(file + 18) < 0 && value(file + 18 + row) < 0 && value(file + 18 + 2 * row) == 0 && value(file + length - 12) == 0);
    free(blocks);
    free(file);
}

int main(void)
{
    refusals();
    picture();
    largest();
    printf("C, Portable Float Maps: %u checks, %u failed\n", checks, failures);
    return failures != 0;
}
