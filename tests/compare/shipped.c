/* The archive that is shipped, as a program, for machines on which it runs under an emulator. The word says what standard input is:
 *
 *   pixels   records of a format and a block (17 bytes); each answers as the program run_pixels does, 100 bytes
 *   fields   the same records; each answers as the program run_fields does, 45 bytes
 *   written  field records (44 bytes); each answers as the program run_write does, 17 bytes
 *   runs     a format, a count of two bytes and as many blocks; answers the number, the blocks done and the count of minus infinities, four
 *            bytes each, and the values
 *
 * Numbers are low byte first. A last piece that is not whole goes to the call as it is.
 */
#include "knotpasture.h"

long read(int file, void *bytes, size_t count);
long write(int file, const void *bytes, size_t count);

enum { MOST = 256 };

static uint8_t input[3 + MOST * KNOT_BLOCK_SIZE], output[12 + MOST * KNOT_VALUES * 2];
static uint16_t values[MOST * KNOT_VALUES];

/* Reads until `count` bytes are there or the input ends: how many are. */
static size_t fill(uint8_t *bytes, size_t count)
{
    size_t have = 0;
    while (have < count) {
        long got = read(0, bytes + have, count - have);
        if (got <= 0) break;
        have += (size_t)got;
    }
    return have;
}

static int flush(size_t count)
{
    size_t gone = 0;
    while (gone < count) {
        long went = write(1, output + gone, count - gone);
        if (went <= 0) return 0;
        gone += (size_t)went;
    }
    return 1;
}

static void put(size_t at, uint64_t number, size_t bytes)
{
    for (size_t k = 0; k < bytes; k++) output[at + k] = (uint8_t)(number >> 8 * k);
}

static void clear(size_t count)
{
    for (size_t k = 0; k < count; k++) output[k] = 0;
}

static size_t pixels(size_t have)
{
    uint32_t word = knot_block_pixels(input + 1, have - 1, input[0], values, KNOT_VALUES);
    clear(100);
    put(0, word, 2);
    put(2, KNOT_INFINITIES(word), 2);
    for (size_t k = 0; KNOT_ANSWER(word) == KNOT_DONE && k < KNOT_VALUES; k++) put(4 + 2 * k, values[k], 2);
    return 100;
}

static size_t fields(size_t have)
{
    uint32_t word = knot_block_fields(input + 1, have - 1, input[0], values, KNOT_FIELDS);
    clear(45);
    put(0, KNOT_ANSWER(word), 1);
    if (KNOT_ANSWER(word) != KNOT_DONE) return 45;
    put(1, values[0], 1);
    put(2, values[1], 1);
    for (size_t k = 0; k < 12; k++) put(3 + 2 * k, values[2 + k], 2);
    for (size_t k = 0; k < 18; k++) put(27 + k, values[14 + k], 1);
    return 45;
}

static size_t written(size_t have)
{
    values[0] = input[0];
    values[1] = input[1];
    for (size_t k = 0; k < 12; k++) values[2 + k] = (uint16_t)(input[2 + 2 * k] | input[3 + 2 * k] << 8);
    for (size_t k = 0; k < 18; k++) values[14 + k] = input[26 + k];
    clear(17);
    put(0, knot_write_block(values, have == 44 ? KNOT_FIELDS : 0, output + 1, KNOT_BLOCK_SIZE), 1);
    return 17;
}

static size_t run(size_t blocks)
{
    size_t done = 0, infinite = 0;
    uint32_t answer = knot_blocks_pixels(input + 3, blocks * KNOT_BLOCK_SIZE, input[0], values, blocks * KNOT_VALUES, &done, &infinite);
    put(0, answer, 4);
    put(4, done, 4);
    put(8, infinite, 4);
    for (size_t k = 0; k < blocks * KNOT_VALUES; k++) put(12 + 2 * k, values[k], 2);
    return 12 + blocks * KNOT_VALUES * 2;
}

int main(int count, char **words)
{
    char what = count == 2 ? words[1][0] : 0;
    size_t size = what == 'w' ? 44 : what == 'r' ? 3 : 17;
    if (what != 'p' && what != 'f' && what != 'w' && what != 'r') return 2;
    for (;;) {
        size_t have = fill(input, size);
        if (have == 0) return 0;
        size_t answer;
        if (what == 'r') {
            size_t blocks = have == 3 ? (size_t)(input[1] | input[2] << 8) : MOST + 1;
            if (blocks > MOST || fill(input + 3, blocks * KNOT_BLOCK_SIZE) != blocks * KNOT_BLOCK_SIZE) return 1;
            answer = run(blocks);
        } else {
            answer = what == 'p' ? pixels(have) : what == 'f' ? fields(have) : written(have);
        }
        if (!flush(answer)) return 1;
    }
}
