/* Decodes 224 blocks of the fourteen modes in turn, so many times: decode FORMAT TIMES. What a block costs is the difference of two runs that
 * differ in TIMES alone: nothing else of the program is in it but its loop. */
#include "knotpasture.h"

enum { MODES = 14, BLOCKS = 16 * MODES };

/* The lowest bits of a block that name its mode, and how many they are. */
static const struct {
    uint8_t bits, count;
} modes[MODES] = {{0, 2},  {1, 2},  {2, 5},  {6, 5},  {10, 5}, {14, 5}, {18, 5},
                  {22, 5}, {26, 5}, {30, 5}, {3, 5},  {7, 5},  {11, 5}, {15, 5}};

static uint8_t blocks[BLOCKS][KNOT_BLOCK_SIZE];
static uint16_t values[KNOT_VALUES];

static void fill(void)
{
    uint64_t state = 0x9E3779B97F4A7C15u;
    for (size_t k = 0; k < BLOCKS; k++) {
        for (size_t at = 0; at < KNOT_BLOCK_SIZE; at++) {
            state ^= state << 13, state ^= state >> 7, state ^= state << 17;
            blocks[k][at] = (uint8_t)(state >> 32);
        }
        unsigned below = 1u << modes[k % MODES].count;
        blocks[k][0] = (uint8_t)(blocks[k][0] - blocks[k][0] % below + modes[k % MODES].bits);
    }
}

/* Whether each block is of its mode, and done. */
static int right(uint8_t format)
{
    for (size_t k = 0; k < BLOCKS; k++) {
        uint32_t word = knot_block_pixels(blocks[k], KNOT_BLOCK_SIZE, format, values, KNOT_VALUES);
        if (KNOT_ANSWER(word) != KNOT_DONE || KNOT_MODE(word) != k % MODES + 1) return 0;
    }
    return 1;
}

int main(int count, char **words)
{
    if (count != 3) return 2;
    uint8_t format = (uint8_t)(words[1][0] - '0');
    fill();
    if (!right(format)) return 1;
    for (int times = 0; times < words[2][0] - '0'; times++)
        for (size_t k = 0; k < BLOCKS; k++) knot_block_pixels(blocks[k], KNOT_BLOCK_SIZE, format, values, KNOT_VALUES);
    return 0;
}
