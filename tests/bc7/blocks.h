/* Blocks to compare decoders on: block n of a run is made from n and a seed alone. */
#include <stdint.h>

static uint64_t mixed(uint64_t x)
{
    x += 0x9E3779B97F4A7C15;
    x = (x ^ x >> 30) * 0xBF58476D1CE4E5B9;
    x = (x ^ x >> 27) * 0x94D049BB133111EB;
    return x ^ x >> 31;
}

static void put_bits(uint8_t *block, int at, int bits, unsigned value)
{
    for (int k = 0; k < bits; k++) {
        block[(at + k) / 8] &= (uint8_t) ~(1 << (at + k) % 8);
        block[(at + k) / 8] |= (uint8_t)((value >> k & 1) << (at + k) % 8);
    }
}

/* The choice of a mode: its partition, or its rotation and selection. 64 choices reach every one of them. */
static void put_choice(uint8_t *block, int mode, unsigned choice)
{
    static const int BITS[9] = {4, 6, 6, 6, 3, 2, 0, 6, 0};
    if (mode < 8) put_bits(block, mode + 1, BITS[mode], choice);
}

enum { SINGLES = 8 * 2 * 128, FIXED = 9 * 64 * 5 + SINGLES };

/* First a fixed part: for each mode (8 is a reserved block) and each choice five fillings of the other bits: zeros, ones, alternating, and
 * endpoints at their two extremes; and each single bit over zeros and over ones in each mode. Then bits at random, the modes in turn, a
 * quarter of them with runs of equal bytes. */
static void make_block(uint64_t n, uint64_t seed, uint8_t *block)
{
    static const uint8_t FILLS[5][2] = {{0x00, 0x00}, {0xFF, 0xFF}, {0x55, 0xAA}, {0x00, 0xFF}, {0xFF, 0x00}};
    int mode = (int)(n % 9);
    if (n < 9 * 64 * 5) {
        unsigned choice = (unsigned)(n / 9 % 64);
        const uint8_t *fill = FILLS[n / 9 / 64];
        for (int k = 0; k < 16; k++) block[k] = fill[k / 2 % 2];
        put_bits(block, 0, mode < 8 ? mode + 1 : 8, mode < 8 ? 1u << mode : 0);
        put_choice(block, mode, choice);
        return;
    }
    if (n < FIXED) {
        unsigned at = (unsigned)(n - 9 * 64 * 5);
        mode = (int)(at / 256);
        uint8_t fill = at / 128 % 2 ? 0xFF : 0x00;
        for (int k = 0; k < 16; k++) block[k] = fill;
        put_bits(block, (int)(at % 128), 1, !(fill & 1));
        put_bits(block, 0, mode + 1, 1u << mode);
        return;
    }
    uint64_t one = mixed(seed ^ mixed(n)), two = mixed(one);
    for (int k = 0; k < 8; k++) {
        block[k] = (uint8_t)(one >> 8 * k);
        block[8 + k] = (uint8_t)(two >> 8 * k);
    }
    uint64_t third = mixed(two);
    if (third % 4 == 0)
        for (int k = 0; k < 16; k++)
            if (third >> (8 + 2 * k) & 1) block[k] = third >> (9 + 2 * k) & 1 ? 0xFF : 0x00;
    /* one block in 64 is reserved */
    mode = third >> 40 & 63 ? (int)(n % 8) : 8;
    put_bits(block, 0, mode < 8 ? mode + 1 : 8, mode < 8 ? 1u << mode : 0);
}
