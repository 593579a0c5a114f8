/* A plain decoder of BC6H blocks, by the clauses of docs/SCOPE.md: bit by bit, palette values where they are asked for. It is there to be timed;
 * tests/bench/decoders holds what it shows to the proved decoder. CODES is the table of 1,080 codes, from crates/bc6_table.
 */
#include <stdint.h>
#include <string.h>

#include "../bc7/rows.h"

static const uint8_t CODES[1080] = {
#include "bc6_codes.h"
};
static const struct {
    int bits, transformed, red, green, blue;
} MODES[15] = {
    {0}, {10, 1, 5, 5, 5}, {7, 1, 6, 6, 6}, {11, 1, 5, 4, 4}, {11, 1, 4, 5, 4}, {11, 1, 4, 4, 5}, {9, 1, 5, 5, 5}, {8, 1, 6, 5, 5},
    {8, 1, 5, 6, 5}, {8, 1, 5, 5, 6}, {6, 0, 6, 6, 6}, {10, 0, 10, 10, 10}, {11, 1, 9, 9, 9}, {12, 1, 8, 8, 8}, {16, 1, 4, 4, 4},
};
static const int WEIGHTS_3[8] = {0, 9, 18, 27, 37, 46, 55, 64};
static const int WEIGHTS_4[16] = {0, 4, 9, 13, 17, 21, 26, 30, 34, 38, 43, 47, 51, 55, 60, 64};

static int bit(const uint8_t *block, int k) { return block[k / 8] >> k % 8 & 1; }

static int mode_of(int code)
{
    static const uint8_t FIVE[15] = {0, 0, 0, 2, 6, 10, 14, 18, 22, 26, 30, 3, 7, 11, 15};
    if (code % 4 < 2) return code % 4 + 1;
    for (int mode = 3; mode < 15; mode++)
        if (FIVE[mode] == code) return mode;
    return 0;
}

static int extended(int value, int bits) { return value >> (bits - 1) & 1 ? value - (1 << bits) : value; }

static int unquantised(int c, int bits, int is_signed)
{
    if (!is_signed) {
        if (bits >= 15) return c;
        return c == 0 ? 0 : c == (1 << bits) - 1 ? 65535 : (65536 * c + 32768) >> bits;
    }
    if (bits >= 16) return c;
    int m = c < 0 ? -c : c;
    m = m == 0 ? 0 : m >= (1 << (bits - 1)) - 1 ? 32767 : (32768 * m + 16384) >> (bits - 1);
    return c < 0 ? -m : m;
}

static uint16_t pattern(int x, int is_signed)
{
    if (!is_signed) return 31 * x / 64;
    int m = 31 * (x < 0 ? -x : x) / 32;
    return x < 0 && m > 0 ? 0x8000 + m : m;
}

static void plain_block(const uint8_t *block, int is_signed, uint16_t *out)
{
    int mode = mode_of(block[0] % 32), two = mode >= 1 && mode <= 10, ends[14] = {0}, at = two ? 82 : 65;
    if (mode == 0) {
        memset(out, 0, 96);
        return;
    }
    const uint8_t *row = CODES + (two ? 82 * (mode - 1) : 820 + 65 * (mode - 11));
    for (int k = 0; k < at; k++) ends[row[k] / 16] |= bit(block, k) << row[k] % 16;
    int bits = MODES[mode].bits, wide[3] = {MODES[mode].red, MODES[mode].green, MODES[mode].blue};
    for (int c = 0; c < 3; c++) {
        int first = ends[c] = is_signed ? extended(ends[c], bits) : ends[c];
        for (int e = 1; e < (two ? 4 : 2); e++) {
            int *end = &ends[3 * e + c];
            if (is_signed || MODES[mode].transformed) *end = extended(*end, wide[c]);
            if (MODES[mode].transformed) {
                *end = (first + *end) & ((1 << bits) - 1);
                if (is_signed) *end = extended(*end, bits);
            }
            *end = unquantised(*end, bits, is_signed);
        }
        ends[c] = unquantised(first, bits, is_signed);
    }
    for (int pixel = 0; pixel < 16; pixel++) {
        int fixup = pixel == 0 || (two && TWO_REGIONS[ends[13]].fixup[0] == pixel), size = (two ? 3 : 4) - fixup, index = 0;
        for (int k = 0; k < size; k++) index |= bit(block, at++) << k;
        int region = two ? TWO_REGIONS[ends[13]].region[pixel] - '0' : 0, weight = two ? WEIGHTS_3[index] : WEIGHTS_4[index];
        for (int c = 0; c < 3; c++)
            *out++ = pattern((ends[6 * region + c] * (64 - weight) + ends[6 * region + 3 + c] * weight + 32) >> 6, is_signed);
    }
}

void plain_blocks(const uint8_t *blocks, size_t count, int is_signed, uint16_t *out)
{
    for (size_t n = 0; n < count; n++) plain_block(blocks + 16 * n, is_signed, out + 48 * n);
}
