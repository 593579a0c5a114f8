/* A plain decoder of BC7 blocks, written from what S-66 to S-71 state by itself: the oracle of the comparisons. It takes a block's bits one by one and
 * knows nothing of how the proved decoder works.
 */
#include <stdint.h>

#include "rows.h"

struct mode {
    int regions, partition, rotation, selection, colour, alpha, endpoint_ps, region_ps, first, second;
};

/* widths in bits */
static const struct mode MODES[8] = {
    {3, 4, 0, 0, 4, 0, 1, 0, 3, 0}, {2, 6, 0, 0, 6, 0, 0, 1, 3, 0}, {3, 6, 0, 0, 5, 0, 0, 0, 2, 0}, {2, 6, 0, 0, 7, 0, 1, 0, 2, 0},
    {1, 0, 2, 1, 5, 6, 0, 0, 2, 3}, {1, 0, 2, 0, 7, 8, 0, 0, 2, 2}, {1, 0, 0, 0, 7, 7, 1, 0, 4, 0}, {2, 6, 0, 0, 5, 5, 1, 0, 2, 0},
};

static const int WEIGHTS_2[4] = {0, 21, 43, 64};
static const int WEIGHTS_3[8] = {0, 9, 18, 27, 37, 46, 55, 64};
static const int WEIGHTS_4[16] = {0, 4, 9, 13, 17, 21, 26, 30, 34, 38, 43, 47, 51, 55, 60, 64};

struct reader {
    const uint8_t *block;
    int at;
};

/* The next bits, the lowest first. */
static int take(struct reader *r, int bits)
{
    int value = 0;
    for (int k = 0; k < bits; k++, r->at++) value |= (r->block[r->at / 8] >> r->at % 8 & 1) << k;
    return value;
}

static int plain_weight(int bits, int index)
{
    return bits == 2 ? WEIGHTS_2[index] : bits == 3 ? WEIGHTS_3[index] : WEIGHTS_4[index];
}

/* A value of 5 to 8 bits: its top bits are repeated below it. */
static int plain_widen(int value, int bits)
{
    return (value << (8 - bits)) + (value >> (2 * bits - 8));
}

static int plain_between(int a, int b, int weight)
{
    return (a * (64 - weight) + b * weight + 32) / 64;
}

static int plain_region(int regions, int partition, int pixel)
{
    if (regions == 2) return TWO_REGIONS[partition].region[pixel] - '0';
    if (regions == 3) return THREE_REGIONS[partition].region[pixel] - '0';
    return 0;
}

static int plain_is_fixup(int regions, int partition, int pixel)
{
    if (pixel == 0) return 1;
    if (regions == 2) return pixel == TWO_REGIONS[partition].fixup[0];
    if (regions == 3) return pixel == THREE_REGIONS[partition].fixup[0] || pixel == THREE_REGIONS[partition].fixup[1];
    return 0;
}

/* Writes the sixteen pixels, and answers the mode number. */
static int plain_block(const uint8_t *block, uint8_t *out)
{
    struct reader r = {block, 0};
    int ends[6][4], first[16], second[16];

    int number = 0;
    while (number < 8 && !take(&r, 1)) number++;
    if (number == 8) {
        for (int j = 0; j < 64; j++) out[j] = 0;
        return 8;
    }
    const struct mode *m = &MODES[number];
    int partition = take(&r, m->partition);
    int rotation = take(&r, m->rotation);
    int selection = take(&r, m->selection);
    int count = 2 * m->regions;

    for (int c = 0; c < 4; c++)
        for (int e = 0; e < count; e++) ends[e][c] = take(&r, c == 3 ? m->alpha : m->colour);
    int p_bits = m->endpoint_ps || m->region_ps;
    if (m->endpoint_ps)
        for (int e = 0; e < count; e++) {
            int p = take(&r, 1);
            for (int c = 0; c < 4; c++) ends[e][c] = 2 * ends[e][c] + p;
        }
    if (m->region_ps)
        for (int region = 0; region < m->regions; region++) {
            int p = take(&r, 1);
            for (int e = 2 * region; e < 2 * region + 2; e++)
                for (int c = 0; c < 4; c++) ends[e][c] = 2 * ends[e][c] + p;
        }
    for (int e = 0; e < count; e++) {
        for (int c = 0; c < 3; c++) ends[e][c] = plain_widen(ends[e][c], m->colour + p_bits);
        ends[e][3] = m->alpha ? plain_widen(ends[e][3], m->alpha + p_bits) : 255;
    }

    for (int k = 0; k < 16; k++) first[k] = take(&r, m->first - plain_is_fixup(m->regions, partition, k));
    for (int k = 0; k < 16 && m->second; k++) second[k] = take(&r, m->second - plain_is_fixup(1, 0, k));

    for (int k = 0; k < 16; k++) {
        int region = plain_region(m->regions, partition, k);
        int colour_weight = plain_weight(m->first, first[k]), alpha_weight = colour_weight;
        if (m->second && selection == 0) alpha_weight = plain_weight(m->second, second[k]);
        if (m->second && selection == 1) colour_weight = plain_weight(m->second, second[k]);
        for (int c = 0; c < 4; c++)
            out[4 * k + c] = plain_between(ends[2 * region][c], ends[2 * region + 1][c], c == 3 ? alpha_weight : colour_weight);
        if (rotation) {
            uint8_t alpha = out[4 * k + 3];
            out[4 * k + 3] = out[4 * k + rotation - 1];
            out[4 * k + rotation - 1] = alpha;
        }
    }
    return number;
}
