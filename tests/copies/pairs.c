/* The copies theorem, run: writes blocks of modes 1 to 13, changes each a little, and sees in either format that the picture changes
 * wherever the two meet the premises. A search for a counterexample, beside the proof; the pairs that miss a premise are counted
 * too, and some of those do show one picture.
 *
 * The blocks are written, and the premises are judged, by the lines below and not by the library, whose knot_is_trusted is
 * compared with them on every block.
 */
#include "knotpasture.h"

int printf(const char *format, ...);

enum { PIXELS = 16, CHANNELS = 3, PLACES = 14, MODE = 12, PARTITION = 13, MODES = 13, PARTITIONS = 32, PAIRS = 1000000 };

/* A block as stored: four endpoints of three channels, the mode's code, the partition; and an index a pixel. */
struct block {
    unsigned mode;
    unsigned places[PLACES];
    unsigned indices[PIXELS];
};

static uint64_t state = 1;

static unsigned below(unsigned n)
{
    state ^= state << 13;
    state ^= state >> 7;
    state ^= state << 17;
    return (unsigned)((state >> 32) * n >> 32);
}

/* ---- the layout: channel r, g or b of endpoint w, x, y or z; the mode; the partition. rw9:0 is read lowest bit first. */

static const char *const rows[MODES] = {
    "m1:0 gy4 by4 bz4 rw9:0 gw9:0 bw9:0 rx4:0 gz4 gy3:0 gx4:0 bz0 gz3:0 bx4:0 bz1 by3:0 ry4:0 bz2 rz4:0 bz3 d4:0",
    "m1:0 gy5 gz4 gz5 rw6:0 bz0 bz1 by4 gw6:0 by5 bz2 gy4 bw6:0 bz3 bz5 bz4 rx5:0 gy3:0 gx5:0 gz3:0 bx5:0 by3:0 ry5:0 rz5:0 d4:0",
    "m4:0 rw9:0 gw9:0 bw9:0 rx4:0 rw10 gy3:0 gx3:0 gw10 bz0 gz3:0 bx3:0 bw10 bz1 by3:0 ry4:0 bz2 rz4:0 bz3 d4:0",
    "m4:0 rw9:0 gw9:0 bw9:0 rx3:0 rw10 gz4 gy3:0 gx4:0 gw10 gz3:0 bx3:0 bw10 bz1 by3:0 ry3:0 bz0 bz2 rz3:0 gy4 bz3 d4:0",
    "m4:0 rw9:0 gw9:0 bw9:0 rx3:0 rw10 by4 gy3:0 gx3:0 gw10 bz0 gz3:0 bx4:0 bw10 by3:0 ry3:0 bz1 bz2 rz3:0 bz4 bz3 d4:0",
    "m4:0 rw8:0 by4 gw8:0 gy4 bw8:0 bz4 rx4:0 gz4 gy3:0 gx4:0 bz0 gz3:0 bx4:0 bz1 by3:0 ry4:0 bz2 rz4:0 bz3 d4:0",
    "m4:0 rw7:0 gz4 by4 gw7:0 bz2 gy4 bw7:0 bz3 bz4 rx5:0 gy3:0 gx4:0 bz0 gz3:0 bx4:0 bz1 by3:0 ry5:0 rz5:0 d4:0",
    "m4:0 rw7:0 bz0 by4 gw7:0 gy5 gy4 bw7:0 gz5 bz4 rx4:0 gz4 gy3:0 gx5:0 gz3:0 bx4:0 bz1 by3:0 ry4:0 bz2 rz4:0 bz3 d4:0",
    "m4:0 rw7:0 bz1 by4 gw7:0 by5 gy4 bw7:0 bz5 bz4 rx4:0 gz4 gy3:0 gx4:0 bz0 gz3:0 bx5:0 by3:0 ry4:0 bz2 rz4:0 bz3 d4:0",
    "m4:0 rw5:0 gz4 bz0 bz1 by4 gw5:0 gy5 by5 bz2 gy4 bw5:0 gz5 bz3 bz5 bz4 rx5:0 gy3:0 gx5:0 gz3:0 bx5:0 by3:0 ry5:0 rz5:0 d4:0",
    "m4:0 rw9:0 gw9:0 bw9:0 rx9:0 gx9:0 bx9:0",
    "m4:0 rw9:0 gw9:0 bw9:0 rx8:0 rw10 gx8:0 gw10 bx8:0 bw10",
    "m4:0 rw9:0 gw9:0 bw9:0 rx7:0 rw10:11 gx7:0 gw10:11 bx7:0 bw10:11",
};

/* The region of each pixel; a dash before the fix-up pixel of region 1. */
static const char *const partitions[PARTITIONS] = {
    "001100110011001-1", "000100010001000-1", "011101110111011-1", "000100110011011-1",
    "000000010001001-1", "001101110111111-1", "000100110111111-1", "000000010011011-1",
    "000000000001001-1", "001101111111111-1", "000000010111111-1", "000000000001011-1",
    "000101111111111-1", "000000001111111-1", "000011111111111-1", "000000000000111-1",
    "000010001110111-1", "01-11000100000000", "00000000-10001110", "01-11001100010000",
    "00-11000100000000", "00001000-11001110", "00000000-10001100", "011100110011000-1",
    "00-11000100010000", "00001000-10001100", "01-10011001100110", "00-11011001101100",
    "00010111-11101000", "00001111-11110000", "01-11000110001110", "00-11100110011100",
};

static const unsigned codes[MODES] = {0, 1, 2, 6, 10, 14, 18, 22, 26, 30, 3, 7, 11};

/* For each bit of a mode's row the place and the bit there. */
static struct { unsigned char place, bit; } layout[MODES][82];
static unsigned row_bits[MODES], widths[MODES][PLACES], regions[PARTITIONS][PIXELS], fixups[PARTITIONS];

static bool two_regions(unsigned mode) { return mode <= 10; }

static unsigned read_number(const char **text)
{
    unsigned n = 0;
    while (**text >= '0' && **text <= '9') n = 10 * n + (unsigned)(*(*text)++ - '0');
    return n;
}

static unsigned read_place(const char **text)
{
    char letter = *(*text)++;
    if (letter == 'm') return MODE;
    if (letter == 'd') return PARTITION;
    return 3 * (unsigned)(*(*text)++ - 'w') + (letter == 'r' ? 0 : letter == 'g' ? 1 : 2);
}

static void read_row(unsigned m)
{
    for (const char *text = rows[m]; *text;) {
        unsigned place = read_place(&text), last = read_number(&text), bit = last;
        if (*text == ':') {
            text++;
            bit = read_number(&text);
        }
        for (;; bit += bit < last ? 1 : ~0u) {
            layout[m][row_bits[m]].place = (unsigned char)place;
            layout[m][row_bits[m]++].bit = (unsigned char)bit;
            if (widths[m][place] <= bit) widths[m][place] = bit + 1;
            if (bit == last) break;
        }
        if (*text == ' ') text++;
    }
}

static void read_tables(void)
{
    for (unsigned m = 0; m < MODES; m++) read_row(m);
    for (unsigned p = 0; p < PARTITIONS; p++)
        for (unsigned k = 0, at = 0; partitions[p][at]; at++) {
            if (partitions[p][at] == '-') fixups[p] = k;
            else regions[p][k++] = (unsigned)(partitions[p][at] - '0');
        }
}

static unsigned width(unsigned mode, unsigned place) { return widths[mode - 1][place]; }

static unsigned last_index(unsigned mode) { return two_regions(mode) ? 7 : 15; }

static unsigned region_of(const struct block *b, unsigned pixel)
{
    return two_regions(b->mode) ? regions[b->places[PARTITION]][pixel] : 0;
}

static unsigned index_bits(const struct block *b, unsigned pixel)
{
    unsigned bits = two_regions(b->mode) ? 3 : 4;
    return pixel == 0 || (two_regions(b->mode) && pixel == fixups[b->places[PARTITION]]) ? bits - 1 : bits;
}

/* ---- writing, and reading back for a block that was changed bit by bit */

static void put(uint8_t *bytes, unsigned *at, unsigned bit)
{
    bytes[*at / 8] |= (uint8_t)(bit << *at % 8);
    ++*at;
}

static unsigned get(const uint8_t *bytes, unsigned *at)
{
    unsigned bit = bytes[*at / 8] >> *at % 8 & 1;
    ++*at;
    return bit;
}

static void write_block(const struct block *b, uint8_t *bytes)
{
    unsigned at = 0, m = b->mode - 1;
    for (unsigned k = 0; k < 16; k++) bytes[k] = 0;
    for (unsigned k = 0; k < row_bits[m]; k++) put(bytes, &at, b->places[layout[m][k].place] >> layout[m][k].bit & 1);
    for (unsigned pixel = 0; pixel < PIXELS; pixel++)
        for (unsigned k = 0; k < index_bits(b, pixel); k++) put(bytes, &at, b->indices[pixel] >> k & 1);
}

static void read_block(const uint8_t *bytes, unsigned mode, struct block *b)
{
    unsigned at = 0, m = mode - 1;
    b->mode = mode;
    for (unsigned p = 0; p < PLACES; p++) b->places[p] = 0;
    for (unsigned k = 0; k < row_bits[m]; k++) b->places[layout[m][k].place] |= get(bytes, &at) << layout[m][k].bit;
    for (unsigned pixel = 0; pixel < PIXELS; pixel++) {
        b->indices[pixel] = 0;
        for (unsigned k = 0; k < index_bits(b, pixel); k++) b->indices[pixel] |= get(bytes, &at) << k;
    }
}

/* ---- judging */

static int extended(unsigned n, unsigned bits) { return n >> (bits - 1) ? (int)n - (1 << bits) : (int)n; }

static int endpoint(const struct block *b, bool is_signed, unsigned e, unsigned c)
{
    unsigned p = width(b->mode, c), stored = b->places[3 * e + c];
    bool moved = b->mode != 10 && b->mode != 11;
    int first = is_signed ? extended(b->places[c], p) : (int)b->places[c];
    if (e == 0) return first;
    int number = is_signed || moved ? extended(stored, width(b->mode, 3 * e + c)) : (int)stored;
    if (!moved) return number;
    unsigned kept = (unsigned)(first + number) & ((1u << p) - 1);
    return is_signed ? extended(kept, p) : (int)kept;
}

static int unquantized(int c, unsigned p, bool is_signed)
{
    if (!is_signed) return c == 0 ? 0 : c == (1 << p) - 1 ? 65535 : (65536 * c + 32768) >> p;
    int m = c < 0 ? -c : c;
    int u = m == 0 ? 0 : m >= (1 << (p - 1)) - 1 ? 32767 : (32768 * m + 16384) >> (p - 1);
    return c < 0 ? -u : u;
}

static int floored(int x) { return x < 0 ? -((63 - x) / 64) : x / 64; }

static int scaled(int x, bool is_signed)
{
    if (!is_signed) return 31 * x / 64;
    return x < 0 ? -(31 * -x / 32) : 31 * x / 32;
}

static bool channel_differs(const struct block *b, bool is_signed, unsigned region, unsigned c)
{
    static const int weights[2][16] = {
        {0, 4, 9, 13, 17, 21, 26, 30, 34, 38, 43, 47, 51, 55, 60, 64},
        {0, 9, 18, 27, 37, 46, 55, 64},
    };
    unsigned p = width(b->mode, c);
    int first = unquantized(endpoint(b, is_signed, 2 * region, c), p, is_signed);
    int second = unquantized(endpoint(b, is_signed, 2 * region + 1, c), p, is_signed);
    int values[16];
    for (unsigned i = 0; i <= last_index(b->mode); i++) {
        int w = weights[two_regions(b->mode)][i];
        values[i] = scaled(floored(first * (64 - w) + second * w + 32), is_signed);
        for (unsigned k = 0; k < i; k++)
            if (values[k] == values[i]) return false;
    }
    return true;
}

static bool region_differs(const struct block *b, bool is_signed, unsigned region)
{
    for (unsigned c = 0; c < CHANNELS; c++)
        if (channel_differs(b, is_signed, region, c)) return true;
    return false;
}

static unsigned region_count(const struct block *b) { return two_regions(b->mode) ? 2 : 1; }

static bool reaches(const struct block *b, unsigned region, unsigned n)
{
    for (unsigned pixel = 0; pixel < PIXELS; pixel++)
        if (region_of(b, pixel) == region && b->indices[pixel] == n) return true;
    return false;
}

static bool spans(const struct block *b)
{
    for (unsigned r = 0; r < region_count(b); r++)
        if (!reaches(b, r, 0) || !reaches(b, r, last_index(b->mode))) return false;
    return true;
}

static bool has_least(const struct block *b, bool is_signed)
{
    if (!is_signed) return false;
    for (unsigned e = 0; e < 2 * region_count(b); e++)
        for (unsigned c = 0; c < CHANNELS; c++)
            if (endpoint(b, true, e, c) == -(1 << (width(b->mode, c) - 1))) return true;
    return false;
}

static bool regions_differ(const struct block *x, const struct block *y, bool is_signed)
{
    for (unsigned r = 0; r < region_count(x); r++)
        if (!region_differs(x, is_signed, r) && !region_differs(y, is_signed, r)) return false;
    return true;
}

static bool trusted(const struct block *b, bool is_signed)
{
    return spans(b) && !has_least(b, is_signed) && regions_differ(b, b, is_signed);
}

/* ---- drawing blocks */

/* Some channels are drawn flat or nearly so, and some at the ends of their range, so that palettes with equal values and the lowest
 * number occur often enough. */
static void draw(unsigned mode, struct block *b)
{
    b->mode = mode;
    for (unsigned place = 0; place < MODE; place++) {
        unsigned w = width(mode, place), full = w ? (1u << w) - 1 : 0;
        b->places[place] = w ? below(1u << w) : 0;
        if (place < 3 && below(4) == 0) b->places[place] = below(2) ? full - below(3) : below(3);
        if (place < 3 && below(8) == 0) b->places[place] = (full / 2 + below(3)) & full;
        if (place >= 3 && w && below(3) == 0) b->places[place] = (width(mode, place % 3) == w ? b->places[place % 3] + below(5) : below(5)) & full;
    }
    b->places[MODE] = codes[mode - 1];
    b->places[PARTITION] = two_regions(mode) ? below(PARTITIONS) : 0;
    for (unsigned pixel = 0; pixel < PIXELS; pixel++) b->indices[pixel] = below(1u << index_bits(b, pixel));
    if (below(8) == 0) return;
    for (unsigned r = 0; r < region_count(b); r++)
        for (unsigned end = 0; end < 2;) {
            unsigned pixel = below(PIXELS), n = end ? last_index(mode) : 0;
            if (region_of(b, pixel) != r || n >> index_bits(b, pixel)) continue;
            b->indices[pixel] = n;
            end++;
        }
}

/* One bit, or one number by one. */
static void change_bit(const struct block *b, struct block *changed)
{
    uint8_t bytes[16];
    unsigned first = width(b->mode, MODE), bit = first + below(128 - first);
    write_block(b, bytes);
    bytes[bit / 8] ^= (uint8_t)(1u << bit % 8);
    read_block(bytes, b->mode, changed);
}

static void change_number(const struct block *b, struct block *changed)
{
    unsigned ends = 6 * region_count(b), which = below(ends + PIXELS), step = below(2) ? 1 : ~0u;
    *changed = *b;
    if (which < ends) {
        changed->places[which] = (b->places[which] + step) & ((1u << width(b->mode, which)) - 1);
    } else {
        unsigned pixel = which - ends;
        changed->indices[pixel] = (b->indices[pixel] + step) & ((1u << index_bits(b, pixel)) - 1);
    }
}

/* ---- the run */

/* Pairs of one mode and format, by what they meet, and how many of them show one picture. */
struct pairs {
    unsigned long tried, same;
};

static struct pairs covered, other_partition, without_index, without_channel, with_least;
static unsigned long judged, judged_trusted, judged_otherwise;

static void shown(const struct block *b, bool is_signed, uint8_t *bytes, uint16_t *values)
{
    write_block(b, bytes);
    judged++;
    judged_trusted += trusted(b, is_signed);
    if (knot_is_trusted(bytes, 16, is_signed) != trusted(b, is_signed)) judged_otherwise++;
    if ((knot_block_pixels(bytes, 16, is_signed, values, 48) & 0xFFFF) != b->mode << 8) judged_otherwise++;
}

static bool same(const uint16_t *x, const uint16_t *y)
{
    for (unsigned k = 0; k < 48; k++)
        if (x[k] != y[k]) return false;
    return true;
}

static void print_pair(const uint8_t *x, const uint8_t *y)
{
    printf("one picture, two blocks:");
    for (unsigned k = 0; k < 16; k++) printf(" %02X", x[k]);
    printf(" and");
    for (unsigned k = 0; k < 16; k++) printf(" %02X", y[k]);
    printf("\n");
}

static struct pairs *kind(const struct block *x, const struct block *y, bool is_signed)
{
    if (x->places[PARTITION] != y->places[PARTITION]) return &other_partition;
    if (!spans(x) || !spans(y)) return &without_index;
    if (!regions_differ(x, y, is_signed)) return &without_channel;
    return has_least(x, is_signed) || has_least(y, is_signed) ? &with_least : &covered;
}

/* Until so many pairs meet the premises. */
static void run(unsigned mode, bool is_signed, void (*change)(const struct block *, struct block *), unsigned long wanted)
{
    for (unsigned long end = covered.tried + wanted; covered.tried < end;) {
        struct block x, y;
        uint8_t x_bytes[16], y_bytes[16];
        uint16_t x_values[48], y_values[48];
        draw(mode, &x);
        change(&x, &y);
        shown(&x, is_signed, x_bytes, x_values);
        shown(&y, is_signed, y_bytes, y_values);
        struct pairs *pairs = kind(&x, &y, is_signed);
        pairs->tried++;
        if (!same(x_values, y_values)) continue;
        pairs->same++;
        if (pairs == &covered) print_pair(x_bytes, y_bytes);
    }
}

/* A million pairs over the modes, half of them by a bit and half by a number. */
static void run_modes(unsigned first, unsigned last, bool is_signed)
{
    unsigned long share = PAIRS / 2 / (last - first + 1) + 1;
    for (unsigned mode = first; mode <= last; mode++) {
        run(mode, is_signed, change_bit, share);
        run(mode, is_signed, change_number, share);
    }
    printf("modes %u to %u, %s: %lu pairs that differ in one bit, as many in one number by one\n", first, last, is_signed ? "signed" : "unsigned",
        share * (last - first + 1));
}

int main(void)
{
    read_tables();
    run_modes(11, 13, false);
    run_modes(11, 13, true);
    run_modes(1, 10, false);
    run_modes(1, 10, true);
    printf("%lu pairs meet the premises: %lu show one picture\n", covered.tried, covered.same);
    printf("%lu differ in partition: %lu show one picture\n", other_partition.tried, other_partition.same);
    printf("%lu lack a pixel at an end of a palette: %lu show one picture\n", without_index.tried, without_index.same);
    printf("%lu have those and a region without a channel that differs: %lu show one picture\n", without_channel.tried, without_channel.same);
    printf("%lu have both and an endpoint at the lowest number: %lu show one picture\n", with_least.tried, with_least.same);
    printf("%lu blocks judged, %lu trusted: %lu judged otherwise by the library\n", judged, judged_trusted, judged_otherwise);
    return covered.same != 0 || judged_otherwise != 0;
}
