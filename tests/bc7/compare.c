/* The calls for BC7 beside the plain decoder: compare COUNT SEED; with other words it is the plain decoder of stream.h.
 *
 * Each block through knot_bc7_pixels, into a byte more than it needs; then runs of blocks of every length from 0 to 64 through
 * knot_bc7_blocks_pixels. Prints the first blocks that differ, and how many were compared in each mode.
 */
#include "knotpasture.h"

#include "stream.h"

int printf(const char *format, ...);

enum { RUN = 64, UNTOUCHED = 0xA5 };

static uint8_t run[16 * RUN], pixels[64 * RUN + 1], expected[64 * RUN];
static unsigned long compared[9], runs, different;

static int same(const uint8_t *a, const uint8_t *b, size_t size)
{
    for (size_t k = 0; k < size; k++)
        if (a[k] != b[k]) return 0;
    return 1;
}

static void tell(const uint8_t *block, const char *what)
{
    if (++different > 5) return;
    printf("%s:", what);
    for (int k = 0; k < 16; k++) printf(" %02X", block[k]);
    printf("\n");
}

static void one(const uint8_t *block, uint8_t *right)
{
    int mode = plain_block(block, right);
    for (int j = 0; j < 65; j++) pixels[j] = UNTOUCHED;
    uint32_t word = knot_bc7_pixels(block, 16, pixels, 65);
    if (word != (uint32_t)mode << 8) tell(block, "another word");
    else if (!same(pixels, right, 64)) tell(block, "another picture");
    else if (pixels[64] != UNTOUCHED) tell(block, "a byte too many");
    compared[mode]++;
}

static void several(size_t count)
{
    size_t done = 99;
    for (size_t j = 0; j < 64 * count + 1; j++) pixels[j] = UNTOUCHED;
    uint64_t word = knot_bc7_blocks_pixels(run, 16 * count, pixels, 64 * count, &done);
    if (word != KNOT_DONE || done != count || !same(pixels, expected, 64 * count) || pixels[64 * count] != UNTOUCHED) tell(run, "a run that differs");
    runs++;
}

int main(int argc, char **argv)
{
    if (argc != 3) return stream(argc, argv);
    uint64_t count = number(argv[1]), seed = number(argv[2]);
    for (uint64_t n = 0; n < count; n++) {
        size_t at = n % RUN;
        make_block(n, seed, run + 16 * at);
        one(run + 16 * at, expected + 64 * at);
        if (at == RUN - 1) several(n / RUN % (RUN + 1));
    }
    unsigned long all = 0;
    for (int mode = 0; mode < 9; mode++) all += compared[mode];
    printf("%lu blocks", all);
    for (int mode = 0; mode < 9; mode++) printf("%s%lu", mode ? " " : ", by mode number: ", compared[mode]);
    printf("; %lu runs; %lu differ\n", runs, different);
    return different != 0;
}
