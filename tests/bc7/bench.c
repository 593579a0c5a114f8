/* What a BC7 block costs, beside the plain decoder: processor time of the process, the two in turns, the best of 25, in nanoseconds a block.
 * First 4,096 blocks in cache, all modes at random and each by itself; then 1,048,576 blocks in runs of 64 to all of them
 * in one call. With a word, the blocks of standard input alone.
 */
#define _POSIX_C_SOURCE 199309L
#include "knotpasture.h"

#include "blocks.h"
#include "plain.h"

#include <stdio.h>
#include <stdlib.h>
#include <time.h>

enum { CACHED = 4096, TURNS = 25, MOST = 1048576 };

static uint8_t *blocks, *out;
static unsigned long sink;

static double now(void)
{
    struct timespec t;
    clock_gettime(CLOCK_PROCESS_CPUTIME_ID, &t);
    return t.tv_sec * 1e9 + t.tv_nsec;
}

static void least(double *best, double took)
{
    if (took < *best) *best = took;
}

/* Ours and the plain one over the first blocks, a call each. */
static void beside(const char *what, size_t count)
{
    double ours = 1e30, plain = 1e30;
    for (int turn = 0; turn < TURNS; turn++) {
        double from = now();
        for (size_t n = 0; n < count; n++) sink += knot_bc7_pixels(blocks + 16 * n, 16, out + 64 * n, 64);
        least(&ours, (now() - from) / count);
        from = now();
        for (size_t n = 0; n < count; n++) sink += (unsigned)plain_block(blocks + 16 * n, out + 64 * n);
        least(&plain, (now() - from) / count);
    }
    printf("%-12s ours %6.1f  plain %6.1f  ratio %.2f\n", what, ours, plain, plain / ours);
}

/* The same blocks in calls of `count`. */
static void run(size_t count)
{
    double best = 1e30;
    size_t done;
    for (int turn = 0; turn < TURNS; turn++) {
        double from = now();
        for (size_t n = 0; n < MOST; n += count) sink += knot_bc7_blocks_pixels(blocks + 16 * n, 16 * count, out + 64 * n, 64 * count, &done);
        least(&best, (now() - from) / MOST);
    }
    printf("runs of %-8lu ours %6.1f\n", (unsigned long)count, best);
}

static uint64_t state = 88172645463325252u;

static uint64_t next(void)
{
    return state = mixed(state);
}

/* Random blocks of one mode, 8 for reserved, or, with 9, of every mode but reserved, in a random order. */
static void fill(size_t count, int mode)
{
    for (size_t n = 0; n < count; n++) {
        for (int k = 0; k < 16; k++) blocks[16 * n + k] = (uint8_t)(next() >> 24);
        int m = mode == 9 ? (int)(next() >> 20 & 7) : mode;
        put_bits(blocks + 16 * n, 0, m < 8 ? m + 1 : 8, m < 8 ? 1u << m : 0);
    }
}

int main(int argc, char **argv)
{
    blocks = malloc(16 * (size_t)MOST);
    out = malloc(64 * (size_t)MOST);
    if (!blocks || !out) return 2;
    for (size_t k = 0; k < 64 * (size_t)MOST; k++) out[k] = 0;
    if (argc > 1) {
        size_t count = fread(blocks, 16, MOST, stdin);
        if (count == 0) return 2;
        beside(argv[1], count);
        return sink == 1;
    }
    fill(MOST, 9);
    beside("every mode", CACHED);
    for (size_t count = 64; count <= MOST; count *= 4) run(count);
    for (int mode = 0; mode < 9; mode++) {
        char what[16];
        snprintf(what, sizeof what, mode < 8 ? "mode %d" : "reserved", mode);
        fill(CACHED, mode);
        beside(what, CACHED);
    }
    return sink == 1;
}
