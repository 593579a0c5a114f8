/* Times the probe's calls on the largest probe, 1,536 records: the check, a pixel, a face, and beside them one block and the blocks of a
 * face decoded by knot_blocks_pixels; then a whole face in three ways: by knot_probe_face, opened once and pixel by pixel, and by knot_probe_pixel.
 * Each figure is the fastest of many rounds that take turns. Prints nanoseconds. Status 1 where the three ways differ.
 *
 * cc -O2 -Iinclude tests/probe/speed.c ARCHIVE -o speed && ./speed */
#define _POSIX_C_SOURCE 200809L
#include "knotpasture.h"

#include <stdio.h>
#include <time.h>

enum { EDGE = 16, SIDE = 4 * EDGE, FACE = EDGE * EDGE, RECORDS = 6 * FACE, SIZE = 32, ROUNDS = 400, TURNS = 16, SLOW_ROUNDS = 10 };

static uint8_t store[SIZE * RECORDS], blocks[16 * FACE];
static uint16_t values[48 * FACE], by_table[48 * FACE], by_pixel[48 * FACE], table[KNOT_PROBE_TABLE];
static volatile uint64_t sink;
static size_t faulty;

static double now(void)
{
    struct timespec t;
    clock_gettime(CLOCK_THREAD_CPUTIME_ID, &t);
    return 1e9 * (double)t.tv_sec + (double)t.tv_nsec;
}

static uint64_t state = 88172645463325252u;

static uint64_t chance(void)
{
    state ^= state << 13;
    state ^= state >> 7;
    return state ^= state << 17;
}

static void fill(void)
{
    static unsigned order[RECORDS];
    for (unsigned k = 0; k < RECORDS; k++) order[k] = k;
    for (unsigned k = RECORDS - 1; k > 0; k--) {
        unsigned other = (unsigned)(chance() % (k + 1)), kept = order[k];
        order[k] = order[other];
        order[other] = kept;
    }
    for (unsigned n = 0; n < RECORDS; n++) {
        uint8_t *record = store + SIZE * n;
        unsigned place = order[n];
        record[5] = (uint8_t)(place / FACE);
        record[6] = (uint8_t)(place % EDGE);
        record[8] = (uint8_t)(place / EDGE % EDGE);
        for (unsigned k = 0; k < 16; k++) record[16 + k] = (uint8_t)chance();
        if (n < FACE)
            for (unsigned k = 0; k < 16; k++) blocks[16 * n + k] = record[16 + k];
    }
}

static void check(void) { sink = knot_probe_check(store, sizeof store, EDGE); }
static void pixel(void) { sink = knot_probe_pixel(store, sizeof store, EDGE, 3, 17, 42, &faulty); }
static void face(void) { sink = knot_probe_face(store, sizeof store, EDGE, 3, values, 48 * FACE); }
static void block(void) { sink = knot_block_pixels(blocks, 16, KNOT_UNSIGNED, values, 48); }

static void run(void)
{
    size_t done, infinite;
    sink = knot_blocks_pixels(blocks, sizeof blocks, KNOT_UNSIGNED, values, 48 * FACE, &done, &infinite);
}

static void keep(uint16_t *to, unsigned x, unsigned y, uint64_t word)
{
    uint16_t *at = to + 3 * (SIDE * y + x);
    at[0] = KNOT_RED(word), at[1] = KNOT_GREEN(word), at[2] = KNOT_BLUE(word);
}

static void opened(void)
{
    sink = knot_probe_open(store, sizeof store, EDGE, table, KNOT_PROBE_TABLE);
    for (unsigned y = 0; y < SIDE; y++)
        for (unsigned x = 0; x < SIDE; x++) keep(by_table, x, y, knot_probe_pixel_in(store, sizeof store, table, KNOT_PROBE_TABLE, EDGE, 3, x, y));
}

static void each(void)
{
    for (unsigned y = 0; y < SIDE; y++)
        for (unsigned x = 0; x < SIDE; x++) keep(by_pixel, x, y, knot_probe_pixel(store, sizeof store, EDGE, 3, x, y, &faulty));
}

/* A face in three ways. */
static int whole_face(void)
{
    static void (*const ways[])(void) = {face, opened, each};
    static const char *const names[] = {"a face by knot_probe_face", "opened once, by knot_probe_pixel_in", "by knot_probe_pixel"};
    double best[3] = {1e18, 1e18, 1e18};
    for (unsigned round = 0; round < SLOW_ROUNDS; round++)
        for (unsigned k = 0; k < 3; k++) {
            double start = now();
            ways[k]();
            double spent = now() - start;
            if (spent < best[k]) best[k] = spent;
        }
    for (unsigned k = 0; k < 3; k++) printf("%s %.0f, %.1f times\n", names[k], best[k], best[k] / best[0]);
    for (unsigned k = 0; k < 48 * FACE; k++)
        if (values[k] != by_table[k] || values[k] != by_pixel[k]) return 1;
    return 0;
}

int main(void)
{
    static void (*const calls[])(void) = {check, pixel, face, block, run};
    static const char *const names[] = {"check", "pixel", "face", "block", "256 blocks"};
    double best[5] = {1e18, 1e18, 1e18, 1e18, 1e18};
    fill();
    for (unsigned round = 0; round < ROUNDS; round++)
        for (unsigned k = 0; k < 5; k++) {
            double start = now();
            for (unsigned turn = 0; turn < TURNS; turn++) calls[k]();
            double spent = (now() - start) / TURNS;
            if (spent < best[k]) best[k] = spent;
        }
    for (unsigned k = 0; k < 5; k++) printf("%s %.0f\n", names[k], best[k]);
    return whole_face() || knot_probe_check(store, sizeof store, EDGE) != KNOT_DONE;
}
