/* Decodes a large face with one thread a core, over knot_blocks_pixels: threads [BLOCKS] [THREADS]
 *
 *     cc -O2 $(pkg-config --cflags knotpasture) threads.c -o threads $(pkg-config --libs knotpasture) -lpthread
 *
 * The calls have no state, so that threads need no lock: each gets a stretch of the blocks and the stretch of the values that belongs to it. The
 * face is 1,048,576 blocks (4,096 by 4,096 pixels) of all modes, made by a small generator. It is decoded by one thread, then by THREADS (a thread a
 * core without a word), five times each in turns; the best time of each is printed, and that the values are the same.
 */
#define _POSIX_C_SOURCE 200809L
#include <knotpasture.h>
#include <pthread.h>
#include <stdio.h>
#include <stdlib.h>
#include <string.h>
#include <time.h>
#include <unistd.h>

enum { ROUNDS = 5, MOST_THREADS = 256 };

/* What a thread decodes, and what it was answered. */
struct part {
    const uint8_t *blocks;
    uint16_t *values;
    size_t count, done, infinite;
    uint32_t answer;
};

static void *decode_part(void *given)
{
    struct part *part = given;
    part->answer = knot_blocks_pixels(part->blocks, KNOT_BLOCK_SIZE * part->count, KNOT_UNSIGNED, part->values, KNOT_VALUES * part->count,
                                      &part->done, &part->infinite);
    return NULL;
}

/* All blocks, by so many threads; the calling thread takes the first part. Answers 0, or why it did not work. */
static int decode(const uint8_t *blocks, uint16_t *values, size_t count, size_t threads)
{
    struct part parts[MOST_THREADS];
    pthread_t running[MOST_THREADS];
    size_t done = 0;
    for (size_t n = 0; n < threads; n++) {
        size_t first = count * n / threads, next = count * (n + 1) / threads;
        parts[n] = (struct part){blocks + KNOT_BLOCK_SIZE * first, values + KNOT_VALUES * first, next - first, 0, 0, 0};
    }
    for (size_t n = 1; n < threads; n++)
        if (pthread_create(&running[n], NULL, decode_part, &parts[n]) != 0) {
            fprintf(stderr, "thread %zu does not start\n", n);
            exit(3);
        }
    decode_part(&parts[0]);
    for (size_t n = 1; n < threads; n++) pthread_join(running[n], NULL);
    for (size_t n = 0; n < threads; n++) {
        if (parts[n].answer != KNOT_DONE) return (int)KNOT_ANSWER(parts[n].answer);
        done += parts[n].done;
    }
    return done == count ? 0 : -1;
}

static double now(void)
{
    struct timespec t;
    clock_gettime(CLOCK_MONOTONIC, &t);
    return (double)t.tv_sec + 1e-9 * (double)t.tv_nsec;
}

static void fill(uint8_t *blocks, size_t count)
{
    uint64_t state = 1;
    for (size_t n = 0; n < KNOT_BLOCK_SIZE * count; n++) {
        state = state * 6364136223846793005u + 1442695040888963407u;
        blocks[n] = (uint8_t)(state >> 56);
    }
}

int main(int argc, char **argv)
{
    long cores = sysconf(_SC_NPROCESSORS_ONLN);
    size_t count = argc > 1 ? strtoul(argv[1], NULL, 10) : 1048576;
    size_t threads = argc > 2 ? strtoul(argv[2], NULL, 10) : cores > 0 ? (size_t)cores : 1;
    if (count < 1 || count > 1u << 26 || threads < 1 || threads > MOST_THREADS || argc > 3) {
        fprintf(stderr, "usage: threads [BLOCKS, at most %u] [THREADS, at most %d]\n", 1u << 26, MOST_THREADS);
        return 2;
    }
    uint8_t *blocks = malloc(KNOT_BLOCK_SIZE * count);
    uint16_t *alone = malloc(2 * KNOT_VALUES * count), *together = malloc(2 * KNOT_VALUES * count);
    if (!blocks || !alone || !together) {
        fprintf(stderr, "no memory for %zu blocks\n", count);
        return 3;
    }
    fill(blocks, count);
    /* every page is touched before a clock runs */
    memset(alone, 1, 2 * KNOT_VALUES * count);
    memset(together, 2, 2 * KNOT_VALUES * count);
    double best[2] = {1e9, 1e9};
    for (int round = 0; round < ROUNDS; round++)
        for (int many = 0; many < 2; many++) {
            double began = now();
            int failed = decode(blocks, many ? together : alone, count, many ? threads : 1);
            double took = now() - began;
            if (failed) {
                fprintf(stderr, "refused, %d\n", failed);
                return 1;
            }
            if (took < best[many]) best[many] = took;
        }
    int same = memcmp(alone, together, 2 * KNOT_VALUES * count) == 0;
    printf("%zu blocks: 1 thread %.1f ms, %.1f million blocks a second; %zu threads %.1f ms, %.1f million; %.2f times as fast; the values are %s\n", count,
           1e3 * best[0], 1e-6 * (double)count / best[0], threads, 1e3 * best[1], 1e-6 * (double)count / best[1], best[0] / best[1],
           same ? "the same" : "NOT the same");
    free(blocks), free(alone), free(together);
    return same ? 0 : 1;
}
