/* Times the export of a picture of 1,024 by 1,024 pixels against decoding the same blocks, in one run.
 *
 * A ratio is of the fastest of many rounds, taken in turn, in the thread's processor time.
 */
#include <stdio.h>
#include <stdlib.h>
#include <time.h>

#include "../../include/knotpasture.h"

enum { ROUNDS = 200 };

static double now(void)
{
    struct timespec t;
    clock_gettime(CLOCK_THREAD_CPUTIME_ID, &t);
    return t.tv_sec + t.tv_nsec * 1e-9;
}

static void compare(unsigned side, int rounds)
{
    size_t bytes = (size_t)side * side, values = 3 * bytes, length = knot_pfm_length(side, side);
    uint8_t *blocks = malloc(bytes), *file = malloc(length);
    uint16_t *out = malloc(2 * values);
    uint64_t seed = 88172645463325252u;
    for (size_t k = 0; k < bytes; k++) {
        seed = seed * 6364136223846793005u + 1442695040888963407u;
        blocks[k] = seed >> 56;
    }
    for (uint8_t format = 0; format < 2; format++) {
        double decoded = 1e9, exported = 1e9;
        for (int k = 0; k < rounds; k++) {
            size_t done, infinite;
            double start = now();
            uint32_t answer = knot_blocks_pixels(blocks, bytes, format, out, values, &done, &infinite);
            double between = now();
            uint64_t word = knot_pfm_write(blocks, bytes, format, side, side, file, length);
            double end = now();
            if (KNOT_ANSWER(answer) != KNOT_DONE || KNOT_ANSWER(word) != KNOT_DONE) exit(1);
            decoded = between - start < decoded ? between - start : decoded;
            exported = end - between < exported ? end - between : exported;
        }
        printf("%u by %u, %s: decoding %.3f ms, export %.3f ms, ratio %.2f\n", side, side, format ? "signed" : "unsigned", decoded * 1e3,
               exported * 1e3, exported / decoded);
    }
    free(blocks);
    free(file);
    free(out);
}

int main(void)
{
    compare(1024, ROUNDS);
    return 0;
}
