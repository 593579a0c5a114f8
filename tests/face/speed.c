/* Times a face of 256 by 256 blocks in rows, with three values a pixel and with four, and with a pitch above a row's values, against a run of
 * the same blocks, in one run.
 *
 * A ratio is of the fastest of many rounds, taken in turn, in the thread's processor time.
 */
#include <stdio.h>
#include <stdlib.h>
#include <time.h>

#include "../../include/knotpasture.h"

enum { ROUNDS = 200, SIDE = 256, BYTES = 16 * SIDE * SIDE, ROW = 16 * SIDE, PITCH = ROW + 64, ROOM = PITCH * 4 * SIDE, WAYS = 4 };

static double now(void)
{
    struct timespec t;
    clock_gettime(CLOCK_THREAD_CPUTIME_ID, &t);
    return t.tv_sec + t.tv_nsec * 1e-9;
}

static size_t decode(int way, const uint8_t *blocks, uint8_t format, uint16_t *out)
{
    size_t done, infinite;
    uint32_t answer;
    if (way == 0)
        answer = knot_blocks_pixels(blocks, BYTES, format, out, 3 * BYTES, &done, &infinite);
    else if (way == 1)
        answer = knot_face_pixels(blocks, BYTES, SIDE, SIDE, format, out, ROOM, 12 * SIDE, &infinite);
    else
        answer = knot_face_rgba(blocks, BYTES, SIDE, SIDE, format, out, ROOM, way == 2 ? ROW : PITCH, &infinite);
    if (KNOT_ANSWER(answer) != KNOT_DONE) exit(1);
    return infinite;
}

int main(void)
{
    static const char *names[WAYS] = {"a run", "a face, three values a pixel", "four", "four, 64 values between rows"};
    uint8_t *blocks = malloc(BYTES);
    uint16_t *out = malloc(sizeof(uint16_t) * ROOM);
    uint64_t seed = 88172645463325252u;
    for (size_t k = 0; k < BYTES; k++) {
        seed = seed * 6364136223846793005u + 1442695040888963407u;
        blocks[k] = seed >> 56;
    }
    for (uint8_t format = 0; format < 2; format++) {
        double best[WAYS] = {1e9, 1e9, 1e9, 1e9};
        size_t counted = decode(0, blocks, format, out);
        for (int round = 0; round < ROUNDS; round++)
            for (int way = 0; way < WAYS; way++) {
                double start = now();
                if (decode(way, blocks, format, out) != counted) exit(1);
                double took = now() - start;
                best[way] = took < best[way] ? took : best[way];
            }
        for (int way = 0; way < WAYS; way++)
            printf("%s, %s: %.3f ms, ratio %.2f\n", format ? "signed" : "unsigned", names[way], best[way] * 1e3, best[way] / best[0]);
    }
    free(blocks);
    free(out);
    return 0;
}
