/* Answers the requests on standard input with what knot_face_pixels and knot_face_rgba do, for tests/face/run.
 *
 * A request is 50 bytes, low bytes first: lanes (1), format (1), width (8), height (8), pitch (8), room (8), block bytes (8), seed (8); the
 * block bytes follow. The answer is the number (8), the count (8), and the lent values with 16 behind them that were not lent: value k was
 * seed + 977 k before the call. Where a format is known, the values of the blocks follow, each block by itself.
 */
#include "knotpasture.h"

void *malloc(size_t size);
long read(int file, void *to, size_t size);
long write(int file, const void *from, size_t size);

enum { INPUT = 1 << 26, ROOM = 1 << 20, BEHIND = 16, HEAD = 50 };

static uint64_t number(const uint8_t *from)
{
    uint64_t n = 0;
    for (int k = 7; k >= 0; k--) n = n << 8 | from[k];
    return n;
}

static void put(const void *from, size_t size)
{
    for (size_t sent = 0; sent < size;) {
        long more = write(1, (const uint8_t *)from + sent, size - sent);
        if (more <= 0) return;
        sent += more;
    }
}

int main(void)
{
    uint8_t *input = malloc(INPUT);
    uint16_t *out = malloc(sizeof(uint16_t) * (ROOM + BEHIND));
    size_t length = 0;
    if (input == NULL || out == NULL) return 1;
    for (long got = 1; got > 0 && length < INPUT; length += got) {
        got = read(0, input + length, INPUT - length);
        if (got < 0) return 1;
    }
    for (const uint8_t *at = input; at < input + length;) {
        size_t width = number(at + 2), height = number(at + 10), pitch = number(at + 18), room = number(at + 26), size = number(at + 34);
        uint16_t seed = number(at + 42), values[48];
        uint64_t told[2] = {0, 77};
        size_t infinite = 77;
        if (room > ROOM) return 1;
        for (size_t k = 0; k < room + BEHIND; k++) out[k] = seed + 977 * k;
        told[0] = at[0] == 4 ? knot_face_rgba(at + HEAD, size, width, height, at[1], out, room, pitch, &infinite)
                             : knot_face_pixels(at + HEAD, size, width, height, at[1], out, room, pitch, &infinite);
        told[1] = infinite;
        put(told, sizeof told);
        put(out, sizeof(uint16_t) * (room + BEHIND));
        for (size_t n = 0; at[1] < 2 && n < size / 16; n++) {
            knot_block_pixels(at + HEAD + 16 * n, 16, at[1], values, 48);
            put(values, sizeof values);
        }
        at += HEAD + size;
    }
    return 0;
}
