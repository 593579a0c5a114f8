/* Answers requests on standard input with what knot_pfm_write does, for tests/pfm/run.
 *
 * A request is 26 bytes, low bytes first: kind (1), format (1), width (4), height (4), room (8), block bytes (8). Of kind 0 the block bytes
 * follow, and the answer is the word (8), knot_pfm_length of the size (8), all of the lent room with 16 bytes that were not lent behind it, and, where
 * knot_blocks_pixels is done, its values. Of kind 1 the block bytes are zeros and are not sent, and the answer is the word, the length, and one
 * byte: 1 where the lent bytes that were looked at, the first and the last 64 KiB, are as they were.
 */
#include "knotpasture.h"

int printf(const char *format, ...);
void *malloc(size_t size);
void *memset(void *to, int byte, size_t size);
long read(int file, void *to, size_t size);
long write(int file, const void *from, size_t size);

enum { ROOM = 201326610 + 16, BLOCKS = (1 << 24) + 64, LOOK = 1 << 16, FILL = 0xA5, BEHIND = 16 };

static uint8_t request[26];

static int take(void *to, size_t size)
{
    for (uint8_t *at = to; size > 0;) {
        long got = read(0, at, size);
        if (got <= 0) return 0;
        at += got;
        size -= got;
    }
    return 1;
}

static void give(const void *from, size_t size)
{
    for (const uint8_t *at = from; size > 0;) {
        long put = write(1, at, size);
        if (put <= 0) return;
        at += put;
        size -= put;
    }
}

static uint64_t number(size_t at, size_t count)
{
    uint64_t n = 0;
    for (size_t k = 0; k < count; k++) n |= (uint64_t)request[at + k] << 8 * k;
    return n;
}

static int filled(const uint8_t *bytes, size_t size)
{
    for (size_t k = 0; k < size; k++)
        if (bytes[k] != FILL) return 0;
    return 1;
}

int main(void)
{
    uint8_t *out = malloc(ROOM), *blocks = malloc(BLOCKS);
    uint16_t *values = malloc(sizeof(uint16_t) * 3 * 65536 * 4);
    if (out == NULL || blocks == NULL || values == NULL) return 1;
    memset(out, FILL, ROOM);
    while (take(request, sizeof request)) {
        uint8_t format = request[1];
        uint32_t width = number(2, 4), height = number(6, 4);
        size_t room = number(10, 8), size = number(18, 8), length = knot_pfm_length(width, height);
        if (room + BEHIND > ROOM || size > BLOCKS) return 1;
        if (request[0] == 0) {
            if (!take(blocks, size)) return 1;
        } else {
            memset(blocks, 0, size);
        }
        uint64_t word = knot_pfm_write(blocks, size, format, width, height, out, room);
        give(&word, 8);
        give(&length, 8);
        if (request[0] == 0) {
            size_t done, infinite;
            give(out, room + BEHIND);
            if (knot_blocks_pixels(blocks, size, format, values, 3 * size, &done, &infinite) == KNOT_DONE) give(values, 6 * size);
        } else {
            size_t look = room < LOOK ? room : LOOK;
            uint8_t as_it_was = filled(out, look) && filled(out + room - look, look + BEHIND);
            give(&as_it_was, 1);
        }
        if (KNOT_ANSWER(word) == KNOT_DONE) memset(out, FILL, room + BEHIND);
    }
    return 0;
}
