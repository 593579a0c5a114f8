/* What the C programs share that answer one question after the other on their standard streams. */
#include <stddef.h>
#include <stdint.h>

extern long read(int, void *, size_t);
extern long write(int, const void *, size_t);

/* Whether as many bytes came; the input may end before the first. */
static int get(uint8_t *to, size_t length)
{
    for (size_t at = 0; at < length;) {
        long got = read(0, to + at, length - at);
        if (got <= 0) return 0;
        at += (size_t)got;
    }
    return 1;
}

static int put(const uint8_t *from, size_t length)
{
    for (size_t at = 0; at < length;) {
        long done = write(1, from + at, length - at);
        if (done <= 0) return 0;
        at += (size_t)done;
    }
    return 1;
}

static uint32_t number(const uint8_t *b) { return b[0] | b[1] << 8 | b[2] << 16 | (uint32_t)b[3] << 24; }

static void put_word(uint8_t *to, uint64_t word)
{
    for (size_t k = 0; k < 8; k++) to[k] = (uint8_t)(word >> 8 * k);
}

static void fill(uint8_t *to, size_t length)
{
    for (size_t k = 0; k < length; k++) to[k] = 0xA5;
}
