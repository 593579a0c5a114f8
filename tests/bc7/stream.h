/* The plain decoder over a run of blocks: standard input is blocks of sixteen bytes; 66 bytes go out for each: 0, the mode, and the bytes of
 * its pixels. With the words `emit COUNT SEED` it writes that many blocks to standard output instead.
 */
#include <stddef.h>

#include "blocks.h"
#include "plain.h"

long read(int, void *, size_t);
long write(int, const void *, size_t);

enum { BATCH = 1024 };

static uint8_t blocks[16 * BATCH], shown[66 * BATCH];

static uint64_t number(const char *text)
{
    uint64_t value = 0;
    for (; *text; text++) value = 10 * value + (uint64_t)(*text - '0');
    return value;
}

static int put(const uint8_t *bytes, size_t size)
{
    while (size > 0) {
        long wrote = write(1, bytes, size);
        if (wrote <= 0) return 0;
        bytes += wrote;
        size -= (size_t)wrote;
    }
    return 1;
}

static size_t get(uint8_t *bytes, size_t size)
{
    size_t got = 0;
    while (got < size) {
        long more = read(0, bytes + got, size - got);
        if (more <= 0) break;
        got += (size_t)more;
    }
    return got;
}

static int emit(uint64_t count, uint64_t seed)
{
    for (uint64_t n = 0; n < count; n += BATCH) {
        size_t here = count - n < BATCH ? (size_t)(count - n) : BATCH;
        for (size_t k = 0; k < here; k++) make_block(n + k, seed, blocks + 16 * k);
        if (!put(blocks, 16 * here)) return 3;
    }
    return 0;
}

static int stream(int argc, char **argv)
{
    if (argc == 4) return emit(number(argv[2]), number(argv[3]));
    size_t got;
    do {
        got = get(blocks, sizeof blocks) / 16;
        for (size_t k = 0; k < got; k++) {
            shown[66 * k] = 0;
            shown[66 * k + 1] = (uint8_t)plain_block(blocks + 16 * k, shown + 66 * k + 2);
        }
        if (!put(shown, 66 * got)) return 3;
    } while (got == BATCH);
    return 0;
}
