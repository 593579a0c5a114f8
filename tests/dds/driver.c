/* Answers cases from standard input, for tests/dds/run. A case is six numbers of four bytes, low byte first: 0 to read, and how many bytes
 * the file has; or 1 to write, how many bytes the blocks have, format, width, height, and the room. Then the bytes.
 * Of a file three words of eight bytes go out, of knot_dds_head, knot_dds_read and knot_dds_blocks; of a writing its word and all bytes that
 * were lent, and sixteen beyond them. */
#include "knotpasture.h"

long read(int file, void *to, unsigned long size);
long write(int file, const void *from, unsigned long size);

static uint8_t given[KNOT_DDS_FILE + 64], out[KNOT_DDS_FILE + 64];

static int get(void *to, size_t size)
{
    uint8_t *at = to;
    while (size > 0) {
        long got = read(0, at, size);
        if (got <= 0) return 0;
        at += got;
        size -= (size_t)got;
    }
    return 1;
}

static void put(const void *from, size_t size)
{
    const uint8_t *at = from;
    while (size > 0) {
        long done = write(1, at, size);
        if (done <= 0) return;
        at += done;
        size -= (size_t)done;
    }
}

int main(void)
{
    uint32_t asked[6];
    while (get(asked, sizeof asked)) {
        size_t length = asked[1], lent = (size_t)asked[5] + 16;
        if (length > sizeof given || !get(given, length)) return 1;
        if (asked[0] == 0) {
            uint64_t words[3] = {knot_dds_head(given, length), knot_dds_read(given, length), knot_dds_blocks(given, length)};
            put(words, sizeof words);
            continue;
        }
        if (lent > sizeof out) return 1;
        for (size_t k = 0; k < lent; k++) out[k] = 0xA5;
        uint64_t word = knot_dds_write(given, length, (uint8_t)asked[2], asked[3], asked[4], out, asked[5]);
        put(&word, sizeof word);
        put(out, lent);
    }
    return 0;
}
