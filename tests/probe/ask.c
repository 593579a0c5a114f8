/* Asks the exports of the probe what tests/probe/run writes to standard input, and writes the answers to standard output.
 *
 * A question is a letter and six 32-bit numbers, low byte first: edge, face, x, y, room, length. `s` keeps the `length` bytes behind it as
 * the store. `c` asks for the check and `e` for the edge, and has an answer of 8 bytes; `p` asks for a pixel, and has 8 bytes more, the faulty
 * record. `f` asks for a face into `room` values, and has an answer of 4 bytes and the values, with 8 more behind them. `b` builds a probe of the
 * kept bytes into `room` bytes, where face is the format and x the first tile: 4 bytes, the records in 8, and the bytes, with 8 more. `o` opens
 * the store into `room` values: 8 bytes, and the values, with 8 more. `t` keeps the `length` bytes behind it as a table; `q` asks for a pixel by the
 * first `room` values of it: 8 bytes. */
#include "knotpasture.h"

long read(int from, void *to, size_t size);
long write(int to, const void *from, size_t size);

enum { STORE = 70000, ROOM = 50000, GUARD = 8, UNTOUCHED = 0xA55A, BYTE = 0x5A };

static uint8_t store[STORE];
static uint16_t values[ROOM + GUARD];
static uint8_t made[ROOM + GUARD];
static uint16_t table[ROOM];

static int take(void *to, size_t size)
{
    for (size_t at = 0; at < size;) {
        long got = read(0, (uint8_t *)to + at, size - at);
        if (got <= 0) return 0;
        at += (size_t)got;
    }
    return 1;
}

static int give(const void *from, size_t size)
{
    for (size_t at = 0; at < size;) {
        long put = write(1, (const uint8_t *)from + at, size - at);
        if (put <= 0) return 0;
        at += (size_t)put;
    }
    return 1;
}

int main(void)
{
    uint8_t letter;
    uint32_t n[6];
    size_t length = 0;
    while (take(&letter, 1)) {
        if (!take(n, sizeof n) || n[4] > ROOM || n[5] > STORE) return 1;
        if (letter == 's') {
            length = n[5];
            if (!take(store, length)) return 1;
        } else if (letter == 'p') {
            size_t faulty = UNTOUCHED;
            uint64_t answer = knot_probe_pixel(store, length, n[0], n[1], n[2], n[3], &faulty);
            if (!give(&answer, sizeof answer) || !give(&faulty, sizeof faulty)) return 1;
        } else if (letter == 'c') {
            uint64_t answer = knot_probe_check(store, length, n[0]);
            if (!give(&answer, sizeof answer)) return 1;
        } else if (letter == 'e') {
            size_t answer = knot_probe_edge(store, length);
            if (!give(&answer, sizeof answer)) return 1;
        } else if (letter == 'o') {
            for (size_t k = 0; k < n[4] + GUARD; k++) values[k] = UNTOUCHED;
            uint64_t answer = knot_probe_open(store, length, n[0], values, n[4]);
            if (!give(&answer, sizeof answer) || !give(values, 2 * (n[4] + GUARD))) return 1;
        } else if (letter == 't') {
            if (!take(table, n[5])) return 1;
        } else if (letter == 'q') {
            uint64_t answer = knot_probe_pixel_in(store, length, table, n[4], n[0], n[1], n[2], n[3]);
            if (!give(&answer, sizeof answer)) return 1;
        } else if (letter == 'b') {
            for (size_t k = 0; k < n[4] + GUARD; k++) made[k] = BYTE;
            size_t records = UNTOUCHED;
            uint32_t answer = knot_probe_build(store, length, (uint8_t)n[1], n[0], n[2], made, n[4], &records);
            if (!give(&answer, sizeof answer) || !give(&records, sizeof records) || !give(made, n[4] + GUARD)) return 1;
        } else {
            for (size_t k = 0; k < n[4] + GUARD; k++) values[k] = UNTOUCHED;
            uint32_t answer = knot_probe_face(store, length, n[0], n[1], values, n[4]);
            if (!give(&answer, sizeof answer) || !give(values, 2 * (n[4] + GUARD))) return 1;
        }
    }
    return 0;
}
