/* Calls the probe's functions of knotpasture.h as a C program does, with good and bad input. Prints each check that fails.
 * Holds S-1, S-57 to S-59, S-87, S-93. */
#include "knotpasture.h"

#include "check.h"

/* Mode 11: red is 0 in the pixels at index 0 and 0x7BFF in pixel 15, at the last index. */
static const uint8_t LAST_RED[16] = {0x03, 0, 0, 0, 0xF8, 0x1F, 0, 0, 0, 0, 0, 0, 0, 0, 0, 0xF0};

enum { RECORDS = 6, SIZE = 32, UNTOUCHED = 0xA55A };

static uint8_t store[SIZE * (RECORDS + 1)];
static uint16_t values[64];
static size_t faulty;

/* A probe of one block a face; the record of face k stands at (k + 2) mod 6, and that of face 4 alone is black. */
static void fill(void)
{
    for (unsigned k = 0; k < sizeof store; k++) store[k] = 0;
    for (unsigned face = 0; face < RECORDS; face++) {
        uint8_t *record = store + SIZE * ((face + 2) % RECORDS);
        record[5] = (uint8_t)face;
        if (face != 4)
            for (unsigned k = 0; k < 16; k++) record[16 + k] = LAST_RED[k];
    }
}

static int untouched(size_t from)
{
    for (size_t k = from; k < 64; k++)
        if (values[k] != UNTOUCHED) return 0;
    return 1;
}

/* A pixel of the store of six records; `faulty` is then what the call left there. */
static uint64_t pixel(uint32_t number, uint32_t x, uint32_t y)
{
    faulty = UNTOUCHED;
    return knot_probe_pixel(store, SIZE * RECORDS, 1, number, x, y, &faulty);
}

static uint32_t face(uint32_t edge, uint32_t number, size_t room)
{
    for (size_t k = 0; k < 64; k++) values[k] = UNTOUCHED;
    return knot_probe_face(store, SIZE * RECORDS, edge, number, values, room);
}

static void whole(void)
{
    size_t length = SIZE * RECORDS;
    fill();
    CHECK(knot_probe_check(store, length, 1) == KNOT_DONE);
    for (uint32_t k = 0; k < 6; k++) {
        uint64_t last = pixel(k, 3, 3), other = pixel(k, 3, 2);
        CHECK(KNOT_ANSWER(last) == KNOT_DONE && KNOT_RED(last) == (k == 4 ? 0 : 0x7BFF) && KNOT_GREEN(last) == 0 && KNOT_BLUE(last) == 0);
        CHECK(other == KNOT_DONE && faulty == 0);
        CHECK(face(1, k, 48) == KNOT_DONE && values[45] == KNOT_RED(last) && values[44] == 0 && values[47] == 0 && untouched(48));
    }
    CHECK(pixel(6, 0, 0) == KNOT_NO_PIXEL && faulty == 0);
    CHECK(pixel(0, 4, 0) == KNOT_NO_PIXEL && pixel(0, 0, 4) == KNOT_NO_PIXEL && faulty == 0);
    CHECK(face(1, 6, 0) == KNOT_NO_PIXEL && face(1, 5, 47) == KNOT_SHORT_OUTPUT && untouched(0));
    CHECK(face(1, 5, 64) == KNOT_DONE && untouched(48) && !untouched(47));
}

static void refused(void)
{
    size_t length = SIZE * RECORDS;
    fill();
    CHECK(knot_probe_check(NULL, 0, 0) == KNOT_BAD_EDGE && knot_probe_check(store, length, 17) == KNOT_BAD_EDGE);
    CHECK(knot_probe_check(NULL, 0, 1) == KNOT_EMPTY_PLACE && knot_probe_pixel(NULL, 0, 1, 6, 0, 0, &faulty) == KNOT_EMPTY_PLACE && faulty == 0);
    CHECK(knot_probe_check(store, length - 1, 1) == KNOT_UNEVEN_STORE && knot_probe_check(store, length, 2) == KNOT_EMPTY_PLACE);
    store[SIZE * 3 + 4] = 2;
    store[SIZE * 5 + 10] = 1;
    uint64_t answer = knot_probe_check(store, length, 1);
    CHECK(KNOT_ANSWER(answer) == KNOT_BAD_FORMAT && KNOT_FAULTY_RECORD(answer) == 3);
    CHECK(pixel(0, 0, 0) == KNOT_BAD_FORMAT && faulty == 3 && face(1, 0, 64) == KNOT_BAD_FORMAT && untouched(0));
    store[SIZE * 3 + 4] = 0;
    answer = knot_probe_check(store, length, 1);
    CHECK(KNOT_ANSWER(answer) == KNOT_SPARE_BYTE && KNOT_FAULTY_RECORD(answer) == 5);
    CHECK(pixel(6, 0, 0) == KNOT_SPARE_BYTE && faulty == 5);
    fill();
    store[SIZE + 5] = 7;
    CHECK(knot_probe_check(store, length, 1) == (KNOT_BAD_PLACE | 1 << 16));
    store[SIZE + 5] = 255;
    CHECK(knot_probe_check(store, length, 1) == (KNOT_UNPLACED_RECORD | 1 << 16));
    store[SIZE + 5] = store[5];
    CHECK(knot_probe_check(store, length, 1) == (KNOT_TAKEN_PLACE | 1 << 16));
    fill();
    store[SIZE * 2 + 8] = 1;
    CHECK(knot_probe_check(store, length, 1) == (KNOT_PAST_EDGE | 2 << 16));
    fill();
    CHECK(knot_probe_check(store, length + SIZE, 1) == (KNOT_TAKEN_PLACE | 6 << 16));
    CHECK(knot_probe_check(store, length - SIZE, 1) == KNOT_EMPTY_PLACE);
}

/* A probe of edge 1 made of six blocks, of which that of face 2 is LAST_RED. */
static void built(void)
{
    static uint8_t blocks[97], made[200];
    size_t records = UNTOUCHED;
    for (unsigned k = 0; k < 16; k++) blocks[16 * 2 + k] = LAST_RED[k];
    for (unsigned k = 0; k < sizeof made; k++) made[k] = 0x5A;
    CHECK(knot_probe_build(blocks, 97, 2, 0, 0, made, 0, &records) == KNOT_BAD_EDGE && records == 0);
    CHECK(knot_probe_build(blocks, 97, 2, 17, 0, made, 0, &records) == KNOT_BAD_EDGE && knot_probe_build(blocks, 97, 2, 1, 0, made, 0, &records) == KNOT_BAD_FORMAT);
    CHECK(knot_probe_build(blocks, 97, 1, 1, 0, made, 191, &records) == KNOT_BAD_BLOCKS && knot_probe_build(blocks, 95, 1, 1, 0, made, 191, &records) == KNOT_BAD_BLOCKS);
    records = UNTOUCHED;
    CHECK(knot_probe_build(blocks, 96, 1, 1, 0, made, 191, &records) == KNOT_SHORT_OUTPUT && records == 0);
    for (unsigned k = 0; k < sizeof made; k++) CHECK(made[k] == 0x5A);
    CHECK(knot_probe_build(blocks, 96, 0, 1, 0xFFFFFFFE, made, sizeof made, &records) == KNOT_DONE && records == 6);
    CHECK(made[192] == 0x5A && knot_probe_check(made, 192, 1) == KNOT_DONE && knot_probe_edge(made, 192) == 1);
    CHECK(KNOT_TILE(knot_placed_record_at(made, 192, 1, &values[0], &values[1])) == 0xFFFFFFFF && KNOT_TILE(knot_placed_record_at(made, 192, 2, &values[0], &values[1])) == 0);
    for (uint32_t k = 0; k < 6; k++) {
        uint64_t last = knot_probe_pixel(made, 192, 1, k, 3, 3, &faulty);
        CHECK(KNOT_ANSWER(last) == KNOT_DONE && KNOT_RED(last) == (k == 2 ? 0x7BFF : 0));
    }
    CHECK(knot_probe_edge(NULL, 0) == 0 && knot_probe_edge(made, 191) == 0 && knot_probe_edge(made, 193) == 0 && knot_probe_edge(NULL, (size_t)192 * 17 * 17) == 0);
    for (size_t n = 1; n <= KNOT_EDGE_LIMIT; n++) CHECK(knot_probe_edge(NULL, 192 * n * n) == n);
}

/* The table of a probe, and its pixels by it. */
static void opened(void)
{
    static uint16_t table[KNOT_PROBE_TABLE + 1], other[KNOT_PROBE_TABLE + 1];
    size_t length = SIZE * RECORDS;
    fill();
    for (unsigned k = 0; k <= KNOT_PROBE_TABLE; k++) table[k] = UNTOUCHED;
    CHECK(knot_probe_open(store, length, 17, table, 0) == KNOT_BAD_EDGE && knot_probe_open(store, length - 1, 1, table, 0) == KNOT_UNEVEN_STORE);
    CHECK(knot_probe_open(store, length + SIZE, 1, table, KNOT_PROBE_TABLE) == (KNOT_TAKEN_PLACE | 6 << 16));
    CHECK(knot_probe_open(store, length - SIZE, 1, table, KNOT_PROBE_TABLE) == KNOT_EMPTY_PLACE);
    CHECK(knot_probe_open(store, length, 1, table, KNOT_PROBE_TABLE - 1) == KNOT_SHORT_OUTPUT && knot_probe_open(store, length, 1, NULL, 0) == KNOT_SHORT_OUTPUT);
    for (unsigned k = 0; k <= KNOT_PROBE_TABLE; k++) CHECK(table[k] == UNTOUCHED);
    CHECK(knot_probe_open(store, length, 1, table, KNOT_PROBE_TABLE + 1) == KNOT_DONE && table[KNOT_PROBE_TABLE] == UNTOUCHED);
    for (unsigned k = 0; k < KNOT_PROBE_TABLE; k++) CHECK(table[k] == (k % 256 ? 0 : (k / 256 + 2) % RECORDS + 1));
    for (uint32_t k = 0; k < 6 * 16; k++)
        CHECK(knot_probe_pixel_in(store, length, table, KNOT_PROBE_TABLE, 1, k / 16, k % 4, k / 4 % 4) == pixel(k / 16, k % 4, k / 4 % 4));
    CHECK(knot_probe_pixel_in(NULL, 0, NULL, 0, 0, 6, 0, 0) == KNOT_BAD_EDGE && knot_probe_pixel_in(NULL, 0, NULL, 0, 17, 6, 0, 0) == KNOT_BAD_EDGE);
    CHECK(knot_probe_pixel_in(NULL, 0, NULL, 0, 1, 6, 0, 0) == KNOT_NO_PIXEL && knot_probe_pixel_in(NULL, 0, NULL, 0, 1, 0, 4, 0) == KNOT_NO_PIXEL);
    CHECK(knot_probe_pixel_in(NULL, 0, NULL, 0, 1, 0, 0, UINT32_MAX) == KNOT_NO_PIXEL);
    CHECK(knot_probe_pixel_in(NULL, 0, table, KNOT_PROBE_TABLE - 1, 1, 0, 0, 0) == KNOT_SHORT_OUTPUT);
    CHECK(knot_probe_pixel_in(NULL, 0, table, KNOT_PROBE_TABLE, 2, 0, 4, 0) == KNOT_EMPTY_PLACE);
    CHECK(knot_probe_pixel_in(NULL, 0, table, KNOT_PROBE_TABLE, 1, 0, 0, 0) == KNOT_NO_RECORD && knot_probe_pixel_in(store, SIZE * 2, table, KNOT_PROBE_TABLE, 1, 0, 3, 3) == KNOT_NO_RECORD);
    CHECK(KNOT_RED(knot_probe_pixel_in(store, SIZE * 3, table, KNOT_PROBE_TABLE, 1, 0, 3, 3)) == 0x7BFF);
    for (unsigned k = 0; k < KNOT_PROBE_TABLE; k++) other[k] = 0xFFFF;
    CHECK(knot_probe_pixel_in(store, length, other, KNOT_PROBE_TABLE, 16, 5, 63, 63) == KNOT_NO_RECORD);
    store[SIZE * 2 + 4] = 2;
    CHECK(knot_probe_pixel_in(store, length, table, KNOT_PROBE_TABLE, 1, 0, 3, 3) == KNOT_BAD_FORMAT);
}

int main(void)
{
    whole();
    refused();
    built();
    opened();
    printf("C, the probe: %u checks, %u failed\n", checks, failures);
    return failures != 0;
}
