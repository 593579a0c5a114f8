/* Calls the functions of knotpasture.h over records with a place as a C program does. Prints each check that fails.
 * Holds S-1, S-53 to S-55, S-87, S-91. */
#include "knotpasture.h"

#include "check.h"

static uint8_t old[48024], new[64032], back[48001];
static uint16_t column, row;

static uint64_t record_at(size_t length, size_t n)
{
    column = row = 999;
    return knot_placed_record_at(new, length, n, &column, &row);
}

/* Record n of the old store: tile 100 n + 7, format n mod 2, block bytes n, n + 1, .. */
static void put_old(size_t count)
{
    for (size_t n = 0; n < count; n++) {
        uint8_t *record = old + KNOT_RECORD_SIZE * n;
        uint32_t tile = (uint32_t)(100 * n + 7);
        for (int k = 0; k < 4; k++) record[k] = (uint8_t)(tile >> 8 * k);
        record[4] = n % 2;
        for (int k = 5; k < 8; k++) record[k] = 0;
        for (int k = 0; k < 16; k++) record[8 + k] = (uint8_t)(n + k);
    }
}

static void fill(uint8_t *bytes, size_t size)
{
    for (size_t k = 0; k < size; k++) bytes[k] = 0xA5;
}

static int filled(const uint8_t *bytes, size_t from, size_t to)
{
    for (size_t k = from; k < to; k++)
        if (bytes[k] != 0xA5) return 0;
    return 1;
}

/* The word of a move that a record refuses: its number, the record, and nothing else. */
static int refused_at(uint64_t word, unsigned number, unsigned record)
{
    return KNOT_ANSWER(word) == number && KNOT_UNMOVED_RECORD(word) == record && KNOT_MOVED(word) == 0 && word >> 48 == 0;
}

static void moves(void)
{
    CHECK(knot_place_store(NULL, 0, NULL, 0) == KNOT_DONE && knot_unplace_store(NULL, 0, NULL, 0) == KNOT_DONE);
    put_old(2000);
    fill(new, sizeof new);
    CHECK(knot_place_store(old, 48001, new, 64000) == KNOT_LONG_STORE && knot_place_store(old, 25, new, 64000) == KNOT_UNEVEN_STORE);
    CHECK(knot_place_store(old, 48000, new, 63999) == KNOT_SHORT_OUTPUT && filled(new, 0, sizeof new));
    old[24 * 1999 + 7] = 1;
    CHECK(refused_at(knot_place_store(old, 48000, new, 64000), KNOT_SPARE_BYTE, 1999) && filled(new, 0, sizeof new));
    old[24 * 1000 + 4] = 2;
    CHECK(refused_at(knot_place_store(old, 48000, new, 64000), KNOT_BAD_FORMAT, 1000) && filled(new, 0, sizeof new));
    put_old(2000);
    uint64_t answer = knot_place_store(old, 48000, new, 64001);
    CHECK(KNOT_ANSWER(answer) == KNOT_DONE && KNOT_MOVED(answer) == 2000 && filled(new, 64000, sizeof new));

    answer = record_at(64000, 1999);
    CHECK(KNOT_ANSWER(answer) == KNOT_DONE && KNOT_TILE(answer) == 199907 && KNOT_FORMAT(answer) == KNOT_SIGNED);
    CHECK(KNOT_FACE(answer) == KNOT_NO_FACE && column == 0 && row == 0 && knot_placed_record_block(new, 64000, 1999) == 63984);

    fill(back, sizeof back);
    CHECK(knot_unplace_store(new, 64001, back, 48001) == KNOT_LONG_STORE && knot_unplace_store(new, 63999, back, 48001) == KNOT_UNEVEN_STORE);
    CHECK(knot_unplace_store(new, 64000, back, 47999) == KNOT_SHORT_OUTPUT);
    new[32 * 1999 + 5] = 0;
    CHECK(refused_at(knot_unplace_store(new, 64000, back, 48001), KNOT_PLACED_RECORD, 1999));
    new[32 * 1998 + 9] = 1;
    CHECK(refused_at(knot_unplace_store(new, 64000, back, 48001), KNOT_BAD_PLACE, 1998));
    new[32 * 1998 + 15] = 1;
    CHECK(refused_at(knot_unplace_store(new, 64000, back, 48001), KNOT_SPARE_BYTE, 1998));
    new[32 * 1998 + 4] = 255;
    CHECK(refused_at(knot_unplace_store(new, 64000, back, 48001), KNOT_BAD_FORMAT, 1998) && filled(back, 0, sizeof back));
    CHECK(KNOT_ANSWER(knot_place_store(old, 48000, new, 64000)) == KNOT_DONE);
    answer = knot_unplace_store(new, 64000, back, 48001);
    CHECK(answer == (uint64_t)2000 << 16 && KNOT_MOVED(answer) == 2000 && filled(back, 48000, 48001));
    size_t same = 0;
    while (same < 48000 && back[same] == old[same]) same++;
    CHECK(same == 48000);
}

static void records(void)
{
    put_old(2);
    CHECK(KNOT_MOVED(knot_place_store(old, 48, new, 64)) == 2);
    new[32 + 5] = 5;
    new[32 + 6] = 0x34;
    new[32 + 7] = 0x12;
    new[32 + 8] = 0xFF;
    new[32 + 9] = 0xFF;
    uint64_t answer = record_at(64, 1);
    CHECK(answer == ((uint64_t)107 << 32 | 5 << 16 | 1 << 8) && KNOT_FACE(answer) == 5 && column == 0x1234 && row == 0xFFFF);
    CHECK(knot_placed_record_block(new, 64, 1) == 48 && knot_placed_record_block(new, 64, 0) == 16);
    CHECK(record_at(64032, 1) == KNOT_LONG_STORE && column == 0 && row == 0 && knot_placed_record_block(new, 64032, 1) == 0);
    CHECK(record_at(63, 1) == KNOT_UNEVEN_STORE && record_at(64, 2) == KNOT_NO_RECORD && record_at(64, SIZE_MAX) == KNOT_NO_RECORD);
    CHECK(knot_placed_record_at(NULL, 0, 0, &column, &row) == KNOT_NO_RECORD && knot_placed_record_block(NULL, 0, 0) == 0);
    new[32 + 5] = 6;
    CHECK(record_at(64, 1) == KNOT_BAD_PLACE && column == 0 && row == 0 && knot_placed_record_block(new, 64, 1) == 0);
    new[32 + 5] = KNOT_NO_FACE;
    CHECK(record_at(64, 1) == KNOT_BAD_PLACE);
    new[32 + 10] = 1;
    CHECK(record_at(64, 1) == KNOT_SPARE_BYTE);
    new[32 + 4] = 2;
    CHECK(record_at(64, 1) == KNOT_BAD_FORMAT && KNOT_ANSWER(record_at(64, 0)) == KNOT_DONE);
}

/* A place put into record 1 of three. */
static void places(void)
{
    put_old(3);
    CHECK(KNOT_MOVED(knot_place_store(old, 72, new, 96)) == 3);
    fill(back, 200);
    CHECK(knot_put_place(new, 64032, 9, 6, 0, 0, back, 0) == KNOT_LONG_STORE && knot_put_place(new, 95, 9, 6, 0, 0, back, 0) == KNOT_UNEVEN_STORE);
    CHECK(knot_put_place(new, 96, 9, 6, 0, 0, back, 95) == KNOT_SHORT_OUTPUT && knot_put_place(new, 96, 3, 6, 0, 0, back, 96) == KNOT_NO_RECORD);
    CHECK(knot_put_place(NULL, 0, 0, 0, 0, 0, NULL, 0) == KNOT_NO_RECORD && knot_put_place(new, 96, SIZE_MAX, 0, 0, 0, back, 96) == KNOT_NO_RECORD);
    new[32 + 10] = 1;
    CHECK(refused_at(knot_put_place(new, 96, 1, 6, 0, 0, back, 96), KNOT_SPARE_BYTE, 1));
    new[32 + 4] = 2;
    CHECK(refused_at(knot_put_place(new, 96, 1, 6, 0, 0, back, 96), KNOT_BAD_FORMAT, 1));
    CHECK(knot_put_place(new, 96, 2, 6, 0, 0, back, 96) == KNOT_BAD_PLACE && knot_put_place(new, 96, 2, 254, 0, 0, back, 96) == KNOT_BAD_PLACE);
    CHECK(knot_put_place(new, 96, 2, 255, 1, 0, back, 96) == KNOT_BAD_PLACE && knot_put_place(new, 96, 2, 255, 0, 1, back, 96) == KNOT_BAD_PLACE);
    CHECK(filled(back, 0, 200));
    new[32 + 4] = 1;
    new[32 + 10] = 0;
    new[32 + 5] = 9; /* a place that is none is no reason */
    CHECK(knot_put_place(new, 96, 1, 5, 0x1234, 0xFEDC, back, 200) == (uint64_t)3 << 16 && filled(back, 96, 200));
    for (unsigned k = 0; k < 96; k++)
        if (k < 37 || k > 41) CHECK(back[k] == new[k]);
    CHECK(back[37] == 5 && back[38] == 0x34 && back[39] == 0x12 && back[40] == 0xDC && back[41] == 0xFE);
    CHECK(KNOT_FACE(knot_placed_record_at(back, 96, 1, &column, &row)) == 5 && column == 0x1234 && row == 0xFEDC);
    CHECK(KNOT_MOVED(knot_put_place(back, 96, 1, KNOT_NO_FACE, 0, 0, new, 96)) == 3 && KNOT_FACE(record_at(96, 1)) == KNOT_NO_FACE);
}

int main(void)
{
    moves();
    records();
    places();
    printf("C, records with a place: %u checks, %u failed\n", checks, failures);
    return failures != 0;
}
