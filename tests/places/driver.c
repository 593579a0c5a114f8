/* Answers cases from standard input, for tests/places/run. A case is four numbers of four bytes, low byte first: the call, the store's
 * length, the room or the record's number, and how many bytes are lent beyond the room; then the store's bytes. Call 3 puts a place: four numbers
 * more follow, the record's number, face, column and row. */
#include "knotpasture.h"

long read(int file, void *to, unsigned long size);
long write(int file, const void *from, unsigned long size);

static uint8_t store[70000], out[70000];

static int get(void *to, size_t size)
{
    uint8_t *at = to;
    while (size > 0) {
        long got = read(0, at, size);
        if (got <= 0) return 0;
        at += got;
        size -= (size_t)got;
    }
    return 1;
}

static void put(const void *from, size_t size)
{
    const uint8_t *at = from;
    while (size > 0) {
        long done = write(1, at, size);
        if (done <= 0) return;
        at += done;
        size -= (size_t)done;
    }
}

int main(void)
{
    uint32_t asked[4];
    while (get(asked, sizeof asked)) {
        uint32_t call = asked[0], length = asked[1], room = asked[2], beyond = asked[3];
        if (length > sizeof store || !get(store, length)) return 1;
        if (call == 2) {
            uint16_t position[2] = {0xA5A5, 0xA5A5};
            uint64_t answer[2];
            answer[0] = knot_placed_record_at(store, length, room, &position[0], &position[1]);
            answer[1] = knot_placed_record_block(store, length, room);
            put(answer, sizeof answer);
            put(position, sizeof position);
            continue;
        }
        uint32_t place[4] = {0};
        if (room + beyond > sizeof out || (call == 3 && !get(place, sizeof place))) return 1;
        for (size_t k = 0; k < room + beyond; k++) out[k] = 0xA5;
        uint64_t word = call == 3   ? knot_put_place(store, length, place[0], (uint8_t)place[1], (uint16_t)place[2], (uint16_t)place[3], out, room)
                        : call == 0 ? knot_place_store(store, length, out, room)
                                    : knot_unplace_store(store, length, out, room);
        put(&word, sizeof word);
        put(out, room + beyond);
    }
    return 0;
}
