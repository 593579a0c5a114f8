/* Cleans stores: reads from standard input, again and again, the length of a store and the room (four bytes each, low byte first) and the
 * store's bytes, and writes the word that knot_clean_store answers (eight bytes) and the room as it leaves it, which it lent full of 0xA5. */
#include "knotpasture.h"

#include "../stream.h"

int main(void);

static uint8_t store[65536], out[65536 + 8];

int main(void)
{
    uint8_t head[8];
    while (get(head, 8)) {
        size_t length = number(head), room = number(head + 4);
        if (length > sizeof store || room > sizeof out - 8 || !get(store, length)) return 1;
        fill(out + 8, room);
        put_word(out, knot_clean_store(store, length, out + 8, room));
        if (!put(out, room + 8)) return 1;
    }
    return 0;
}
