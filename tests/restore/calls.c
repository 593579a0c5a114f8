/* Cleans stores with a receipt and restores them: reads from standard input, again and again, a kind and three lengths (four bytes each, low
 * byte first) and bytes, and writes the word that the call answers (eight bytes) and each lent place as it leaves it, with GUARD bytes behind
 * the room; all of that was lent full of 0xA5.
 *
 *   kind 0, knot_clean_with_receipt: length of the store, room for records, room for the receipt; the store
 *   kind 1, knot_restore_store: length of the cleaned store, length of the receipt, room; the cleaned store, the receipt
 */
#include "knotpasture.h"

#include "../stream.h"

int main(void);

enum { MOST = 65536, GUARD = 32 };

static uint8_t store[MOST], receipt[MOST], out[8 + MOST + GUARD], paper[MOST + GUARD];

static int clean(size_t length, size_t room, size_t entries)
{
    if (!get(store, length)) return 0;
    fill(out + 8, room + GUARD);
    fill(paper, entries + GUARD);
    put_word(out, knot_clean_with_receipt(store, length, out + 8, room, paper, entries));
    return put(out, 8 + room + GUARD) && put(paper, entries + GUARD);
}

static int restore(size_t length, size_t entries, size_t room)
{
    if (!get(store, length) || !get(receipt, entries)) return 0;
    fill(out + 8, room + GUARD);
    put_word(out, knot_restore_store(store, length, receipt, entries, out + 8, room));
    return put(out, 8 + room + GUARD);
}

int main(void)
{
    uint8_t head[16];
    while (get(head, sizeof head)) {
        size_t first = number(head + 4), second = number(head + 8), third = number(head + 12);
        if (first > MOST || second > MOST || third > MOST) return 1;
        if (!(number(head) == 0 ? clean(first, second, third) : restore(first, second, third))) return 1;
    }
    return 0;
}
