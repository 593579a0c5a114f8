/* Times the twin list over the worst stores against decoding their blocks once, the clean-up against the twin list, and the clean-up with a
 * receipt and the way back against the clean-up, in one run, and measures the list's stack.
 *
 * A ratio is of the fastest of many rounds, taken in turn. The stack is that of a thread whose stack was filled with a pattern:
 * what of the pattern is gone was used.
 */
#include <pthread.h>
#include <stdio.h>
#include <stdlib.h>
#include <string.h>
#include <time.h>

#include "../../include/knotpasture.h"

enum { RECORDS = KNOT_STORE_LIMIT / KNOT_RECORD_SIZE, ROUNDS = 200, STACK = 1 << 20 };

static uint8_t different[KNOT_STORE_LIMIT], equal[KNOT_STORE_LIMIT], hard[KNOT_STORE_LIMIT], marks[RECORDS];
static uint8_t out[KNOT_STORE_LIMIT], receipt[RECORDS * KNOT_RECEIPT_ENTRY], back[KNOT_STORE_LIMIT];
static uint16_t values[KNOT_VALUES];

static double now(void) {
    struct timespec t;
    clock_gettime(CLOCK_MONOTONIC, &t);
    return t.tv_sec + t.tv_nsec * 1e-9;
}

/* A mode 11 block: one endpoint of ten bits each for red and green, every index 0. */
static void flat(uint8_t *block, unsigned n) {
    uint64_t bits = 3 | (uint64_t)(n % 1024) << 5 | (uint64_t)(n / 1024) << 15;
    memset(block, 0, KNOT_BLOCK_SIZE);
    memcpy(block, &bits, sizeof bits);
}

/* A two-region block of mode 1 with other bits everywhere, from a simple generator. */
static void mixed(uint8_t *block, uint64_t *seed) {
    for (int k = 0; k < KNOT_BLOCK_SIZE; k++) {
        *seed = *seed * 6364136223846793005u + 1442695040888963407u;
        block[k] = *seed >> 56;
    }
    block[0] &= 0xFC;
}

/* A mode 11 block whose ends are equal: every block of these shows the same picture, and no two are the same bytes. */
static void alike(uint8_t *block, unsigned n) {
    flat(block, 5);
    block[4] |= 0x28;
    block[5] = 0;
    for (int k = 0; k < 4; k++) block[12 + k] = n >> 4 * k & 15;
}

static double decode(const uint8_t *store) {
    double start = now();
    for (int n = 0; n < RECORDS; n++) knot_block_pixels(store + KNOT_RECORD_SIZE * n + 8, KNOT_BLOCK_SIZE, KNOT_UNSIGNED, values, KNOT_VALUES);
    return now() - start;
}

static double list(const uint8_t *store) {
    double start = now();
    knot_twin_list(store, KNOT_STORE_LIMIT, marks, RECORDS);
    return now() - start;
}

static double clean(const uint8_t *store) {
    double start = now();
    knot_clean_store(store, KNOT_STORE_LIMIT, out, KNOT_STORE_LIMIT);
    return now() - start;
}

static double clean_told(const uint8_t *store, uint64_t *answer) {
    double start = now();
    *answer = knot_clean_with_receipt(store, KNOT_STORE_LIMIT, out, KNOT_STORE_LIMIT, receipt, sizeof receipt);
    return now() - start;
}

static double restore(uint64_t answer) {
    double start = now();
    knot_restore_store(out, KNOT_RECORD_SIZE * KNOT_STAY_COUNT(answer), receipt, KNOT_RECEIPT_ENTRY * KNOT_REMOVED_COUNT(answer), back, sizeof back);
    return now() - start;
}

static double least(double a, double b) { return a < b ? a : b; }

static void ratio(const char *name, const uint8_t *store) {
    double one = 1e9, all = 1e9, cleaned = 1e9, told = 1e9, restored = 1e9;
    uint64_t left;
    for (int k = 0; k < ROUNDS; k++) {
        one = least(one, decode(store));
        all = least(all, list(store));
        cleaned = least(cleaned, clean(store));
        told = least(told, clean_told(store, &left));
        restored = least(restored, restore(left));
    }
    if (memcmp(back, store, KNOT_STORE_LIMIT)) printf("%s: another store comes back\n", name);
    uint64_t answer = knot_twin_list(store, KNOT_STORE_LIMIT, marks, RECORDS);
    printf("%s: decoding once %.1f us, the twin list %.1f us, ratio %.2f (answer %llx); the clean-up %.1f us, %.2f of the list; with a receipt "
           "%.1f us, %.2f of the clean-up; the way back %.1f us\n", name, one * 1e6, all * 1e6, all / one, (unsigned long long)answer, cleaned * 1e6,
           cleaned / all, told * 1e6, told / cleaned, restored * 1e6);
}

static void *listed(void *store) {
    knot_twin_list(store, KNOT_STORE_LIMIT, marks, RECORDS);
    return 0;
}

static void *nothing(void *store) {
    (void)store;
    return 0;
}

static size_t used(void *(*work)(void *), void *store) {
    pthread_attr_t attr;
    pthread_t thread;
    uint8_t *stack;
    size_t k = 0;
    if (posix_memalign((void **)&stack, 4096, STACK)) exit(1);
    memset(stack, 0xA5, STACK);
    pthread_attr_init(&attr);
    pthread_attr_setstack(&attr, stack, STACK);
    if (pthread_create(&thread, &attr, work, store)) exit(1);
    pthread_join(thread, 0);
    while (k < STACK && stack[k] == 0xA5) k++;
    free(stack);
    return STACK - k;
}

int main(void) {
    uint64_t seed = 1;
    for (int n = 0; n < RECORDS; n++) {
        flat(different + KNOT_RECORD_SIZE * n + 8, n);
        flat(equal + KNOT_RECORD_SIZE * n + 8, 5);
        mixed(hard + KNOT_RECORD_SIZE * n + 8, &seed);
    }
    ratio("2,000 different records, one region", different);
    ratio("2,000 different records, two regions", hard);
    ratio("2,000 equal records, one region", equal);
    for (int n = 0; n < RECORDS; n++) {
        uint8_t *record = equal + KNOT_RECORD_SIZE * n;
        memset(record + 8, 0, KNOT_BLOCK_SIZE);
        record[8] = n < RECORDS / 2 ? 0x13 : 0;
        record[4] = n < 3 * RECORDS / 4 ? KNOT_UNSIGNED : KNOT_SIGNED;
    }
    ratio("1,000 reserved records, 1,000 black ones in two formats", equal);
    for (int n = 1; n < RECORDS; n++) memcpy(hard + KNOT_RECORD_SIZE * n, hard, KNOT_RECORD_SIZE);
    ratio("2,000 equal records, two regions", hard);
    for (int n = 0; n < RECORDS; n++) alike(different + KNOT_RECORD_SIZE * n + 8, n);
    ratio("2,000 records that look alike, no copies", different);
    for (int n = 0; n < RECORDS; n++) alike(different + KNOT_RECORD_SIZE * n + 8, n % (RECORDS / 2));
    ratio("1,000 records that look alike, each twice", different);
    for (int n = 0; n < RECORDS; n++) mixed(hard + KNOT_RECORD_SIZE * n + 8, &seed);
    for (int n = RECORDS / 2; n < RECORDS; n++) memcpy(hard + KNOT_RECORD_SIZE * n, hard + KNOT_RECORD_SIZE * (n - RECORDS / 2), KNOT_RECORD_SIZE);
    ratio("1,000 different records, each twice", hard);
    printf("stack of the twin list: %zu bytes\n", used(listed, different) - used(nothing, different));
}
