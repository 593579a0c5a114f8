/* Times the same calls as tests/wasm/speed.mjs over the native library: speed FOLDER ROUNDS */
#include "knotpasture.h"
#include <stdio.h>
#include <stdlib.h>
#include <time.h>

enum { MIB = 1 << 20, BLOCKS = 65536 };
static int rounds;

static double now(void) {
    struct timespec at;
    clock_gettime(CLOCK_MONOTONIC, &at);
    return at.tv_sec * 1e9 + at.tv_nsec;
}

static uint8_t *loaded(const char *folder, const char *name, size_t size) {
    char path[4096];
    uint8_t *bytes = malloc(size);
    snprintf(path, sizeof path, "%s/%s", folder, name);
    FILE *file = fopen(path, "rb");
    if (!file || !bytes || fread(bytes, 1, size, file) != size) exit(1);
    fclose(file);
    return bytes;
}

#define BEST(name, units, call)                              \
    do {                                                     \
        double least = 1e30;                                 \
        for (int k = 0; k < rounds; k++) {                   \
            double began = now();                            \
            call;                                            \
            double took = now() - began;                     \
            if (took < least) least = took;                  \
        }                                                    \
        printf("%s\t%.2f\n", name, least / (units));         \
    } while (0)

int main(int count, char **words) {
    if (count != 3) return 2;
    rounds = atoi(words[2]);
    uint8_t *bc6 = loaded(words[1], "bc6", MIB), *bc7 = loaded(words[1], "bc7", MIB), *store = loaded(words[1], "store", 48000);
    uint16_t *out = malloc(192 * BLOCKS + 128), *scratch = malloc(196000);
    uint8_t marks[2000];
    size_t done, infinite;
    volatile uint64_t sink = 0;
    for (int format = 0; format < 2; format++) {
        const char *form = format ? "signed" : "unsigned";
        char name[80];
        snprintf(name, sizeof name, "blocks_pixels, 65,536 %s", form);
        BEST(name, BLOCKS, sink += knot_blocks_pixels(bc6, MIB, format, out, 48 * BLOCKS, &done, &infinite));
        snprintf(name, sizeof name, "face_rgba, 1,024 by 1,024 %s", form);
        BEST(name, BLOCKS, sink += knot_face_rgba(bc6, MIB, 256, 256, format, out, 64 * BLOCKS, 4096, &infinite));
        snprintf(name, sizeof name, "block_pixels, a call a block, %s", form);
        BEST(name, 4096, for (int n = 0; n < 4096; n++) sink += knot_block_pixels(bc6 + 16 * n, 16, format, out, 48));
    }
    BEST("pfm_write, 1,024 by 1,024 unsigned", BLOCKS, sink += knot_pfm_write(bc6, MIB, 0, 1024, 1024, (uint8_t *)out, 192 * BLOCKS + 100));
    BEST("bc7_blocks_pixels, 65,536", BLOCKS, sink += knot_bc7_blocks_pixels(bc7, MIB, (uint8_t *)out, 64 * BLOCKS, &done));
    BEST("block_fields, a call a block", 4096, for (int n = 0; n < 4096; n++) sink += knot_block_fields(bc6 + 16 * n, 16, 0, out, 32));
    BEST("twin_list_in, 2,000 different", 2000, sink += knot_twin_list_in(store, 48000, marks, 2000, scratch, 98000));
    BEST("clean_store, 2,000 different", 2000, sink += knot_clean_store(store, 48000, (uint8_t *)out, 48000));
    return 0;
}
