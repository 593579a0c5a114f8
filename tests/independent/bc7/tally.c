/* Counts what differs: tally BLOCKS OURS THEIRS, the blocks, 66 bytes of ours for each and 64 of theirs. With two words it writes a DDS file of
 * the blocks: tally BLOCKS FILE.dds. Status 1 where an unreserved block differs.
 */
#include "dds.h"

#include <stdio.h>

enum { BLOCKS_A_ROW = 1024 };

static FILE *opened(const char *name, const char *how)
{
    FILE *file = fopen(name, how);
    if (!file) perror(name);
    return file;
}

static int dds(FILE *blocks, FILE *out)
{
    uint8_t head[DDS_HEAD], block[16];
    uint32_t count = 0;
    memset(head, 0, sizeof head);
    fwrite(head, 1, sizeof head, out);
    while (fread(block, 16, 1, blocks)) count += (uint32_t)fwrite(block, 16, 1, out);
    uint32_t rows = (count + BLOCKS_A_ROW - 1) / BLOCKS_A_ROW;
    memset(block, 0, sizeof block);
    for (uint32_t n = count; n < rows * BLOCKS_A_ROW; n++) fwrite(block, 16, 1, out);
    dds_head(head, rows, BLOCKS_A_ROW);
    rewind(out);
    fwrite(head, 1, sizeof head, out);
    return fclose(out) != 0;
}

int main(int argc, char **argv)
{
    if (argc != 3 && argc != 4) return 2;
    FILE *blocks = opened(argv[1], "rb");
    if (!blocks) return 2;
    if (argc == 3) {
        FILE *out = opened(argv[2], "wb");
        return out ? dds(blocks, out) : 2;
    }
    FILE *ours = opened(argv[2], "rb"), *theirs = opened(argv[3], "rb");
    if (!ours || !theirs) return 2;
    uint8_t block[16], a[66], b[64];
    unsigned long count[2] = {0}, differ[2] = {0};
    while (fread(block, 16, 1, blocks)) {
        if (!fread(a, 66, 1, ours) || !fread(b, 64, 1, theirs)) {
            printf("an output is too short\n");
            return 1;
        }
        int reserved = a[1] == 8;
        count[reserved]++;
        if (memcmp(a + 2, b, 64) == 0) continue;
        if (differ[reserved]++ == 0) {
            printf("  first difference, mode %d:", a[1]);
            for (int k = 0; k < 16; k++) printf(" %02X", block[k]);
            printf("\n    ours   %02X%02X%02X%02X, theirs %02X%02X%02X%02X in pixel 0\n", a[2], a[3], a[4], a[5], b[0], b[1], b[2], b[3]);
        }
    }
    printf("  unreserved %lu, different %lu; reserved %lu, different %lu\n", count[0], differ[0], count[1], differ[1]);
    return differ[0] != 0;
}
