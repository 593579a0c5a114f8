/* Calls the functions of knotpasture.h over DDS files as a C program does, with good and bad input. Prints each check that fails.
 * Holds S-1, S-62, S-63, S-86, S-87, S-94, S-95. */
#include "knotpasture.h"

#include "check.h"

enum { BLOCKS = 32, FILE_LENGTH = KNOT_DDS_HEADER + BLOCKS, UNTOUCHED = 0xA5 };

static uint8_t blocks[BLOCKS], file[FILE_LENGTH + 8];

/* The bytes from `from` on are as they were. */
static int untouched(size_t from)
{
    for (size_t k = from; k < sizeof file; k++)
        if (file[k] != UNTOUCHED) return 0;
    return 1;
}

static uint32_t number_at(size_t at)
{
    return file[at] | file[at + 1] << 8 | file[at + 2] << 16 | (uint32_t)file[at + 3] << 24;
}

static void refused_writing(void)
{
    CHECK(knot_dds_write(NULL, 0, 2, 0, 0, NULL, 0) == KNOT_BAD_FORMAT);
    CHECK(knot_dds_write(NULL, 0, KNOT_SIGNED, 0, 3, NULL, 0) == KNOT_BAD_SIZE);
    CHECK(knot_dds_write(blocks, BLOCKS, KNOT_SIGNED, 5, KNOT_DDS_LIMIT + 1, file, sizeof file) == KNOT_BAD_SIZE);
    CHECK(knot_dds_write(blocks, BLOCKS, KNOT_SIGNED, 0xFFFFFFFF, 1, file, sizeof file) == KNOT_BAD_SIZE);
    CHECK(knot_dds_write(NULL, 0, KNOT_SIGNED, 5, 3, NULL, 0) == KNOT_BAD_BLOCKS);
    CHECK(knot_dds_write(blocks, BLOCKS - 1, KNOT_SIGNED, 5, 3, file, sizeof file) == KNOT_BAD_BLOCKS);
    CHECK(knot_dds_write(blocks, BLOCKS, KNOT_SIGNED, 5, 5, file, sizeof file) == KNOT_BAD_BLOCKS);
    CHECK(knot_dds_write(blocks, BLOCKS, KNOT_SIGNED, 5, 3, NULL, 0) == KNOT_SHORT_OUTPUT);
    CHECK(knot_dds_write(blocks, BLOCKS, KNOT_SIGNED, 5, 3, file, FILE_LENGTH - 1) == KNOT_SHORT_OUTPUT);
    CHECK(untouched(0));
}

static void written(void)
{
    uint64_t word = knot_dds_write(blocks, BLOCKS, KNOT_SIGNED, 5, 3, file, sizeof file);
    CHECK(KNOT_ANSWER(word) == KNOT_DONE && KNOT_FILE_LENGTH(word) == FILE_LENGTH && untouched(FILE_LENGTH));
    CHECK(number_at(0) == 0x20534444 && number_at(4) == 124 && number_at(8) == 0x81007 && number_at(12) == 3 && number_at(16) == 5);
    CHECK(number_at(20) == BLOCKS && number_at(28) == 1 && number_at(76) == 32 && number_at(80) == 4 && number_at(84) == 0x30315844);
    CHECK(number_at(108) == 0x1000 && number_at(128) == 96 && number_at(132) == 3 && number_at(136) == 0 && number_at(140) == 1);
    int same = 1;
    for (size_t k = 0; k < BLOCKS; k++) same &= file[KNOT_DDS_HEADER + k] == blocks[k];
    CHECK(same);
}

static void reading(void)
{
    uint64_t word = knot_dds_read(file, FILE_LENGTH);
    CHECK(KNOT_ANSWER(word) == KNOT_DONE && KNOT_DDS_WIDTH(word) == 5 && KNOT_DDS_HEIGHT(word) == 3 && KNOT_DDS_FORMAT(word) == KNOT_SIGNED);
    CHECK(knot_dds_head(file, KNOT_DDS_HEADER) == word && knot_dds_head(file, sizeof file) == word);
    CHECK(knot_dds_blocks(file, FILE_LENGTH) == KNOT_DDS_HEADER);
    CHECK(knot_dds_read(file, FILE_LENGTH - 1) == KNOT_BAD_BLOCKS && knot_dds_blocks(file, FILE_LENGTH - 1) == 0);
    CHECK(knot_dds_read(file, FILE_LENGTH + 1) == KNOT_BAD_BLOCKS && knot_dds_blocks(file, FILE_LENGTH + 1) == 0);
    CHECK(knot_dds_head(file, KNOT_DDS_HEADER - 1) == KNOT_FOREIGN_HEADER && knot_dds_read(NULL, 0) == KNOT_FOREIGN_HEADER);
    file[16] = 0;
    CHECK(knot_dds_head(file, FILE_LENGTH) == KNOT_BAD_SIZE && knot_dds_read(file, 150) == KNOT_BAD_SIZE && knot_dds_blocks(file, FILE_LENGTH) == 0);
    file[28] = 2;
    CHECK(knot_dds_head(file, FILE_LENGTH) == KNOT_FOREIGN_HEADER && knot_dds_read(file, FILE_LENGTH) == KNOT_FOREIGN_HEADER);
    file[16] = 5, file[28] = 0, file[128] = 95;
    word = knot_dds_read(file, FILE_LENGTH);
    CHECK(KNOT_ANSWER(word) == KNOT_DONE && KNOT_DDS_FORMAT(word) == KNOT_UNSIGNED);
}

/* A file of 16 by 8 pixels with `levels` mip levels of 8, 2, 1 and 1 blocks. */
static size_t level_file(uint8_t *texture, unsigned levels, unsigned dxgi)
{
    static const size_t counts[] = {8, 10, 11, 12};
    for (unsigned k = 0; k < 500; k++) texture[k] = k < 148 ? 0 : (uint8_t)k;
    static const uint8_t marks[][2] = {{0, 'D'}, {1, 'D'}, {2, 'S'}, {3, ' '}, {4, 124}, {12, 8}, {16, 16}, {76, 32}, {80, 4}, {84, 'D'}, {85, 'X'}, {86, '1'}, {87, '0'}, {132, 3}, {140, 1}};
    for (unsigned k = 0; k < sizeof marks / sizeof *marks; k++) texture[marks[k][0]] = marks[k][1];
    texture[28] = (uint8_t)levels;
    texture[128] = (uint8_t)dxgi;
    return 148 + 16 * counts[levels ? levels - 1 : 0];
}

static void levels(void)
{
    static uint8_t texture[500];
    for (unsigned count = 0; count < 5; count++)
        for (unsigned dxgi = 94; dxgi < 101; dxgi++) {
            size_t length = level_file(texture, count < 4 ? count : 4, dxgi);
            uint64_t done = (uint64_t)8 << 32 | 16 << 16, bc6h = dxgi == 95 || dxgi == 96 ? done | (dxgi - 95) << 8 : KNOT_FOREIGN_HEADER;
            uint64_t bc7 = dxgi == 98 || dxgi == 99 ? done | (dxgi - 98) << 8 : KNOT_FOREIGN_HEADER;
            CHECK(knot_dds_first_level(texture, length) == bc6h && knot_dds_first_blocks(texture, length) == (KNOT_ANSWER(bc6h) ? 0 : 148));
            CHECK(knot_bc7_dds_first_level(texture, length) == bc7 && knot_bc7_dds_first_blocks(texture, length) == (KNOT_ANSWER(bc7) ? 0 : 148));
            CHECK(KNOT_ANSWER(bc6h) || (knot_dds_first_level(texture, length - 1) == KNOT_BAD_BLOCKS && knot_dds_first_blocks(texture, length + 1) == 0));
            CHECK(KNOT_ANSWER(bc7) || (knot_bc7_dds_first_level(texture, length + 1) == KNOT_BAD_BLOCKS && knot_bc7_dds_first_blocks(texture, length - 1) == 0));
            if (count > 1) bc6h = bc7 = KNOT_FOREIGN_HEADER;
            CHECK(knot_dds_read(texture, length) == bc6h && knot_bc7_dds_read(texture, length) == bc7);
            CHECK(knot_bc7_dds_blocks(texture, length) == (KNOT_ANSWER(bc7) ? 0 : 148) && knot_bc7_dds_blocks(texture, length - 1) == 0);
            CHECK(KNOT_ANSWER(bc7) || knot_bc7_dds_read(texture, length - 1) == KNOT_BAD_BLOCKS);
        }
    size_t length = level_file(texture, 1, 98);
    texture[16] = 0;
    CHECK(knot_bc7_dds_read(texture, length) == KNOT_BAD_SIZE && knot_bc7_dds_first_level(texture, length) == KNOT_BAD_SIZE);
    texture[28] = KNOT_DDS_LEVELS + 1;
    CHECK(knot_bc7_dds_first_level(texture, length) == KNOT_FOREIGN_HEADER && knot_dds_first_level(NULL, 0) == KNOT_FOREIGN_HEADER);
}

int main(void)
{
    levels();
    for (size_t k = 0; k < BLOCKS; k++) blocks[k] = (uint8_t)(7 * k + 3);
    for (size_t k = 0; k < sizeof file; k++) file[k] = UNTOUCHED;
    refused_writing();
    written();
    reading();
    printf("C, DDS files: %u checks, %u failed\n", checks, failures);
    return failures != 0;
}
