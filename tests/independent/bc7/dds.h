/* A DX10 DDS file of one level whose blocks are BC7, DXGI format 98: 148 bytes, and the blocks behind them. */
#include <stdint.h>
#include <string.h>

enum { DDS_HEAD = 148 };

static void dds_put(uint8_t *file, size_t at, uint32_t number) { memcpy(file + at, &number, 4); }

static void dds_head(uint8_t *file, uint32_t rows, uint32_t blocks_a_row)
{
    memset(file, 0, DDS_HEAD);
    memcpy(file, "DDS ", 4);
    dds_put(file, 4, 124);
    dds_put(file, 8, 0x81007);
    dds_put(file, 12, rows * 4);
    dds_put(file, 16, blocks_a_row * 4);
    dds_put(file, 20, rows * blocks_a_row * 16);
    dds_put(file, 28, 1);
    dds_put(file, 76, 32);
    dds_put(file, 80, 4);
    memcpy(file + 84, "DX10", 4);
    dds_put(file, 108, 0x1000);
    dds_put(file, 128, 98);
    dds_put(file, 132, 3);
    dds_put(file, 140, 1);
}
