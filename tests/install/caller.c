/* A program of another house over what is installed: prints the version, and decodes a block. */
#include <knotpasture.h>
#include <stdio.h>

int main(void)
{
    static const uint8_t block[KNOT_BLOCK_SIZE] = {0x03, 0, 0, 0, 0xF8, 0x1F, 0, 0, 0, 0, 0, 0, 0, 0, 0, 0xF0};
    uint16_t values[KNOT_VALUES];
    uint32_t answer = knot_block_pixels(block, sizeof block, KNOT_UNSIGNED, values, KNOT_VALUES);
    printf("%s answer %u mode %u red %04X\n", KNOT_VERSION, KNOT_ANSWER(answer), KNOT_MODE(answer), (unsigned)values[45]);
    return 0;
}
