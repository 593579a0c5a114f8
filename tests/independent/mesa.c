// Mesa as a decoder of blocks, without a screen: standard input is a run of 17-byte records of one format, a format byte and
// a block; 96 bytes go out for each, 48 half-floats, low byte first.
#define GL_GLEXT_PROTOTYPES
#include <GL/osmesa.h>
#include <GL/glext.h>

#include <stdint.h>
#include <stdio.h>
#include <stdlib.h>
#include <string.h>

enum { BLOCKS_A_ROW = 256, ROWS = 256, MOST = BLOCKS_A_ROW * ROWS };

static uint8_t records[MOST * 17], blocks[MOST * 16];
static uint16_t pixels[MOST * 48];

static void decode(size_t count, int is_signed)
{
    memset(blocks, 0, sizeof blocks);
    for (size_t n = 0; n < count; n++) memcpy(blocks + 16 * n, records + 17 * n + 1, 16);
    GLenum format = is_signed ? GL_COMPRESSED_RGB_BPTC_SIGNED_FLOAT : GL_COMPRESSED_RGB_BPTC_UNSIGNED_FLOAT;
    glCompressedTexImage2D(GL_TEXTURE_2D, 0, format, BLOCKS_A_ROW * 4, ROWS * 4, 0, sizeof blocks, blocks);
    glGetTexImage(GL_TEXTURE_2D, 0, GL_RGB, GL_HALF_FLOAT, pixels);
    GLenum error = glGetError();
    if (error != GL_NO_ERROR) {
        fprintf(stderr, "Mesa does not take the texture: error 0x%04X\n", error);
        exit(2);
    }
    for (size_t n = 0; n < count; n++)
        for (size_t row = 0; row < 4; row++)
            fwrite(pixels + ((n / BLOCKS_A_ROW * 4 + row) * BLOCKS_A_ROW + n % BLOCKS_A_ROW) * 12, 2, 12, stdout);
}

int main(void)
{
    static uint8_t screen[4 * 16 * 16];
    OSMesaContext context = OSMesaCreateContextExt(OSMESA_RGBA, 0, 0, 0, NULL);
    if (!context || !OSMesaMakeCurrent(context, screen, GL_UNSIGNED_BYTE, 16, 16)) {
        fprintf(stderr, "OSMesa gives no context\n");
        return 2;
    }
    glPixelStorei(GL_PACK_ALIGNMENT, 1);
    size_t got;
    while ((got = fread(records, 17, MOST, stdin)) > 0) decode(got, records[0] == 1);
    OSMesaDestroyContext(context);
    return 0;
}
