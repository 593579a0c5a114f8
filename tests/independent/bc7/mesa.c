/* Mesa as a decoder of BC7 blocks, without a screen: standard input is blocks, 64 bytes go out for each. With a word it writes nothing and tells
 * the nanoseconds of processor time a block of its upload and read-back, best of nine for each piece of the input.
 */
#define _POSIX_C_SOURCE 199309L
#define GL_GLEXT_PROTOTYPES
#include <GL/osmesa.h>
#include <GL/glext.h>

#include <stdint.h>
#include <stdio.h>
#include <stdlib.h>
#include <string.h>
#include <time.h>

enum { BLOCKS_A_ROW = 256, ROWS = 256, MOST = BLOCKS_A_ROW * ROWS };

static uint8_t blocks[MOST * 16], pixels[MOST * 64];

static void decode(void)
{
    glCompressedTexImage2D(GL_TEXTURE_2D, 0, GL_COMPRESSED_RGBA_BPTC_UNORM, BLOCKS_A_ROW * 4, ROWS * 4, 0, sizeof blocks, blocks);
    glGetTexImage(GL_TEXTURE_2D, 0, GL_RGBA, GL_UNSIGNED_BYTE, pixels);
    GLenum error = glGetError();
    if (error != GL_NO_ERROR) {
        fprintf(stderr, "Mesa does not take the texture: error 0x%04X\n", error);
        exit(2);
    }
}

static double now(void)
{
    struct timespec t;
    clock_gettime(CLOCK_PROCESS_CPUTIME_ID, &t);
    return t.tv_sec * 1e9 + t.tv_nsec;
}

int main(int argc, char **argv)
{
    (void)argv;
    static uint8_t screen[4 * 16 * 16];
    OSMesaContext context = OSMesaCreateContextExt(OSMESA_RGBA, 0, 0, 0, NULL);
    if (!context || !OSMesaMakeCurrent(context, screen, GL_UNSIGNED_BYTE, 16, 16)) {
        fprintf(stderr, "OSMesa gives no context\n");
        return 2;
    }
    glPixelStorei(GL_PACK_ALIGNMENT, 1);
    size_t got;
    double total = 0, counted = 0;
    while ((got = fread(blocks, 16, MOST, stdin)) > 0) {
        memset(blocks + 16 * got, 0, 16 * (MOST - got));
        if (argc > 1) {
            double best = 1e30;
            for (int turn = 0; turn < 9; turn++) {
                double from = now();
                decode();
                if (now() - from < best) best = now() - from;
            }
            total += best, counted += MOST;
            continue;
        }
        decode();
        for (size_t n = 0; n < got; n++)
            for (size_t line = 0; line < 4; line++)
                fwrite(pixels + ((n / BLOCKS_A_ROW * 4 + line) * BLOCKS_A_ROW + n % BLOCKS_A_ROW) * 16, 1, 16, stdout);
    }
    if (argc > 1) printf("Mesa: %.0f ns a block\n", total / counted);
    OSMesaDestroyContext(context);
    return 0;
}
