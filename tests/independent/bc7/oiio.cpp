// OpenImageIO as a decoder of BC7 blocks: oiio FILE.dds COUNT BLOCKS_A_ROW reads the file and writes 64 bytes for each of its first COUNT
// blocks; with a fourth word it writes nothing and tells the nanoseconds of processor time a block, file and copies included, best of nine.
#include <OpenImageIO/imageio.h>

#include <cstdint>
#include <cstdio>
#include <cstdlib>
#include <ctime>
#include <vector>

static double now()
{
    timespec t;
    clock_gettime(CLOCK_PROCESS_CPUTIME_ID, &t);
    return t.tv_sec * 1e9 + t.tv_nsec;
}

int main(int argc, char** argv)
{
    if (argc < 4) {
        fprintf(stderr, "usage: oiio FILE.dds COUNT BLOCKS_A_ROW [time]\n");
        return 2;
    }
    size_t count = strtoul(argv[2], nullptr, 10), row = strtoul(argv[3], nullptr, 10);
    std::vector<uint8_t> pixels((count + row - 1) / row * row * 64);
    double best = 1e30;
    OIIO::attribute("threads", 1);
    for (int turn = 0; turn < (argc > 4 ? 9 : 1); turn++) {
        double from = now();
        auto image = OIIO::ImageInput::open(argv[1]);
        if (!image || image->spec().nchannels != 4 || image->spec().format != OIIO::TypeDesc::UINT8
            || !image->read_image(0, 0, 0, 4, OIIO::TypeDesc::UINT8, pixels.data())) {
            fprintf(stderr, "OpenImageIO does not read the file: %s\n", OIIO::geterror().c_str());
            return 2;
        }
        double took = now() - from;
        if (took < best) best = took;
    }
    if (argc > 4) {
        printf("OpenImageIO: %.0f ns a block\n", best / count);
        return 0;
    }
    for (size_t n = 0; n < count; n++)
        for (size_t line = 0; line < 4; line++) fwrite(&pixels[((n / row * 4 + line) * row + n % row) * 16], 1, 16, stdout);
    return 0;
}
