// Times decoders of BC6H in one process, in turns: decoders FORMAT SCRATCH.dds RUST.so LEVEL=LIBRARY.so.. <BLOCKS
//
// The blocks are rows of 1,024. Ours are the libraries, by `knot_blocks_pixels`; beside them the Rust, a plain decoder in C, OpenImageIO through its DDS
// reader (opening and copies included) and Mesa through OSMesa (upload and read-back included). Processor time of the process, the best of eleven; for
// Mesa and OpenImageIO the best of three. All must show the same values, but for Mesa's minus zero (docs/DIFFERENCES.md).
#define GL_GLEXT_PROTOTYPES
#include <GL/osmesa.h>
#include <GL/glext.h>
#include <OpenImageIO/imageio.h>
#include <dlfcn.h>

#include <cstdint>
#include <cstdio>
#include <cstdlib>
#include <cstring>
#include <ctime>
#include <functional>
#include <string>
#include <vector>

static constexpr size_t BLOCKS_A_ROW = 1024;
using Blocks = std::vector<uint8_t>;
using Values = std::vector<uint16_t>;
using Ours = uint32_t (*)(const uint8_t*, size_t, uint8_t, uint16_t*, size_t, size_t*, size_t*);
using Others = void (*)(const uint8_t*, size_t, int, uint16_t*);
using Rust = void (*)(const uint8_t*, size_t, bool, uint16_t*);
extern "C" void plain_blocks(const uint8_t*, size_t, int, uint16_t*);

struct Decoder {
    std::string name;
    int turns;
    std::function<void(Values&)> decode;
    double best;
};

static double now()
{
    timespec time;
    clock_gettime(CLOCK_PROCESS_CPUTIME_ID, &time);
    return time.tv_sec + time.tv_nsec * 1e-9;
}

[[noreturn]] static void stop(const char* why, const char* more)
{
    fprintf(stderr, "decoders: %s: %s\n", why, more);
    exit(2);
}

static void* opened(const char* path, const char* name)
{
    void* library = dlopen(path, RTLD_NOW | RTLD_LOCAL);
    void* call = library ? dlsym(library, name) : nullptr;
    if (!call) stop(path, dlerror());
    return call;
}

static void put(Blocks& file, size_t at, uint32_t number) { memcpy(&file[at], &number, 4); }

static void write_dds(const char* path, const Blocks& blocks, bool is_signed)
{
    Blocks file(148);
    memcpy(&file[0], "DDS ", 4);
    const uint32_t HEAD[][2] = {{4, 124}, {8, 0x81007}, {12, uint32_t(blocks.size() / 16 / BLOCKS_A_ROW * 4)}, {16, BLOCKS_A_ROW * 4}, {20, uint32_t(blocks.size())}, {28, 1},
                                {76, 32}, {80, 4}, {108, 0x1000}, {128, is_signed ? 96u : 95u}, {132, 3}, {140, 1}};
    for (auto& pair : HEAD) put(file, pair[0], pair[1]);
    memcpy(&file[84], "DX10", 4);
    FILE* out = fopen(path, "wb");
    if (!out || fwrite(file.data(), 1, 148, out) != 148 || fwrite(blocks.data(), 1, blocks.size(), out) != blocks.size() || fclose(out)) stop(path, "not written");
}

// Rows of pixels as blocks of pixels, as the others have them.
static Values in_blocks(const Values& rows)
{
    Values out(rows.size());
    for (size_t n = 0; n < rows.size() / 48; n++)
        for (size_t row = 0; row < 4; row++)
            memcpy(&out[48 * n + 12 * row], &rows[((n / BLOCKS_A_ROW * 4 + row) * BLOCKS_A_ROW + n % BLOCKS_A_ROW) * 12], 24);
    return out;
}

int main(int argc, char** argv)
{
    if (argc < 5) stop("usage", "decoders FORMAT SCRATCH.dds RUST.so LEVEL=LIBRARY.so.. <BLOCKS");
    bool is_signed = atoi(argv[1]) == 1;
    Blocks blocks, piece(1 << 20);
    while (size_t got = fread(piece.data(), 1, piece.size(), stdin)) blocks.insert(blocks.end(), piece.begin(), piece.begin() + got);
    size_t count = blocks.size() / 16, rows = count / BLOCKS_A_ROW;
    if (count == 0 || blocks.size() % (16 * BLOCKS_A_ROW) != 0) stop("the blocks", "not rows of 1,024");
    write_dds(argv[2], blocks, is_signed);

    std::vector<Decoder> decoders;
    for (int k = 4; k < argc; k++) {
        char* path = strchr(argv[k], '=');
        if (!path) stop(argv[k], "not LEVEL=LIBRARY.so");
        auto call = Ours(opened(path + 1, "knot_blocks_pixels"));
        decoders.push_back({"ours, " + std::string(argv[k], path), 11, [&, call](Values& out) {
            size_t done = 0, infinite = 0;
            if (call(blocks.data(), blocks.size(), is_signed, out.data(), out.size(), &done, &infinite) != 0 || done != count) stop("ours", "refused");
        }, 1e9});
    }
    auto rust = Rust(opened(argv[3], "rust_blocks"));
    decoders.push_back({"the Rust", 11, [&](Values& out) { rust(blocks.data(), count, is_signed, out.data()); }, 1e9});
    decoders.push_back({"plain C", 11, [&](Values& out) { plain_blocks(blocks.data(), count, is_signed, out.data()); }, 1e9});
    decoders.push_back({"OpenImageIO", 3, [&](Values& out) {
        auto image = OIIO::ImageInput::open(argv[2]);
        if (!image || !image->read_image(0, 0, 0, 3, OIIO::TypeDesc::HALF, out.data())) stop("OpenImageIO", "does not read the file");
    }, 1e9});
    uint8_t screen[4 * 16 * 16];
    OSMesaContext context = OSMesaCreateContextExt(OSMESA_RGBA, 0, 0, 0, nullptr);
    if (!context || !OSMesaMakeCurrent(context, screen, GL_UNSIGNED_BYTE, 16, 16)) stop("OSMesa", "gives no context");
    glPixelStorei(GL_PACK_ALIGNMENT, 1);
    decoders.push_back({"Mesa", 3, [&](Values& out) {
        GLenum format = is_signed ? GL_COMPRESSED_RGB_BPTC_SIGNED_FLOAT : GL_COMPRESSED_RGB_BPTC_UNSIGNED_FLOAT;
        glCompressedTexImage2D(GL_TEXTURE_2D, 0, format, BLOCKS_A_ROW * 4, rows * 4, 0, blocks.size(), blocks.data());
        glGetTexImage(GL_TEXTURE_2D, 0, GL_RGB, GL_HALF_FLOAT, out.data());
        if (glGetError() != GL_NO_ERROR) stop("Mesa", "does not take the texture");
    }, 1e9});

    Values first, out(48 * count);
    int status = 0;
    for (int turn = 0; turn < 11; turn++)
        for (auto& decoder : decoders) {
            if (turn >= decoder.turns) continue;
            double start = now();
            decoder.decode(out);
            decoder.best = std::min(decoder.best, now() - start);
            if (turn > 0) continue;
            bool in_rows = decoder.name == "OpenImageIO" || decoder.name == "Mesa";
            Values shown = in_rows ? in_blocks(out) : out;
            if (first.empty()) first = shown;
            size_t different = 0;
            for (size_t k = 0; k < shown.size(); k++) different += shown[k] != first[k] && !(decoder.name == "Mesa" && shown[k] == 0x8000 && first[k] == 0);
            if (different) {
                printf("%s: %zu values differ\n", decoder.name.c_str(), different);
                status = 1;
            }
        }
    for (auto& decoder : decoders) printf("%-22s %8.1f ns a block %8.2f million a second\n", decoder.name.c_str(), decoder.best * 1e9 / count, count / decoder.best / 1e6);
    OSMesaDestroyContext(context);
    return status;
}
