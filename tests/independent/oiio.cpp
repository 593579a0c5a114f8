// OpenImageIO as a decoder of blocks: standard input is a run of 17-byte records of one format, a format byte and a block;
// 96 bytes go out for each, 48 half-floats, low byte first. The blocks travel through a DDS file, whose path is the argument.
#include <OpenImageIO/imageio.h>

#include <cstdint>
#include <cstdio>
#include <cstring>
#include <vector>

static constexpr size_t BLOCKS_A_ROW = 1024;

static void put(std::vector<uint8_t>& file, size_t at, uint32_t number) { memcpy(&file[at], &number, 4); }

// A DX10 DDS file of one level, DXGI format 95 or 96, with room for the blocks behind its 148 bytes.
static std::vector<uint8_t> dds_file(size_t rows, bool is_signed)
{
    size_t bytes = rows * BLOCKS_A_ROW * 16;
    std::vector<uint8_t> file(148 + bytes);
    memcpy(&file[0], "DDS ", 4);
    put(file, 4, 124);
    put(file, 8, 0x81007);
    put(file, 12, rows * 4);
    put(file, 16, BLOCKS_A_ROW * 4);
    put(file, 20, bytes);
    put(file, 28, 1);
    put(file, 76, 32);
    put(file, 80, 4);
    memcpy(&file[84], "DX10", 4);
    put(file, 108, 0x1000);
    put(file, 128, is_signed ? 96 : 95);
    put(file, 132, 3);
    put(file, 140, 1);
    return file;
}

int main(int argc, char** argv)
{
    std::vector<uint8_t> records;
    std::vector<uint8_t> piece(1 << 20);
    while (size_t got = fread(piece.data(), 1, piece.size(), stdin))
        records.insert(records.end(), piece.begin(), piece.begin() + got);
    size_t count = records.size() / 17;
    if (argc != 2 || count == 0) {
        fprintf(stderr, "usage: oiio SCRATCH.dds <RECORDS\n");
        return 2;
    }
    size_t rows = (count + BLOCKS_A_ROW - 1) / BLOCKS_A_ROW;
    std::vector<uint8_t> file = dds_file(rows, records[0] == 1);
    for (size_t n = 0; n < count; n++) memcpy(&file[148 + 16 * n], &records[17 * n + 1], 16);
    FILE* scratch = fopen(argv[1], "wb");
    if (!scratch || fwrite(file.data(), 1, file.size(), scratch) != file.size() || fclose(scratch)) {
        perror(argv[1]);
        return 2;
    }

    auto image = OIIO::ImageInput::open(argv[1]);
    std::vector<uint16_t> pixels(rows * BLOCKS_A_ROW * 48);
    if (!image || image->spec().nchannels != 3 || image->spec().format != OIIO::TypeDesc::HALF
        || !image->read_image(0, 0, 0, 3, OIIO::TypeDesc::HALF, pixels.data())) {
        fprintf(stderr, "OpenImageIO does not read the file: %s\n", OIIO::geterror().c_str());
        return 2;
    }
    for (size_t n = 0; n < count; n++)
        for (size_t row = 0; row < 4; row++)
            fwrite(&pixels[((n / BLOCKS_A_ROW * 4 + row) * BLOCKS_A_ROW + n % BLOCKS_A_ROW) * 12], 2, 12, stdout);
    return 0;
}
