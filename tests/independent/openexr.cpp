// Reads an OpenEXR file by OpenEXR's own library: openexr FILE. Writes width and height, four bytes each, and the half-float patterns of R, G and B, pixel by
// pixel from the top left, low byte first.
#include <ImfChannelList.h>
#include <ImfFrameBuffer.h>
#include <ImfHeader.h>
#include <ImfInputFile.h>

#include <cstdint>
#include <cstdio>
#include <vector>

int main(int count, char **words) {
    if (count != 2) return 2;
    Imf::InputFile file(words[1]);
    const Imath::Box2i window = file.header().dataWindow();
    const std::uint32_t size[2] = {std::uint32_t(window.max.x - window.min.x + 1), std::uint32_t(window.max.y - window.min.y + 1)};
    std::vector<std::uint16_t> patterns(std::size_t(3) * size[0] * size[1]);
    char *first = reinterpret_cast<char *>(patterns.data()) - 6 * (window.min.x + std::ptrdiff_t(size[0]) * window.min.y);
    Imf::FrameBuffer frame;
    const char *names[3] = {"R", "G", "B"};
    for (int channel = 0; channel < 3; channel++) {
        if (!file.header().channels().findChannel(names[channel])) return 1;
        frame.insert(names[channel], Imf::Slice(Imf::HALF, first + 2 * channel, 6, 6 * std::size_t(size[0])));
    }
    file.setFrameBuffer(frame);
    file.readPixels(window.min.y, window.max.y);
    return std::fwrite(size, 4, 2, stdout) == 2 && std::fwrite(patterns.data(), 2, patterns.size(), stdout) == patterns.size() ? 0 : 1;
}
