// OpenImageIO as a reader of Portable Float Maps: for the path on the command line the width, the height and the channels go to standard output,
// four bytes each, low byte first, and then the values, row by row from the top, as 32-bit floats.
#include <OpenImageIO/imageio.h>

#include <cstdint>
#include <cstdio>
#include <vector>

int main(int count, char** words)
{
    if (count != 2) return 2;
    auto image = OIIO::ImageInput::open(words[1]);
    if (!image) return 1;
    const OIIO::ImageSpec& spec = image->spec();
    const int32_t size[3] = {spec.width, spec.height, spec.nchannels};
    std::vector<float> values(size_t(spec.width) * spec.height * spec.nchannels);
    if (!image->read_image(0, 0, 0, spec.nchannels, OIIO::TypeDesc::FLOAT, values.data())) return 1;
    std::fwrite(size, sizeof size, 1, stdout);
    std::fwrite(values.data(), sizeof(float), values.size(), stdout);
    return 0;
}
