// OpenImageIO as a reader of DDS files: standard input has the paths, a line each. For each path a line of four numbers goes to standard output
// (width, height, channels, 1 where the values are half-floats), or the line "refused"; the values, two bytes each and row by row, go to the
// path with ".values" behind it.
#include <OpenImageIO/imageio.h>

#include <cstdint>
#include <cstdio>
#include <fstream>
#include <iostream>
#include <string>
#include <vector>

int main()
{
    for (std::string path; std::getline(std::cin, path);) {
        auto image = OIIO::ImageInput::open(path);
        if (!image) {
            OIIO::geterror();
            std::cout << "refused\n";
            continue;
        }
        const OIIO::ImageSpec& spec = image->spec();
        std::vector<uint16_t> values(size_t(spec.width) * spec.height * spec.nchannels);
        if (!image->read_image(0, 0, 0, spec.nchannels, OIIO::TypeDesc::HALF, values.data())) {
            std::cerr << path << ": " << image->geterror() << "\n";
            return 2;
        }
        std::ofstream(path + ".values", std::ios::binary).write(reinterpret_cast<const char*>(values.data()), values.size() * 2);
        std::cout << spec.width << " " << spec.height << " " << spec.nchannels << " " << (spec.format == OIIO::TypeDesc::HALF) << "\n";
    }
    return 0;
}
