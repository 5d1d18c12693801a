// Noise and edge width, from C++ (11 or later). It is built with what pkg-config says, and with nothing else:
//
//     c++ -o both both.cpp $(pkg-config --cflags --libs vuzgari)
#include <vuzgari.h>

#include <array>
#include <iostream>
#include <string>
#include <vector>

// Pixels row by row, one byte each (0 is black, 255 white).
struct Image {
    std::size_t width, height;
    std::vector<std::uint8_t> pixels;
};

// The noise call works in memory that it is lent; the sizing call says for how many windows.
vuzgari_answer noise(const Image &image)
{
    vuzgari_answer answer{};
    const std::uint64_t windows = vuzgari_noise_windows(image.width, image.height);
    answer.number = vuzgari_number_of(windows);
    if (answer.number != VUZGARI_GIVEN) {
        return answer; // a side is too long or too short
    }
    std::vector<std::int32_t> ints(3 * windows);
    std::vector<float> floats(2 * windows + 2);
    std::array<std::uint8_t, VUZGARI_ANSWER_BYTES> bytes{}; // left alone where the call is refused (1 to 4)
    const std::uint32_t number =
        vuzgari_noise(image.pixels.data(), image.pixels.size(), image.width, image.height, ints.data(), ints.size(),
                      floats.data(), floats.size(), bytes.data(), bytes.size());
    answer = vuzgari_answer_from(bytes.data());
    answer.number = number;
    return answer;
}

// The edge call needs the pixels alone. The image's origin is (0, 0): the centre is in its own columns and rows.
std::uint64_t edge(const Image &image, std::int32_t cx, std::int32_t cy)
{
    return vuzgari_edge_width(image.pixels.data(), image.pixels.size(), image.width, image.height, 0, 0, cx, cy);
}

void print(const std::string &name, std::uint32_t number, const std::string &figure)
{
    std::cout << name << ": ";
    if (number == VUZGARI_GIVEN) {
        std::cout << figure << '\n';
    } else {
        std::cout << "no figure, number " << number << ": " << vuzgari_reason(number) << '\n';
    }
}

int main()
{
    const Image plain{26, 26, std::vector<std::uint8_t>(26 * 26, 128)};
    const Image narrow{3, 26, std::vector<std::uint8_t>(3 * 26, 128)};
    const Image pair{2, 1, {10, 240}}; // one dark pixel, one bright
    for (const Image *image : {&plain, &narrow}) {
        const vuzgari_answer answer = noise(*image);
        print("noise, width " + std::to_string(image->width), answer.number,
              std::to_string(answer.milli) + " thousandths of a level");
    }
    const std::uint64_t width = edge(pair, 0, 0);
    print("edge", vuzgari_number_of(width), std::to_string(vuzgari_width_of(width)) + " pixels wide");
}
