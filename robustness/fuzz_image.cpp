// The fuzzer of the image reader: whatever the bytes, kan_image_read and kan_image_unpack must answer as the reader of
// reader.hpp does, in number, what it carries, and all that is written, and touch nothing else.
#include <estimator.h>

#include <algorithm>
#include <cstdlib>
#include <cstring>

#include "answers.hpp"
#include "guarded.hpp"
#include "reader.hpp"

extern "C" size_t LLVMFuzzerMutate(uint8_t *data, size_t size, size_t most);

namespace {

constexpr size_t old_size = 0x5a5a5a5a5a5a5a5a;
constexpr float old_float = -77.25f;

bool same_bits(float a, float b) { return std::memcmp(&a, &b, sizeof a) == 0; }

void compare_read(const Guarded<uint8_t> &image, const reader::Answer &expected) {
    size_t intervals = old_size, widths = old_size, parameters = old_size, carried = old_size;
    float lo = old_float, hi = old_float;
    const uint32_t number =
        kan_image_read(image.data(), image.size(), &intervals, &lo, &hi, &widths, &parameters, &carried);
    demand(number == expected.number, "number of kan_image_read");
    demand(carried == expected.carried, "carried by kan_image_read");
    const bool refused = number != 0;
    demand(intervals == (refused ? old_size : expected.intervals), "intervals");
    demand(same_bits(lo, refused ? old_float : expected.lo), "lo");
    demand(same_bits(hi, refused ? old_float : expected.hi), "hi");
    demand(widths == (refused ? old_size : expected.widths.size()), "count of widths");
    demand(parameters == (refused ? old_size : expected.parameters.size()), "count of parameters");
}

// With the buffers' lengths off by so much.
void compare_unpack(const Guarded<uint8_t> &image, const reader::Answer &expected, size_t more_widths,
                    size_t more_floats) {
    Guarded<size_t> widths(expected.widths.size() + more_widths);
    Guarded<float> model(expected.parameters.size() + more_floats);
    std::fill(widths.begin(), widths.end(), old_size);
    std::fill(model.begin(), model.end(), old_float);
    size_t carried = old_size;
    const uint32_t number = kan_image_unpack(image.data(), image.size(), widths.data(), widths.size(), model.data(),
                                             model.size(), &carried);
    const bool fits = more_widths == 0 && more_floats == 0;
    const uint32_t own = expected.number != 0 ? expected.number : fits ? 0 : 10;
    demand(number == own, "number of kan_image_unpack");
    demand(carried == expected.carried, "carried by kan_image_unpack");
    if (number != 0) {
        demand(std::count(widths.begin(), widths.end(), old_size) == static_cast<long>(widths.size()),
               "widths left alone");
        demand(std::count(model.begin(), model.end(), old_float) == static_cast<long>(model.size()),
               "model left alone");
        return;
    }
    demand(std::equal(widths.begin(), widths.end(), expected.widths.begin()), "widths");
    demand(std::memcmp(model.data(), expected.parameters.data(), 4 * model.size()) == 0, "parameters");
}

} // namespace

extern "C" int LLVMFuzzerInitialize(int *, char ***) { return std::atexit(print_answers); }

extern "C" int LLVMFuzzerTestOneInput(const uint8_t *data, size_t size) {
    Guarded<uint8_t> image(size);
    std::copy(data, data + size, image.begin());
    const reader::Answer expected = reader::read(image.data(), size);
    ++answers[expected.number];
    compare_read(image, expected);
    compare_unpack(image, expected, 0, 0);
    compare_unpack(image, expected, 1, 0);
    compare_unpack(image, expected, 0, 1);
    demand(std::equal(image.begin(), image.end(), data), "image left alone");
    return 0;
}

// Words at which an answer changes: intervals, and ends of a domain.
constexpr uint32_t some_intervals[] = {0, 1, 2, 4, 1000, 249995, 249996, 67108861, 67108862, 0xffffffff};
constexpr uint32_t some_ends[] = {0x00000000, 0x80000000, 0x00000001, 0x00800000, 0x3f800000, 0xbf800000, 0x4b000000,
                                  0x4b000003, 0x7effc99e, 0xfeffc99e, 0x7f7fffff, 0xff7fffff, 0x7f800000, 0x7fc00000};

template <size_t count>
uint32_t one_of(const uint32_t (&words)[count], unsigned choice) {
    return words[choice % count];
}

// Most mutations would end at the first checks; this puts some of the trailer right again, so that later ones are met.
extern "C" size_t LLVMFuzzerCustomMutator(uint8_t *data, size_t size, size_t most, unsigned seed) {
    size = LLVMFuzzerMutate(data, size, most);
    if (size < 32 + 4 * 4)
        return size;
    const auto put = [&](size_t from_end, size_t word) {
        for (size_t i = 0; i < 4; ++i)
            data[size - from_end + i] = static_cast<uint8_t>(word >> 8 * i);
    };
    const unsigned choice = seed >> 8;
    const size_t widths = choice % 4 + 1;
    if (seed & 3)
        put(4, 1);
    if (seed & 12)
        put(8, 3);
    if (seed & 16) {
        put(24, widths);
        put(28, 32 + 4 * widths);
        for (size_t i = 0; i < widths && (seed & 32); ++i)
            put(32 + 4 * widths - 4 * i, 1);
    }
    if (seed & 64) {
        put(20, one_of(some_intervals, choice / 4));
        put(16, one_of(some_ends, choice / 64));
        put(12, one_of(some_ends, choice / 1024));
    }
    if ((seed & 128) && size % 4 == 0) { // as many intervals as [1, 1] has room for
        put(32, size);
        put(28, 40);
        put(24, 2);
        put(20, size / 4 - 15);
        put(36, 1);
        put(40, 1);
    }
    return size;
}
