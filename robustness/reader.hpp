// An image reader of its own, written from docs/RULES.md (R13.3, R3.4) alone and sharing no line with the library: what
// the fuzzer compares kan_image_read and kan_image_unpack with.
#ifndef READER_HPP
#define READER_HPP

#include <cmath>
#include <cstddef>
#include <cstdint>
#include <cstring>
#include <vector>

namespace reader {

__extension__ typedef unsigned __int128 Whole; // every sum and product below fits

struct Answer {
    uint32_t number = 0; // the refusal, 0 where there is none
    size_t carried = 0;
    size_t intervals = 0;
    float lo = 0, hi = 0;
    std::vector<size_t> widths;
    std::vector<uint32_t> parameters; // their bits
};

inline Answer refuse(uint32_t number, size_t carried = 0) {
    Answer answer;
    answer.number = number;
    answer.carried = carried;
    return answer;
}

inline uint32_t word(const uint8_t *image, size_t at) {
    return image[at] | image[at + 1] << 8 | image[at + 2] << 16 | static_cast<uint32_t>(image[at + 3]) << 24;
}

inline float number(uint32_t bits) {
    float x;
    std::memcpy(&x, &bits, sizeof x);
    return x;
}

// The domain test (R4.4)
inline bool domain_is_sound(size_t g, float lo, float hi) {
    if (!std::isfinite(lo) || !std::isfinite(hi) || lo >= hi)
        return false;
    const float w = (hi - lo) / static_cast<float>(g);
    const float below = lo - 3.0f * w, above = hi + 3.0f * w;
    return std::isfinite(w) && w > 0 && std::isfinite(below) && std::isfinite(above) && lo + w > lo && hi - w < hi &&
           below < lo && above > hi;
}

// The configuration's checks (R3.4, R4.1 to R4.8): the answer's number, what it carries, and P where it is accepted.
struct Configured {
    uint32_t number;
    size_t carried;
    size_t parameters;
};

inline Configured configure(const std::vector<size_t> &widths, size_t g, float lo, float hi) {
    const Whole limit = Whole(1) << 64;
    if (widths.size() < 2)
        return {1, 0, 0};
    for (size_t width : widths)
        if (width == 0)
            return {1, 0, 0};
    for (size_t i = 0; i + 1 < widths.size(); ++i)
        if (Whole(widths[i]) * widths[i + 1] >= limit)
            return {2, 0, 0};
    if (g == 0 || g > (size_t(1) << 63) - 8)
        return {3, 0, 0};
    if (g >= 67108862)
        return {4, 0, 0};
    Whole total = 0;
    for (size_t i = 0; i + 1 < widths.size(); ++i) {
        const Whole layer = Whole(widths[i]) * widths[i + 1] * (g + 5);
        if (layer >= limit)
            return {5, 0, 0};
        total += layer;
        if (total >= limit)
            return {6, 0, 0};
    }
    if (total > 250000)
        return {7, static_cast<size_t>(total), 0};
    if (!domain_is_sound(g, lo, hi))
        return {4, 0, 0};
    return {0, 0, static_cast<size_t>(total)};
}

// The reader's checks in their order (R13.3).
inline Answer read(const uint8_t *image, size_t length) {
    if (length > 8388608)
        return refuse(24);
    if (length < 32)
        return refuse(27);
    uint32_t trailer[8];
    for (size_t i = 0; i < 8; ++i)
        trailer[i] = word(image, length - 32 + 4 * i);
    if (trailer[7] != 1)
        return refuse(25, trailer[7]);
    if (trailer[6] != 3)
        return refuse(26);
    const Whole count = trailer[2];
    if (trailer[1] != 32 + 4 * count || trailer[1] > length)
        return refuse(27);
    Answer answer;
    for (size_t i = 0; i < trailer[2]; ++i)
        answer.widths.push_back(word(image, length - trailer[1] + 4 * i));
    answer.intervals = trailer[3];
    answer.lo = number(trailer[4]);
    answer.hi = number(trailer[5]);
    const Configured configured = configure(answer.widths, answer.intervals, answer.lo, answer.hi);
    if (configured.number != 0)
        return refuse(configured.number, configured.carried);
    const Whole whole = 32 + 4 * count + 4 * Whole(configured.parameters);
    if (whole != length || trailer[0] != whole)
        return refuse(27);
    for (size_t i = 0; i < configured.parameters; ++i) {
        answer.parameters.push_back(word(image, 4 * i));
        if ((answer.parameters.back() & 0x7f800000) == 0x7f800000)
            return refuse(11);
    }
    return answer;
}

} // namespace reader

#endif
