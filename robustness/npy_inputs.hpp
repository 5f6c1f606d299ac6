// What an input of fuzz_npy stands for: two bytes choose a network, a layer and a model, the rest is the file.
#ifndef NPY_INPUTS_HPP
#define NPY_INPUTS_HPP

#include <cstddef>
#include <cstdint>
#include <vector>

#include "npy_reader.hpp"

namespace npy_inputs {

constexpr size_t chosen_by = 2; // bytes before the file

// The last one is refused, with 3.
inline const std::vector<npy_reader::Place> &networks() {
    static const std::vector<npy_reader::Place> all = {
        {{1, 1}, 2, -1.0f, 1.0f, 0},    {{1, 1}, 1, 0.0f, 1.0f, 0},  {{2, 3, 1}, 3, -1.0f, 1.0f, 0},
        {{3, 4, 1}, 5, -0.5f, 1.5f, 0}, {{1, 2, 1, 2}, 3, -1, 1, 0}, {{1, 10}, 1, -1.0f, 1.0f, 0},
        {{1, 1}, 97, -1.0f, 1.0f, 0},   {{1, 1}, 0, -1.0f, 1.0f, 0},
    };
    return all;
}

enum class Fault { none, short_model, infinite_parameter };

// The second byte: three bits for the layer, then the model's fault, mostly none. Most layers are there; one number
// stands for the first that is not, and one for the largest number.
constexpr size_t layer_bits = 3, no_layer = 7, last_number = 6;

inline uint8_t second_byte(size_t layer, Fault fault) {
    return static_cast<uint8_t>(layer | size_t(fault) << layer_bits);
}

inline npy_reader::Place place(uint8_t first, uint8_t second) {
    npy_reader::Place chosen = networks()[first % networks().size()];
    const size_t layers = chosen.widths.size() - 1, layer = second % (1 << layer_bits);
    chosen.layer = layer == no_layer ? layers : layer == last_number ? SIZE_MAX : layer % layers;
    return chosen;
}

inline Fault fault(uint8_t second) {
    const size_t number = second >> layer_bits;
    return number <= size_t(Fault::infinite_parameter) ? Fault(number) : Fault::none;
}

} // namespace npy_inputs

#endif
