// Writes what the fuzzers begin with: images of a few small models, and NPY files with the two bytes before them that
// npy_inputs.hpp tells of. Usage: seeds IMAGES NPYS, two folders
#include <estimator.hpp>

#include <cstdio>
#include <cstdlib>

#include "npy_inputs.hpp"

namespace {

using FileContents = std::vector<std::uint8_t>;

void store(const std::string &folder, const FileContents &bytes) {
    static int number = 0;
    const std::string path = folder + "/seed-" + std::to_string(number++);
    if (const estimator::FileOutcome written = estimator::write_file(path.c_str(), bytes); !written) {
        std::fprintf(stderr, "%s\n", written.message().c_str());
        std::exit(1);
    }
}

void store_images(const std::string &folder) {
    const estimator::Config configs[] = {
        {{1, 1}, 1, -1.0f, 1.0f},      {{1, 1}, 2, -1.0f, 1.0f},   {{2, 3, 1}, 2, -0.0f, 1.0f},
        {{1, 1}, 4, 8388608, 8388611}, {{3, 4, 1}, 5, -0.5, 1.5f}, {{1, 2, 1, 2}, 3, -1e30f, 1e30f},
    };
    for (const estimator::Config &config : configs)
        store(folder, estimator::Model::initialise(config, 7).value().image().value());
}

// A file of every layer of every network that is accepted, and of one that is not there.
void store_layers(const std::string &folder) {
    const std::vector<npy_reader::Place> &networks = npy_inputs::networks();
    for (std::size_t chosen = 0; chosen < networks.size(); ++chosen) {
        const npy_reader::Place &network = networks[chosen];
        const auto model = estimator::Model::initialise({network.widths, network.g, network.lo, network.hi}, 7);
        if (!model)
            continue;
        const std::size_t layers = network.widths.size() - 1;
        for (std::size_t layer = 0; layer <= layers; ++layer) {
            FileContents bytes = model->npy(layer % layers).value();
            const std::size_t told = layer < layers ? layer : npy_inputs::no_layer;
            bytes.insert(bytes.begin(), npy_inputs::second_byte(told, npy_inputs::Fault::none));
            bytes.insert(bytes.begin(), static_cast<std::uint8_t>(chosen));
            store(folder, bytes);
        }
    }
}

// Other headers for [1, 1] with two intervals: good ones, malformed ones, and ones of another type, order or shape.
constexpr const char *headers[] = {
    R"({"shape":(1,1,5),"descr":"<f4","fortran_order":False})",
    R"({ 'fortran_order' : False , "shape" : ( 1 , 1 , 5 , ) , 'descr' : "<f4" , }   )",
    R"({'descr': '<f4', 'fortran_order': False, 'shape': (1, 1, 5)})",
    R"({'descr': '<f4', 'fortran_order': True, 'shape': (1, 1, 5), })",
    R"({'descr': '>f4', 'fortran_order': False, 'shape': (1, 1, 5), })",
    R"({'descr': "it's", 'fortran_order': False, 'shape': (1, 1, 5), })",
    R"({'descr': '<f4', 'fortran_order': False, 'shape': (), })",
    R"({'descr': '<f4', 'fortran_order': False, 'shape': (5,), })",
    R"({'descr': '<f4', 'fortran_order': False, 'shape': (1, 1, 18446744073709551621), })",
    R"({'descr': '<f4', 'fortran_order': False, 'shape': (1, 1, 05), })",
    R"({'descr': '<f4', 'fortran_order': False, 'shape': (,), })",
    R"({'descr': '<f4', 'fortran_order': False, 'shape': (1, 1, 5), 'shape': (1, 1, 5)})",
    R"({'descr': '<f4', 'descr': '<f4', 'shape': (1, 1, 5)})",
    R"({'descr': '<f4', 'fortran_order': False})",
};

void store_headers(const std::string &folder) {
    for (const char *header : headers) {
        const std::string text = header + std::string("\n");
        FileContents bytes = {0, npy_inputs::second_byte(0, npy_inputs::Fault::none)};
        for (const char c : std::string("\x93NUMPY\x01\0", 8))
            bytes.push_back(static_cast<std::uint8_t>(c));
        bytes.push_back(static_cast<std::uint8_t>(text.size()));
        bytes.push_back(0);
        bytes.insert(bytes.end(), text.begin(), text.end());
        bytes.resize(bytes.size() + 20, 0x3f);
        store(folder, bytes);
        bytes.back() = 0x7f; // the last number becomes a NaN
        bytes.end()[-2] = 0xff;
        store(folder, bytes);
    }
}

} // namespace

int main(int count, char **arguments) {
    if (count != 3) {
        std::fprintf(stderr, "usage: seeds IMAGES NPYS\n");
        return 2;
    }
    store_images(arguments[1]);
    store_layers(arguments[2]);
    store_headers(arguments[2]);
}
