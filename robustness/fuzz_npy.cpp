// The fuzzer of the NPY reader: whatever the bytes, kan_npy_read must answer as the reader of npy_reader.hpp does, in
// number, what it carries and the model that it leaves, and touch nothing else. What it has taken is then written and
// read again; of a refused file, the model as it was.
#include <estimator.h>

#include <algorithm>
#include <cstdlib>
#include <cstring>
#include <numeric>

#include "answers.hpp"
#include "guarded.hpp"
#include "npy_inputs.hpp"

extern "C" size_t LLVMFuzzerMutate(uint8_t *data, size_t size, size_t most);

namespace {

using npy_inputs::Fault;
using npy_reader::Answer;
using npy_reader::Place;
using Bits = std::vector<uint32_t>;

constexpr size_t old_size = 0x5a5a5a5a5a5a5a5a;
constexpr uint8_t old_byte = 0x5a;

// All parameters are told apart by their bits.
Bits first_model(const Place &place, Fault fault) {
    const size_t parameters = reader::configure(place.widths, place.g, place.lo, place.hi).parameters;
    Bits model(parameters + (fault == Fault::short_model ? 1 : 0));
    std::iota(model.begin(), model.end(), 0x3f800000u);
    if (fault == Fault::infinite_parameter && !model.empty())
        model[model.size() / 2] = 0x7f800000;
    return model;
}

Bits bits(const Guarded<float> &numbers) {
    Bits all(numbers.size());
    if (!all.empty())
        std::memcpy(all.data(), numbers.data(), 4 * all.size());
    return all;
}

void lend(const Bits &from, const Guarded<float> &to) {
    if (!from.empty())
        std::memcpy(to.data(), from.data(), 4 * from.size());
}

// Reads the file into the model, which becomes what the reader makes of it; the number.
uint32_t compare_read(const Place &place, const Guarded<uint8_t> &file, Bits &model) {
    const std::string text(file.begin(), file.end());
    const Answer expected = npy_reader::read(place, model, text);
    Guarded<float> lent(model.size());
    lend(model, lent);
    size_t carried = old_size;
    const uint32_t number = kan_npy_read(place.widths.data(), place.widths.size(), place.g, place.lo, place.hi,
                                         lent.data(), lent.size(), place.layer, file.data(), file.size(), &carried);
    demand(number == expected.number, "number of kan_npy_read");
    demand(carried == expected.carried, "carried by kan_npy_read");
    demand(std::equal(file.begin(), file.end(), text.begin(), [](uint8_t a, char b) { return a == uint8_t(b); }),
           "file left alone");
    if (number == 0) {
        const std::vector<size_t> places = place.places();
        for (size_t i = 0; i < places.size(); ++i)
            model[places[i]] = expected.coefficients[i];
    }
    demand(bits(lent) == model, "model of kan_npy_read");
    return number;
}

// Into a file that is so much longer than it should be.
uint32_t compare_write(const Place &place, const Bits &model, const Guarded<uint8_t> &file, bool fits) {
    Guarded<float> lent(model.size());
    lend(model, lent);
    std::fill(file.begin(), file.end(), old_byte);
    const Answer admitted = npy_reader::admit(place, model.size());
    const bool finite = std::all_of(model.begin(), model.end(), npy_reader::is_finite);
    const uint32_t expected = admitted.number != 0 ? admitted.number : !fits ? 10 : finite ? 0 : 11;
    size_t carried = old_size;
    const uint32_t number = kan_npy_write(place.widths.data(), place.widths.size(), place.g, place.lo, place.hi,
                                          lent.data(), lent.size(), place.layer, file.data(), file.size(), &carried);
    demand(number == expected, "number of kan_npy_write");
    demand(carried == admitted.carried, "carried by kan_npy_write");
    demand(bits(lent) == model, "model left alone");
    const std::string text(file.begin(), file.end());
    if (number == 0)
        demand(text == npy_reader::written(place, model), "file of kan_npy_write");
    else
        demand(text == std::string(file.size(), char(old_byte)), "file left unwritten");
    return number;
}

} // namespace

extern "C" int LLVMFuzzerInitialize(int *, char ***) { return std::atexit(print_answers); }

extern "C" int LLVMFuzzerTestOneInput(const uint8_t *data, size_t size) {
    const size_t chosen = std::min(size, npy_inputs::chosen_by);
    const uint8_t first = size > 0 ? data[0] : 0, second = size > 1 ? data[1] : 0;
    const Place place = npy_inputs::place(first, second);
    Bits model = first_model(place, npy_inputs::fault(second));
    Guarded<uint8_t> file(size - chosen);
    std::copy(data + chosen, data + size, file.begin());
    ++answers[compare_read(place, file, model)];

    const size_t length = place.is_there() ? 128 + 4 * place.coefficients() : 128;
    Guarded<uint8_t> own(length), shorter(length - 1), longer(length + 1);
    compare_write(place, model, shorter, false);
    compare_write(place, model, longer, false);
    Bits again = model;
    if (compare_write(place, model, own, true) == 0)
        demand(compare_read(place, own, again) == 0 && again == model, "what was written is read");
    return 0;
}

namespace {

// A header for a layer that is there, in one of the ways to write it; in some, one thing is not as it should be.
std::string some_header(const Place &place, unsigned choice) {
    const auto pick = [&choice](const char *one, const char *other) {
        const char *picked = choice & 1 ? one : other;
        choice >>= 1;
        return std::string(picked);
    };
    const std::string quote = pick("'", "\""), gap = pick("", " "), last = pick("", ","), behind = pick("", "      ");
    const unsigned wrong = choice % 16;
    const auto key = [&](const char *name) { return quote + name + quote + gap + ":" + gap; };
    const std::vector<std::string> sizes = place.shape();
    std::string entries[] = {
        key("descr") + quote +
            (wrong == 0   ? ">f4"
             : wrong == 4 ? "<f4\x7f"
                          : "<f4") +
            quote,
        key("fortran_order") + (wrong == 1 ? "True" : "False"),
        key("shape") + "(" + sizes[0] + "," + gap + sizes[1] + gap + "," + sizes[2] + (wrong == 2 ? "0" : last) + ")",
    };
    std::rotate(entries, entries + choice / 16 % 3, entries + 3);
    if (choice / 64 % 2)
        std::swap(entries[0], entries[1]);
    if (wrong == 3)
        entries[0] = entries[2]; // a key twice, and one not at all
    const std::string open = wrong == 5 ? " {" : "{";
    return open + gap + entries[0] + "," + gap + entries[1] + gap + "," + entries[2] + last + gap + "}" + behind + "\n";
}

// The file behind this header, its numbers kept as far as there are any: its new length.
size_t set_header(uint8_t *file, size_t length, size_t most, const std::string &header) {
    const size_t old = std::min(length, 10 + file[8] + 256 * size_t(file[9])), front = 10 + header.size();
    if (front > most)
        return length;
    const size_t body = std::min(length - old, most - front);
    std::memmove(file + front, file + old, body);
    std::copy(header.begin(), header.end(), file + 10);
    file[8] = static_cast<uint8_t>(header.size());
    file[9] = static_cast<uint8_t>(header.size() >> 8);
    return front + body;
}

} // namespace

// Most mutations would end at the header; this puts some of it right again, so that the checks behind it are met.
extern "C" size_t LLVMFuzzerCustomMutator(uint8_t *data, size_t size, size_t most, unsigned seed) {
    size = LLVMFuzzerMutate(data, size, most);
    if (size < npy_inputs::chosen_by + 10)
        return size;
    if (seed & 3)
        data[1] %= 1 << npy_inputs::layer_bits; // no fault of the model
    const Place place = npy_inputs::place(data[0], data[1]);
    uint8_t *file = data + npy_inputs::chosen_by;
    size_t length = size - npy_inputs::chosen_by;
    if (seed & 12)
        std::memcpy(file, "\x93NUMPY\x01\0", 8);
    if (place.is_there() && (seed & 48) == 0)
        length = set_header(file, length, most - npy_inputs::chosen_by, some_header(place, seed >> 8));
    const size_t body = place.is_there() ? 4 * place.coefficients() : 0;
    if ((seed & 48) == 16 && length >= 10 + body) { // a header as long as the body leaves room
        file[8] = static_cast<uint8_t>(length - 10 - body);
        file[9] = static_cast<uint8_t>((length - 10 - body) >> 8);
    }
    const size_t end = 10 + file[8] + 256 * size_t(file[9]);
    if ((seed & 192) && end > 10 && end <= length)
        file[end - 1] = '\n';
    return npy_inputs::chosen_by + length;
}
