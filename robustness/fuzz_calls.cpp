// The fuzzer of prediction and training: on any sound network, with whatever numbers, kan_predict, kan_train_step,
// kan_accumulate and kan_apply must answer as the algorithm by hand does (bench/handwritten.cpp), in number and in
// every bit that is written, leave the work slices all +0.0, and touch nothing outside what they are lent. A batch that
// is accumulated in two parts and applied must end as the step on the whole batch does.
#include <estimator.h>

#include <algorithm>
#include <array>
#include <cmath>
#include <cstdio>
#include <cstdlib>
#include <cstring>
#include <numeric>
#include <vector>

#include "../bench/handwritten.h"
#include "guarded.hpp"

namespace {

constexpr float old_float = -77.25f;

using Answers = std::array<unsigned long, 29>; // how often each number came

Answers predictions, steps, gatherings, applications, chains;
unsigned long passed_over; // runs without a sound network: no call is made

// The counts of a line, with the runs that were passed over, add up to the fuzzer's runs.
void print(const char *call, const Answers &answers) {
    std::fprintf(stderr, "answers, %s:", call);
    for (size_t number = 0; number < answers.size(); ++number)
        if (answers[number] > 0)
            std::fprintf(stderr, " %zu:%lu", number, answers[number]);
    std::fprintf(stderr, ", no sound network: %lu, in all: %lu\n", passed_over,
                 std::accumulate(answers.begin(), answers.end(), passed_over));
}

void print_answers() {
    print("predict", predictions);
    print("train_step", steps);
    print("accumulate", gatherings);
    print("apply", applications);
    print("in two parts", chains);
}

void demand(bool agrees, const char *what) {
    if (agrees)
        return;
    std::fprintf(stderr, "the library and the algorithm by hand differ: %s\n", what);
    std::abort();
}

// The fuzzer's bytes, handed out one after the other and then from the front again.
class Source {
  public:
    Source(const uint8_t *data, size_t size) : bytes(data), count(size) {}

    size_t below(size_t limit) { return next() % limit; }

    float number() {
        uint32_t bits = 0;
        for (int i = 0; i < 4; ++i)
            bits = bits << 8 | next();
        float x;
        std::memcpy(&x, &bits, sizeof x);
        return x;
    }

    void fill(Guarded<float> &numbers) {
        std::generate(numbers.begin(), numbers.end(), [this] { return number(); });
    }

  private:
    uint8_t next() { return bytes[at++ % count]; }

    const uint8_t *bytes;
    size_t count, at = 0;
};

struct Network {
    std::vector<size_t> widths;
    size_t g, parameters = 0;
    float lo, hi;

    explicit Network(Source &source) : widths(2 + source.below(3)), g(1 + source.below(9)) {
        std::generate(widths.begin(), widths.end(), [&] { return 1 + source.below(4); });
        const bool usual = source.below(2) == 0;
        lo = usual ? -1.0f : source.number();
        hi = usual ? 1.0f : source.number();
    }

    // Whether the configuration is accepted, and its knots span a finite range, as the algorithm by hand needs.
    bool is_sound() {
        size_t carried;
        if (kan_check(widths.data(), widths.size(), g, lo, hi, &parameters, &carried) != 0)
            return false;
        const float width = (hi - lo) / static_cast<float>(g);
        return std::isfinite((lo + static_cast<float>(g + 3) * width) - (lo - 3.0f * width));
    }

    size_t widest() const { return *std::max_element(widths.begin(), widths.end()); }
    size_t nodes() const { return std::accumulate(widths.begin(), widths.end(), size_t{0}); }
};

bool all_zero(const Guarded<float> &numbers) {
    return std::all_of(numbers.begin(), numbers.end(), [](float x) { return x == 0.0f && !std::signbit(x); });
}

bool same_bits(const Guarded<float> &a, const std::vector<float> &b) {
    return std::memcmp(a.data(), b.data(), sizeof(float) * b.size()) == 0;
}

// Sums that are NaN may be any NaN.
bool same_sums(const Guarded<float> &a, const std::vector<float> &b) {
    return std::equal(a.begin(), a.end(), b.begin(), [](float x, float y) {
        return std::memcmp(&x, &y, sizeof x) == 0 || (std::isnan(x) && std::isnan(y));
    });
}

void compare_predict(const Network &n, const Guarded<float> &model, const Guarded<float> &inputs, size_t rows) {
    Guarded<float> first(n.widest()), second(n.widest()), outputs(rows * n.widths.back());
    std::fill(outputs.begin(), outputs.end(), old_float);
    size_t carried = 0;
    const uint32_t number = kan_predict(n.widths.data(), n.widths.size(), n.g, n.lo, n.hi, model.data(), model.size(),
                                        inputs.data(), inputs.size(), first.data(), first.size(), second.data(),
                                        second.size(), outputs.data(), outputs.size(), &carried);
    demand(all_zero(first) && all_zero(second), "work of kan_predict");
    std::vector<float> own_first(n.widest()), own_second(n.widest()), own(outputs.size(), old_float);
    demand(number == hand_predict(n.widths.data(), n.widths.size(), n.g, n.lo, n.hi, model.data(), inputs.data(), rows,
                                  own_first.data(), own_second.data(), own.data()),
           "number of kan_predict");
    demand(same_bits(outputs, own), "outputs of kan_predict");
    ++predictions[number];
}

uint32_t compare_step(const Network &n, Guarded<float> &model, const Guarded<float> &inputs,
                      const Guarded<float> &targets, size_t rows, float rate) {
    Guarded<float> gradients(n.parameters), work(2 * n.nodes());
    std::vector<float> own(model.begin(), model.end()), own_gradients(gradients.size()), own_work(work.size());
    size_t carried = 0;
    const uint32_t number = kan_train_step(
        n.widths.data(), n.widths.size(), n.g, n.lo, n.hi, model.data(), model.size(), inputs.data(), inputs.size(),
        targets.data(), targets.size(), rate, gradients.data(), gradients.size(), work.data(), work.size(), &carried);
    demand(all_zero(gradients) && all_zero(work), "work of kan_train_step");
    demand(number == hand_train_step(n.widths.data(), n.widths.size(), n.g, n.lo, n.hi, own.data(), inputs.data(),
                                     targets.data(), rows, rate, own_gradients.data(), own_work.data()),
           "number of kan_train_step");
    demand(same_bits(model, own), "model after kan_train_step");
    ++steps[number];
    return number;
}

// Some rows of a batch: the first of them, and how many.
struct Rows {
    size_t first, count;
};

uint32_t accumulate(const Network &n, const Guarded<float> &model, const Guarded<float> &inputs,
                    const Guarded<float> &targets, Rows rows, size_t total, Guarded<float> &gradients) {
    Guarded<float> work(2 * n.nodes());
    std::fill(work.begin(), work.end(), old_float);
    const size_t ins = n.widths.front(), outs = n.widths.back();
    size_t carried = 0;
    const uint32_t number = kan_accumulate(n.widths.data(), n.widths.size(), n.g, n.lo, n.hi, model.data(),
                                           model.size(), inputs.data() + rows.first * ins, rows.count * ins,
                                           targets.data() + rows.first * outs, rows.count * outs, total,
                                           gradients.data(), gradients.size(), work.data(), work.size(), &carried);
    demand(all_zero(work), "work of kan_accumulate");
    return number;
}

// Gradients that hold whatever they hold, with the batch's added to them.
void compare_accumulate(const Network &n, const Guarded<float> &model, const Guarded<float> &inputs,
                        const Guarded<float> &targets, size_t rows, size_t total, Guarded<float> &gradients) {
    const std::vector<float> before(gradients.begin(), gradients.end());
    std::vector<float> own = before, own_work(2 * n.nodes());
    const uint32_t number = accumulate(n, model, inputs, targets, {0, rows}, total, gradients);
    demand(number == hand_accumulate(n.widths.data(), n.widths.size(), n.g, n.lo, n.hi, model.data(), inputs.data(),
                                     targets.data(), rows, total, own.data(), own_work.data()),
           "number of kan_accumulate");
    demand(number == 0 ? same_sums(gradients, own) : same_bits(gradients, before), "gradients after kan_accumulate");
    ++gatherings[number];
}

uint32_t apply(const Network &n, Guarded<float> &model, const Guarded<float> &gradients, float rate) {
    size_t carried = 0;
    return kan_apply(n.widths.data(), n.widths.size(), n.g, n.lo, n.hi, model.data(), model.size(), gradients.data(),
                     gradients.size(), rate, &carried);
}

void compare_apply(const Network &n, const Guarded<float> &model, const Guarded<float> &gradients, float rate) {
    const std::vector<float> before(gradients.begin(), gradients.end());
    std::vector<float> own(model.begin(), model.end());
    Guarded<float> moved(model.size());
    std::copy(model.begin(), model.end(), moved.begin());
    const uint32_t number = apply(n, moved, gradients, rate);
    demand(number == hand_apply(n.widths.data(), n.widths.size(), n.g, own.data(), before.data(), rate),
           "number of kan_apply");
    demand(same_bits(moved, own), "model after kan_apply");
    demand(same_bits(gradients, before), "gradients after kan_apply");
    ++applications[number];
}

// How training in two calls ends, and whether all parts were accumulated.
struct Chain {
    uint32_t number;
    bool gathered;
};

// A batch in two parts, of which the first has `cut` rows, or in one where that is none.
Chain in_two_parts(const Network &n, Guarded<float> &model, const Guarded<float> &inputs, const Guarded<float> &targets,
                   size_t rows, size_t cut, float rate) {
    Guarded<float> gradients(n.parameters); // new memory is all +0.0
    for (Rows part : {Rows{0, cut}, Rows{cut, rows - cut}}) {
        const uint32_t number =
            part.count == 0 ? 0 : accumulate(n, model, inputs, targets, part, targets.size(), gradients);
        if (number != 0)
            return {number, false};
    }
    return {apply(n, model, gradients, rate), true};
}

// The step, and the same in two calls. Where a part is refused the whole batch is too, if not by the same number: its
// inputs all come before its targets.
void compare_steps(const Network &n, Guarded<float> &model, const Guarded<float> &inputs, const Guarded<float> &targets,
                   size_t rows, size_t cut, float rate) {
    Guarded<float> moved(model.size());
    std::copy(model.begin(), model.end(), moved.begin());
    const Chain chain = in_two_parts(n, moved, inputs, targets, rows, cut, rate);
    const uint32_t step = compare_step(n, model, inputs, targets, rows, rate);
    demand(chain.gathered ? chain.number == step : step != 0, "number in two parts and of kan_train_step");
    demand(same_bits(moved, std::vector<float>(model.begin(), model.end())),
           "model in two parts and by kan_train_step");
    ++chains[chain.number];
}

} // namespace

extern "C" int LLVMFuzzerInitialize(int *, char ***) { return std::atexit(print_answers); }

extern "C" int LLVMFuzzerTestOneInput(const uint8_t *data, size_t size) {
    if (size == 0)
        return ++passed_over, 0;
    Source source(data, size);
    Network network(source);
    if (!network.is_sound())
        return ++passed_over, 0;
    const size_t rows = 1 + source.below(4);
    const float rate = std::ldexp(1.0f, static_cast<int>(source.below(40)) - 20);
    Guarded<float> model(network.parameters), inputs(rows * network.widths.front()),
        targets(rows * network.widths.back());
    source.fill(model);
    source.fill(inputs);
    source.fill(targets);
    compare_predict(network, model, inputs, rows);
    Guarded<float> gradients(network.parameters);
    source.fill(gradients);
    const size_t total = source.below(4) == 0 ? source.below(256) << source.below(24) : targets.size();
    compare_accumulate(network, model, inputs, targets, rows, total, gradients);
    compare_apply(network, model, gradients, source.below(4) == 0 ? source.number() : rate);
    compare_steps(network, model, inputs, targets, rows, source.below(rows), rate);
    return 0;
}
