// Three builders gather samples for one model, and a scheduler trains it with all of them, in three ways. Only the
// first is one training step on the joined batch, bit for bit; the program fails where it is not, or where another is.
#include <estimator.hpp>

#include <array>
#include <cstdio>
#include <cstdlib>
#include <cstring>

using estimator::Gradients;
using estimator::Model;
using estimator::Outcome;
using estimator::Work;

namespace {

constexpr std::uint64_t seed = 2026;
constexpr float rate = 0.25f;
constexpr std::size_t shown[] = {0, 9, 14, 31, 57}; // of the parameters

[[noreturn]] void stop(const std::string &why) {
    std::fprintf(stderr, "builders: %s\n", why.c_str());
    std::exit(1);
}

void demand(const Outcome &outcome, const char *doing) {
    if (!outcome)
        stop(std::string(doing) + ": " + outcome.message());
}

// A source file that a builder has compiled, and how long that took.
struct Sample {
    unsigned kilobytes, includes, milliseconds;
};

struct Batch {
    std::vector<float> inputs, targets;
};

const std::array<std::vector<Sample>, 3> builders{{
    {{12, 9, 410}, {48, 31, 2950}, {7, 4, 180}},
    {{96, 60, 9100}, {33, 22, 1675}},
    {{20, 17, 920}, {64, 12, 2240}, {5, 40, 3330}, {81, 45, 7015}},
}};

// Every divisor is a power of two, so that features and targets have the same bits on every machine.
void append(Batch &batch, const std::vector<Sample> &samples) {
    for (const Sample &sample : samples) {
        batch.inputs.push_back(static_cast<float>(sample.kilobytes) / 128.0f);
        batch.inputs.push_back(static_cast<float>(sample.includes) / 64.0f);
        batch.targets.push_back(static_cast<float>(sample.milliseconds) / 8192.0f);
    }
}

Batch batch_of(const std::vector<Sample> &samples) {
    Batch batch;
    append(batch, samples);
    return batch;
}

Batch joined() {
    Batch batch;
    for (const std::vector<Sample> &samples : builders)
        append(batch, samples);
    return batch;
}

Model trained_once(Model model) {
    const Batch batch = joined();
    Work work(model);
    demand(model.train(batch.inputs, batch.targets, 1, rate, work).outcome, "train");
    return model;
}

// The scheduler asks first how many target values there will be: the gradients are those of a mean over all of them.
std::size_t total() {
    std::size_t values = 0;
    for (const std::vector<Sample> &samples : builders)
        values += samples.size(); // one target value each
    return values;
}

// What one builder does: it reads the model, and adds what its samples say to the gradients.
void gather(const Model &model, const std::vector<Sample> &samples, Gradients &gradients) {
    const Batch batch = batch_of(samples);
    Work work(model);
    demand(model.accumulate(batch.inputs, batch.targets, total(), gradients, work), "accumulate");
}

Model applied(Model model, const Gradients &gradients) {
    demand(model.apply(gradients, rate), "apply");
    return model;
}

// (a) The builders take turns with the same gradients, in a fixed order, and these are applied once.
Model in_turns(const Model &model) {
    Gradients gradients(model);
    for (const std::vector<Sample> &samples : builders)
        gather(model, samples, gradients);
    return applied(model, gradients);
}

// Each builder has gradients of its own: they may all work at the same time.
std::vector<Gradients> gathered_apart(const Model &model) {
    std::vector<Gradients> all(builders.size(), Gradients(model));
    for (std::size_t i = 0; i < builders.size(); ++i)
        gather(model, builders[i], all[i]);
    return all;
}

// (b) One after the other is applied.
Model applied_apart(Model model, const std::vector<Gradients> &all) {
    for (const Gradients &gradients : all)
        model = applied(model, gradients);
    return model;
}

// (c) They are added together, and the sums are applied once.
Model applied_sums(const Model &model, const std::vector<Gradients> &all) {
    Gradients sums(model);
    for (const Gradients &gradients : all)
        for (std::size_t i = 0; i < model.sizes().parameters; ++i)
            sums.numbers().data()[i] += gradients.numbers().data()[i];
    return applied(model, sums);
}

std::uint32_t bits(const Model &model, std::size_t place) {
    std::uint32_t word;
    std::memcpy(&word, model.parameters().data() + place, sizeof word);
    return word;
}

std::size_t differing(const Model &model, const Model &other) {
    std::size_t count = 0;
    for (std::size_t i = 0; i < model.sizes().parameters; ++i)
        count += bits(model, i) != bits(other, i);
    return count;
}

void print(const char *name, const Model &model, const Model &step) {
    std::printf("  %-34s", name);
    for (std::size_t place : shown)
        std::printf(" %08x", static_cast<unsigned>(bits(model, place)));
    std::printf("   %2zu of %zu differ\n", differing(model, step), model.sizes().parameters);
}

} // namespace

int main() {
    const Model model = Model::initialise({{2, 3, 1}, 4, 0.0f, 1.0f}, seed).value();
    const Model step = trained_once(model);
    const std::vector<Gradients> apart = gathered_apart(model);
    const Model turns = in_turns(model), smaller = applied_apart(model, apart), sums = applied_sums(model, apart);

    std::printf("%zu builders with %zu samples in all; the bits of parameters", builders.size(), total());
    for (std::size_t place : shown)
        std::printf(" %zu", place);
    std::printf("\n\n");
    print("before", model, step);
    print("one step on the joined batch", step, step);
    print("(a) in turns, applied once", turns, step);
    print("(b) apart, applied one by one", smaller, step);
    print("(c) apart, added, applied once", sums, step);

    if (differing(turns, step) != 0)
        stop("(a) is not one step on the joined batch");
    if (differing(smaller, step) == 0 || differing(sums, step) == 0)
        stop("(b) or (c) is one step on the joined batch, which these samples should not show");
    std::printf("\n(a) is one step on the joined batch, bit for bit.\n"
                "(b) is three smaller steps, the later ones with gradients of the model before the first.\n"
                "(c) is not the same as (a), since float addition does not associate.\n");
}
