// A scheduler in small: learns compile times from a list of source files, keeps the model as an image, and picks by
// each file's predicted time the shard that its object is stored in. Usage: scheduler FILES.csv MODEL.kan
#include <estimator.hpp>

#include <cstdio>
#include <cstdlib>

#include "source_files.hpp"

using estimator::Model;
using estimator::Work;

namespace {

constexpr std::uint64_t seed = 2026;
constexpr std::size_t rounds = 8, steps_per_round = 125;
constexpr float rate = 0.3f;
constexpr float longest = 32.0f; // seconds that count as 1

[[noreturn]] void stop(const std::string &why) {
    std::fprintf(stderr, "scheduler: %s\n", why.c_str());
    std::exit(1);
}

template <class T, class Why>
T value(estimator::Result<T, Why> result, const char *doing) {
    if (!result)
        stop(std::string(doing) + ": " + result.outcome().message());
    return *std::move(result);
}

struct Batch {
    std::vector<float> inputs, targets;
};

// Features between 0 and 1. Every divisor is a power of two: such a division is exact, so no compiler or option can
// give it other bits. A logarithm's last bit differs between machines.
Batch batch_of(const std::vector<SourceFile> &files) {
    Batch batch;
    for (const SourceFile &file : files) {
        batch.inputs.push_back(static_cast<float>(file.bytes) / 131072.0f);
        batch.inputs.push_back(static_cast<float>(file.includes) / 256.0f);
        batch.inputs.push_back(static_cast<float>(file.templates) / 256.0f);
        batch.targets.push_back(file.seconds / longest);
    }
    return batch;
}

// From the seed to a trained model's image; tells its progress where it is asked to.
std::vector<std::uint8_t> learn(const Batch &batch, bool tells) {
    Model model = value(Model::initialise({{3, 4, 1}, 5, -0.5f, 1.5f}, seed), "initialise");
    Work work(model);
    for (std::size_t round = 0; round <= rounds; ++round) {
        if (tells)
            std::printf("  step %5zu   loss %.6f\n", round * steps_per_round,
                        value(model.loss(batch.inputs, batch.targets, work), "loss"));
        const std::size_t steps = round < rounds ? steps_per_round : 0;
        const estimator::Training training = model.train(batch.inputs, batch.targets, steps, rate, work);
        if (!training)
            stop("train: " + training.outcome.message() + " after " + std::to_string(training.done) + " steps");
    }
    return value(model.image(), "image");
}

// Shards hold objects of alike cost. A prediction that differs in its last bit may lie on the other side of a bound:
// then the object is looked up where it is not stored, and is compiled again.
unsigned shard_of(float seconds) {
    unsigned shard = 0;
    for (float bound : {1.0f, 2.0f, 4.0f, 6.0f, 9.0f, 13.0f, 18.0f})
        shard += seconds >= bound;
    return shard;
}

void print_shards(const std::vector<SourceFile> &files, const std::vector<float> &predicted) {
    std::printf("\n  %-38s %6s %9s %6s\n", "file", "past", "predicted", "shard");
    for (std::size_t i = 0; i < files.size(); ++i) {
        const float seconds = predicted[i] * longest;
        std::printf("  %-38s %5.1fs %8.1fs %6u\n", files[i].name.c_str(), files[i].seconds, seconds, shard_of(seconds));
    }
}

} // namespace

int main(int count, char **arguments) {
    if (count != 3)
        stop("usage: scheduler FILES.csv MODEL.kan");
    const std::vector<SourceFile> files = read_source_files(arguments[1]);
    if (files.empty())
        stop(std::string("no list of files in ") + arguments[1]);
    const Batch batch = batch_of(files);

    std::printf("learning from %zu files\n", files.size());
    const std::vector<std::uint8_t> image = learn(batch, true);
    if (const estimator::FileOutcome written = estimator::write_file(arguments[2], image); !written)
        stop(written.message());

    const std::vector<std::uint8_t> stored = value(estimator::read_file(arguments[2]), "load");
    const Model model = value(Model::from_image(stored), "load");
    Work work(model);
    std::vector<float> predicted(files.size());
    if (const estimator::Outcome outcome = model.predict(batch.inputs, predicted, work); !outcome)
        stop("predict: " + outcome.message());
    print_shards(files, predicted);

    std::printf("\n%s: %zu bytes, %zu parameters\n", arguments[2], image.size(), model.sizes().parameters);
    if (learn(batch, false) != image)
        stop("a second run reached other bits");
    std::printf("a second run reached the same bits\n");
}
