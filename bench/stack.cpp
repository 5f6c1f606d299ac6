// The peak stack of each call: a thread's stack is painted before the call and scanned after it. Prints Markdown: of
// chosen networks, or the largest of so many drawn ones, `stack COUNT`, where a call that takes more than estimator.h
// promises makes it fail.
#include <estimator.h>

#include <algorithm>
#include <cmath>
#include <cstdint>
#include <cstdio>
#include <cstdlib>
#include <numeric>
#include <pthread.h>
#include <vector>

namespace {

constexpr size_t rows = 4;

// A network, a batch, and all buffers that its calls ask for.
struct Network {
    std::vector<size_t> widths;
    size_t g;
    float lo, hi;
    size_t parameters = 0, carried = 0, done = 0;
    float loss_found = 0, lo_read = 0, hi_read = 0;
    std::vector<float> model, inputs, targets, outputs, first, second, gradients, nodes;
    std::vector<uint8_t> map, bytes, npy;

    Network(std::vector<size_t> shape, size_t intervals, float low, float high)
        : widths(std::move(shape)), g(intervals), lo(low), hi(high) {
        check();
        for (auto *buffer : {&model, &gradients})
            buffer->resize(parameters);
        for (auto *buffer : {&first, &second})
            buffer->resize(*std::max_element(widths.begin(), widths.end()));
        nodes.resize(2 * std::accumulate(widths.begin(), widths.end(), size_t{0}));
        inputs.assign(rows * widths.front(), 0.25f);
        targets.assign(rows * widths.back(), 0.5f);
        outputs = targets;
        map.resize(parameters);
        bytes.resize(32 + 4 * widths.size() + 4 * parameters);
        npy.resize(128 + 4 * widths[0] * widths[1] * (g + 3));
    }

    uint32_t check() { return kan_check(widths.data(), widths.size(), g, lo, hi, &parameters, &carried); }

    uint32_t initialise() {
        return kan_initialise(widths.data(), widths.size(), g, lo, hi, 1, model.data(), model.size(), &carried);
    }

    uint32_t predict() {
        return kan_predict(widths.data(), widths.size(), g, lo, hi, model.data(), model.size(), inputs.data(),
                           inputs.size(), first.data(), first.size(), second.data(), second.size(), outputs.data(),
                           outputs.size(), &carried);
    }

    uint32_t loss() {
        return kan_loss(widths.data(), widths.size(), g, lo, hi, model.data(), model.size(), inputs.data(),
                        inputs.size(), targets.data(), targets.size(), first.data(), first.size(), second.data(),
                        second.size(), &loss_found, &carried);
    }

    uint32_t train_step() {
        return kan_train_step(widths.data(), widths.size(), g, lo, hi, model.data(), model.size(), inputs.data(),
                              inputs.size(), targets.data(), targets.size(), 0.01f, gradients.data(), gradients.size(),
                              nodes.data(), nodes.size(), &carried);
    }

    uint32_t train() {
        return kan_train(widths.data(), widths.size(), g, lo, hi, model.data(), model.size(), inputs.data(),
                         inputs.size(), targets.data(), targets.size(), 2, 0.01f, gradients.data(), gradients.size(),
                         nodes.data(), nodes.size(), &done, &carried);
    }

    uint32_t accumulate() {
        return kan_accumulate(widths.data(), widths.size(), g, lo, hi, model.data(), model.size(), inputs.data(),
                              inputs.size(), targets.data(), targets.size(), targets.size(), gradients.data(),
                              gradients.size(), nodes.data(), nodes.size(), &carried);
    }

    uint32_t apply() {
        return kan_apply(widths.data(), widths.size(), g, lo, hi, model.data(), model.size(), gradients.data(),
                         gradients.size(), 0.01f, &carried);
    }

    uint32_t visits() {
        return kan_visits(widths.data(), widths.size(), g, lo, hi, model.data(), model.size(), inputs.data(),
                          inputs.size(), first.data(), first.size(), second.data(), second.size(), map.data(),
                          map.size(), &carried);
    }

    uint32_t image_write() {
        return kan_image_write(widths.data(), widths.size(), g, lo, hi, model.data(), model.size(), bytes.data(),
                               bytes.size(), &carried);
    }

    uint32_t image_read() {
        size_t count;
        return kan_image_read(bytes.data(), bytes.size(), &g, &lo_read, &hi_read, &count, &parameters, &carried);
    }

    uint32_t image_unpack() {
        return kan_image_unpack(bytes.data(), bytes.size(), widths.data(), widths.size(), model.data(), model.size(),
                                &carried);
    }

    uint32_t npy_write() {
        return kan_npy_write(widths.data(), widths.size(), g, lo, hi, model.data(), model.size(), 0, npy.data(),
                             npy.size(), &carried);
    }

    uint32_t npy_read() {
        return kan_npy_read(widths.data(), widths.size(), g, lo, hi, model.data(), model.size(), 0, npy.data(),
                            npy.size(), &carried);
    }
};

struct Call {
    const char *name;
    uint32_t (Network::*made)();
};

constexpr Call calls[] = {
    {"check", &Network::check},
    {"initialise", &Network::initialise},
    {"predict", &Network::predict},
    {"loss", &Network::loss},
    {"train_step", &Network::train_step},
    {"train", &Network::train},
    {"accumulate", &Network::accumulate},
    {"apply", &Network::apply},
    {"visits", &Network::visits},
    {"image_write", &Network::image_write},
    {"image_read", &Network::image_read}, // of what image_write wrote
    {"image_unpack", &Network::image_unpack},
    {"npy_write", &Network::npy_write},
    {"npy_read", &Network::npy_read},
};

constexpr size_t words = 1 << 13; // 64 KiB
constexpr uint64_t paint = 0x9e3779b97f4a7c15;
alignas(4096) uint64_t stack[words];

struct Errand {
    Network &network;
    const Call &call;
    uint32_t refusal;
    const uint64_t *start;
};

struct Taken {
    size_t bytes; // below the frame from which the call is made
    uint32_t refusal;
};

void *run(void *argument) {
    Errand &errand = *static_cast<Errand *>(argument);
    errand.start = static_cast<const uint64_t *>(__builtin_frame_address(0));
    errand.refusal = (errand.network.*errand.call.made)();
    return nullptr;
}

Taken taken_by(Network &network, const Call &call) {
    std::fill(stack, stack + words, paint);
    Errand errand{network, call, 0, nullptr};
    pthread_attr_t attributes;
    pthread_t thread;
    const bool made = pthread_attr_init(&attributes) == 0 &&
                      pthread_attr_setstack(&attributes, stack, sizeof stack) == 0 &&
                      pthread_create(&thread, &attributes, run, &errand) == 0 && pthread_join(thread, nullptr) == 0;
    if (!made) {
        std::fprintf(stderr, "stack: no thread for %s\n", call.name);
        std::exit(1);
    }
    const uint64_t *lowest = std::find_if(stack, stack + words, [](uint64_t word) { return word != paint; });
    return {sizeof(uint64_t) * static_cast<size_t>(errand.start - lowest), errand.refusal};
}

size_t taken_if_accepted(Network &network, const Call &call) {
    const Taken taken = taken_by(network, call);
    if (taken.refusal != 0) {
        std::fprintf(stderr, "stack: %s refused with %u\n", call.name, taken.refusal);
        std::exit(1);
    }
    return taken.bytes;
}

void print_row(Network &network) {
    std::printf("| [");
    for (size_t i = 0; i < network.widths.size(); ++i)
        std::printf("%s%zu", i ? ", " : "", network.widths[i]);
    std::printf("] | %zu | [%g, %g] |", network.g, static_cast<double>(network.lo), static_cast<double>(network.hi));
    for (const Call &call : calls)
        std::printf(" %zu |", taken_if_accepted(network, call));
    std::printf("\n");
}

void print_table(const char *title, std::vector<Network> networks) {
    std::printf("\n%s\n\n| shape | g | domain |", title);
    for (const Call &call : calls)
        std::printf(" %s |", call.name);
    std::printf("\n|---|---|---|");
    for (size_t i = 0; i < std::size(calls); ++i)
        std::printf("---|");
    std::printf("\n");
    for (Network &network : networks)
        print_row(network);
}

// SplitMix64.
struct Draws {
    uint64_t state;

    uint64_t word() {
        uint64_t z = state += 0x9e3779b97f4a7c15;
        z = (z ^ (z >> 30)) * 0xbf58476d1ce4e5b9;
        z = (z ^ (z >> 27)) * 0x94d049bb133111eb;
        return z ^ (z >> 31);
    }

    size_t below(size_t count) { return word() % count; }
    float between(float low, float high) { return low + (high - low) * static_cast<float>(word() >> 40) * 0x1p-24f; }
};

// Every second domain is about as wide as a domain can be: there the knots span more than the largest float, some of
// them are infinite, or check 4 refuses it.
Network drawn_network(Draws &draws) {
    constexpr size_t grids[] = {1, 2, 3, 5, 16, 32, 100};
    const size_t intervals = grids[draws.below(std::size(grids))];
    std::vector<size_t> shape(2 + draws.below(3));
    for (size_t &width : shape)
        width = 1 + draws.below(6);
    const float g = static_cast<float>(intervals);
    const float widest = std::min(1.7e38f, 3.4e38f / (g + 6) * g);
    const float usual = std::ldexp(1.0f, static_cast<int>(draws.below(80)) - 40);
    const float end = draws.below(2) ? draws.between(0.45f, 1.05f) * widest : usual;
    return {shape, intervals, draws.below(4) ? -end : 0.0f, end};
}

float drawn_number(Draws &draws, const Network &network) {
    const float step = (network.hi - network.lo) / static_cast<float>(network.g);
    switch (draws.below(12)) {
    case 0:
        return -0.0f;
    case 1:
        return 1e-40f;
    case 2: // a knot
        return network.lo + static_cast<float>(draws.below(network.g + 7)) * step;
    case 3:
        return draws.between(-1.2f, 1.2f) * network.hi;
    case 4: // few, else nothing would be accepted
        return draws.below(200) ? 0.25f : draws.below(2) ? 3e38f : INFINITY;
    default:
        return draws.between(-1.2f, 1.2f);
    }
}

// All that a call reads. An image and a file stay those that were written, now and then with a byte changed.
void draw_numbers(Network &network, Draws &draws) {
    for (auto *buffer : {&network.model, &network.inputs, &network.targets, &network.gradients})
        for (float &number : *buffer)
            number = drawn_number(draws, network);
    for (auto *file : {&network.bytes, &network.npy})
        if (draws.below(8) == 0)
            (*file)[draws.below(file->size())] = static_cast<uint8_t>(draws.word());
}

bool print_drawn(size_t count) {
    size_t most[std::size(calls)] = {}, accepted[std::size(calls)] = {};
    Draws draws{1};
    for (size_t turn = 0; turn < count; ++turn) {
        Network network = drawn_network(draws);
        for (size_t i = 0; i < std::size(calls); ++i) {
            draw_numbers(network, draws);
            const Taken taken = taken_by(network, calls[i]);
            most[i] = std::max(most[i], taken.bytes);
            accepted[i] += taken.refusal == 0;
        }
    }
    std::printf("\nPeak stack of a call in bytes, the largest of %zu drawn\n\n| call | bytes | accepted | refused |\n"
                "|---|---|---|---|\n",
                count);
    for (size_t i = 0; i < std::size(calls); ++i)
        std::printf("| %s | %zu | %zu | %zu |\n", calls[i].name, most[i], accepted[i], count - accepted[i]);
    return *std::max_element(std::begin(most), std::end(most)) <= ESTIMATOR_STACK_BYTES;
}

} // namespace

int main(int count, char **arguments) {
    if (count > 1)
        return print_drawn(std::strtoul(arguments[1], nullptr, 10)) ? 0 : 1;
    const std::vector<Network> usual = {
        {{1, 1}, 5, -1.0f, 1.0f},
        {{8, 16, 1}, 5, -1.0f, 1.0f},
        {{8, 16, 1}, 256, -1.0f, 1.0f},
        {{4, 8, 8, 1}, 64, -1.0f, 1.0f},
    };
    // Each knot is finite, else every input between the knots would be refused; the span from first to last is not.
    const std::vector<Network> wide = {
        {{1, 1}, 1, 0.0f, 8e37f},
        {{8, 16, 1}, 5, -9e37f, 9e37f},
        {{8, 16, 1}, 256, -1.67e38f, 1.67e38f},
    };
    print_table("Peak stack of a call in bytes", usual);
    print_table("Peak stack of a call in bytes, knots that span more than the largest float", wide);
}
