// Tries estimator.hpp: each refusal with its number and message, values as values, no allocation where none is
// promised, threads that share a model, unusual float settings, and files. Run plainly, under the sanitizers and under
// valgrind (run.sh).
#include <estimator.hpp>

#include <array>
#include <atomic>
#include <cmath>
#include <csignal>
#include <cstdio>
#include <cstdlib>
#include <cstring>
#include <fcntl.h>
#include <fenv.h>
#include <filesystem>
#include <limits>
#include <new>
#include <sys/resource.h>
#include <sys/wait.h>
#include <thread>
#if __cplusplus >= 202002L
#include <span>
#endif

using namespace estimator;

namespace {

std::atomic<unsigned long> allocations{0};
int tried = 0, failed = 0;

void expect(bool holds, const std::string &what) {
    ++tried;
    if (holds)
        return;
    ++failed;
    std::printf("failed: %s\n", what.c_str());
}

void expect_refused(const Outcome &outcome, unsigned number, std::size_t carried, const std::string &message) {
    const std::string own = outcome.message();
    expect(!outcome && outcome.number() == number && outcome.carried == carried,
           "refused " + std::to_string(number) + ", got " + own);
    expect(own == message, "message \"" + message + "\", got \"" + own + "\"");
}

const float infinite = std::numeric_limits<float>::infinity();
using Numbers = std::vector<float>;

// [1, 1] with two intervals: a base weight, a spline weight of 1, and coefficients of 0.
Model edge(float base_weight) {
    Model model = Model::initialise({{1, 1}, 2}, 0).value();
    for (float &parameter : model.parameters())
        parameter = 0.0f;
    model.parameters().data()[0] = base_weight;
    model.parameters().data()[1] = 1.0f;
    return model;
}

void configurations() {
    const std::size_t p30 = std::size_t{1} << 30, p31 = 2 * p30, p32 = 2 * p31;
    const auto refused = [](Config config, unsigned number, std::size_t carried, const char *message) {
        expect_refused(config.check().outcome(), number, carried, message);
        expect_refused(Model::initialise(config, 0).outcome(), number, carried, message);
    };
    refused({{1}, 1}, 1, 0, "refused 1: fewer than two widths, or a zero width");
    refused({{p32, p32}, 1}, 2, 0, "refused 2: a product of neighbouring widths is 2^64 or more");
    refused({{1, 1}, 0}, 3, 0, "refused 3: grid intervals g is 0 or above 2^63 - 8");
    refused({{1, 1}, 2, 1.0f, 1.0f}, 4, 0,
            "refused 4: the domain does not define a finite, representable uniform grid with lo below hi");
    refused({{p31, p31}, 1}, 5, 0, "refused 5: one layer's parameter count is 2^64 or more");
    refused({{p31, p30, p31, p31}, 1}, 6, 0, "refused 6: the running total's parameter count is 2^64 or more");
    refused({{1, 1}, 249996}, 7, 250001, "refused 7: total above 250,000 (250001)");
    const Sizes sizes = Config{{2, 3, 1}, 2}.check().value();
    expect(sizes.parameters == 63 && sizes.widest == 3 && sizes.nodes == 6, "sizes of [2, 3, 1]");
}

void predictions() {
    Model model = edge(0.0f);
    Work work(model);
    Numbers outputs(2, 5.0f);
    expect(static_cast<bool>(model.predict({}, {}, work)), "no rows");
    expect_refused(model.predict(Numbers{0}, outputs, work), 10, 0,
                   "refused 10: output or map length wrong (1 x 1 inputs need 1 x 1 outputs)");
    expect_refused(model.predict(Numbers{0, NAN}, outputs, work), 15, 1, "refused 15: input not finite (row 1)");
    expect(outputs[0] == 0.0f && outputs[1] == 5.0f, "the row before the refused one is written");
    expect_refused(edge(3e38f).predict(Numbers{100, 0}, outputs, work), 20, 0,
                   "refused 20: a node value not finite (row 0)");
    const Model wide = Model::initialise({{2, 1}, 2}, 7).value();
    expect_refused(wide.predict(Numbers{0, 0}, {outputs.data(), 1}, work), 9, 0, "refused 9: work slice too short");
    Work enough(wide);
    expect_refused(wide.predict(Numbers{0, 0, 0}, outputs, enough), 14, 1,
                   "refused 14: input row of wrong width (row 1)");
    model.parameters().data()[6] = infinite;
    expect_refused(model.predict(Numbers{0, 0}, outputs, work), 11, 0, "refused 11: a parameter not finite");
}

// Batches that were made for a network of another width: the library would call them 10 and 12.
void widths() {
    const Model model = Model::initialise({{3, 2}, 2}, 7).value();
    Model trained = model;
    Work work(model);
    Numbers outputs(6, 5.0f);
    expect_refused(model.predict(Numbers(4), {outputs.data(), 2}, work), 14, 1,
                   "refused 14: input row of wrong width (row 1)");
    expect(outputs[0] == 5.0f, "no output of a batch of wrong width is written");
    expect_refused(model.predict(Numbers(6), outputs, work), 10, 0,
                   "refused 10: output or map length wrong (2 x 3 inputs need 2 x 2 outputs)");
    expect_refused(model.predict({}, outputs, work), 10, 0,
                   "refused 10: output or map length wrong (0 x 3 inputs need 0 x 2 outputs)");
    Gradients gradients(model);
    const auto refused = [&](std::size_t inputs, std::size_t targets, unsigned number, const char *message) {
        expect_refused(model.loss(Numbers(inputs), Numbers(targets), work).outcome(), number, 0, message);
        expect_refused(trained.train(Numbers(inputs), Numbers(targets), 1, 0.1f, work).outcome, number, 0, message);
        expect_refused(model.accumulate(Numbers(inputs), Numbers(targets), 1, gradients, work), number, 0, message);
    };
    refused(4, 2, 14, "refused 14: input row of wrong width");
    refused(6, 1, 16, "refused 16: target row of wrong width");
    refused(6, 2, 12, "refused 12: row counts differ");
}

void losses() {
    const auto refused = [](const Model &model, Numbers inputs, Numbers targets, unsigned number, const char *message) {
        Work work(model);
        expect_refused(model.loss(inputs, targets, work).outcome(), number, 0, message);
    };
    const Model model = edge(0.0f), fan = Model::initialise({{1, 2}, 2}, 0).value();
    Work work(model);
    expect(model.loss(Numbers{0}, Numbers{1}, work).value() == 1.0f, "loss of the settled example");
    refused(model, {0}, {0, 0}, 12, "refused 12: row counts differ");
    refused(model, {}, {}, 13, "refused 13: no rows");
    refused(model, {NAN}, {0}, 15, "refused 15: input not finite");
    refused(fan, {0, 0}, {0, 0, 0}, 16, "refused 16: target row of wrong width");
    refused(model, {0}, {NAN}, 17, "refused 17: target not finite");
    refused(edge(1e18f), {100}, {0}, 21, "refused 21: squared error not finite");
    refused(edge(1.4e17f), {100, 100}, {0, 0}, 22, "refused 22: sum of squared errors not finite");
}

void trainings() {
    Model model = edge(0.0f);
    Work work(model);
    expect_refused(model.train(Numbers{0}, Numbers{1}, 0, 0.0f, work).outcome, 19, 0,
                   "refused 19: learning rate not finite or not above 0");
    Model diverging = model;
    const Training training = diverging.train(Numbers{0}, Numbers{1}, 10, 1e10f, work);
    expect_refused(training.outcome, 20, 0, "refused 20: a node value not finite");
    expect(training.done == 2, "two steps were done before the refused one");
    Model steep = edge(1e38f);
    expect_refused(steep.train(Numbers{0.5f}, Numbers{-3e38f}, 1, 10.0f, work).outcome, 23, 0,
                   "refused 23: an updated parameter not finite");
    Model copy = model;
    expect(copy.train(Numbers{0}, Numbers{1}, 1, 0.5f, work).done == 1, "one step");
    const std::array<float, 7> before{0, 1, 0, 0, 0, 0, 0}, after{0, 1, 0, 1 / 6.0f, 4 / 6.0f, 1 / 6.0f, 0};
    expect(std::memcmp(model.parameters().data(), before.data(), sizeof before) == 0, "a copy is trained alone");
    expect(std::memcmp(copy.parameters().data(), after.data(), sizeof after) == 0, "the settled step");
}

using Bits = std::vector<std::uint32_t>;

Bits bits(Floats numbers) {
    Bits words(numbers.size());
    if (!words.empty())
        std::memcpy(words.data(), numbers.data(), sizeof(float) * words.size());
    return words;
}

// The settled batches, one after the other and then applied.
void gatherings() {
    Model model = edge(0.0f);
    Work work(model);
    Gradients gradients(model);
    expect(bits(gradients.numbers()) == Bits(7), "gradients are +0.0 at first");
    expect(static_cast<bool>(model.accumulate(Numbers{0}, Numbers{1}, 2, gradients, work)), "the first batch");
    expect(bits(gradients.numbers()) == Bits{0, 0, 0, 0xBE2AAAAB, 0xBF2AAAAB, 0xBE2AAAAB, 0}, "its gradients");
    expect(static_cast<bool>(model.accumulate(Numbers{0.5f}, Numbers{-1}, 2, gradients, work)), "the second batch");
    const Bits both{0x3E9F597F, 0, 0, 0xBE155556, 0xBE400002, 0x3EA00000, 0x3CAAAAAB};
    expect(bits(gradients.numbers()) == both, "the gradients of both");
    Model joined = model;
    expect(joined.train(Numbers{0, 0.5f}, Numbers{1, -1}, 1, 0.5f, work).done == 1, "one step on both");
    expect(static_cast<bool>(model.apply(gradients, 0.5f)), "applied");
    expect(bits(model.parameters()) == bits(joined.parameters()), "applied once, they are one step on both");
    expect(bits(gradients.numbers()) == both, "applying leaves the gradients");
    Gradients copy = gradients;
    gradients.clear();
    expect(bits(gradients.numbers()) == Bits(7) && bits(copy.numbers()) == both, "cleared, but not the copy");
    for (float &number : gradients.numbers())
        number = -0.0f;
    gradients.clear();
    expect(bits(gradients.numbers()) == Bits(7), "-0.0 is cleared too");
}

void refused_gatherings() {
    Model model = edge(0.0f);
    Work work(model);
    Gradients gradients(model), other(Model::initialise({{1, 1}, 3}, 0).value());
    const auto refused = [&](const Model &by, Numbers inputs, Numbers targets, std::size_t total, unsigned number,
                             const char *message) {
        for (float &sum : gradients.numbers())
            sum = 5.0f;
        expect_refused(by.accumulate(inputs, targets, total, gradients, work), number, 0, message);
        expect(bits(gradients.numbers()) == Bits(7, 0x40A00000), "refused, the gradients are as before");
    };
    const char *stated = "refused 28: the stated total of target values is 0 or above 16,777,216";
    refused(model, {0}, {1}, 0, 28, stated);
    refused(model, {0}, {1}, 16777217, 28, stated);
    refused(model, {0}, {1, 2}, 3, 12, "refused 12: row counts differ");
    refused(model, {}, {}, 1, 13, "refused 13: no rows");
    refused(model, {NAN}, {1}, 1, 15, "refused 15: input not finite");
    refused(model, {0}, {NAN}, 1, 17, "refused 17: target not finite");
    refused(edge(1e38f), {0.5f, 100}, {0, 0}, 2, 20, "refused 20: a node value not finite");
    expect_refused(model.accumulate(Numbers{0}, Numbers{1}, 1, other, work), 10, 0,
                   "refused 10: output or map length wrong");
    expect(static_cast<bool>(model.accumulate(Numbers{0, 0}, Numbers{1, 1}, 1, gradients, work)), "any total");
}

void refused_applications() {
    Model model = edge(0.0f);
    const Bits before = bits(model.parameters());
    Gradients gradients(model), other(Model::initialise({{1, 1}, 3}, 0).value());
    expect_refused(model.apply(other, 0.0f), 10, 0, "refused 10: output or map length wrong");
    gradients.numbers().data()[6] = NAN;
    expect_refused(model.apply(gradients, 0.0f), 19, 0, "refused 19: learning rate not finite or not above 0");
    expect_refused(model.apply(gradients, 1.0f), 23, 0, "refused 23: an updated parameter not finite");
    expect(bits(model.parameters()) == before, "refused, the model is as before");
    model.parameters().data()[0] = infinite;
    expect_refused(model.apply(gradients, 0.0f), 11, 0, "refused 11: a parameter not finite");
    Work work(model);
    expect_refused(model.accumulate(Numbers{0}, Numbers{1}, 1, gradients, work), 11, 0,
                   "refused 11: a parameter not finite");
}

void maps() {
    const Model model = edge(0.0f);
    Work work(model);
    expect(model.visits(Numbers{0}, work).value() == std::vector<std::uint8_t>{1, 1, 0, 1, 1, 1, 0}, "map at 0");
    expect_refused(model.visits(Numbers{0, NAN}, work).outcome(), 15, 1, "refused 15: input not finite (row 1)");
}

// [1, 1, 1] with two intervals. At 1 the second edge reads a number so close to a knot that the basis value of the last
// coefficient is 0 and its slope is not; of the edge's first coefficient, at 9, both are 0.
Model beside_a_knot(std::size_t place, float parameter) {
    const std::array<float, 14> parameters{2e-16f, 1, 0, 0, 0, 0, 0, 0.5f, 1, 0, 0, 0, 0, 0};
    Model model = Model::initialise({{1, 1, 1}, 2}, 0).value();
    std::memcpy(model.parameters().data(), parameters.data(), sizeof parameters);
    model.parameters().data()[place] = parameter;
    return model;
}

std::vector<std::uint8_t> map_at_1(const Model &model) {
    Work work(model);
    return model.visits(Numbers{1}, work).value();
}

// The bits of all parameters after a step.
std::array<std::uint32_t, 14> stepped_at_1(Model model) {
    Work work(model);
    expect(model.train(Numbers{1}, Numbers{1}, 1, 0.5f, work).done == 1, "one step beside a knot");
    std::array<std::uint32_t, 14> bits;
    std::memcpy(bits.data(), model.parameters().data(), sizeof bits);
    return bits;
}

// Coefficients are edited: one that the map marks may change a step, one that it does not mark only changes itself.
void edits() {
    const Model model = beside_a_knot(13, 0), marked = beside_a_knot(13, 1e38f), unmarked = beside_a_knot(9, 1e38f);
    const std::vector<std::uint8_t> map{1, 1, 0, 0, 1, 1, 1, 1, 1, 0, 1, 1, 1, 1};
    expect(map_at_1(model) == map && map_at_1(marked) == map, "a coefficient is marked by its slope");
    auto step = stepped_at_1(model);
    expect(step[0] == 0x3E3B26A8 && stepped_at_1(marked)[0] == 0x493EC6FD, "edited, it changes the step");
    step[9] = 0x7E967699; // 1e38
    expect(map_at_1(unmarked) == map, "an unmarked coefficient, edited, leaves the map as it is");
    expect(stepped_at_1(unmarked) == step, "and the step but for itself");
}

void images() {
    Model model = Model::initialise({{2, 3, 1}, 2, -0.0f, 1.0f}, 7).value();
    const std::vector<std::uint8_t> image = model.image().value();
    const Model loaded = Model::from_image(image).value();
    expect(loaded.image().value() == image, "an image comes back bit by bit");
    expect(loaded.config().widths == model.config().widths && loaded.config().intervals == 2 &&
               std::memcmp(&loaded.config().lo, &model.config().lo, sizeof(float)) == 0 && loaded.config().hi == 1.0f,
           "its configuration too");
    const auto refused = [&](std::size_t place, std::uint8_t byte, unsigned number, std::size_t carried,
                             const char *message) {
        std::vector<std::uint8_t> other = image;
        other[other.size() - place] = byte;
        expect_refused(Model::from_image(other).outcome(), number, carried, message);
    };
    refused(4, 2, 25, 2, "refused 25: image version not 1 (2)");
    refused(8, 2, 26, 0, "refused 26: degree not 3");
    refused(28, 0, 27, 0, "refused 27: image malformed");
    expect_refused(Model::from_image({}).outcome(), 27, 0, "refused 27: image malformed");
    expect_refused(Model::from_image(std::vector<std::uint8_t>(8388609)).outcome(), 24, 0,
                   "refused 24: image longer than 8,388,608 bytes");
    model.parameters().data()[0] = NAN;
    expect_refused(model.image().outcome(), 11, 0, "refused 11: a parameter not finite");
}

using ByteList = std::vector<std::uint8_t>;

// An NPY file of [1, 1] with two intervals: this header, and its five numbers.
ByteList npy_file(const std::string &dictionary, std::array<float, 5> numbers) {
    const std::string text = dictionary + "\n";
    ByteList file{0x93, 'N', 'U', 'M', 'P', 'Y', 1, 0};
    file.push_back(static_cast<std::uint8_t>(text.size()));
    file.push_back(0);
    file.insert(file.end(), text.begin(), text.end());
    file.resize(file.size() + sizeof numbers);
    std::memcpy(file.data() + file.size() - sizeof numbers, numbers.data(), sizeof numbers);
    return file;
}

const std::string plain_dictionary = "{'descr': '<f4', 'fortran_order': False, 'shape': (1, 1, 5), }";

void npys() {
    Model model = edge(0.5f);
    const std::string padded = plain_dictionary + std::string(55, ' ');
    expect(model.npy(0).value() == npy_file(padded, {}), "the settled file of 148 bytes");
    const std::array<float, 7> taken{0.5f, 1, 1.5f, -0.0f, 3, 4, 1e-40f};
    const ByteList file =
        npy_file(R"({"shape":(1,1,5),"descr":"<f4","fortran_order":False})", {1.5f, -0.0f, 3, 4, 1e-40f});
    expect(static_cast<bool>(model.take_npy(0, file)), "another header of the same kind");
    expect(bits(model.parameters()) == bits(taken), "coefficients are taken bit by bit, and the weights stay");
    Model copy = edge(0.5f);
    expect(copy.take_npy(0, model.npy(0).value()) && bits(copy.parameters()) == bits(taken), "written and taken");
}

// Two layers of [2, 3, 1]: each file has its own layer's coefficients, and changes no others.
void npy_layers() {
    const Model model = Model::initialise({{2, 3, 1}, 3}, 7).value();
    const Bits numbers = bits(model.parameters());
    const ByteList first = model.npy(0).value(), second = model.npy(1).value();
    expect(first.size() == 128 + 4 * 36 && second.size() == 128 + 4 * 18, "lengths of both layers");
    Model zero = model;
    for (float &parameter : zero.parameters())
        parameter = 0.0f;
    expect(static_cast<bool>(zero.take_npy(1, second)), "the second layer");
    Bits expected(numbers.size());
    for (std::size_t edge = 6; edge < 9; ++edge)
        for (std::size_t k = 2; k < 8; ++k)
            expected[8 * edge + k] = numbers[8 * edge + k];
    expect(bits(zero.parameters()) == expected, "its coefficients alone are taken");
    expect(zero.take_npy(0, first) && zero.npy(0).value() == first && zero.npy(1).value() == second, "and the first");
    expect_refused(zero.take_npy(0, second), 30, 0, "refused 30: NPY file of another type, order or shape");
    expect(zero.npy(0).value() == first, "refused, the model is as before");
}

void refused_npys() {
    Model model = edge(0.5f);
    const Bits before = bits(model.parameters());
    const char *malformed = "refused 29: NPY header or length malformed";
    const char *other = "refused 30: NPY file of another type, order or shape";
    const auto refused = [&](std::size_t layer, const ByteList &file, unsigned number, const char *message) {
        expect_refused(model.take_npy(layer, file), number, 0, message);
        expect(bits(model.parameters()) == before, "refused, the model is as before");
    };
    const ByteList good = npy_file(plain_dictionary, {1, 2, 3, 4, 5});
    refused(0, {}, 29, malformed);
    refused(0, npy_file("{'descr': '<f4', 'fortran_order': False, 'shape': (1, 1, 05), }", {}), 29, malformed);
    refused(0, {good.begin(), good.end() - 1}, 29, malformed);
    refused(0, npy_file("{'descr': '>f4', 'fortran_order': False, 'shape': (1, 1, 5), }", {}), 30, other);
    refused(0, npy_file("{'descr': '<f4', 'fortran_order': True, 'shape': (1, 1, 5), }", {}), 30, other);
    refused(0, npy_file(plain_dictionary, {0, 0, 0, 0, infinite}), 11, "refused 11: a parameter not finite");
    refused(1, {}, 37, "refused 37: no such layer");
    const std::size_t largest = std::numeric_limits<std::size_t>::max();
    for (const std::size_t layer : {std::size_t{1}, largest - 1, largest}) {
        expect_refused(model.take_npy(layer, good), 37, 0, "refused 37: no such layer");
        expect_refused(model.npy(layer).outcome(), 37, 0, "refused 37: no such layer");
    }
    model.parameters().data()[3] = NAN;
    expect_refused(model.npy(0).outcome(), 11, 0, "refused 11: a parameter not finite");
    expect_refused(model.take_npy(0, good), 11, 0, "refused 11: a parameter not finite");
    const Model taken = std::move(model); // what is left has no widths
    expect_refused(model.npy(0).outcome(), 1, 0, "refused 1: fewer than two widths, or a zero width");
}

// Numbers of the table have their words, and those between and beyond them none.
void reasons() {
    static_assert(words(Reason::no_such_layer)[0] == 'n', "words at compile time");
    const std::string unknown = "a reason that this header does not know";
    for (const std::uint32_t number : {31u, 36u, 38u, 4294967295u})
        expect(words(Reason{number}) == unknown, "no words for " + std::to_string(number));
    for (std::uint32_t number = 0; number <= 30; ++number)
        expect(words(Reason{number}) != unknown, "words for " + std::to_string(number));
    Outcome outcome;
    outcome.reason = Reason{33};
    expect(outcome.message() == "refused 33: " + unknown, "a number that the header does not know");
}

void allocation() {
    Model model = Model::initialise({{3, 4, 1}, 5}, 1).value();
    Work work(model);
    const Numbers inputs(30, 0.25f), targets(10, 0.5f);
    Numbers outputs(10);
    Gradients gradients(model);
    const ByteList file = model.npy(0).value();
    expect(static_cast<bool>(model.train(inputs, targets, 1, 0.1f, work)), "the first step");
    const unsigned long before = allocations;
    const Outcome predicted = model.predict(inputs, outputs, work);
    const Result<float> loss = model.loss(inputs, targets, work);
    const Training training = model.train(inputs, targets, 1, 0.1f, work);
    const Outcome gathered = model.accumulate(inputs, targets, 10, gradients, work);
    const Outcome applied = model.apply(gradients, 0.1f);
    gradients.clear();
    const Outcome taken = model.take_npy(0, file);
    const unsigned long after = allocations;
    expect(predicted && loss && training && gathered && applied && taken,
           "predict, loss, train, accumulate, apply and take_npy");
    expect(after == before, "predict, loss, train, accumulate, apply and take_npy allocate nothing");
    static_assert(noexcept(model.apply(gradients, 0.1f)) &&noexcept(gradients.clear()), "nor do they throw");
    static_assert(noexcept(model.take_npy(0, file)), "nor does this one");
}

void threads() {
    const Model model = Model::initialise({{3, 4, 1}, 5}, 1).value();
    const Numbers inputs(3000, 0.25f);
    std::array<Numbers, 4> outputs;
    std::array<std::thread, 4> threads;
    for (std::size_t i = 0; i < threads.size(); ++i)
        threads[i] = std::thread([&, i] {
            Work work(model);
            outputs[i].resize(1000);
            (void)model.predict(inputs, outputs[i], work);
        });
    for (std::thread &thread : threads)
        thread.join();
    for (const Numbers &own : outputs)
        expect(own == outputs[0] && own[0] != 0.0f, "threads that share a model agree");
}

// Builders that share a model, each with gradients of its own.
void building_threads() {
    const Model model = Model::initialise({{3, 4, 1}, 5}, 1).value();
    const Numbers inputs(300, 0.25f), targets(100, 0.5f);
    std::vector<Gradients> gathered(4, Gradients(model));
    std::vector<std::thread> threads;
    for (Gradients &own : gathered)
        threads.emplace_back([&model, &inputs, &targets, &own] {
            Work work(model);
            for (int batch = 0; batch < 5; ++batch)
                (void)model.accumulate(inputs, targets, 500, own, work);
        });
    for (std::thread &thread : threads)
        thread.join();
    for (const Gradients &own : gathered)
        expect(bits(own.numbers()) == bits(gathered[0].numbers()) && own.numbers().data()[0] != 0.0f,
               "builders that share a model gather the same");
}

// A thread that flushes subnormals to zero and rounds up gets the same bits, and keeps its settings.
void float_settings() {
    const Config tiny{{1, 1}, 1, 0.0f, 1e-40f};
    Model model = Model::initialise({{3, 4, 1}, 5}, 1).value(), other = model;
    Work work(model);
    const Numbers inputs(30, 0.3f), targets(10, 0.7f);
    Gradients sums(model), unusual_sums(model);
    expect(static_cast<bool>(model.train(inputs, targets, 5, 0.1f, work)), "training under usual settings");
    const unsigned usual = _mm_getcsr(), unusual = 0xdfc0; // flush, denormals are zero, round up
    std::size_t parameters = 0, carried = 0;
    _mm_setcsr(unusual);
    const std::uint32_t bare =
        kan_check(tiny.widths.data(), 2, tiny.intervals, tiny.lo, tiny.hi, &parameters, &carried);
    const bool guarded = static_cast<bool>(tiny.check());
    const Training training = other.train(inputs, targets, 5, 0.1f, work);
    const Outcome gathered = other.accumulate(inputs, targets, 10, unusual_sums, work);
    const Outcome applied = other.apply(unusual_sums, 0.1f);
    const unsigned after = _mm_getcsr();
    _mm_setcsr(usual);
    expect(bare == 4 && guarded, "a domain of subnormals: refused by the bare call, accepted by the header's");
    expect(model.accumulate(inputs, targets, 10, sums, work) && model.apply(sums, 0.1f), "and in two calls");
    expect(training && gathered && applied && other.image().value() == model.image().value() &&
               bits(sums.numbers()) == bits(unusual_sums.numbers()),
           "training under other settings has the same bits");
    expect((after & ~0x3fu) == (unusual & ~0x3fu), "the thread's settings are back");
}

// Under traps for everything that a float can do: what each call answers, and its bits.
std::vector<std::uint8_t> all_calls(Outcome &overflow) {
    const Numbers inputs(30, 0.3f), targets(10, 0.7f);
    Numbers outputs(10);
    Model model = Model::initialise({{3, 4, 1}, 5}, 1).value(), steep = edge(3e38f);
    Work work(model);
    Gradients gradients(model);
    std::vector<std::uint8_t> bytes;
    const bool accepted = model.train(inputs, targets, 5, 0.1f, work) && model.predict(inputs, outputs, work) &&
                          model.loss(inputs, targets, work) && model.visits(inputs, work) &&
                          model.accumulate(inputs, targets, 10, gradients, work) && model.apply(gradients, 0.1f) &&
                          model.take_npy(1, model.npy(1).value());
    overflow = steep.predict(Numbers{100}, {outputs.data(), 1}, work);
    return accepted ? Model::from_image(model.image().value()).value().image().value() : bytes;
}

// Whether a bare call under the same traps ends in SIGFPE, which shows that the traps are set.
bool bare_call_traps() {
    const pid_t child = fork();
    if (child == 0) {
        std::signal(SIGFPE, [](int) { _exit(42); });
        const std::size_t widths[] = {1, 1};
        std::size_t parameters = 0, carried = 0;
        feenableexcept(FE_ALL_EXCEPT);
        (void)kan_check(widths, 2, 3, 0.0f, 1.0f, &parameters, &carried); // 1 / 3 is inexact
        _exit(0);
    }
    int status = 0;
    return waitpid(child, &status, 0) == child && WIFEXITED(status) && WEXITSTATUS(status) == 42;
}

void float_traps() {
    Outcome usual_overflow, overflow;
    const std::vector<std::uint8_t> usual = all_calls(usual_overflow);
    feenableexcept(FE_ALL_EXCEPT);
    const std::vector<std::uint8_t> trapped = all_calls(overflow);
    const int after = fegetexcept();
    fedisableexcept(FE_ALL_EXCEPT);
    expect(bare_call_traps(), "a bare call under traps ends in SIGFPE");
    expect(!usual.empty() && trapped == usual, "all calls under traps have the same bits");
    expect_refused(overflow, 20, 0, "refused 20: a node value not finite (row 0)");
    expect(after == FE_ALL_EXCEPT, "the thread's traps are back");
}

// A folder of its own under TMPDIR, removed at the end.
struct Folder {
    Folder() {
        std::string pattern = (std::filesystem::temp_directory_path() / "estimator-XXXXXX").string();
        if (!mkdtemp(pattern.data()))
            std::abort();
        path = pattern;
    }
    ~Folder() { std::filesystem::remove_all(path); }
    std::string file(const char *name) const { return (path / name).string(); }
    long entries() const {
        return std::distance(std::filesystem::directory_iterator(path), std::filesystem::directory_iterator());
    }

    std::filesystem::path path;
};

void files() {
    const Folder folder;
    const std::string path = folder.file("model.kan"), other = folder.file("other"), missing = folder.file("missing");
    const ByteList old_bytes(100, 1), new_bytes(20000, 2);
    expect(write_file(path.c_str(), old_bytes) && read_file(path.c_str()).value() == old_bytes, "written and read");
    expect(write_file(other.c_str(), {}) && read_file(other.c_str()).value().empty(), "an empty file");

    const FileBytes none = read_file(missing.c_str());
    expect(!none && none.outcome().error == ENOENT &&
               none.outcome().message() == "could not read " + missing + ": No such file or directory",
           "a missing file, got " + none.outcome().message());
    expect(read_file(folder.path.c_str()).outcome().error == EISDIR, "a folder is not read");
    expect(write_file(folder.path.c_str(), old_bytes).error == EISDIR, "a folder is not replaced");
    expect(write_file("/dev/null", old_bytes).error == EINVAL && std::filesystem::is_character_file("/dev/null"),
           "a device is not replaced");
    expect(write_file(folder.file("none/model").c_str(), old_bytes).message() ==
               "could not write " + folder.file("none/model") + ": No such file or directory",
           "no folder to write to");

    // A second name of the old file keeps the old bytes: it was replaced, not written over.
    std::filesystem::remove(other);
    std::filesystem::create_hard_link(path, other);
    expect(write_file(path.c_str(), new_bytes) && read_file(path.c_str()).value() == new_bytes &&
               read_file(other.c_str()).value() == old_bytes,
           "a file is replaced as a whole");
    expect(folder.entries() == 2, "no file is left over");
}

// A disk that is full, by a limit on what a file may hold: the old file stays, and nothing else.
void full_disk() {
    const Folder folder;
    const std::string path = folder.file("model.kan");
    const ByteList old_bytes(100, 1), new_bytes(20000, 2);
    expect(static_cast<bool>(write_file(path.c_str(), old_bytes)), "written before the disk is full");
    rlimit usual, small{4096, 0};
    getrlimit(RLIMIT_FSIZE, &usual);
    small.rlim_max = usual.rlim_max;
    std::signal(SIGXFSZ, SIG_IGN);
    setrlimit(RLIMIT_FSIZE, &small);
    const FileOutcome outcome = write_file(path.c_str(), new_bytes);
    setrlimit(RLIMIT_FSIZE, &usual);
    expect(outcome.error == EFBIG, "a full disk, got " + outcome.message());
    expect(read_file(path.c_str()).value() == old_bytes, "the old file is as it was");
    expect(folder.entries() == 1, "no part of the new one is left");
}

// Whether value() of what is not there ends the program with the message, and throws nothing.
void no_value() {
    const Folder folder;
    const std::string path = folder.file("missing"), log = folder.file("log");
    const pid_t child = fork();
    if (child == 0) {
        const rlimit none{0, 0};
        setrlimit(RLIMIT_CORE, &none);
        if (dup2(open(log.c_str(), O_WRONLY | O_CREAT, 0600), STDERR_FILENO) == STDERR_FILENO)
            (void)read_file(path.c_str()).value();
        _exit(0);
    }
    int status = 0;
    const bool aborted = waitpid(child, &status, 0) == child && WIFSIGNALED(status) && WTERMSIG(status) == SIGABRT;
    const ByteList bytes = read_file(log.c_str()).value();
    const std::string said(bytes.begin(), bytes.end());
    const std::string expected = "estimator: no value, could not read " + path + ": No such file or directory\n";
    expect(aborted && said == expected, "value() of a missing file, got " + said);
}

// Everything that a batch may be given as.
void views() {
    const Model model = edge(1.0f);
    Work work(model);
    const float array[] = {0.5f};
    const std::array<float, 1> standard{0.5f};
    float answer[1], same = 0;
    expect(static_cast<bool>(model.predict(array, answer, work)), "arrays");
    expect(static_cast<bool>(model.predict(standard, {&same, 1}, work)) && same == answer[0],
           "std::array, pointer and size");
#if __cplusplus >= 202002L
    expect(static_cast<bool>(model.predict(std::span<const float>(array), std::span<float>(&same, 1), work)),
           "std::span");
#endif
}

} // namespace

// Not inlined: else the compiler sees free() beside new and warns.
[[gnu::noinline]] void *operator new(std::size_t size) {
    ++allocations;
    if (void *memory = std::malloc(size))
        return memory;
    std::abort();
}
[[gnu::noinline]] void operator delete(void *memory) noexcept { std::free(memory); }
[[gnu::noinline]] void operator delete(void *memory, std::size_t) noexcept { std::free(memory); }

// `header_test emulated`: on an emulated processor that knows no float settings, as valgrind's.
int main(int count, char **) {
    no_value(); // before there are threads, whose memory valgrind would miss in the process that ends here
    configurations();
    predictions();
    widths();
    losses();
    trainings();
    gatherings();
    refused_gatherings();
    refused_applications();
    maps();
    edits();
    images();
    npys();
    npy_layers();
    refused_npys();
    reasons();
    allocation();
    threads();
    building_threads();
    if (count == 1) {
        float_settings();
        float_traps();
    }
    views();
    files();
    full_disk();
    std::printf("estimator.hpp: %d tried, %d failed\n", tried, failed);
    return failed == 0 ? 0 : 1;
}
