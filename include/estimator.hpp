// estimator.hpp - the estimator for C++17: values and typed answers over estimator.h.
//
// Everything here is inline and only calls libestimator.a; what each call promises is in estimator.h. A refusal is a
// value, never an exception, and -fno-exceptions is fine. The standard library may throw std::bad_alloc where memory is
// allocated: in whatever makes or copies a Config, Model, Work or Gradients, in image(), npy(), visits(), message(),
// read_file and write_file, and in train() and accumulate() when a Work is used so with a model of this size for the
// first time. predict(), loss(), apply() and take_npy() are noexcept and allocate nothing; later calls of train() and
// accumulate() allocate nothing either.
//
//     using namespace estimator;
//     Result<Model> model = Model::initialise({{3, 6, 1}, 8, 0.0f, 1.0f}, 42);
//     if (!model) return complain(model.outcome().message());
//     Work work(*model);
//     Training training = model->train(inputs, targets, 1000, 0.1f, work);
//     Outcome outcome = model->predict(inputs, outputs, work);
//
// A Model may be read by many threads at a time; each needs a Work of its own. Builders that gather samples for a model
// read it too: they accumulate() into Gradients, and who trains the model applies these when no builder reads it.
#ifndef ESTIMATOR_HPP
#define ESTIMATOR_HPP

#include "estimator.h"

#include <cerrno>
#include <cstddef>
#include <cstdint>
#include <cstdio>
#include <cstdlib>
#include <memory>
#include <optional>
#include <string>
#include <sys/stat.h> // the archive is for Linux
#include <system_error>
#include <type_traits>
#include <unistd.h>
#include <utility>
#include <vector>
#include <xmmintrin.h> // on x86-64

namespace estimator {

// Why a call was refused, by the numbers of estimator.h.
enum class Reason : std::uint32_t {
    accepted = 0,
    widths = 1,
    width_product = 2,
    intervals = 3,
    domain = 4,
    layer_parameters = 5,
    total_parameters = 6,
    model_too_large = 7,
    model_length = 8,
    work_too_short = 9,
    output_length = 10,
    parameter_not_finite = 11,
    row_counts_differ = 12,
    no_rows = 13,
    input_width = 14,
    input_not_finite = 15,
    target_width = 16,
    target_not_finite = 17,
    too_many_targets = 18,
    learning_rate = 19,
    node_not_finite = 20,
    squared_error_not_finite = 21,
    error_sum_not_finite = 22,
    update_not_finite = 23,
    image_too_long = 24,
    image_version = 25,
    image_degree = 26,
    image_malformed = 27,
    stated_total = 28,
    npy_malformed = 29,
    npy_type_or_shape = 30,
    no_such_layer = 37,
};

namespace detail {

struct Wording {
    Reason reason;
    const char *text;
};

// One for each reason; the numbers have gaps.
inline constexpr Wording texts[] = {
    {Reason::accepted, "accepted"},
    {Reason::widths, "fewer than two widths, or a zero width"},
    {Reason::width_product, "a product of neighbouring widths is 2^64 or more"},
    {Reason::intervals, "grid intervals g is 0 or above 2^63 - 8"},
    {Reason::domain, "the domain does not define a finite, representable uniform grid with lo below hi"},
    {Reason::layer_parameters, "one layer's parameter count is 2^64 or more"},
    {Reason::total_parameters, "the running total's parameter count is 2^64 or more"},
    {Reason::model_too_large, "total above 250,000"},
    {Reason::model_length, "model slice length is not P"},
    {Reason::work_too_short, "work slice too short"},
    {Reason::output_length, "output or map length wrong"},
    {Reason::parameter_not_finite, "a parameter not finite"},
    {Reason::row_counts_differ, "row counts differ"},
    {Reason::no_rows, "no rows"},
    {Reason::input_width, "input row of wrong width"},
    {Reason::input_not_finite, "input not finite"},
    {Reason::target_width, "target row of wrong width"},
    {Reason::target_not_finite, "target not finite"},
    {Reason::too_many_targets, "more than 16,777,216 target values"},
    {Reason::learning_rate, "learning rate not finite or not above 0"},
    {Reason::node_not_finite, "a node value not finite"},
    {Reason::squared_error_not_finite, "squared error not finite"},
    {Reason::error_sum_not_finite, "sum of squared errors not finite"},
    {Reason::update_not_finite, "an updated parameter not finite"},
    {Reason::image_too_long, "image longer than 8,388,608 bytes"},
    {Reason::image_version, "image version not 1"},
    {Reason::image_degree, "degree not 3"},
    {Reason::image_malformed, "image malformed"},
    {Reason::stated_total, "the stated total of target values is 0 or above 16,777,216"},
    {Reason::npy_malformed, "NPY header or length malformed"},
    {Reason::npy_type_or_shape, "NPY file of another type, order or shape"},
    {Reason::no_such_layer, "no such layer"},
};

} // namespace detail

// A reason in words.
constexpr const char *words(Reason reason) noexcept {
    for (const detail::Wording &wording : detail::texts)
        if (wording.reason == reason)
            return wording.text;
    return "a reason that this header does not know";
}

// A batch as a call reads it: its rows, and the widths of the model's inputs and outputs.
struct BatchShape {
    std::size_t rows, input_width, output_width;
};

// Whether a call was accepted; if not, why, and what the refusal carries.
struct [[nodiscard]] Outcome {
    Reason reason = Reason::accepted;
    std::size_t carried = 0;
    bool carries_row = false;
    std::optional<BatchShape> batch; // where predict() is refused with output_length

    explicit operator bool() const noexcept { return reason == Reason::accepted; }
    std::uint32_t number() const noexcept { return static_cast<std::uint32_t>(reason); }

    // The refused row, counted from 0, where the refusal names one.
    std::optional<std::size_t> row() const noexcept {
        return carries_row ? std::optional<std::size_t>(carried) : std::nullopt;
    }

    // For people: "refused 15: input not finite (row 3)".
    std::string message() const {
        if (*this)
            return "accepted";
        std::string text = "refused " + std::to_string(number()) + ": " + words(reason);
        if (carries_row)
            return text + " (row " + std::to_string(carried) + ")";
        if (reason == Reason::model_too_large || reason == Reason::image_version)
            return text + " (" + std::to_string(carried) + ")";
        if (batch)
            return text + " (" + product(batch->rows, batch->input_width) + " inputs need " +
                   product(batch->rows, batch->output_width) + " outputs)";
        return text;
    }

  private:
    static std::string product(std::size_t a, std::size_t b) { return std::to_string(a) + " x " + std::to_string(b); }
};

// A value, or why there is none.
template <class T, class Why = Outcome>
class [[nodiscard]] Result {
  public:
    Result(T value) : held(std::move(value)) {}
    Result(Why refusal) : why(std::move(refusal)) {}

    explicit operator bool() const noexcept { return held.has_value(); }
    const Why &outcome() const noexcept { return why; }

    // The value. Asking for one that is not there is a mistake of the program: it prints the message to standard error
    // and aborts.
    T &value() & { return demand(), *held; }
    const T &value() const & { return demand(), *held; }
    T value() && { return demand(), std::move(*held); }
    T &operator*() & { return value(); }
    const T &operator*() const & { return value(); }
    T operator*() && { return std::move(*this).value(); }
    T *operator->() { return &value(); }
    const T *operator->() const { return &value(); }

  private:
    void demand() const {
        if (held)
            return;
        std::fprintf(stderr, "estimator: no value, %s\n", why.message().c_str());
        std::abort();
    }

    std::optional<T> held;
    Why why;
};

// While it lives, the thread rounds to nearest, keeps subnormals and has all floating-point traps masked, as
// estimator.h asks; then the thread's own settings are back. Every call below holds one: -ffast-math, feenableexcept
// and many games set others.
class ExactFloats {
  public:
    ExactFloats() noexcept : own(_mm_getcsr()) { _mm_setcsr(0x1f80); } // all traps masked, nothing else set
    ~ExactFloats() { _mm_setcsr(own); }
    ExactFloats(const ExactFloats &) = delete;
    ExactFloats &operator=(const ExactFloats &) = delete;

  private:
    unsigned own;
};

// Contiguous elements: a pointer and a size, or anything with data() and size(), such as std::vector, std::array and
// std::span.
template <class T>
class View {
  public:
    constexpr View() noexcept = default;

    // The pointer's type is deduced, so that {0, n}, which looks like two numbers, is not taken for a null pointer.
    template <class U, class = std::enable_if_t<std::is_convertible_v<U (*)[], T (*)[]>>>
    constexpr View(U *data, std::size_t size) noexcept : first(data), count(size) {}

    template <std::size_t size>
    constexpr View(T (&elements)[size]) noexcept : first(elements), count(size) {}

    template <class C,
              class = std::enable_if_t<
                  !std::is_same_v<std::decay_t<C>, View> &&
                  std::is_convertible_v<std::remove_pointer_t<decltype(std::declval<C &>().data())> (*)[], T (*)[]>>>
    constexpr View(C &&elements) noexcept : first(elements.data()), count(elements.size()) {}

    constexpr T *data() const noexcept { return first; }
    constexpr std::size_t size() const noexcept { return count; }
    constexpr T *begin() const noexcept { return first; }
    constexpr T *end() const noexcept { return first + count; }

  private:
    T *first = nullptr;
    std::size_t count = 0;
};

using Floats = View<const float>;
using Bytes = View<const std::uint8_t>;

constexpr std::size_t longest_image = 8388608;

// P, W and N of estimator.h.
struct Sizes {
    std::size_t parameters;
    std::size_t widest;
    std::size_t nodes;
};

// A network's shape: nodes of each layer, inputs first, and the grid of its splines.
struct Config {
    std::vector<std::size_t> widths;
    std::size_t intervals = 8;
    float lo = -1.0f;
    float hi = 1.0f;

    Result<Sizes> check() const {
        const ExactFloats exact;
        Sizes sizes{0, 0, 0};
        Outcome outcome;
        outcome.reason =
            Reason{kan_check(widths.data(), widths.size(), intervals, lo, hi, &sizes.parameters, &outcome.carried)};
        if (!outcome)
            return outcome;
        for (std::size_t width : widths) {
            sizes.widest = width > sizes.widest ? width : sizes.widest;
            sizes.nodes += width;
        }
        return sizes;
    }
};

class Model;

// The buffers that calls work in. One for each thread; any model that is no larger may use it.
class Work {
  public:
    explicit Work(const Model &model);

  private:
    friend class Model;

    std::vector<float> first, second;    // W each: prediction, loss, visits
    std::vector<float> gradients, nodes; // P and 2N: training, made when it is first asked for; accumulating has the 2N
};

// What batches have added up to for each parameter of a model, all +0.0 at first: a value, to be copied and moved as
// one. Builders may take turns with one of them, or each have its own. A model that has another number of parameters
// refuses them with output_length.
class Gradients {
  public:
    explicit Gradients(const Model &model);

    // All numbers, in the order of the parameters. Nothing that is written here is refused; see estimator.h.
    Floats numbers() const noexcept { return sums; }
    View<float> numbers() noexcept { return sums; }

    // All +0.0 again, for the next step. Applying does not do that.
    void clear() noexcept {
        for (float &sum : sums)
            sum = 0.0f;
    }

  private:
    std::vector<float> sums;
};

// How training ended, and after how many steps. Refused at a later step, the model keeps the steps done.
struct [[nodiscard]] Training {
    Outcome outcome;
    std::size_t done = 0;

    explicit operator bool() const noexcept { return static_cast<bool>(outcome); }
};

// A network and its parameters: a value, to be copied and moved as one.
class Model {
  public:
    // The starting parameters that belong to a seed.
    static Result<Model> initialise(Config config, std::uint64_t seed) {
        Result<Sizes> sizes = config.check();
        if (!sizes)
            return sizes.outcome();
        const ExactFloats exact;
        Model model(std::move(config), *sizes);
        const Config &c = model.shape;
        Outcome outcome;
        outcome.reason = Reason{kan_initialise(c.widths.data(), c.widths.size(), c.intervals, c.lo, c.hi, seed,
                                               model.numbers.data(), model.numbers.size(), &outcome.carried)};
        return outcome ? Result<Model>(std::move(model)) : outcome;
    }

    // The model that an image holds.
    static Result<Model> from_image(Bytes image) {
        const ExactFloats exact;
        Config config;
        std::size_t widths = 0;
        Sizes sizes{0, 0, 0};
        Outcome outcome;
        outcome.reason = Reason{kan_image_read(image.data(), image.size(), &config.intervals, &config.lo, &config.hi,
                                               &widths, &sizes.parameters, &outcome.carried)};
        if (!outcome)
            return outcome;
        config.widths.resize(widths);
        std::vector<float> parameters(sizes.parameters);
        outcome.reason = Reason{kan_image_unpack(image.data(), image.size(), config.widths.data(), widths,
                                                 parameters.data(), parameters.size(), &outcome.carried)};
        if (!outcome)
            return outcome;
        Result<Sizes> checked = config.check();
        if (!checked)
            return checked.outcome();
        Model model(std::move(config), *checked);
        model.numbers = std::move(parameters);
        return Result<Model>(std::move(model));
    }

    // The image of this model: what to store and to send.
    Result<std::vector<std::uint8_t>> image() const {
        const ExactFloats exact;
        std::vector<std::uint8_t> bytes(32 + 4 * shape.widths.size() + 4 * numbers.size());
        Outcome outcome;
        outcome.reason =
            Reason{kan_image_write(shape.widths.data(), shape.widths.size(), shape.intervals, shape.lo, shape.hi,
                                   numbers.data(), numbers.size(), bytes.data(), bytes.size(), &outcome.carried)};
        return outcome ? Result<std::vector<std::uint8_t>>(std::move(bytes)) : outcome;
    }

    // One layer's spline coefficients as an NPY file, NumPy's format: float32 of the shape (outputs, inputs, intervals
    // + 3). Layers are counted from 0, which reads the inputs. The weights are not in it.
    Result<std::vector<std::uint8_t>> npy(std::size_t layer) const {
        const ExactFloats exact;
        std::vector<std::uint8_t> bytes(npy_size(layer));
        Outcome outcome;
        outcome.reason =
            Reason{kan_npy_write(shape.widths.data(), shape.widths.size(), shape.intervals, shape.lo, shape.hi,
                                 numbers.data(), numbers.size(), layer, bytes.data(), bytes.size(), &outcome.carried)};
        return outcome ? Result<std::vector<std::uint8_t>>(std::move(bytes)) : outcome;
    }

    // Takes the layer's coefficients from such a file; its weights and all other layers stay. Refused, the model is as
    // before.
    Outcome take_npy(std::size_t layer, Bytes file) noexcept {
        const ExactFloats exact;
        Outcome outcome;
        outcome.reason =
            Reason{kan_npy_read(shape.widths.data(), shape.widths.size(), shape.intervals, shape.lo, shape.hi,
                                numbers.data(), numbers.size(), layer, file.data(), file.size(), &outcome.carried)};
        return outcome;
    }

    const Config &config() const noexcept { return shape; }
    const Sizes &sizes() const noexcept { return counts; }
    std::size_t input_width() const noexcept { return shape.widths.front(); }
    std::size_t output_width() const noexcept { return shape.widths.back(); }

    // All parameters in the order of estimator.h. Whatever is written here, a call checks it before use.
    Floats parameters() const noexcept { return numbers; }
    View<float> parameters() noexcept { return numbers; }

    // Predicts every row into outputs, rows * output width of them. Inputs that are not whole rows are refused with
    // input_width, even where the library finds output_length first; then no output is written.
    Outcome predict(Floats inputs, View<float> outputs, Work &work) const noexcept {
        const ExactFloats exact;
        Outcome outcome;
        outcome.reason = Reason{kan_predict(shape.widths.data(), shape.widths.size(), shape.intervals, shape.lo,
                                            shape.hi, numbers.data(), numbers.size(), inputs.data(), inputs.size(),
                                            work.first.data(), work.first.size(), work.second.data(),
                                            work.second.size(), outputs.data(), outputs.size(), &outcome.carried)};
        outcome.carries_row = names_row(outcome.reason);
        if (outcome.reason == Reason::output_length)
            explain_lengths(outcome, inputs.size());
        return outcome;
    }

    // The mean squared error over all rows and outputs. A batch that is not whole rows is refused with input_width or
    // target_width, even where the library finds row_counts_differ first; so it is in train() and accumulate().
    Result<float> loss(Floats inputs, Floats targets, Work &work) const noexcept {
        const ExactFloats exact;
        float error = 0.0f;
        Outcome outcome;
        outcome.reason = Reason{kan_loss(shape.widths.data(), shape.widths.size(), shape.intervals, shape.lo, shape.hi,
                                         numbers.data(), numbers.size(), inputs.data(), inputs.size(), targets.data(),
                                         targets.size(), work.first.data(), work.first.size(), work.second.data(),
                                         work.second.size(), &error, &outcome.carried)};
        if (outcome.reason == Reason::row_counts_differ)
            outcome.reason = short_row_or(outcome.reason, inputs.size(), targets.size());
        return outcome ? Result<float>(error) : outcome;
    }

    // This many steps of gradient descent on the batch.
    Training train(Floats inputs, Floats targets, std::size_t steps, float rate, Work &work) {
        const ExactFloats exact;
        work.gradients.resize(larger(work.gradients.size(), counts.parameters));
        work.nodes.resize(larger(work.nodes.size(), 2 * counts.nodes));
        Training training;
        training.outcome.reason =
            Reason{kan_train(shape.widths.data(), shape.widths.size(), shape.intervals, shape.lo, shape.hi,
                             numbers.data(), numbers.size(), inputs.data(), inputs.size(), targets.data(),
                             targets.size(), steps, rate, work.gradients.data(), work.gradients.size(),
                             work.nodes.data(), work.nodes.size(), &training.done, &training.outcome.carried)};
        if (training.outcome.reason == Reason::row_counts_differ)
            training.outcome.reason = short_row_or(training.outcome.reason, inputs.size(), targets.size());
        return training;
    }

    // Adds the batch's gradients to those gathered before. `total` is the number of target values of all batches that
    // are gathered for one step, this one too; it is the same in all their calls. Refused, the gradients are as before.
    //
    // One step on the joined batch, bit by bit, is: batches accumulated in order into the same Gradients, which began
    // all +0.0, on a model that nobody changes meanwhile, and applied once.
    Outcome accumulate(Floats inputs, Floats targets, std::size_t total, Gradients &gradients, Work &work) const {
        const ExactFloats exact;
        work.nodes.resize(larger(work.nodes.size(), 2 * counts.nodes));
        const View<float> sums = gradients.numbers();
        Outcome outcome;
        outcome.reason = Reason{kan_accumulate(shape.widths.data(), shape.widths.size(), shape.intervals, shape.lo,
                                               shape.hi, numbers.data(), numbers.size(), inputs.data(), inputs.size(),
                                               targets.data(), targets.size(), total, sums.data(), sums.size(),
                                               work.nodes.data(), work.nodes.size(), &outcome.carried)};
        if (outcome.reason == Reason::row_counts_differ)
            outcome.reason = short_row_or(outcome.reason, inputs.size(), targets.size());
        return outcome;
    }

    // Subtracts from each parameter this rate times its gradient. The gradients stay: clear() them for the next step.
    // Refused, the model is as before.
    Outcome apply(const Gradients &gradients, float rate) noexcept {
        const ExactFloats exact;
        const Floats sums = gradients.numbers();
        Outcome outcome;
        outcome.reason =
            Reason{kan_apply(shape.widths.data(), shape.widths.size(), shape.intervals, shape.lo, shape.hi,
                             numbers.data(), numbers.size(), sums.data(), sums.size(), rate, &outcome.carried)};
        return outcome;
    }

    // One byte for each parameter: 1 where the batch can feel it, a coefficient by its basis value or slope, else 0.
    // A coefficient that is 0 may be set to any finite number: predictions, the loss and, but for itself, one step
    // on these inputs stay the same.
    Result<std::vector<std::uint8_t>> visits(Floats inputs, Work &work) const {
        const ExactFloats exact;
        std::vector<std::uint8_t> map(numbers.size());
        Outcome outcome;
        outcome.reason = Reason{kan_visits(shape.widths.data(), shape.widths.size(), shape.intervals, shape.lo,
                                           shape.hi, numbers.data(), numbers.size(), inputs.data(), inputs.size(),
                                           work.first.data(), work.first.size(), work.second.data(), work.second.size(),
                                           map.data(), map.size(), &outcome.carried)};
        outcome.carries_row = names_row(outcome.reason);
        return outcome ? Result<std::vector<std::uint8_t>>(std::move(map)) : outcome;
    }

  private:
    Model(Config config, const Sizes &sizes) : shape(std::move(config)), counts(sizes), numbers(sizes.parameters) {}

    // The length of a layer's file; 0 for a layer that is not there, which the library refuses before it asks for one.
    std::size_t npy_size(std::size_t layer) const noexcept {
        const std::vector<std::size_t> &widths = shape.widths; // none after the model was moved away
        const bool is_there = widths.size() > 1 && layer < widths.size() - 1;
        return is_there ? 128 + 4 * widths[layer + 1] * widths[layer] * (shape.intervals + 3) : 0;
    }

    // Prediction and visits name the row of these refusals; no other call does.
    static bool names_row(Reason reason) noexcept {
        return reason == Reason::input_width || reason == Reason::input_not_finite || reason == Reason::node_not_finite;
    }

    // A wrong number of outputs is often the consequence of inputs that are not whole rows: then the short row is
    // named. Else the outcome says how many rows the inputs are.
    void explain_lengths(Outcome &outcome, std::size_t inputs) const noexcept {
        const std::size_t rows = inputs / input_width();
        if (inputs % input_width() == 0) {
            outcome.batch = BatchShape{rows, input_width(), output_width()};
            return;
        }
        outcome.reason = Reason::input_width;
        outcome.carried = rows;
        outcome.carries_row = true;
    }

    // The same of differing row counts. No row is named: loss and training name none.
    Reason short_row_or(Reason other, std::size_t inputs, std::size_t targets) const noexcept {
        if (inputs % input_width() != 0)
            return Reason::input_width;
        return targets % output_width() != 0 ? Reason::target_width : other;
    }

    static std::size_t larger(std::size_t a, std::size_t b) noexcept { return a < b ? b : a; }

    Config shape;
    Sizes counts;
    std::vector<float> numbers;
};

inline Work::Work(const Model &model) : first(model.sizes().widest), second(model.sizes().widest) {}
inline Gradients::Gradients(const Model &model) : sums(model.sizes().parameters) {}

// Bytes to and from a file, for convenience. These are no calls of the library, and their failures are no refusals.

// Whether a file was read or written; if not, what was tried, and the system's error number (errno).
struct [[nodiscard]] FileOutcome {
    int error = 0;
    std::string tried;

    explicit operator bool() const noexcept { return error == 0; }

    // For people: "could not read model.kan: No such file or directory".
    std::string message() const { return error == 0 ? "done" : tried + ": " + std::generic_category().message(error); }
};

namespace detail {

struct Close {
    void operator()(std::FILE *file) const noexcept { std::fclose(file); }
};
using File = std::unique_ptr<std::FILE, Close>;

inline int last_error() noexcept { return errno != 0 ? errno : EIO; }

// Creates a file beside another, under a name that no file has. None, and errno, where that cannot be done.
inline File create_beside(const char *path, std::string &name) {
    for (unsigned attempt = 0; attempt < 1000; ++attempt) {
        name = std::string(path) + "." + std::to_string(getpid()) + "-" + std::to_string(attempt) + ".new";
        File file(std::fopen(name.c_str(), "wbxe"));
        if (file || errno != EEXIST)
            return file;
    }
    return nullptr;
}

// Writes all bytes and waits until the disk has them. The error, 0 where there is none.
inline int fill(File file, Bytes bytes) {
    errno = 0;
    const std::size_t written = bytes.size() == 0 ? 0 : std::fwrite(bytes.data(), 1, bytes.size(), file.get());
    if (written != bytes.size() || std::fflush(file.get()) != 0 || fsync(fileno(file.get())) != 0)
        return last_error();
    return std::fclose(file.release()) == 0 ? 0 : last_error();
}

// What stands at a path and is no regular file is not to be replaced: a folder, a device.
inline int unfit(const char *path) noexcept {
    struct stat present;
    if (stat(path, &present) != 0 || S_ISREG(present.st_mode))
        return 0;
    return S_ISDIR(present.st_mode) ? EISDIR : EINVAL;
}

} // namespace detail

// Replaces a file as a whole: the bytes go to a new file beside it (PATH.PROCESS-NUMBER.new), which takes its name once
// it is on the disk. Who reads at the same time, or after a crash, finds the old bytes or the new ones, never a part;
// after a failure the old file is as it was. Permissions are those of a new file; a symbolic link is itself replaced.
inline FileOutcome write_file(const char *path, Bytes bytes) {
    const auto outcome = [path](int error) {
        return error == 0 ? FileOutcome{} : FileOutcome{error, std::string("could not write ") + path};
    };
    if (const int error = detail::unfit(path))
        return outcome(error);
    std::string name;
    detail::File file = detail::create_beside(path, name);
    if (!file)
        return outcome(detail::last_error());
    int error = detail::fill(std::move(file), bytes);
    if (error == 0 && std::rename(name.c_str(), path) != 0)
        error = detail::last_error();
    if (error != 0)
        std::remove(name.c_str());
    return outcome(error);
}

using FileBytes = Result<std::vector<std::uint8_t>, FileOutcome>;

// All bytes of a file; of one that is longer than any image, which no NPY file of a layer is, enough for its refusal.
inline FileBytes read_file(const char *path) {
    const auto failed = [path] { return FileOutcome{detail::last_error(), std::string("could not read ") + path}; };
    const detail::File file(std::fopen(path, "rbe"));
    if (!file)
        return failed();
    std::vector<std::uint8_t> bytes;
    std::uint8_t part[4096];
    std::size_t taken = 1;
    errno = 0;
    while (taken > 0 && bytes.size() <= longest_image) {
        taken = std::fread(part, 1, sizeof part, file.get());
        bytes.insert(bytes.end(), part, part + taken);
    }
    if (std::ferror(file.get()))
        return failed();
    return FileBytes(std::move(bytes));
}

} // namespace estimator

#endif // ESTIMATOR_HPP
