// The fast algorithm written by hand, not proved: four basis values for each input and SiLU once for each input, with
// the bits of docs/RULES.md. Only for grids whose knots span a finite range; on others a value outside the four may be
// no zero.
#include "handwritten.h"

#include <algorithm>
#include <array>
#include <cmath>
#include <cstring>

namespace {

bool finite(float x) { return std::fabs(x) <= 3.40282347e38f; }

bool all_finite(const float *numbers, size_t count) { return std::all_of(numbers, numbers + count, finite); }

// E's table: T[i] is 2^(30 + i/256) rounded down.
std::array<uint64_t, 256> make_table() {
    std::array<uint64_t, 256> table;
    for (int i = 0; i < 256; ++i)
        table[i] = static_cast<uint64_t>(exp2l(30.0L + i / 256.0L));
    return table;
}

const std::array<uint64_t, 256> table = make_table();

// product * 2^scale to the nearest float, ties to even, subnormals kept.
float nearest(uint64_t product, int scale) {
    const int length = 64 - __builtin_clzll(product);
    const int step = std::max(length + scale - 24, -149);
    const int dropped = step - scale;
    if (dropped > 64)
        return 0.0f;
    const uint64_t kept = dropped == 64 ? 0 : product >> dropped;
    const uint64_t rest = dropped == 64 ? product : product & ((uint64_t{1} << dropped) - 1);
    const uint64_t half = uint64_t{1} << (dropped - 1);
    const bool up = rest > half || (rest == half && kept % 2 == 1);
    const uint64_t bits = (static_cast<uint64_t>(step + 149) << 23) + kept + up;
    const uint32_t word = static_cast<uint32_t>(std::min<uint64_t>(bits, 0x7f800000));
    float x;
    std::memcpy(&x, &word, sizeof x);
    return x;
}

// E, the exponential.
float exponential(float x) {
    if (x >= 89.0f)
        return HUGE_VALF;
    if (x <= -104.0f)
        return 0.0f;
    const int64_t scaled = static_cast<int64_t>(x * 67108864.0f);
    const __int128 q = static_cast<__int128>(scaled) * 1549082005;
    const int k = static_cast<int>(q >> 56);
    const unsigned i = static_cast<unsigned>(static_cast<uint64_t>(q) >> 48) % 256;
    const uint64_t f = (static_cast<uint64_t>(q) & 0xffffffffffff) >> 16;
    const uint64_t a = (f * 2977044472) >> 32;
    const uint64_t g = ((uint64_t{1} << 40) + a + (a * a >> 41)) >> 8;
    return nearest(table[i] * g, k - 62);
}

struct Grid {
    size_t intervals;
    float lo, hi, width;

    Grid(size_t g, float low, float high)
        : intervals(g), lo(low), hi(high), width((high - low) / static_cast<float>(g)) {}

    float knot(ptrdiff_t i) const { return lo + static_cast<float>(i - 3) * width; }
    size_t coefficients() const { return intervals + 3; }
};

// What one input comes to: the basis functions that are not zero there are begin to end.
struct Reading {
    size_t begin = 0, end = 0;
    float silu, silu_slope;
    std::array<float, 4> values{}, slopes{};
};

float part(float numerator, float denominator) { return denominator == 0.0f ? 0.0f : numerator / denominator; }

// The knot interval that holds x, where there is one.
ptrdiff_t interval_of(const Grid &grid, float x) {
    const ptrdiff_t last = static_cast<ptrdiff_t>(grid.intervals) + 5;
    if (x < grid.knot(0) || x >= grid.knot(last + 1))
        return -1;
    const float guess = (x - grid.lo) / grid.width + 3.0f;
    ptrdiff_t m = std::clamp(static_cast<ptrdiff_t>(guess), ptrdiff_t{0}, last);
    while (x < grid.knot(m))
        --m;
    while (x >= grid.knot(m + 1))
        ++m;
    return m;
}

// Cox-de Boor on the eight knots around x; place j of degree d stands for the basis function m - 3 + j.
Reading read(const Grid &grid, float x, bool with_slopes) {
    Reading reading;
    const float sum = 1.0f + exponential(-x);
    reading.silu = x / sum;
    const float sigmoid = 1.0f / sum;
    reading.silu_slope = sigmoid * (1.0f + x * (1.0f - sigmoid));
    const ptrdiff_t m = interval_of(grid, x);
    if (m < 0)
        return reading;
    std::array<float, 8> knots;
    for (ptrdiff_t j = 0; j < 8; ++j)
        knots[j] = grid.knot(m - 3 + j);
    std::array<float, 5> lower{0, 0, 0, 1, 0};
    for (int degree = 1; degree <= 2; ++degree)
        for (int j = 3 - degree; j <= 3; ++j)
            lower[j] = part((x - knots[j]) * lower[j], knots[j + degree] - knots[j]) +
                       part((knots[j + degree + 1] - x) * lower[j + 1], knots[j + degree + 1] - knots[j + 1]);
    std::array<float, 4> values, slopes{};
    for (int j = 0; j <= 3; ++j) {
        const float left = knots[j + 3] - knots[j], right = knots[j + 4] - knots[j + 1];
        values[j] = part((x - knots[j]) * lower[j], left) + part((knots[j + 4] - x) * lower[j + 1], right);
        if (with_slopes)
            slopes[j] = part(3.0f * lower[j], left) - part(3.0f * lower[j + 1], right);
    }
    const ptrdiff_t begin = std::max<ptrdiff_t>(m - 3, 0);
    const ptrdiff_t end = std::min<ptrdiff_t>(m + 1, static_cast<ptrdiff_t>(grid.coefficients()));
    reading.begin = static_cast<size_t>(begin);
    reading.end = static_cast<size_t>(end);
    for (ptrdiff_t i = begin; i < end; ++i) {
        reading.values[i - begin] = values[i - (m - 3)];
        reading.slopes[i - begin] = slopes[i - (m - 3)];
    }
    return reading;
}

float dot(const float *coefficients, const Reading &reading, const std::array<float, 4> &numbers) {
    float sum = 0.0f;
    for (size_t i = reading.begin; i < reading.end; ++i)
        sum += coefficients[i] * numbers[i - reading.begin];
    return sum;
}

// One layer's nodes from the nodes before it.
void forward(const Grid &grid, const float *layer, const float *in, size_t ins, float *out, size_t outs) {
    const size_t per_edge = grid.intervals + 5;
    std::fill(out, out + outs, 0.0f);
    for (size_t i = 0; i < ins; ++i) {
        const Reading reading = read(grid, in[i], false);
        for (size_t o = 0; o < outs; ++o) {
            const float *edge = layer + (o * ins + i) * per_edge;
            out[o] += edge[0] * reading.silu + edge[1] * dot(edge + 2, reading, reading.values);
        }
    }
}

// What the gradients hold before a row is added. Where they began +0.0 and are tested in the end, zeros need not be
// added, and one that is not finite may become any other such number. Where they may hold anything, adding +0.0 to -0.0
// makes a difference, and an infinity is no NaN.
enum class Start { zero, any };

// What one edge adds to the gradients of its coefficients.
template <Start start>
void add_coefficients(const Grid &grid, float *gradient, const Reading &reading, float scaled) {
    if (start == Start::any) {
        for (size_t c = 0; c < grid.coefficients(); ++c)
            gradient[c] += scaled * (c >= reading.begin && c < reading.end ? reading.values[c - reading.begin] : 0.0f);
    } else if (finite(scaled)) {
        for (size_t c = reading.begin; c < reading.end; ++c)
            gradient[c] += scaled * reading.values[c - reading.begin];
    } else { // not finite times zero is no zero
        for (size_t c = 0; c < grid.coefficients(); ++c)
            gradient[c] = scaled - scaled;
    }
}

// What one edge adds: to its own gradients, and (answered) to that of the node it reads.
template <Start start>
float add_edge(const Grid &grid, const float *edge, float *gradient, const Reading &reading, float upstream) {
    gradient[0] += upstream * reading.silu;
    gradient[1] += upstream * dot(edge + 2, reading, reading.values);
    add_coefficients<start>(grid, gradient + 2, reading, upstream * edge[1]);
    return upstream * (edge[0] * reading.silu_slope + edge[1] * dot(edge + 2, reading, reading.slopes));
}

// Adds one row's gradients of a layer, and writes those of the nodes before it.
template <Start start>
void backward(const Grid &grid, const float *layer, float *gradients, const float *in, float *in_gradients, size_t ins,
              const float *out_gradients, size_t outs) {
    const size_t per_edge = grid.intervals + 5;
    for (size_t i = 0; i < ins; ++i) {
        const Reading reading = read(grid, in[i], true);
        float sum = 0.0f;
        for (size_t o = 0; o < outs; ++o) {
            const size_t at = (o * ins + i) * per_edge;
            sum += add_edge<start>(grid, layer + at, gradients + at, reading, out_gradients[o]);
        }
        in_gradients[i] = sum;
    }
}

// A network's shape and what it comes to.
struct Shape {
    const size_t *widths;
    size_t layers, per_edge, parameters = 0, nodes = 0;

    Shape(const size_t *all, size_t count, size_t intervals) : widths(all), layers(count - 1), per_edge(intervals + 5) {
        for (size_t l = 0; l < layers; ++l)
            parameters += layer_parameters(l);
        for (size_t l = 0; l <= layers; ++l)
            nodes += widths[l];
    }

    size_t layer_parameters(size_t l) const { return widths[l] * widths[l + 1] * per_edge; }
    size_t ins() const { return widths[0]; }
    size_t outs() const { return widths[layers]; }
};

// All nodes of one row, layer after layer; whether they are finite.
bool run_row(const Grid &grid, const Shape &shape, const float *model, const float *input, float *nodes) {
    std::copy(input, input + shape.ins(), nodes);
    for (size_t l = 0; l < shape.layers; ++l) {
        float *next = nodes + shape.widths[l];
        forward(grid, model, nodes, shape.widths[l], next, shape.widths[l + 1]);
        if (!all_finite(next, shape.widths[l + 1]))
            return false;
        model += shape.layer_parameters(l);
        nodes = next;
    }
    return true;
}

// Adds one row's gradients, from the last layer back to the first.
template <Start start>
void add_row(const Grid &grid, const Shape &shape, const float *model, const float *target, float scale,
             float *gradients, const float *nodes, float *node_gradients) {
    size_t node = shape.nodes - shape.outs(), at = shape.parameters;
    for (size_t o = 0; o < shape.outs(); ++o)
        node_gradients[node + o] = scale * (nodes[node + o] - target[o]);
    for (size_t l = shape.layers; l-- > 0;) {
        const float *upstream = node_gradients + node;
        node -= shape.widths[l];
        at -= shape.layer_parameters(l);
        backward<start>(grid, model + at, gradients + at, nodes + node, node_gradients + node, shape.widths[l],
                        upstream, shape.widths[l + 1]);
    }
}

// Tests all updated parameters before it stores any.
bool update(float *model, const float *gradients, size_t count, float rate) {
    for (size_t p = 0; p < count; ++p)
        if (!finite(model[p] - rate * gradients[p]))
            return false;
    for (size_t p = 0; p < count; ++p)
        model[p] -= rate * gradients[p];
    return true;
}

} // namespace

uint32_t hand_predict(const size_t *widths, size_t widths_len, size_t intervals, float lo, float hi, const float *model,
                      const float *inputs, size_t rows, float *first, float *second, float *outputs) {
    const Grid grid(intervals, lo, hi);
    const Shape shape(widths, widths_len, intervals);
    if (!all_finite(model, shape.parameters))
        return 11;
    for (size_t row = 0; row < rows; ++row) {
        const float *from = inputs + row * shape.ins(), *layer = model;
        if (!all_finite(from, shape.ins()))
            return 15;
        for (size_t l = 0; l < shape.layers; ++l) {
            float *to = l % 2 == 0 ? first : second;
            forward(grid, layer, from, widths[l], to, widths[l + 1]);
            if (!all_finite(to, widths[l + 1]))
                return 20;
            layer += shape.layer_parameters(l);
            from = to;
        }
        std::copy(from, from + shape.outs(), outputs + row * shape.outs());
    }
    return 0;
}

uint32_t hand_train_step(const size_t *widths, size_t widths_len, size_t intervals, float lo, float hi, float *model,
                         const float *inputs, const float *targets, size_t rows, float rate, float *gradients,
                         float *work) {
    const Grid grid(intervals, lo, hi);
    const Shape shape(widths, widths_len, intervals);
    if (!all_finite(model, shape.parameters))
        return 11;
    if (!all_finite(inputs, rows * shape.ins()))
        return 15;
    if (!all_finite(targets, rows * shape.outs()))
        return 17;
    std::fill(gradients, gradients + shape.parameters, 0.0f);
    const float scale = 2.0f / static_cast<float>(rows * shape.outs());
    for (size_t row = 0; row < rows; ++row) {
        if (!run_row(grid, shape, model, inputs + row * shape.ins(), work))
            return 20;
        add_row<Start::zero>(grid, shape, model, targets + row * shape.outs(), scale, gradients, work,
                             work + shape.nodes);
    }
    if (!update(model, gradients, shape.parameters, rate))
        return 23;
    std::fill(gradients, gradients + shape.parameters, 0.0f);
    std::fill(work, work + 2 * shape.nodes, 0.0f);
    return 0;
}

uint32_t hand_accumulate(const size_t *widths, size_t widths_len, size_t intervals, float lo, float hi,
                         const float *model, const float *inputs, const float *targets, size_t rows, size_t total,
                         float *gradients, float *work) {
    const Grid grid(intervals, lo, hi);
    const Shape shape(widths, widths_len, intervals);
    if (!all_finite(model, shape.parameters))
        return 11;
    if (!all_finite(inputs, rows * shape.ins()))
        return 15;
    if (!all_finite(targets, rows * shape.outs()))
        return 17;
    if (total == 0 || total > 16777216)
        return 28;
    for (size_t row = 0; row < rows; ++row)
        if (!run_row(grid, shape, model, inputs + row * shape.ins(), work))
            return 20;
    const float scale = 2.0f / static_cast<float>(total);
    for (size_t row = 0; row < rows; ++row) {
        run_row(grid, shape, model, inputs + row * shape.ins(), work);
        add_row<Start::any>(grid, shape, model, targets + row * shape.outs(), scale, gradients, work,
                            work + shape.nodes);
    }
    std::fill(work, work + 2 * shape.nodes, 0.0f);
    return 0;
}

uint32_t hand_apply(const size_t *widths, size_t widths_len, size_t intervals, float *model, const float *gradients,
                    float rate) {
    const Shape shape(widths, widths_len, intervals);
    if (!all_finite(model, shape.parameters))
        return 11;
    if (!finite(rate) || rate <= 0.0f)
        return 19;
    return update(model, gradients, shape.parameters, rate) ? 0 : 23;
}
