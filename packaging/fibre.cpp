// Makes every call as the first one of its process, on a fibre of ESTIMATOR_STACK_BYTES made by makecontext, and prints
// the stack that it took. packaging/test.sh links it so that functions are bound as late as they can be.
//
// The fibre's lowest byte begins a page and the page below it is closed: one byte too many ends in SIGSEGV. Pages above
// it are closed too; where its size is no multiple of a page, the bytes between are painted and must stay so.
//
// Until the C calls are made nothing here may call memset or memcpy: that would bind them on a stack with room to
// spare.
#include <estimator.hpp>

#include <csignal>
#include <cstdio>
#include <cstdlib>
#include <sys/mman.h>
#include <sys/prctl.h>
#include <sys/wait.h>
#include <ucontext.h>
#include <unistd.h>

namespace {

constexpr std::size_t page = 4096, fibre_size = ESTIMATOR_STACK_BYTES;
constexpr std::size_t open_size = (fibre_size + page - 1) / page * page; // the fibre and the rest of its last page
static_assert(fibre_size % 16 == 0, "else makecontext leaves bytes at the fibre's top unused");
constexpr unsigned char paint = 0xa5;

// Above a call lie makecontext's words, run() and a function that makes the call: this much at most, padding included.
constexpr std::size_t kept = 64;
// That is for callers compiled with -O2. At -O0 and -Os their own frames are larger, and they only have to fit.
#if defined(__OPTIMIZE__) && !defined(__OPTIMIZE_SIZE__)
constexpr bool as_stated = true;
#else
constexpr bool as_stated = false;
#endif

// [3, 4, 1] on grids that lead the library different ways.
struct Grid {
    std::size_t intervals;
    float lo, hi;
};
constexpr Grid grids[] = {
    {1, -1.0f, 1.0f},
    {32, -1.0f, 1.0f}, // the inputs lie on a knot, which takes training deeper than between knots
    // The knots span more than the largest float: all basis values are worked out. Each knot is finite, else every
    // input between them would be refused.
    {1, 0.0f, 8e37f},
    {5, -9e37f, 9e37f},
};
constexpr std::size_t most_intervals() {
    std::size_t most = 0;
    for (const Grid &one : grids)
        most = one.intervals > most ? one.intervals : most;
    return most;
}
constexpr std::size_t widths[] = {3, 4, 1}, edges = 3 * 4 + 4 * 1, widest = 4, nodes = 3 + 4 + 1, rows = 2;
constexpr std::size_t most_parameters = edges * (most_intervals() + 5);

Grid grid;
std::size_t parameters, image_size, npy_size;
float model[most_parameters], inputs[rows * 3], targets[rows], outputs[rows], first[widest], second[widest];
float gradients[most_parameters], signed_zeros[most_parameters] = {-0.0f}, work[2 * nodes], found;
const float far_off[] = {-3e38f};
std::uint8_t map[most_parameters];
// Shared by all processes: a call reads what the process of an earlier one wrote.
std::uint8_t *image, *npy;
std::size_t carried, done, count, g, unpacked[3];
float lo, hi;

std::uint32_t nothing() { return 0; }

std::uint32_t check() { return kan_check(widths, 3, grid.intervals, grid.lo, grid.hi, &count, &carried); }
std::uint32_t initialise() {
    return kan_initialise(widths, 3, grid.intervals, grid.lo, grid.hi, 1, model, parameters, &carried);
}
std::uint32_t predict() {
    return kan_predict(widths, 3, grid.intervals, grid.lo, grid.hi, model, parameters, inputs, rows * 3, first, widest,
                       second, widest, outputs, rows, &carried);
}
std::uint32_t loss() {
    return kan_loss(widths, 3, grid.intervals, grid.lo, grid.hi, model, parameters, inputs, rows * 3, targets, rows,
                    first, widest, second, widest, &found, &carried);
}
std::uint32_t train_step() {
    return kan_train_step(widths, 3, grid.intervals, grid.lo, grid.hi, model, parameters, inputs, rows * 3, targets,
                          rows, 0.01f, gradients, parameters, work, 2 * nodes, &carried);
}
std::uint32_t train() {
    return kan_train(widths, 3, grid.intervals, grid.lo, grid.hi, model, parameters, inputs, rows * 3, targets, rows, 2,
                     0.01f, gradients, parameters, work, 2 * nodes, &done, &carried);
}
// The gradients of this one row overflow, for which training goes deeper on a usual domain before it is refused.
std::uint32_t overflowing_step() {
    return kan_train_step(widths, 3, grid.intervals, grid.lo, grid.hi, model, parameters, inputs, 3, far_off, 1, 0.01f,
                          gradients, parameters, work, 2 * nodes, &carried);
}
std::uint32_t overflowing_train() {
    return kan_train(widths, 3, grid.intervals, grid.lo, grid.hi, model, parameters, inputs, 3, far_off, 1, 2, 0.01f,
                     gradients, parameters, work, 2 * nodes, &done, &carried);
}
std::uint32_t accumulate() {
    return kan_accumulate(widths, 3, grid.intervals, grid.lo, grid.hi, model, parameters, inputs, rows * 3, targets,
                          rows, rows, gradients, parameters, work, 2 * nodes, &carried);
}
// Deeper too: where a gradient is -0.0, zeros are added as well.
std::uint32_t accumulate_in_full() {
    return kan_accumulate(widths, 3, grid.intervals, grid.lo, grid.hi, model, parameters, inputs, rows * 3, targets,
                          rows, rows, signed_zeros, parameters, work, 2 * nodes, &carried);
}
std::uint32_t apply() {
    return kan_apply(widths, 3, grid.intervals, grid.lo, grid.hi, model, parameters, gradients, parameters, 0.01f,
                     &carried);
}
std::uint32_t visits() {
    return kan_visits(widths, 3, grid.intervals, grid.lo, grid.hi, model, parameters, inputs, rows * 3, first, widest,
                      second, widest, map, parameters, &carried);
}
std::uint32_t image_write() {
    return kan_image_write(widths, 3, grid.intervals, grid.lo, grid.hi, model, parameters, image, image_size, &carried);
}
std::uint32_t image_read() { return kan_image_read(image, image_size, &g, &lo, &hi, &count, &done, &carried); }
std::uint32_t image_unpack() { return kan_image_unpack(image, image_size, unpacked, 3, model, parameters, &carried); }
std::uint32_t npy_write() {
    return kan_npy_write(widths, 3, grid.intervals, grid.lo, grid.hi, model, parameters, 0, npy, npy_size, &carried);
}
std::uint32_t npy_read() {
    return kan_npy_read(widths, 3, grid.intervals, grid.lo, grid.hi, model, parameters, 0, npy, npy_size, &carried);
}

// Through the C++ header: the members that make a call and allocate nothing. The model and its buffers, those too that
// a Work makes when it is first trained with, are made outside the fibre. No calls for a fibre are initialise(),
// from_image(), image(), npy() and visits(), which make vectors, and those that read and write files: what malloc and
// the system's library take of a stack, nothing here can promise.
estimator::Model *cpp_model;
estimator::Work *cpp_work;
estimator::Gradients *cpp_gradients;

std::uint32_t cpp_check() { return cpp_model->config().check().outcome().number(); }
std::uint32_t cpp_predict() { return cpp_model->predict(inputs, outputs, *cpp_work).number(); }
std::uint32_t cpp_loss() { return cpp_model->loss(inputs, targets, *cpp_work).outcome().number(); }
std::uint32_t cpp_train() { return cpp_model->train(inputs, targets, 2, 0.01f, *cpp_work).outcome.number(); }
std::uint32_t cpp_overflowing_train() {
    return cpp_model->train({inputs, 3}, far_off, 2, 0.01f, *cpp_work).outcome.number();
}
std::uint32_t cpp_accumulate() {
    return cpp_model->accumulate(inputs, targets, rows, *cpp_gradients, *cpp_work).number();
}
std::uint32_t cpp_apply() { return cpp_model->apply(*cpp_gradients, 0.01f).number(); }
std::uint32_t cpp_take_npy() { return cpp_model->take_npy(0, {npy, npy_size}).number(); }

struct Call {
    const char *name;
    std::uint32_t (*made)();
    std::size_t stated;         // by estimator.h
    std::uint32_t expected = 0; // refusal
};
constexpr Call empty_call = {"makecontext and an empty call:", nothing, 0};
// What reads an image or a file comes after what writes it.
constexpr Call c_calls[] = {
    {"kan_check", check, 304},
    {"kan_initialise", initialise, 432},
    {"kan_predict", predict, 2080},
    {"kan_loss", loss, 2016},
    {"kan_train_step", train_step, 2816},
    {"kan_train", train, 2832},
    {"kan_train_step (refused 23)", overflowing_step, 2816, 23},
    {"kan_train (refused 23)", overflowing_train, 2832, 23},
    {"kan_accumulate", accumulate, 2688},
    {"kan_accumulate (-0.0)", accumulate_in_full, 2688},
    {"kan_apply", apply, 368},
    {"kan_visits", visits, 2000},
    {"kan_image_write", image_write, 416},
    {"kan_image_read", image_read, 368},
    {"kan_image_unpack", image_unpack, 416},
    {"kan_npy_write", npy_write, 432},
    {"kan_npy_read", npy_read, 496},
};
// estimator.h has no figures for these: they must fit.
constexpr Call cpp_calls[] = {
    {"check", cpp_check, fibre_size},
    {"predict", cpp_predict, fibre_size},
    {"loss", cpp_loss, fibre_size},
    {"train", cpp_train, fibre_size},
    {"train (refused 23)", cpp_overflowing_train, fibre_size, 23},
    {"accumulate (-0.0)", cpp_accumulate, fibre_size},
    {"apply", cpp_apply, fibre_size},
    {"take_npy", cpp_take_npy, fibre_size},
};

[[noreturn]] void stop(const char *what) {
    std::perror(what);
    std::exit(1);
}

unsigned char *fibre;                     // its lowest byte
ucontext_t caller_context, fibre_context; // static: a compiler may clear others by memset
std::uint32_t (*call_on_fibre)();
std::uint32_t refusal;

void run() { refusal = call_on_fibre(); }

void switch_to_fibre(std::uint32_t (*made)()) {
    call_on_fibre = made;
    if (getcontext(&fibre_context) != 0)
        stop("getcontext");
    fibre_context.uc_stack.ss_sp = fibre;
    fibre_context.uc_stack.ss_size = fibre_size;
    fibre_context.uc_link = &caller_context; // gone on with when run() returns
    makecontext(&fibre_context, run, 0);
    if (swapcontext(&caller_context, &fibre_context) != 0)
        stop("swapcontext");
}

struct Taken {
    std::size_t bytes;
    bool above; // something above the fibre's top was written
};

// How much of the fibre a call wrote. Volatile, so that no compiler makes a memset of the loop.
Taken taken_by(std::uint32_t (*made)()) {
    volatile unsigned char *const bytes = fibre;
    for (std::size_t i = 0; i < open_size; ++i)
        bytes[i] = paint;
    switch_to_fibre(made);
    std::size_t untouched = 0, touched_end = open_size;
    while (untouched < fibre_size && bytes[untouched] == paint)
        ++untouched;
    while (touched_end > fibre_size && bytes[touched_end - 1] == paint)
        --touched_end;
    return {fibre_size - untouched, touched_end > fibre_size};
}

// How a process ends that does this one thing: as waitpid tells it, 0 where all was well.
template <class Deed>
int status_of(Deed deed) {
    std::fflush(stdout);
    const pid_t child = fork();
    if (child < 0)
        stop("fork");
    if (child == 0) {
        const bool well = deed();
        std::fflush(stdout);
        _exit(well ? 0 : 1);
    }
    int status = 0;
    if (waitpid(child, &status, 0) != child)
        stop("waitpid");
    return status;
}

// In a process of its own, so that the call is its first one.
bool fits(const Call &call) {
    const int status = status_of([&call] {
        const std::size_t stated = as_stated ? call.stated + kept : fibre_size;
        const Taken taken = taken_by(call.made);
        std::printf(" %s %zu", call.name, taken.bytes);
        if (refusal != call.expected)
            std::printf(" REFUSED %u", refusal);
        if (taken.bytes > stated)
            std::printf(" ABOVE THE STATED %zu", stated);
        if (taken.above)
            std::printf(" WROTE ABOVE THE FIBRE");
        return refusal == call.expected && taken.bytes <= stated && !taken.above;
    });
    if (WIFSIGNALED(status))
        std::printf(" %s DIED OF SIGNAL %d", call.name, WTERMSIG(status));
    return status == 0;
}

template <std::size_t size>
bool all_fit(const char *language, const Call (&calls)[size]) {
    std::printf("  %s, g %zu on [%g, %g]:", language, grid.intervals, static_cast<double>(grid.lo),
                static_cast<double>(grid.hi));
    bool all = true;
    for (const Call &call : calls)
        all = fits(call) && all;
    std::printf("\n");
    return all;
}

// What the fibre must and must not bear.
unsigned char *aim;

std::uint32_t write_at_aim() {
    *static_cast<volatile unsigned char *>(aim) = 0;
    return 0;
}

// Calls itself until it stands at the aim, where it ends: were the page not closed, it would come back.
[[gnu::noinline]] std::uint32_t descend_to_aim() {
    volatile unsigned char frame[16];
    frame[0] = 0;
    const bool there = reinterpret_cast<std::uintptr_t>(frame) <= reinterpret_cast<std::uintptr_t>(aim);
    const std::uint32_t below = there ? 0 : descend_to_aim();
    return below + frame[0];
}

int status_of_aiming(std::uint32_t (*made)(), unsigned char *at) {
    aim = at;
    return status_of([made] {
        prctl(PR_SET_DUMPABLE, 0); // a death that is asked for leaves no core file
        return !taken_by(made).above;
    });
}

bool guard_page_holds() {
    const auto faults = [](int status) { return WIFSIGNALED(status) && WTERMSIG(status) == SIGSEGV; };
    const int above = status_of_aiming(write_at_aim, fibre + fibre_size);
    const bool above_is_seen = open_size > fibre_size ? WIFEXITED(above) && WEXITSTATUS(above) == 1 : faults(above);
    return status_of_aiming(write_at_aim, fibre) == 0 && faults(status_of_aiming(write_at_aim, fibre - 1)) &&
           status_of_aiming(descend_to_aim, fibre + 256) == 0 &&
           faults(status_of_aiming(descend_to_aim, fibre - 256)) && above_is_seen;
}

void make_fibre() {
    void *base = mmap(nullptr, open_size + 2 * page, PROT_NONE, MAP_PRIVATE | MAP_ANONYMOUS, -1, 0);
    if (base == MAP_FAILED)
        stop("mmap");
    fibre = static_cast<unsigned char *>(base) + page;
    if (mprotect(fibre, open_size, PROT_READ | PROT_WRITE) != 0)
        stop("mprotect");
}

std::uint8_t *shared_bytes(std::size_t size) {
    void *bytes = mmap(nullptr, size, PROT_READ | PROT_WRITE, MAP_SHARED | MAP_ANONYMOUS, -1, 0);
    if (bytes == MAP_FAILED)
        stop("mmap");
    return static_cast<std::uint8_t *>(bytes);
}

void choose(const Grid &chosen) {
    grid = chosen;
    parameters = edges * (grid.intervals + 5);
    image_size = 32 + 4 * 3 + 4 * parameters;
    npy_size = 128 + 4 * (4 * 3) * (grid.intervals + 3);
}

bool c_calls_fit(const Grid &chosen) {
    choose(chosen);
    return all_fit("C", c_calls);
}

bool cpp_calls_fit(const Grid &chosen) {
    choose(chosen);
    auto cpp = estimator::Model::initialise({{3, 4, 1}, grid.intervals, grid.lo, grid.hi}, 1).value();
    for (float &parameter : cpp.parameters())
        parameter = 0.0625f;
    estimator::Work buffers(cpp);
    estimator::Gradients sums(cpp);
    sums.numbers().data()[0] = -0.0f;
    if (!cpp.train(inputs, targets, 0, 0.01f, buffers) || npy_write() != 0) {
        std::printf("  C++: REFUSED OUTSIDE THE FIBRE\n");
        return false;
    }
    cpp_model = &cpp;
    cpp_work = &buffers;
    cpp_gradients = &sums;
    return all_fit("C++", cpp_calls);
}

} // namespace

int main() {
    make_fibre();
    image = shared_bytes(32 + 4 * 3 + 4 * most_parameters);
    npy = shared_bytes(128 + 4 * (4 * 3) * (most_intervals() + 3));
    for (float &parameter : model)
        parameter = 0.0625f;
    for (float &input : inputs)
        input = 0.25f;
    bool all = guard_page_holds();
    std::printf("  %s\n ", all ? "the guard page holds" : "THE GUARD PAGE DOES NOT HOLD");
    all = fits(empty_call) && all;
    std::printf(" bytes\n");
    for (const Grid &chosen : grids)
        all = c_calls_fit(chosen) && all;
    for (const Grid &chosen : grids) // last, since a vector may call memset
        all = cpp_calls_fit(chosen) && all;
    std::printf("  %s in %zu bytes\n", all ? "every call fits" : "NOT every call fits", fibre_size);
    return all ? 0 : 1;
}
