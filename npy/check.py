"""Holds kan_npy_write and kan_npy_read to the installed NumPy; npy/run.sh builds and runs it.

    check.py [--rounds N] [--seed S]

Every call gets its memory between guards. A refused call must have changed nothing, an accepted one
nothing but what it writes. What must be there is worked out here: places by the order of parameters
in include/estimator.h, files by NumPy's own writer, answers to headers by the grammar as a regular
expression (grammar.py), by a list of chosen ones (headers.py) and by NumPy's own reader.
It prints counts and the first ten differences. Status 1: there is one.
"""

import argparse
import io
import re
import subprocess
import sys
import warnings
from pathlib import Path

import numpy as np
from numpy.lib import format as npy

HERE = Path(__file__).resolve().parent
EXAMPLES = HERE.parent / "examples" / "numpy"
sys.path[:0] = [str(HERE), str(EXAMPLES)]

import estimator
import plot_layer
from calls import NOT_FINITE, Calls, draw_bits, parameters, places
from estimator import Config
from grammar import answer_to, draw_header, framed, mutated
from headers import FILES, HEADERS, SMALL, SMALL_BITS


def draw_config(rng):
    widths = rng.integers(1, 13, rng.integers(2, 5))
    return Config(widths, rng.integers(1, 41), -rng.integers(1, 9) / 4, rng.integers(1, 9) / 4)


def chosen_configs():
    """Sizes around each number of digits, and the largest models."""
    edges = [1, 9, 10, 99, 100, 999, 1000, 9999, 10000]
    shapes = [((1, n), 1) for n in edges] + [((n, 1), 1) for n in edges]
    shapes += [((1, 1), count - 3) for count in [4, 5, *edges[1:], 99999, 100000]]
    shapes += [((1, 1), 249995), ((1, 41666), 1), ((41666, 1), 1), ((1, 25000), 5), ((500, 83), 1)]
    shapes += [((100, 100, 100), 7), ((1, 1, 1, 1, 1), 1), ((12, 1, 12), 40)]
    return [Config(widths, intervals, -1, 1) for widths, intervals in shapes]


def saved(array, version=None):
    """What NumPy writes for an array: numpy.save, or a version of the format."""
    file = io.BytesIO()
    with warnings.catch_warnings():
        warnings.simplefilter("ignore")  # that older NumPy can't read versions 2.0 and 3.0
        npy.write_array(file, array, version) if version else np.save(file, array)
    return file.getvalue()


def check_written(calls, config, model):
    """Each layer's file: what NumPy reads in it, and whether NumPy writes the same bytes.

    The whole file is compared, header too. NumPy has padded to a multiple of 64 since 1.14, and
    newer ones leave room for 21 digits of the first size before they pad. The dictionary has at
    most 67 bytes: with that room or without it, the padding ends at 128.
    """
    for layer in range(len(config.widths) - 1):
        what = f"{config.widths}, g {config.intervals}, layer {layer}"
        file = calls.write(what, 0, config, model, layer)
        if file is None:
            continue
        wanted = model[places(config, layer)]
        shape, fortran_order, dtype = npy.read_array_header_1_0(io.BytesIO(file[8:]))
        header = shape, fortran_order, dtype.str
        calls.same(f"{what}: header", header, (wanted.shape, False, "<f4"))
        array = np.load(io.BytesIO(file), allow_pickle=False)
        calls.same(f"{what}: numbers", array.view("<u4"), wanted)
        calls.same(f"{what}: NumPy's file", file, saved(wanted.view("<f4"), (1, 0)))


def check_read(calls, rng, config, model):
    """numpy.save's files, of arrays that lie in memory in several ways, into each layer."""
    for layer in range(len(config.widths) - 1):
        numbers = draw_bits(rng, places(config, layer).shape)
        array = numbers.view("<f4")
        every_second = np.zeros((*array.shape[:2], 2 * array.shape[2]), "<f4")[:, :, ::2]
        every_second[...] = array
        for way, kept in [("as it is", array), ("with gaps", every_second)]:
            what = f"{config.widths}, g {config.intervals}, layer {layer}, {way}"
            calls.read(what, 0, config, model, layer, saved(kept), numbers)
        # Where at most one size is above 1 both orders are the same, and NumPy calls it C's.
        both = sum(size > 1 for size in array.shape) <= 1
        kept = np.asfortranarray(array)
        calls.read("Fortran order", 0 if both else 30, config, model, layer, saved(kept), numbers)


def check_drawn_models(calls, rng, rounds):
    for config in chosen_configs() + [draw_config(rng) for _ in range(rounds)]:
        model = draw_bits(rng, parameters(config))
        check_written(calls, config, model)
        check_read(calls, rng, config, model)


def other_arrays(array):
    """What NumPy makes of arrays of another type, shape or version, and the answer to each."""
    structured = np.zeros(array.shape, [("value", "<f4")])
    cells = np.zeros(array.shape, object)
    types = [">f4", "<f8", "<i4", "<u4", "<f2", "<i8", "<c8", "|u1", "|b1", "|S4", "<U1", "|V4"]
    yield from ((f"type {name}", saved(np.zeros(array.shape, name)), 30) for name in types)
    yield "structured type", saved(structured), 29  # its type is a list
    yield "objects", saved(cells), 30  # '|O', and pickled behind it
    shapes = [array.T, array.swapaxes(0, 1), array[0], array.ravel(), array[0, 0, 0], array[None]]
    shapes += [array[..., None], array[:, :, :-1], array[:0], array[:, :, :0], array[[0, 1, 2, 0]]]
    for other in shapes:
        yield f"shape {other.shape}", saved(np.array(other, order="C")), 30
    for version in (2, 0), (3, 0):
        yield f"version {version}", saved(array, version), 29


def check_other_arrays(calls, rng):
    config = Config((2, 3, 1), 4, -1, 1)
    model = draw_bits(rng, parameters(config))
    array = draw_bits(rng, (3, 2, 7)).view("<f4")
    for what, file, wanted in other_arrays(array):
        calls.read(what, wanted, config, model, 0, file)
    file = saved(array)
    for length in range(len(file)):
        what = f"cut to {length} bytes, with the rest behind"
        calls.read(what, 29, config, model, 0, file[:length], behind=file[length:])
        other, wanted = file.replace(b"<f4", b">f4"), 29 if length < 128 else 30
        calls.read(what, wanted, config, model, 0, other[:length], behind=other[length:])
    for more in 1, 3, 4, 128, 4096:
        calls.read(f"{more} bytes more", 29, config, model, 0, file + bytes(more))
    for bits in NOT_FINITE:
        for place in np.ndindex(array.shape):
            other = array.view("<u4").copy()
            other[place] = bits
            what = f"{bits:08X} in the file at {place}"
            calls.read(what, 11, config, model, 0, saved(other.view("<f4")))


def check_models(calls, rng):
    """A parameter that is not finite, in any layer: 11, before anything is said of the file."""
    config = Config((2, 1, 2), 1, -1, 1)
    file = saved(draw_bits(rng, (1, 2, 4)).view("<f4"))
    for place in range(parameters(config)):
        for bits in NOT_FINITE:
            model = draw_bits(rng, parameters(config))
            model[place] = bits
            for layer in 0, 1:
                calls.write(f"{bits:08X} in the model", 11, config, model, layer)
            calls.read(f"{bits:08X} in the model", 11, config, model, 0, file)
            calls.read(f"{bits:08X} in the model, no file", 11, config, model, 0, b"")


def check_order(calls, rng):
    """Calls with several faults: the first in the order of estimator.h is the answer."""
    config = Config((2, 3, 1), 4, -1, 1)
    sound = draw_bits(rng, parameters(config))
    spoilt, array = sound.copy(), draw_bits(rng, (3, 2, 7))
    spoilt[-1] = NOT_FINITE[2]
    file, right = saved(array.view("<f4")), 128 + 4 * array.size
    for model in sound[:-1], spoilt[1:], sound[:0], np.append(sound, sound):
        calls.write("length of the model", 8, config, model, 5, 0)
        calls.read("length of the model", 8, config, model, 5, b"")
    for layer in 2, 3, 2**63, 2**64 - 1:
        calls.write("layer", 37, config, spoilt, layer, 0)
        calls.read("layer", 37, config, spoilt, layer, b"")
    for length in 0, 1, 127, 128, right - 4, right - 1, right + 1, right + 4, 2 * right:
        calls.write("length of the file", 10, config, spoilt, 0, length)
    infinite = saved(np.full_like(array, NOT_FINITE[0]).view("<f4"))
    other_type, no_header = (f.replace(b"<f4", b">f4") for f in (infinite, infinite[:127]))
    calls.read("malformed, another type", 29, config, sound, 0, no_header)
    calls.read("another type, cut, not finite", 30, config, sound, 0, other_type[:-1])
    calls.read("cut, not finite", 29, config, sound, 0, infinite[:-1])
    calls.read("all is well", 0, config, sound, 0, file, array)


def faulty_configs():
    """Widths, g and domains that are refused, with each number of a configuration."""
    halves = 2**31, 2**30, 2**31, 2**31
    shapes = [((), 1), ((1,), 1), ((1, 0), 1), ((2**63, 2), 1), ((1, 1), 0), ((1, 1), 2**63)]
    shapes += [
        ((1, 1), 67108862),
        ((2**32, 2**31), 3),
        (halves, 1),
        ((1, 1), 249996),
        ((1, 41667), 1),
    ]
    domains = [(1, 1), (1, -1), (-1, np.inf), (np.nan, 1), (1, np.nextafter(np.float32(1), 2))]
    return [Config(*shape, -1, 1) for shape in shapes] + [Config((1, 1), 1, *d) for d in domains]


def check_configs(calls, rng):
    """Faulty configurations: the answer of kan_check, whatever else is wrong."""
    model = draw_bits(rng, 7)
    seen = set()
    for config in faulty_configs():
        number, carried, _ = calls.library.check(config)
        seen.add(number)
        what = f"{vars(config)}"
        calls.write(what, number, config, model, 0, 148, carried=carried)
        calls.read(what, number, config, model, 0, b"", carried=carried)
    calls.same("all refusals of a configuration", seen, set(range(1, 8)))


def numpy_takes(file):
    """Whether NumPy's own reader finds the numbers of SMALL in a file."""
    with warnings.catch_warnings():
        warnings.simplefilter("ignore")  # about files from Python 2, and types that will go
        try:
            array = np.load(io.BytesIO(file), allow_pickle=False)
        except Exception:  # it raises many kinds for one reason
            return False
    found = array.dtype, array.shape, array.tobytes()
    return found == (np.dtype("<f4"), SMALL_BITS.shape, SMALL_BITS.tobytes())


def check_chosen_headers(calls, rng):
    """The files of headers.py: the answer that is noted there, and what is noted of NumPy."""
    model = draw_bits(rng, parameters(SMALL))
    body = SMALL_BITS.tobytes()
    files = [(name, framed(text) + body, *noted) for name, text, *noted in HEADERS] + FILES
    for name, file, wanted, taken in files:
        calls.same(f"{name}: the grammar", answer_to(file, SMALL_BITS.shape), wanted)
        calls.read(name, wanted, SMALL, model, 0, file, SMALL_BITS)
        # Noted for Debian 12's NumPy. Should another differ, the library is not at fault.
        if np.__version__.startswith("1.24."):
            calls.same(f"{name}: whether NumPy takes it", numpy_takes(file), taken)
    return len(files)


def check_drawn_headers(calls, rng, rounds):
    """Headers that the grammar makes: taken if all values are right, and NumPy reads the same."""
    model = draw_bits(rng, parameters(SMALL))
    for _ in range(rounds):
        text, values, numpy_reads = draw_header(rng, SMALL_BITS.shape)
        wanted = 0 if values == ("<f4", False, SMALL_BITS.shape) else 30
        header = framed(text)
        calls.read(f"{text}", wanted, SMALL, model, 0, header + SMALL_BITS.tobytes(), SMALL_BITS)
        if numpy_reads:
            shape, fortran_order, dtype = npy.read_array_header_1_0(io.BytesIO(header[8:]))
            found = dtype, fortran_order, shape
            calls.same(f"{text}: NumPy's values", found, (np.dtype(values[0]), *values[1:]))


def check_mutated_files(calls, rng, rounds):
    """Files with a few bytes changed: the grammar's answer; NumPy takes whatever is taken here."""
    model = draw_bits(rng, parameters(SMALL))
    for _ in range(rounds):
        text, *_ = draw_header(rng, SMALL_BITS.shape, repeats=rng.random() < 0.1)
        file = mutated(rng, text, SMALL_BITS)
        wanted = answer_to(file, SMALL_BITS.shape)
        numbers = None
        if wanted == 0:
            array = np.load(io.BytesIO(file), allow_pickle=False)
            calls.same(
                f"{file}: type and shape", (array.dtype.str, array.shape), ("<f4", (1, 1, 5))
            )
            numbers = array.view("<u4")
        calls.read(f"{file}", wanted, SMALL, model, 0, file, numbers)


def check_words(calls):
    """The words of examples/numpy/estimator.py are those of include/estimator.h."""
    header = (HERE.parent / "include" / "estimator.h").read_text()
    table = re.search(r"number of the first refusal:\n \*\n(.*?)\n \*\n", header, re.S)[1]
    rows = re.findall(r"^ \* +(\d+)  (.*(?:\n \* {7,}\D.*)*)", table, re.M)
    words = {int(number): re.sub(r"\s*\n \*\s*", " ", text) for number, text in rows}
    for number, text in estimator.WORDS.items():
        calls.same(f"words of {number}", text, words.get(number, "").partition("; carries")[0])


def check_editing(calls):
    """examples/numpy/edit_layer.py: the image that it writes, and how it refuses."""
    config = Config((3, 4, 2), 5, -0.5, 1.5)
    model = estimator.Model.initialise(config, 2026, calls.library)
    folder = HERE.parent / "target" / "npy"
    old, new = folder / "model.kan", folder / "edited.kan"
    old.write_bytes(model.image())
    clamp = [
        sys.executable,
        "-B",
        EXAMPLES / "edit_layer.py",
        old,
        new,
        "--clamp",
        "-0.004",
        "0.004",
    ]
    ended = subprocess.run([*clamp, "--layer", "1"], capture_output=True, text=True)
    expected, at, bound = model.parameters.copy(), places(config, 1), np.float32(0.004)
    expected[at] = np.minimum(np.maximum(expected[at], -bound), bound)
    changed = np.count_nonzero(expected != model.parameters)
    told = f"layer 1: {changed} of {at.size} coefficients changed\n"
    calls.same("edit_layer.py", (ended.returncode, ended.stdout, changed > 0), (0, told, True))
    edited = estimator.Model.from_image(new.read_bytes(), calls.library)
    calls.same("edit_layer.py's model", edited.parameters.view(np.uint32), expected.view(np.uint32))
    ended = subprocess.run([*clamp, "--layer", "2"], capture_output=True, text=True)
    told = "edit_layer: refused 37: no such layer\n"
    calls.same("edit_layer.py without the layer", (ended.returncode, ended.stderr), (1, told))


def check_drawing(calls):
    """examples/numpy/plot_layer.py: its curves, in float64, beside the library's predictions."""
    config = Config((3, 4, 2), 5, -0.5, 1.5)
    model = estimator.Model.initialise(config, 2026, calls.library)
    x = plot_layer.sample(config)
    for layer in 0, 1:
        drawn = sum(plot_layer.parts(model, layer, x))
        apart = np.abs(drawn - plot_layer.predicted(model, layer, x)).max()
        calls.same(f"curves of layer {layer}, {apart:.1e} apart", bool(apart < 1e-6), True)


def report(calls, headers):
    for kind, counts in calls.answers.items():
        listed = ", ".join(f"{number}: {count}" for number, count in sorted(counts.items()))
        print(f"  {kind:8} answers {listed}")
    # Each number that the two calls can give must have come.
    every = {"written": {*range(9), 10, 11, 37}, "read": {*range(9), 11, 29, 30, 37}}
    for kind, numbers in every.items():
        calls.same(f"numbers given, {kind}", set(calls.answers[kind]), numbers)
    written, read = (counts[0] for counts in calls.answers.values())
    refused = sum(sum(counts.values()) for counts in calls.answers.values()) - written - read
    print(f"  NumPy {np.__version__}, {headers} chosen headers among the files")
    print(
        f"numpy: {written} files written, {read} read, {refused} refused,"
        f" {calls.differences} differences"
    )


def main():
    parser = argparse.ArgumentParser(description=__doc__.splitlines()[0])
    parser.add_argument("--rounds", type=int, default=400, help="models; 20 times as many headers")
    parser.add_argument("--seed", type=int, default=1)
    arguments = parser.parse_args()
    rng = np.random.default_rng(arguments.seed)
    calls = Calls(estimator.Library())
    check_words(calls)
    check_configs(calls, rng)
    check_order(calls, rng)
    check_models(calls, rng)
    check_other_arrays(calls, rng)
    headers = check_chosen_headers(calls, rng)
    check_drawn_headers(calls, rng, 20 * arguments.rounds)
    check_mutated_files(calls, rng, 20 * arguments.rounds)
    check_drawn_models(calls, rng, arguments.rounds)
    check_editing(calls)
    check_drawing(calls)
    report(calls, headers)
    sys.exit(1 if calls.differences else 0)


if __name__ == "__main__":
    main()
