"""The estimator's models in Python: images, coefficients as NumPy arrays, predictions.

A thin layer over libestimator.so, which is libestimator.a as a shared object; README.md, beside
this file, has the command. Every number comes from the library, and include/estimator.h says what
each call does. A call that the library refuses raises Refused, with its number and words, and
has changed nothing.
"""

import ctypes
import io
import os
from pathlib import Path

import numpy as np

SHARED_OBJECT = "libestimator.so"

# The refusals of include/estimator.h that the calls below can give; npy/check.py compares them.
WORDS = {
    1: "fewer than two widths, or a zero width",
    2: "a product of neighbouring widths is 2^64 or more",
    3: "grid intervals g is 0 or above 2^63 - 8",
    4: "the domain does not define a finite, representable uniform grid with lo below hi",
    5: "one layer's parameter count is 2^64 or more",
    6: "the running total's parameter count is 2^64 or more",
    7: "total above 250,000",
    8: "model slice length is not P",
    9: "work slice too short",
    10: "output or map length wrong",
    11: "a parameter not finite",
    14: "input row of wrong width",
    15: "input not finite",
    20: "a node value not finite",
    24: "image longer than 8,388,608 bytes",
    25: "image version not 1",
    26: "degree not 3",
    27: "image malformed",
    29: "NPY header or length malformed",
    30: "NPY file of another type, order or shape",
    37: "no such layer",
}


class Refused(Exception):
    """A call that the library refused: `number` and `carried` are its answer."""

    def __init__(self, number, carried=0, detail=""):
        self.number, self.carried = number, carried
        text = f"refused {number}: {WORDS.get(number, 'a reason that estimator.py does not know')}"
        if number in (7, 25):
            text += f" ({carried})"
        if number in (14, 15, 20):
            text += f" (row {carried})"
        super().__init__(text + (f" ({detail})" if detail else ""))


def find_library():
    """$ESTIMATOR_SO, else the shared object beside this file, else the one of npy/run.sh."""
    here = Path(__file__).resolve().parent
    built = here.parent.parent / "target" / "npy" / SHARED_OBJECT
    named = os.environ.get("ESTIMATOR_SO")
    for path in [Path(named)] if named else [here / SHARED_OBJECT, built]:
        if path.is_file():
            return path
    raise FileNotFoundError(f"no {SHARED_OBJECT}: README.md says how to build it")


class Config:
    """The five arguments by which every call describes a network."""

    def __init__(self, widths, intervals, lo, hi):
        self.widths = tuple(int(width) for width in widths)
        self.intervals, self.lo, self.hi = int(intervals), float(lo), float(hi)

    def arguments(self):
        widths = (ctypes.c_size_t * len(self.widths))(*self.widths)
        domain = ctypes.c_float(self.lo), ctypes.c_float(self.hi)
        return widths, sized(self.widths), ctypes.c_size_t(self.intervals), *domain

    def shape(self, layer):
        """A layer's coefficients as an array: outputs, inputs, g + 3."""
        return self.widths[layer + 1], self.widths[layer], self.intervals + 3


def sized(values):
    return ctypes.c_size_t(len(values))


def pointed(array):
    """A NumPy array as C's pointer and length. It must be contiguous: its memory is lent."""
    assert array.flags.c_contiguous
    return ctypes.c_void_p(array.ctypes.data), ctypes.c_size_t(array.size)


class Library:
    """The C functions. Each returns the library's answer as it is: a number, what it carries."""

    def __init__(self, path=None):
        self.functions = ctypes.CDLL(str(path or find_library()))

    def call(self, name, *arguments):
        function = getattr(self.functions, name)
        function.restype = ctypes.c_uint32
        carried = ctypes.c_size_t(2**64 - 1)  # always written, so this never comes back
        number = function(*arguments, ctypes.byref(carried))
        return number, carried.value

    def check(self, config):
        parameters = ctypes.c_size_t()
        answer = self.call("kan_check", *config.arguments(), ctypes.byref(parameters))
        return (*answer, parameters.value)

    def initialise(self, config, seed, model):
        return self.call(
            "kan_initialise", *config.arguments(), ctypes.c_uint64(seed), *pointed(model)
        )

    def predict(self, config, model, inputs, outputs):
        slices = [np.empty(max(config.widths), np.float32) for _ in range(2)]
        lent = [part for array in (model, inputs, *slices, outputs) for part in pointed(array)]
        return self.call("kan_predict", *config.arguments(), *lent)

    def npy_write(self, config, model, layer, file):
        lent = *pointed(model), ctypes.c_size_t(layer), *pointed(file)
        return self.call("kan_npy_write", *config.arguments(), *lent)

    def npy_read(self, config, model, layer, file):
        lent = *pointed(model), ctypes.c_size_t(layer), *pointed(file)
        return self.call("kan_npy_read", *config.arguments(), *lent)

    def image_write(self, config, model, image):
        return self.call("kan_image_write", *config.arguments(), *pointed(model), *pointed(image))

    def image_read(self, image):
        """What an image holds: g, lo, hi, how many widths and how many parameters."""
        kinds = ctypes.c_size_t, ctypes.c_float, ctypes.c_float, ctypes.c_size_t, ctypes.c_size_t
        held = [kind() for kind in kinds]
        answer = self.call("kan_image_read", *pointed(image), *map(ctypes.byref, held))
        return (*answer, *(number.value for number in held))

    def image_unpack(self, image, widths, model):
        lent = [part for array in (image, widths, model) for part in pointed(array)]
        return self.call("kan_image_unpack", *lent)


def demand(answer, detail=""):
    """What a call returned beside its number, which must be 0."""
    number, carried, *results = answer
    if number:
        raise Refused(number, carried, detail)
    return results


class Model:
    """A network: its configuration and its P parameters, float32, in the order of estimator.h."""

    def __init__(self, config, parameters, library):
        self.config, self.parameters, self.library = config, parameters, library

    @classmethod
    def initialise(cls, config, seed, library=None):
        """A model with the starting parameters that belong to a seed."""
        library = library or Library()
        (count,) = demand(library.check(config))
        parameters = np.empty(count, np.float32)
        demand(library.initialise(config, seed, parameters))
        return cls(config, parameters, library)

    @classmethod
    def from_image(cls, image, library=None):
        """The model in the bytes of an image."""
        library = library or Library()
        image = np.frombuffer(image, np.uint8)
        intervals, lo, hi, depth, count = demand(library.image_read(image))
        widths, parameters = np.empty(depth, np.uint64), np.empty(count, np.float32)
        demand(library.image_unpack(image, widths, parameters))
        return cls(Config(widths, intervals, lo, hi), parameters, library)

    def image(self):
        """The bytes of the model's image."""
        image = np.empty(32 + 4 * len(self.config.widths) + 4 * self.parameters.size, np.uint8)
        demand(self.library.image_write(self.config, self.parameters, image))
        return image.tobytes()

    def npy(self, layer):
        """The bytes of an NPY file with a layer's coefficients."""
        there = 0 <= layer < len(self.config.widths) - 1
        # For a layer that is not there the library refuses whatever length the file has.
        file = np.empty(128 + 4 * np.prod(self.config.shape(layer)) if there else 0, np.uint8)
        demand(self.library.npy_write(self.config, self.parameters, layer, file))
        return file.tobytes()

    def take_npy(self, layer, file, detail=""):
        """Takes a layer's coefficients from the bytes of an NPY file."""
        file = np.frombuffer(file, np.uint8)
        demand(self.library.npy_read(self.config, self.parameters, layer, file), detail)

    def coefficients(self, layer):
        """A layer's coefficients: [o, i, k] is number k of the edge from input i to output o."""
        return np.load(io.BytesIO(self.npy(layer)), allow_pickle=False)

    def set_coefficients(self, layer, array):
        """Puts a layer's coefficients back, float32 and in the shape that coefficients() gives."""
        file = io.BytesIO()
        np.save(file, array, allow_pickle=False)
        self.take_npy(layer, file.getvalue(), f"an array of {array.dtype}, {array.shape}")

    def weights(self, layer):
        """A layer's base weights and spline weights, two arrays of (outputs, inputs)."""
        outputs, inputs, count = self.config.shape(layer)
        pairs = zip(self.config.widths, self.config.widths[1:])
        ends = np.cumsum([0] + [before * after * (count + 2) for before, after in pairs])
        edges = self.parameters[ends[layer] : ends[layer + 1]].reshape(outputs, inputs, count + 2)
        return edges[:, :, 0], edges[:, :, 1]

    def predict(self, rows):
        """The network's outputs for rows of inputs, each as the library computes it."""
        inputs = np.ascontiguousarray(rows, np.float32)
        outputs = np.empty((len(inputs), self.config.widths[-1]), np.float32)
        demand(self.library.predict(self.config, self.parameters, inputs, outputs))
        return outputs
