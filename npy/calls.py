"""The two calls with guarded memory, compared and counted; and where a model's numbers are."""

from collections import Counter

import numpy as np

# Zeros, the smallest and largest subnormals, the smallest normal number, the largest numbers, one.
SPECIAL = [0x00000000, 0x80000000, 0x00000001, 0x80000001, 0x007FFFFF, 0x807FFFFF]
SPECIAL += [0x00800000, 0x7F7FFFFF, 0xFF7FFFFF, 0x3F800000]
# Infinities and NaN, quiet and signalling.
NOT_FINITE = [0x7F800000, 0xFF800000, 0x7FC00000, 0xFFC00000, 0x7F800001, 0xFFFFFFFF]
EXPONENT = 0x7F800000
# Where what is lent begins: floats at a multiple of four, a file anywhere.
MODEL_AT, FILE_AT = 64, 61


class Lent:
    """Memory for one call between two guards, the first of `offset` bytes.

    The second begins with `behind`: what a call would find that reads too far.
    """

    def __init__(self, content, offset, behind=b""):
        self.memory = np.full(offset + len(content) + 128, 0xA5, np.uint8)
        self.inside = slice(offset, offset + len(content))
        filled = np.frombuffer(content + behind[:128], np.uint8)
        self.memory[offset : offset + len(filled)] = filled
        self.before = self.memory.copy()

    def bytes(self):
        return self.memory[self.inside]

    def is_unchanged(self, outside_only=False):
        now = self.memory
        if outside_only:
            now = now.copy()
            now[self.inside] = self.before[self.inside]
        return np.array_equal(now, self.before)


class Calls:
    """Makes the calls, compares what they leave with what they must leave, and counts."""

    def __init__(self, library):
        self.library = library
        self.answers = {"written": Counter(), "read": Counter()}
        self.differences = 0

    def same(self, what, got, wanted):
        alike = np.array_equal(got, wanted) if isinstance(wanted, np.ndarray) else got == wanted
        if not alike:
            self.differences += 1
            if self.differences <= 10:
                print(f"differs: {what[:400]}: {str(got)[:400]}\n    not {str(wanted)[:400]}")
        return alike

    def write(self, what, wanted, config, model, layer, length=None, carried=0):
        """The file's bytes, or None where the call was refused. `model`: the parameters' bits."""
        if length is None:
            length = 128 + 4 * places(config, layer).size
        lent, file = Lent(model.tobytes(), MODEL_AT), Lent(bytes(length), FILE_AT)
        file.memory[:] = file.before[:] = np.arange(file.memory.size) * 7 % 251
        answer = self.library.npy_write(config, lent.bytes().view(np.uint32), layer, file.bytes())
        self.answers["written"][answer[0]] += 1
        self.same(f"{what}: answer of npy_write", answer, (wanted, carried))
        self.same(f"{what}: model is left alone", lent.is_unchanged(), True)
        self.same(f"{what}: only the file is written", file.is_unchanged(answer[0] == 0), True)
        return None if answer[0] else file.bytes().tobytes()

    def read(self, what, wanted, config, model, layer, file, numbers=None, carried=0, behind=b""):
        """`numbers`: where the file must be taken, the bits that must arrive, [o, i, k]."""
        lent, bytes_lent = Lent(model.tobytes(), MODEL_AT), Lent(file, FILE_AT, behind)
        now = lent.bytes().view(np.uint32)
        answer = self.library.npy_read(config, now, layer, bytes_lent.bytes())
        self.answers["read"][answer[0]] += 1
        self.same(f"{what}: answer of npy_read", answer, (wanted, carried))
        self.same(f"{what}: file is left alone", bytes_lent.is_unchanged(), True)
        self.same(f"{what}: only the model is written", lent.is_unchanged(answer[0] == 0), True)
        if answer[0] == 0 and wanted == 0:
            expected = model.copy()
            expected[places(config, layer)] = numbers
            self.same(f"{what}: model after reading", now, expected)


def places(config, layer):
    """Where the coefficients of a layer are in the model, by estimator.h: indices [o, i, k]."""
    edge = config.intervals + 5
    widths = config.widths
    start = sum(widths[before] * widths[before + 1] * edge for before in range(layer))
    o, i, k = np.ogrid[: widths[layer + 1], : widths[layer], : config.intervals + 3]
    return start + (o * widths[layer] + i) * edge + 2 + k


def parameters(config):
    pairs = zip(config.widths, config.widths[1:])
    return sum(a * b for a, b in pairs) * (config.intervals + 5)


def draw_bits(rng, shape):
    """Finite floats of all kinds, as bits."""
    bits = rng.integers(0, 2**32, shape, np.uint32)
    bits[bits & EXPONENT == EXPONENT] ^= 0x40000000
    chosen = rng.random(shape) < 0.1
    bits[chosen] = rng.choice(np.array(SPECIAL, np.uint32), np.count_nonzero(chosen))
    return bits
