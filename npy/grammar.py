"""The header that kan_npy_read takes, as a regular expression; and headers drawn, right and wrong.

Nothing here comes from the library: it is the grammar of docs/RULES.md, R18.4, written down again.
"""

import re

import numpy as np

MAGIC = b"\x93NUMPY\x01\x00"
# A string of printable ASCII without backslash and without the quote around it.
QUOTED = rb"(?:'[ -&(-\[\]-~]*'|\"[ !#-\[\]-~]*\")"
NUMBER = rb"(?:0|[1-9][0-9]*)"
NUMBERS = rb"\( *(?:%(n)s *(?:, *%(n)s *)*(?:, *)?)?\)" % {b"n": NUMBER}
VALUES = {"descr": QUOTED, "fortran_order": rb"True|False", "shape": NUMBERS}


def entry_of(group):
    """One key and its value; `group` is how the value is put in parentheses."""
    entries = []
    for name, value in VALUES.items():
        key = name.encode()
        entries.append(rb"(?:'%s'|\"%s\") *: *(%s%s)" % (key, key, group(name), value))
    return rb" *(?:" + b"|".join(entries) + rb")"


ENTRY = entry_of(lambda name: b"?:")
NAMED_ENTRY = re.compile(entry_of(lambda name: b"?P<%s>" % name.encode()))
TEXT = re.compile(rb"\{(%s) *,(%s) *,(%s)(?: *,)? *\} *\n" % (ENTRY, ENTRY, ENTRY))


def values_in(text):
    """The values of a header's text by their keys, or None where the text is no header."""
    found = TEXT.fullmatch(text)
    if not found:
        return None
    entries = (NAMED_ENTRY.fullmatch(entry) for entry in found.groups())
    values = {entry.lastgroup: entry[entry.lastgroup] for entry in entries}
    return values if len(values) == 3 else None


def answer_to(file, shape):
    """The reader's answer to a file of which the shape is asked: 0, 11, 29 or 30."""
    length = int.from_bytes(file[8:10], "little")
    text, body = file[10 : 10 + length], file[10 + length :]
    if len(file) < 10 or file[:8] != MAGIC or len(text) < length:
        return 29
    values = values_in(text)
    if values is None:
        return 29
    # Numbers have no leading zeros, so their digits tell them apart.
    sizes = re.findall(rb"[0-9]+", values["shape"])
    if values["descr"][1:-1] != b"<f4" or values["fortran_order"] != b"False":
        return 30
    if sizes != [b"%d" % size for size in shape]:
        return 30
    if len(body) != 4 * np.prod(shape):
        return 29
    return 0 if np.isfinite(np.frombuffer(body, "<f4")).all() else 11


def framed(text):
    """A header: the magic bytes, the version, the text's length, the text."""
    return MAGIC + len(text).to_bytes(2, "little") + text


# Types that numpy.dtype knows, of which '<f4' alone is asked for; and strings that name no type.
TYPES = [
    "<f4",
    ">f4",
    "=f4",
    "|f4",
    "f4",
    "f",
    "float32",
    "<f8",
    "<i4",
    "<f2",
    "|u1",
    "<c8",
    "|S4",
    "<U3",
]
NO_TYPES = ["", " ", "<f4 ", "F4 ", "<f", "<f40x", "{}", "descr", "None"]


def draw_values(rng, shape):
    """A type, an order and a shape, often those asked for; and whether NumPy knows the type."""
    known = rng.random() < 0.9
    descr = "<f4" if rng.random() < 0.7 else str(rng.choice(TYPES if known else NO_TYPES))
    sizes = list(shape)
    if rng.random() < 0.3:
        place = rng.integers(len(sizes))
        sizes[place] = int(rng.choice([0, sizes[place] + 1, 10 * sizes[place], 2**31]))
        sizes[place] += 2**64 * int(rng.integers(2))
        rng.shuffle(sizes)
        sizes = sizes[: rng.integers(1, 4)] + [1] * int(rng.integers(3))
    return (descr, bool(rng.random() < 0.15), tuple(sizes)), descr not in NO_TYPES


def draw_header(rng, shape, repeats=False):
    """A text that the grammar makes, its values, and whether NumPy's reader takes them.

    Where it repeats, keys may come twice and others not at all, which the grammar does not make.
    """

    def spaces():
        return " " * int(rng.choice([0, 0, 0, 1, 1, 2, 17]))

    def joined(*tokens):
        return "".join(spaces() + token for token in tokens)

    def quoted(word):
        quote = str(rng.choice(["'", '"']))
        return quote + word + quote

    values, known = draw_values(rng, shape)
    descr, fortran_order, sizes = values
    last = [","] * int(rng.integers(2))
    numbers = [token for size in sizes for token in (",", str(size))][1:]
    entries = [
        joined(quoted("descr"), ":", quoted(descr)),
        joined(quoted("fortran_order"), ":", str(fortran_order)),
        joined(quoted("shape"), ":", "(", *numbers, *last, ")"),
    ]
    chosen = rng.choice(entries, 3, replace=repeats)
    end = joined(*[","] * int(rng.integers(2)), "}", "\n")
    text = "{" + joined(chosen[0], ",", chosen[1], ",", chosen[2]) + end
    # To Python (5) is a number, not a tuple.
    return text.encode(), values, known and (len(sizes) > 1 or last != [])


# Bytes that mean something in a header, or to Python, and a few that never do.
EDITS = b" \t\n\r\x0b\x0c,:'\"(){}[]#\\+-_.0159LTFuxbr<>=f48\x00\x7f\x80\xa0\xff"


def edited(rng, text):
    """One byte put in, taken away, replaced or doubled, anywhere."""
    place = int(rng.integers(len(text)))
    byte = bytes([EDITS[rng.integers(len(EDITS))] if rng.random() < 0.8 else rng.integers(256)])
    how = rng.integers(4)
    kept = [text[place:], text[place + 1 :], text[place + 1 :], text[place:]][how]
    return text[:place] + [byte, b"", byte, text[place : place + 1]][how] + kept


def mutated(rng, text, numbers):
    """A file with changes to a header's text, the length, the magic bytes or the numbers."""
    length = len(text)
    for _ in range(rng.integers(0, 3)):
        text = edited(rng, text)
    if rng.random() < 0.8:
        length = len(text)
    head = MAGIC + length.to_bytes(2, "little")
    if rng.random() < 0.05:
        place = rng.integers(len(head))
        head = head[:place] + bytes([rng.integers(256)]) + head[place + 1 :]
    body = numbers.tobytes()
    kind = rng.random()
    if kind < 0.05:
        body = body[: -rng.integers(1, 5)]
    elif kind < 0.1:
        body += bytes(int(rng.integers(1, 5)))
    elif kind < 0.15:
        body = body[:4] + rng.bytes(4) + body[8:]
    elif kind < 0.2:
        body = body[:-4] + b"\x00\x00\x80\x7f"
    return head + text + body
