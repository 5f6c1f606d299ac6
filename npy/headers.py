"""Chosen NPY files for the smallest network, whose layer has the shape (1, 1, 5), with the answers.

Each has a name, the header's text or the whole file, the library's answer, and whether NumPy 1.24
finds the same numbers in it. Where the two part, docs/DIFFERENCES.md says so.
"""

import numpy as np

from estimator import Config

SMALL = Config((1, 1), 2, -1, 1)
# 1, -0.0, the smallest subnormal, -2.5, the largest number
SMALL_BITS = np.array([0x3F800000, 0x80000000, 0x00000001, 0xC0200000, 0x7F7FFFFF], "<u4").reshape(
    1, 1, 5
)

WRITTEN = b"{'descr': '<f4', 'fortran_order': False, 'shape': (1, 1, 5), }"
BACKWARDS = b"{'shape': (1, 1, 5), 'fortran_order': False, 'descr': '<f4', }"
WIDE = b"{ 'descr' : '<f4' , 'fortran_order' : False , 'shape' : ( 1 , 1 , 5 , ) , } "
CALLED = b"dict(descr='<f4', fortran_order=False, shape=(1, 1, 5))"


def padded(text, to=64):
    """As NumPy pads: with spaces and a newline, so that the numbers begin at a multiple."""
    return text + b" " * (-(10 + len(text) + 1) % to) + b"\n"


def replaced(old, new):
    """The header that NumPy writes, with a part of it replaced; the part must be there."""
    assert old in WRITTEN
    return padded(WRITTEN.replace(old, new))


def with_shape(shape):
    return replaced(b"(1, 1, 5)", shape)


def with_descr(descr):
    return replaced(b"'<f4'", descr)


def with_order(order):
    return replaced(b"False", order)


# ---- as NumPy has written it over its versions
HEADERS = [
    # Newer ones leave room for 21 digits of the first size, which ends in the padding here.
    ("NumPy since 1.14", padded(WRITTEN), 0, True),
    ("NumPy before 1.14, to a multiple of 16", padded(WRITTEN, 16), 0, True),
    ("to a page, the most that NumPy calls plausible", padded(WRITTEN, 4096), 0, True),
    ("Python 2, long sizes", with_shape(b"(1L, 1L, 5L)"), 29, True),
    ("Python 2, one long size", with_shape(b"(1, 1, 5L)"), 29, True),
    ("Python 2, Unicode key", replaced(b"'descr'", b"u'descr'"), 29, True),
    ("NumPy 2's way to print its integers", with_shape(b"(np.int64(1), 1, 5)"), 29, False),
]

# ---- as others write it
HEADERS += [
    ("no spaces", b"{'descr':'<f4','fortran_order':False,'shape':(1,1,5)}\n", 0, True),
    ("double quotes", replaced(b"'", b'"'), 0, True),
    ("both quotes", replaced(b"'descr'", b'"descr"'), 0, True),
    ("another order", padded(BACKWARDS), 0, True),
    ("no last comma", replaced(b", }", b"}"), 0, True),
    ("last comma in the shape", with_shape(b"(1, 1, 5,)"), 0, True),
    ("spaces around all", WIDE + b"\n", 0, True),
    ("no padding", WRITTEN + b"\n", 0, True),
    # NumPy refuses long texts since 1.24, for fear of Python's parser.
    ("10,000 bytes", WRITTEN.ljust(9999) + b"\n", 0, True),
    ("10,001 bytes", WRITTEN.ljust(10000) + b"\n", 0, False),
    ("65,535 bytes", WRITTEN.ljust(65534) + b"\n", 0, False),
]

# ---- around the dictionary
HEADERS += [
    ("space before the brace", b" " + padded(WRITTEN), 29, True),
    ("newline before the brace", b"\n" + padded(WRITTEN), 29, True),
    ("byte order mark", b"\xef\xbb\xbf" + padded(WRITTEN), 29, False),
    ("no newline", WRITTEN + b" ", 29, True),
    ("nothing behind the brace", WRITTEN, 29, True),
    ("two newlines", WRITTEN + b"\n\n", 29, True),
    ("space behind the newline", WRITTEN + b"\n ", 29, True),
    ("carriage return", WRITTEN + b"\r\n", 29, True),
    ("tab as padding", WRITTEN + b"\t\n", 29, True),
    ("zero byte as padding", WRITTEN + b"\x00\n", 29, False),
    ("comment", WRITTEN + b" # by hand\n", 29, True),
    ("in parentheses", padded(b"(" + WRITTEN + b")"), 29, True),
    ("comma behind it", padded(WRITTEN + b","), 29, False),
    ("semicolon behind it", padded(WRITTEN + b";"), 29, False),
    ("second brace", padded(WRITTEN + b"}"), 29, False),
    ("no brace", padded(WRITTEN[:-1]), 29, False),
    ("no text", b"", 29, False),
    ("newline alone", b"\n", 29, False),
    ("no dictionary", padded(CALLED), 29, False),
]

# ---- between tokens
HEADERS += [
    ("tab", replaced(b", ", b",\t"), 29, True),
    ("newline", replaced(b", ", b",\n"), 29, True),
    ("form feed", replaced(b", ", b",\x0c"), 29, True),
    ("vertical tab", replaced(b", ", b",\x0b"), 29, False),
    ("backslash and newline", replaced(b", ", b", \\\n"), 29, True),
    ("no-break space", replaced(b": ", b":\xa0"), 29, False),
    ("no colon", replaced(b"':", b"'"), 29, False),
    ("no comma", replaced(b"'<f4',", b"'<f4'"), 29, False),
    ("two commas", replaced(b", }", b",, }"), 29, False),
    ("comma first", replaced(b"{", b"{,"), 29, False),
]

# ---- keys
HEADERS += [
    ("no descr", padded(b"{'fortran_order': False, 'shape': (1, 1, 5), }"), 29, False),
    ("no fortran_order", padded(b"{'descr': '<f4', 'shape': (1, 1, 5), }"), 29, False),
    ("no shape", padded(b"{'descr': '<f4', 'fortran_order': False, }"), 29, False),
    ("no key", padded(b"{}"), 29, False),
    ("a fourth key", replaced(b", }", b", 'order': 1}"), 29, False),
    ("a key twice, alike", replaced(b"{", b"{'descr': '<f4', "), 29, True),
    ("a key twice, the last one right", replaced(b"{", b"{'descr': '>f8', "), 29, True),
    ("a key twice, the last one wrong", replaced(b", }", b", 'descr': '>f4'}"), 29, False),
    ("descr twice of three", replaced(b"'fortran_order': False", b"'descr': '<f4'"), 29, False),
    ("order twice of three", replaced(b"'descr': '<f4'", b"'fortran_order': False"), 29, False),
    ("shape twice of three", replaced(b"'descr': '<f4'", b"'shape': (1, 1, 5)"), 29, False),
    ("capital letter", replaced(b"descr", b"Descr"), 29, False),
    ("space in a key", replaced(b"'descr'", b"'descr '"), 29, False),
    ("bare key", replaced(b"'descr'", b"descr"), 29, False),
    ("escape in a key", replaced(b"'descr'", b"'d\\x65scr'"), 29, True),
    ("key in two strings", replaced(b"'descr'", b"'de' 'scr'"), 29, True),
]

# ---- types: strings that are not '<f4' are another type, also where NumPy means the same by them
SAME_TYPES = b"'=f4' '|f4' 'f4' 'f' '<f' 'float32' 'single' '<f4,' '1<f4' '()<f4'".split()
HEADERS += [(f"type {name}", with_descr(name), 30, True) for name in SAME_TYPES]
OTHER_TYPES = b"'>f4' '<f8' '<i4' '|V4' '' '<f4~' '<f\"4' '<f40' '<F4'".split()
HEADERS += [(f"type {name}", with_descr(name), 30, False) for name in OTHER_TYPES]
HEADERS += [
    ("space in the type", with_descr(b"'<f4 '"), 30, False),
    ("type of one field", with_descr(b"[('x', '<f4')]"), 29, False),
    ("type of one field without name", with_descr(b"[('', '<f4')]"), 29, False),
    ("type and shape", with_descr(b"('<f4', ())"), 29, True),
    ("type in parentheses", with_descr(b"('<f4')"), 29, True),
    ("type as bytes", with_descr(b"b'<f4'"), 29, False),
    ("raw string", with_descr(b"r'<f4'"), 29, True),
    ("Unicode string", with_descr(b"u'<f4'"), 29, True),
    ("string in three quotes", with_descr(b"'''<f4'''"), 29, True),
    ("two strings", with_descr(b"'<' 'f4'"), 29, True),
    ("escape", with_descr(b"'\\x3cf4'"), 29, True),
    ("tab in the string", with_descr(b"'<f4\t'"), 29, False),
    ("delete in the string", with_descr(b"'<f4\x7f'"), 29, False),
    ("Latin letter in the string", with_descr(b"'<f4\xe9'"), 29, False),
    ("quotes that differ", with_descr(b"'<f4\""), 29, False),
    ("no quotes", with_descr(b"f4"), 29, False),
    ("no type", with_descr(b"None"), 29, False),
]

# ---- order
HEADERS += [
    ("Fortran order, though it is the same here", with_order(b"True"), 30, True),
    ("False in parentheses", with_order(b"(False)"), 29, True),
    ("no order", with_order(b""), 29, False),
    ("order as an expression", with_order(b"not True"), 29, False),
]
NO_ORDERS = b"0 None 'False' false FALSE Fals Falsey FalseTrue Tru True5".split()
HEADERS += [(f"order {order}", with_order(order), 29, False) for order in NO_ORDERS]

# ---- shapes: other lists of whole numbers; what is no such list; what is one to Python alone
SHAPES = b"() | (5) | (5,) | (1, 5) | (1, 5, 1) | (5, 1, 1) | (1, 1, 5, 1) | (1, 1, 1, 5)".split(
    b" | "
)
SHAPES += b"(0, 1, 5) | (1, 1, 4) | (1, 1, 6) | (1, 1, 50) | (1, 1, 15)".split(b" | ")
# Numbers that 32 or 64 bits would take for 5 or 1.
SHAPES += [b"(1, 1, %d)" % (5 + 2**bits) for bits in (8, 16, 32, 63, 64, 65, 128)]
SHAPES += [b"(%d, 1, 5)" % (1 + 2**bits) for bits in (8, 16, 32, 63, 64, 65, 128)]
# Thousands of digits, and of numbers.
SHAPES += [b"(1, 1, %s5)" % (b"1" + b"0" * 4000), b"(%s5)" % (b"1, " * 3000)]
HEADERS += [(f"shape {shape[:60]}", with_shape(shape), 30, False) for shape in SHAPES]
NO_SHAPES = b"[1, 1, 5] | 5 | 1, 1, 5 | None | (,) | (1, 1, 5,,) | (, 1, 1, 5) | (1 1, 5)".split(
    b" | "
)
NO_SHAPES += b"(1, 1, 5 | (1, 1, 5] | (1, 1, 05) | (00, 1, 5) | (1, 1, -5) | (-1, 1, 5)".split(
    b" | "
)
NO_SHAPES += b"(1, 1, 5.) | (1.0, 1, 5) | (1e0, 1, 5) | (1, 1, 2+3) | (1, 1, '5')".split(b" | ")
NO_SHAPES += b"(1, (1,), 5) | (1, 1, 5j) | (1, 1, 5l) | (1, 1, _5) | (True, 1, 5)".split(b" | ")
HEADERS += [(f"shape {shape}", with_shape(shape), 29, False) for shape in NO_SHAPES]
PYTHON_SHAPES = b"(1, 1, +5) | (1, 1, 0x5) | (1, 1, 0b101) | ((1), 1, 5) | ((1, 1, 5))".split(
    b" | "
)
HEADERS += [(f"shape {shape}", with_shape(shape), 29, True) for shape in PYTHON_SHAPES]


# ---- whole files: around the text, and behind it
def file_of(version, length_bytes, text, body=SMALL_BITS.tobytes()):
    return b"\x93NUMPY" + bytes(version) + len(text).to_bytes(length_bytes, "little") + text + body


SOUND = file_of((1, 0), 2, padded(WRITTEN))
# Behind twelve bytes, a multiple of 64 needs two spaces less.
LATER = padded(WRITTEN)[:-3] + b"\n"
FILES = [
    ("sound file", SOUND, 0, True),
    ("version 2.0", file_of((2, 0), 4, LATER), 29, True),
    ("version 3.0", file_of((3, 0), 4, LATER), 29, True),
    ("version 1.0, length of four bytes", file_of((1, 0), 4, LATER), 29, False),
    ("version 1.1", file_of((1, 1), 2, padded(WRITTEN)), 29, False),
    ("version 0.1", file_of((0, 1), 2, padded(WRITTEN)), 29, False),
    ("no magic byte", SOUND[1:], 29, False),
    ("another magic byte", b"\x92" + SOUND[1:], 29, False),
    ("length one too small", SOUND[:8] + b"\x75" + SOUND[9:], 29, False),
    ("length one too large", SOUND[:8] + b"\x77" + SOUND[9:], 29, False),
    ("length to the file's end", SOUND[:8] + b"\x8a" + SOUND[9:], 29, False),
    ("length past the file's end", SOUND[:8] + b"\x8b" + SOUND[9:], 29, False),
    ("length with its bytes swapped", SOUND[:8] + b"\x00\x76" + SOUND[10:], 29, False),
    ("no numbers", SOUND[:128], 29, False),
    ("a byte missing", SOUND[:-1], 29, False),
    ("a byte more", SOUND + b"\x00", 29, True),
    ("a number more", SOUND + b"\x00\x00\x80\x3f", 29, True),
    ("the file twice", SOUND + SOUND, 29, True),
    ("no file", b"", 29, False),
]
