"""Reads a message from standard input and prints the value (10.6) of each result, and its unit (10.7) in parentheses.

The archive's code may stand at any address, so one command makes a shared library of it:

    gcc -shared -Wl,--whole-archive target/staticlib/libsargaceu.a -Wl,--no-whole-archive -o target/libsargaceu.so
    python3 examples/python/read.py target/libsargaceu.so <samples/report.hpr
"""
import sys
from ctypes import CDLL, POINTER, c_char_p, c_size_t, c_uint8, c_uint32
from enum import IntEnum

BYTES, NUMBERS, SIZES = POINTER(c_uint8), POINTER(c_uint32), POINTER(c_size_t)

SMALL, VERSION = 0, 3  # the form of the messages, and the version that the declarations below are of

library = CDLL(sys.argv[1])
library.sargaceu_version.restype = c_uint32
library.sargaceu_version.argtypes = []
if library.sargaceu_version() != VERSION:
    sys.exit("the library has another version")
# Without these ctypes would pass every number as an int, which is too narrow for a length.
library.sargaceu_read.restype = c_uint8
library.sargaceu_read.argtypes = [c_uint8, c_char_p, c_size_t, BYTES, c_size_t, NUMBERS, c_size_t, NUMBERS, c_size_t,
                                  SIZES, c_size_t]
library.sargaceu_find_leaf_in_segment.restype = c_uint8
library.sargaceu_find_leaf_in_segment.argtypes = [SIZES, c_size_t, NUMBERS, c_size_t, NUMBERS, c_size_t, BYTES, c_size_t,
                                                  c_uint32, c_uint32, c_uint32, c_uint32, c_uint32, SIZES, c_size_t]


class Sought(IntEnum):
    """What a lookup of a leaf answers."""
    NOT_THERE = 0
    FOUND = 1
    FOUND_EMPTY = 2


message = sys.stdin.buffer.read()
text, segments, leaves = (c_uint8 * 16384)(), (c_uint32 * 1024)(), (c_uint32 * 14336)()
answer, leaf = (c_size_t * 6)(), (c_size_t * 2)()

number = library.sargaceu_read(SMALL, message, len(message), text, len(text), segments, len(segments), leaves, len(leaves),
                               answer, len(answer))
if number != 0:
    print(f"refused: {number} at {answer[0]}")
    sys.exit(1)
card = (c_size_t * 5)(*answer[1:])


def shown(row, field):
    """The text of a field's first leaf as it came, in ISO 8859-1; a blank where it was sent empty, a dash where it was never sent."""
    sought = library.sargaceu_find_leaf_in_segment(card, len(card), segments, len(segments), leaves, len(leaves), text, len(text),
                                                   row, field, 1, 1, 1, leaf, len(leaf))
    if sought == Sought.NOT_THERE:
        return b"-"
    if sought == Sought.FOUND_EMPTY:
        return b" "
    start, length = leaf
    return bytes(text[start:start + length])


OBX = 6
for row in range(1, card[2] + 1):
    if segments[(row - 1) * 4] == OBX:
        sys.stdout.buffer.write(b"row %d: %s (%s)\n" % (row, shown(row, 6), shown(row, 7)))
