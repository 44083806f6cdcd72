#!/usr/bin/env python3
"""Makes the strip of the model section in a file and prints its length, reached and loose, or the refusal with its values.

    python3 examples/strip.py target/liblimdroven.so crates/listing/stdin

README.md, "In Rust, C, C++ and Python", tells how the shared library is made.
"""
import os
import sys
from ctypes import CDLL, POINTER, c_char_p, c_size_t, c_uint8, c_uint16, c_uint32, c_uint64

# One byte more than the library takes, so that it sees and refuses (16) a file that is too long.
MOST = 16777216

# How many values are written for each number that is returned; 0 stands for accepted.
VALUE_COUNT = (3, 1, 1, 2, 3, 2, 3, 3, 5, 0, 3, 3, 2, 2, 2, 2, 0, 1, 1, 0, 1)


def strip_call(path):
    """The call of limdroven_strip.h. The section is given as bytes, and its length says where they end."""
    call = CDLL(os.path.abspath(path)).limdroven_strip
    call.argtypes = [
        c_char_p, c_size_t, c_size_t,  # section and start
        POINTER(c_uint16), c_size_t,  # first
        POINTER(c_uint16), c_size_t,  # second
        POINTER(c_uint8), c_size_t,  # output
        POINTER(c_uint64), c_size_t,  # values
    ]
    call.restype = c_uint32
    return call


def main():
    if len(sys.argv) != 3:
        print(f"usage: {sys.argv[0]} LIBRARY SECTION", file=sys.stderr)
        return 2
    try:
        strip = strip_call(sys.argv[1])
        with open(sys.argv[2], "rb") as file:
            section = file.read(MOST)
    except (OSError, AttributeError) as error:
        print(error, file=sys.stderr)
        return 4

    # Lent no places, the call tells by 17 how many each work slice needs. Any other refusal is met again below.
    length, values = len(section), (c_uint64 * 5)()
    number = strip(section, length, 0, None, 0, None, 0, None, 0, values, 5)
    need = values[0] if number == 17 else 0
    first, second = (c_uint16 * need)(), (c_uint16 * need)()

    # No strip is longer than its section, so the output is long enough.
    output = (c_uint8 * length)()
    number = strip(section, length, 0, first, need, second, need, output, length, values, 5)
    if number == 0:
        print("length", values[0], "reached", values[1], "loose", values[2])
        return 0
    print("refused", number, *values[: VALUE_COUNT[number]])
    return 3


sys.exit(main())
