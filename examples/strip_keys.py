#!/usr/bin/env python3
"""Prints the keys of the stored strip in a file, one line each with its fields, or the refusal.

    python3 examples/strip_keys.py target/liblimdroven.so target/sample.strip

README.md, "In Rust, C, C++ and Python", tells how the shared library is made.
"""
import os
import struct
import sys
from ctypes import CDLL, POINTER, c_char_p, c_size_t, c_uint32, c_uint64

# One byte more than the library takes, so that it sees and refuses (16) a file that is too long.
MOST = 16777216

# The numbers of a key in `rows`: kind, track, place, frame, map, and ten of its fields.
ROW = 16


def strip_calls(path):
    """Two calls of limdroven_strip.h. The strip is given as bytes, and its length says where they end."""
    library = CDLL(os.path.abspath(path))
    counts, keys = library.limdroven_strip_counts, library.limdroven_strip_keys
    counts.argtypes = [c_char_p, c_size_t, POINTER(c_uint64), c_size_t]
    keys.argtypes = [c_char_p, c_size_t, c_size_t, POINTER(c_uint32), c_size_t, POINTER(c_uint64), c_size_t]
    counts.restype = keys.restype = c_uint32
    return counts, keys


def floats(bits):
    return " ".join(f"{number:.9g}" for number in struct.unpack(f"={len(bits)}f", struct.pack(f"={len(bits)}I", *bits)))


def told(row):
    kind, track, place, frame, key_map = row[:5]
    line = f"{('bone', 'morph')[kind]} {track} key {place} frame {frame} map {key_map}"
    if kind == 1:
        return f"{line} weight {floats(row[5:6])}"
    curves = " ".join(",".join(map(str, curve.to_bytes(4, "little"))) for curve in row[12:])
    return f"{line} translation {floats(row[5:8])} orientation {floats(row[8:12])} curves {curves}"


def main():
    if len(sys.argv) != 3:
        print(f"usage: {sys.argv[0]} LIBRARY STRIP", file=sys.stderr)
        return 2
    try:
        strip_counts, strip_keys = strip_calls(sys.argv[1])
        with open(sys.argv[2], "rb") as file:
            strip = file.read(MOST)
    except (OSError, AttributeError) as error:
        print(error, file=sys.stderr)
        return 4

    length, counts, keys = len(strip), (c_uint64 * 2)(), (c_uint64 * 1)()
    number = strip_counts(strip, length, counts, 2)
    if number != 0:
        print("refused", number)
        return 3
    # Lent no places, the call tells how many keys there are. A strip that one call takes is taken by all.
    strip_keys(strip, length, 0, None, 0, keys, 1)
    rows = (c_uint32 * (ROW * keys[0]))()
    strip_keys(strip, length, 0, rows, len(rows), keys, 1)
    print("bones", counts[0], "morphs", counts[1], "keys", keys[0])
    for at in range(0, len(rows), ROW):
        print(told(rows[at : at + ROW]))
    return 0


sys.exit(main())
