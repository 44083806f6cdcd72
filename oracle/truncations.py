#!/usr/bin/env python3
"""Writes a model section, the widths of its items and what is to be shown of it, for crates/by_hand and crates/contents.

    python3 oracle/truncations.py crates/by_hand/data crates/contents

The section is put together item by item after document 01's tables, and each item's width is noted as it is written: a number, a
byte, a string body, an interpolation block or a skipped block is one item. So the widths come from no reader. `section` starts
with three bytes that belong to no item; `widths` has two bytes for each item, the lower one first. `shown` has a line for each
name and for each record's payload.
"""
import struct
import sys

section, widths, shown = bytearray(b"\xaa\xbb\xcc"), [], []


def item(data):
    section.extend(data)
    widths.append(len(data))


def u8(n):
    item(bytes([n]))


def i32(*numbers):
    for n in numbers:
        item(struct.pack("<i", n))


def f32(*numbers):
    for n in numbers:
        item(struct.pack("<f", n))


def string(data, label):
    u8(len(data))
    item(data)
    shown.append(f"{label} {data.hex()}")


BONES, MORPHS, CONSTRAINTS, PARENTS = 3, 2, 3, 2


def record(label, number, index, frame, payload):
    if index is not None:
        i32(index)
    i32(frame, 0, 0)
    start = len(section)
    payload()
    initial = "initial " if index is None else ""
    shown.append(f"{initial}{label} record {number} {section[start:].hex()}")


# No two records have the same payload: `len(shown)` is another number for each.
def bone():
    item(bytes(range(len(shown), len(shown) + 16)))
    f32(len(shown) + 0.5, -2.0, 0.25)
    f32(0.0, 0.0, 0.0, 1.0)
    u8(0)
    u8(1)


def morph():
    f32(len(shown) + 0.25)
    u8(1)


def model():
    u8(1)
    for k in range(CONSTRAINTS):
        u8(k % 2)
    for k in range(PARENTS):
        i32(len(shown) + k, -1)
    u8(1)


u8(7)
string(b"\x8f\x89\x89\xb9", "name")
string(b"", "english name")
PATH = b"UserFile\\Model\\a.pmx"
item((PATH + b"\0old").ljust(256, b"\0"))
shown.append(f"path {PATH.hex()}")
u8(1)
i32(BONES)
for k, name in enumerate((b"", b"\x83Z\x83\x93", b"x" * 255)):
    string(name, f"bone {k}")
i32(MORPHS)
for k, name in enumerate((b"a", b"smile")):
    string(name, f"morph {k}")
i32(CONSTRAINTS)
item(bytes(4 * CONSTRAINTS))
i32(PARENTS)
item(bytes(4 * PARENTS))
u8(2)
u8(1)
i32(-1, 0, 1, 2, -3)
u8(5)
item(b"\1\0\1\0\1")
i32(4, 600)
for track in range(BONES):
    record("bone", track, None, 0, bone)
i32(2)
for key in range(2):
    record("bone", key, BONES + key, 10 * key + 10, bone)
for track in range(MORPHS):
    record("morph", track, None, 0, morph)
i32(3)
for key in range(3):
    record("morph", key, MORPHS + key, 5 * key, morph)
record("model", 0, None, 0, model)
i32(2)
for key in range(2):
    record("model", key, 1 + key, 30 * key + 30, model)
for track in range(BONES):
    f32(0.0, 0.0, 0.0)
    f32(0.0, 0.0, 0.0, 1.0)
    u8(0)
    u8(1)
    u8(0)
for track in range(MORPHS):
    f32(0.75)
for k in range(CONSTRAINTS):
    u8(1)
for k in range(PARENTS):
    i32(0, 1, 2, 3)
u8(1)
f32(1.0)
u8(0)
u8(9)

folder, show = sys.argv[1:]
for place in (folder, show + "/data"):
    with open(place + "/section", "wb") as out:
        out.write(section)
with open(folder + "/widths", "wb") as out:
    out.write(b"".join(struct.pack("<H", w) for w in widths))
with open(show + "/stdout", "w") as out:
    counts = f"bones {BONES} morphs {MORPHS} constraints {CONSTRAINTS} outside parents {PARENTS}"
    print(f"{counts} end {len(section)}", file=out)
    print("\n".join(shown), file=out)
