#!/usr/bin/env python3
"""Writes the section that crates/listing is run on and the lines that it must print.

    python3 oracle/sample.py crates/listing

The section is put together after document 01's tables from the tracks below, each a list of keys in chain order. The lines come from
the same tracks and from no reader: a key's map is worked out from its values. The additional records stand in the file in another
order than their chains, between them one bone record that no chain reaches.
"""
import struct
import sys

PLAIN = (20, 20, 107, 107)
STILL, UPRIGHT = (0.0, 0.0, 0.0), (0.0, 0.0, 0.0, 1.0)


def bone(frame, translation=STILL, orientation=UPRIGHT, move=(PLAIN,) * 3, turn=PLAIN):
    stands = (translation != STILL, orientation != UPRIGHT, move != (PLAIN,) * 3, turn != PLAIN)
    curves = b"".join(bytes(curve) for curve in (*move, turn))
    body = curves + struct.pack("<7f", *translation, *orientation) + bytes(2)
    return frame, sum(1 << k for k in range(4) if stands[k]), body


def morph(frame, weight=0.0):
    return frame, int(weight != 0), struct.pack("<f", weight) + bytes(1)


STEEP = (64, 0, 64, 127)
BONES = [
    [
        bone(0),
        bone(12, translation=(0.5, -1.0, 2.0)),
        bone(30, (0.5, -1.0, 2.0), (0.0, 0.6, 0.0, 0.8), (PLAIN, STEEP, PLAIN), STEEP),
        bone(24, orientation=(0.0, 1.0, 0.0, 0.0)),
    ],
    [bone(5, translation=(-0.0, 0.0, 0.0), turn=STEEP)],
    [bone(0, orientation=(0.0, 0.0, 0.0, -1.0)), bone(70000, move=(STEEP,) * 3)],
]
MORPHS = [[morph(0, 0.25), morph(9), morph(18, 1.0)], [morph(0)]]
LOOSE = bone(3, translation=(9.0, 9.0, 9.0))


def i32(*numbers):
    return struct.pack(f"<{len(numbers)}i", *numbers)


# Initial records, the count, and the additional records in the opposite of chain order. The indices begin at the number of tracks.
def block(tracks, loose):
    index, initial, additional = len(tracks), b"", []
    for track, keys in enumerate(tracks):
        indices = list(range(index, index + len(keys) - 1))
        index += len(indices)
        links = [track, *indices, 0]
        frame, _, body = keys[0]
        initial += i32(frame, 0, links[1]) + body
        for k, (frame, _, body) in enumerate(keys[1:], 1):
            additional.append(i32(links[k], frame, links[k - 1], links[k + 1]) + body)
    for frame, _, body in loose:
        additional.insert(2, i32(index, frame, 0, 0) + body)
        index += 1
    return initial + i32(len(additional)) + b"".join(reversed(additional))


def names(names):
    return i32(len(names)) + b"".join(bytes([len(name)]) + name for name in names)


section = bytes([1, 4]) + b"mini" + bytes(1) + b"UserFile\\Model\\mini.pmx".ljust(256, b"\0") + bytes(1)
section += names([b"root", b"", b"head"]) + names([b"smile", b"blink"])
section += i32(0, 0) + bytes([1, 1]) + i32(0, 0, 0, 0, 0) + bytes(1) + i32(0, 70000)
section += block(BONES, [LOOSE]) + block(MORPHS, [])
section += i32(0, 0, 0) + bytes([1, 0]) + i32(0)
section += len(BONES) * (struct.pack("<7f", *STILL, *UPRIGHT) + bytes(3)) + len(MORPHS) * bytes(4)
section += bytes(1) + struct.pack("<f", 1.0) + bytes(2)

lines = [f"model {len(BONES)} {len(MORPHS)} {len(section)}"]
for label, tracks in (("bone", BONES), ("morph", MORPHS)):
    for track, keys in enumerate(tracks):
        lines += [f"{label} {track} {frame} {stands}" for frame, stands, _ in keys]
lines.append(f"keys {len(lines) - 1} loose 1")

with open(sys.argv[1] + "/stdin", "wb") as out:
    out.write(section)
with open(sys.argv[1] + "/stdout", "w") as out:
    print("\n".join(lines), file=out)
