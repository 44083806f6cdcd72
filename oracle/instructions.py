#!/usr/bin/env python3
"""Instructions of one call, shape by shape, counted by valgrind: a table in Markdown.

    instructions.py [RECORDS]       # the strip call: additional records, 60000 if not given; and half as many
    instructions.py assets          # the look-up in a list of references: `bench assets` has the sizes; and half of them
    instructions.py strips          # the calls for both counts and for all keys of a strip read back: the same

Needs the oracle built with the library (README.md). With two cores, two counts are made at a time.
"""
import json
import re
import subprocess
import sys
import tempfile
from concurrent.futures import ThreadPoolExecutor
from pathlib import Path

ORACLE = Path(__file__).resolve().parent / "target/release/oracle"
# What the names of shapes for the look-up begin with, and those of strips read back.
ASSETS = "assets: "
STRIPS = "strips: "


def shapes():
    named = subprocess.run([ORACLE, "profile", "no shape", "1"], capture_output=True, text=True)
    quoted = re.search(r'".*"', named.stdout + named.stderr)
    if not quoted:
        sys.exit("the oracle has no `profile`: build it with the library")
    return json.loads(f"[{quoted.group()}]")


def counted(call, *arguments):
    """What `oracle profile` tells, and the instructions of the call."""
    with tempfile.TemporaryDirectory() as folder:
        command = ["valgrind", "--tool=callgrind", f"--callgrind-out-file={folder}/out", f"--toggle-collect={call}"]
        run = subprocess.run([*command, ORACLE, "profile", *arguments], capture_output=True, text=True, check=True)
    return run.stdout, int(re.search(r"Collected : (\d+)", run.stderr).group(1))


def strip(shape, records):
    return counted("limdroven_strip", shape, str(records))[1]


def with_half(call, shape):
    """The size, the bytes lent, and the instructions for the whole and for half of it."""
    told, whole = counted(call, shape)
    n, length = map(int, re.match(r": (\d+), (\d+) bytes", told.removeprefix(shape)).groups())
    return n, length, counted(call, shape, str(n // 2))[1], whole


def look_up(shape):
    return with_half("limdroven_asset_reference_index_for_path", shape)


def read_back(shape):
    """Those of the counts, and those of all keys."""
    return [with_half(f"limdroven_strip_{call}", shape) for call in ["counts", "keys"]]


def strips(names, pool, records):
    counts = list(pool.map(lambda name: (strip(name, records // 2), strip(name, records)), names))
    print(f"| shape | a record at {records:,} | {records // 2:,} to {records:,} |")
    print("| --- | --- | --- |")
    for name, (half, whole) in zip(names, counts):
        print(f"| {name} | {whole / records:,.0f} | {whole / half:.2f} |")


def look_ups(names, pool):
    print("| shape | n | instructions | a byte | half of n to n |")
    print("| --- | --- | --- | --- | --- |")
    for name, (n, length, half, whole) in zip(names, pool.map(look_up, names)):
        print(f"| {name} | {n:,} | {whole:,} | {whole / length:.2f} | {whole / half:.2f} |")


def strips_read_back(names, pool):
    print("| shape | n | counts: a key | a byte | half of n to n | keys: a key | a byte | half of n to n |")
    print("| --- | --- | --- | --- | --- | --- | --- | --- |")
    for name, calls in zip(names, pool.map(read_back, names)):
        columns = [f"{whole / n:,.0f} | {whole / length:.1f} | {whole / half:.2f}" for n, length, half, whole in calls]
        print(f"| {name} | {calls[0][0]:,} | {' | '.join(columns)} |")


def main():
    word = sys.argv[1] if len(sys.argv) > 1 else "60000"
    names = shapes()
    with ThreadPoolExecutor(2) as pool:
        if word == "assets":
            look_ups([name for name in names if name.startswith(ASSETS)], pool)
        elif word == "strips":
            strips_read_back([name for name in names if name.startswith(STRIPS)], pool)
        else:
            strips([name for name in names if not name.startswith((ASSETS, STRIPS))], pool, int(word))


main()
