#!/usr/bin/env python3
"""mutants.py FOLDER CHANGES SEED [WORD]: does the harness notice a wrong library?

Takes the modules that modules.sh and build.sh left in FOLDER, changes one comparison, one sum or one constant of the library's code at a time, links
the harness with it and runs the files of FOLDER/seeds and FOLDER/corpus. Prints each change that was not noticed; some change code that no section reaches.
With a word, only functions whose name has it are changed.
"""
import random
import re
import subprocess
import sys
from pathlib import Path

SOURCES = ["reading.c", "building.c", "finding.c", "reading_strips.c", "lend.c", "readers.c", "strips.c", "paths.c", "strip_reads.c", "harness.c",
           "replay.c"]
PREDICATES = {
    "eq": "ne", "ne": "eq", "ult": "ule", "ule": "ult", "ugt": "uge", "uge": "ugt", "slt": "sle", "sle": "slt", "sgt": "sge", "sge": "sgt",
    "oeq": "one", "une": "oeq", "olt": "ole", "ole": "olt", "ogt": "oge", "oge": "ogt",
}


def changed(line):
    """The line with one thing wrong, or None."""
    found = re.search(r"\b([if]cmp) (?:samesign )?(\w+) ", line)
    if found and found[2] in PREDICATES:
        return line[: found.start(2)] + PREDICATES[found[2]] + line[found.end(2):]
    found = re.search(r"= (?:add|sub|mul|shl|and|or) .*i(?:8|16|32|64) .*, (\d+)$", line)
    if found:
        return line[: found.start(1)] + str(int(found[1]) + 1) + line[found.end(1):]
    found = re.search(r"= (add|sub) ", line)
    if found:
        return line[: found.start(1)] + {"add": "sub", "sub": "add"}[found[1]] + line[found.end(1):]
    found = re.search(r"store i(?:8|16|32|64) (\d+), ", line)
    if found:
        return line[: found.start(1)] + str(int(found[1]) ^ 1) + line[found.end(1):]
    return None


def function(text, at):
    """The name of the function that the line is in."""
    return re.search(r"@(.*?)[(]", next(line for line in reversed(text[:at]) if line.startswith("define")))[1]


def run(words, **more):
    return subprocess.run(words, stdout=subprocess.DEVNULL, stderr=subprocess.DEVNULL, **more)


def main():
    folder, changes, seed, word = Path(sys.argv[1]).resolve(), int(sys.argv[2]), int(sys.argv[3]), "".join(sys.argv[4:])
    here = Path(__file__).resolve().parent
    clang = (folder / "clang").read_text().strip()
    archives = here.parent.parent / "target" / "staticlib"
    files = sorted(str(file) for part in ["seeds", "corpus"] if (folder / part).exists() for file in (folder / part).iterdir())
    places, texts = [], {}
    for name in ["exports", "strip_export"]:
        text = (folder / f"{name}.ll").read_text().replace("sanitize_address ", "").split("\n")
        texts[name] = text
        places += [(name, at) for at, line in enumerate(text) if changed(line) and word in function(text, at)]
    random.Random(seed).shuffle(places)
    sources = [str(here / name) for name in SOURCES]
    noticed = taken = 0
    for name, at in places:
        if taken == changes:
            break
        text = texts[name].copy()
        text[at] = changed(text[at])
        mutant = folder / "mutant.ll"
        mutant.write_text("\n".join(text))
        flags = ["--target=x86_64-unknown-linux-gnu", "--no-default-config", "-fPIC", "-O1", "-x", "ir"]
        if run([clang, *flags, "-c", str(mutant), "-o", str(folder / "mutant.o")]).returncode != 0:
            continue
        other = {"exports": "strip_export", "strip_export": "exports"}[name]
        words = ["clang", "-std=c11", "-O1", "-ffp-contract=off", *sources, str(folder / "mutant.o")]
        run([*words, str(archives / f"lib{other}.a"), "-o", str(folder / "mutant")], check=True)
        taken += 1
        try:
            seen = run([str(folder / "mutant"), *files], timeout=60).returncode != 0
        except subprocess.TimeoutExpired:
            seen = True
        noticed += seen
        if not seen:
            print(f"not noticed: {function(text, at)}: {texts[name][at].strip()} -> {text[at].strip()}", flush=True)
    print(f"{noticed} of {taken} changes noticed, {len(places)} places, seed {seed}")


main()
