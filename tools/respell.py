#!/usr/bin/env python3
"""Brings the names of this repository's definitions and lemmas to Rattle's spelling: words in snake case, as `before_zero` for
`beforeZero`. Run once, at the top, behind the toolchain's own script; what is written after that has the new spelling.

Turned are the words that begin small and have a capital behind: in specs/ and proofs/, in clauses, imports and comments of src/,
in must-fail edits, and between backticks in README.md and docs/. The code of src/ has no such word, and C names, strings, inputs
and outputs are left alone.
"""

import glob
import re

WORD = re.compile(r"(?<![\w'-])[a-z_]\w*[A-Z][\w']*(?:-[\w']+)*|(?<![\w'-])[a-z_][\w']*(?:-[\w']+)*-[a-z]\w*[A-Z][\w']*(?:-[\w']+)*")
# Names that would fall together, and one that cites a word of std's by its older name.
FIRST = {"record_of": "record_of-found", "getD-bytesAt": "get_or-bytes_at"}


def snake(word):
    return re.sub(r"(?<=[a-z0-9])[A-Z]", lambda m: "_" + m.group(0).lower(), word)


def turned(text):
    for old, new in FIRST.items():
        text = re.sub(r"(?<![\w'-])" + re.escape(old) + r"(?![\w'-])", new, text)
    return WORD.sub(lambda m: snake(m.group(0)), text)


def files(*patterns):
    for pattern in patterns:
        for path in sorted(glob.glob(pattern, recursive=True)):
            if "/out/" not in path:
                yield path


def rewrite(path, turn):
    with open(path, encoding="utf-8") as f:
        old = f.read()
    new = turn(old)
    if new != old:
        with open(path, "w", encoding="utf-8") as f:
            f.write(new)


for path in files("crates/*/specs/**/*.antt", "crates/*/proofs/**/*.antt", "crates/*/must-fail/*.edit"):
    rewrite(path, turned)
for path in files("crates/*/src/**/*.rt"):
    # Strings stay as they are.
    rewrite(path, lambda text: "".join(part if part.startswith('"') else turned(part) for part in re.split(r'("(?:[^"\\\n]|\\.)*")', text)))
for path in files("README.md", "docs/*.md"):
    rewrite(path, lambda text: re.sub(r"`[^`\n]*`", lambda m: turned(m.group(0)), text))
