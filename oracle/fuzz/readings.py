#!/usr/bin/env python3
"""readings.py FOLDER [WORD]: does the harness notice where the library and the reference read document 02 differently?

Reads T-01 in finding.c or T-02 in reading_strips.c wrongly in one thing at a time, links the harness and the release archives with it and runs the
files of FOLDER/seeds and FOLDER/corpus, as replay does. Each wrong reading must be noticed, as a library that has it would be. With a word, only the
readings of the source whose name has it are tried.
"""
import subprocess
import sys
from pathlib import Path

SOURCES = "reading building finding reading_strips lend readers strips paths strip_reads harness replay".split()

# What is read wrongly, the line of the source, and what stands for it.
FINDING = [
    ("a run of slashes becomes one", "if (pair) i++;", "while (pair && i + 1 < length && text[i + 1] == '/') i++;"),
    ("two passes over the slashes", "struct span whole = {0, written};",
     "length = written, written = 0;"
     "for (size_t i = 0; i < length; i++) { if (text[i] == '/' && i + 1 < length && text[i + 1] == '/') i++; text[written++] = text[i]; }"
     "struct span whole = {0, written};"),
    ("the first userfile/", "for (size_t at = written; at-- > 0;) {", "for (size_t at = 0; at < written; at++) {"),
    ("userfile/ behind any byte", "bool begins = at == 0 || text[at - 1] == '/';", "bool begins = true;"),
    ("letter case counts", "if (lower(one[i]) != lower(other[i])) return false;", "if (one[i] != other[i]) return false;"),
    ("more than letters have a case", "return byte >= 'A' && byte <= 'Z' ?", "return byte >= '@' && byte <= '[' ?"),
    ("an entry's backslashes are slashes too", "return byte >= 'A' &&", "return byte == '\\\\' ? '/' : byte >= 'A' &&"),
    ("an entry needs only begin like the path", "if (one_length != other_length) return false;",
     "if (one_length < other_length) return false; one_length = other_length;"),
    ("every kind is a model", "if (entry.kind == A_MODEL && found) {", "if (found) {"),
    ("only models are counted", "number++;", "number += entry.kind == A_MODEL;"),
    ("the list may end inside an entry", "return cut_off;", "list_length = at;"),
    ("22 before 21", "if (path_length > MOST_BYTES || list_length > MOST_BYTES) return too_long;",
     "if (path_length > MOST_BYTES || list_length > MOST_BYTES) return too_long; if (!ascii(path, path_length)) return not_ascii;"),
    ("bytes above 127 count in models alone", "if (!ascii(list + entry.text.offset, entry.text.length)) return not_ascii;",
     "if (entry.kind == A_MODEL && !ascii(list + entry.text.offset, entry.text.length)) return not_ascii;"),
    ("bytes above 127 count in no entry", "if (!ascii(list + entry.text.offset, entry.text.length)) return not_ascii;", ""),
    ("bytes above 127 count in what is left of the path", "if (!ascii(path, path_length)) return not_ascii;",
     "uint8_t *left = malloc(path_length + 1); struct span span = normalised(path, path_length, left);"
     "if (!ascii(left + span.offset, span.length)) return not_ascii;"),
    ("a zero byte ends the path", "uint8_t *text = malloc(path_length + 1);",
     "for (size_t i = 0; i < path_length; i++) if (path[i] == 0) path_length = i; uint8_t *text = malloc(path_length + 1);"),
    ("16 is for both together", "if (path_length > MOST_BYTES || list_length > MOST_BYTES)", "if (path_length + list_length > MOST_BYTES)"),
    ("16 at the limit itself", "#define MOST_BYTES 16777215", "#define MOST_BYTES 16777214"),
]

READING_STRIPS = [
    ("a key's 25 before its 24", "if (map > (morph ? 1 : 15)) refuse(f, UNKNOWN_MAP);",
     "if (!written) refuse(f, NEVER_WRITTEN); if (map > (morph ? 1 : 15)) refuse(f, UNKNOWN_MAP);"),
    ("a frame's 25 before the key's 23 and 24", "bool written = frame <= MOST_FRAME;",
     "bool written = frame <= MOST_FRAME; if (!written) refuse(f, NEVER_WRITTEN);"),
    ("a field's 25 before the next one's 23", "written &= floats(f, map & 1, numbers + 2, 3, origin, -1);",
     "written &= floats(f, map & 1, numbers + 2, 3, origin, -1); if (!written) refuse(f, NEVER_WRITTEN);"),
    ("a repeated frame before the later key's 23 and 24", "row[2] = (uint32_t)place;",
     "row[2] = (uint32_t)place; uint32_t most = greatest; if (f->length - f->at >= 4) frames[place] = u32_at(f->strip, f->at);"
     "if (f->length - f->at >= 4 && repeated(frames, place, &most)) refuse(f, NEVER_WRITTEN);"),
    ("a key count tells that the strip ends early", "size_t keys = number(f, 2);",
     "size_t keys = number(f, 2); if (5 * keys > f->length - f->at) refuse(f, NOT_WHOLE);"),
    ("a frame is repeated by another track's", "frames[place] = row[3];",
     "static uint32_t all[2 * MOST_KEYS]; static size_t total; if (track == 0 && place == 0) total = 0; frames[place] = row[3];"
     "for (size_t i = 0; i < total && keys < 100; i++) if (all[i] == row[3]) refuse(f, NEVER_WRITTEN); all[total++] = row[3];"),
    ("a frame is repeated only by the next key", "for (size_t i = 0; i < before && !higher; i++)", "for (size_t i = before - 1; i < before && !higher; i++)"),
    ("frames must rise", "return false;\n}\n\nstatic size_t track", "return !higher;\n}\n\nstatic size_t track"),
    ("the first key's frame may be repeated", "for (size_t i = 0; i < before && !higher; i++)", "for (size_t i = 1; i < before && !higher; i++)"),
    ("no frame is repeated", "if (frames[i] == frame) return true;", ""),
    ("a bone's map may be 16", "(morph ? 1 : 15)", "(morph ? 1 : 16)"),
    ("a morph's map may be 2", "(morph ? 1 : 15)", "(morph ? 2 : 15)"),
    ("a morph's map is as a bone's", "(morph ? 1 : 15)", "15"),
    ("a plain field may stand", "return finite(bits, n) && other &&", "return finite(bits, n) &&"),
    ("-0 is not plain", "other |= real(bits[i]) != plain[i];", "other |= real(bits[i]) != plain[i] || bits[i] == 0x80000000;"),
    ("every float must be other", "bool other = false;\n    for", "bool other = true;\n    for",
     "other |= real(bits[i]) != plain[i];", "other &= real(bits[i]) != plain[i];"),
    ("plain curves may stand", "return !stands || (other && !high);", "return !stands || !high;"),
    ("127 is too high", "if (byte > 127) high = true;", "if (byte > 126) high = true;"),
    ("128 is not too high", "if (byte > 127) high = true;", "if (byte > 128) high = true;"),
    ("any curve byte", "if (byte > 127) high = true;", ""),
    ("floats need not be finite", "return finite(bits, n) && other &&", "return other &&"),
    ("a NaN is finite", "if ((bits[i] & 0x7f800000) == 0x7f800000) return false;", "if ((bits[i] & 0x7fffffff) == 0x7f800000) return false;"),
    ("any length of an orientation", "(shortest < 0 || sum > shortest)", "true"),
    ("a squared length of 2^-23 is enough", "sum > shortest)", "sum >= shortest)"),
    ("translations have a length too", "numbers + 2, 3, origin, -1)", "numbers + 2, 3, origin, 0x1p-23f)"),
    ("the frame 2^31", "#define MOST_FRAME 0x7fffffff", "#define MOST_FRAME 0x80000000"),
    ("the frame 2^31 - 1 is too high", "#define MOST_FRAME 0x7fffffff", "#define MOST_FRAME 0x7ffffffe"),
    ("any frame", "bool written = frame <= MOST_FRAME;", "bool written = true;"),
    ("bytes may be left over", "if (f->at < length) refuse(f, NOT_WHOLE);", ""),
    ("a track may have no keys", "if (keys == 0) refuse(f, NEVER_WRITTEN);", "if (keys == 0) keys = 1;"),
    ("keys are missing only at the end", "if (keys == 0) refuse(f, NEVER_WRITTEN);", "if (keys == 0 && t + 1 == counts[kind]) refuse(f, NEVER_WRITTEN); keys += keys == 0;"),
    ("the sum of both kinds", "size_t additional = 0;\n", "static size_t additional; if (kind == 0) additional = 0;\n"),
    ("the sum counts first keys", "additional += keys - 1;", "additional += keys;"),
    ("each track's sum by itself", "additional += keys - 1;", "additional = keys - 1;"),
    ("the sum is told at the kind's end", "if (additional > MOST_ADDITIONAL) refuse", "if (additional > MOST_ADDITIONAL && t + 1 == counts[kind]) refuse"),
    ("the sum at the limit itself", "#define MOST_ADDITIONAL 65534", "#define MOST_ADDITIONAL 65533"),
    ("the sum above its limit", "#define MOST_ADDITIONAL 65534", "#define MOST_ADDITIONAL 65535"),
    ("16 at the limit itself", "#define MOST_BYTES 16777215", "#define MOST_BYTES 16777214"),
    ("no 16", "length > MOST_BYTES ? TOO_LONG : 0", "0"),
    ("19 before the strip's refusals", "uint32_t refused = walk(strip, length, counts, look, &s);\n    if (refused == 0 && !s.there) refused = ABSENT;",
     "uint32_t refused = walk(strip, length, counts, look, &s);\n    if (!s.there) refused = ABSENT;"),
    ("places from 1", "if (row[2] == s->place) {", "if (row[2] + 1 == s->place) {"),
    ("morphs by the number behind the bones", "if (row[0] == s->kind && row[1] == s->track) {", "if (row[1] == s->track) {"),
    ("an absent orientation of zeros", "float value = plain[i];", "float value = 0;"),
    ("an absent curve of zeros", "uint32_t byte = stands ? number(f, 1) : plain[j];", "uint32_t byte = stands ? number(f, 1) : 0;"),
    ("a curve with the first byte highest", "numbers[i] |= byte << 8 * j;", "numbers[i] |= byte << 8 * (3 - j);"),
    ("rows as far as they fit in part", "s->room - s->written >= 16) {", "s->room > s->written) {"),
    ("a row more from the first on", "if (s->all >= s->first &&", "if (s->all + 1 >= s->first &&"),
    ("the rows written are counted", "return (struct answer){0, 1, {s.all}};", "return (struct answer){0, 1, {s.written / 16}};"),
]

READINGS = [("finding", "asset_reference_index_for_path: ", FINDING), ("reading_strips", "strip", READING_STRIPS)]


def noticed(folder, here, files, source, message, reading):
    name, *changes = reading
    text = (here / f"{source}.c").read_text()
    for old, new in zip(changes[::2], changes[1::2]):
        if text.count(old) != 1:
            sys.exit(f"{source}.c does not have once: {old}")
        text = text.replace(old, new)
    wrong, program, archives = folder / f"{source}.c", folder / "reading", here.parent.parent / "target" / "staticlib"
    wrong.write_text(text)
    sources = [str(here / f"{other}.c") for other in SOURCES if other != source]
    words = ["clang", "-std=c11", "-O1", "-ffp-contract=off", "-w", "-DHEAP", f"-I{here}", *sources, str(wrong)]
    subprocess.run([*words, *(str(archives / f"lib{name}.a") for name in ["exports", "strip_export"]), "-o", str(program)], check=True)
    seen = subprocess.run([str(program), *files], capture_output=True, text=True)
    if seen.returncode != 0 and message in seen.stderr:
        return True
    print(f"not noticed: {name}", flush=True)
    return False


def main():
    folder, here, word = Path(sys.argv[1]).resolve(), Path(__file__).resolve().parent, "".join(sys.argv[2:])
    files = sorted(str(file) for part in ["seeds", "corpus"] if (folder / part).exists() for file in (folder / part).iterdir())
    tried = [(source, message, reading) for source, message, readings in READINGS if word in source for reading in readings]
    times = sum(noticed(folder, here, files, *one) for one in tried)
    print(f"{times} of {len(tried)} wrong readings noticed")
    sys.exit(times != len(tried))


main()
