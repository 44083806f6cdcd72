/* Document 01, and T-01 and T-02 of document 02, written down once more, in C, slowly and for short sections: what the calls must
   answer. It shares nothing with the library, and nothing with the Rust. */
#ifndef REFERENCE_H
#define REFERENCE_H

#include <stdbool.h>
#include <stddef.h>
#include <stdint.h>

/* 0 with the answer's numbers, or a refusal with its values. */
struct answer {
    uint32_t status;
    size_t count;
    uint64_t values[64];
};

struct span {
    size_t offset, length;
};

/* One list of records: those of a kind, initial or additional. */
struct list {
    size_t offset, count, width;
    bool include_index;
};

struct kind {
    struct list initial, additional;
    size_t count_offset;
};

#define MOST_NAMES 70000

struct model {
    size_t number_at, path_at, display_at, scroll_at, ending_at, end;
    size_t constraints, parents;
    struct span name, english_name, path;
    struct span *names; /* bones, then morphs */
    size_t bones, morphs;
    struct kind bone, morph, whole;
    size_t bone_states, morph_states, constraint_states, parent_states;
};

struct track {
    struct kind records;
    size_t state, end;
};

enum track_kind { CAMERA, LIGHT };

/* Reads; the answer has status 0 and no numbers, or the refusal. */
struct answer read_model(const uint8_t *section, size_t length, size_t start, struct model *model);
struct answer read_track(const uint8_t *section, size_t length, size_t start, enum track_kind kind, struct track *track);

/* The numbers of a section that was read. */
struct answer model_numbers(const uint8_t *section, size_t start, const struct model *model);
struct answer track_numbers(size_t start, const struct track *track);

/* What the build gives before the caller's slices are looked at; `strip` has room for any strip of a short section. */
struct built {
    struct answer answer; /* status 0: length, reached, loose */
    uint16_t *first, *second;
    uint8_t *strip;
    size_t length;
};
void build(const uint8_t *section, const struct model *model, struct built *built);

/* T-01: the number of the reference, or 2^64 - 1 for none; or the refusal. */
struct answer find_reference(const uint8_t *path, size_t path_length, const uint8_t *list, size_t list_length);

/* T-02: what the calls that read a strip back answer. `rows` is written as far as a refusal is met; `written` tells how many of its
   places the call must write. */
struct answer strip_counts(const uint8_t *strip, size_t length);
struct answer strip_key_count(const uint8_t *strip, size_t length, uint32_t kind, uint32_t track);
struct answer strip_key(const uint8_t *strip, size_t length, uint32_t kind, uint32_t track, uint64_t place);
struct answer strip_keys(const uint8_t *strip, size_t length, uint64_t first, uint32_t *rows, size_t room, size_t *written);

/* An i32's pattern or a float's bits, as the calls answer both: a float is never made of them, so a NaN stays the one it is. */
uint32_t u32_at(const uint8_t *section, size_t offset);

#endif
