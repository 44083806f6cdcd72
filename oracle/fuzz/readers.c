/* The 31 calls that read a section, and what each must answer. */
#include "../../crates/exports/include/limdroven.h"
#include "harness.h"

/* A call that answers numbers, with places enough and with those of the header. */
#define NUMBERS(call, expected, ...)                                                                                   \
    do {                                                                                                               \
        struct answer asked = expected;                                                                                \
        making = #call;                                                                                                \
        for (int turn = 0; turn < 2; turn++) {                                                                         \
            size_t lent = turn == 0 ? asked.count + 2 : room(asked.count);                                             \
            struct slice values = lend_slice(8 * lent, 1);                                                             \
            same_status(limdroven_##call(values.section, length, start, ##__VA_ARGS__, values.at, lent), &asked);      \
            take_back(&values, asked.values, 8 * asked.count);                                                         \
        }                                                                                                              \
    } while (0)

/* A call that answers bytes, the same and with those of the header directly behind the section. */
#define BYTES(call, part, part_length, ...)                                                                            \
    do {                                                                                                               \
        size_t whole = part_length;                                                                                    \
        making = #call;                                                                                                \
        for (int turn = 0; turn < 3; turn++) {                                                                         \
            size_t lent = turn == 0 ? whole + 2 : room(whole);                                                         \
            struct slice output = turn < 2 ? lend_slice(lent, 2) : lend_behind(lent, 2);                               \
            size_t said = limdroven_##call(output.section, length, start, ##__VA_ARGS__, output.at, lent);             \
            hold(said == whole, "another length");                                                                     \
            take_back(&output, part, whole);                                                                           \
        }                                                                                                              \
    } while (0)

static const struct answer absent = {19, 0, {0}};

static void add(struct answer *a, uint64_t value) {
    a->values[a->count++] = value;
}

static void add_floats(struct answer *a, size_t offset, size_t n) {
    for (size_t i = 0; i < n; i++) add(a, u32_at(copy, offset + 4 * i));
}

static void add_base(struct answer *a, const struct list *list, size_t at) {
    add(a, list->include_index ? u32_at(copy, at) : UINT64_MAX);
    for (size_t i = 0; i < 3; i++) add(a, u32_at(copy, at + (list->include_index ? 4 : 0) + 4 * i));
}

static size_t payload_at(const struct list *list, size_t at) {
    return at + (list->include_index ? 16 : 12);
}

static void add_span(struct answer *a, const struct list *list, size_t at) {
    size_t payload = payload_at(list, at);
    add(a, at);
    add(a, list->width);
    add(a, payload);
    add(a, at + list->width - payload);
}

enum record { A_BONE, A_MORPH, A_MODEL, A_CAMERA, A_LIGHT };

/* The numbers of a record; 19 where the list has none of that number, and the refusal of a section that is not read. */
static struct answer record(const struct answer *read, enum record kind, const struct list *list, uint64_t number,
                            const struct model *m) {
    if (read->status != 0) return *read;
    if (number >= list->count) return absent;
    size_t at = list->offset + number * list->width, p = payload_at(list, at);
    struct answer a = {0, 0, {0}};
    add_base(&a, list, at);
    switch (kind) {
    case A_BONE:
        add_floats(&a, p + 16, 7);
        add(&a, copy[p + 44] != 0);
        add(&a, copy[p + 45] != 0);
        break;
    case A_MORPH:
        add_floats(&a, p, 1);
        add(&a, copy[p + 4] != 0);
        break;
    case A_MODEL: {
        size_t bools = p + 1, pairs = bools + m->constraints, shadow = pairs + 8 * m->parents;
        add(&a, copy[p] != 0);
        add(&a, copy[shadow] != 0);
        add(&a, p);
        add(&a, m->constraints);
        add(&a, bools);
        add(&a, m->constraints);
        add(&a, m->parents);
        add(&a, pairs);
        add(&a, 8 * m->parents);
        add(&a, shadow);
        break;
    }
    case A_CAMERA:
        add_floats(&a, p, 7);
        add(&a, u32_at(copy, p + 28));
        add(&a, u32_at(copy, p + 32));
        add(&a, copy[p + 60] == 0);
        add(&a, u32_at(copy, p + 61));
        add(&a, copy[p + 65] != 0);
        add(&a, p);
        add(&a, p + 4);
        add(&a, 12);
        add(&a, p + 16);
        add(&a, 12);
        add(&a, p + 28);
        add(&a, p + 32);
        add(&a, p + 36);
        add(&a, 24);
        add(&a, p + 60);
        add(&a, p + 61);
        add(&a, p + 65);
        break;
    case A_LIGHT:
        add_floats(&a, p, 6);
        add(&a, copy[p + 24] != 0);
        add(&a, p);
        add(&a, 12);
        add(&a, p + 12);
        add(&a, 12);
        add(&a, p + 24);
        break;
    }
    add_span(&a, list, at);
    return a;
}

/* The bytes of a record's payload from `from` on, or none. */
static const uint8_t *part(const struct answer *read, const struct list *list, uint64_t number, size_t from, size_t *size) {
    static const uint8_t none[1];
    if (read->status != 0 || number >= list->count) {
        *size = 0;
        return none;
    }
    size_t at = list->offset + number * list->width, p = payload_at(list, at);
    if (*size == 0) *size = at + list->width - p;
    return copy + p + from;
}

static struct answer text(const struct answer *read, const struct span *span) {
    if (read->status != 0) return *read;
    if (span == NULL) return absent;
    struct answer a = {0, 2, {span->offset, span->length}};
    return a;
}

#define TEXT(name, place, ...)                                                                                         \
    do {                                                                                                               \
        const struct span *is = place;                                                                                 \
        bool there = read.status == 0 && is != NULL;                                                                   \
        NUMBERS(name##_span, text(&read, is), ##__VA_ARGS__);                                                          \
        BYTES(name, there ? copy + is->offset : copy, there ? is->length : 0, ##__VA_ARGS__);                          \
    } while (0)

static struct answer state(const struct answer *read, size_t count, uint64_t number) {
    struct answer a = {0, 0, {0}};
    return read->status != 0 ? *read : number >= count ? absent : a;
}

void model_calls(const struct answer *refused, const struct model *m) {
    struct answer read = *refused;
    bool include_index = header[7] & 1;
    uint64_t number = chosen(8), entry = chosen(10);
    const struct list *bones = include_index ? &m->bone.additional : &m->bone.initial;
    const struct list *morphs = include_index ? &m->morph.additional : &m->morph.initial;
    const struct list *models = include_index ? &m->whole.additional : &m->whole.initial;
    NUMBERS(model_summary, read.status == 0 ? model_numbers(copy, start, m) : read);
    NUMBERS(bone_keyframe, record(&read, A_BONE, bones, number, m), include_index, number);
    NUMBERS(morph_keyframe, record(&read, A_MORPH, morphs, number, m), include_index, number);
    NUMBERS(model_keyframe, record(&read, A_MODEL, models, number, m), include_index, number);

    struct answer one = state(&read, models->count, number);
    if (one.status == 0) {
        size_t p = payload_at(models, models->offset + number * models->width) + 1;
        struct answer flag = state(&read, m->constraints, entry), pair = state(&read, m->parents, entry);
        if (flag.status == 0) add(&flag, copy[p + entry] != 0);
        if (pair.status == 0) {
            add(&pair, u32_at(copy, p + m->constraints + 8 * entry));
            add(&pair, u32_at(copy, p + m->constraints + 8 * entry + 4));
        }
        NUMBERS(model_keyframe_constraint_state, flag, include_index, number, entry);
        NUMBERS(model_keyframe_outside_parent, pair, include_index, number, entry);
    } else {
        NUMBERS(model_keyframe_constraint_state, one, include_index, number, entry);
        NUMBERS(model_keyframe_outside_parent, one, include_index, number, entry);
    }

    struct answer bone = state(&read, m->bones, number), morph = state(&read, m->morphs, number);
    struct answer constraint = state(&read, m->constraints, number), parent = state(&read, m->parents, number);
    if (bone.status == 0) {
        size_t at = m->bone_states + 31 * number;
        add_floats(&bone, at, 7);
        for (size_t i = 0; i < 3; i++) add(&bone, copy[at + 28 + i] != 0);
    }
    if (morph.status == 0) add_floats(&morph, m->morph_states + 4 * number, 1);
    if (constraint.status == 0) add(&constraint, copy[m->constraint_states + number] != 0);
    if (parent.status == 0)
        for (size_t i = 0; i < 4; i++) add(&parent, u32_at(copy, m->parent_states + 16 * number + 4 * i));
    NUMBERS(bone_state, bone, number);
    NUMBERS(morph_state, morph, number);
    NUMBERS(constraint_state, constraint, number);
    NUMBERS(outside_parent_state, parent, number);

    TEXT(name, &m->name);
    TEXT(english_name, &m->english_name);
    TEXT(path, &m->path);
    TEXT(bone_name, number < m->bones ? &m->names[number] : NULL, number);
    TEXT(morph_name, number < m->morphs ? &m->names[m->bones + number] : NULL, number);

    size_t size = 0;
    const uint8_t *bytes = part(&read, bones, number, 0, &size);
    BYTES(bone_payload, bytes, size, include_index, number);
    size = 0;
    bytes = part(&read, morphs, number, 0, &size);
    BYTES(morph_payload, bytes, size, include_index, number);
    size = 0;
    bytes = part(&read, models, number, 0, &size);
    BYTES(model_payload, bytes, size, include_index, number);
    size = 16;
    bytes = part(&read, bones, number, 0, &size);
    BYTES(bone_interpolation, bytes, size, include_index, number);
}

void track_calls(void) {
    struct track camera, light;
    struct answer read = read_track(copy, length, start, CAMERA, &camera);
    bool include_index = header[7] & 1;
    uint64_t number = chosen(8);
    const struct list *list = include_index ? &camera.records.additional : &camera.records.initial;
    size_t size = 0;
    NUMBERS(camera_summary, read.status == 0 ? track_numbers(start, &camera) : read);
    NUMBERS(camera_keyframe, record(&read, A_CAMERA, list, number, NULL), include_index, number);
    const uint8_t *bytes = part(&read, list, number, 0, &size);
    BYTES(camera_payload, bytes, size, include_index, number);
    size = 24;
    bytes = part(&read, list, number, 36, &size);
    BYTES(camera_interpolation, bytes, size, include_index, number);

    read = read_track(copy, length, start, LIGHT, &light);
    list = include_index ? &light.records.additional : &light.records.initial;
    NUMBERS(light_summary, read.status == 0 ? track_numbers(start, &light) : read);
    NUMBERS(light_keyframe, record(&read, A_LIGHT, list, number, NULL), include_index, number);
    size = 0;
    bytes = part(&read, list, number, 0, &size);
    BYTES(light_payload, bytes, size, include_index, number);
}
