/* Reading, after document 01, "Records" and the order of a section's items. */
#include <string.h>

#include "reference.h"

#define MOST_BYTES 16777215
#define MOST_TRACKS 65535
#define MOST_ADDITIONAL 65534

struct cursor {
    size_t length, at;
    const uint8_t *section;
    struct answer refused;
};

uint32_t u32_at(const uint8_t *section, size_t offset) {
    const uint8_t *b = section + offset;
    return b[0] | (uint32_t)b[1] << 8 | (uint32_t)b[2] << 16 | (uint32_t)b[3] << 24;
}

static void refuse(struct cursor *c, uint32_t number, size_t place) {
    if (c->refused.status == 0) {
        c->refused.status = number;
        c->refused.count = 1;
        c->refused.values[0] = place;
    }
}

/* One item of n bytes; its offset. */
static size_t item(struct cursor *c, size_t n) {
    size_t at = c->at;
    if (c->refused.status != 0) return at;
    if (at > c->length || n > c->length - at) {
        refuse(c, 1, at);
    } else {
        c->at += n;
    }
    return at;
}

static bool ok(const struct cursor *c) {
    return c->refused.status == 0;
}

static uint8_t byte(struct cursor *c) {
    size_t at = item(c, 1);
    return ok(c) ? c->section[at] : 0;
}

/* A count, with the limit that 20 is about. */
static size_t count(struct cursor *c, size_t limit) {
    size_t at = item(c, 4);
    if (!ok(c)) return 0;
    uint32_t n = u32_at(c->section, at);
    if (n >= 0x80000000) {
        refuse(c, 2, at);
    } else if (n > limit) {
        refuse(c, 20, at);
    }
    return ok(c) ? n : 0;
}

static struct span string(struct cursor *c) {
    size_t length = byte(c);
    struct span span = {item(c, length), length};
    return span;
}

enum sort { BONE, MORPH, MODEL, CAMERA_RECORD, LIGHT_RECORD };

static void items(struct cursor *c, size_t times, size_t width) {
    for (size_t i = 0; i < times && ok(c); i++) item(c, width);
}

static void record(struct cursor *c, enum sort sort, bool include_index, size_t constraints, size_t parents) {
    items(c, include_index ? 4 : 3, 4);
    switch (sort) {
    case BONE:
        item(c, 16);
        items(c, 7, 4);
        items(c, 2, 1);
        break;
    case MORPH:
        item(c, 4);
        item(c, 1);
        break;
    case MODEL:
        item(c, 1);
        items(c, constraints, 1);
        items(c, 2 * parents, 4);
        item(c, 1);
        break;
    case CAMERA_RECORD:
        items(c, 9, 4);
        item(c, 24);
        item(c, 1);
        item(c, 4);
        item(c, 1);
        break;
    case LIGHT_RECORD:
        items(c, 6, 4);
        item(c, 1);
        break;
    }
}

static size_t initial_width(enum sort sort, size_t constraints, size_t parents) {
    switch (sort) {
    case BONE: return 58;
    case MORPH: return 17;
    case MODEL: return 14 + constraints + 8 * parents;
    case CAMERA_RECORD: return 78;
    case LIGHT_RECORD: return 37;
    }
    return 0;
}

static struct kind records(struct cursor *c, enum sort sort, size_t initial, size_t limit, size_t constraints, size_t parents) {
    struct kind kind;
    size_t width = initial_width(sort, constraints, parents);
    kind.initial = (struct list){c->at, initial, width, false};
    for (size_t i = 0; i < initial && ok(c); i++) record(c, sort, false, constraints, parents);
    kind.count_offset = c->at;
    size_t additional = count(c, limit);
    kind.additional = (struct list){c->at, additional, width + 4, true};
    for (size_t i = 0; i < additional && ok(c); i++) record(c, sort, true, constraints, parents);
    return kind;
}

static struct cursor begin(const uint8_t *section, size_t length, size_t start) {
    struct cursor c = {length, start, section, {0, 0, {0}}};
    if (length > MOST_BYTES) c.refused.status = 16;
    return c;
}

struct answer read_model(const uint8_t *section, size_t length, size_t start, struct model *m) {
    static struct span names[2 * MOST_NAMES];
    struct cursor cursor = begin(section, length, start), *c = &cursor;
    size_t no_limit = 0x7fffffff;
    m->names = names;
    m->number_at = item(c, 1);
    m->name = string(c);
    m->english_name = string(c);
    m->path_at = item(c, 256);
    item(c, 1);
    m->bones = count(c, MOST_TRACKS);
    for (size_t i = 0; i < m->bones && ok(c); i++) names[i] = string(c);
    m->morphs = count(c, MOST_TRACKS);
    for (size_t i = 0; i < m->morphs && ok(c); i++) names[m->bones + i] = string(c);
    m->constraints = count(c, no_limit);
    item(c, 4 * m->constraints);
    m->parents = count(c, no_limit);
    item(c, 4 * m->parents);
    m->display_at = item(c, 1);
    item(c, 1);
    items(c, 5, 4);
    string(c);
    m->scroll_at = item(c, 4);
    item(c, 4);
    m->bone = records(c, BONE, m->bones, MOST_ADDITIONAL, 0, 0);
    m->morph = records(c, MORPH, m->morphs, MOST_ADDITIONAL, 0, 0);
    m->whole = records(c, MODEL, 1, no_limit, m->constraints, m->parents);
    m->bone_states = c->at;
    for (size_t i = 0; i < m->bones && ok(c); i++) {
        items(c, 7, 4);
        items(c, 3, 1);
    }
    m->morph_states = c->at;
    items(c, m->morphs, 4);
    m->constraint_states = c->at;
    items(c, m->constraints, 1);
    m->parent_states = c->at;
    items(c, 4 * m->parents, 4);
    m->ending_at = item(c, 1);
    item(c, 4);
    item(c, 1);
    item(c, 1);
    m->end = c->at;
    if (ok(c)) {
        const uint8_t *zero = memchr(section + m->path_at, 0, 256);
        m->path = (struct span){m->path_at, zero ? (size_t)(zero - (section + m->path_at)) : 256};
    }
    return c->refused;
}

struct answer read_track(const uint8_t *section, size_t length, size_t start, enum track_kind kind, struct track *track) {
    struct cursor c = begin(section, length, start);
    track->records = records(&c, kind == CAMERA ? CAMERA_RECORD : LIGHT_RECORD, 1, 0x7fffffff, 0, 0);
    track->state = item(&c, kind == CAMERA ? 37 : 24);
    track->end = c.at;
    return c.refused;
}

struct answer model_numbers(const uint8_t *s, size_t start, const struct model *m) {
    struct answer a = {0, 0, {0}};
    uint64_t *v = a.values;
    size_t n = 0;
    v[n++] = s[m->number_at];
    v[n++] = start;
    v[n++] = m->end;
    v[n++] = m->path_at;
    v[n++] = m->bones;
    v[n++] = m->morphs;
    v[n++] = m->constraints;
    v[n++] = m->parents;
    v[n++] = s[m->display_at];
    v[n++] = s[m->ending_at + 6];
    for (size_t i = 0; i < 5; i++) v[n++] = u32_at(s, m->display_at + 2 + 4 * i);
    v[n++] = u32_at(s, m->scroll_at);
    v[n++] = m->bones;
    v[n++] = m->bone.additional.count;
    v[n++] = m->morphs;
    v[n++] = m->morph.additional.count;
    v[n++] = 1;
    v[n++] = m->whole.additional.count;
    v[n++] = u32_at(s, m->scroll_at + 4);
    v[n++] = s[m->display_at + 1] != 0;
    v[n++] = s[m->ending_at] != 0;
    v[n++] = u32_at(s, m->ending_at + 1);
    v[n++] = s[m->ending_at + 5] != 0;
    const struct kind *kinds[] = {&m->bone, &m->morph, &m->whole};
    for (size_t i = 0; i < 3; i++) {
        const struct list *more = &kinds[i]->additional;
        v[n++] = kinds[i]->initial.offset;
        v[n++] = kinds[i]->count_offset;
        v[n++] = more->offset;
        v[n++] = more->offset + more->count * more->width;
    }
    v[n++] = m->bone_states;
    v[n++] = m->morph_states;
    v[n++] = m->constraint_states;
    v[n++] = m->parent_states;
    a.count = n;
    return a;
}

struct answer track_numbers(size_t start, const struct track *t) {
    const struct list *more = &t->records.additional;
    struct answer a = {0, 9, {start, t->end, 1, more->count, t->records.count_offset, more->offset,
                              more->offset + more->count * more->width, t->state, t->end}};
    return a;
}
