/* A strip read back, after document 02, T-02. */
#include <string.h>

#include "reference.h"

#define MOST_BYTES 16777215
#define MOST_ADDITIONAL 65534
#define MOST_KEYS 65535
#define MOST_FRAME 0x7fffffff

enum { TOO_LONG = 16, ABSENT = 19, NOT_WHOLE = 23, UNKNOWN_MAP = 24, NEVER_WRITTEN = 25 };

struct front {
    const uint8_t *strip;
    size_t length, at;
    uint32_t refused; /* the first refusal met */
};

/* What is done with each key: its row of kind, track, place, frame, map and the fields. */
typedef void visit(void *, const uint32_t row[16]);

static void refuse(struct front *f, uint32_t number) {
    if (f->refused == 0) f->refused = number;
}

static uint32_t number(struct front *f, size_t width) {
    uint32_t value = 0;
    if (f->refused == 0 && f->length - f->at < width) refuse(f, NOT_WHOLE);
    if (f->refused != 0) return 0;
    for (size_t i = 0; i < width; i++) value |= (uint32_t)f->strip[f->at++] << 8 * i;
    return value;
}

static float real(uint32_t bits) {
    float value;
    memcpy(&value, &bits, 4);
    return value;
}

static bool finite(const uint32_t *bits, size_t n) {
    for (size_t i = 0; i < n; i++)
        if ((bits[i] & 0x7f800000) == 0x7f800000) return false;
    return true;
}

/* A group of fields: read if its bit stands, else plain; whether the builder writes it. */
static bool floats(struct front *f, bool stands, uint32_t *bits, size_t n, const float *plain, float shortest) {
    bool other = false;
    for (size_t i = 0; i < n; i++) {
        float value = plain[i];
        memcpy(bits + i, &value, 4);
    }
    if (!stands) return true;
    for (size_t i = 0; i < n; i++) bits[i] = number(f, 4);
    for (size_t i = 0; i < n; i++) other |= real(bits[i]) != plain[i];
    float sum = 0;
    for (size_t i = 0; i < n; i++) sum = i == 0 ? real(bits[i]) * real(bits[i]) : sum + real(bits[i]) * real(bits[i]);
    return finite(bits, n) && other && (shortest < 0 || sum > shortest);
}

static bool curves(struct front *f, bool stands, uint32_t *numbers, size_t n) {
    static const uint8_t plain[4] = {20, 20, 107, 107};
    bool other = false, high = false;
    for (size_t i = 0; i < n; i++) {
        numbers[i] = 0;
        for (size_t j = 0; j < 4; j++) {
            uint32_t byte = stands ? number(f, 1) : plain[j];
            if (byte != plain[j]) other = true;
            if (byte > 127) high = true;
            numbers[i] |= byte << 8 * j;
        }
    }
    return !stands || (other && !high);
}

static void key(struct front *f, bool morph, uint32_t *numbers) {
    static const float origin[3], unturned[4] = {0, 0, 0, 1};
    uint32_t frame = number(f, 4), map = number(f, 1);
    bool written = frame <= MOST_FRAME;
    if (map > (morph ? 1 : 15)) refuse(f, UNKNOWN_MAP);
    memset(numbers, 0, 13 * sizeof *numbers);
    numbers[0] = frame;
    numbers[1] = map;
    if (morph) {
        written &= floats(f, map & 1, numbers + 2, 1, origin, -1);
    } else {
        written &= floats(f, map & 1, numbers + 2, 3, origin, -1);
        written &= floats(f, map & 2, numbers + 5, 4, unturned, 0x1p-23f);
        written &= curves(f, map & 4, numbers + 9, 3);
        written &= curves(f, map & 8, numbers + 12, 1);
    }
    if (!written) refuse(f, NEVER_WRITTEN);
}

/* Whether one of the frames before is this one. */
static bool repeated(const uint32_t *frames, size_t before, uint32_t *greatest) {
    uint32_t frame = frames[before];
    bool higher = before == 0 || frame > *greatest;
    if (higher) *greatest = frame;
    for (size_t i = 0; i < before && !higher; i++)
        if (frames[i] == frame) return true;
    return false;
}

static size_t track(struct front *f, uint32_t kind, uint32_t track, visit *each, void *told) {
    static uint32_t frames[MOST_KEYS];
    uint32_t greatest = 0, row[16] = {kind, track};
    size_t keys = number(f, 2);
    for (size_t place = 0; place < keys && f->refused == 0; place++) {
        row[2] = (uint32_t)place;
        key(f, kind == 1, row + 3);
        frames[place] = row[3];
        if (f->refused == 0 && repeated(frames, place, &greatest)) refuse(f, NEVER_WRITTEN);
        if (f->refused == 0) each(told, row);
    }
    return keys;
}

/* 0, or the refusal; the keys before it were told of. */
static uint32_t walk(const uint8_t *strip, size_t length, size_t counts[2], visit *each, void *told) {
    struct front front = {strip, length, 0, length > MOST_BYTES ? TOO_LONG : 0}, *f = &front;
    counts[0] = number(f, 2);
    counts[1] = number(f, 2);
    for (uint32_t kind = 0; kind < 2; kind++) {
        size_t additional = 0;
        for (uint32_t t = 0; t < counts[kind] && f->refused == 0; t++) {
            size_t keys = track(f, kind, t, each, told);
            if (keys == 0) refuse(f, NEVER_WRITTEN);
            additional += keys - 1;
            if (additional > MOST_ADDITIONAL) refuse(f, NEVER_WRITTEN);
        }
    }
    if (f->at < length) refuse(f, NOT_WHOLE);
    return f->refused;
}

/* What is looked for among the keys, and what was found. */
struct search {
    uint32_t kind, track;
    uint64_t place, first;
    size_t all, of_track;
    uint32_t found[13];
    bool there;
    uint32_t *rows;
    size_t room, written;
};

static void look(void *told, const uint32_t row[16]) {
    struct search *s = told;
    if (row[0] == s->kind && row[1] == s->track) {
        s->of_track++;
        if (row[2] == s->place) {
            s->there = true;
            memcpy(s->found, row + 3, sizeof s->found);
        }
    }
    if (s->all >= s->first && s->room - s->written >= 16) {
        memcpy(s->rows + s->written, row, 16 * sizeof *row);
        s->written += 16;
    }
    s->all++;
}

struct answer strip_counts(const uint8_t *strip, size_t length) {
    struct search s = {0};
    size_t counts[2];
    uint32_t refused = walk(strip, length, counts, look, &s);
    if (refused != 0) return (struct answer){refused, 0, {0}};
    return (struct answer){0, 2, {counts[0], counts[1]}};
}

struct answer strip_key_count(const uint8_t *strip, size_t length, uint32_t kind, uint32_t track) {
    struct search s = {.kind = kind, .track = track};
    size_t counts[2];
    uint32_t refused = walk(strip, length, counts, look, &s);
    /* A track that is there has keys. */
    if (refused == 0 && s.of_track == 0) refused = ABSENT;
    if (refused != 0) return (struct answer){refused, 0, {0}};
    return (struct answer){0, 1, {s.of_track}};
}

struct answer strip_key(const uint8_t *strip, size_t length, uint32_t kind, uint32_t track, uint64_t place) {
    struct search s = {.kind = kind, .track = track, .place = place};
    size_t counts[2];
    uint32_t refused = walk(strip, length, counts, look, &s);
    if (refused == 0 && !s.there) refused = ABSENT;
    struct answer answer = {refused, refused == 0 ? 13 : 0, {0}};
    for (size_t i = 0; i < answer.count; i++) answer.values[i] = s.found[i];
    return answer;
}

struct answer strip_keys(const uint8_t *strip, size_t length, uint64_t first, uint32_t *rows, size_t room, size_t *written) {
    struct search s = {.first = first, .rows = rows, .room = room};
    size_t counts[2];
    uint32_t refused = walk(strip, length, counts, look, &s);
    *written = refused == 0 ? s.written : 0;
    if (refused != 0) return (struct answer){refused, 0, {0}};
    return (struct answer){0, 1, {s.all}};
}
