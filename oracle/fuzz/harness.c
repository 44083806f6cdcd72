/* Each input is a header of 16 bytes and a section, which is also taken as a path and a list, and as a strip. Every call is made on exactly
   the bytes and places lent, and what it returns and leaves is held against reference.h.

   header: 0 start (from 240 on a huge one), 1 added to a huge start, 2 and 3 places of the work slices besides those needed, 4 bytes of
   the output besides those needed (2 to 4 signed), 5 places of `values`, 6 what the slices hold before, 7 bit 0 include_index, bit 1
   slices with their forbidden page in front, bit 2 byte 4 counts from the section's length, bit 3 the strip's output directly behind the
   section, bits 4 and 5 the kind of a strip's track, 8 and 9 number or track, 10 and 11 entry or key (from 65,528 on huge ones), 12 and
   13 how many places an answer is short of, 14 and 15 length of the path, at most the section's. */
#include <stdio.h>
#include <stdlib.h>
#include <string.h>

#include "harness.h"
#include "lend.h"

#define HEADER 16

static const uint64_t HUGE_NUMBERS[16] = {
    UINT64_MAX,          UINT64_MAX - 3,      (uint64_t)1 << 63,   (uint64_t)1 << 32,       (uint64_t)1 << 31, UINT64_MAX / 58 + 1,
    UINT64_MAX / 62 + 1, UINT64_MAX / 31 + 1, UINT64_MAX / 17 + 1, UINT64_MAX / 21 + 1,     16777215,          65535,
    UINT64_MAX / 2,      UINT64_MAX - 400,    ((uint64_t)1 << 32) - 1, UINT64_MAX - 65535};

const uint8_t *header, *copy;
size_t length, start;
const char *making;
uint8_t *section;

void hold(bool held, const char *what) {
    if (held) return;
    fprintf(stderr, "%s: %s\n", making, what);
    abort();
}

void same_status(uint32_t status, const struct answer *expected) {
    if (status != expected->status) fprintf(stderr, "status %u instead of %u\n", status, expected->status);
    hold(status == expected->status, "another status");
}

uint64_t two_bytes(size_t place) {
    return header[place] | (uint64_t)header[place + 1] << 8;
}

uint64_t chosen(size_t place) {
    uint64_t number = two_bytes(place);
    return number >= 65528 ? HUGE_NUMBERS[number & 15] : number;
}

/* One short of none are two more. */
size_t room(size_t need) {
    size_t less = two_bytes(12) % (need + 3);
    return less <= need ? need - less : 2 * need + 3 - less;
}

static int front(void) {
    return header[7] >> 1 & 1;
}

static uint8_t before(const struct slice *slice, size_t place) {
    return (uint8_t)(header[6] + slice->more + (header[6] & 1 ? place * 7 : 0));
}

static struct slice filled(struct slice slice) {
    uint8_t *bytes = slice.at;
    for (size_t i = 0; i < slice.size; i++) bytes[i] = before(&slice, i);
    return slice;
}

uint8_t *lend_copy(const uint8_t *bytes, size_t size) {
    uint8_t *block = lend(size, front());
    if (size > 0) memcpy(block, bytes, size);
    return block;
}

struct slice lend_slice(size_t size, uint8_t more) {
    uint8_t *block = lend(size, front());
    return filled((struct slice){section, block, size, block, more});
}

struct slice lend_behind(size_t size, uint8_t more) {
    uint8_t *block = lend(length + size, front());
    if (length > 0) memcpy(block, copy, length);
    return filled((struct slice){block, length > 0 ? block + length : block, size, block, more});
}

void take_back(const struct slice *slice, const void *answer, size_t answer_size) {
    const uint8_t *bytes = slice->at;
    size_t reach = answer_size < slice->size ? answer_size : slice->size;
    hold(reach == 0 || memcmp(bytes, answer, reach) == 0, "another answer");
    for (size_t i = reach; i < slice->size; i++) hold(bytes[i] == before(slice, i), "a place behind the answer changed");
    hold(length == 0 || memcmp(slice->section, copy, length) == 0, "the section changed");
    give_back(slice->block);
}

int LLVMFuzzerTestOneInput(const uint8_t *data, size_t size) {
    static struct model model;
    if (size < HEADER || size - HEADER > LONGEST) return 0;
    header = data;
    copy = data + HEADER;
    length = size - HEADER;
    start = header[0] < 240 ? header[0] : HUGE_NUMBERS[header[0] - 240] + header[1];
    section = lend_copy(copy, length);
    struct answer read = read_model(copy, length, start, &model);
    model_calls(&read, &model);
    track_calls();
    const struct built *built = strip_calls(&read, &model);
    path_calls();
    strip_read_calls(built);
    give_back(section);
    return 0;
}
