/* One input, and the slices that the calls on it are lent. */
#ifndef HARNESS_H
#define HARNESS_H

#include "reference.h"

#define LONGEST ((size_t)1 << 16)

extern const uint8_t *header;
extern const uint8_t *copy; /* the section as it stands in the input */
extern uint8_t *section;    /* lent alone */
extern size_t length, start;
/* The call, for the message of a failure. */
extern const char *making;

void hold(bool held, const char *what);

/* The header's number at this place; `chosen` may be a huge one. */
uint64_t two_bytes(size_t place);
uint64_t chosen(size_t place);

/* How many places are lent for an answer, by the header: any number from none to two more than needed. */
size_t room(size_t need);

/* A slice that is written, and the section that is lent with it. */
struct slice {
    const uint8_t *section;
    void *at;
    size_t size; /* in bytes */
    uint8_t *block;
    uint8_t more; /* added to what its bytes hold before, so that slices differ */
};

/* These bytes, lent by themselves to be read. */
uint8_t *lend_copy(const uint8_t *bytes, size_t size);

/* So many bytes, by themselves or directly behind a section of their own. */
struct slice lend_slice(size_t size, uint8_t more);
struct slice lend_behind(size_t size, uint8_t more);

/* The slice must begin with the answer, as far as it reaches, and else be as it was lent, and so must the section. */
void take_back(const struct slice *slice, const void *answer, size_t answer_size);

/* The number that a call returned. */
void same_status(uint32_t status, const struct answer *expected);

/* The calls of limdroven.h and limdroven_strip.h. `read` is what reading the model section must answer. */
void model_calls(const struct answer *read, const struct model *model);
void track_calls(void);
/* The strip, if the section has one. */
const struct built *strip_calls(const struct answer *read, const struct model *model);
void path_calls(void);
/* On the section's bytes, and on a strip that was built. */
void strip_read_calls(const struct built *built);

#endif
