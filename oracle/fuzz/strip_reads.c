/* The calls that read a strip back, and what they must answer. */
#include <string.h>

#include "../../crates/strip_export/include/limdroven_strip.h"
#include "harness.h"
#include "lend.h"

#define MOST_BYTES 16777215
#define MOST_IN_TRACK 65535
/* No fuzzed strip has as many keys. */
#define MOST_KEYS (LONGEST / 5)

static const uint8_t *strip;
static size_t strip_length;

/* Made by `call` on these arguments with places enough and with those of the header. */
#define READ(call, reference, ...)                                                                                     \
    do {                                                                                                               \
        struct answer asked = reference(strip, strip_length, ##__VA_ARGS__);                                           \
        making = #call;                                                                                                \
        for (int turn = 0; turn < 2; turn++) {                                                                         \
            size_t lent = turn == 0 ? asked.count + 2 : room(asked.count);                                             \
            struct slice values = lend_slice(8 * lent, 1);                                                             \
            same_status(limdroven_##call(strip, strip_length, ##__VA_ARGS__, values.at, lent), &asked);                \
            take_back(&values, asked.values, 8 * asked.count);                                                         \
        }                                                                                                              \
    } while (0)

/* All keys from `first` on, into so many places. */
static struct answer keys_call(uint64_t first, size_t places) {
    static uint32_t rows[16 * MOST_KEYS];
    size_t most = sizeof rows / sizeof *rows, written;
    struct answer asked = strip_keys(strip, strip_length, first, rows, places < most ? places : most, &written);
    making = "strip_keys";
    struct slice lent = lend_slice(4 * places, 6), values = lend_slice(8 * room(1), 1);
    uint32_t status = limdroven_strip_keys(strip, strip_length, first, lent.at, places, values.at, room(1));
    same_status(status, &asked);
    take_back(&values, asked.values, 8 * asked.count);
    making = "strip_keys, rows";
    take_back(&lent, rows, 4 * written);
    return asked;
}

/* Kind, track and place of the header, and of the key that the header has a number of among those that there are. */
static void each_call(void) {
    static const uint32_t kinds[4] = {0, 1, 2, UINT32_MAX};
    uint32_t kind = kinds[header[7] >> 4 & 3], track = (uint32_t)chosen(8);
    uint64_t number = chosen(10);
    READ(strip_counts, strip_counts);
    READ(strip_key_count, strip_key_count, kind, track);
    READ(strip_key, strip_key, kind, track, number);
    struct answer all = keys_call(0, 8);
    if (all.status == 0 && all.values[0] > 0) {
        uint32_t row[16];
        size_t keys = all.values[0], written;
        strip_keys(strip, strip_length, number % keys, row, 16, &written);
        READ(strip_key_count, strip_key_count, row[0], row[1]);
        READ(strip_key, strip_key, row[0], row[1], row[2]);
        keys_call(0, 16 * keys + 3);
        keys_call(number % keys, 16 * (two_bytes(12) % (keys + 2)));
    }
    keys_call(number, room(40));
}

static void once(const uint8_t *bytes, size_t size) {
    strip = bytes;
    strip_length = size;
    READ(strip_counts, strip_counts);
    READ(strip_key_count, strip_key_count, 0, 0);
    keys_call(MOST_IN_TRACK - 1, 40);
}

static uint8_t *put(uint8_t *at, uint32_t number, size_t width) {
    for (size_t i = 0; i < width; i++) *at++ = (uint8_t)(number >> 8 * i);
    return at;
}

/* A track of keys without fields. */
static uint8_t *put_track(uint8_t *at, uint32_t keys, uint8_t last_map) {
    at = put(at, keys, 2);
    for (uint32_t frame = 0; frame < keys; frame++) at = put(put(at, frame, 4), frame + 1 < keys ? 0 : last_map, 1);
    return at;
}

/* Both sides of the sum for each kind, also before a 24, and then of 16: no strip is as long as its limit, so that bytes are left over. */
static void at_limits(void) {
    static uint8_t bytes[MOST_BYTES + 1];
    for (uint32_t more = 0; more < 3; more++) {
        uint8_t *at = put(put(bytes, 2, 2), 2, 2);
        for (int kind = 0; kind < 2; kind++) {
            at = put_track(at, MOST_IN_TRACK, 0);
            at = put_track(at, 1 + (more > 0 && kind == 1), 0);
        }
        once(bytes, at - bytes);
        put(bytes, 3, 2);
        put(bytes + 2, 0, 2);
        at = put_track(put_track(put_track(bytes + 4, 1 + more, 0), MOST_IN_TRACK, 0), 1, 255);
        once(bytes, at - bytes);
    }
    memset(bytes, 0, sizeof bytes);
    once(bytes, MOST_BYTES);
    once(bytes, MOST_BYTES + 1);
}

/* The section's bytes as a strip, and the strip that is built of it. */
void strip_read_calls(const struct built *built) {
    static bool begun;
    if (!begun) at_limits();
    begun = true;
    strip = section;
    strip_length = length;
    each_call();
    hold(length == 0 || memcmp(section, copy, length) == 0, "the strip changed");
    if (built == NULL) return;
    making = "a strip that was built";
    hold(strip_counts(built->strip, built->length).status == 0, "it is refused");
    uint8_t *lent = lend_copy(built->strip, built->length);
    strip = lent;
    strip_length = built->length;
    each_call();
    hold(memcmp(lent, built->strip, built->length) == 0, "the strip changed");
    give_back(lent);
}
