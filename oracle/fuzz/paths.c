/* The call that looks for a path in a list of references, and what it must answer. */
#include <string.h>

#include "../../crates/exports/include/limdroven.h"
#include "harness.h"
#include "lend.h"

#define MOST_BYTES 16777215

/* With `least` to three places for the answer. */
static void path_call(const uint8_t *path, size_t path_length, const uint8_t *list, size_t list_length, size_t least) {
    struct answer expected = find_reference(path, path_length, list, list_length);
    for (size_t lent = least; lent < 4; lent++) {
        struct slice values = lend_slice(8 * lent, 1);
        uint32_t status = limdroven_asset_reference_index_for_path(path, path_length, list, list_length, values.at, lent);
        same_status(status, &expected);
        take_back(&values, expected.values, 8 * expected.count);
    }
}

/* Both sides of 16, for the path and for the list. The longest list here has entries without text, of which the last is a model. */
static void longest(void) {
    static uint8_t bytes[MOST_BYTES + 1];
    const uint8_t *most = bytes + 1, *last = bytes + MOST_BYTES - 2, *above_127 = (const uint8_t *)"\x80";
    bytes[MOST_BYTES - 2] = 1;
    path_call(most, MOST_BYTES, last, 3, 3);
    path_call(NULL, 0, most, MOST_BYTES, 3);
    path_call(bytes, MOST_BYTES + 1, last, 2, 3);
    path_call(above_127, 1, bytes, MOST_BYTES + 1, 3);
}

/* The section's bytes as a path and the list behind it, each by itself; and all of them as both. */
void path_calls(void) {
    static bool begun;
    making = "asset_reference_index_for_path";
    if (!begun) longest();
    begun = true;
    size_t path_length = two_bytes(14) < length ? two_bytes(14) : length, list_length = length - path_length;
    uint8_t *path = lend_copy(copy, path_length), *list = lend_copy(copy + path_length, list_length);
    path_call(path, path_length, list, list_length, 0);
    hold(path_length == 0 || memcmp(path, copy, path_length) == 0, "the path changed");
    hold(list_length == 0 || memcmp(list, copy + path_length, list_length) == 0, "the list changed");
    give_back(path);
    give_back(list);
    path_call(section, length, section, length, 0);
}
