/* The number of the reference that a path is found at, after document 02, T-01. */
#include <stdlib.h>
#include <string.h>

#include "reference.h"

#define MOST_BYTES 16777215
#define A_MODEL 1

static const uint8_t folder[9] = "userfile/";

static uint8_t lower(uint8_t byte) {
    return byte >= 'A' && byte <= 'Z' ? byte - 'A' + 'a' : byte;
}

static bool same(const uint8_t *one, size_t one_length, const uint8_t *other, size_t other_length) {
    if (one_length != other_length) return false;
    for (size_t i = 0; i < one_length; i++)
        if (lower(one[i]) != lower(other[i])) return false;
    return true;
}

/* Each step by itself, as 02 tells them. `text` has room for the whole path; the normalised one is the span of it. */
static struct span normalised(const uint8_t *path, size_t length, uint8_t *text) {
    for (size_t i = 0; i < length; i++) text[i] = path[i] == '\\' ? '/' : path[i];

    size_t written = 0;
    for (size_t i = 0; i < length; i++) {
        bool pair = text[i] == '/' && i + 1 < length && text[i + 1] == '/';
        text[written++] = text[i];
        if (pair) i++;
    }

    struct span whole = {0, written};
    for (size_t at = written; at-- > 0;) {
        bool begins = at == 0 || text[at - 1] == '/';
        if (begins && written - at >= sizeof folder && same(text + at, sizeof folder, folder, sizeof folder))
            return (struct span){at, written - at};
    }
    return whole;
}

struct entry {
    uint8_t kind;
    struct span text;
    size_t next;
};

/* Whether a whole entry stands here. */
static bool entry_at(const uint8_t *list, size_t length, size_t at, struct entry *entry) {
    if (length - at < 3) return false;
    entry->kind = list[at];
    entry->text = (struct span){at + 3, list[at + 1] | (size_t)list[at + 2] << 8};
    if (length - entry->text.offset < entry->text.length) return false;
    entry->next = entry->text.offset + entry->text.length;
    return true;
}

static bool ascii(const uint8_t *bytes, size_t length) {
    for (size_t i = 0; i < length; i++)
        if (bytes[i] > 127) return false;
    return true;
}

static const struct answer too_long = {16, 0, {0}}, cut_off = {21, 0, {0}}, not_ascii = {22, 0, {0}};

struct answer find_reference(const uint8_t *path, size_t path_length, const uint8_t *list, size_t list_length) {
    struct entry entry;
    if (path_length > MOST_BYTES || list_length > MOST_BYTES) return too_long;

    for (size_t at = 0; at < list_length; at = entry.next)
        if (!entry_at(list, list_length, at, &entry)) return cut_off;

    if (!ascii(path, path_length)) return not_ascii;
    for (size_t at = 0; at < list_length; at = entry.next) {
        entry_at(list, list_length, at, &entry);
        if (!ascii(list + entry.text.offset, entry.text.length)) return not_ascii;
    }

    uint8_t *text = malloc(path_length + 1);
    if (text == NULL) abort();
    struct span sought = normalised(path, path_length, text);
    struct answer answer = {0, 1, {UINT64_MAX}};
    uint64_t number = 0;
    for (size_t at = 0; at < list_length; at = entry.next) {
        entry_at(list, list_length, at, &entry);
        bool found = same(list + entry.text.offset, entry.text.length, text + sought.offset, sought.length);
        if (entry.kind == A_MODEL && found) {
            answer.values[0] = number;
            break;
        }
        number++;
    }
    free(text);
    return answer;
}
