#define _DEFAULT_SOURCE
#include <stdint.h>
#include <stdlib.h>
#include <string.h>
#include <sys/mman.h>

#include "lend.h"

#ifdef HEAP

void *lend(size_t size, int front) {
    (void)front;
    return size == 0 ? NULL : malloc(size);
}

void give_back(void *slice) {
    free(slice);
}

#else

/* Places for slices, each between two pages that cannot be touched. */
#define PLACES 16
#define ROOM ((size_t)1 << 20)
#define PAGE ((size_t)4096)

static uint8_t *rooms[PLACES];
static int taken[PLACES];

void *lend(size_t size, int front) {
    if (size == 0) return NULL;
    if (size > ROOM) abort();
    for (int i = 0; i < PLACES; i++) {
        if (taken[i]) continue;
        if (rooms[i] == NULL) {
            uint8_t *all = mmap(NULL, ROOM + 2 * PAGE, PROT_NONE, MAP_PRIVATE | MAP_ANONYMOUS, -1, 0);
            if (all == MAP_FAILED || mprotect(all + PAGE, ROOM, PROT_READ | PROT_WRITE) != 0) abort();
            rooms[i] = all + PAGE;
        }
        taken[i] = 1;
        return front ? rooms[i] : rooms[i] + ROOM - size;
    }
    abort();
}

void give_back(void *slice) {
    for (int i = 0; i < PLACES; i++) {
        uint8_t *at = slice;
        if (rooms[i] != NULL && at >= rooms[i] && at < rooms[i] + ROOM) taken[i] = 0;
    }
}

#endif
