/* Slices lent to the library, so that a byte read or written outside them is seen. */
#ifndef LEND_H
#define LEND_H

#include <stddef.h>

/* Exactly `size` bytes. Built with address checking: from the heap, where the checks know its ends. Else: against a page that cannot be
   touched, behind the slice or (`front`) before it. No bytes are a null pointer, which may not be followed. */
void *lend(size_t size, int front);
void give_back(void *slice);

#endif
