/* Counts allocations, and refuses those behind a number of them: link with -Wl,--wrap=malloc,--wrap=realloc. */
#ifndef ALLOCATIONS_H
#define ALLOCATIONS_H

#include <stdlib.h>

static long allocations = -1; /* how many are left to be made, -1: any number */

void *__real_malloc(size_t length);
void *__real_realloc(void *old, size_t length);

void *__wrap_malloc(size_t length) {
    if (allocations == 0) return NULL;
    if (allocations > 0) allocations--;
    return __real_malloc(length);
}

void *__wrap_realloc(void *old, size_t length) {
    if (allocations == 0) return NULL;
    if (allocations > 0) allocations--;
    return __real_realloc(old, length);
}

#endif
