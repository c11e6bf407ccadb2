/* Makes an allocation of the program cola_rows fail, where a row asks for it. tests/rows.sh builds it and preloads it.
 *
 * The program says which by asking for more memory than there is: 2^56 + N bytes ask that the Nth allocation from now
 * on fail, and 2^56 bytes that none does. Both are refused, as they are without this library. 2^55 bytes ask whether
 * the one was met, and are granted, as a few bytes that are freed again, where it was. */
#define _GNU_SOURCE
#include <dlfcn.h>
#include <errno.h>
#include <stddef.h>

static const size_t asked = (size_t)1 << 56, met = (size_t)1 << 55;
static size_t left;  /* allocations up to the one that fails, and 0 where none does */
static int was_met;

/* Whether this allocation fails. */
static int fails(size_t size) {
    if (size >= asked && size - asked < met) {
        left = size - asked;
        was_met = 0;
        return 1;
    }
    if (left == 0 || --left > 0) return 0;
    was_met = 1;
    return 1;
}

static void *next(const char *name) { return dlsym(RTLD_NEXT, name); }

void *malloc(size_t size) {
    static void *(*real)(size_t);
    if (!real) real = (void *(*)(size_t))next("malloc");
    if (size == met) return was_met ? real(16) : NULL;
    if (fails(size)) {
        errno = ENOMEM;
        return NULL;
    }
    return real(size);
}

void *realloc(void *old, size_t size) {
    static void *(*real)(void *, size_t);
    if (!real) real = (void *(*)(void *, size_t))next("realloc");
    if (fails(size)) {
        errno = ENOMEM;
        return NULL;
    }
    return real(old, size);
}

void *aligned_alloc(size_t align, size_t size) {
    static void *(*real)(size_t, size_t);
    if (!real) real = (void *(*)(size_t, size_t))next("aligned_alloc");
    if (fails(size)) {
        errno = ENOMEM;
        return NULL;
    }
    return real(align, size);
}

int posix_memalign(void **into, size_t align, size_t size) {
    static int (*real)(void **, size_t, size_t);
    if (!real) real = (int (*)(void **, size_t, size_t))next("posix_memalign");
    return fails(size) ? ENOMEM : real(into, align, size);
}
