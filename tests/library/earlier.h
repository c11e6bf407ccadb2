/* A log as an earlier library wrote it: it follows the header of a file alone. */
#ifndef EARLIER_H
#define EARLIER_H

#include <stdio.h>
#include <string.h>

#include "cola_core.h"

/* Writes the log of puts of "k010" and so on that follows the header, and tells its length. */
static inline size_t earlier_log(const void *header, int puts, uint8_t *into, size_t room) {
    cola_core_log log;
    char key[16];
    cola_core_log_begin(header, 512, &log);
    memcpy(into, &log, sizeof log);
    size_t length = sizeof log;
    for (int number = 10; number < 10 + puts; number++) {
        snprintf(key, sizeof key, "k%03d", number);
        length += cola_core_log_put(&log, key, 4, "v", 1, into + length, room - length);
    }
    return length;
}

#endif
