/* Times the checkpoints of a resident store, for bench/library.sh.
 *
 *     checkpoints FILE KEYS
 *
 * It makes a store for so many keys, with blocks of 2^5 cells, and puts all of them; then, behind 100, 1,000, 10,000 and 100,000
 * puts of keys at random, it makes a checkpoint, five times each, and a copy of the file. A row each: the puts, the pages of the
 * file that the last checkpoint changed, the least milliseconds of the five, and these beside the least of five copies. */
#include <stdio.h>
#include <stdlib.h>
#include <string.h>
#include <time.h>
#include <unistd.h>

#include "cola_file.h"

enum { PAGE = 4096, TIMES = 5 };

static void check(int32_t answer) {
    if (answer == COLA_OK) return;
    fprintf(stderr, "checkpoints: %s\n", cola_strerror(answer));
    exit(1);
}

static double now(void) {
    struct timespec it;
    clock_gettime(CLOCK_MONOTONIC, &it);
    return (double)it.tv_sec * 1e3 + (double)it.tv_nsec / 1e6;
}

static void put(cola_file *file, unsigned long number) {
    char key[16], value[24];
    snprintf(key, sizeof key, "k%010lu", number);
    snprintf(value, sizeof value, "%lu", number * 7919 % 1000003);
    check(cola_put(&file->store, key, 11, value, strlen(value), NULL));
}

static unsigned long drawn(unsigned long most) {
    static unsigned long seed = 1;
    seed = seed * 6364136223846793005u + 1442695040888963407u;
    return (seed >> 33) % most;
}

/* The pages of the file that have other bytes than before; before has them then. */
static size_t pages_changed(const char *path, char *before, size_t length) {
    static char page[PAGE];
    size_t changed = 0;
    FILE *file = fopen(path, "rb");
    if (file == NULL) exit(1);
    for (size_t at = 0; at < length; at += PAGE) {
        size_t had = fread(page, 1, PAGE, file);
        if (memcmp(page, before + at, had) != 0) changed++, memcpy(before + at, page, had);
    }
    fclose(file);
    return changed;
}

static double time_of(cola_file *file, const char *copy) {
    double began = now();
    check(cola_file_checkpoint(file, copy));
    return now() - began;
}

int main(int count, char **words) {
    if (count < 3) return fprintf(stderr, "checkpoints FILE KEYS\n"), 2;
    unsigned long keys = strtoul(words[2], NULL, 10);
    char copy[4096];
    cola_file file = COLA_FILE_INIT;
    double of_copy = 1e9;
    snprintf(copy, sizeof copy, "%.4000s.copy", words[1]);
    check(cola_file_create(words[1], keys, 5, 1));
    check(cola_file_open_as(&file, words[1], COLA_RESIDENT));
    for (unsigned long number = 0; number < keys; number++) put(&file, number);
    check(cola_file_checkpoint(&file, NULL));
    char *before = calloc(file.length + PAGE, 1);
    if (before == NULL) return 1;
    pages_changed(words[1], before, file.length);
    for (int at = 0; at < TIMES; at++) {
        double took = time_of(&file, copy);
        if (took < of_copy) of_copy = took;
    }
    for (unsigned long puts = 100; puts <= 100000; puts *= 10) {
        double least = 1e9;
        size_t pages = 0;
        for (int at = 0; at < TIMES; at++) {
            for (unsigned long number = 0; number < puts; number++) put(&file, drawn(keys));
            double took = time_of(&file, NULL);
            if (took < least) least = took;
            pages = pages_changed(words[1], before, file.length);
        }
        printf("| %lu | %zu | %.1f | %.3f |\n", puts, pages, least, least / of_copy);
    }
    check(cola_file_close(&file));
    unlink(copy);
    return 0;
}
