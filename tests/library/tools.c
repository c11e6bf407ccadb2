/* Whole stores tested, grown, and loaded, in bytes and in files, each answer met, and what is left where a call is refused. What is
 * handed on to the proved calls is in handed.c. For COLA_MEMORY each allocation fails in turn: link with
 * -Wl,--wrap=malloc,--wrap=realloc.
 *
 *     tools FOLDER
 */
#include <errno.h>
#include <fcntl.h>
#include <glob.h>
#include <stdio.h>
#include <stdlib.h>
#include <string.h>
#include <sys/resource.h>
#include <sys/stat.h>
#include <sys/wait.h>
#include <signal.h>
#include <unistd.h>

#include "allocations.h"
#include "cola_file.h"
#include "plain.h"

#define HOLDS(is) ((is) ? (void)0 : (fprintf(stderr, "tools: line %d: not so: %s\n", __LINE__, #is), exit(1)))

static char path[4096], link_path[4096], unfinished[4096];

static void *zeros(uint64_t length) {
    void *bytes = calloc(1, (size_t)length);
    HOLDS(bytes != NULL);
    return bytes;
}

static uint64_t size_of(uint64_t keys, uint8_t version) {
    uint64_t length;
    HOLDS(cola_size(keys, 3, version, &length) == COLA_OK);
    return length;
}

/* The key and the value of the n-th row, by rising keys. */
static cola_row nth(int n, uint8_t version) {
    cola_row row = {0};
    row.key_len = (uint8_t)(version == 2 && n % 5 == 4 ? COLA_KEY_MAX : 5);
    row.value_len = (uint8_t)(n % (version == 1 ? COLA_VALUE_MAX_1 : COLA_VALUE_MAX));
    char key[16];
    snprintf(key, sizeof key, "k%04d", n);
    memcpy(row.key, key, 5);
    memset(row.value, n, row.value_len);
    return row;
}

/* Whether an open store has the rows from nth(0) on, so many, and nothing else. */
static bool has_rows(cola *store, int count, uint8_t version) {
    cola_cursor cursor;
    cola_row row;
    size_t given;
    HOLDS(cola_seek(&cursor, NULL, 0, NULL, 0) == COLA_OK);
    for (int n = 0; n < count; n++) {
        cola_row wanted = nth(n, version);
        if (cola_next(store, &cursor, &row, 1, &given) != COLA_OK) return false;
        if (plain_order(row.key, row.key_len, wanted.key, wanted.key_len) != 0) return false;
        if (plain_order(row.value, row.value_len, wanted.value, wanted.value_len) != 0) return false;
    }
    return cola_next(store, &cursor, &row, 1, &given) == COLA_NONE;
}

/* Whether a closed store in bytes is sound, and has these rows. */
static bool is_store_of(void *bytes, uint64_t length, int count, uint8_t version) {
    cola store = COLA_INIT;
    cola_verdict verdict = {99, 99, 99, 99};
    if (cola_check(bytes, (size_t)length, &verdict) != COLA_OK || verdict.flaw != COLA_SOUND || verdict.count != (uint64_t)count) return false;
    HOLDS(cola_open(&store, bytes, (size_t)length) == COLA_OK);
    bool has = has_rows(&store, count, version);
    HOLDS(cola_close(&store) == COLA_OK);
    return has;
}

/* A closed store in bytes with so many rows, put in another order. */
static void *store_of(uint64_t keys, int count, uint8_t version, uint64_t *length) {
    cola store = COLA_INIT;
    void *bytes = zeros(*length = size_of(keys, version));
    HOLDS(cola_create(bytes, (size_t)*length, keys, 3, version) == COLA_OK && cola_open(&store, bytes, (size_t)*length) == COLA_OK);
    for (int n = 0; n < count; n++) {
        cola_row row = nth((int)((n * 7919L) % count), version);
        HOLDS(cola_put(&store, row.key, row.key_len, row.value, row.value_len, NULL) == COLA_OK);
    }
    HOLDS(cola_close(&store) == COLA_OK);
    return bytes;
}

static bool is_zero(const uint8_t *bytes, uint64_t length) {
    for (uint64_t at = 0; at < length; at++)
        if (bytes[at] != 0) return false;
    return true;
}

static void of_checks(uint8_t version) {
    uint64_t length;
    cola store = COLA_INIT;
    cola_verdict verdict = {99, 99, 99, 99};
    uint8_t *bytes = store_of(100, 100, version, &length);
    HOLDS(is_store_of(bytes, length, 100, version));
    HOLDS(cola_check(NULL, 1, &verdict) == COLA_NULL && cola_check(bytes, (size_t)length, NULL) == COLA_NULL);
    HOLDS(cola_check(NULL, 0, &verdict) == COLA_SMALL && cola_check(bytes, 100, &verdict) == COLA_SMALL);
    HOLDS(cola_check(bytes, (size_t)length - 1, &verdict) == COLA_SMALL);
    HOLDS(cola_check(bytes + 1, (size_t)length - 1, &verdict) == COLA_NOT_STORE);
    HOLDS(cola_open(&store, bytes, (size_t)length) == COLA_OK);
    HOLDS(cola_check(bytes, (size_t)length, &verdict) == COLA_NOT_CLOSED && cola_close(&store) == COLA_OK);
    HOLDS(verdict.count == 99 && verdict.cell == 99 && verdict.flaw == 99 && verdict.level == 99); /* (where there is no verdict) */
    bytes[24]--; /* another number of keys */
    HOLDS(cola_check(bytes, (size_t)length, &verdict) == COLA_BROKEN && verdict.flaw == COLA_FLAW_COUNT && verdict.count == 0);
    free(bytes);
}

/* A cell that is none, and where it is. */
static void of_a_damaged_cell(void) {
    uint64_t length;
    HOLDS(cola_size(32, 5, 1, &length) == COLA_OK);
    uint8_t *bytes = zeros(length), *before = zeros(length), *to = zeros(length);
    cola store = COLA_INIT;
    cola_verdict verdict;
    uint64_t rows = 7;
    HOLDS(cola_create(bytes, (size_t)length, 32, 5, 1) == COLA_OK && cola_open(&store, bytes, (size_t)length) == COLA_OK);
    for (int at = 0; at < 55; at++) {
        char key[16];
        snprintf(key, sizeof key, "k%02d", at % 32 + 1);
        HOLDS(cola_put(&store, key, 3, "value", 5, NULL) == COLA_OK);
    }
    HOLDS(cola_close(&store) == COLA_OK);
    bytes[5599] = 1; /* cell 87, of the bottom, whose key does not end with zero bytes */
    memcpy(before, bytes, (size_t)length);
    HOLDS(cola_check(bytes, (size_t)length, &verdict) == COLA_BROKEN);
    HOLDS(verdict.flaw == COLA_FLAW_CELL && verdict.level == 3 && verdict.cell == 87 && verdict.count == 0);
    HOLDS(cola_grow(bytes, (size_t)length, to, (size_t)length, 32, 5, &rows) == COLA_BAD_CELL);
    HOLDS(cola_open(&store, to, (size_t)length) == COLA_NOT_STORE && rows == 7);
    HOLDS(memcmp(bytes, before, (size_t)length) == 0);
    free(bytes), free(before), free(to);
}

static void of_growing(uint8_t version) {
    uint64_t length, rows = 7, stamp, new_stamp;
    cola store = COLA_INIT, old = COLA_INIT;
    uint8_t *bytes = store_of(100, 60, version, &length), *before = zeros(length);
    memcpy(before, bytes, (size_t)length);
    for (uint64_t keys = 60; keys <= 4000; keys = keys * 3 + 1) {
        uint64_t to_length = size_of(keys, version);
        uint8_t *to = zeros(to_length);
        HOLDS(cola_grow(bytes, (size_t)length, to, (size_t)to_length, 59, 3, &rows) == COLA_FEWER);
        HOLDS(cola_grow(bytes, (size_t)length, to, (size_t)to_length, keys, 99, &rows) == COLA_OPTIONS);
        HOLDS(cola_grow(bytes, (size_t)length, to, (size_t)to_length - 1, keys, 3, &rows) == COLA_SMALL);
        HOLDS(cola_grow(bytes, 600, to, (size_t)to_length, keys, 3, &rows) == COLA_SMALL);
        HOLDS(cola_grow(before + 1, (size_t)length - 1, to, (size_t)to_length, keys, 3, &rows) == COLA_NOT_STORE);
        HOLDS(cola_grow(NULL, 1, to, (size_t)to_length, keys, 3, &rows) == COLA_NULL);
        HOLDS(cola_grow(bytes, (size_t)length, NULL, (size_t)to_length, keys, 3, &rows) == COLA_NULL);
        HOLDS(is_zero(to, to_length) && rows == 7);
        to[to_length - 1] = 1;
        HOLDS(cola_grow(bytes, (size_t)length, to, (size_t)to_length, keys, 3, NULL) == COLA_NOT_EMPTY);
        to[to_length - 1] = 0;
        HOLDS(cola_grow(bytes, (size_t)length, to, (size_t)to_length, keys, 3, keys == 60 ? NULL : &rows) == COLA_OK);
        HOLDS((rows == 7) == (keys == 60) && is_store_of(to, to_length, 60, version) && memcmp(bytes, before, (size_t)length) == 0);
        HOLDS(cola_open(&store, to, (size_t)to_length) == COLA_OK && cola_open(&old, bytes, (size_t)length) == COLA_OK);
        for (int n = 0; n < 60; n++) {
            cola_row row = nth(n, version);
            HOLDS(cola_stamp(&store, row.key, row.key_len, &new_stamp) == COLA_OK && cola_stamp(&old, row.key, row.key_len, &stamp) == COLA_OK);
            HOLDS(stamp == new_stamp);
        }
        for (uint64_t n = 60; n <= keys; n++) { /* and it takes as many keys as it is for, and no more */
            char key[16];
            snprintf(key, sizeof key, "n%06d", (int)n);
            HOLDS(cola_put(&store, key, 7, "", 0, NULL) == (n < keys ? COLA_OK : COLA_FULL));
        }
        HOLDS(cola_close(&store) == COLA_OK && cola_close(&old) == COLA_OK);
        rows = 7;
        free(to);
    }
    HOLDS(cola_open(&old, bytes, (size_t)length) == COLA_OK);
    uint8_t *to = zeros(length);
    HOLDS(cola_grow(bytes, (size_t)length, to, (size_t)length, 100, 3, &rows) == COLA_NOT_CLOSED && is_zero(to, length));
    HOLDS(cola_close(&old) == COLA_OK);
    free(bytes), free(before), free(to);
}

static void of_loading(uint8_t version) {
    static const char longest[COLA_VALUE_MAX + 1];
    size_t key_max = version == 1 ? COLA_KEY_MAX_1 : COLA_KEY_MAX, value_max = version == 1 ? COLA_VALUE_MAX_1 : COLA_VALUE_MAX, done = 7;
    uint64_t length = size_of(50, version), rows = 7, stamp = 7;
    cola_load load = COLA_LOAD_INIT;
    cola store = COLA_INIT;
    uint8_t *bytes = zeros(length);
    cola_row many[20];
    HOLDS(cola_load_row(&load, "a", 1, "", 0) == COLA_CLOSED && cola_load_end(&load, &rows) == COLA_CLOSED && rows == 7);
    HOLDS(cola_load_many(&load, many, 0, &done) == COLA_CLOSED && done == 0);
    HOLDS(cola_load_begin(NULL, bytes, (size_t)length, 50, 3, version) == COLA_NULL);
    HOLDS(cola_load_begin(&load, NULL, (size_t)length, 50, 3, version) == COLA_NULL);
    HOLDS(cola_load_begin(&load, bytes, (size_t)length, 0, 3, version) == COLA_OPTIONS);
    HOLDS(cola_load_begin(&load, bytes, (size_t)length, 50, 3, 3) == COLA_OPTIONS);
    HOLDS(cola_load_begin(&load, bytes, (size_t)length - 1, 50, 3, version) == COLA_SMALL);
    bytes[600] = 1;
    HOLDS(cola_load_begin(&load, bytes, (size_t)length, 50, 3, version) == COLA_NOT_EMPTY && !load.is_open);
    bytes[600] = 0;
    HOLDS(is_zero(bytes, length) && cola_load_begin(&load, bytes, (size_t)length, 50, 3, version) == COLA_OK);
    HOLDS(cola_load_begin(&load, bytes, (size_t)length, 50, 3, version) == COLA_IN_USE);
    HOLDS(cola_load_row(&load, NULL, 1, "", 0) == COLA_NULL && cola_load_row(&load, "a", 1, NULL, 1) == COLA_NULL);
    HOLDS(cola_load_row(NULL, "a", 1, "", 0) == COLA_NULL && cola_load_many(&load, NULL, 1, &done) == COLA_NULL);
    HOLDS(cola_load_many(NULL, many, 1, &done) == COLA_NULL && cola_load_many(&load, many, 1, NULL) == COLA_NULL && cola_load_end(NULL, NULL) == COLA_NULL);
    HOLDS(cola_load_row(&load, "", 0, "", 0) == COLA_LENGTH && cola_load_row(&load, longest, key_max + 1, "", 0) == COLA_LENGTH);
    HOLDS(cola_load_row(&load, "a", 1, longest, value_max + 1) == COLA_LENGTH);
    for (int n = 0; n < 30; n++) {
        cola_row row = nth(n, version), before = nth(n - (n > 0), version);
        HOLDS(cola_load_row(&load, row.key, row.key_len, row.value, row.value_len) == COLA_OK);
        HOLDS(cola_load_row(&load, row.key, row.key_len, "other", 5) == COLA_ORDER); /* it is left out */
        HOLDS(cola_load_row(&load, before.key, before.key_len, "", 0) == COLA_ORDER);
    }
    for (int n = 0; n < 20; n++) many[n] = nth(30 + n, version);
    many[7].key_len = 255; /* up to the first that is refused */
    HOLDS(cola_load_many(&load, many, 20, &done) == COLA_LENGTH && done == 7);
    many[7] = many[6];
    HOLDS(cola_load_many(&load, many + 7, 13, &done) == COLA_ORDER && done == 0);
    many[7] = nth(37, version);
    HOLDS(cola_load_many(&load, many + 7, 13, &done) == COLA_OK && done == 13);
    HOLDS(cola_load_row(&load, "z", 1, "", 0) == COLA_FULL && cola_load_many(&load, NULL, 0, &done) == COLA_OK);
    HOLDS(cola_load_end(&load, &rows) == COLA_OK && rows == 50 && !load.is_open && is_store_of(bytes, length, 50, version));
    HOLDS(cola_open(&store, bytes, (size_t)length) == COLA_OK); /* a stamp is the number of the row, so that no row seems absent */
    for (int n = 0; n < 50; n++) {
        cola_row row = nth(n, version);
        HOLDS(cola_stamp(&store, row.key, row.key_len, &stamp) == COLA_OK && stamp == (version == 2 ? (uint64_t)n + 1 : 0));
        HOLDS(version == 1 || cola_put_if(&store, row.key, row.key_len, 0, "", 0, NULL) == COLA_OTHER);
    }
    many[0] = nth(0, version);
    HOLDS(cola_put(&store, many[0].key, many[0].key_len, "", 0, NULL) == COLA_OK);
    HOLDS(cola_stamp(&store, many[0].key, many[0].key_len, &stamp) == COLA_OK && stamp == (version == 2 ? 51 : 0));
    HOLDS(cola_close(&store) == COLA_OK);
    memset(bytes, 0, (size_t)length); /* and one with no row */
    HOLDS(cola_load_begin(&load, bytes, (size_t)length, 50, 3, version) == COLA_OK && cola_load_end(&load, NULL) == COLA_OK);
    HOLDS(is_store_of(bytes, length, 0, version));
    free(bytes);
}

/* Each allocation of a check, a growing and a load fails in turn: nothing is kept, and the bytes of the old store stay. */
static void of_memory(void) {
    uint64_t length, rows = 7;
    cola_verdict verdict = {99, 99, 99, 99};
    uint8_t *bytes = store_of(100, 60, 2, &length), *before = zeros(length), *to = zeros(length);
    memcpy(before, bytes, (size_t)length);
    for (int kind = 0; kind < 3; kind++) {
        cola_load load = COLA_LOAD_INIT;
        int32_t answer = COLA_MEMORY;
        for (long made = 0; answer == COLA_MEMORY && made < 1000; made++) {
            memset(to, 0, (size_t)length);
            allocations = made;
            answer = kind == 0   ? cola_check(bytes, (size_t)length, &verdict)
                     : kind == 1 ? cola_grow(bytes, (size_t)length, to, (size_t)length, 100, 3, &rows)
                                 : cola_load_begin(&load, to, (size_t)length, 100, 3, 2);
            allocations = -1;
            HOLDS(memcmp(bytes, before, (size_t)length) == 0);
            if (answer == COLA_MEMORY) HOLDS(rows == 7 && verdict.flaw == 99 && !load.is_open && to[0] == 0);
        }
        HOLDS(answer == COLA_OK);
        if (kind == 2) {
            allocations = 0; /* what comes behind the beginning takes none */
            HOLDS(cola_load_row(&load, "a", 1, "", 0) == COLA_OK && cola_load_end(&load, &rows) == COLA_OK && rows == 1);
            allocations = -1;
        }
        rows = 7, verdict.flaw = 99;
    }
    free(bytes), free(before), free(to);
}

static bool is_left(void) {
    glob_t left;
    bool is = glob(unfinished, 0, NULL, &left) == 0;
    if (is) globfree(&left);
    return is;
}

static long long length_of(const char *where) {
    struct stat about;
    return stat(where, &about) == 0 ? (long long)about.st_size : -1;
}

static bool is_file_of(const char *where, uint64_t keys, int count, uint8_t version) {
    cola_file file = COLA_FILE_INIT;
    cola_store_info info;
    cola_verdict verdict = {99, 99, 99, 99};
    if (cola_file_check(where, &verdict) != COLA_OK || verdict.flaw != COLA_SOUND || verdict.count != (uint64_t)count) return false;
    HOLDS(cola_file_open_as(&file, where, COLA_READ_ONLY) == COLA_OK && cola_info(&file.store, &info) == COLA_OK);
    bool has = info.keys == keys && info.version == version && has_rows(&file.store, count, version);
    HOLDS(cola_file_close(&file) == COLA_OK);
    return has;
}

static void write_rows(cola_load *load, int from, int to, uint8_t version) {
    for (int n = from; n < to; n++) {
        cola_row row = nth(n, version);
        size_t done;
        HOLDS(cola_load_many(load, &row, 1, &done) == COLA_OK && done == 1);
    }
}

static void write_file(const char *where, const char *text) {
    FILE *it = fopen(where, "wb");
    HOLDS(it != NULL && fputs(text, it) >= 0 && fclose(it) == 0);
}

static void of_loaded_files(uint8_t version) {
    cola_file_load load = COLA_FILE_LOAD_INIT;
    uint64_t rows = 7;
    struct stat about;
    mode_t mask = umask(027);
    unlink(path);
    HOLDS(cola_file_load_begin(NULL, path, 50, 3, version) == COLA_NULL && cola_file_load_begin(&load, NULL, 50, 3, version) == COLA_NULL);
    HOLDS(cola_file_load_begin(&load, path, 0, 3, version) == COLA_OPTIONS);
    HOLDS(cola_file_load_begin(&load, "/no such folder/store", 50, 3, version) == COLA_SYSTEM && errno == ENOENT);
    HOLDS(cola_file_load_end(&load, &rows) == COLA_CLOSED && cola_file_load_drop(&load) == COLA_CLOSED && !is_left());
    HOLDS(cola_file_load_end(NULL, &rows) == COLA_NULL && cola_file_load_drop(NULL) == COLA_NULL);
    HOLDS(cola_file_load_begin(&load, path, 50, 3, version) == COLA_OK && cola_file_load_begin(&load, path, 50, 3, version) == COLA_IN_USE);
    write_rows(&load.load, 0, 40, version);
    HOLDS(length_of(path) == -1 && is_left()); /* nothing is in its place before it is whole */
    HOLDS(cola_file_load_end(&load, &rows) == COLA_OK && rows == 40 && load.bytes == NULL && !is_left());
    HOLDS(stat(path, &about) == 0 && (about.st_mode & 0777) == 0640 && is_file_of(path, 50, 40, version));
    umask(mask);
    HOLDS(cola_file_load_begin(&load, path, 50, 3, version) == COLA_NOT_EMPTY && load.bytes == NULL && !is_left());
    write_file(path, "");
    HOLDS(cola_file_load_begin(&load, path, 50, 3, version) == COLA_OK);
    write_rows(&load.load, 0, 10, version);
    HOLDS(cola_file_load_drop(&load) == COLA_OK && load.bytes == NULL && length_of(path) == 0 && !is_left());
    HOLDS(cola_file_load_begin(&load, path, 50, 3, version) == COLA_OK && cola_file_load_end(&load, NULL) == COLA_OK);
    HOLDS(is_file_of(path, 50, 0, version));
    unlink(path);
    HOLDS(cola_file_load_begin(&load, path, 50, 3, version) == COLA_OK);
    write_file(path, "somebody's"); /* a file that came meanwhile stays */
    HOLDS(cola_file_load_end(&load, &rows) == COLA_NOT_EMPTY && length_of(path) == 10 && !is_left() && load.bytes == NULL);
    unlink(path);
    HOLDS(cola_file_load_begin(&load, path, 50, 3, version) == COLA_OK);
    pid_t child = fork(); /* a child leaves it to its parent */
    if (child == 0) {
        bool is_left_alone = cola_file_load_end(&load, &rows) == COLA_CLOSED && cola_file_load_drop(&load) == COLA_OK && is_left();
        execlp(is_left_alone ? "true" : "false", "it", (char *)NULL);
        _exit(9);
    }
    int status = -1;
    waitpid(child, &status, 0);
    HOLDS(status == 0);
    write_rows(&load.load, 0, 50, version);
    HOLDS(cola_file_load_end(&load, &rows) == COLA_OK && rows == 50 && is_file_of(path, 50, 50, version));
}

/* A process that dies while it loads, or grows: nothing is in the path's place but what was. */
static void of_death(uint8_t version) {
    int told[2];
    char byte;
    glob_t left;
    unlink(path);
    HOLDS(pipe(told) == 0);
    pid_t child = fork();
    if (child == 0) {
        cola_file_load load = COLA_FILE_LOAD_INIT;
        if (cola_file_load_begin(&load, path, 50, 3, version) != COLA_OK) _exit(9);
        write_rows(&load.load, 0, 40, version);
        if (write(told[1], "x", 1) == 1) pause();
        _exit(9);
    }
    HOLDS(read(told[0], &byte, 1) == 1 && kill(child, SIGKILL) == 0);
    waitpid(child, NULL, 0);
    close(told[0]), close(told[1]);
    HOLDS(length_of(path) == -1 && glob(unfinished, 0, NULL, &left) == 0 && left.gl_pathc == 1);
    cola_verdict verdict;
    HOLDS(cola_file_check(left.gl_pathv[0], &verdict) == COLA_NOT_STORE && unlink(left.gl_pathv[0]) == 0);
    globfree(&left);
}

static void of_grown_files(uint8_t version) {
    cola_file file = COLA_FILE_INIT;
    uint64_t rows = 7;
    struct stat about, after;
    cola_verdict verdict;
    unlink(path), unlink(link_path);
    HOLDS(cola_file_grow(path, 50, 3, &rows) == COLA_SYSTEM && errno == ENOENT && cola_file_grow(NULL, 50, 3, &rows) == COLA_NULL);
    HOLDS(cola_file_check(path, &verdict) == COLA_SYSTEM && errno == ENOENT);
    HOLDS(cola_file_check(NULL, &verdict) == COLA_NULL && cola_file_check(path, NULL) == COLA_NULL);
    HOLDS(cola_file_create(path, 50, 3, version) == COLA_OK && cola_file_open(&file, path) == COLA_OK);
    for (int n = 0; n < 50; n++) {
        cola_row row = nth(n, version);
        HOLDS(cola_put(&file.store, row.key, row.key_len, row.value, row.value_len, NULL) == COLA_OK);
    }
    HOLDS(cola_file_grow(path, 500, 3, &rows) == COLA_SYSTEM && errno == EWOULDBLOCK); /* it is open */
    HOLDS(cola_file_check(path, &verdict) == COLA_SYSTEM && errno == EWOULDBLOCK);
    HOLDS(cola_file_check_open(NULL, &verdict) == COLA_NULL && cola_file_check_open(&file, NULL) == COLA_NULL);
    HOLDS(cola_file_check_open(&file, &verdict) == COLA_OK && verdict.flaw == COLA_SOUND && verdict.count == 50);
    HOLDS(has_rows(&file.store, 50, version) && cola_put(&file.store, "k0000", 5, "", 0, NULL) == COLA_OK);
    HOLDS(cola_file_close(&file) == COLA_OK && chmod(path, 0604) == 0 && stat(path, &about) == 0);
    HOLDS(cola_file_grow(path, 49, 3, &rows) == COLA_FEWER && cola_file_grow(path, 0, 3, &rows) == COLA_OPTIONS);
    HOLDS(rows == 7 && stat(path, &after) == 0 && after.st_ino == about.st_ino && !is_left());
    HOLDS(cola_file_open_as(&file, path, COLA_READ_ONLY) == COLA_OK);
    HOLDS(cola_file_grow(path, 500, 3, &rows) == COLA_SYSTEM && errno == EWOULDBLOCK && cola_file_check(path, &verdict) == COLA_OK);
    HOLDS(cola_file_check_open(&file, &verdict) == COLA_OK && cola_put(&file.store, "a", 1, "", 0, NULL) == COLA_READ_ONLY_STORE);
    HOLDS(cola_file_close(&file) == COLA_OK && cola_file_check_open(&file, &verdict) == COLA_CLOSED);
    HOLDS(cola_file_open_as(&file, path, COLA_RESIDENT) == COLA_OK && cola_put(&file.store, "k0000", 5, "z", 1, NULL) == COLA_OK);
    HOLDS(cola_file_check_open(&file, &verdict) == COLA_OK && verdict.count == 50 && cola_file_checkpoint(&file, NULL) == COLA_OK);
    HOLDS(cola_put(&file.store, "k0000", 5, "", 0, NULL) == COLA_OK && cola_file_check_open(&file, &verdict) == COLA_OK);
    HOLDS(cola_file_close(&file) == COLA_OK && is_file_of(path, 50, 50, version)); /* (what was marked before is written) */
    struct rlimit before, less = {4096, 4096};
    getrlimit(RLIMIT_FSIZE, &before);
    less.rlim_max = before.rlim_max;
    setrlimit(RLIMIT_FSIZE, &less); /* (as a full disk) */
    HOLDS(cola_file_grow(path, 500, 3, &rows) == COLA_SYSTEM);
    setrlimit(RLIMIT_FSIZE, &before);
    HOLDS(!is_left() && is_file_of(path, 50, 50, version));
    HOLDS(symlink(path, link_path) == 0 && cola_file_grow(link_path, 500, 3, &rows) == COLA_OK && rows == 50);
    HOLDS(lstat(link_path, &after) == 0 && S_ISLNK(after.st_mode) && stat(path, &after) == 0);
    HOLDS((after.st_mode & 0777) == 0604 && after.st_ino != about.st_ino && !is_left() && is_file_of(path, 500, 50, version));
    HOLDS(cola_file_grow(path, 50, 4, NULL) == COLA_OK && is_file_of(path, 50, 50, version));
    HOLDS(truncate(path, 600) == 0 && cola_file_grow(path, 50, 3, NULL) == COLA_SMALL && cola_file_check(path, &verdict) == COLA_SMALL);
    write_file(path, "no store");
    HOLDS(cola_file_grow(path, 50, 3, NULL) == COLA_SMALL && length_of(path) == 8 && !is_left());
}

int main(int count, char **words) {
    if (count < 2) return fprintf(stderr, "tools FOLDER\n"), 2;
    snprintf(path, sizeof path, "%.4000s/tools.store", words[1]);
    snprintf(link_path, sizeof link_path, "%.4000s/tools.link", words[1]);
    snprintf(unfinished, sizeof unfinished, "%.4000s/tools.store.new-*", words[1]);
    signal(SIGXFSZ, SIG_IGN);
    of_a_damaged_cell();
    of_memory();
    for (uint8_t version = 1; version <= 2; version++) {
        of_checks(version);
        of_growing(version);
        of_loading(version);
        of_loaded_files(version);
        of_death(version);
        of_grown_files(version);
    }
    return 0;
}
