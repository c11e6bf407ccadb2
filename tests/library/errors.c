/* Every answer of cola.h and cola_file.h that is no COLA_OK, where a caller meets it, and that nothing changed then.
 *
 *     errors FOLDER
 *
 * COLA_WORN is met in a store whose last number is written to 2^63; COLA_BAD_CELL and COLA_OVERFULL in damaged ones. For
 * COLA_MEMORY each allocation fails in turn: link with -Wl,--wrap=malloc,--wrap=realloc. The last line names each answer
 * that was met; all have to be. */
#include <errno.h>
#include <fcntl.h>
#include <glob.h>
#include <signal.h>
#include <stdio.h>
#include <sys/resource.h>
#include <sys/stat.h>
#include <sys/wait.h>
#include <unistd.h>

#include "allocations.h"
#include "cola_file.h"
#include "plain.h"

enum { ANSWERS_IN_ALL = COLA_UNFINISHED + 1 }; /* (that one is met in resident.c) */
static int failed, met[ANSWERS_IN_ALL];

#define ANSWERS(wanted, call) answers(wanted, call, #call, __LINE__)
static void answers(int32_t wanted, int32_t is, const char *call, int line) {
    if (is == wanted) {
        met[is] = 1;
        return;
    }
    failed = 1;
    fprintf(stderr, "errors: line %d: %s: %s, and not: %s\n", line, call, cola_strerror(is), cola_strerror(wanted));
}

#define HOLDS(what) holds(what, #what, __LINE__)
static void holds(bool is, const char *what, int line) {
    if (is) return;
    failed = 1;
    fprintf(stderr, "errors: line %d: not so: %s\n", line, what);
}

static void *zeros(uint64_t length) {
    void *bytes = calloc(1, (size_t)length);
    if (bytes == NULL) abort();
    return bytes;
}

/* A closed store for so many keys, with keys k0, k1, .. */
static void *store_of(uint64_t keys, uint8_t block, uint8_t version, int pairs, uint64_t *length) {
    cola store = COLA_INIT;
    ANSWERS(COLA_OK, cola_size(keys, block, version, length));
    void *bytes = zeros(*length);
    ANSWERS(COLA_OK, cola_create(bytes, *length, keys, block, version));
    ANSWERS(COLA_OK, cola_open(&store, bytes, *length));
    for (int at = 0; at < pairs; at++) {
        char key[16];
        int key_len = snprintf(key, sizeof key, "k%d", at);
        ANSWERS(COLA_OK, cola_put(&store, key, (size_t)key_len, "value", 5, NULL));
    }
    ANSWERS(COLA_OK, cola_close(&store));
    return bytes;
}

static void of_sizes(void) {
    uint64_t length = 7;
    ANSWERS(COLA_OK, cola_size(1, 3, 1, &length));
    HOLDS(length == 8192);
    ANSWERS(COLA_OK, cola_size(COLA_KEYS_MAX, 9, 2, &length));
    ANSWERS(COLA_OK, cola_size(1000000, 5, 1, &length));
    HOLDS(length == 268435456);
    length = 7;
    ANSWERS(COLA_OPTIONS, cola_size(0, 5, 1, &length));
    ANSWERS(COLA_OPTIONS, cola_size((uint64_t)COLA_KEYS_MAX + 1, 5, 1, &length));
    ANSWERS(COLA_OPTIONS, cola_size(1000, 2, 1, &length));
    ANSWERS(COLA_OPTIONS, cola_size(1000, 10, 1, &length));
    ANSWERS(COLA_OPTIONS, cola_size(1, 6, 1, &length)); /* a block is no larger than the lowest level */
    ANSWERS(COLA_OPTIONS, cola_size(1000, 5, 0, &length));
    ANSWERS(COLA_OPTIONS, cola_size(1000, 5, 3, &length));
    ANSWERS(COLA_NULL, cola_size(1000, 5, 1, NULL));
    HOLDS(length == 7);
}

/* How many bytes a file's store takes, by the file's first bytes: as an opening of all its bytes answers. */
static void of_stored_sizes(void) {
    uint64_t length, stored = 7;
    uint8_t *bytes = store_of(30, 3, 2, 20, &length);
    ANSWERS(COLA_NULL, cola_stored_size(NULL, 512, length, &stored));
    ANSWERS(COLA_NULL, cola_stored_size(bytes, 512, length, NULL));
    ANSWERS(COLA_SMALL, cola_stored_size(NULL, 0, 0, &stored));
    ANSWERS(COLA_SMALL, cola_stored_size(bytes, 511, 511, &stored));
    ANSWERS(COLA_SMALL, cola_stored_size(bytes, 512, length - 1, &stored));
    bytes[0] ^= 1;
    ANSWERS(COLA_NOT_STORE, cola_stored_size(bytes, 512, length, &stored));
    ANSWERS(COLA_NOT_STORE, cola_stored_size(bytes, 512, 512, &stored));
    bytes[0] ^= 1, bytes[14] = 1;
    ANSWERS(COLA_SMALL, cola_stored_size(bytes, 512, length - 1, &stored));
    ANSWERS(COLA_NOT_CLOSED, cola_stored_size(bytes, 512, length, &stored));
    HOLDS(stored == 7);
    bytes[14] = 0;
    ANSWERS(COLA_OK, cola_stored_size(bytes, 512, length, &stored));
    HOLDS(stored == length);
    stored = 7;
    ANSWERS(COLA_OK, cola_stored_size(bytes, (size_t)length, length + 12345, &stored));
    HOLDS(stored == length);
    free(bytes);
}

static void of_new_stores(void) {
    uint64_t length;
    ANSWERS(COLA_OK, cola_size(30, 3, 1, &length));
    uint8_t *bytes = zeros(length);
    ANSWERS(COLA_NULL, cola_create(NULL, length, 30, 3, 1));
    ANSWERS(COLA_OPTIONS, cola_create(bytes, length, 0, 3, 1));
    ANSWERS(COLA_SMALL, cola_create(bytes, length - 1, 30, 3, 1));
    bytes[length - 1] = 1;
    ANSWERS(COLA_NOT_EMPTY, cola_create(bytes, length, 30, 3, 1));
    bytes[length - 1] = 0;
    bool zero = true;
    for (uint64_t at = 0; at < length; at++) zero = zero && bytes[at] == 0;
    HOLDS(zero);
    ANSWERS(COLA_OK, cola_create(bytes, length, 30, 3, 1));
    ANSWERS(COLA_NOT_EMPTY, cola_create(bytes, length, 30, 3, 1));
    free(bytes);
}

static void of_openings(void) {
    uint64_t length;
    uint8_t *bytes = store_of(30, 3, 1, 20, &length), *before = zeros(length);
    cola store = COLA_INIT, other = COLA_INIT;
    memcpy(before, bytes, length);
    ANSWERS(COLA_NULL, cola_open(NULL, bytes, length));
    ANSWERS(COLA_NULL, cola_open(&store, NULL, length));
    ANSWERS(COLA_SMALL, cola_open(&store, bytes, 511));
    ANSWERS(COLA_SMALL, cola_open(&store, bytes, length - 1));
    bytes[0] ^= 1;
    ANSWERS(COLA_NOT_STORE, cola_open(&store, bytes, length));
    bytes[0] ^= 1;
    HOLDS(memcmp(bytes, before, length) == 0);
    ANSWERS(COLA_OK, cola_open(&store, bytes, length));
    ANSWERS(COLA_IN_USE, cola_open(&store, bytes, length));
    ANSWERS(COLA_NOT_CLOSED, cola_open(&other, bytes, length));
    ANSWERS(COLA_CLOSED, cola_close(&other));
    ANSWERS(COLA_OK, cola_close(&store));
    ANSWERS(COLA_CLOSED, cola_close(&store));
    ANSWERS(COLA_NULL, cola_close(NULL));
    ANSWERS(COLA_OK, cola_open(&other, bytes, length));
    ANSWERS(COLA_OK, cola_close(&other));
    free(before);
    free(bytes);
}

/* Stores for 32 keys in blocks of 32 cells of 64 bytes, with bytes that were changed. */
static void of_damaged_stores(void) {
    uint64_t length;
    cola store = COLA_INIT;
    char value[COLA_VALUE_MAX];
    size_t value_len, given = 7;
    cola_cursor cursor, place;
    cola_row rows[32];
    uint8_t *bytes = store_of(32, 5, 1, 0, &length), *before = zeros(length);
    /* Two keys, two cells in level 0, and no cell there: the store is refused, and its bytes stay. */
    bytes[24] = bytes[32] = bytes[48] = 2;
    memcpy(before, bytes, length);
    ANSWERS(COLA_BAD_CELL, cola_open(&store, bytes, length));
    HOLDS(memcmp(bytes, before, length) == 0);
    free(bytes);
    /* Four cells in level 0 at clock 0: there is no room for a fifth. */
    bytes = store_of(32, 5, 1, 0, &length);
    bytes[24] = bytes[48] = 4;
    for (int at = 0; at < 4; at++) {
        uint8_t *cell = bytes + (8 + at) * 64;
        cell[2] = cell[3] = 1, cell[8] = (uint8_t)('a' + at), cell[32] = (uint8_t)('1' + at);
    }
    ANSWERS(COLA_OK, cola_open(&store, bytes, length));
    ANSWERS(COLA_OVERFULL, cola_put(&store, "e", 1, "5", 1, NULL));
    ANSWERS(COLA_OK, cola_close(&store));
    free(bytes);
    /* A cell of the bottom that is none is met where it is read: cell 87, whose key does not end with zero bytes. */
    bytes = zeros(length);
    ANSWERS(COLA_OK, cola_create(bytes, length, 32, 5, 1));
    ANSWERS(COLA_OK, cola_open(&store, bytes, length));
    for (int at = 0; at < 55; at++) {
        char key[16];
        snprintf(key, sizeof key, "k%02d", at % 32 + 1);
        ANSWERS(COLA_OK, cola_put(&store, key, 3, "value", 5, NULL));
    }
    ANSWERS(COLA_OK, cola_close(&store));
    bytes[5599] = 1;
    ANSWERS(COLA_OK, cola_open(&store, bytes, length));
    ANSWERS(COLA_BAD_CELL, cola_get(&store, "k24", 3, value, &value_len));
    ANSWERS(COLA_OK, cola_get(&store, "k17", 3, value, &value_len));
    ANSWERS(COLA_OK, cola_seek_last(&cursor, NULL, 0));
    place = cursor;
    ANSWERS(COLA_BAD_CELL, cola_prev(&store, &cursor, rows, 32, &given));
    HOLDS(given == 7 && memcmp(&cursor, &place, sizeof cursor) == 0);
    ANSWERS(COLA_OK, cola_close(&store));
    free(before);
    free(bytes);
}

/* Each allocation of an opening fails in turn: the handle stays closed, nothing is kept, and the bytes stay, as cola_file_open
 * wants it of those behind the first page. */
static void of_memory(void) {
    uint64_t length, count;
    cola store = COLA_INIT;
    cola_cursor cursor;
    cola_row row;
    cola_store_info info;
    size_t given;
    uint8_t *bytes = store_of(1000, 5, 1, 200, &length), *before = zeros(length);
    memcpy(before, bytes, length);
    int32_t answer = COLA_MEMORY;
    long made = 0;
    for (; answer == COLA_MEMORY && made < 1000; made++) {
        allocations = made;
        answer = cola_open(&store, bytes, length);
        allocations = -1;
        if (answer == COLA_MEMORY) {
            ANSWERS(COLA_MEMORY, answer);
            HOLDS(memcmp(bytes, before, length) == 0);
            ANSWERS(COLA_CLOSED, cola_close(&store));
        }
    }
    HOLDS(made > 1);
    ANSWERS(COLA_OK, answer);
    ANSWERS(COLA_OK, cola_put(&store, "more", 4, "1", 1, NULL));
    allocations = 0; /* no call but an opening takes memory */
    ANSWERS(COLA_OK, cola_put(&store, "more", 4, "2", 1, NULL));
    ANSWERS(COLA_OK, cola_delete(&store, "k7", 2));
    ANSWERS(COLA_OK, cola_seek_last(&cursor, NULL, 0));
    ANSWERS(COLA_OK, cola_prev(&store, &cursor, &row, 1, &given));
    ANSWERS(COLA_OK, cola_next(&store, &cursor, &row, 1, &given));
    ANSWERS(COLA_OK, cola_info(&store, &info));
    ANSWERS(COLA_MEMORY, cola_checkpoint(&store));
    allocations = -1;
    ANSWERS(COLA_CLOSED, cola_close(&store));
    ANSWERS(COLA_OK, cola_open(&store, bytes, length));
    ANSWERS(COLA_OK, cola_count(&store, &count));
    HOLDS(count == 200);
    ANSWERS(COLA_OK, cola_close(&store));
    free(before);
    free(bytes);
}

/* The answers of growing and loading; what they leave is tested in tools.c. */
static void of_whole_stores(void) {
    uint64_t length;
    cola_load load = COLA_LOAD_INIT;
    cola_verdict verdict;
    uint8_t *bytes = store_of(30, 3, 1, 20, &length), *to = zeros(length);
    ANSWERS(COLA_FEWER, cola_grow(bytes, length, to, length, 19, 3, NULL));
    ANSWERS(COLA_OK, cola_load_begin(&load, to, length, 30, 3, 1));
    ANSWERS(COLA_OK, cola_load_row(&load, "b", 1, "1", 1));
    ANSWERS(COLA_ORDER, cola_load_row(&load, "a", 1, "1", 1));
    ANSWERS(COLA_OK, cola_load_end(&load, NULL));
    bytes[24]++; /* (of the number of keys) */
    ANSWERS(COLA_BROKEN, cola_check(bytes, length, &verdict));
    free(bytes), free(to);
}

static void of_closed_handles(void) {
    cola store = COLA_INIT;
    cola_cursor cursor;
    cola_row row;
    char value[COLA_VALUE_MAX];
    size_t length = 7;
    uint64_t number = 7;
    bool was = true;
    ANSWERS(COLA_OK, cola_seek(&cursor, NULL, 0, NULL, 0));
    ANSWERS(COLA_CLOSED, cola_put(&store, "a", 1, "b", 1, &was));
    ANSWERS(COLA_CLOSED, cola_put_if(&store, "a", 1, 0, "b", 1, &number));
    ANSWERS(COLA_CLOSED, cola_get(&store, "a", 1, value, &length));
    ANSWERS(COLA_CLOSED, cola_stamp(&store, "a", 1, &number));
    ANSWERS(COLA_CLOSED, cola_delete(&store, "a", 1));
    ANSWERS(COLA_CLOSED, cola_count(&store, &number));
    ANSWERS(COLA_CLOSED, cola_next(&store, &cursor, &row, 1, &length));
    ANSWERS(COLA_CLOSED, cola_checkpoint(&store));
    ANSWERS(COLA_CLOSED, cola_close(&store));
}

static void of_nulls(cola *store) {
    cola_cursor cursor;
    cola_row row;
    char value[COLA_VALUE_MAX];
    size_t length;
    uint64_t number;
    ANSWERS(COLA_NULL, cola_put(NULL, "a", 1, "b", 1, NULL));
    ANSWERS(COLA_NULL, cola_put(store, NULL, 1, "b", 1, NULL));
    ANSWERS(COLA_NULL, cola_put(store, "a", 1, NULL, 1, NULL));
    ANSWERS(COLA_NULL, cola_put_if(NULL, "a", 1, 0, "b", 1, &number));
    ANSWERS(COLA_NULL, cola_put_if(store, NULL, 1, 0, "b", 1, &number));
    ANSWERS(COLA_NULL, cola_put_if(store, "a", 1, 0, NULL, 1, &number));
    ANSWERS(COLA_NULL, cola_get(NULL, "a", 1, value, &length));
    ANSWERS(COLA_NULL, cola_get(store, NULL, 1, value, &length));
    ANSWERS(COLA_NULL, cola_get(store, "a", 1, NULL, &length));
    ANSWERS(COLA_NULL, cola_get(store, "a", 1, value, NULL));
    ANSWERS(COLA_NULL, cola_stamp(NULL, "a", 1, &number));
    ANSWERS(COLA_NULL, cola_stamp(store, NULL, 1, &number));
    ANSWERS(COLA_NULL, cola_stamp(store, "a", 1, NULL));
    ANSWERS(COLA_NULL, cola_delete(NULL, "a", 1));
    ANSWERS(COLA_NULL, cola_delete(store, NULL, 1));
    ANSWERS(COLA_NULL, cola_count(NULL, &number));
    ANSWERS(COLA_NULL, cola_count(store, NULL));
    ANSWERS(COLA_NULL, cola_seek(NULL, "a", 1, NULL, 0));
    ANSWERS(COLA_NULL, cola_seek(&cursor, NULL, 1, NULL, 0));
    ANSWERS(COLA_NULL, cola_seek(&cursor, "a", 1, NULL, 1));
    memset(&cursor, 0xAB, sizeof cursor); /* (what a caller's cursor had is not looked at) */
    ANSWERS(COLA_OK, cola_seek(&cursor, "a", 1, NULL, 0));
    ANSWERS(COLA_NULL, cola_next(NULL, &cursor, &row, 1, &length));
    ANSWERS(COLA_NULL, cola_next(store, NULL, &row, 1, &length));
    ANSWERS(COLA_NULL, cola_next(store, &cursor, NULL, 1, &length));
    ANSWERS(COLA_NULL, cola_next(store, &cursor, &row, 1, NULL));
    ANSWERS(COLA_NULL, cola_checkpoint(NULL));
}

/* Lengths at and above the limits of a version. */
static void of_lengths(cola *store, size_t key_max, size_t value_max) {
    static const char bytes[256];
    cola_cursor cursor;
    char value[COLA_VALUE_MAX];
    size_t length;
    uint64_t number;
    ANSWERS(COLA_LENGTH, cola_put(store, bytes, 0, "b", 1, NULL));
    ANSWERS(COLA_LENGTH, cola_put(store, bytes, key_max + 1, "b", 1, NULL));
    ANSWERS(COLA_LENGTH, cola_put(store, bytes, (size_t)-1, "b", 1, NULL));
    ANSWERS(COLA_LENGTH, cola_put(store, "a", 1, bytes, value_max + 1, NULL));
    ANSWERS(COLA_LENGTH, cola_put(store, "a", 1, bytes, (size_t)-1, NULL));
    ANSWERS(COLA_LENGTH, cola_put_if(store, bytes, key_max + 1, 0, "b", 1, &number));
    ANSWERS(COLA_LENGTH, cola_put_if(store, "a", 1, 0, bytes, value_max + 1, &number));
    ANSWERS(COLA_LENGTH, cola_get(store, bytes, key_max + 1, value, &length));
    ANSWERS(COLA_LENGTH, cola_stamp(store, bytes, key_max + 1, &number));
    ANSWERS(COLA_LENGTH, cola_delete(store, bytes, key_max + 1));
    ANSWERS(COLA_LENGTH, cola_seek(&cursor, bytes, COLA_KEY_MAX + 1, NULL, 0));
    ANSWERS(COLA_LENGTH, cola_seek(&cursor, "a", 1, bytes, COLA_KEY_MAX + 1));
    ANSWERS(COLA_OK, cola_put(store, bytes, key_max, bytes, value_max, NULL));
    ANSWERS(COLA_OK, cola_get(store, bytes, key_max, value, &length));
    HOLDS(length == value_max);
    ANSWERS(COLA_OK, cola_put(store, bytes, key_max, NULL, 0, NULL));
    ANSWERS(COLA_OK, cola_get(store, bytes, key_max, value, &length));
    HOLDS(length == 0);
    ANSWERS(COLA_OK, cola_delete(store, bytes, key_max));
}

static void of_calls(int version) {
    uint64_t length, number = 7;
    void *bytes = store_of(2, 3, (uint8_t)version, 0, &length);
    cola store = COLA_INIT;
    cola_cursor cursor;
    cola_row row;
    char value[COLA_VALUE_MAX];
    size_t given = 7;
    bool was = true;
    ANSWERS(COLA_OK, cola_open(&store, bytes, length));
    of_nulls(&store);
    if (version == 1) of_lengths(&store, COLA_KEY_MAX_1, COLA_VALUE_MAX_1);
    else of_lengths(&store, COLA_KEY_MAX, COLA_VALUE_MAX);
    ANSWERS(COLA_OK, cola_count(&store, &number));
    HOLDS(number == 0);
    ANSWERS(COLA_NONE, cola_get(&store, "a", 1, value, &given));
    ANSWERS(COLA_NONE, cola_stamp(&store, "a", 1, &number));
    ANSWERS(COLA_NONE, cola_delete(&store, "a", 1));
    ANSWERS(COLA_OK, cola_seek(&cursor, "", 0, NULL, 0));
    ANSWERS(COLA_NONE, cola_next(&store, &cursor, &row, 1, &given));
    HOLDS(given == 0);
    given = 7;
    ANSWERS(COLA_OK, cola_next(&store, &cursor, NULL, 0, &given)); /* no row was wanted */
    HOLDS(given == 0);
    ANSWERS(COLA_OK, cola_put(&store, "a", 1, "1", 1, &was));
    HOLDS(!was);
    ANSWERS(COLA_OK, cola_put(&store, "a", 1, "2", 1, &was));
    HOLDS(was);
    ANSWERS(COLA_OTHER, cola_put_if(&store, "a", 1, 999, "3", 1, &number));
    HOLDS(version == 1 ? number == 0 : number > 0);
    ANSWERS(COLA_OTHER, cola_put_if(&store, "b", 1, 999, "3", 1, &number));
    HOLDS(number == 0);
    ANSWERS(COLA_OK, cola_put_if(&store, "b", 1, 0, "3", 1, &number));
    ANSWERS(COLA_FULL, cola_put(&store, "c", 1, "4", 1, &was));
    ANSWERS(COLA_FULL, cola_put_if(&store, "c", 1, 0, "4", 1, &number));
    ANSWERS(COLA_NONE, cola_get(&store, "c", 1, value, &given));
    ANSWERS(COLA_OK, cola_get(&store, "a", 1, value, &given));
    HOLDS(given == 1 && value[0] == '2');
    ANSWERS(COLA_OK, cola_count(&store, &number));
    HOLDS(number == 2);
    ANSWERS(COLA_OK, cola_checkpoint(&store));
    ANSWERS(COLA_OK, cola_close(&store));
    if (version == 2) { /* the last number, bytes 40 to 47 of the header, at 2^63 */
        memcpy((char *)bytes + 40, "\0\0\0\0\0\0\0\200", 8);
        ANSWERS(COLA_OK, cola_open(&store, bytes, length));
        ANSWERS(COLA_WORN, cola_put(&store, "a", 1, "5", 1, NULL));
        ANSWERS(COLA_OK, cola_get(&store, "a", 1, value, &given));
        HOLDS(given == 1 && value[0] == '2');
        ANSWERS(COLA_OK, cola_close(&store));
    }
    free(bytes);
}

static char path[4096], other_path[4096], near_path[4096], unfinished[4096];

static void write_file(const char *where, const void *bytes, size_t length) {
    FILE *it = fopen(where, "wb");
    if (it == NULL || fwrite(bytes, 1, length, it) != length || fclose(it) != 0) perror(where), exit(1);
}

static long long length_of(const char *where) {
    struct stat about;
    return stat(where, &about) == 0 ? (long long)about.st_size : -1;
}

/* Whether a copy that was not finished is left. */
static bool is_unfinished_left(void) {
    glob_t names;
    bool is_left = glob(unfinished, 0, NULL, &names) == 0;
    if (is_left) globfree(&names);
    return is_left;
}

/* A child that waits until it is told, and ends as another program, so that a tool that looks for leaks finds none. */
static void lives_on(int done[2]) {
    char it;
    if (read(done[0], &it, 1) == 1) execlp("true", "true", (char *)NULL);
    _exit(9);
}

/* A parent that dies with an open store, and its child that lives on, and has the lock until it ends. */
static void of_a_parent_that_dies(int ready[2], int done[2]) {
    cola_file file = COLA_FILE_INIT;
    int32_t answer = COLA_SYSTEM;
    int status = -1;
    char it = 0;
    ANSWERS(COLA_OK, cola_file_open(&file, path));
    ANSWERS(COLA_OK, cola_file_checkpoint(&file, other_path));
    ANSWERS(COLA_OK, cola_file_close(&file));
    pid_t parent = fork();
    if (parent == 0) {
        if (cola_file_open(&file, path) != COLA_OK) _exit(9);
        if (fork() == 0) lives_on(done);
        if (write(ready[1], &it, 1) == 1) pause();
        _exit(9);
    }
    HOLDS(read(ready[0], &it, 1) == 1);
    kill(parent, SIGKILL);
    waitpid(parent, &status, 0);
    HOLDS(WIFSIGNALED(status));
    ANSWERS(COLA_SYSTEM, cola_file_open(&file, path));
    HOLDS(errno == EWOULDBLOCK);
    HOLDS(write(done[1], &it, 1) == 1);
    for (int tries = 0; tries < 1000 && answer == COLA_SYSTEM; tries++) usleep(10000), answer = cola_file_open(&file, path);
    ANSWERS(COLA_NOT_CLOSED, answer);
    HOLDS(rename(other_path, path) == 0);
}

/* Another process that has the file open: what an opening of it answers here. */
static void of_two_processes(void) {
    int ready[2], done[2];
    char it = 0;
    if (pipe(ready) != 0 || pipe(done) != 0) perror("pipe"), exit(1);
    pid_t child = fork();
    if (child == 0) {
        cola_file file = COLA_FILE_INIT;
        int32_t opened = cola_file_open(&file, path);
        it = (char)opened;
        if (write(ready[1], &it, 1) != 1 || read(done[0], &it, 1) != 1) _exit(9);
        _exit(opened == COLA_OK && cola_file_close(&file) == COLA_OK ? 0 : 9);
    }
    cola_file file = COLA_FILE_INIT;
    HOLDS(read(ready[0], &it, 1) == 1 && it == COLA_OK);
    errno = 0;
    ANSWERS(COLA_SYSTEM, cola_file_open(&file, path));
    HOLDS(errno == EWOULDBLOCK);
    HOLDS(write(done[1], &it, 1) == 1);
    int status = -1;
    waitpid(child, &status, 0);
    HOLDS(status == 0);
    ANSWERS(COLA_OK, cola_file_open(&file, path));
    child = fork(); /* a child that closes what its parent has open leaves it to the parent */
    if (child == 0) {
        if (cola_file_checkpoint(&file, other_path) == COLA_CLOSED && cola_file_close(&file) == COLA_OK)
            execlp("true", "true", (char *)NULL);
        _exit(9);
    }
    waitpid(child, &status, 0);
    HOLDS(status == 0);
    ANSWERS(COLA_OK, cola_put(&file.store, "parent", 6, "goes on", 7, NULL));
    child = fork(); /* one that lives on does not keep the lock of a file that its parent closes */
    if (child == 0) lives_on(done);
    ANSWERS(COLA_OK, cola_file_close(&file));
    ANSWERS(COLA_OK, cola_file_open(&file, path));
    ANSWERS(COLA_OK, cola_file_close(&file));
    HOLDS(write(done[1], &it, 1) == 1);
    waitpid(child, &status, 0);
    HOLDS(status == 0);
    of_a_parent_that_dies(ready, done);
    close(ready[0]), close(ready[1]), close(done[0]), close(done[1]);
}

/* Room is taken for a store, and not for what a file has behind it, or for a file that is refused. */
static void of_longer_files(void) {
    cola_file file = COLA_FILE_INIT;
    struct stat about;
    off_t longer = (off_t)1 << 31;
    int descriptor = open(path, O_RDWR);
    HOLDS(ftruncate(descriptor, longer) == 0);
    ANSWERS(COLA_OK, cola_file_open(&file, path));
    HOLDS(file.length == 8192);
    ANSWERS(COLA_OK, cola_file_checkpoint(&file, other_path));
    ANSWERS(COLA_OK, cola_file_close(&file));
    HOLDS(fstat(descriptor, &about) == 0 && about.st_size == longer && about.st_blocks < 2048);
    HOLDS(length_of(other_path) == 8192);
    HOLDS(pwrite(descriptor, "c", 1, 0) == 1);
    ANSWERS(COLA_NOT_STORE, cola_file_open(&file, path));
    HOLDS(pwrite(descriptor, "C", 1, 0) == 1 && pwrite(descriptor, "\1", 1, 14) == 1);
    ANSWERS(COLA_NOT_CLOSED, cola_file_open(&file, path));
    HOLDS(fstat(descriptor, &about) == 0 && about.st_blocks < 2048);
    HOLDS(pwrite(descriptor, "", 1, 14) == 1 && ftruncate(descriptor, 8192) == 0);
    close(descriptor);
}

/* A process that opens the file, to be read alone or not, says what that was answered, and waits until it is killed. */
static pid_t opened_by_another(uint32_t flags, int32_t wanted) {
    int ready[2];
    char it = 77;
    if (pipe(ready) != 0) perror("pipe"), exit(1);
    pid_t child = fork();
    if (child == 0) {
        cola_file file = COLA_FILE_INIT;
        it = (char)cola_file_open_as(&file, path, flags);
        if (write(ready[1], &it, 1) == 1) pause();
        _exit(9);
    }
    HOLDS(read(ready[0], &it, 1) == 1 && it == wanted);
    close(ready[0]), close(ready[1]);
    return child;
}

static void kill_one(pid_t child) {
    int status = 0;
    kill(child, SIGKILL);
    waitpid(child, &status, 0);
    HOLDS(WIFSIGNALED(status));
}

/* The file as it is, to be compared with what it was. */
static void read_file(const char *where, void *bytes, size_t length) {
    FILE *it = fopen(where, "rb");
    if (it == NULL || fread(bytes, 1, length, it) != length || fclose(it) != 0) perror(where), exit(1);
}

/* What a store answers that is open to be read alone. */
static void of_a_reader(cola_file *file) {
    cola_row row = {.key_len = 1, .value_len = 1, .key = "a", .value = "3"}, rows[4];
    cola_cursor cursor;
    cola_store_info info;
    cola_level_info level;
    char value[COLA_VALUE_MAX];
    uint64_t number = 7;
    size_t length = 7;
    bool was = true;
    ANSWERS(COLA_READ_ONLY_STORE, cola_put(&file->store, "a", 1, "3", 1, &was));
    ANSWERS(COLA_READ_ONLY_STORE, cola_put(&file->store, "", 0, "3", 1, NULL)); /* (whatever its lengths are) */
    ANSWERS(COLA_READ_ONLY_STORE, cola_put_if(&file->store, "a", 1, 0, "3", 1, &number));
    ANSWERS(COLA_READ_ONLY_STORE, cola_put_many(&file->store, &row, 1, &was, &length));
    HOLDS(was && number == 7 && length == 0);
    ANSWERS(COLA_READ_ONLY_STORE, cola_put_many(&file->store, NULL, 0, NULL, &length));
    ANSWERS(COLA_READ_ONLY_STORE, cola_delete(&file->store, "a", 1));
    ANSWERS(COLA_READ_ONLY_STORE, cola_delete(&file->store, "absent", 6));
    ANSWERS(COLA_READ_ONLY_STORE, cola_checkpoint(&file->store));
    ANSWERS(COLA_READ_ONLY_STORE, cola_file_checkpoint(file, other_path));
    ANSWERS(COLA_NULL, cola_put(&file->store, NULL, 1, "3", 1, NULL));
    ANSWERS(COLA_NULL, cola_delete(&file->store, NULL, 1));
    ANSWERS(COLA_IN_USE, cola_file_open_as(file, path, COLA_READ_ONLY));
    ANSWERS(COLA_OK, cola_get(&file->store, "a", 1, value, &length));
    HOLDS(length == 1 && value[0] == '1');
    ANSWERS(COLA_NONE, cola_get(&file->store, "absent", 6, value, &length));
    ANSWERS(COLA_OK, cola_stamp(&file->store, "a", 1, &number));
    ANSWERS(COLA_OK, cola_get_many(&file->store, &row, 1, &was, &length));
    HOLDS(was && row.value[0] == '1' && length == 1);
    ANSWERS(COLA_OK, cola_count(&file->store, &number));
    ANSWERS(COLA_OK, cola_seek(&cursor, NULL, 0, NULL, 0));
    ANSWERS(COLA_OK, cola_next(&file->store, &cursor, rows, 4, &length));
    HOLDS(length == number && length < 4 && rows[0].key[0] == 'a');
    ANSWERS(COLA_OK, cola_seek_last(&cursor, "b", 1));
    ANSWERS(COLA_OK, cola_prev(&file->store, &cursor, rows, 4, &length));
    HOLDS(length == 1 && rows[0].key[0] == 'a');
    ANSWERS(COLA_OK, cola_info(&file->store, &info));
    ANSWERS(COLA_OK, cola_level(&file->store, 0, &level));
    ANSWERS(COLA_NONE, cola_level(&file->store, info.levels, &level));
    HOLDS(info.count == number && info.bytes == file->length && level.room == 4);
}

/* Files that are read alone: many at once, beside no writer; one that dies leaves nothing, and no byte is ever written. */
static void of_readers(void) {
    static uint8_t before[8192], now[8192];
    cola_file file = COLA_FILE_INIT, beside = COLA_FILE_INIT;
    struct stat about, after;
    read_file(path, before, sizeof before);
    HOLDS(chmod(path, 0444) == 0 && stat(path, &about) == 0);
    ANSWERS(COLA_NULL, cola_file_open_as(NULL, path, COLA_READ_ONLY));
    ANSWERS(COLA_NULL, cola_file_open_as(&file, NULL, COLA_READ_ONLY));
    ANSWERS(COLA_OPTIONS, cola_file_open_as(&file, path, COLA_READ_ONLY | 2));
    ANSWERS(COLA_OPTIONS, cola_file_open_as(&file, path, 1u << 31));
    ANSWERS(COLA_SYSTEM, cola_file_open_as(&file, "/no such folder/store", COLA_READ_ONLY));
    HOLDS(errno == ENOENT);
    pid_t one = opened_by_another(COLA_READ_ONLY, COLA_OK), two = opened_by_another(COLA_READ_ONLY, COLA_OK);
    ANSWERS(COLA_OK, cola_file_open_as(&file, path, COLA_READ_ONLY));
    ANSWERS(COLA_OK, cola_file_open_as(&beside, path, COLA_READ_ONLY));
    of_a_reader(&file);
    of_a_reader(&beside);
    ANSWERS(COLA_OK, cola_file_close(&beside));
    kill_one(opened_by_another(0, COLA_SYSTEM)); /* a writer beside readers */
    ANSWERS(COLA_SYSTEM, cola_file_open(&beside, path));
    HOLDS(errno == EWOULDBLOCK);
    pid_t child = fork(); /* a child closes what its parent reads, and the parent reads on */
    if (child == 0) {
        if (cola_file_checkpoint(&file, other_path) == COLA_CLOSED && cola_file_close(&file) == COLA_OK) execlp("true", "true", (char *)NULL);
        _exit(9);
    }
    int status = -1;
    waitpid(child, &status, 0);
    HOLDS(status == 0);
    of_a_reader(&file);
    ANSWERS(COLA_OK, cola_file_close(&file));
    ANSWERS(COLA_CLOSED, cola_file_close(&file));
    ANSWERS(COLA_CLOSED, cola_put(&file.store, "a", 1, "3", 1, NULL));
    kill_one(one);
    ANSWERS(COLA_SYSTEM, cola_file_open(&beside, path)); /* (there is one yet) */
    kill_one(two);
    read_file(path, now, sizeof now);
    HOLDS(memcmp(before, now, sizeof now) == 0 && stat(path, &after) == 0 && about.st_mtime == after.st_mtime && about.st_ctime == after.st_ctime);
    HOLDS(chmod(path, 0644) == 0);
    pid_t writer = opened_by_another(0, COLA_OK); /* a reader beside a writer */
    ANSWERS(COLA_SYSTEM, cola_file_open_as(&file, path, COLA_READ_ONLY));
    HOLDS(errno == EWOULDBLOCK);
    kill_one(writer);
    ANSWERS(COLA_NOT_CLOSED, cola_file_open_as(&file, path, COLA_READ_ONLY));
    write_file(path, before, sizeof before);
    ANSWERS(COLA_OK, cola_file_open_as(&file, path, COLA_READ_ONLY));
    HOLDS(rename(path, near_path) == 0); /* a file that lost its name is read on */
    of_a_reader(&file);
    HOLDS(rename(near_path, path) == 0);
    ANSWERS(COLA_OK, cola_file_close(&file));
    ANSWERS(COLA_OK, cola_file_open(&file, path)); /* and the same handle writes, once it is opened for that */
    ANSWERS(COLA_OK, cola_put(&file.store, "a", 1, "1", 1, NULL));
    ANSWERS(COLA_OK, cola_file_checkpoint(&file, other_path));
    ANSWERS(COLA_OK, cola_file_close(&file));
    write_file(other_path, before, 600);
    ANSWERS(COLA_SMALL, cola_file_open_as(&file, other_path, COLA_READ_ONLY));
    HOLDS(length_of(other_path) == 600);
}

static void of_files(void) {
    cola_file file = COLA_FILE_INIT;
    ANSWERS(COLA_NULL, cola_file_create(NULL, 30, 3, 1));
    ANSWERS(COLA_OPTIONS, cola_file_create(path, 0, 3, 1));
    HOLDS(length_of(path) == -1);
    ANSWERS(COLA_SYSTEM, cola_file_create("/no such folder/store", 30, 3, 1));
    HOLDS(errno == ENOENT);
    write_file(path, "x", 1);
    ANSWERS(COLA_NOT_EMPTY, cola_file_create(path, 30, 3, 1));
    HOLDS(length_of(path) == 1);
    write_file(path, "", 0);
    ANSWERS(COLA_SMALL, cola_file_open(&file, path));
    struct rlimit before, less = {4096, 4096};
    getrlimit(RLIMIT_FSIZE, &before);
    less.rlim_max = before.rlim_max;
    setrlimit(RLIMIT_FSIZE, &less); /* (a file of 8,192 bytes has no room: as a full disk) */
    ANSWERS(COLA_SYSTEM, cola_file_create(path, 30, 3, 1));
    HOLDS(length_of(path) == 0);
    unlink(path);
    ANSWERS(COLA_SYSTEM, cola_file_create(path, 30, 3, 1));
    HOLDS(length_of(path) == -1);
    setrlimit(RLIMIT_FSIZE, &before);
    write_file(path, "", 0);
    ANSWERS(COLA_OK, cola_file_create(path, 30, 3, 1));
    HOLDS(length_of(path) == 8192);
    ANSWERS(COLA_NOT_EMPTY, cola_file_create(path, 30, 3, 1));

    ANSWERS(COLA_NULL, cola_file_open(NULL, path));
    ANSWERS(COLA_NULL, cola_file_open(&file, NULL));
    ANSWERS(COLA_SYSTEM, cola_file_open(&file, "/no such folder/store"));
    HOLDS(errno == ENOENT);
    ANSWERS(COLA_SYSTEM, cola_file_open(&file, "/tmp"));
    ANSWERS(COLA_CLOSED, cola_file_checkpoint(&file, other_path));
    ANSWERS(COLA_CLOSED, cola_file_close(&file));
    ANSWERS(COLA_NULL, cola_file_close(NULL));
    of_two_processes();

    ANSWERS(COLA_OK, cola_file_open(&file, path));
    ANSWERS(COLA_IN_USE, cola_file_open(&file, path));
    ANSWERS(COLA_NULL, cola_file_checkpoint(NULL, other_path));
    ANSWERS(COLA_NULL, cola_file_checkpoint(&file, NULL));
    ANSWERS(COLA_SYSTEM, cola_file_checkpoint(&file, "/no such folder/copy"));
    HOLDS(errno == ENOENT);
    ANSWERS(COLA_SYSTEM, cola_file_checkpoint(&file, path)); /* a file is no copy of itself */
    HOLDS(errno == EINVAL);
    ANSWERS(COLA_OK, cola_put(&file.store, "a", 1, "1", 1, NULL));
    setrlimit(RLIMIT_FSIZE, &less);
    ANSWERS(COLA_SYSTEM, cola_file_checkpoint(&file, other_path));
    setrlimit(RLIMIT_FSIZE, &before);
    HOLDS(length_of(other_path) == -1 && !is_unfinished_left());
    ANSWERS(COLA_OK, cola_file_checkpoint(&file, other_path));
    ANSWERS(COLA_OK, cola_file_close(&file));
    HOLDS(length_of(other_path) == 8192);
    ANSWERS(COLA_OK, cola_file_open(&file, other_path));
    ANSWERS(COLA_OK, cola_file_close(&file));

    /* A copy has the mode of its store, and no name that another file has is taken meanwhile. */
    struct stat about;
    HOLDS(rename(path, near_path) == 0 && chmod(near_path, 0604) == 0);
    ANSWERS(COLA_OK, cola_file_open(&file, near_path));
    ANSWERS(COLA_OK, cola_put(&file.store, "b", 1, "1", 1, NULL));
    ANSWERS(COLA_OK, cola_file_checkpoint(&file, path));
    ANSWERS(COLA_OK, cola_put(&file.store, "b", 1, "2", 1, NULL));
    ANSWERS(COLA_OK, cola_file_close(&file));
    HOLDS(length_of(near_path) == 8192 && length_of(path) == 8192 && !is_unfinished_left());
    HOLDS(stat(path, &about) == 0 && (about.st_mode & 0777) == 0604);
    ANSWERS(COLA_OK, cola_file_open(&file, near_path));
    ANSWERS(COLA_OK, cola_file_close(&file));
    HOLDS(rename(near_path, path) == 0);
    of_longer_files();
    of_readers();

    /* A checkpoint that has no memory to open the store again leaves it closed, with its map. */
    ANSWERS(COLA_OK, cola_file_open(&file, path));
    ANSWERS(COLA_OK, cola_put(&file.store, "a", 1, "2", 1, NULL));
    allocations = 0;
    ANSWERS(COLA_MEMORY, cola_file_checkpoint(&file, other_path));
    allocations = -1;
    ANSWERS(COLA_CLOSED, cola_put(&file.store, "a", 1, "3", 1, NULL));
    ANSWERS(COLA_IN_USE, cola_file_open(&file, path));
    ANSWERS(COLA_OK, cola_file_close(&file));
    ANSWERS(COLA_OK, cola_file_open(&file, path));
    char value[COLA_VALUE_MAX];
    size_t value_len = 0;
    ANSWERS(COLA_OK, cola_get(&file.store, "a", 1, value, &value_len));
    HOLDS(value_len == 1 && value[0] == '2');
    ANSWERS(COLA_OK, cola_file_close(&file));

    /* Fewer bytes than the store has, and none of a store. */
    HOLDS(truncate(other_path, 8191) == 0);
    ANSWERS(COLA_SMALL, cola_file_open(&file, other_path));
    write_file(other_path, "no store", 8);
    ANSWERS(COLA_SMALL, cola_file_open(&file, other_path));
    HOLDS(length_of(other_path) == 8);
}

int main(int count, char **words) {
    if (count < 2) return fprintf(stderr, "errors FOLDER\n"), 2;
    snprintf(path, sizeof path, "%s/errors.store", words[1]);
    snprintf(other_path, sizeof other_path, "%s/errors.copy", words[1]);
    snprintf(near_path, sizeof near_path, "%s/errors.store.new", words[1]);
    snprintf(unfinished, sizeof unfinished, "%s/errors.*.new-*", words[1]);
    unlink(path);
    unlink(other_path);
    unlink(near_path);
    signal(SIGXFSZ, SIG_IGN);
    of_sizes();
    of_stored_sizes();
    of_new_stores();
    of_openings();
    of_damaged_stores();
    of_memory();
    of_whole_stores();
    of_closed_handles();
    of_calls(1);
    of_calls(2);
    of_files();
    for (int answer = 0; answer < ANSWERS_IN_ALL; answer++) {
        HOLDS(cola_strerror(answer) != NULL);
        for (int other = 0; other < answer; other++) HOLDS(strcmp(cola_strerror(answer), cola_strerror(other)) != 0);
    }
    HOLDS(strcmp(cola_strerror(-1), cola_strerror(ANSWERS_IN_ALL)) == 0);
    printf("met");
    for (int answer = 0; answer < ANSWERS_IN_ALL; answer++) {
        if (met[answer] || answer == COLA_UNFINISHED) printf(" %d", answer);
        else failed = 1;
    }
    printf("\n");
    return failed;
}
