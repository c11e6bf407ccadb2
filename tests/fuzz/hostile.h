/* What the tests of hostile journals and logs have in common: bytes of which an input is read, files in a folder of their own, a
 * disk that may fail, SHA-256 as the formats' pages have it, and stores whose files and maps are known.
 *
 * Link with -Wl,--wrap=CALL for pwrite, fsync, fdatasync, ftruncate, posix_fallocate and madvise. */
#ifndef HOSTILE_H
#define HOSTILE_H

#define _GNU_SOURCE
#include <dirent.h>
#include <errno.h>
#include <fcntl.h>
#include <stdio.h>
#include <stdlib.h>
#include <string.h>
#include <sys/stat.h>
#include <unistd.h>

#include "cola_core.h"
#include "cola_file.h"
#include "cola_opening.h"
#include "plain.h"

enum { MOST = 1 << 21, PAGE = 4096, HEADER = 512, STATE = 14, SUM = 32, GUARD = 100 };

#define HOLDS(is) ((is) ? (void)0 : fails(__FILE__, __LINE__, #is))

static inline void fails(const char *file, int line, const char *what) {
    fprintf(stderr, "%s: line %d: not so: %s (%s)\n", file, line, what, strerror(errno));
    abort();
}

/* What the fuzzer looks at beside the code: a byte for each thing that an input may bring about. A corpus is kept small by the first two
 * numbers alone (-DFEW). (A program that is linked without the fuzzer has them for nothing.) */
__attribute__((section("__libfuzzer_extra_counters"))) static uint8_t reached[1 << 16];

static inline void reaches(unsigned what, unsigned of, unsigned more) {
#ifdef FEW
    more = 0;
#endif
    reached[((what * 32 + of % 32) * 32 + more % 32) % sizeof reached] = 1;
}

/* The input: behind its end there are zero bytes. */

typedef struct input {
    const uint8_t *bytes;
    size_t length, at;
} input;

static inline bool is_over(const input *it) { return it->at >= it->length; }
static inline uint8_t next(input *it) { return is_over(it) ? 0 : it->bytes[it->at++]; }

static inline uint64_t next_number(input *it, int bytes) {
    uint64_t number = 0;
    for (int at = 0; at < bytes; at++) number |= (uint64_t)next(it) << 8 * at;
    return number;
}

/* Bytes that a file has. */

typedef struct image {
    size_t length;
    uint8_t bytes[MOST];
} image;

static inline void add(image *it, const void *bytes, size_t length) {
    if (length > MOST - it->length) length = MOST - it->length;
    memcpy(it->bytes + it->length, bytes, length);
    it->length += length;
}

static inline void add_number(image *it, uint64_t number, int bytes) {
    for (int at = 0; at < bytes; at++) add(it, &(uint8_t){(uint8_t)(number >> 8 * at)}, 1);
}

static inline uint64_t number_at(const uint8_t *bytes, int count) {
    uint64_t number = 0;
    for (int at = count; at > 0; at--) number = number << 8 | bytes[at - 1];
    return number;
}

static inline bool is_same(const image *it, const image *other) {
    return it->length == other->length && memcmp(it->bytes, other->bytes, it->length) == 0;
}

static inline void copy_image(image *to, const image *from) {
    to->length = from->length;
    memcpy(to->bytes, from->bytes, from->length);
}

/* SHA-256, by FIPS 180-4. */

static inline uint32_t turned(uint32_t word, int by) { return word >> by | word << (32 - by); }

static inline void sha256_block(uint32_t state[8], const uint8_t *block) {
    static const uint32_t k[64] = {
        0x428a2f98, 0x71374491, 0xb5c0fbcf, 0xe9b5dba5, 0x3956c25b, 0x59f111f1, 0x923f82a4, 0xab1c5ed5, 0xd807aa98, 0x12835b01, 0x243185be,
        0x550c7dc3, 0x72be5d74, 0x80deb1fe, 0x9bdc06a7, 0xc19bf174, 0xe49b69c1, 0xefbe4786, 0x0fc19dc6, 0x240ca1cc, 0x2de92c6f, 0x4a7484aa,
        0x5cb0a9dc, 0x76f988da, 0x983e5152, 0xa831c66d, 0xb00327c8, 0xbf597fc7, 0xc6e00bf3, 0xd5a79147, 0x06ca6351, 0x14292967, 0x27b70a85,
        0x2e1b2138, 0x4d2c6dfc, 0x53380d13, 0x650a7354, 0x766a0abb, 0x81c2c92e, 0x92722c85, 0xa2bfe8a1, 0xa81a664b, 0xc24b8b70, 0xc76c51a3,
        0xd192e819, 0xd6990624, 0xf40e3585, 0x106aa070, 0x19a4c116, 0x1e376c08, 0x2748774c, 0x34b0bcb5, 0x391c0cb3, 0x4ed8aa4a, 0x5b9cca4f,
        0x682e6ff3, 0x748f82ee, 0x78a5636f, 0x84c87814, 0x8cc70208, 0x90befffa, 0xa4506ceb, 0xbef9a3f7, 0xc67178f2};
    uint32_t w[64], s[8];
    for (int t = 0; t < 16; t++) w[t] = (uint32_t)block[4 * t] << 24 | (uint32_t)block[4 * t + 1] << 16 | (uint32_t)block[4 * t + 2] << 8 | block[4 * t + 3];
    for (int t = 16; t < 64; t++) {
        uint32_t x = w[t - 15], y = w[t - 2];
        w[t] = w[t - 16] + (turned(x, 7) ^ turned(x, 18) ^ x >> 3) + w[t - 7] + (turned(y, 17) ^ turned(y, 19) ^ y >> 10);
    }
    memcpy(s, state, sizeof s);
    for (int t = 0; t < 64; t++) {
        uint32_t one = s[7] + (turned(s[4], 6) ^ turned(s[4], 11) ^ turned(s[4], 25)) + ((s[4] & s[5]) ^ (~s[4] & s[6])) + k[t] + w[t];
        uint32_t two = (turned(s[0], 2) ^ turned(s[0], 13) ^ turned(s[0], 22)) + ((s[0] & s[1]) ^ (s[0] & s[2]) ^ (s[1] & s[2]));
        memmove(s + 1, s, 7 * sizeof *s);
        s[4] += one, s[0] = one + two;
    }
    for (int at = 0; at < 8; at++) state[at] += s[at];
}

/* The sum of some bytes and of others behind them. */
static inline void sha256(const void *first, size_t first_length, const void *second, size_t second_length, uint8_t sum[SUM]) {
    uint32_t state[8] = {0x6a09e667, 0xbb67ae85, 0x3c6ef372, 0xa54ff53a, 0x510e527f, 0x9b05688c, 0x1f83d9ab, 0x5be0cd19};
    uint64_t length = first_length + second_length;
    uint8_t block[64];
    for (uint64_t at = 0; at < (length + 8) / 64 * 64 + 64; at++) {
        uint64_t end = (length + 8) / 64 * 64 + 56;
        block[at % 64] = at < first_length ? ((const uint8_t *)first)[at]
                         : at < length     ? ((const uint8_t *)second)[at - first_length]
                         : at == length    ? 0x80
                         : at >= end       ? (uint8_t)(length * 8 >> 8 * (7 - (at - end)))
                                           : 0;
        if (at % 64 == 63) sha256_block(state, block);
    }
    for (int at = 0; at < SUM; at++) sum[at] = (uint8_t)(state[at / 4] >> 8 * (3 - at % 4));
}

/* The disk: the write, sync, cut or room of this number, of those from now on, is refused; 0: none. Of a write that is refused the
 * first half is made. */

static int refused_at;
static bool was_refused, is_torn;

static inline bool is_refused(void) {
    if (refused_at == 0 || --refused_at > 0) return false;
    errno = EIO;
    return was_refused = true;
}

static inline void refuse(int at) { refused_at = at, was_refused = is_torn = false; }

ssize_t __real_pwrite(int descriptor, const void *bytes, size_t length, off_t place);
ssize_t __wrap_pwrite(int descriptor, const void *bytes, size_t length, off_t place);
ssize_t __wrap_pwrite(int descriptor, const void *bytes, size_t length, off_t place) {
    if (is_torn) return is_torn = false, errno = EIO, -1;
    if (!is_refused()) return __real_pwrite(descriptor, bytes, length, place);
    return length < 2 ? -1 : (is_torn = true, __real_pwrite(descriptor, bytes, length / 2, place));
}
int __wrap_fsync(int descriptor);
int __wrap_fsync(int descriptor) { return (void)descriptor, is_refused() ? -1 : 0; }
int __wrap_fdatasync(int descriptor);
int __wrap_fdatasync(int descriptor) { return (void)descriptor, is_refused() ? -1 : 0; }
int __real_ftruncate(int descriptor, off_t length);
int __wrap_ftruncate(int descriptor, off_t length);
int __wrap_ftruncate(int descriptor, off_t length) { return is_refused() ? -1 : __real_ftruncate(descriptor, length); }
int __wrap_posix_fallocate(int descriptor, off_t place, off_t length);
int __wrap_posix_fallocate(int descriptor, off_t place, off_t length) { /* (room is a length here: to clear it takes time) */
    struct stat about;
    if (is_refused()) return EIO;
    if (fstat(descriptor, &about) != 0) return errno;
    return about.st_size >= place + length || __real_ftruncate(descriptor, place + length) == 0 ? 0 : errno;
}
int __wrap_madvise(void *at, size_t length, int advice);
int __wrap_madvise(void *at, size_t length, int advice) { return (void)at, (void)length, (void)advice, 0; } /* (huge pages take time to clear) */

/* The files, in a folder that has no others. */

static char folder[2000], store_path[2100], journal_path[2200], log_path[2200], other_path[2100];

static inline void write_bytes(const char *path, const void *bytes, size_t length) {
    int descriptor = open(path, O_WRONLY | O_CREAT | O_TRUNC, 0640);
    HOLDS(descriptor >= 0 && __real_pwrite(descriptor, bytes, length, 0) == (ssize_t)length && close(descriptor) == 0);
}

static inline void write_file(const char *path, const image *it) { write_bytes(path, it->bytes, it->length); }

/* Reads a file: false where there is none. */
static inline bool read_file(const char *path, image *it) {
    int descriptor = open(path, O_RDONLY);
    if (descriptor < 0) return HOLDS(errno == ENOENT), false;
    ssize_t had = pread(descriptor, it->bytes, MOST, 0);
    HOLDS(had >= 0 && had < MOST && close(descriptor) == 0);
    it->length = (size_t)had;
    return true;
}

/* Whether there are zeros from a place on. */
static inline bool has_zeros(const image *it, size_t from) {
    return from >= it->length || (it->bytes[from] == 0 && memcmp(it->bytes + from, it->bytes + from + 1, it->length - from - 1) == 0);
}

static inline bool is_there(const char *path) { return access(path, F_OK) == 0; }

static inline bool has_file(const char *path, const image *it) {
    static image now;
    return read_file(path, &now) && is_same(&now, it);
}

/* Nothing lies in the folder but the store, its journal, its log, and the other file, which nobody may write to. */
static inline void look_at_folder(void) {
    static image other;
    DIR *its = opendir(folder);
    HOLDS(its != NULL);
    for (struct dirent *it; (it = readdir(its)) != NULL;) {
        const char *name = it->d_name;
        bool is_known = name[0] == '.' || strcmp(name, "store") == 0 || strcmp(name, "other") == 0;
        HOLDS(is_known || strcmp(name, "store-journal") == 0 || strcmp(name, "store-log") == 0);
    }
    closedir(its);
    HOLDS(read_file(other_path, &other) && other.length == 5 && memcmp(other.bytes, "other", 5) == 0);
}

/* How many descriptors are open. */
static inline int descriptors(void) {
    int count = 0;
    for (int descriptor = 0; descriptor < 64; descriptor++) count += fcntl(descriptor, F_GETFD) >= 0;
    return count;
}

/* Stores of three shapes: of each the file of a checkpoint and of the next one, with their maps. */

enum { SHAPES = 3, STEPS = 300 };

typedef struct known {
    uint64_t keys;
    uint8_t version;
    image files[2];
    plain maps[2];
} known;

static known stores[SHAPES];

static inline void copy_map(plain *to, const plain *from) {
    to->count = from->count, to->last = from->last;
    memcpy(to->pairs, from->pairs, from->count * sizeof *from->pairs);
}

/* The call of a number on the store and on the map: both answer the same. */
static inline void step(cola *store, plain *map, unsigned number) {
    char key[16], value[16];
    bool was = false, mine = false;
    snprintf(key, sizeof key, "k%02u", number * 31 % ((unsigned)map->limit + 2));
    snprintf(value, sizeof value, "%u", number);
    if (number % 5 == 3) {
        HOLDS(cola_delete(store, key, strlen(key)) == plain_delete(map, key, strlen(key)));
    } else {
        HOLDS(cola_put(store, key, strlen(key), value, strlen(value), &was) == plain_put(map, key, strlen(key), value, strlen(value), &mine));
        HOLDS(was == mine);
    }
}

static inline void make_known(known *it, uint64_t keys, uint8_t version) {
    cola store = COLA_INIT;
    uint64_t length;
    *it = (known){.keys = keys, .version = version, .maps = {plain_new(keys, version), plain_new(keys, version)}};
    HOLDS(cola_size(keys, 3, version, &length) == COLA_OK && length + GUARD < MOST);
    image *file = &it->files[0], *behind = &it->files[1];
    file->length = length;
    HOLDS(cola_create(file->bytes, length, keys, 3, version) == COLA_OK && cola_open(&store, file->bytes, length) == COLA_OK);
    for (unsigned number = 0; number < 3 * keys; number++) step(&store, &it->maps[0], number);
    HOLDS(cola_close(&store) == COLA_OK);
    copy_image(behind, file);
    copy_map(&it->maps[1], &it->maps[0]);
    HOLDS(cola_open(&store, behind->bytes, length) == COLA_OK);
    for (unsigned number = 0; number < 1 + keys / 4; number++) step(&store, &it->maps[1], number + 1000);
    HOLDS(cola_close(&store) == COLA_OK && memcmp(file->bytes, behind->bytes, HEADER) != 0);
    for (size_t at = 0; at < GUARD; at++) add(file, &(uint8_t){(uint8_t)(at + 1)}, 1), add(behind, &(uint8_t){(uint8_t)(at + 1)}, 1);
}

/* Whether an open store has this map. */
static inline bool has_map(cola *store, const plain *map) {
    static cola_row rows[256];
    cola_cursor cursor;
    size_t given = 0;
    uint64_t count, stamp;
    HOLDS(cola_seek(&cursor, NULL, 0, NULL, 0) == COLA_OK);
    int32_t answer = cola_next(store, &cursor, rows, 256, &given);
    HOLDS(answer == (map->count == 0 ? COLA_NONE : COLA_OK) && cola_count(store, &count) == COLA_OK);
    bool same = given == map->count && count == map->count;
    for (size_t row = 0; same && row < given; row++) {
        const cola_row *mine = &map->pairs[row].row;
        same = plain_order(mine->key, mine->key_len, rows[row].key, rows[row].key_len) == 0 &&
               plain_order(mine->value, mine->value_len, rows[row].value, rows[row].value_len) == 0 &&
               cola_stamp(store, mine->key, mine->key_len, &stamp) == COLA_OK && stamp == map->pairs[row].stamp;
    }
    return same;
}

/* The ways in which a file is opened, and what else is done to one that lies closed. */

enum { MAPPED, READ, RESIDENT, LOGGED, SYNCED, RECOVERED, CHECKED, GROWN, WAYS };

static inline bool opens(int way) { return way <= SYNCED; }
static inline bool is_logged(int way) { return way == LOGGED || way == SYNCED; }
static inline uint32_t flags_of(int way) { return (const uint32_t[]){0, COLA_READ_ONLY, COLA_RESIDENT, COLA_LOGGED, COLA_SYNCED}[way]; }

/* Begins: the stores, and a folder below this one. */
static inline void set_up(const char *below) {
    snprintf(folder, sizeof folder, "%.1900s/fuzz-%ld", below, (long)getpid());
    snprintf(store_path, sizeof store_path, "%s/store", folder);
    snprintf(journal_path, sizeof journal_path, "%s/store-journal", folder);
    snprintf(log_path, sizeof log_path, "%s/store-log", folder);
    snprintf(other_path, sizeof other_path, "%s/other", folder);
    HOLDS(mkdir(folder, 0700) == 0 || errno == EEXIST);
    write_bytes(other_path, "other", 5);
    make_known(&stores[0], 12, 1);
    make_known(&stores[1], 12, 2);
    make_known(&stores[2], 70, 1);
}

static inline void take_down(void) {
    unlink(store_path), unlink(journal_path), unlink(log_path), unlink(other_path);
    rmdir(folder);
}

/* Of a test: where its folders lie is told by the variable HOSTILE, and is /dev/shm else. */
static inline void begin_once(void) {
    static bool is_begun;
    const char *below = getenv("HOSTILE");
    if (is_begun) return;
    is_begun = true;
    set_up(below == NULL ? "/dev/shm" : below);
    atexit(take_down);
}

int LLVMFuzzerTestOneInput(const uint8_t *bytes, size_t length);

#endif
