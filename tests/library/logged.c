/* A store with a log: what each call answers and leaves, with a disk that is full or fails, with logs that are changed, cut, of an
 * older checkpoint, of another store, of an earlier library or no logs, with batches, with openings of each kind beside it, and with another process.
 *
 *     logged FOLDER [full]    (full: the folder is that of a disk of 4 MiB, which is filled)
 *
 * Link with -Wl,--wrap=CALL for pwrite, fsync, fdatasync, ftruncate and posix_fallocate. */
#define _GNU_SOURCE
#include <errno.h>
#include <fcntl.h>
#include <signal.h>
#include <stdio.h>
#include <stdlib.h>
#include <string.h>
#include <sys/resource.h>
#include <sys/stat.h>
#include <sys/wait.h>
#include <unistd.h>

#include "cola_core.h"
#include "cola_file.h"
#include "cola_opening.h"
#include "earlier.h"
#include "plain.h"

enum { KEYS = 300, FEW = 12, MOST = 1 << 22, ROOM = 1 << 20, SUM = 32, RECORD = 43 };

#define HOLDS(is) ((is) ? (void)0 : (fprintf(stderr, "logged: line %d: not so: %s (%s)\n", __LINE__, #is, strerror(errno)), exit(1)))

static char path[3100], journal[3200], record[3200], copy[3200];

/* The disk: which call of each kind, of those from now on, is refused with this error, and all behind it; -1: none. A write that is
 * refused has written so many bytes. */
enum { WRITES, SYNCS, CUTS, ROOMS, CALLS };
static long left[CALLS] = {-1, -1, -1, -1}, made[CALLS];
static int error_then;
static size_t torn;

static bool is_refused(int call) {
    made[call]++;
    if (left[call] < 0) return false;
    if (left[call] > 0) return left[call]--, false;
    errno = error_then;
    return true;
}

ssize_t __real_pwrite(int descriptor, const void *bytes, size_t length, off_t place);
ssize_t __wrap_pwrite(int descriptor, const void *bytes, size_t length, off_t place);
ssize_t __wrap_pwrite(int descriptor, const void *bytes, size_t length, off_t place) {
    if (!is_refused(WRITES)) return __real_pwrite(descriptor, bytes, length, place);
    if (torn == 0) return -1;
    size_t part = torn < length ? torn : length - 1;
    torn = 0;
    return __real_pwrite(descriptor, bytes, part, place);
}
int __real_fsync(int descriptor);
int __wrap_fsync(int descriptor);
int __wrap_fsync(int descriptor) { return is_refused(SYNCS) ? -1 : __real_fsync(descriptor); }
int __real_fdatasync(int descriptor);
int __wrap_fdatasync(int descriptor);
int __wrap_fdatasync(int descriptor) { return is_refused(SYNCS) ? -1 : __real_fdatasync(descriptor); }
int __real_ftruncate(int descriptor, off_t length);
int __wrap_ftruncate(int descriptor, off_t length);
int __wrap_ftruncate(int descriptor, off_t length) { return is_refused(CUTS) ? -1 : __real_ftruncate(descriptor, length); }
int __real_posix_fallocate(int descriptor, off_t place, off_t length);
int __wrap_posix_fallocate(int descriptor, off_t place, off_t length);
int __wrap_posix_fallocate(int descriptor, off_t place, off_t length) {
    return is_refused(ROOMS) ? errno : __real_posix_fallocate(descriptor, place, length);
}

static void refuse(int call, long behind, int error) { left[call] = behind, error_then = error; }
static void mend(void) {
    for (int call = 0; call < CALLS; call++) left[call] = -1;
    torn = 0;
}

typedef struct image {
    size_t length;
    uint8_t bytes[MOST];
} image;

static void load(image *it, const char *name) {
    FILE *file = fopen(name, "rb");
    HOLDS(file != NULL);
    it->length = fread(it->bytes, 1, MOST, file);
    HOLDS(it->length < MOST && fclose(file) == 0);
}

static void save(const image *it, const char *name) {
    FILE *file = fopen(name, "wb");
    HOLDS(file != NULL && fwrite(it->bytes, 1, it->length, file) == it->length && fclose(file) == 0);
}

static bool is_file(const char *name, const image *it) {
    static image now;
    load(&now, name);
    return now.length == it->length && memcmp(now.bytes, it->bytes, it->length) == 0;
}

static bool is_there(const char *name) { return access(name, F_OK) == 0; }

/* The calls of a session, and the map that the first so many of them give: puts, deletes, puts with a stamp, and some that are refused. */
typedef struct call {
    int kind;
    char key[8], value[16];
    uint64_t seen;
} call;

static call nth(int number) {
    call it = {number % 7 == 3 ? 2 : number % 7 == 5 ? 1 : 0, "", "", number % 2 == 0 ? 0 : (uint64_t)number};
    snprintf(it.key, sizeof it.key, "k%03d", number * 31 % 40);
    snprintf(it.value, sizeof it.value, "%d", number);
    return it;
}

static int32_t make(cola *store, int number) {
    call it = nth(number);
    size_t length = strlen(it.value);
    return it.kind == 2   ? cola_delete(store, it.key, 4)
           : it.kind == 1 ? cola_put_if(store, it.key, 4, it.seen, it.value, length, NULL)
                          : cola_put(store, it.key, 4, it.value, length, NULL);
}

static void make_all(cola *store, int from, int until) {
    for (int number = from; number < until; number++) {
        int32_t answer = make(store, number);
        HOLDS(answer == COLA_OK || answer == COLA_NONE || answer == COLA_OTHER || answer == COLA_FULL);
    }
}

/* Whether the file, opened so, has the map of the first so many calls. */
static bool has(const char *name, uint32_t flags, uint64_t keys, int calls) {
    plain map = plain_new(keys, 2);
    cola_file file = COLA_FILE_INIT;
    cola_cursor cursor;
    cola_row rows[64];
    size_t given = 0;
    bool was;
    uint64_t stamp, theirs;
    for (int number = 0; number < calls; number++) {
        call it = nth(number);
        size_t length = strlen(it.value);
        if (it.kind == 2) plain_delete(&map, it.key, 4);
        else plain_put_if(&map, it.kind == 0, it.key, 4, it.seen, it.value, length, &was, &stamp);
    }
    HOLDS(cola_file_open_as(&file, name, flags) == COLA_OK && cola_seek(&cursor, NULL, 0, NULL, 0) == COLA_OK);
    cola_next(&file.store, &cursor, rows, 64, &given);
    bool same = given == map.count;
    for (size_t row = 0; same && row < given; row++) {
        const cola_row *mine = &map.pairs[row].row;
        same = plain_order(mine->key, mine->key_len, rows[row].key, rows[row].key_len) == 0 &&
               plain_order(mine->value, mine->value_len, rows[row].value, rows[row].value_len) == 0 &&
               cola_stamp(&file.store, mine->key, mine->key_len, &theirs) == COLA_OK && theirs == map.pairs[row].stamp;
    }
    HOLDS(cola_file_discard(&file) == COLA_OK);
    free(map.pairs);
    return same;
}

static void make_store(uint64_t keys, uint8_t version) {
    unlink(path), unlink(record), unlink(journal);
    HOLDS(cola_file_create(path, keys, 3, version) == COLA_OK && chmod(path, 0640) == 0);
}

static void open_logged(cola_file *file, uint32_t flags) {
    *file = (cola_file)COLA_FILE_INIT;
    HOLDS(cola_file_open_as(file, path, flags) == COLA_OK);
}

/* A session that ends by a death of the process, in a child, behind so many calls. */
static void dies_behind(int from, int until, bool checkpoints) {
    int status;
    pid_t child = fork();
    if (child == 0) {
        cola_file file;
        open_logged(&file, COLA_LOGGED);
        make_all(&file.store, from, until);
        if (checkpoints) HOLDS(cola_file_checkpoint(&file, NULL) == COLA_OK);
        raise(SIGKILL);
    }
    waitpid(child, &status, 0);
    HOLDS(WIFSIGNALED(status) && WTERMSIG(status) == SIGKILL);
}

/* Sessions that die, checkpoints, closes and discards; what stands beside the file meanwhile. */
static void of_sessions(void) {
    cola_file file;
    struct stat about;
    static image was;
    make_store(KEYS, 2);
    load(&was, path);
    open_logged(&file, COLA_LOGGED);
    HOLDS(stat(record, &about) == 0 && about.st_size == ROOM && (about.st_mode & 0777) == 0640 && file.is_resident);
    make_all(&file.store, 0, 30);
    HOLDS(cola_put(&file.store, "", 0, "", 0, NULL) == COLA_LENGTH && cola_put(&file.store, "k", 1, NULL, 999, NULL) == COLA_NULL);
    HOLDS(is_file(path, &was) && cola_file_sync(&file) == COLA_OK && cola_file_discard(&file) == COLA_OK && is_there(record));
    HOLDS(has(path, COLA_LOGGED, KEYS, 30) && is_file(path, &was));
    dies_behind(30, 60, false);
    dies_behind(60, 90, true);
    HOLDS(is_there(record) && !is_file(path, &was));
    dies_behind(90, 120, false);
    HOLDS(has(path, COLA_SYNCED, KEYS, 120) && has(path, COLA_LOGGED | COLA_RESIDENT, KEYS, 120));
    open_logged(&file, COLA_SYNCED | COLA_LOGGED | COLA_RESIDENT);
    make_all(&file.store, 120, 130);
    HOLDS(cola_file_checkpoint(&file, copy) == COLA_OK && has(copy, COLA_READ_ONLY, KEYS, 130));
    cola_verdict verdict;
    HOLDS(cola_file_check_open(&file, &verdict) == COLA_OK);
    make_all(&file.store, 130, 140);
    HOLDS(cola_file_close(&file) == COLA_OK && !is_there(record) && !is_there(journal) && has(path, 0, KEYS, 140));
    open_logged(&file, COLA_LOGGED);
    HOLDS(cola_file_discard(&file) == COLA_OK && !is_there(record)); /* (it has no call) */
    for (uint32_t flags = 0; flags < 32; flags++) {
        bool is_well = flags == COLA_READ_ONLY || (flags & (16 | COLA_READ_ONLY)) == 0;
        file = (cola_file)COLA_FILE_INIT;
        HOLDS(cola_file_open_as(&file, path, flags) == (is_well ? COLA_OK : COLA_OPTIONS));
        if (!is_well) continue;
        HOLDS(cola_file_sync(&file) == (flags >= COLA_LOGGED ? COLA_OK : COLA_OPTIONS) && cola_file_close(&file) == COLA_OK);
    }
    HOLDS(cola_file_sync(&file) == COLA_CLOSED && cola_file_sync(NULL) == COLA_NULL);
}

/* Openings without a log, growing, and a recovery, beside a log: nothing of it is lost. */
static void of_other_openings(void) {
    static const uint32_t flags[] = {0, COLA_READ_ONLY, COLA_RESIDENT};
    bool found, log;
    uint64_t rows;
    for (int way = 0; way < 5; way++) {
        make_store(KEYS, 2);
        dies_behind(0, 50, false);
        if (way < 3) HOLDS(has(path, flags[way], KEYS, 50));
        else if (way == 3) HOLDS(cola_file_grow(path, 2 * KEYS, 3, &rows) == COLA_OK);
        else HOLDS(cola_file_settle(path, &found, &log) == COLA_OK && !found && log);
        HOLDS(!is_there(record) && has(path, 0, way == 3 ? 2 * KEYS : KEYS, 50));
    }
    HOLDS(cola_file_settle(path, &found, &log) == COLA_OK && !found && !log);
    make_store(KEYS, 2);
    dies_behind(0, 50, false);
    HOLDS(unlink(path) == 0 && cola_file_create(path, KEYS, 3, 2) == COLA_OK); /* (the same store anew, without its calls) */
    HOLDS(!is_there(record) && has(path, COLA_LOGGED, KEYS, 0));
}

/* Whether nothing stands in the log's file from a place on. */
static bool is_cut_at(size_t at) {
    static image now;
    load(&now, record);
    while (at < now.length && now.bytes[at] == 0) at++;
    return at >= now.length;
}

/* A log with each byte of its records changed, cut at each length, of an older checkpoint, and of other files. */
static void of_changed_logs(void) {
    static image log, changed, store;
    size_t ends[40], end = SUM;
    int calls = 0;
    make_store(FEW, 2);
    load(&store, path);
    dies_behind(0, 20, false);
    load(&log, record);
    for (; log.bytes[end] != 0; calls++) end += RECORD + (size_t)log.bytes[end + 1] + log.bytes[end + 2], ends[calls] = end;
    HOLDS(calls == 20 && log.length == ROOM);
    changed = log;
    for (size_t at = 0; at < end + 50; at++) {
        int whole = 0;
        if (at >= SUM) while (whole < calls && ends[whole] <= at) whole++;
        changed.bytes[at] ^= (uint8_t)(1u << at % 8);
        save(&changed, record);
        HOLDS(has(path, COLA_LOGGED, FEW, at >= end ? 20 : whole) && is_file(path, &store));
        if (whole > 0 && at % 16 == 0) HOLDS(is_cut_at(at >= end ? end : ends[whole - 1]));
        changed.bytes[at] ^= (uint8_t)(1u << at % 8);
    }
    for (changed.length = 0; changed.length < end + 10; changed.length += 3) {
        int whole = 0;
        while (whole < calls && ends[whole] <= changed.length) whole++;
        save(&changed, record);
        HOLDS(has(path, COLA_LOGGED, FEW, whole));
    }
    save(&log, record);
    HOLDS(cola_file_settle(path, &(bool){0}, &(bool){0}) == COLA_OK && !is_there(record));
    save(&log, record); /* (of an older checkpoint: none of its calls is made again) */
    HOLDS(has(path, COLA_LOGGED, FEW, 20) && !is_there(record));
    save(&log, record);
    HOLDS(has(path, 0, FEW, 20) && is_file(record, &log));
}

/* Puts of keys that begin so, on the store of the file. */
static void puts_of(char begins, int from, int until, uint32_t flags) {
    cola_file file;
    char key[16];
    open_logged(&file, flags);
    for (int number = from; number < until; number++) {
        snprintf(key, sizeof key, "%c%03d", begins, number);
        HOLDS(cola_put(&file.store, key, 4, "v", 1, NULL) == COLA_OK);
    }
    HOLDS((flags == COLA_LOGGED ? cola_file_discard(&file) : cola_file_close(&file)) == COLA_OK);
}

/* Whether the file, opened so, has this many keys, and all of them begin so. */
static bool begins_all(char begins, uint64_t keys, uint32_t flags) {
    cola_file file;
    cola_cursor cursor;
    static cola_row rows[KEYS];
    size_t given = 0;
    open_logged(&file, flags);
    HOLDS(cola_seek(&cursor, NULL, 0, NULL, 0) == COLA_OK);
    cola_next(&file.store, &cursor, rows, KEYS, &given);
    HOLDS(cola_file_discard(&file) == COLA_OK);
    while (given > 0 && rows[given - 1].key[0] == (uint8_t)begins) given--, keys--;
    return given == 0 && keys == 0;
}

/* The log of one store beside the file of another one with as many puts, whose header is the same: none of its calls is made again. */
static void of_another_store(void) {
    static image own, others, log;
    static const uint32_t flags[] = {0, COLA_READ_ONLY, COLA_RESIDENT, COLA_LOGGED, COLA_SYNCED};
    cola_verdict verdict;
    bool found, is_log;
    for (uint8_t version = 1; version <= 2; version++) {
        make_store(KEYS, version);
        puts_of('b', 0, 100, 0);
        load(&others, path);
        make_store(KEYS, version);
        puts_of('a', 0, 100, 0);
        load(&own, path);
        HOLDS(memcmp(own.bytes, others.bytes, 512) == 0);
        puts_of('a', 100, 120, COLA_LOGGED);
        load(&log, record);
        for (int way = 0; way < 7; way++) {
            bool makes = way == 3 || way == 4;
            save(&others, path);
            save(&log, record);
            if (way < 5) HOLDS(begins_all('b', 100, flags[way]));
            else if (way == 5) HOLDS(cola_file_check(path, &verdict) == COLA_OK && verdict.flaw == COLA_SOUND && verdict.count == 100);
            else HOLDS(cola_file_settle(path, &found, &is_log) == COLA_OK && !found && !is_log);
            HOLDS(makes ? !is_there(record) : is_file(record, &log)); /* (one without a call is begun) */
            HOLDS(way == 0 || way == 2 || is_file(path, &others));
        }
        save(&own, path);
        save(&log, record);
        HOLDS(begins_all('a', 120, COLA_LOGGED) && begins_all('a', 120, 0) && !is_there(record));
    }
}

/* A log as an earlier library wrote it, which follows the header alone: where it has calls, they are neither made again nor lost. */
static void of_earlier_logs(void) {
    static image store, log;
    static const uint32_t flags[] = {0, COLA_READ_ONLY, COLA_RESIDENT, COLA_LOGGED, COLA_SYNCED};
    cola_file file = COLA_FILE_INIT;
    cola_verdict verdict;
    bool found, is_log;
    uint64_t rows;
    for (uint8_t version = 1; version <= 2; version++) {
        make_store(KEYS, version);
        puts_of('k', 0, 10, 0);
        load(&store, path);
        for (int calls = 1; calls <= 10; calls += 9) {
            log.length = earlier_log(store.bytes, calls, log.bytes, sizeof log.bytes);
            save(&log, record);
            for (int way = 0; way < 8; way++) {
                errno = 0;
                int32_t answer = way < 5    ? cola_file_open_as(&file, path, flags[way])
                                 : way == 5 ? cola_file_check(path, &verdict)
                                 : way == 6 ? cola_file_grow(path, 2 * KEYS, 3, &rows)
                                            : cola_file_settle(path, &found, &is_log);
                HOLDS(answer == COLA_UNFINISHED && errno == ENOTSUP && file.bytes == NULL);
                HOLDS(is_file(path, &store) && is_file(record, &log));
            }
        }
        HOLDS(unlink(record) == 0);
        puts_of('k', 10, 11, COLA_LOGGED);
        HOLDS(cola_file_settle(path, &found, &is_log) == COLA_OK && is_log); /* (behind which the log follows nothing) */
        save(&log, record);
        HOLDS(begins_all('k', 11, COLA_READ_ONLY) && is_file(record, &log) && begins_all('k', 11, COLA_LOGGED) && !is_there(record));
        save(&store, path);
        log.length = SUM; /* (no call is lost) */
        save(&log, record);
        HOLDS(begins_all('k', 10, COLA_READ_ONLY) && begins_all('k', 10, COLA_LOGGED) && !is_there(record));
    }
}

/* Other files of a log's name are not written to. */
static void of_other_files(void) {
    static image text;
    cola_file file = COLA_FILE_INIT;
    for (text.length = 0; text.length < 5000;) text.bytes[text.length] = (uint8_t)('a' + text.length % 26), text.length++;
    make_store(FEW, 2);
    save(&text, record);
    HOLDS(cola_file_open_as(&file, path, COLA_LOGGED) == COLA_SYSTEM && errno == EEXIST && is_file(record, &text));
    HOLDS(has(path, 0, FEW, 0) && has(path, COLA_READ_ONLY, FEW, 0) && is_file(record, &text));
    HOLDS(unlink(record) == 0 && symlink(copy, record) == 0);
    HOLDS(cola_file_open_as(&file, path, COLA_LOGGED) == COLA_SYSTEM && errno == ELOOP && has(path, 0, FEW, 0));
    HOLDS(unlink(record) == 0 && mkfifo(record, 0600) == 0);
    HOLDS(cola_file_open_as(&file, path, COLA_LOGGED) == COLA_SYSTEM && errno == EINVAL && has(path, 0, FEW, 0));
    HOLDS(unlink(record) == 0);
}

/* Batches: one write each, and nothing of them is logged that is not made. */
static void of_batches(void) {
    static cola_row rows[2000];
    cola_file file;
    size_t done;
    uint64_t count;
    make_store(KEYS, 2);
    open_logged(&file, COLA_LOGGED);
    for (int row = 0; row < 2000; row++) {
        rows[row] = (cola_row){.key_len = 4, .value_len = 2, .value = "on"};
        char key[16];
        snprintf(key, sizeof key, "%04d", row);
        memcpy(rows[row].key, key, 4);
    }
    made[WRITES] = 0;
    HOLDS(cola_put_many(&file.store, rows, 200, NULL, &done) == COLA_OK && done == 200 && made[WRITES] == 1);
    HOLDS(cola_put_many(&file.store, rows, 100, NULL, &done) == COLA_OK && done == 100 && made[WRITES] == 2);
    rows[150].key_len = 99; /* (no length) */
    HOLDS(cola_put_many(&file.store, rows + 100, 90, NULL, &done) == COLA_LENGTH && done == 50);
    rows[150].key_len = 4;
    refuse(CUTS, 0, EIO); /* (nothing behind the row that is refused has been written) */
    HOLDS(cola_put_many(&file.store, rows + 150, 1000, NULL, &done) == COLA_FULL && done == 150);
    HOLDS(cola_file_sync(&file) == COLA_OK);
    mend();
    HOLDS(cola_file_discard(&file) == COLA_OK);
    open_logged(&file, COLA_LOGGED);
    HOLDS(cola_count(&file.store, &count) == COLA_OK && count == KEYS && cola_stamp(&file.store, "0299", 4, &count) == COLA_OK && count == 500);
    made[WRITES] = 0; /* (in a full store too, of keys that are there; a new one is refused by itself) */
    HOLDS(cola_put_many(&file.store, rows, 300, NULL, &done) == COLA_OK && done == 300 && made[WRITES] == 1);
    HOLDS(cola_put_many(&file.store, rows + 200, 101, NULL, &done) == COLA_FULL && done == 100 && made[WRITES] == 3);
    HOLDS(cola_delete(&file.store, "0007", 4) == COLA_OK && made[WRITES] == 4);
    HOLDS(cola_put_many(&file.store, rows + 299, 5, NULL, &done) == COLA_FULL && done == 2 && made[WRITES] == 6);
    HOLDS(cola_delete(&file.store, "0300", 4) == COLA_OK && cola_put(&file.store, "0007", 4, "on", 2, NULL) == COLA_OK);
    refuse(WRITES, 0, ENOSPC);
    HOLDS(cola_put_many(&file.store, rows, 100, NULL, &done) == COLA_SYSTEM && done == 0 && errno == ENOSPC);
    mend();
    HOLDS(cola_put(&file.store, "0001", 4, "yes", 3, NULL) == COLA_OK && cola_file_close(&file) == COLA_OK && !is_there(record));
}

/* A disk that is full or fails, in puts: the call is answered and not made, and what follows it is kept. */
static void of_a_failing_disk(void) {
    cola_file file;
    for (int way = 0; way < 5; way++) {
        for (size_t part = 0; part < 60; part += way < 2 ? 7 : 60) {
            make_store(KEYS, 2);
            open_logged(&file, way == 4 ? COLA_SYNCED : COLA_LOGGED);
            make_all(&file.store, 0, 10);
            torn = part;
            if (way == 0) refuse(WRITES, 0, ENOSPC);                          /* the record is torn, and cut off */
            if (way == 1) refuse(WRITES, 0, EIO), refuse(CUTS, 0, EIO);       /* it cannot be cut off */
            if (way == 2) HOLDS(truncate(record, 500) == 0);                  /* (the room is not looked at again) */
            if (way == 3) refuse(SYNCS, 0, EIO);                              /* a sync fails */
            if (way == 4) refuse(SYNCS, 0, EIO);                              /* that of the call itself */
            int32_t answer = way == 3 ? cola_file_sync(&file) : cola_put(&file.store, "k", 1, "v", 1, NULL);
            HOLDS(answer == (way == 2 ? COLA_OK : COLA_SYSTEM));
            if (way != 2) HOLDS(errno == (way == 0 ? ENOSPC : EIO) && cola_get(&file.store, "k", 1, &(cola_row){0}, &(size_t){0}) == COLA_NONE);
            if (way == 1 || way >= 3) {
                HOLDS(cola_put(&file.store, "k", 1, "v", 1, NULL) == COLA_UNFINISHED && cola_delete(&file.store, "k", 1) == COLA_UNFINISHED);
                HOLDS(cola_file_sync(&file) == COLA_UNFINISHED);
                HOLDS(cola_file_checkpoint(&file, NULL) == COLA_SYSTEM);
                HOLDS(cola_put(&file.store, "k", 1, "v", 1, NULL) == COLA_UNFINISHED);
                mend();
                HOLDS(cola_file_checkpoint(&file, NULL) == COLA_OK);
            }
            mend();
            if (way == 2) HOLDS(cola_delete(&file.store, "k", 1) == COLA_OK);
            make_all(&file.store, 10, 20);
            HOLDS(cola_file_discard(&file) == COLA_OK);
            if (way == 2) HOLDS(cola_file_open_as(&file, path, COLA_LOGGED) == COLA_OK && cola_file_close(&file) == COLA_OK);
            else HOLDS(has(path, COLA_LOGGED, KEYS, 20));
        }
    }
}

/* A checkpoint of which each write, sync and cut fails, and calls behind it: what was answered is kept, whichever way it ends. */
static void of_failing_checkpoints(void) {
    cola_file file;
    int unfinished = 0;
    for (int call = 0; call < ROOMS; call++) {
        for (int at = 0; at < 10; at++) {
            make_store(KEYS, 2);
            open_logged(&file, COLA_LOGGED);
            make_all(&file.store, 0, 30);
            refuse(call, at, EIO);
            int32_t answer = cola_file_checkpoint(&file, NULL);
            HOLDS(answer == COLA_OK || ((answer == COLA_SYSTEM || answer == COLA_UNFINISHED) && errno == EIO));
            mend();
            int calls = 30;
            if (cola_put(&file.store, "", 0, "", 0, NULL) == COLA_UNFINISHED) unfinished++;
            else make_all(&file.store, 30, 45), calls = 45;
            HOLDS(cola_file_discard(&file) == COLA_OK && has(path, COLA_LOGGED, KEYS, calls));
        }
    }
    HOLDS(unfinished > 6);
}

/* The syncs of a log as it is opened, and behind a checkpoint: one that fails is answered, and nothing is lost. */
static void of_failing_syncs(void) {
    cola_file file = COLA_FILE_INIT;
    for (int calls = 0; calls <= 30; calls += 30) {
        for (int at = 0; at < 2; at++) { /* (that of its name, and its own) */
            make_store(KEYS, 2);
            if (calls > 0) dies_behind(0, calls, false);
            refuse(SYNCS, at, EIO);
            HOLDS(cola_file_open_as(&file, path, COLA_LOGGED) == COLA_SYSTEM && errno == EIO && file.bytes == NULL);
            mend();
            HOLDS(has(path, COLA_LOGGED, KEYS, calls));
        }
    }
    make_store(KEYS, 2);
    open_logged(&file, COLA_LOGGED);
    for (int calls = 0; calls < 30; calls += 15) { /* (the first one syncs the journal's name too) */
        make_all(&file.store, calls, calls + 15);
        made[SYNCS] = 0;
        HOLDS(cola_file_checkpoint(&file, NULL) == COLA_OK);
    }
    make_all(&file.store, 30, 45);
    refuse(SYNCS, made[SYNCS] - 1, EIO);
    HOLDS(cola_file_checkpoint(&file, NULL) == COLA_SYSTEM && errno == EIO);
    mend();
    HOLDS(cola_delete(&file.store, "k", 1) == COLA_UNFINISHED && cola_file_checkpoint(&file, NULL) == COLA_OK);
    HOLDS(cola_file_discard(&file) == COLA_OK && has(path, COLA_LOGGED, KEYS, 45));
}

/* A limit on the length of files, as a disk that is full: calls are answered until there is room again. */
static void of_a_full_disk(void) {
    cola_file file;
    struct rlimit limit;
    int done = 0;
    make_store(KEYS, 2);
    open_logged(&file, COLA_LOGGED);
    signal(SIGXFSZ, SIG_IGN);
    HOLDS(getrlimit(RLIMIT_FSIZE, &limit) == 0);
    HOLDS(setrlimit(RLIMIT_FSIZE, &(struct rlimit){ROOM + 1000, limit.rlim_max}) == 0);
    int32_t answer = COLA_OK;
    for (; done < 100000; done++) {
        answer = make(&file.store, done);
        if (answer == COLA_SYSTEM) break;
    }
    HOLDS(answer == COLA_SYSTEM && errno == EFBIG && done > ROOM / 100);
    HOLDS(make(&file.store, done) == COLA_SYSTEM);
    HOLDS(setrlimit(RLIMIT_FSIZE, &limit) == 0);
    make_all(&file.store, done, done + 100);
    HOLDS(cola_file_discard(&file) == COLA_OK && has(path, COLA_LOGGED, KEYS, done + 100));
    HOLDS(cola_file_settle(path, &(bool){0}, &(bool){0}) == COLA_OK && !is_there(record));
}

/* A disk that is full: what finds no room on it is answered and not made, and goes on where there is room again. */
static void of_a_filled_disk(const char *folder) {
    static char filler[3300];
    static image was;
    cola_file file;
    int done = 0;
    int32_t answer = COLA_OK;
    snprintf(filler, sizeof filler, "%.3000s/filler", folder);
    make_store(KEYS, 2);
    load(&was, path);
    open_logged(&file, COLA_LOGGED);
    int descriptor = open(filler, O_RDWR | O_CREAT | O_TRUNC, 0600);
    for (off_t at = 0; pwrite(descriptor, &was, 4096, at) == 4096;) at += 4096;
    HOLDS(errno == ENOSPC);
    for (; done < 100000 && answer != COLA_SYSTEM; done += answer != COLA_SYSTEM) answer = make(&file.store, done);
    HOLDS(answer == COLA_SYSTEM && errno == ENOSPC && done > ROOM / 100);
    HOLDS(make(&file.store, done) == COLA_SYSTEM && errno == ENOSPC);
    HOLDS(cola_file_sync(&file) == COLA_OK && cola_file_checkpoint(&file, NULL) == COLA_SYSTEM && errno == ENOSPC && is_file(path, &was));
    HOLDS(make(&file.store, done) == COLA_SYSTEM && errno == ENOSPC);
    HOLDS(ftruncate(descriptor, 0) == 0);
    make_all(&file.store, done, done + 100);
    HOLDS(cola_file_discard(&file) == COLA_OK && is_file(path, &was) && has(path, COLA_LOGGED, KEYS, done + 100));
    open_logged(&file, COLA_LOGGED);
    HOLDS(cola_file_close(&file) == COLA_OK && !is_there(record) && has(path, 0, KEYS, done + 100));
    HOLDS(close(descriptor) == 0 && unlink(filler) == 0 && unlink(path) == 0);
}

/* Another process opens nothing, and a child leaves the log to its parent. */
static void of_two_processes(void) {
    cola_file file, second = COLA_FILE_INIT;
    int status;
    make_store(KEYS, 1);
    open_logged(&file, COLA_LOGGED);
    HOLDS(cola_put(&file.store, "k", 1, "v", 1, NULL) == COLA_OK);
    pid_t child = fork();
    if (child == 0) {
        HOLDS(cola_file_open_as(&second, path, COLA_LOGGED) == COLA_SYSTEM && errno == EWOULDBLOCK);
        HOLDS(cola_file_settle(path, &(bool){0}, &(bool){0}) == COLA_SYSTEM && errno == EWOULDBLOCK);
        HOLDS(cola_file_sync(&file) == COLA_CLOSED && cola_file_close(&file) == COLA_OK);
        _exit(0);
    }
    waitpid(child, &status, 0);
    HOLDS(WIFEXITED(status) && WEXITSTATUS(status) == 0 && is_there(record));
    HOLDS(cola_put(&file.store, "l", 1, "v", 1, NULL) == COLA_OK && cola_file_close(&file) == COLA_OK && !is_there(record));
}

/* A first page of version 1 that comes again, of which all that changed sank below: the log is kept where a checkpoint would tell it by
 * nothing. */
static void of_the_same_page(void) {
    cola_file file;
    uint64_t count;
    size_t length;
    char value[COLA_VALUE_MAX];
    static image was, now;
    int kept = 0;
    make_store(FEW, 1);
    open_logged(&file, COLA_LOGGED);
    for (int number = 0; number <= 600; number++) {
        snprintf(value, sizeof value, "%d", number);
        HOLDS(cola_put(&file.store, "a", 1, value, strlen(value), NULL) == COLA_OK);
        for (int more = 0; more < 63; more++) HOLDS(cola_put(&file.store, "k", 1, "v", 1, NULL) == COLA_OK);
        if (number == 100) {
            HOLDS(cola_file_checkpoint(&file, NULL) == COLA_OK);
            load(&was, path);
        }
        if (number <= 100) continue;
        HOLDS(cola_file_checkpoint(&file, copy) == COLA_OK);
        load(&now, copy);
        if (memcmp(was.bytes, now.bytes, 4096) != 0) continue;
        kept++;
        HOLDS(cola_file_checkpoint(&file, NULL) == COLA_OK && is_file(path, &was) && cola_file_discard(&file) == COLA_OK);
        open_logged(&file, COLA_LOGGED);
        HOLDS(cola_get(&file.store, "a", 1, value, &length) == COLA_OK && atoi(value) == number);
        if (kept == 2) break;
    }
    HOLDS(kept == 2 && cola_file_close(&file) == COLA_OK && is_there(record) && is_file(path, &was));
    HOLDS(cola_file_open_as(&file, path, 0) == COLA_UNFINISHED && errno == EEXIST && is_there(record));
    open_logged(&file, COLA_LOGGED);
    HOLDS(cola_put(&file.store, "l", 1, "v", 1, NULL) == COLA_OK && cola_file_close(&file) == COLA_OK && !is_there(record));
    HOLDS(cola_file_open(&file, path) == COLA_OK && cola_count(&file.store, &count) == COLA_OK && count == 3 && cola_file_close(&file) == COLA_OK);
}

int main(int count, char **words) {
    if (count < 2) return fprintf(stderr, "logged FOLDER\n"), 2;
    snprintf(path, sizeof path, "%.3000s/logged.store", words[1]);
    snprintf(journal, sizeof journal, "%.3000s/logged.store-journal", words[1]);
    snprintf(record, sizeof record, "%.3000s/logged.store-log", words[1]);
    snprintf(copy, sizeof copy, "%.3000s/logged.copy", words[1]);
    if (count > 2) return of_a_filled_disk(words[1]), 0;
    of_sessions();
    of_other_openings();
    of_changed_logs();
    of_another_store();
    of_earlier_logs();
    of_other_files();
    of_batches();
    of_a_failing_disk();
    of_failing_checkpoints();
    of_failing_syncs();
    of_a_full_disk();
    of_two_processes();
    of_the_same_page();
    return 0;
}
