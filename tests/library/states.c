/* What a failure of the power, or of the process, may leave of a resident store's file, its journal and its log, enumerated: sessions
 * of random puts, deletes, syncs, checkpoints and deaths of the process are recorded, and at each write, sync, cut and name the disk
 * is left as it was synced, with parts of what was done to it since: with each set of them, where they are at most 8 (in every fourth
 * session, 5 in the others); of more of them none, all, all in front of each, all but each, and 18 random sets. From each of these
 * states a recovery makes, byte for byte, the file of the last promised checkpoint, or of the one under way, and of that one alone
 * once its journal is on the disk; and so it does where it is cut short itself, at each of its own steps. The files that it makes are
 * opened and have the map of their checkpoint; those that differ are kept, for the program's check. Half of the states are those of
 * sessions with logs: from each of them an opening makes the map of the first so many calls on that checkpoint, at least of all that
 * were synced, or answered, where the process alone died. Where the journal of a state stands beside the file of an earlier checkpoint,
 * or of a new store for as many keys, a recovery leaves that file.
 *
 *     states FOLDER STATES    (FOLDER is best in memory)
 *
 * Link with -Wl,--wrap=CALL for pwrite, fsync, fdatasync, ftruncate, posix_fallocate, madvise, open, openat and unlinkat. The last line
 * counts the states. */
#define _GNU_SOURCE
#include <errno.h>
#include <fcntl.h>
#include <stdarg.h>
#include <stdio.h>
#include <stdlib.h>
#include <sys/stat.h>
#include <unistd.h>

#include "cola_disk.h"
#include "cola_file.h"
#include "cola_journal.h"
#include "plain.h"

enum { MANY = 90, FEW = 12, MOST = 1 << 16, STATE = 14, HEADER = 512, PAGE = 4096, SECTOR = 512, PARTS = 40, IMAGES = 1 << 14, CALLS = 64, BYTES = 24,
       OLDER = 8 };

#define HOLDS(is) ((is) ? (void)0 : fails(#is, __LINE__))

/* The file of the sessions, and those of the states that are looked at, of a session and of a recovery; each in a folder. */
static char folder[3000], paths[3][3100], journals[3][3200], logs[3][3200];
static long states, distinct, recoveries, others;
static unsigned long long seed = 1;

static void fails(const char *what, int line) {
    fprintf(stderr, "states: state %ld: line %d: not so: %s\n", states, line, what);
    exit(1);
}

static unsigned below(unsigned most) {
    seed = seed * 6364136223846793005u + 1442695040888963407u;
    return (unsigned)(seed >> 33) % most;
}

/* The disk: each file as it was synced, and what was done to it since, in parts that a disk makes as a whole or not. */

enum { STORE, JOURNAL, LOG, FILES, FOLDER };

typedef struct image {
    size_t length;
    uint8_t bytes[MOST];
} image;

typedef struct part {
    bool is_cut; /* the file is made this long; else these bytes are written */
    size_t place, length;
    uint8_t bytes[PAGE];
} part;

typedef struct disk {
    image synced[FILES];
    int parts[FILES];
    part since[FILES][PARTS];
    bool was_named[FILES], is_named[FILES]; /* the names of journal and log, on the disk and as they are seen */
} disk;

static disk now;
static bool records;      /* calls are recorded */
static long dies_in = -1; /* so many calls are made before the process dies; -1: it lives */

static void make(image *it, const part *what, size_t length) {
    if (what->is_cut) {
        if (what->place > it->length) memset(it->bytes + it->length, 0, what->place - it->length);
        it->length = what->place;
        return;
    }
    if (what->place > it->length) memset(it->bytes + it->length, 0, what->place - it->length);
    memcpy(it->bytes + what->place, what->bytes, length);
    if (what->place + length > it->length) it->length = what->place + length;
}

/* The states. */

static image checkpoints[2]; /* the file of the last promised checkpoint, and of the one under way */
static bool is_coming;       /* there is one under way */
static bool is_held;         /* whose journal is on the disk */
static image older[OLDER];   /* the file of the new store, and of some earlier promised checkpoints */
static int promised;         /* how many there were */
static int all_up_to = 5;    /* of so many parts each set is taken */
static uint32_t degree;      /* the flags of the sessions */
static unsigned keys;        /* that their store is for */
static int synced_calls, made_calls, coming_calls; /* of the log: on the disk, answered, and being made */

/* A state: what the files have, which of them have a name, and how many calls at least are to be found. */
typedef struct state {
    image files[FILES];
    bool is_named[FILES];
    int least;
} state;

static void consider(const state *it, int depth);

static bool is_logged(void) { return degree >= COLA_LOGGED; }
static int files_now(void) { return is_logged() ? FILES : LOG; }

/* A hash of bytes behind another one, of four that run beside each other. */
static uint64_t hash_of(uint64_t hash, const uint8_t *bytes, size_t length) {
    uint64_t word[4], sum[4] = {hash, 2, 3, 4};
    size_t at = 0;
    for (; at + sizeof word <= length; at += sizeof word) {
        memcpy(word, bytes + at, sizeof word);
        for (int lane = 0; lane < 4; lane++) sum[lane] = (sum[lane] ^ word[lane]) * 1099511628211u, sum[lane] ^= sum[lane] >> 29;
    }
    for (; at < length; at++) sum[0] = (sum[0] ^ bytes[at]) * 1099511628211u;
    for (int lane = 1; lane < 4; lane++) sum[0] = (sum[0] ^ sum[lane]) * 1099511628211u, sum[0] ^= sum[0] >> 29;
    return sum[0];
}

/* A state is looked at once. */
static bool is_new(const state *of) {
    static uint64_t seen[1 << 22];
    uint64_t hash = 1469598103934665603u + of->is_named[JOURNAL] + 2 * is_coming;
    if (is_logged()) hash += 4u * ((unsigned)of->is_named[LOG] + 2u * ((unsigned)of->least + 64u * (unsigned)(made_calls + coming_calls)));
    for (int file = 0; file < FILES + 1 + is_coming; file++) {
        const image *it = file < FILES ? &of->files[file] : &checkpoints[file - FILES];
        if (file == JOURNAL && !of->is_named[JOURNAL]) continue;
        if (file == LOG && !(is_logged() && of->is_named[LOG])) continue;
        hash = hash_of(hash, it->bytes, it->length);
        hash = (hash ^ it->length) * 1099511628211u;
    }
    for (size_t at = hash % (1 << 22);; at = (at + 1) % (1 << 22)) {
        if (seen[at] == hash) return false;
        if (seen[at] == 0) return seen[at] = hash, true;
    }
}

/* A file as it was synced, with those of the parts since that the bits choose, the last of all torn behind so many bytes. */
static void with_parts(image *it, int file, unsigned long long chosen, size_t torn) {
    it->length = now.synced[file].length;
    memcpy(it->bytes, now.synced[file].bytes, it->length);
    for (int at = 0; at < now.parts[file]; at++) {
        const part *what = &now.since[file][at];
        bool is_last = at == now.parts[file] - 1;
        if ((chosen >> at & 1) != 0) make(it, what, is_last && !what->is_cut && torn < what->length ? torn : what->length);
    }
}

/* Some choices of parts: all of them while they are few, else none, all, all in front of each, all but each, and random ones. */
static unsigned long long choice(int parts, unsigned number, unsigned count) {
    unsigned long long all = (1ull << parts) - 1;
    if (parts <= all_up_to) return number;
    if (number == 0 || number == count - 1) return number == 0 ? 0 : all;
    if (number <= (unsigned)parts) return (1ull << (number - 1)) - 1;
    if (number <= 2 * (unsigned)parts) return all ^ 1ull << (number - 1 - (unsigned)parts);
    return ((unsigned long long)below(1u << 31) << 20 ^ below(1u << 31)) & all;
}

static unsigned choices(int parts) { return parts <= all_up_to ? 1u << parts : 2 * (unsigned)parts + 18; }

static int least_before; /* what a recovery that is recorded has to find */

/* This choice of one file's parts, with each of the others as it was synced, and as it is seen, and so the names. */
static void with_others(state *it, int file, bool is_all, int depth) {
    int others[2] = {file == STORE ? JOURNAL : STORE, file == LOG ? JOURNAL : LOG};
    for (int sees = 0; sees < (is_logged() ? 4 : 2); sees++) {
        for (int other = 0; other < (is_logged() ? 2 : 1); other++)
            with_parts(&it->files[others[other]], others[other], (sees >> other & 1) != 0 ? ~0ull : 0, SIZE_MAX);
        for (int names = 0; names < 4; names++) {
            bool is_same = true;
            for (int named = JOURNAL; named <= LOG; named++) {
                bool is_old = (names >> (named - JOURNAL) & 1) != 0;
                it->is_named[named] = is_old ? now.was_named[named] : now.is_named[named];
                is_same = is_same && !(is_old && now.was_named[named] == now.is_named[named]);
            }
            if (!is_same) continue; /* (it was there before) */
            it->least = depth > 0 ? least_before : is_all && sees == 3 && names == 0 ? made_calls : synced_calls;
            consider(it, depth);
        }
    }
}

/* Each choice of the parts of one file. A log's last part is torn anywhere, for a disk may have had some of its sector before. */
static void enumerate(int depth) {
    static state states_of[3];
    for (int file = 0; file < files_now(); file++) {
        int parts = now.parts[file];
        size_t last = parts > 0 ? now.since[file][parts - 1].length : 0, step = file == LOG ? BYTES : SECTOR;
        for (unsigned number = 0; number < choices(parts); number++) {
            unsigned long long chosen = choice(parts, number, choices(parts)), all = (1ull << parts) - 1;
            bool tears = parts > 0 && (chosen >> (parts - 1) & 1) != 0 && !(file == STORE && now.since[file][parts - 1].place == 0);
            for (size_t torn = tears ? step : last; torn <= last || torn < last + step; torn += step) {
                with_parts(&states_of[depth].files[file], file, chosen, torn < last ? torn : last);
                with_others(&states_of[depth], file, chosen == all && (torn >= last || !tears), depth);
                if (!tears || torn >= last) break;
            }
        }
    }
}

static void done_to(int file, bool is_cut, size_t place, size_t length, const uint8_t *bytes) {
    part *it = &now.since[file][now.parts[file]++];
    HOLDS(now.parts[file] <= PARTS && length <= PAGE && place + length <= MOST);
    *it = (part){.is_cut = is_cut, .place = place, .length = length};
    memcpy(it->bytes, bytes, length);
}

static void synced(int file) {
    for (int at = 0; at < now.parts[file]; at++) make(&now.synced[file], &now.since[file][at], now.since[file][at].length);
    now.parts[file] = 0;
}

/* The calls. */

static int file_of[256]; /* which file a descriptor has, and 1 more; 0: none of these */

static int depth_now; /* 0 in a session, 1 in a recovery of a state, 2 in one of a recovery that was cut short */

/* Whether a call is made: not where the process has died. */
static bool is_made(void) {
    if (records && dies_in == 0) return false;
    if (records && dies_in > 0) dies_in--;
    return true;
}

/* A write reaches the disk in pages, and the header by itself. */
static void write_parts(int file, const uint8_t *bytes, size_t length, size_t place) {
    while (length > 0) {
        size_t end = file == STORE && place < HEADER ? HEADER : (place / PAGE + 1) * PAGE;
        size_t some = end - place < length ? end - place : length;
        done_to(file, false, place, some, bytes);
        bytes += some, place += some, length -= some;
        enumerate(depth_now);
    }
}

ssize_t __real_pwrite(int descriptor, const void *bytes, size_t length, off_t place);
ssize_t __wrap_pwrite(int descriptor, const void *bytes, size_t length, off_t place);
ssize_t __wrap_pwrite(int descriptor, const void *bytes, size_t length, off_t place) {
    if (!is_made()) return (ssize_t)length;
    ssize_t wrote = __real_pwrite(descriptor, bytes, length, place);
    if (records && file_of[descriptor] > 0) write_parts(file_of[descriptor] - 1, bytes, length, (size_t)place);
    return wrote;
}

int __real_fsync(int descriptor);
int __wrap_fsync(int descriptor);
int __wrap_fsync(int descriptor) { /* (nothing is waited for: the disk is the one above) */
    if (!is_made() || !records || file_of[descriptor] == 0) return 0;
    int file = file_of[descriptor] - 1;
    if (file == FOLDER) memcpy(now.was_named, now.is_named, sizeof now.was_named);
    else synced(file);
    if (file == JOURNAL && depth_now == 0 && is_coming && now.synced[JOURNAL].length > 0) is_held = true;
    enumerate(depth_now);
    return 0;
}

int __real_fdatasync(int descriptor);
int __wrap_fdatasync(int descriptor);
int __wrap_fdatasync(int descriptor) { return __wrap_fsync(descriptor); }

/* (A log's room is its length here.) */
int __real_posix_fallocate(int descriptor, off_t place, off_t length);
int __wrap_posix_fallocate(int descriptor, off_t place, off_t length);
int __wrap_posix_fallocate(int descriptor, off_t place, off_t length) {
    return file_of[descriptor] == LOG + 1 ? 0 : __real_posix_fallocate(descriptor, place, length);
}

int __wrap_madvise(void *at, size_t length, int advice);
int __wrap_madvise(void *at, size_t length, int advice) { return (void)at, (void)length, (void)advice, 0; } /* (huge pages take time to clear) */

int __real_ftruncate(int descriptor, off_t length);
int __wrap_ftruncate(int descriptor, off_t length);
int __wrap_ftruncate(int descriptor, off_t length) {
    if (!is_made()) return 0;
    int answer = __real_ftruncate(descriptor, length);
    if (records && file_of[descriptor] > 0) {
        done_to(file_of[descriptor] - 1, true, (size_t)length, 0, NULL);
        enumerate(depth_now);
    }
    return answer;
}

static mode_t mode_of(int how, va_list more) { return (how & O_CREAT) != 0 ? va_arg(more, mode_t) : 0; }

int __real_open(const char *where, int how, ...);
int __wrap_open(const char *where, int how, ...);
int __wrap_open(const char *where, int how, ...) {
    va_list more;
    va_start(more, how);
    int descriptor = __real_open(where, how, mode_of(how, more));
    va_end(more);
    if (descriptor >= 0 && descriptor < 256) file_of[descriptor] = strcmp(where, paths[depth_now]) == 0 ? STORE + 1 : 0;
    return descriptor;
}

static int file_named(const char *name) { return strcmp(strrchr(name, '-'), "-log") == 0 ? LOG : JOURNAL; }

int __real_openat(int at, const char *name, int how, ...);
int __wrap_openat(int at, const char *name, int how, ...);
int __wrap_openat(int at, const char *name, int how, ...) {
    va_list more;
    va_start(more, how);
    bool creates = (how & O_CREAT) != 0;
    if (creates && !is_made()) return errno = EIO, -1;
    int descriptor = __real_openat(at, name, how, mode_of(how, more));
    va_end(more);
    if (descriptor < 0 || descriptor >= 256) return descriptor;
    int file = strcmp(name, ".") == 0 ? FOLDER : file_named(name);
    file_of[descriptor] = file + 1;
    if (records && creates && !now.is_named[file]) {
        now.is_named[file] = true;
        now.synced[file].length = 0, now.parts[file] = 0;
        enumerate(depth_now);
    }
    return descriptor;
}

int __real_unlinkat(int at, const char *name, int how);
int __wrap_unlinkat(int at, const char *name, int how);
int __wrap_unlinkat(int at, const char *name, int how) {
    if (!is_made()) return 0;
    int answer = __real_unlinkat(at, name, how);
    if (records && answer == 0) {
        now.is_named[file_named(name)] = false;
        enumerate(depth_now);
    }
    return answer;
}

/* Looking at a state. */

static void write_image(const char *where, const image *it) {
    int descriptor = __real_open(where, O_WRONLY | O_CREAT | O_TRUNC, 0666);
    HOLDS(descriptor >= 0 && __real_pwrite(descriptor, it->bytes, it->length, 0) == (ssize_t)it->length);
    close(descriptor);
}

static void read_image(const char *where, image *it) {
    int descriptor = __real_open(where, O_RDONLY);
    HOLDS(descriptor >= 0);
    ssize_t had = pread(descriptor, it->bytes, sizeof it->bytes, 0);
    HOLDS(had >= 0 && had < MOST);
    it->length = (size_t)had;
    close(descriptor);
}

static bool is_same(const image *it, const image *other) { return it->length == other->length && memcmp(it->bytes, other->bytes, it->length) == 0; }

static void opens_behind(const char *path, bool is_first, bool is_second, int least);

/* The disk of this state, of which a recovery is recorded. */
static void begin_recording(const state *it) {
    memset(now.parts, 0, sizeof now.parts);
    memcpy(now.synced, it->files, sizeof now.synced);
    memcpy(now.was_named, it->is_named, sizeof now.was_named);
    memcpy(now.is_named, it->is_named, sizeof now.is_named);
    least_before = it->least;
    records = true;
    recoveries++;
}

/* The file of the last promised checkpoint, or of the one under way. */
static bool is_checkpoint(const image *it) { return is_same(it, &checkpoints[0]) || (is_coming && is_same(it, &checkpoints[1])); }

/* Whether a journal of the checkpoint under way may be taken as this file's too: all of the first page but the mark of use is that of the
 * one checkpoint or of the other. */
static bool may_follow(const image *it) {
    for (int at = 0; at < PAGE; at++)
        if (at != STATE && it->bytes[at] != checkpoints[0].bytes[at] && it->bytes[at] != checkpoints[1].bytes[at]) return false;
    return true;
}

/* The journal of a state beside the file of a new store, and of an earlier checkpoint: a recovery leaves that file, and no journal. */
static void beside_others(const image *of_journal, const char *path, const char *journal) {
    static image made;
    bool found;
    for (int way = 0; way < 2; way++) {
        const image *other = &older[way == 0 || promised < 2 ? 0 : 1 + below((unsigned)(promised < OLDER ? promised : OLDER) - 1)];
        if (other->length > 0 && may_follow(other)) continue;
        write_image(path, other);
        write_image(journal, of_journal);
        HOLDS(cola_journal_recover(path, &found) == COLA_OK && !found);
        read_image(path, &made);
        HOLDS(is_same(&made, other) && access(journal, F_OK) != 0);
        others++;
    }
}

/* A recovery of this state makes the file of a checkpoint, and an opening the map; one that is recorded is cut short in its turn. To
 * those who know of no journal the file is a checkpoint's, or says that it is in use. */
static void consider(const state *it, int depth) {
    static image made;
    static disk kept; /* (a recovery that is recorded has a disk of its own) */
    const char *path = paths[depth + 1], *journal = journals[depth + 1];
    bool found, recorded = records, goes_deeper = depth == 0 && below(16) == 0;
    long dies = dies_in;
    int own_files[256];
    states++;
    if (!is_new(it)) return;
    distinct++;
    HOLDS(it->files[STORE].bytes[STATE] == 1 || is_checkpoint(&it->files[STORE]));
    memcpy(own_files, file_of, sizeof own_files);
    if (goes_deeper) kept = now;
    records = false, dies_in = -1, depth_now = depth + 1;
    write_image(path, &it->files[STORE]);
    if (it->is_named[JOURNAL]) write_image(journal, &it->files[JOURNAL]);
    unlink(logs[depth + 1]);
    if (is_logged() && it->is_named[LOG]) write_image(logs[depth + 1], &it->files[LOG]);
    if (goes_deeper) begin_recording(it);
    HOLDS(cola_journal_recover(path, &found) == COLA_OK);
    read_image(path, &made);
    bool is_first = is_same(&made, &checkpoints[0]), is_second = is_coming && is_same(&made, &checkpoints[1]);
    HOLDS((is_first || is_second) && access(journal, F_OK) != 0);
    HOLDS(is_second || !is_held || !it->is_named[JOURNAL]);
    if (is_logged()) opens_behind(path, is_first, is_second, it->least);
    if (goes_deeper) now = kept;
    records = false;
    if (is_coming && it->is_named[JOURNAL] && below(16) == 0) beside_others(&it->files[JOURNAL], path, journal);
    records = recorded, dies_in = dies, depth_now = depth;
    memcpy(file_of, own_files, sizeof own_files);
}

/* Sessions. */

static plain maps[2]; /* of these checkpoints */
static plain after[CALLS + 1]; /* and behind so many calls on the first of them */

static void copy_map(plain *to, const plain *from) {
    to->count = from->count, to->last = from->last;
    memcpy(to->pairs, from->pairs, (from->limit + 1) * sizeof *from->pairs);
}

/* Whether the store has this map. */
static bool has(cola_file *file, const plain *map) {
    cola_cursor cursor;
    cola_row rows[MANY + 1];
    size_t given = 0;
    HOLDS(cola_seek(&cursor, NULL, 0, NULL, 0) == COLA_OK);
    cola_next(&file->store, &cursor, rows, MANY + 1, &given);
    bool same = given == map->count;
    for (size_t row = 0; same && row < given; row++) {
        const cola_row *mine = &map->pairs[row].row;
        same = plain_order(mine->key, mine->key_len, rows[row].key, rows[row].key_len) == 0 &&
               plain_order(mine->value, mine->value_len, rows[row].value, rows[row].value_len) == 0;
    }
    return same;
}

/* How many calls on the first checkpoint the store has, from so many on; -1: none of these. */
static int calls_of(cola_file *file, int least) {
    for (int calls = made_calls + coming_calls; calls >= least; calls--)
        if (has(file, &after[calls])) return calls;
    return -1;
}

/* The store behind a recovery opens with its log, to one of the maps that it may have. */
static void opens_behind(const char *path, bool is_first, bool is_second, int least) {
    cola_file file = COLA_FILE_INIT;
    HOLDS(cola_file_open_as(&file, path, COLA_LOGGED) == COLA_OK);
    records = false;
    HOLDS((is_second && has(&file, &maps[1])) || (is_first && calls_of(&file, least) >= 0));
    HOLDS(cola_file_discard(&file) == COLA_OK);
}

/* The file opens to this map, and is kept for the program's check where it is another than before. */
static void opens_to(const image *it, const plain *map) {
    static int kept;
    char name[3200];
    cola_file file = COLA_FILE_INIT;
    snprintf(name, sizeof name, "%.3000s/checkpoint-%d", folder, kept++ % IMAGES);
    write_image(name, it);
    HOLDS(cola_file_open_as(&file, name, COLA_READ_ONLY) == COLA_OK && has(&file, map));
    HOLDS(cola_file_close(&file) == COLA_OK);
}

/* The file that a checkpoint would make now, by a copy. */
static void image_of(cola_file *file, image *it) {
    char copy[3200];
    snprintf(copy, sizeof copy, "%.3000s/copy", folder);
    bool recorded = records;
    long dies = dies_in;
    records = false, dies_in = -1;
    HOLDS(cola_file_checkpoint(file, copy) == COLA_OK);
    read_image(copy, it);
    unlink(copy);
    records = recorded, dies_in = dies;
}

/* One call, or a batch of some puts; the process may die meanwhile: then it is said so. */
static bool change(cola *store, plain *map) {
    cola_row rows[3];
    size_t count = 1 + (is_logged() && below(8) == 0 ? below(3) : 0), done = 0;
    bool was, deletes = count == 1 && below(4) == 0;
    int32_t answer = COLA_OK, mine = COLA_OK;
    for (size_t row = 0; row < count; row++) {
        snprintf((char *)rows[row].key, sizeof rows[row].key, "k%03u", below(2 * keys));
        snprintf((char *)rows[row].value, sizeof rows[row].value, "%u", below(1000000));
        rows[row].key_len = 4, rows[row].value_len = (uint8_t)strlen((char *)rows[row].value);
    }
    for (size_t row = 0; row < count && mine == COLA_OK; row++) {
        mine = deletes ? plain_delete(map, rows[row].key, 4) : plain_put(map, rows[row].key, 4, rows[row].value, rows[row].value_len, &was);
        if (is_logged()) copy_map(&after[made_calls + ++coming_calls], map);
    }
    dies_in = is_logged() && below(16) == 0 ? (long)below(2) : -1;
    if (deletes) answer = cola_delete(store, rows[0].key, 4);
    else answer = cola_put_many(store, rows, count, NULL, &done);
    if (dies_in == 0) return false;
    dies_in = -1;
    HOLDS(answer == mine && made_calls + coming_calls < CALLS - 3);
    if (is_logged()) made_calls += coming_calls, coming_calls = 0;
    if (degree == COLA_SYNCED) synced_calls = made_calls;
    return true;
}

/* Waits for the log. */
static void sync_log(cola_file *file) {
    HOLDS(cola_file_sync(file) == COLA_OK);
    synced_calls = made_calls;
    enumerate(0);
}

/* The second checkpoint is the last promised one. */
static void has_come(void) {
    older[promised < OLDER ? promised : 1 + promised % (OLDER - 1)] = checkpoints[0];
    promised++;
    checkpoints[0] = checkpoints[1];
    copy_map(&maps[0], &maps[1]);
    copy_map(&after[0], &maps[1]);
    made_calls = synced_calls = coming_calls = 0;
    is_coming = is_held = false;
}

/* Whether a log would follow the second checkpoint as it follows the first: then it is kept in its place. */
static bool is_kept_by_log(void) {
    return is_logged() && memcmp(checkpoints[0].bytes, checkpoints[1].bytes, PAGE) == 0 && !is_same(&checkpoints[0], &checkpoints[1]);
}

/* A checkpoint, or the close, of which the process may die. */
static void promise(cola_file *file, const plain *map, bool closes) {
    image_of(file, &checkpoints[1]);
    copy_map(&maps[1], map);
    opens_to(&checkpoints[1], &maps[1]);
    is_coming = true, is_held = false;
    dies_in = below(4) == 0 ? (long)below(14) : -1;
    int32_t answer = closes ? cola_file_close(file) : cola_file_checkpoint(file, NULL);
    bool died = dies_in == 0;
    HOLDS(died || answer == COLA_OK);
    if (died && !closes) cola_file_discard(file);
    if (!died && is_kept_by_log()) synced_calls = made_calls, is_coming = false;
    else if (!died) has_come();
    dies_in = -1;
    enumerate(0);
}

/* Opens the store as a process does that comes behind one that died: then it has the one map or the other. */
static void open_again(cola_file *file, plain *map) {
    static image made;
    dies_in = (is_coming || is_logged()) && below(3) == 0 ? (long)below(12) : -1;
    int32_t answer = cola_file_open_as(file, paths[0], degree);
    if (dies_in == 0) { /* (it died in its turn) */
        cola_file_discard(file);
        dies_in = -1;
        answer = cola_file_open_as(file, paths[0], degree);
    }
    dies_in = -1;
    HOLDS(answer == COLA_OK);
    is_logged() ? read_image(paths[0], &made) : image_of(file, &made);
    bool is_first = is_same(&made, &checkpoints[0]);
    HOLDS(is_checkpoint(&made) && (!is_held || is_same(&made, &checkpoints[1])));
    if (is_logged() && is_first && (!is_coming || !is_same(&made, &checkpoints[1]))) {
        made_calls = synced_calls = calls_of(file, made_calls);
        HOLDS(made_calls >= 0);
    } else if (is_coming && is_same(&made, &checkpoints[1])) {
        has_come();
        HOLDS(has(file, &maps[0]));
    }
    is_coming = is_held = false, coming_calls = 0;
    copy_map(map, &after[made_calls]);
}

static void session(plain *map) {
    cola_file file = COLA_FILE_INIT;
    open_again(&file, map);
    for (unsigned rounds = 1 + below(4); rounds > 0 && file.bytes != NULL; rounds--) {
        bool lives = true;
        for (unsigned changes = below(is_logged() ? 9 : 40); changes > 0 && lives; changes--) {
            lives = change(&file.store, map);
            if (lives && is_logged() && below(6) == 0) sync_log(&file);
        }
        if (!lives || (below(8) == 0 && made_calls <= CALLS / 2)) {
            int32_t answer = cola_file_discard(&file);
            HOLDS(!lives || answer == COLA_OK);
            dies_in = -1;
        } else {
            promise(&file, map, rounds == 1);
        }
    }
}

/* Sessions of one degree on a new store, up to so many states. */
static void sessions(uint32_t flags, long until) {
    plain map = plain_new(MANY, 1);
    degree = flags;
    keys = map.limit = is_logged() ? FEW : MANY;
    records = false;
    memset(&now, 0, sizeof now);
    memset(file_of, 0, sizeof file_of);
    unlink(paths[0]), unlink(journals[0]), unlink(logs[0]);
    maps[0].count = 0, made_calls = synced_calls = coming_calls = promised = 0, is_coming = is_held = false;
    copy_map(&after[0], &maps[0]);
    HOLDS(cola_file_create(paths[0], keys, 3, 1) == COLA_OK);
    read_image(paths[0], &checkpoints[0]);
    older[0] = checkpoints[0];
    now.synced[STORE] = checkpoints[0];
    records = true;
    for (int number = 0; distinct < until; number++) {
        all_up_to = number % 4 == 0 ? 8 : 5;
        session(&map);
    }
    free(map.pairs);
}

int main(int count, char **words) {
    if (count < 3) return fprintf(stderr, "states FOLDER STATES\n"), 2;
    snprintf(folder, sizeof folder, "%.2900s/states.files", words[1]);
    mkdir(folder, 0777);
    for (int depth = 0; depth < 3; depth++) {
        snprintf(paths[depth], sizeof paths[0], "%s/%d", folder, depth);
        mkdir(paths[depth], 0777);
        snprintf(paths[depth], sizeof paths[0], "%s/%d/store", folder, depth);
        snprintf(journals[depth], sizeof journals[0], "%s/%d/store-journal", folder, depth);
        snprintf(logs[depth], sizeof logs[0], "%s/%d/store-log", folder, depth);
        unlink(paths[depth]), unlink(journals[depth]), unlink(logs[depth]);
    }
    maps[0] = plain_new(MANY, 1), maps[1] = plain_new(MANY, 1);
    for (int calls = 0; calls <= CALLS; calls++) after[calls] = plain_new(MANY, 1);
    long most = atol(words[2]);
    sessions(COLA_RESIDENT, most / 2);
    sessions(COLA_LOGGED, most * 3 / 4);
    sessions(COLA_SYNCED, most);
    printf("%ld states of a disk, %ld of them distinct, %ld recoveries cut short, %ld journals beside another file\n", states, distinct, recoveries,
           others);
    return 0;
}
