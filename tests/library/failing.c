/* Each call of the system that cola_file.h makes on a file, in a creation, the openings, a checkpoint, a closing, a check, a
 * growing and a load, of a mapped store and of a resident one, and as a journal is finished, fails in turn; and of a logged and a
 * synced store in its puts, a sync, a checkpoint and the openings that make its calls again; and the process is killed in front of
 * each, behind each, and within each write. What is left has to be whole or refused, never another map, and of a logged store each
 * call that was answered; a refused call leaves nothing behind, and its errno is that of the call that failed; all else in the
 * folder stays as it was. Where a file is made, a journal and a log of a removed one stand beside it. And in front of each call of
 * an opening the file is replaced.
 *
 *     failing FOLDER
 *
 * Link with -Wl,--wrap=CALL for each CALL that is named below. The last line counts the cases. */
#include <dirent.h>
#include <errno.h>
#include <fcntl.h>
#include <signal.h>
#include <stdarg.h>
#include <stdio.h>
#include <stdlib.h>
#include <sys/mman.h>
#include <sys/stat.h>
#include <sys/wait.h>
#include <unistd.h>

#include "cola_core.h"
#include "cola_file.h"
#include "cola_journal.h"
#include "plain.h"

#define HOLDS(is) ((is) ? (void)0 : fails(#is, __LINE__))

/* What becomes of a call. */
enum kind {
    MADE,           /* it is made as it is */
    REFUSED,        /* it is not made, and says so */
    DISK_FAILS,     /* each write and sync from here on is refused */
    KILLED_BEFORE,  /* the process ends in front of it */
    KILLED_BEHIND,  /* or behind it */
    KILLED_WITHIN,  /* or when half of the bytes are written */
    HALF,           /* half of the bytes are moved */
    NOTHING,        /* no byte is moved, without a reason */
    INTERRUPTED,    /* a signal came first */
    KINDS
};
static const char *const kinds[KINDS] = {"made", "refused", "as the disk fails", "killed before", "killed behind", "killed within", "half",
                                         "nothing", "interrupted"};

enum operation {
    CREATE, CREATE_EMPTY, OPEN, READ, CHECKPOINT, CLOSE, CHECK, GROW, LOAD, OPEN_RESIDENT, SAVE, CLOSE_RESIDENT, RECOVER,
    PUT_LOGGED, PUT_SYNCED, OPEN_LOGGED, OPEN_BESIDE, READ_BESIDE, SAVE_LOGGED, CLOSE_LOGGED, OPERATIONS
};
static const char *const operations[OPERATIONS] = {"create", "create in an empty file", "open", "open to read", "checkpoint", "close", "check",
                                                   "grow", "load", "open resident", "save", "close resident", "recover",
                                                   "put logged", "put synced", "open logged", "open beside a log", "read beside a log",
                                                   "save logged", "close logged"};

enum { KEYS = 300, HEADER = 512, FIRST_PAGE = 4096, FRONT = FIRST_PAGE + 32, SOME = 10, BATCH = 4 };

static enum kind kind;
static long at, made;      /* the call that is not made as it is, and how many were made so far */
static bool armed;         /* calls are counted */
static bool disk_fails;    /* each write and sync is refused */
static int refused_with;   /* the error of the call that was refused */
static const char *hit;    /* the call's name */
static long replaced_at;   /* the call in front of which the store's file is replaced, and by which one; NULL: by none */
static const char *replaced, *replacing;
static long last_look;     /* the last call that looked at what a path names */
static enum operation operation;

static void fails(const char *what, int line) {
    fprintf(stderr, "failing: %s, call %ld (%s) %s: line %d: not so: %s\n", operations[operation], at, hit == NULL ? "?" : hit, kinds[kind], line, what);
    exit(1);
}

int __real_rename(const char *from, const char *to);
int __real_unlink(const char *path);

static void replace(void) {
    if (replacing == NULL ? __real_unlink(replaced) != 0 : __real_rename(replacing, replaced) != 0) abort();
}

/* Counts a call, and says what becomes of it. */
static enum kind begins(const char *call, bool moves, bool is_disk) {
    if (!armed) return MADE;
    made++;
    if (made == replaced_at) replace();
    if (strcmp(call, "stat") == 0 || strcmp(call, "fstatat") == 0) last_look = made;
    if (disk_fails && is_disk) return REFUSED;
    if (made != at) return MADE;
    hit = call;
    if (kind == KILLED_BEFORE) raise(SIGKILL);
    if (kind >= KILLED_WITHIN && !moves) return MADE;
    if (kind == DISK_FAILS) return disk_fails = true, is_disk ? REFUSED : MADE;
    return kind;
}

static int refuses(int error) {
    if (refused_with == 0) refused_with = error;
    errno = error;
    return -1;
}

static void ends(enum kind it) {
    if (it == KILLED_BEHIND) raise(SIGKILL);
}

#define CALL(name, error, parameters, arguments)          \
    int __real_##name parameters;                          \
    int __wrap_##name parameters;                          \
    int __wrap_##name parameters {                         \
        enum kind it = begins(#name, false, error == EIO); \
        if (it == REFUSED) return refuses(error);          \
        int answer = __real_##name arguments;              \
        ends(it);                                          \
        return answer;                                     \
    }
CALL(fstat, EOVERFLOW, (int descriptor, struct stat *about), (descriptor, about))
CALL(stat, ELOOP, (const char *path, struct stat *about), (path, about))
CALL(fsync, EIO, (int descriptor), (descriptor))
CALL(fdatasync, EIO, (int descriptor), (descriptor))
CALL(msync, EIO, (void *bytes, size_t length, int how), (bytes, length, how))
CALL(munmap, EINVAL, (void *bytes, size_t length), (bytes, length))
CALL(rename, EXDEV, (const char *from, const char *to), (from, to))
CALL(unlink, EROFS, (const char *path), (path))
CALL(ftruncate, EFBIG, (int descriptor, off_t length), (descriptor, length))
CALL(fchmod, EPERM, (int descriptor, mode_t mode), (descriptor, mode))
CALL(mkostemp, EMFILE, (char *path, int how), (path, how))
CALL(madvise, ENOMEM, (void *bytes, size_t length, int how), (bytes, length, how))
CALL(fstatat, ELOOP, (int folder, const char *name, struct stat *about, int how), (folder, name, about, how))
CALL(unlinkat, EROFS, (int folder, const char *name, int how), (folder, name, how))

int __real_openat(int folder, const char *name, int how, ...);
int __wrap_openat(int folder, const char *name, int how, ...);
int __wrap_openat(int folder, const char *name, int how, ...) {
    va_list more;
    va_start(more, how);
    mode_t mode = (how & O_CREAT) != 0 ? va_arg(more, mode_t) : 0;
    va_end(more);
    enum kind it = begins("openat", false, false);
    if (it == REFUSED) return refuses(EMFILE);
    int answer = __real_openat(folder, name, how, mode);
    ends(it);
    return answer;
}

char *__real_realpath(const char *path, char *into);
char *__wrap_realpath(const char *path, char *into);
char *__wrap_realpath(const char *path, char *into) {
    enum kind it = begins("realpath", false, false);
    if (it == REFUSED) return refuses(EACCES), NULL;
    char *answer = __real_realpath(path, into);
    ends(it);
    return answer;
}

int __real_flock(int descriptor, int how);
int __wrap_flock(int descriptor, int how);
int __wrap_flock(int descriptor, int how) {
    enum kind it = begins("flock", false, false);
    if (it == REFUSED) return refuses(ENOLCK);
    int answer = __real_flock(descriptor, how);
    ends(it);
    return answer;
}

int __real_open(const char *path, int how, ...);
int __wrap_open(const char *path, int how, ...);
int __wrap_open(const char *path, int how, ...) {
    va_list more;
    va_start(more, how);
    mode_t mode = (how & O_CREAT) != 0 ? va_arg(more, mode_t) : 0;
    va_end(more);
    enum kind it = begins("open", false, false);
    if (it == REFUSED) return refuses(EMFILE);
    int answer = __real_open(path, how, mode);
    ends(it);
    return answer;
}

int __real_close(int descriptor);
int __wrap_close(int descriptor);
int __wrap_close(int descriptor) { /* (one that is refused is closed all the same, as the system does it) */
    enum kind it = begins("close", false, false);
    int answer = __real_close(descriptor);
    ends(it);
    return it == REFUSED ? errno = EIO, -1 : answer;
}

int __real_posix_fallocate(int descriptor, off_t place, off_t length);
int __wrap_posix_fallocate(int descriptor, off_t place, off_t length);
int __wrap_posix_fallocate(int descriptor, off_t place, off_t length) {
    enum kind it = begins("posix_fallocate", false, false);
    if (it == REFUSED) return refuses(ENOSPC), ENOSPC;
    int answer = __real_posix_fallocate(descriptor, place, length);
    ends(it);
    return answer;
}

void *__real_mmap(void *where, size_t length, int may, int how, int descriptor, off_t place);
void *__wrap_mmap(void *where, size_t length, int may, int how, int descriptor, off_t place);
void *__wrap_mmap(void *where, size_t length, int may, int how, int descriptor, off_t place) {
    enum kind it = begins("mmap", false, false);
    if (it == REFUSED) return refuses(ENOMEM), MAP_FAILED;
    void *answer = __real_mmap(where, length, may, how, descriptor, place);
    ends(it);
    return answer;
}

ssize_t __real_pread(int descriptor, void *bytes, size_t length, off_t place);
ssize_t __wrap_pread(int descriptor, void *bytes, size_t length, off_t place);
ssize_t __wrap_pread(int descriptor, void *bytes, size_t length, off_t place) {
    enum kind it = begins("pread", true, false);
    if (it == REFUSED) return refuses(EIO);
    if (it == INTERRUPTED) return errno = EINTR, -1;
    ssize_t answer = __real_pread(descriptor, bytes, it == HALF ? length / 2 : length, place);
    ends(it);
    return answer;
}

ssize_t __real_pwrite(int descriptor, const void *bytes, size_t length, off_t place);
ssize_t __wrap_pwrite(int descriptor, const void *bytes, size_t length, off_t place);
ssize_t __wrap_pwrite(int descriptor, const void *bytes, size_t length, off_t place) {
    enum kind it = begins("pwrite", true, true);
    if (it == REFUSED) return refuses(EIO);
    if (it == NOTHING) return refuses(EIO), errno = 0, 0;
    if (it == INTERRUPTED) return errno = EINTR, -1;
    bool is_half = (it == HALF || it == KILLED_WITHIN) && length != HEADER && length > 1; /* (a header is written as a whole) */
    ssize_t answer = __real_pwrite(descriptor, bytes, is_half ? length / 2 : length, place);
    ends(it == KILLED_WITHIN ? KILLED_BEHIND : it);
    return answer;
}

static char folder[3000];
static volatile long *answered; /* the steps whose calls were answered, in memory that parent and child have */

/* The path of a name in the folder. One call's result stands until the fourth one behind it. */
static const char *path_of(const char *name) {
    static char paths[4][4096];
    static int next;
    char *path = paths[next++ % 4];
    snprintf(path, sizeof paths[0], "%s/%s", folder, name);
    return path;
}

/* A file's bytes, and its name. */
typedef struct image {
    const char *name;
    size_t length;
    uint8_t bytes[1 << 18];
} image;

static void load(image *it, const char *name) {
    FILE *file = fopen(path_of(name), "rb");
    HOLDS(file != NULL);
    it->name = name;
    it->length = fread(it->bytes, 1, sizeof it->bytes, file);
    HOLDS(it->length < sizeof it->bytes);
    fclose(file);
}

static void write_file(const char *name, const void *bytes, size_t length) {
    FILE *file = fopen(path_of(name), "wb");
    HOLDS(file != NULL && fwrite(bytes, 1, length, file) == length && fclose(file) == 0);
}

static bool is_image(const image *it) {
    static image now;
    load(&now, it->name);
    return now.length == it->length && memcmp(now.bytes, it->bytes, it->length) == 0;
}

/* Whether there is such a file. */
static bool is_there(const char *name) { return access(path_of(name), F_OK) == 0; }

/* The names in the folder that are none of these; at most one, in *other. */
static int others(const char *const known[], char other[256]) {
    int count = 0;
    DIR *names = opendir(folder);
    HOLDS(names != NULL);
    for (struct dirent *entry; (entry = readdir(names)) != NULL;) {
        bool is_known = entry->d_name[0] == '.';
        for (int name = 0; known[name] != NULL; name++) is_known = is_known || strcmp(entry->d_name, known[name]) == 0;
        if (!is_known) count++, snprintf(other, 256, "%s", entry->d_name);
    }
    closedir(names);
    return count;
}

static int descriptors(void) {
    int count = 0;
    DIR *names = opendir("/proc/self/fd");
    if (names == NULL) return 0;
    while (readdir(names) != NULL) count++;
    closedir(names);
    return count;
}

/* The maps: after so many steps of one session, each of which puts or deletes. */
enum map { EMPTY = 0, OLD = 40, FIRST = 150, SECOND = 330, THIRD = 360, LAST = 400 };

static void step(int number, char key[16], char value[16], bool *puts) {
    snprintf(key, 16, "k%05d", number * 7919 % 251);
    snprintf(value, 16, "%09d", number);
    *puts = number % 5 != 4;
}

static void go(cola *store, int from, int to) {
    char key[16], value[16];
    bool puts;
    for (int number = from; number < to; number++) {
        step(number, key, value, &puts);
        int32_t answer = puts ? cola_put(store, key, 6, value, 9, NULL) : cola_delete(store, key, 6);
        HOLDS(answer == COLA_OK || (!puts && answer == COLA_NONE));
    }
}

static plain maps[LAST + 1];

static const plain *map_of(int steps) {
    char key[16], value[16];
    bool puts, was;
    if (maps[steps].pairs != NULL) return &maps[steps];
    maps[steps] = plain_new(KEYS, 1);
    for (int number = 0; number < steps; number++) {
        step(number, key, value, &puts);
        if (puts) plain_put(&maps[steps], key, 6, value, 9, &was);
        else plain_delete(&maps[steps], key, 6);
    }
    return &maps[steps];
}

/* Opens the store, which has to have this map where it is not refused, and leaves its bytes as they were. */
static int32_t opens(const char *name, int steps) {
    static image before;
    static cola_row rows[KEYS + 1];
    const plain *map = map_of(steps);
    cola_file file = COLA_FILE_INIT;
    cola_cursor cursor;
    size_t given = 0;
    load(&before, name);
    int32_t answer = cola_file_open(&file, path_of(name));
    if (answer != COLA_OK) {
        HOLDS(is_image(&before));
        return answer;
    }
    HOLDS(cola_seek(&cursor, NULL, 0, NULL, 0) == COLA_OK);
    cola_next(&file.store, &cursor, rows, KEYS + 1, &given);
    bool same = given == map->count;
    for (size_t row = 0; same && row < given; row++) {
        const cola_row *mine = &map->pairs[row].row;
        same = plain_order(mine->key, mine->key_len, rows[row].key, rows[row].key_len) == 0 &&
               plain_order(mine->value, mine->value_len, rows[row].value, rows[row].value_len) == 0;
    }
    HOLDS(cola_file_close(&file) == COLA_OK);
    write_file(name, before.bytes, before.length);
    return same ? COLA_OK : -1;
}

static cola_row rows_left[KEYS + 1]; /* of the store that is left */
static size_t count_left;

/* Reads these, by one opening, which finishes the journal that stands beside, and makes the calls of a log again. A mapped store that
 * was in use is refused. */
static bool read_left(void) {
    cola_file file = COLA_FILE_INIT;
    cola_cursor cursor;
    int32_t answer = cola_file_open_as(&file, path_of("store"), operation >= PUT_LOGGED ? COLA_LOGGED : 0);
    if (answer == COLA_NOT_CLOSED && operation == OPEN_BESIDE) return false;
    HOLDS(answer == COLA_OK);
    HOLDS(cola_seek(&cursor, NULL, 0, NULL, 0) == COLA_OK);
    count_left = 0;
    cola_next(&file.store, &cursor, rows_left, KEYS + 1, &count_left);
    HOLDS(cola_file_close(&file) == COLA_OK && !is_there("store-journal") && !is_there("store-log"));
    return true;
}

/* Whether they are the map behind so many steps. */
static bool is_left(int steps) {
    const plain *map = map_of(steps);
    bool same = count_left == map->count;
    for (size_t row = 0; same && row < count_left; row++) {
        const cola_row *mine = &map->pairs[row].row, *theirs = &rows_left[row];
        same = plain_order(mine->key, mine->key_len, theirs->key, theirs->key_len) == 0 &&
               plain_order(mine->value, mine->value_len, theirs->value, theirs->value_len) == 0;
    }
    return same;
}

/* The files of a case: a closed store, a journal of it, an older copy, and two that only have names near theirs. */
static image store, journal, record, copy, stale_journal, stale_log, beside = {"copy.new", 8, "is other"}, other = {"store.new", 5, "other"};

static void make(const char *name, int steps, image *it) {
    cola_file file = COLA_FILE_INIT;
    HOLDS(cola_file_create(path_of(name), KEYS, 3, 1) == COLA_OK);
    HOLDS(cola_file_open(&file, path_of(name)) == COLA_OK);
    go(&file.store, 0, steps);
    HOLDS(cola_file_close(&file) == COLA_OK);
    load(it, name);
}

/* The front of a journal that follows a file. */
static void make_front(image *into, const image *file) {
    memcpy(into->bytes, file->bytes, FIRST_PAGE);
    cola_core_log_begin(into->bytes, FIRST_PAGE, (cola_core_log *)(into->bytes + FIRST_PAGE));
}

/* The journal by which the store gets what another one has. */
static void make_journal(image *into, const image *to) {
    uint8_t marks[sizeof to->bytes / COLA_PAGE];
    size_t pages = cola_pages_in(to->length);
    uint8_t *end = into->bytes + FRONT + COLA_JOURNAL_HEAD;
    HOLDS(to->length == store.length && to->length % COLA_PAGE == 0);
    for (size_t page = 0; page < pages; page++) {
        const uint8_t *bytes = to->bytes + page * COLA_PAGE;
        marks[page] = page == 0 || memcmp(bytes, store.bytes + page * COLA_PAGE, COLA_PAGE) != 0;
        if (marks[page] == 0) continue;
        cola_core_journal_piece(page * COLA_PAGE, COLA_PAGE, end);
        memcpy(end + COLA_JOURNAL_HEAD, bytes, COLA_PAGE);
        end += COLA_JOURNAL_HEAD + COLA_PAGE;
    }
    make_front(into, &store);
    cola_core_journal_frame(to->bytes, to->length, marks, pages, into->bytes + FRONT, end);
    into->length = (size_t)(end - into->bytes) + COLA_JOURNAL_SUM;
}

/* The log by which the store's calls go on to the second map. */
static void make_log(void) {
    cola_file file = COLA_FILE_INIT;
    HOLDS(cola_file_open_as(&file, path_of("store"), COLA_LOGGED) == COLA_OK);
    go(&file.store, FIRST, SECOND);
    HOLDS(cola_file_discard(&file) == COLA_OK && is_image(&store));
    HOLDS(truncate(path_of("store-log"), 1 << 16) == 0); /* (the room behind its calls) */
    load(&record, "store-log");
    HOLDS(unlink(path_of("store-log")) == 0);
}

static image empty; /* the file of a new store */

/* A journal and a log that stand beside a file as it is made: those of a removed store. The log follows a new store. */
static void make_stale(void) {
    static image other_map;
    cola_file file = COLA_FILE_INIT;
    make("other_map", LAST, &other_map);
    HOLDS(unlink(path_of("other_map")) == 0);
    make_journal(&stale_journal, &other_map);
    make("empty", EMPTY, &empty);
    HOLDS(cola_file_open_as(&file, path_of("empty"), COLA_LOGGED) == COLA_OK);
    go(&file.store, 0, OLD);
    HOLDS(cola_file_discard(&file) == COLA_OK && truncate(path_of("empty-log"), 1 << 16) == 0);
    load(&stale_log, "empty-log");
    HOLDS(unlink(path_of("empty-log")) == 0 && unlink(path_of("empty")) == 0);
}

/* The names of these beside a file. */
static const char *stale_names(bool log) {
    return operation == CHECKPOINT ? log ? "copy-log" : "copy-journal" : log ? "made-log" : "made-journal";
}

/* Whether the case makes a file of its own, beside which they stand. */
static bool makes_a_file(void) { return operation <= CREATE_EMPTY || operation == CHECKPOINT || operation == LOAD; }

#define ARMED(call) (armed = true, errno = 0, answer = (call), error = errno, armed = disk_fails = false)

static void set_up(void) {
    const char *const none[] = {NULL};
    char name[256];
    while (others(none, name) > 0) HOLDS(unlink(path_of(name)) == 0);
    write_file("store", store.bytes, store.length);
    write_file("copy", copy.bytes, copy.length);
    write_file("copy.new", beside.bytes, beside.length);
    write_file("store.new", other.bytes, other.length);
    HOLDS(chmod(path_of("store"), 0640) == 0);
    if (operation == CREATE_EMPTY) write_file("made", "", 0);
    if (makes_a_file()) {
        make_front(&stale_journal, operation == CHECKPOINT ? &copy : &empty);
        write_file(stale_names(false), stale_journal.bytes, stale_journal.length);
        write_file(stale_names(true), stale_log.bytes, stale_log.length);
    }
    if (operation == RECOVER) write_file("store-journal", journal.bytes, journal.length);
    if (operation >= OPEN_LOGGED && operation <= READ_BESIDE) write_file("store-log", record.bytes, record.length);
    *answered = FIRST;
}

/* Makes a file of the rows of a map, by rising keys. */
static int32_t loads(const char *path, const plain *map) {
    cola_file_load it = COLA_FILE_LOAD_INIT;
    uint64_t rows = 0;
    int32_t answer = cola_file_load_begin(&it, path, KEYS, 3, 1);
    for (size_t row = 0; answer == COLA_OK && row < map->count; row++) {
        const cola_row *mine = &map->pairs[row].row;
        HOLDS(cola_load_row(&it.load, mine->key, mine->key_len, mine->value, mine->value_len) == COLA_OK);
    }
    if (answer == COLA_OK) answer = cola_file_load_end(&it, &rows);
    HOLDS(it.bytes == NULL && it.name == NULL && it.descriptor == -1 && (answer != COLA_OK || rows == map->count));
    return answer;
}

/* Tests, grows or loads a closed store. */
static int32_t works_on_files(void) {
    cola_verdict verdict = {0};
    uint64_t rows = 0;
    const plain *map = map_of(FIRST);
    if (operation == LOAD) return loads(path_of("made"), map);
    int32_t answer = operation == CHECK ? cola_file_check(path_of("store"), &verdict) : cola_file_grow(path_of("store"), KEYS + 200, 4, &rows);
    if (answer == COLA_OK) HOLDS(operation == CHECK ? verdict.flaw == COLA_SOUND && verdict.count == map->count : rows == map->count);
    return answer;
}

/* A case of a resident store: the map that the file is left with. */
static int resident_session(cola_file *file, int32_t *answered, int *error_told) {
    int32_t answer = COLA_OK;
    int error = 0, left;
    if (operation == OPEN_RESIDENT || operation == RECOVER) {
        ARMED(cola_file_open_as(file, path_of("store"), COLA_RESIDENT));
        if (answer == COLA_OK) HOLDS(cola_file_close(file) == COLA_OK);
        left = operation == RECOVER ? SECOND : FIRST;
    } else {
        HOLDS(cola_file_open_as(file, path_of("store"), COLA_RESIDENT) == COLA_OK);
        go(&file->store, FIRST, SECOND);
        if (operation == CLOSE_RESIDENT) {
            ARMED(cola_file_close(file));
            left = answer == COLA_SYSTEM ? 0 : SECOND;
        } else {
            ARMED(cola_file_checkpoint(file, NULL));
            if (answer == COLA_UNFINISHED) HOLDS(cola_put(&file->store, "k", 1, "v", 1, NULL) == COLA_UNFINISHED);
            else go(&file->store, SECOND, THIRD);
            HOLDS(cola_file_close(file) == COLA_OK);
            left = answer == COLA_UNFINISHED ? SECOND : THIRD;
        }
    }
    *answered = answer, *error_told = error;
    return left;
}

/* Steps of a logged store, up to the first that is refused, and behind them a batch and a sync. */
static int32_t steps_logged(cola_file *file) {
    char key[16], value[16];
    bool puts;
    int32_t answer = COLA_OK;
    for (int number = FIRST; number < FIRST + SOME; number++) {
        step(number, key, value, &puts);
        answer = puts ? cola_put(&file->store, key, 6, value, 9, NULL) : cola_delete(&file->store, key, 6);
        if (answer != COLA_OK && answer != COLA_NONE) return answer;
        *answered = number + 1;
    }
    cola_row rows[BATCH] = {0};
    size_t done;
    for (int row = 0; row < BATCH; row++) {
        step(FIRST + SOME + row, key, value, &puts);
        HOLDS(puts);
        rows[row].key_len = 6, rows[row].value_len = 9;
        memcpy(rows[row].key, key, 6), memcpy(rows[row].value, value, 9);
    }
    answer = cola_put_many(&file->store, rows, BATCH, NULL, &done);
    HOLDS(done == (answer == COLA_OK ? BATCH : 0));
    if (answer != COLA_OK) return answer;
    *answered = FIRST + SOME + BATCH;
    return cola_file_sync(file);
}

/* Whether they are the map behind the steps that were answered, or behind more of the call that was not. */
static bool is_left_behind(int steps) {
    int most = steps < FIRST + SOME ? 1 : steps == FIRST + SOME ? BATCH : 0;
    for (int more = 0; more <= most; more++)
        if (is_left(steps + more)) return true;
    return false;
}

/* A case of a logged store: the map that it is left with, or, behind a sync that failed, that of more. */
static int logged_session(cola_file *file, int32_t *told, int *error_told) {
    int32_t answer = COLA_OK;
    int error = 0, left = SECOND;
    if (operation >= OPEN_LOGGED && operation <= READ_BESIDE) {
        ARMED(cola_file_open_as(file, path_of("store"), operation == OPEN_LOGGED ? COLA_LOGGED : operation == OPEN_BESIDE ? 0 : COLA_READ_ONLY));
        if (answer == COLA_OK) HOLDS(cola_file_discard(file) == COLA_OK);
    } else {
        HOLDS(cola_file_open_as(file, path_of("store"), operation == PUT_SYNCED ? COLA_SYNCED : COLA_LOGGED) == COLA_OK);
        if (operation <= PUT_SYNCED) {
            ARMED(steps_logged(file));
            left = (int)*answered;
            HOLDS(cola_file_discard(file) == COLA_OK);
        } else {
            go(&file->store, FIRST, SECOND);
            if (operation == CLOSE_LOGGED) ARMED(cola_file_close(file));
            else ARMED(cola_file_checkpoint(file, NULL));
            if (operation == SAVE_LOGGED && cola_put(&file->store, "", 0, "", 0, NULL) == COLA_LENGTH) go(&file->store, SECOND, left = THIRD);
            if (operation == SAVE_LOGGED) HOLDS(cola_file_discard(file) == COLA_OK);
        }
    }
    *told = answer, *error_told = error;
    return left;
}

/* The case, in a process of its own. It ends with how many calls of the system were counted. */
static void session(void) {
    cola_file file = COLA_FILE_INIT;
    int32_t answer;
    int error, before = descriptors(), left;
    if (operation >= OPEN_RESIDENT) {
        left = operation >= PUT_LOGGED ? logged_session(&file, &answer, &error) : resident_session(&file, &answer, &error);
        bool reads = read_left() || kind == DISK_FAILS, is_behind = operation == PUT_SYNCED && answer != COLA_OK;
        if (operation == OPEN_BESIDE) HOLDS(reads && (kind == DISK_FAILS || is_left(SECOND)));
        else if (left == 0) HOLDS(is_left(FIRST) || is_left(SECOND));
        else HOLDS(is_left(left) || (is_behind && is_left_behind(left)));
    } else if (operation == CREATE || operation == CREATE_EMPTY) {
        ARMED(cola_file_create(path_of("made"), KEYS, 3, 1));
    } else if (operation == OPEN) {
        ARMED(cola_file_open(&file, path_of("store")));
        if (answer == COLA_OK) HOLDS(cola_file_close(&file) == COLA_OK);
    } else if (operation == READ) {
        ARMED(cola_file_open_as(&file, path_of("store"), COLA_READ_ONLY));
        if (answer == COLA_OK) HOLDS(cola_put(&file.store, "k", 1, "v", 1, NULL) == COLA_READ_ONLY_STORE && cola_file_close(&file) == COLA_OK);
        HOLDS(is_image(&store));
    } else if (operation >= CHECK) {
        map_of(FIRST);
        ARMED(works_on_files());
    } else {
        HOLDS(cola_file_open(&file, path_of("store")) == COLA_OK);
        go(&file.store, FIRST, SECOND);
        if (operation == CHECKPOINT) {
            ARMED(cola_file_checkpoint(&file, path_of("copy")));
            go(&file.store, SECOND, THIRD);
            HOLDS(cola_file_close(&file) == COLA_OK);
        } else {
            ARMED(cola_file_close(&file));
        }
    }
    HOLDS(file.bytes == NULL && file.descriptor == -1 && descriptors() == before);
    if (answer != COLA_OK) {
        bool is_told = answer == COLA_SYSTEM || (operation >= SAVE && answer == COLA_UNFINISHED) ||
                       ((operation == OPEN_RESIDENT || operation == RECOVER || (operation >= OPEN_LOGGED && operation <= READ_BESIDE)) &&
                        answer == COLA_MEMORY);
        HOLDS(is_told && error == refused_with && error != 0);
        if (operation == OPEN && kind != DISK_FAILS) HOLDS(is_image(&store));
    } else {
        if (makes_a_file()) HOLDS(!is_there(stale_names(false)) && !is_there(stale_names(true)));
        if (operation == CREATE || operation == CREATE_EMPTY) HOLDS(opens("made", EMPTY) == COLA_OK);
        if (operation == CHECKPOINT) HOLDS(opens("copy", SECOND) == COLA_OK);
        if (operation == CLOSE) HOLDS(opens("store", SECOND) == COLA_OK);
        if (operation == GROW) HOLDS(!is_image(&store) && opens("store", FIRST) == COLA_OK);
        if (operation == LOAD) HOLDS(opens("made", FIRST) == COLA_OK);
    }
    FILE *told = fopen(path_of(".told"), "w");
    HOLDS(told != NULL);
    fprintf(told, "%ld %s %d\n", made, hit == NULL ? "-" : hit, answer);
    HOLDS(fclose(told) == 0);
    exit(0);
}

/* What is left when the process has ended. */
static void look(bool was_killed) {
    char name[256];
    struct stat about;
    int32_t answer;
    const char *const known[] = {"store", "copy", "copy.new", "store.new", "made", operation >= OPEN_RESIDENT ? "store-journal" : "store",
                                 operation >= PUT_LOGGED ? "store-log" : "store", makes_a_file() ? stale_names(false) : "store",
                                 makes_a_file() ? stale_names(true) : "store", NULL};
    int unknown = others(known, name);
    HOLDS(is_image(&beside) && is_image(&other));
    switch (operation) {
    case CREATE:
    case CREATE_EMPTY:
        HOLDS(unknown == 0 && is_image(&store) && is_image(&copy));
        if (is_there("made")) {
            answer = opens("made", EMPTY);
            HOLDS(answer == COLA_OK || (was_killed && (answer == COLA_SMALL || answer == COLA_NOT_STORE)) ||
                  (operation == CREATE_EMPTY && answer == COLA_SMALL && stat(path_of("made"), &about) == 0 && about.st_size == 0));
        } else {
            HOLDS(operation == CREATE);
        }
        break;
    case OPEN:
        HOLDS(unknown == 0 && !is_there("made") && is_image(&copy));
        answer = opens("store", FIRST);
        HOLDS(answer == COLA_OK || (answer == COLA_NOT_CLOSED && (was_killed || kind == DISK_FAILS)));
        break;
    case READ:
        HOLDS(unknown == 0 && !is_there("made") && is_image(&copy) && is_image(&store) && opens("store", FIRST) == COLA_OK);
        break;
    case CHECKPOINT:
        HOLDS(!is_there("made") && unknown <= (was_killed ? 1 : 0));
        if (unknown > 0) {
            HOLDS(strncmp(name, "copy.new-", 9) == 0 && strlen(name) == 15);
            answer = opens(name, SECOND);
            HOLDS(answer == COLA_OK || answer == COLA_SMALL || answer == COLA_NOT_STORE);
        }
        if (is_image(&copy)) HOLDS(is_there("copy-journal") && is_there("copy-log"));
        else HOLDS(opens("copy", SECOND) == COLA_OK);
        if (!is_image(&copy)) HOLDS(stat(path_of("copy"), &about) == 0 && (about.st_mode & 0777) == 0640);
        HOLDS(opens("store", THIRD) == (was_killed ? COLA_NOT_CLOSED : COLA_OK));
        break;
    case CHECK:
        HOLDS(unknown == 0 && !is_there("made") && is_image(&copy) && is_image(&store));
        break;
    case GROW:
    case LOAD:
        HOLDS(is_image(&copy) && unknown <= (was_killed ? 1 : 0));
        if (unknown > 0) {
            HOLDS(strncmp(name, operation == GROW ? "store.new-" : "made.new-", operation == GROW ? 10 : 9) == 0);
            answer = opens(name, FIRST);
            HOLDS(answer == COLA_OK || answer == COLA_SMALL || answer == COLA_NOT_STORE);
        }
        if (operation == GROW) HOLDS(!is_there("made") && (is_image(&store) || opens("store", FIRST) == COLA_OK));
        else HOLDS(is_image(&store) && (!is_there("made") || opens("made", FIRST) == COLA_OK));
        HOLDS(operation == LOAD || (stat(path_of("store"), &about) == 0 && (about.st_mode & 0777) == 0640));
        break;
    case OPEN_RESIDENT:
        HOLDS(unknown == 0 && is_image(&copy));
        read_left(), HOLDS(is_left(FIRST));
        break;
    case RECOVER:
        HOLDS(unknown == 0 && is_image(&copy));
        read_left(), HOLDS(is_left(SECOND));
        break;
    case SAVE:
    case CLOSE_RESIDENT:
        HOLDS(unknown == 0 && is_image(&copy));
        if (was_killed) read_left(), HOLDS(is_left(FIRST) || is_left(SECOND));
        break;
    case PUT_LOGGED:
    case PUT_SYNCED:
        HOLDS(unknown == 0 && is_image(&copy));
        if (was_killed) read_left(), HOLDS(is_left_behind((int)*answered));
        break;
    case OPEN_BESIDE:
        HOLDS(unknown == 0 && is_image(&copy));
        if (was_killed && read_left()) HOLDS(is_left(SECOND));
        break;
    case OPEN_LOGGED:
    case READ_BESIDE:
    case SAVE_LOGGED:
    case CLOSE_LOGGED:
        HOLDS(unknown == 0 && is_image(&copy));
        if (was_killed) read_left(), HOLDS(is_left(SECOND));
        break;
    default:
        HOLDS(unknown == 0 && !is_there("made") && is_image(&copy));
        answer = opens("store", SECOND);
        HOLDS(answer == COLA_OK || answer == COLA_NOT_CLOSED);
    }
}

/* One case: how many calls of the system were counted, 0 where the process was killed. */
static long one(char call[32], int32_t *answer) {
    int status;
    long count = 0;
    set_up();
    fflush(NULL);
    pid_t child = fork();
    if (child == 0) session();
    waitpid(child, &status, 0);
    bool was_killed = WIFSIGNALED(status) && WTERMSIG(status) == SIGKILL;
    HOLDS(was_killed || (WIFEXITED(status) && WEXITSTATUS(status) == 0));
    if (!was_killed) {
        FILE *told = fopen(path_of(".told"), "r");
        HOLDS(told != NULL && fscanf(told, "%ld %31s %d", &count, call, answer) == 3);
        fclose(told);
        unlink(path_of(".told"));
    }
    look(was_killed);
    return count;
}

/* Opens the store, whose file is replaced in front of this call of the system: whether there was such a call. */
static bool opens_replaced(uint32_t flags, long place, const char *at_store, const char *by, long looks) {
    cola_file file = COLA_FILE_INIT;
    uint64_t keys = 0;
    int32_t answer;
    int error;
    set_up();
    int before = descriptors();
    replaced = at_store, replacing = by, replaced_at = place, made = 0;
    ARMED(cola_file_open_as(&file, at_store, flags));
    bool was_replaced = made >= place;
    HOLDS(answer == COLA_OK || (by == NULL && place <= looks && answer == COLA_SYSTEM && error == ENOENT && file.bytes == NULL));
    if (answer == COLA_OK) {
        HOLDS(cola_count(&file.store, &keys) == COLA_OK && map_of(OLD)->count != map_of(FIRST)->count);
        bool is_new = keys == map_of(OLD)->count, is_old = keys == map_of(FIRST)->count;
        HOLDS(by == NULL || place > looks ? is_new || is_old : is_new);
        HOLDS(cola_file_discard(&file) == COLA_OK);
    }
    HOLDS(descriptors() == before && !is_there("store-log") && !is_there("store-journal"));
    return was_replaced;
}

/* A path that gets another file, or none, in front of each call of an opening: up to its last look what is opened is the file that the path
 * names then. (A mapped store without a name may be opened as it was.) */
static void of_replaced_files(uint32_t flags) {
    char at_store[4096], at_copy[4096];
    operation = OPEN, kind = MADE, at = 0;
    snprintf(at_store, sizeof at_store, "%s", path_of("store"));
    snprintf(at_copy, sizeof at_copy, "%s", path_of("copy"));
    HOLDS(!opens_replaced(flags, 1 << 20, at_store, at_copy, 0)); /* (it is not) */
    long looks = last_look;
    HOLDS(looks > 5);
    for (int way = 0; way < 2; way++)
        for (long place = 1; opens_replaced(flags, place, at_store, way == 0 ? at_copy : NULL, looks); place++) {}
    replaced_at = 0;
}

int main(int count, char **words) {
    char call[32];
    int32_t answer;
    long cases = 0;
    static image made_once;
    if (count < 2) return fprintf(stderr, "failing FOLDER\n"), 2;
    snprintf(folder, sizeof folder, "%.2900s/failing.files", words[1]);
    mkdir(folder, 0777);
    answered = mmap(NULL, sizeof *answered, PROT_READ | PROT_WRITE, MAP_SHARED | MAP_ANONYMOUS, -1, 0);
    HOLDS(answered != MAP_FAILED);
    make("store", FIRST, &store);
    make("made", SECOND, &made_once);
    make_journal(&journal, &made_once);
    make_log();
    make_stale();
    make("copy", OLD, &copy);
    of_replaced_files(0);
    of_replaced_files(COLA_READ_ONLY);
    of_replaced_files(COLA_RESIDENT);
    of_replaced_files(COLA_LOGGED);
    for (operation = CREATE; operation < OPERATIONS; operation++) {
        kind = MADE, at = 0;
        long calls = one(call, &answer);
        HOLDS(calls > 5 && answer == COLA_OK);
        for (at = 1; at <= calls; at++) {
            bool moves = false;
            for (kind = REFUSED; kind < KINDS && (kind < KILLED_WITHIN || moves); kind++, cases++) {
                long counted = one(call, &answer);
                if (kind == REFUSED) moves = strcmp(call, "pwrite") == 0 || strcmp(call, "pread") == 0;
                if (counted == 0) HOLDS(kind >= KILLED_BEFORE && kind <= KILLED_WITHIN);
                else if (kind == HALF || kind == INTERRUPTED) HOLDS(answer == COLA_OK);
            }
        }
    }
    printf("%ld cases\n", cases);
    return 0;
}
