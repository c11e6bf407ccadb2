/* A resident store, its journal and its recoveries: what each call answers and leaves, with a disk that is full or fails, with
 * journals that are changed, cut, of another checkpoint, of another store or no files, and beside another process; and that its calls
 * meet no page fault.
 *
 *     resident FOLDER
 *
 * Link with -Wl,--wrap=pwrite,--wrap=fsync. */
#define _GNU_SOURCE
#include <errno.h>
#include <fcntl.h>
#include <signal.h>
#include <stdio.h>
#include <stdlib.h>
#include <string.h>
#include <sys/resource.h>
#include <sys/stat.h>
#include <sys/wait.h>
#include <unistd.h>

#include "cola_core.h"
#include "cola_file.h"
#include "cola_journal.h"

enum { KEYS = 300, FEW = 12, MOST = 1 << 21, FRONT = 4096 + 32, FIRST = 4096, STATE = 14 };

static int keys = KEYS; /* that the store is for */

#define HOLDS(is) ((is) ? (void)0 : (fprintf(stderr, "resident: line %d: not so: %s (%s)\n", __LINE__, #is, strerror(errno)), exit(1)))

static char path[3100], journal[3200], record[3200], copy[3200], other[3200];

/* The disk: which write, of those from now on, is refused with this error, or kills the process; and all behind it. */
static long writes_left = -1, syncs_left = -1;
static int error_then;
static bool kills, is_once; /* (once: those behind it are made) */

static bool is_refused(long *left) {
    if (*left < 0) return false;
    if (*left > 0) return --*left, false;
    if (kills) raise(SIGKILL);
    if (is_once) *left = -1;
    errno = error_then;
    return true;
}

ssize_t __real_pwrite(int descriptor, const void *bytes, size_t length, off_t place);
ssize_t __wrap_pwrite(int descriptor, const void *bytes, size_t length, off_t place);
ssize_t __wrap_pwrite(int descriptor, const void *bytes, size_t length, off_t place) {
    return is_refused(&writes_left) ? -1 : __real_pwrite(descriptor, bytes, length, place);
}

int __real_fsync(int descriptor);
int __wrap_fsync(int descriptor);
int __wrap_fsync(int descriptor) { return is_refused(&syncs_left) ? -1 : __real_fsync(descriptor); }

static void refuse(long writes, long syncs, int error) { writes_left = writes, syncs_left = syncs, error_then = error; }
static void mend(void) { refuse(-1, -1, 0); }

typedef struct image {
    size_t length;
    uint8_t bytes[MOST];
} image;

static void load(image *it, const char *name) {
    FILE *file = fopen(name, "rb");
    HOLDS(file != NULL);
    it->length = fread(it->bytes, 1, MOST, file);
    HOLDS(it->length < MOST && fclose(file) == 0);
}

static void save(const image *it, const char *name) {
    FILE *file = fopen(name, "wb");
    HOLDS(file != NULL && fwrite(it->bytes, 1, it->length, file) == it->length && fclose(file) == 0);
}

static bool is_file(const char *name, const image *it) {
    static image now;
    load(&now, name);
    return now.length == it->length && memcmp(now.bytes, it->bytes, it->length) == 0;
}

static bool is_there(const char *name) { return access(name, F_OK) == 0; }

static int32_t put(cola_file *file, int number) {
    char key[16], value[16];
    snprintf(key, sizeof key, "k%04d", number % keys);
    snprintf(value, sizeof value, "%d", number);
    return cola_put(&file->store, key, 5, value, strlen(value), NULL);
}

static void puts_from(cola_file *file, int from, int until) {
    for (int number = from; number < until; number++) HOLDS(put(file, number) == COLA_OK);
}

static uint64_t count_of(const char *name, uint32_t flags) {
    cola_file file = COLA_FILE_INIT;
    uint64_t count = 0;
    HOLDS(cola_file_open_as(&file, name, flags) == COLA_OK);
    HOLDS(cola_count(&file.store, &count) == COLA_OK && cola_file_close(&file) == COLA_OK);
    return count;
}

static void make_store(const char *name, uint64_t most) {
    unlink(name);
    HOLDS(cola_file_create(name, most, 3, 1) == COLA_OK);
}

static void open_resident(cola_file *file) {
    *file = (cola_file)COLA_FILE_INIT;
    HOLDS(cola_file_open_as(file, path, COLA_RESIDENT) == COLA_OK);
}

/* A session with a checkpoint, a copy and a close. */
static void of_sessions(void) {
    cola_file file = COLA_FILE_INIT;
    struct stat about;
    static image was;
    make_store(path, KEYS);
    HOLDS(chmod(path, 0640) == 0);
    load(&was, path);
    open_resident(&file);
    HOLDS(cola_file_open_as(&file, path, COLA_RESIDENT) == COLA_IN_USE);
    puts_from(&file, 0, 100);
    HOLDS(is_file(path, &was) && !is_there(journal));
    HOLDS(cola_file_checkpoint(&file, NULL) == COLA_OK);
    HOLDS(stat(journal, &about) == 0 && about.st_size == 0 && (about.st_mode & 0777) == 0640);
    load(&was, path);
    puts_from(&file, 100, 150);
    HOLDS(cola_file_checkpoint(&file, copy) == COLA_OK && is_file(path, &was) && count_of(copy, COLA_READ_ONLY) == 150);
    HOLDS(cola_file_discard(&file) == COLA_OK && is_file(path, &was) && !is_there(journal));
    HOLDS(cola_file_discard(&file) == COLA_CLOSED && cola_file_discard(NULL) == COLA_NULL);
    open_resident(&file);
    puts_from(&file, 100, 150);
    HOLDS(cola_file_close(&file) == COLA_OK && !is_there(journal) && count_of(path, 0) == 150);
    load(&was, path);
    HOLDS(count_of(path, COLA_RESIDENT) == 150 && is_file(path, &was) && !is_there(journal));
    HOLDS(cola_file_open_as(&file, path, COLA_READ_ONLY | COLA_RESIDENT) == COLA_OPTIONS && cola_file_open_as(&file, path, 16) == COLA_OPTIONS);
    HOLDS(cola_file_open(&file, path) == COLA_OK);
    HOLDS(cola_file_checkpoint(&file, NULL) == COLA_NULL && cola_file_discard(&file) == COLA_OK);
}

/* The marks of a store in memory, and a link to a file, whose journal lies beside the file. */
static void of_marks_and_links(void) {
    cola_file file = COLA_FILE_INIT;
    cola store = COLA_INIT;
    static image was, now;
    static uint8_t marks[MOST / 4096];
    HOLDS(cola_open_marked(&store, was.bytes, 0, NULL, 0) == COLA_NULL);
    load(&was, path);
    load(&now, path);
    size_t pages = cola_pages_in(now.length);
    HOLDS(cola_open_marked(&store, now.bytes, now.length, marks, pages) == COLA_OK);
    for (int number = 0; number < 20; number++) HOLDS(cola_put(&store, "k", 1, "v", 1, NULL) == COLA_OK);
    HOLDS(cola_checkpoint(&store) == COLA_OK && cola_close(&store) == COLA_OK);
    int marked = 0;
    for (size_t page = 0; page < pages; page++) {
        marked += marks[page] != 0;
        HOLDS(marks[page] != 0 || memcmp(was.bytes + page * 4096, now.bytes + page * 4096, 4096) == 0);
    }
    HOLDS(marked > 0 && marked < (int)pages);
    unlink(other);
    HOLDS(symlink(path, other) == 0 && cola_file_open_as(&file, other, COLA_RESIDENT) == COLA_OK);
    puts_from(&file, 0, 10);
    HOLDS(cola_file_checkpoint(&file, NULL) == COLA_OK && is_there(journal));
    HOLDS(cola_file_close(&file) == COLA_OK && unlink(other) == 0);
}

/* A disk that is full, or fails, while the journal is written: the store is open as before, and the file has what it had. */
static void of_a_full_disk(void) {
    cola_file file;
    static image was;
    load(&was, path);
    for (int at = 0; at < 3; at++) {
        open_resident(&file);
        puts_from(&file, 1000, 1050);
        if (at == 0) refuse(0, -1, ENOSPC);
        else refuse(-1, at - 1, EIO); /* (the sync of the journal, and that of its name) */
        errno = 0;
        int32_t answer = cola_file_checkpoint(&file, NULL);
        int error = errno;
        mend();
        HOLDS(answer == COLA_SYSTEM && error == (at == 0 ? ENOSPC : EIO));
        HOLDS(is_file(path, &was) && put(&file, 1) == COLA_OK);
        if (at == 0) HOLDS(cola_file_discard(&file) == COLA_OK && is_file(path, &was));
        else HOLDS(cola_file_checkpoint(&file, NULL) == COLA_OK && !is_file(path, &was) && cola_file_close(&file) == COLA_OK);
        HOLDS(!is_there(journal));
        save(&was, path);
    }
    open_resident(&file);
    puts_from(&file, 1000, 1050);
    refuse(0, -1, ENOSPC);
    HOLDS(cola_file_close(&file) == COLA_SYSTEM && errno == ENOSPC && file.bytes == NULL);
    mend();
    HOLDS(is_file(path, &was));
}

/* What is refused, and what is not, while a checkpoint is not finished: the keys. */
static uint64_t of_unfinished(cola_file *file) {
    char value[COLA_VALUE_MAX];
    size_t length, done;
    uint64_t count;
    cola_row row = {1, 1, "k", "v"};
    HOLDS(put(file, 1) == COLA_UNFINISHED && cola_delete(&file->store, "k0001", 5) == COLA_UNFINISHED);
    HOLDS(cola_put_if(&file->store, "k", 1, 0, "v", 1, NULL) == COLA_UNFINISHED);
    HOLDS(cola_put_many(&file->store, &row, 1, NULL, &done) == COLA_UNFINISHED && done == 0);
    HOLDS(cola_get(&file->store, "k0001", 5, value, &length) == COLA_OK && cola_count(&file->store, &count) == COLA_OK);
    return count;
}

/* A checkpoint on a disk that fails at this write or sync. It is finished by a checkpoint, a close or an opening. */
static bool fails_at(int at, int way) {
    cola_file file;
    open_resident(&file);
    puts_from(&file, 2000, 2100);
    if (at % 2 == 0) refuse(at / 2, -1, EIO);
    else refuse(-1, at / 2, EIO);
    int32_t answer = cola_file_checkpoint(&file, NULL);
    int error = errno;
    if (answer != COLA_UNFINISHED) {
        mend();
        HOLDS(answer == COLA_OK || (answer == COLA_SYSTEM && error == EIO));
        HOLDS(put(&file, 1) == COLA_OK && cola_file_close(&file) == COLA_OK);
        return false;
    }
    HOLDS(error == EIO);
    uint64_t count = of_unfinished(&file);
    if (at % 2 == 0) HOLDS(cola_file_checkpoint(&file, NULL) == COLA_UNFINISHED);
    if (way < 2) mend();
    if (way == 0) HOLDS(cola_file_checkpoint(&file, NULL) == COLA_OK && put(&file, 1) == COLA_OK);
    answer = cola_file_close(&file);
    HOLDS(answer == COLA_OK || (way == 2 && answer == COLA_UNFINISHED));
    mend();
    HOLDS(count_of(path, 0) == count && !is_there(journal));
    return true;
}

/* A disk that fails behind the sync of the journal, at each write and sync: nothing is put before the checkpoint is finished. */
static void of_a_failing_disk(void) {
    static image was;
    int unfinished = 0;
    load(&was, path);
    for (int at = 0; at < 12; at++) {
        for (int way = 0; way < 3; way++) {
            save(&was, path);
            unfinished += fails_at(at, way);
        }
    }
    HOLDS(unfinished > 6);
}

/* One sync of a checkpoint fails, those behind it do not: that is told, and at one of the file the checkpoint goes no further. */
static void of_a_sync_that_fails(void) {
    enum { MARK = 2, EMPTIED = 5 }; /* the journal, its name; the mark, the pages, the header; the empty journal */
    cola_file file;
    uint64_t count;
    for (int at = 0; at <= EMPTIED; at++) {
        open_resident(&file);
        puts_from(&file, 2000, 2100);
        HOLDS(cola_count(&file.store, &count) == COLA_OK);
        is_once = true;
        refuse(-1, at, EIO);
        int32_t answer = cola_file_checkpoint(&file, NULL);
        HOLDS(answer == (at < MARK || at == EMPTIED ? COLA_SYSTEM : COLA_UNFINISHED) && errno == EIO);
        is_once = false;
        mend();
        HOLDS(cola_file_close(&file) == COLA_OK && count_of(path, 0) == count && !is_there(journal));
    }
}

static image before, behind, whole; /* the file in front of a checkpoint, behind it, and the journal */

/* A process that dies as it begins to write to the file. */
static void leave_a_journal(void) {
    int status;
    load(&before, path);
    pid_t child = fork();
    if (child == 0) {
        cola_file file;
        open_resident(&file);
        puts_from(&file, 3000, 3100);
        HOLDS(cola_file_checkpoint(&file, copy) == COLA_OK);
        kills = true;
        refuse(-1, 2, 0); /* (the syncs of the journal and of its name are made) */
        cola_file_checkpoint(&file, NULL);
        _exit(9);
    }
    waitpid(child, &status, 0);
    HOLDS(WIFSIGNALED(status) && WTERMSIG(status) == SIGKILL);
    load(&behind, copy);
    load(&whole, journal);
    before.bytes[STATE] = 1; /* (it had just said that it is in use) */
    HOLDS(is_file(path, &before) && whole.length > 4096);
    before.bytes[STATE] = 0;
    HOLDS(memcmp(whole.bytes, before.bytes, FIRST) == 0 && memcmp(behind.bytes, before.bytes, 512) != 0);
}

static void state(const image *file, const image *of_journal) {
    save(file, path);
    save(of_journal, journal);
}

/* Journals that are whole, changed in each byte, cut, of another store, and with pieces that lie in no file. */
static void of_journals(void) {
    bool found;
    static image changed, larger;
    keys = FEW;
    make_store(path, FEW);
    leave_a_journal();
    for (int way = 0; way < 4; way++) {
        state(&before, &whole);
        if (way < 3) count_of(path, way == 0 ? 0 : way == 1 ? COLA_READ_ONLY : COLA_RESIDENT);
        else HOLDS(cola_journal_recover(path, &found) == COLA_OK && found);
        HOLDS(is_file(path, &behind) && !is_there(journal));
    }
    changed = whole;
    save(&before, path);
    for (size_t at = 0; at < whole.length; at++) {
        changed.bytes[at] ^= (uint8_t)(1u << at % 8);
        save(&changed, journal);
        HOLDS(cola_journal_recover(path, &found) == COLA_OK && !found && !is_there(journal));
        changed.bytes[at] ^= (uint8_t)(1u << at % 8);
    }
    HOLDS(is_file(path, &before));
    for (changed.length = 0; changed.length < whole.length; changed.length += 7) {
        save(&changed, journal);
        HOLDS(cola_journal_recover(path, &found) == COLA_OK && !found && !is_there(journal));
    }
    HOLDS(is_file(path, &before));
    changed = whole; /* with a byte behind its end */
    changed.bytes[changed.length++] = 0;
    save(&changed, journal);
    HOLDS(cola_journal_recover(path, &found) == COLA_OK && !found && is_file(path, &before));
    make_store(other, KEYS); /* another store's */
    load(&larger, other);
    state(&larger, &whole);
    HOLDS(cola_journal_recover(path, &found) == COLA_OK && !found && is_file(path, &larger) && !is_there(journal));
    HOLDS(unlink(other) == 0);
}

/* What an opening of each kind leaves of a file with another first page than the journal follows: the file, and no journal, but where it
 * reads alone. */
static void is_passed_over(const image *file) {
    bool found;
    for (int way = 0; way < 4; way++) {
        state(file, &whole);
        if (way < 3) count_of(path, way == 0 ? 0 : way == 1 ? COLA_READ_ONLY : COLA_RESIDENT);
        else HOLDS(cola_journal_recover(path, &found) == COLA_OK && !found);
        HOLDS(is_file(path, file) && is_there(journal) == (way == 1));
    }
    HOLDS(unlink(journal) == 0 || errno == ENOENT);
}

/* The store of this many puts, with other values than the sessions' own. */
static void make_alike(image *it, int puts) {
    cola_file file = COLA_FILE_INIT;
    char key[16];
    make_store(other, FEW);
    HOLDS(cola_file_open(&file, other) == COLA_OK);
    for (int number = 0; number < puts; number++) {
        snprintf(key, sizeof key, "k%04d", number % FEW);
        HOLDS(cola_put(&file.store, key, 5, "other", 5, NULL) == COLA_OK);
    }
    HOLDS(cola_file_close(&file) == COLA_OK);
    load(it, other);
    HOLDS(unlink(other) == 0);
}

/* A journal beside a copy of an earlier checkpoint, a new store, another store with the same header, and one that a program changed
 * which knows of no journal; beside its own file, with each part of the new page; and one whose first bytes did not reach the disk. */
static void of_other_checkpoints(void) {
    cola_file file;
    bool found;
    static image earlier, empty, alike, changed;
    make_store(path, FEW);
    load(&empty, path);
    open_resident(&file);
    puts_from(&file, 0, 5);
    HOLDS(cola_file_close(&file) == COLA_OK);
    load(&earlier, path);
    open_resident(&file);
    puts_from(&file, 5, 20);
    HOLDS(cola_file_close(&file) == COLA_OK);
    leave_a_journal();
    is_passed_over(&earlier);
    is_passed_over(&empty);
    make_alike(&alike, 20);
    HOLDS(memcmp(alike.bytes, before.bytes, 512) == 0); /* (version 1) */
    is_passed_over(&alike);
    make_alike(&alike, 120);
    HOLDS(memcmp(alike.bytes, behind.bytes, 512) == 0);
    is_passed_over(&alike);
    save(&before, path);
    HOLDS(unlink(journal) == 0 || errno == ENOENT);
    HOLDS(cola_file_open(&file, path) == COLA_OK && put(&file, 7) == COLA_OK && cola_file_close(&file) == COLA_OK);
    load(&changed, path);
    is_passed_over(&changed);
    for (size_t part = 0; part <= FIRST; part += part < 512 ? 1 : 7) {
        changed = before;
        memcpy(changed.bytes, behind.bytes, part);
        changed.bytes[STATE] = part % 2;
        state(&changed, &whole);
        HOLDS(cola_journal_recover(path, &found) == COLA_OK && found && is_file(path, &behind));
    }
    changed = whole;
    memset(changed.bytes, 0, FRONT);
    state(&before, &changed);
    HOLDS(cola_journal_recover(path, &found) == COLA_OK && !found && is_file(path, &before) && !is_there(journal));
}

/* A log that has a call, of some store. */
static void leave_a_log(void) {
    cola_file file = COLA_FILE_INIT;
    static image log;
    char its_log[3300];
    snprintf(its_log, sizeof its_log, "%s-log", other);
    make_store(other, FEW);
    HOLDS(cola_file_open_as(&file, other, COLA_LOGGED) == COLA_OK && put(&file, 1) == COLA_OK && cola_file_discard(&file) == COLA_OK);
    load(&log, its_log);
    log.length = 4096;
    save(&log, record);
    HOLDS(unlink(other) == 0 && unlink(its_log) == 0);
}

/* The journal and the log of a removed file do not outlive that another one is made in its place, in each way. Those of the first
 * checkpoint of a store for as many keys follow a new one too. */
static void of_made_files(void) {
    cola_file file = COLA_FILE_INIT;
    cola_file_load rows = COLA_FILE_LOAD_INIT;
    uint64_t count;
    make_store(path, FEW);
    leave_a_journal();
    for (int way = 0; way < 5; way++) {
        unlink(path);
        save(&whole, journal);
        leave_a_log();
        if (way == 1) save(&(image){.length = 0}, path);
        if (way < 2) HOLDS(cola_file_create(path, FEW, 3, 1) == COLA_OK);
        if (way == 2) HOLDS(cola_file_load_begin(&rows, path, FEW, 3, 1) == COLA_OK && cola_file_load_end(&rows, &count) == COLA_OK);
        if (way == 3) {
            make_store(other, FEW);
            HOLDS(cola_file_open(&file, other) == COLA_OK && cola_file_checkpoint(&file, path) == COLA_OK && cola_file_close(&file) == COLA_OK);
        }
        if (way == 4) { /* (the log follows another file) */
            save(&before, path);
            HOLDS(cola_file_grow(path, KEYS, 3, &count) == COLA_OK);
        }
        HOLDS(!is_there(journal) && !is_there(record));
        HOLDS(count_of(path, 0) == (way == 4 ? FEW : 0) && count_of(path, COLA_LOGGED) == (way == 4 ? FEW : 0));
    }
    save(&whole, journal); /* (a refused call leaves them) */
    HOLDS(cola_file_create(path, FEW, 3, 1) == COLA_NOT_EMPTY && is_there(journal) && unlink(journal) == 0);
    HOLDS(mkfifo(journal, 0600) == 0 && unlink(path) == 0 && cola_file_create(path, FEW, 3, 1) == COLA_OK && unlink(journal) == 0);
    unlink(other);
}

/* What the process has met of page faults. */
static long faults(void) {
    struct rusage usage;
    HOLDS(getrusage(RUSAGE_SELF, &usage) == 0);
    return usage.ru_minflt + usage.ru_majflt;
}

/* Puts and gets of a resident store and a logged one meet no page fault. (The first of each kind are not counted: they touch the
 * program's own pages and the stack.) */
static void of_page_faults(void) {
    cola_file file = COLA_FILE_INIT;
    char value[COLA_VALUE_MAX], key[16];
    size_t length;
    enum { TIMES = 10000, MANY = 100000 };
    for (uint32_t flags = COLA_RESIDENT; flags <= COLA_LOGGED; flags += COLA_LOGGED - COLA_RESIDENT) {
        make_store(path, MANY);
        keys = MANY;
        HOLDS(cola_file_open_as(&file, path, flags) == COLA_OK);
        long before_all = 0;
        for (int number = -100; number < TIMES; number++) {
            if (number == 0) before_all = faults();
            int length_of_key = snprintf(key, sizeof key, "k%05d", (number + 100) * 7919 % MANY);
            HOLDS(cola_put(&file.store, key, (size_t)length_of_key, "value", 5, NULL) == COLA_OK);
            HOLDS(cola_get(&file.store, key, (size_t)length_of_key, value, &length) == COLA_OK && length == 5);
        }
        long met = faults() - before_all;
#ifdef __SANITIZE_ADDRESS__
        met = 0; /* (the sanitizer's own memory) */
#endif
        if (met != 0) fprintf(stderr, "resident: %ld page faults in %d puts and gets\n", met, TIMES);
        HOLDS(met == 0 && cola_file_discard(&file) == COLA_OK);
        unlink(record);
    }
    keys = FEW;
}

/* A journal with a right sum, of a store with a page more than the file has. */
static void of_places(void) {
    static image long_one, made;
    static uint8_t marks[MOST / 4096];
    char head[COLA_JOURNAL_HEAD];
    bool found;
    long_one = before;
    long_one.length += 4096;
    size_t pages = cola_pages_in(long_one.length), at = FRONT + COLA_JOURNAL_HEAD;
    marks[0] = marks[pages - 1] = 1;
    made = (image){.length = 0};
    memcpy(made.bytes, before.bytes, FIRST);
    cola_core_log_begin(made.bytes, FIRST, (cola_core_log *)(made.bytes + FIRST));
    for (int page = 0; page < 2; page++) {
        size_t place = page == 0 ? 0 : (pages - 1) * 4096;
        cola_core_journal_piece(place, 4096, head);
        memcpy(made.bytes + at, head, sizeof head);
        memcpy(made.bytes + at + sizeof head, long_one.bytes + place, 4096);
        at += sizeof head + 4096;
    }
    cola_core_journal_frame(long_one.bytes, long_one.length, marks, pages, made.bytes + FRONT, made.bytes + at);
    made.length = at + COLA_JOURNAL_SUM;
    HOLDS(cola_core_journal_is_whole(made.bytes + FRONT, made.length - FRONT));
    state(&before, &made);
    HOLDS(cola_journal_recover(path, &found) == COLA_UNFINISHED && errno == EINVAL && is_file(path, &before) && is_file(journal, &made));
    HOLDS(unlink(journal) == 0 && symlink(copy, journal) == 0); /* no file of its own, and none at all */
    HOLDS(cola_journal_recover(path, &found) == COLA_SYSTEM && errno == ELOOP && unlink(journal) == 0);
    HOLDS(mkfifo(journal, 0600) == 0);
    HOLDS(cola_journal_recover(path, &found) == COLA_SYSTEM && errno == EINVAL && unlink(journal) == 0);
    HOLDS(count_of(path, 0) == 0 && is_file(path, &before));
}

/* Another process opens nothing, recovers nothing, and a child leaves all to its parent. */
static void of_two_processes(void) {
    cola_file file, second = COLA_FILE_INIT;
    int status;
    bool found;
    open_resident(&file);
    puts_from(&file, 0, 10);
    HOLDS(cola_file_checkpoint(&file, NULL) == COLA_OK);
    puts_from(&file, 10, 20);
    pid_t child = fork();
    if (child == 0) {
        for (uint32_t flags = 0; flags <= COLA_RESIDENT; flags++)
            HOLDS(cola_file_open_as(&second, path, flags) == COLA_SYSTEM && errno == EWOULDBLOCK);
        HOLDS(cola_journal_recover(path, &found) == COLA_SYSTEM && errno == EWOULDBLOCK);
        HOLDS(cola_file_checkpoint(&file, NULL) == COLA_CLOSED && cola_file_close(&file) == COLA_OK);
        _exit(0);
    }
    waitpid(child, &status, 0);
    HOLDS(WIFEXITED(status) && WEXITSTATUS(status) == 0 && is_there(journal));
    HOLDS(put(&file, 20) == COLA_OK && cola_file_close(&file) == COLA_OK && !is_there(journal));
}

int main(int count, char **words) {
    if (count < 2) return fprintf(stderr, "resident FOLDER\n"), 2;
    snprintf(path, sizeof path, "%.3000s/resident.store", words[1]);
    snprintf(journal, sizeof journal, "%.3000s/resident.store-journal", words[1]);
    snprintf(record, sizeof record, "%.3000s/resident.store-log", words[1]);
    snprintf(copy, sizeof copy, "%.3000s/resident.copy", words[1]);
    snprintf(other, sizeof other, "%.3000s/resident.other", words[1]);
    of_sessions();
    of_marks_and_links();
    of_a_full_disk();
    of_a_failing_disk();
    of_a_sync_that_fails();
    of_journals();
    of_places();
    of_two_processes();
    of_other_checkpoints();
    of_made_files();
    of_page_faults();
    return 0;
}
