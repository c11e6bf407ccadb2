/* The file of a store, mapped: see cola_file.h. */
#define _GNU_SOURCE
#include "cola_file.h"
#include "cola_opening.h"

#include <errno.h>
#include <fcntl.h>
#include <limits.h>
#include <stdio.h>
#include <stdlib.h>
#include <sys/file.h>
#include <sys/mman.h>
#include <sys/stat.h>
#include <unistd.h>

#include "cola_disk.h"
#include "cola_journal.h"
#include "cola_log.h"
#include "cola_resident.h"

/* The bytes that are mapped for this process alone, and written to the file by cola_disk_store: the first page, or all of a file
 * that is shorter. A header that is closed, or in use, reaches the disk when it is written, and at no other moment. */
static size_t first_of(size_t length) {
    size_t page = (size_t)sysconf(_SC_PAGESIZE);
    return length < page ? length : page;
}

/* Gives a mapping up, and the answer for which that is done. */
static int32_t unmap(char *bytes, size_t length, int32_t answer) {
    int error = errno;
    munmap(bytes, length);
    errno = error;
    return answer;
}

/* Makes the new store in an empty file. A journal and a log are gone before it is one: that of the first checkpoint of a removed store
 * for as many keys follows it too. */
static int32_t lay_out(const char *path, int descriptor, size_t length, uint64_t keys, uint8_t block, uint8_t version) {
    if (!cola_disk_take_room(descriptor, 0, length)) return COLA_SYSTEM;
    void *bytes = mmap(NULL, length, PROT_READ | PROT_WRITE, MAP_SHARED, descriptor, 0);
    if (bytes == MAP_FAILED) return COLA_SYSTEM;
    if (!cola_log_drop_stale(path, descriptor)) return unmap(bytes, length, COLA_SYSTEM);
    int32_t answer = cola_create(bytes, length, keys, block, version);
    if (answer == COLA_OK && (msync(bytes, length, MS_SYNC) != 0 || fsync(descriptor) != 0)) answer = COLA_SYSTEM;
    return unmap(bytes, length, answer);
}

int32_t cola_file_create(const char *path, uint64_t keys, uint8_t block, uint8_t version) {
    uint64_t length;
    struct stat about;
    if (path == NULL) return COLA_NULL;
    int32_t answer = cola_size(keys, block, version, &length);
    if (answer != COLA_OK) return answer;
    int descriptor = open(path, O_RDWR | O_CREAT | O_EXCL | O_CLOEXEC, 0666);
    bool is_new = descriptor >= 0;
    if (!is_new && errno == EEXIST) descriptor = open(path, O_RDWR | O_CLOEXEC);
    if (descriptor < 0) return COLA_SYSTEM;
    /* What is undone where the store is not made. What another process came to first is left to it. */
    bool removes = is_new, empties = false;
    answer = COLA_SYSTEM;
    if (flock(descriptor, LOCK_EX | LOCK_NB) != 0) {
        removes = is_new && errno != EWOULDBLOCK;
    } else if (fstat(descriptor, &about) == 0) {
        removes = is_new && about.st_size == 0;
        empties = !is_new && about.st_size == 0;
        answer = about.st_size != 0 ? COLA_NOT_EMPTY : lay_out(path, descriptor, (size_t)length, keys, block, version);
        if (answer == COLA_OK && !cola_disk_sync_name(path)) answer = COLA_SYSTEM;
    }
    int error = errno;
    if (answer != COLA_OK && removes) unlink(path);
    if (answer != COLA_OK && empties && ftruncate(descriptor, 0) != 0) error = errno;
    errno = error;
    cola_disk_let_go(descriptor);
    return answer;
}

/* What an open file has. */
static int32_t keep(cola_file *file, char *bytes, size_t length, int descriptor) {
    file->bytes = bytes;
    file->length = length;
    file->descriptor = descriptor;
    file->owner = (long)getpid();
    file->is_resident = false;
    return COLA_OK;
}

/* Maps the file's store and opens it to be read alone. The bytes are this process's: what opening and closing write in them
 * stays in memory, and those that are only read take none. */
static int32_t map_and_read(cola_file *file, int descriptor, size_t length) {
    char *bytes = mmap(NULL, length, PROT_READ | PROT_WRITE, MAP_PRIVATE | MAP_NORESERVE, descriptor, 0);
    if (bytes == MAP_FAILED) return COLA_SYSTEM;
    int32_t answer = cola_open(&file->store, bytes, length);
    if (answer != COLA_OK) return unmap(bytes, length, answer);
    file->store.is_read_only = true;
    return keep(file, bytes, length, descriptor);
}

/* Maps the file's store, of which room is taken and whose header is this, and opens it. */
static int32_t map_and_open(cola_file *file, int descriptor, size_t length, const char *head) {
    char *bytes = mmap(NULL, length, PROT_READ | PROT_WRITE, MAP_SHARED, descriptor, 0);
    if (bytes == MAP_FAILED) return COLA_SYSTEM;
    int32_t answer = COLA_SYSTEM;
    if (mmap(bytes, first_of(length), PROT_READ | PROT_WRITE, MAP_PRIVATE | MAP_FIXED, descriptor, 0) != MAP_FAILED) {
        answer = cola_open(&file->store, bytes, length);
        if (answer == COLA_OK && !cola_disk_store(descriptor, bytes, COLA_HEADER, 0)) {
            int error = errno;
            cola_close(&file->store);               /* (in memory alone) */
            cola_disk_store(descriptor, head, COLA_HEADER, 0); /* the mark is taken back, where the disk lets it be */
            errno = error;
            answer = COLA_SYSTEM;
        }
    }
    return answer == COLA_OK ? keep(file, bytes, length, descriptor) : unmap(bytes, length, answer);
}

/* Opens the store in a locked file. The file's first bytes are judged before room is taken, and that for the store alone, and
 * not where it is only read. */
static int32_t judge_and_open(cola_file *file, const char *path, int descriptor, uint32_t flags) {
    char head[COLA_HEADER];
    uint64_t length;
    struct stat about;
    if (fstat(descriptor, &about) != 0) return COLA_SYSTEM;
    ssize_t had = cola_disk_read(descriptor, head, about.st_size < COLA_HEADER ? (size_t)about.st_size : COLA_HEADER);
    if (had < 0) return COLA_SYSTEM;
    int32_t answer = cola_stored_size(head, (size_t)had, (uint64_t)about.st_size, &length);
    if (answer != COLA_OK) return answer;
    if (flags == COLA_READ_ONLY) return map_and_read(file, descriptor, (size_t)length);
    if (!cola_disk_take_room(descriptor, 0, (size_t)length)) return COLA_SYSTEM;
    if (flags != 0) return cola_resident_open(file, path, descriptor, (size_t)length, flags);
    return map_and_open(file, descriptor, (size_t)length, head);
}

/* Whether a locked file waits for what stands beside it: its log, and, where it is to be read alone, its journal, which is
 * finished or dropped else. */
static int32_t waits(const char *path, int descriptor, uint32_t flags, bool *journal, bool *log) {
    bool reads = flags == COLA_READ_ONLY, is_logged = (flags & (COLA_LOGGED | COLA_SYNCED)) != 0;
    *journal = *log = false;
    int32_t answer = !reads ? cola_journal_settle(path, descriptor, NULL)
                   : cola_journal_is_beside(path, descriptor, journal) ? COLA_OK : COLA_SYSTEM;
    if (answer != COLA_OK || *journal || is_logged) return answer;
    return cola_log_is_beside(path, descriptor, log);
}

int32_t cola_file_open_settled(const char *path, uint32_t flags, int *descriptor) {
    bool journal, log, was_log = false;
    for (;;) {
        *descriptor = cola_disk_open_locked(path, flags == COLA_READ_ONLY);
        if (*descriptor < 0) return COLA_SYSTEM;
        int32_t answer = waits(path, *descriptor, flags, &journal, &log);
        if (answer == COLA_OK && !journal && !log) return COLA_OK;
        cola_disk_let_go(*descriptor);
        if (cola_disk_is_replaced(answer == COLA_SYSTEM)) {
            was_log = false;
            continue;
        }
        if (answer == COLA_OK && log && was_log) return errno = EEXIST, COLA_UNFINISHED; /* (its checkpoint could not be made) */
        if (answer == COLA_OK) answer = cola_file_settle(path, &journal, &was_log);
        if (answer != COLA_OK) return answer;
    }
}

int32_t cola_file_settle(const char *path, bool *journal, bool *log) {
    cola_file file = COLA_FILE_INIT;
    int32_t answer;
    do {
        *log = false;
        answer = cola_journal_recover(path, journal);
        if (answer != COLA_OK) return answer;
        int descriptor = cola_disk_open_locked(path, true);
        if (descriptor < 0) return COLA_SYSTEM;
        answer = cola_log_is_beside(path, descriptor, log);
        cola_disk_let_go(descriptor);
    } while (cola_disk_is_replaced(answer == COLA_SYSTEM));
    if (answer == COLA_OK && *log) answer = cola_file_open_as(&file, path, COLA_LOGGED);
    return answer == COLA_OK && *log ? cola_file_close(&file) : answer;
}

int32_t cola_file_open_as(cola_file *file, const char *path, uint32_t flags) {
    int descriptor;
    if (file == NULL || path == NULL) return COLA_NULL;
    if (flags > COLA_READ_ONLY && (flags & ~(uint32_t)(COLA_RESIDENT | COLA_LOGGED | COLA_SYNCED)) != 0) return COLA_OPTIONS;
    if (file->bytes != NULL) return COLA_IN_USE;
    int32_t answer;
    do {
        answer = cola_file_open_settled(path, flags, &descriptor);
        if (answer != COLA_OK) return answer;
        answer = judge_and_open(file, path, descriptor, flags);
        if (answer != COLA_OK) cola_disk_let_go(descriptor);
    } while (cola_disk_is_replaced(answer == COLA_SYSTEM));
    return answer;
}

int32_t cola_file_open(cola_file *file, const char *path) { return cola_file_open_as(file, path, 0); }

/* Whether the name is that of the file: then a copy of that name would take the file's place. Or that could not be told. */
static bool is_same(const struct stat *own, const char *copy) {
    struct stat other;
    if (stat(copy, &other) != 0) return errno != ENOENT;
    bool same = other.st_dev == own->st_dev && other.st_ino == own->st_ino;
    if (same) errno = EINVAL;
    return same;
}

/* Writes the bytes of a closed store to a new file of a name that no file has, the header last, so that the file is no store
 * before it is whole. It then takes the place of the one named copy, whose journal and log go with it before any other process can
 * open the new one. */
static bool write_copy(const cola_file *file, const char *copy) {
    char unfinished[PATH_MAX];
    struct stat own;
    if (snprintf(unfinished, sizeof unfinished, "%s.new-XXXXXX", copy) >= PATH_MAX) return errno = ENAMETOOLONG, false;
    if (fstat(file->descriptor, &own) != 0 || is_same(&own, copy)) return false;
    int descriptor = mkostemp(unfinished, O_CLOEXEC);
    if (descriptor < 0) return false;
    const char *bytes = file->bytes;
    bool is_copied = fchmod(descriptor, own.st_mode & 0777) == 0 &&
                     cola_disk_store(descriptor, bytes + COLA_HEADER, file->length - COLA_HEADER, COLA_HEADER) &&
                     cola_disk_store(descriptor, bytes, COLA_HEADER, 0) && flock(descriptor, LOCK_EX | LOCK_NB) == 0 &&
                     rename(unfinished, copy) == 0;
    bool is_alone = is_copied && cola_log_drop_stale(copy, descriptor);
    int error = errno;
    cola_disk_let_go(descriptor);
    if (!is_copied) unlink(unfinished);
    errno = error;
    return is_alone && cola_disk_sync_name(copy);
}

int32_t cola_file_reopen(cola_file *file) {
    bool reads = file->store.is_read_only;
    if (file->is_resident) return cola_resident_reopen(file);
    int32_t answer = cola_open(&file->store, file->bytes, file->length);
    if (answer == COLA_OK) file->store.is_read_only = reads;
    return answer;
}

int32_t cola_file_checkpoint(cola_file *file, const char *copy) {
    if (file == NULL) return COLA_NULL;
    if (file->bytes == NULL || file->owner != (long)getpid()) return COLA_CLOSED;
    if (file->store.is_read_only) return COLA_READ_ONLY_STORE;
    if (copy == NULL) return file->is_resident ? cola_resident_checkpoint(file) : COLA_NULL;
    int32_t answer = cola_close(&file->store);
    if (answer != COLA_OK) return answer;
    bool is_copied = write_copy(file, copy);
    int error = errno;
    answer = cola_file_reopen(file);
    errno = error;
    return answer != COLA_OK ? answer : is_copied ? COLA_OK : COLA_SYSTEM;
}

int32_t cola_file_sync(cola_file *file) {
    if (file == NULL) return COLA_NULL;
    if (file->bytes == NULL || file->owner != (long)getpid()) return COLA_CLOSED;
    if (!file->store.is_logged) return COLA_OPTIONS;
    cola_log *log = cola_resident_log(&file->store);
    int32_t answer = cola_log_sync(log);
    file->store.is_unfinished = file->store.is_unfinished || log->is_stuck;
    return answer;
}

/* Closes the store in a mapped file, and unmaps it: all that lies behind the header is written, and then the header, which says
 * that the store is closed. */
static int32_t close_mapped(cola_file *file, bool is_owner) {
    int32_t answer = COLA_OK;
    char *bytes = file->bytes;
    size_t first = first_of(file->length);
    if (is_owner) {
        answer = cola_close(&file->store);
        if (answer == COLA_CLOSED) answer = COLA_OK; /* (a checkpoint had no memory to open it again) */
        bool written = file->store.is_read_only ||
                       (answer == COLA_OK && msync(bytes, file->length, MS_SYNC) == 0 &&
                        cola_disk_store(file->descriptor, bytes + COLA_HEADER, first - COLA_HEADER, COLA_HEADER) &&
                        cola_disk_store(file->descriptor, bytes, COLA_HEADER, 0));
        if (answer == COLA_OK && !written) answer = COLA_SYSTEM;
    }
    return unmap(bytes, file->length, answer);
}

static int32_t close_file(cola_file *file, bool discards) {
    bool is_owner = file->owner == (long)getpid();
    int32_t answer = file->is_resident ? cola_resident_close(file, discards, is_owner) : close_mapped(file, is_owner);
    is_owner ? cola_disk_let_go(file->descriptor) : cola_disk_close(file->descriptor);
    *file = (cola_file)COLA_FILE_INIT;
    return answer;
}

int32_t cola_file_close(cola_file *file) {
    if (file == NULL) return COLA_NULL;
    return file->bytes == NULL ? COLA_CLOSED : close_file(file, false);
}

int32_t cola_file_discard(cola_file *file) {
    if (file == NULL) return COLA_NULL;
    return file->bytes == NULL ? COLA_CLOSED : close_file(file, file->is_resident);
}
