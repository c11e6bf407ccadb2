/* A store's file that is kept in memory: see cola_resident.h. In front of the store's bytes lie the marks of its pages, which the
 * proved calls set as they write, and what is known of its journal. */
#define _GNU_SOURCE
#include "cola_resident.h"

#include <errno.h>
#include <string.h>
#include <sys/mman.h>
#include <unistd.h>

#include "cola_core.h"
#include "cola_disk.h"
#include "cola_journal.h"

enum { HUGE = 1 << 21 }; /* the bytes of a huge page */

/* What lies in front of the bytes of a store: it ends where they begin. */
typedef struct resident {
    void *memory;  /* all that was taken */
    size_t taken;
    cola_journal journal;
    cola_log log;
    uint8_t marks[]; /* one for each page */
} resident;

static size_t rounded(size_t bytes) { return (bytes + HUGE - 1) / HUGE * HUGE; }

/* How many bytes lie in front of a store of so many. */
static size_t in_front(size_t length) { return rounded(sizeof(resident) + cola_pages_in(length)); }

static resident *resident_of(const cola_file *file) { return (resident *)((char *)file->bytes - in_front(file->length)); }

/* (The store of a file is its first member.) */
cola_log *cola_resident_log(const cola *store) { return &resident_of((const cola_file *)(const void *)store)->log; }

static bool is_logged(const resident *it) { return it->log.descriptor >= 0; }

/* Takes memory for a store of so many bytes, on huge pages where the system gives them: NULL where there is none. What is not
 * read into later is touched here, so that no later call meets a page that is not there. */
static char *take_memory(size_t length) {
    size_t front = in_front(length), taken = front + rounded(length) + HUGE;
    char *memory = mmap(NULL, taken, PROT_READ | PROT_WRITE, MAP_PRIVATE | MAP_ANONYMOUS, -1, 0);
    if (memory == MAP_FAILED) return NULL;
    char *begin = (char *)rounded((size_t)memory);
    madvise(begin, front + rounded(length), MADV_HUGEPAGE); /* (a system that gives none is served without) */
    memset(begin, 0, sizeof(resident) + cola_pages_in(length));
    resident *it = (resident *)begin;
    it->memory = memory, it->taken = taken;
    cola_log_none(&it->log);
    return begin + front;
}

static void give_memory(resident *it) {
    int error = errno;
    munmap(it->memory, it->taken);
    errno = error;
}

/* Reads the whole store: COLA_SMALL where the file has become shorter. */
static int32_t read_store(const cola_file *file) {
    ssize_t had = cola_disk_read(file->descriptor, file->bytes, file->length);
    return had < 0 ? COLA_SYSTEM : (size_t)had < file->length ? COLA_SMALL : COLA_OK;
}

int32_t cola_resident_reopen(cola_file *file) {
    resident *it = resident_of(file);
    int32_t answer = cola_open_marked(&file->store, file->bytes, file->length, it->marks, cola_pages_in(file->length));
    if (answer != COLA_OK) return answer;
    file->store.is_logged = is_logged(it);
    file->store.is_unfinished = cola_journal_is_stuck(&it->journal) || (is_logged(it) && it->log.is_stuck);
    return COLA_OK;
}

/* Opens the store that was read, and its log where there is to be one. */
static int32_t open_read(cola_file *file, uint32_t flags) {
    resident *it = resident_of(file);
    char page[COLA_PAGE];
    memcpy(page, file->bytes, sizeof page); /* (the opening writes to it; no store is shorter) */
    int32_t answer = cola_resident_reopen(file);
    if (answer != COLA_OK || (flags & (COLA_LOGGED | COLA_SYNCED)) == 0) return answer;
    answer = cola_log_open(&it->log, &it->journal, &file->store, page, (flags & COLA_SYNCED) != 0);
    file->store.is_logged = answer == COLA_OK;
    if (answer != COLA_OK) cola_close(&file->store); /* (in memory alone) */
    return answer;
}

int32_t cola_resident_open(cola_file *file, const char *path, int descriptor, size_t length, uint32_t flags) {
    if (!cola_disk_take_room(descriptor, 0, length)) return COLA_SYSTEM;
    char *bytes = take_memory(length);
    if (bytes == NULL) return COLA_MEMORY;
    cola_file opened = *file;
    opened.bytes = bytes, opened.length = length, opened.descriptor = descriptor;
    opened.owner = (long)getpid(), opened.is_resident = true;
    resident *it = resident_of(&opened);
    int32_t answer = cola_journal_of(&it->journal, path, descriptor) ? read_store(&opened) : COLA_SYSTEM;
    if (answer == COLA_OK) answer = open_read(&opened, flags);
    if (answer == COLA_OK) {
        *file = opened;
    } else {
        cola_journal_leave(&it->journal);
        give_memory(it);
    }
    return answer;
}

/* Whether the file has all of the closed store already: no page but the first is marked, and that is the same. */
static bool is_in_file(const cola_file *file, const resident *it) {
    char first[COLA_PAGE];
    size_t length = file->length < sizeof first ? file->length : sizeof first;
    for (size_t page = 1; page < cola_pages_in(file->length); page++)
        if (it->marks[page] != 0) return false;
    return cola_disk_read(file->descriptor, first, length) == (ssize_t)length && memcmp(first, file->bytes, length) == 0;
}

/* Makes the file have the closed store. Pages that a checkpoint holds have no mark then. Where the log would follow the new file as
 * it follows the old one, whose first page may be the same in version 1, the log is kept in the place of a checkpoint. Behind a
 * checkpoint that may hold, and is not done, the log may follow no file: then nothing is appended to it. */
static int32_t make_checkpoint(cola_file *file) {
    resident *it = resident_of(file);
    cola_pages pages = {file->bytes, file->length, it->marks};
    bool holds = false;
    it->log.is_done = it->journal.stage == COLA_STAGE_REST && is_in_file(file, it);
    if (it->log.is_done) return COLA_OK;
    if (is_logged(it) && cola_log_follows(&it->log, file->bytes)) return cola_log_sync(&it->log);
    it->marks[0] = 1; /* (a journal has the header) */
    int32_t answer = cola_journal_checkpoint(&it->journal, &pages, &holds);
    if (holds) memset(it->marks, 0, cola_pages_in(file->length));
    it->log.is_done = answer == COLA_OK;
    if (it->journal.stage != COLA_STAGE_REST) it->log.is_stuck = true;
    return answer;
}

int32_t cola_resident_checkpoint(cola_file *file) {
    int32_t answer = cola_close(&file->store);
    if (answer != COLA_OK) return answer;
    resident *it = resident_of(file);
    answer = make_checkpoint(file);
    if (is_logged(it) && it->log.is_done && !cola_log_begin(&it->log, file->bytes)) answer = COLA_SYSTEM;
    int error = errno;
    int32_t opened = cola_resident_reopen(file);
    errno = error;
    return opened != COLA_OK ? opened : answer;
}

int32_t cola_resident_close(cola_file *file, bool discards, bool is_owner) {
    resident *it = resident_of(file);
    int32_t answer = COLA_OK;
    if (is_owner) {
        answer = cola_close(&file->store);
        if (answer == COLA_CLOSED) answer = COLA_OK; /* (a checkpoint had no memory to open it again) */
        if (answer == COLA_OK && !discards) answer = make_checkpoint(file);
        cola_log_close(&it->log);
        cola_journal_remove(&it->journal);
    } else {
        cola_log_leave(&it->log);
        cola_journal_leave(&it->journal);
    }
    give_memory(it);
    return answer;
}
