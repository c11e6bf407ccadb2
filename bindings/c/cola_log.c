/* A log of calls beside the file of a resident store: see cola_log.h. What was written of a record that was refused is cut off
 * before anything else is appended; where that fails, or a sync, the log is stuck until a checkpoint has begun it anew. */
#define _GNU_SOURCE
#include "cola_log.h"

#include <errno.h>
#include <fcntl.h>
#include <stdlib.h>
#include <string.h>
#include <sys/stat.h>
#include <unistd.h>

#include "cola_disk.h"
#include "cola_resident.h"

static const char suffix[] = "-log";

enum {
    STEP = 1 << 20,    /* the bytes of room that are taken at once */
    RECORD = 43,       /* the bytes of a record beside key and value */
    LONGEST = RECORD + COLA_KEY_MAX + COLA_VALUE_MAX,
    LONGEST_READ = RECORD + 2 * UINT8_MAX, /* of those that the library does not write, and reads */
    VERSION = 8, KEYS = 16 /* places in a header */
};

void cola_log_none(cola_log *log) { log->descriptor = -1; }

/* Room and length. */

/* Takes room for so many bytes more, in steps. */
static bool take_room(cola_log *log, size_t more) {
    size_t until = (log->length + more + STEP - 1) / STEP * STEP;
    if (log->length + more <= log->room) return true;
    if (!cola_disk_take_room(log->descriptor, log->room, until - log->room)) return false;
    log->room = until;
    return true;
}

/* Cuts off what stands behind the last record. */
static bool cut(cola_log *log) {
    log->is_stuck = ftruncate(log->descriptor, (off_t)log->length) != 0;
    if (log->is_stuck) return false;
    log->room = log->length;
    return log->is_behind = true;
}

int32_t cola_log_sync(cola_log *log) {
    if (log->is_stuck) return COLA_UNFINISHED;
    if (!log->is_behind) return COLA_OK;
    log->is_stuck = fdatasync(log->descriptor) != 0;
    log->is_behind = false;
    return log->is_stuck ? COLA_SYSTEM : COLA_OK;
}

/* Waits until all of the log is on the disk, its length too. */
static bool sync_whole(cola_log *log) {
    log->is_stuck = fsync(log->descriptor) != 0;
    log->is_behind = false;
    return !log->is_stuck;
}

/* Takes the first room, so that no call waits for it. (Where there is none, the first call is told.) */
static void take_first_room(cola_log *log) {
    int error = errno;
    take_room(log, LONGEST);
    errno = error;
}

bool cola_log_begin(cola_log *log, const void *page) {
    cola_core_log sum;
    cola_core_log_begin(page, COLA_PAGE, &sum);
    log->is_done = false;
    if (!log->is_stuck && log->length == sizeof sum && memcmp(&sum, &log->first, sizeof sum) == 0) return true;
    log->is_stuck = true;
    if (ftruncate(log->descriptor, 0) != 0 || !cola_disk_write(log->descriptor, &sum, sizeof sum, 0)) return false;
    log->first = log->sum = sum;
    log->length = log->room = sizeof sum;
    take_first_room(log);
    return sync_whole(log);
}

/* Whether a log that begins so follows the file that begins with so many bytes of its first page. */
static bool follows(const cola_core_log *first, const void *page, size_t bytes) {
    cola_core_log sum;
    cola_core_log_begin(page, bytes, &sum);
    return memcmp(&sum, first, sizeof sum) == 0;
}

bool cola_log_follows(const cola_log *log, const void *page) {
    return log->length > sizeof log->first && follows(&log->first, page, COLA_PAGE);
}

/* Appending. */

static bool is_whole_call(const cola_log *log, const cola_call *call) {
    return call->key_len >= 1 && call->key_len <= log->key_max && call->value_len <= log->value_max;
}

/* Writes the record of a call among those that are held, and tells its length. */
static size_t hold(cola_log *log, const cola_call *call, size_t at) {
    uint8_t *into = log->held + at;
    size_t room = sizeof log->held - at;
    const void *value = call->value_len == 0 ? "" : call->value;
    switch (call->kind) {
    case COLA_CALL_PUT: return cola_core_log_put(&log->sum, call->key, call->key_len, value, call->value_len, into, room);
    case COLA_CALL_PUT_IF: return cola_core_log_put_if(&log->sum, call->key, call->key_len, call->seen, value, call->value_len, into, room);
    default: return cola_core_log_delete(&log->sum, call->key, call->key_len, into, room);
    }
}

/* Appends the records that are held, by one write. */
static int32_t append(cola_log *log, size_t length) {
    bool has_room = take_room(log, length);
    if (!has_room || !cola_disk_write(log->descriptor, log->held, length, log->length)) {
        int error = errno;
        log->sum = log->from_sum;
        if (has_room) cut(log);
        errno = error;
        return COLA_SYSTEM;
    }
    log->length += length;
    log->is_behind = true;
    return log->syncs ? cola_log_sync(log) : COLA_OK;
}

static void begin_write(cola_log *log) {
    log->from = log->length;
    log->from_sum = log->sum;
}

int32_t cola_log_call(cola *store, const cola_call *call) {
    cola_log *log = cola_resident_log(store);
    if (!is_whole_call(log, call)) return COLA_OK;
    begin_write(log);
    int32_t answer = append(log, hold(log, call, 0));
    store->is_unfinished = log->is_stuck;
    return answer;
}

static cola_call put_of(const cola_row *row) {
    return (cola_call){COLA_CALL_PUT, row->key, row->value, row->key_len, row->value_len, 0};
}

/* Whether a row puts a key that the store does not have. (True where that is not told.) */
static bool is_new_key(cola *store, const cola_row *row) {
    char value[COLA_VALUE_MAX];
    size_t length;
    return cola_get(store, row->key, row->key_len, value, &length) != COLA_OK;
}

int32_t cola_log_rows(cola *store, const cola_row *rows, size_t count, size_t *logged) {
    cola_log *log = cola_resident_log(store);
    uint64_t has;
    size_t at = 0, length = 0;
    int32_t answer = cola_count(store, &has);
    if (answer != COLA_OK) return answer;
    uint64_t left = has < log->keys ? log->keys - has : 0; /* the keys that may still come */
    bool may_be_full = left < count, is_last = false;
    begin_write(log);
    for (; at < count && !is_last && sizeof log->held - length >= LONGEST; at++) {
        cola_call call = put_of(&rows[at]);
        if (!is_whole_call(log, &call)) break;
        if (may_be_full && is_new_key(store, &rows[at])) {
            is_last = left == 0; /* (it will be refused) */
            if (is_last && at > 0) break;
            left -= !is_last;
        }
        length += hold(log, &call, length);
    }
    *logged = at == 0 ? 1 : at; /* (the first one will be refused) */
    if (at > 0) answer = append(log, length);
    store->is_unfinished = log->is_stuck;
    return answer;
}

void cola_log_keep(cola *store, const cola_row *rows, size_t count) {
    cola_log *log = cola_resident_log(store);
    size_t length = 0;
    int error = errno;
    for (size_t at = 0; at < count; at++) length += RECORD + (size_t)rows[at].key_len + rows[at].value_len;
    if (log->from + length < log->length) {
        log->sum = log->from_sum;
        log->length = log->from + cola_core_log_pass(&log->sum, log->held, length);
        if (cut(log) && log->syncs) cola_log_sync(log);
    }
    store->is_unfinished = log->is_stuck;
    errno = error;
}

/* Opening. */

/* Opens the file of the log, new or from before, as nobody else may write to it than to the store's file. Its name is on the disk
 * then: whoever made it may have died before. */
static bool open_file(cola_log *log, int file) {
    struct stat own, about;
    int how = O_RDWR | O_CLOEXEC | O_NOFOLLOW | O_NONBLOCK;
    log->descriptor = openat(log->folder, log->name, how);
    log->is_new = log->descriptor < 0 && errno == ENOENT;
    if (log->is_new) log->descriptor = openat(log->folder, log->name, how | O_CREAT | O_EXCL, 0600);
    if (log->descriptor < 0 || fstat(log->descriptor, &about) != 0 || fstat(file, &own) != 0) return false;
    if (!S_ISREG(about.st_mode)) return errno = EINVAL, false;
    log->room = (size_t)about.st_size;
    return (!log->is_new || fchmod(log->descriptor, own.st_mode & 0777) == 0) && cola_disk_sync_folder(log->folder);
}

/* Whether the bytes may be those of a log, whatever it follows and whatever a disk has left of it: each record has a zero byte in its
 * stamp, and what was not written is zero. A text of that name is not written to. */
static bool is_log(const uint8_t *bytes, size_t length) {
    return length <= sizeof(cola_core_log) || memchr(bytes, 0, length) != NULL;
}

/* Whether these bytes are those of a log that has a call, whatever it follows; and how it begins. */
static bool has_call(const uint8_t *bytes, size_t length, cola_core_log *first) {
    if (length < sizeof *first) return false;
    memcpy(first, bytes, sizeof *first);
    cola_core_log sum = *first;
    size_t behind = length - sizeof sum;
    return cola_core_log_pass(&sum, bytes + sizeof sum, behind < LONGEST_READ ? behind : LONGEST_READ) > 0;
}

/* Whether a log that has calls, and does not follow the file, follows its header alone, as those of an earlier library did. Another
 * store with as many puts may have that header too: so they are neither made again nor dropped. */
static bool is_earlier(const cola_core_log *first, const void *page) { return follows(first, page, COLA_HEADER); }

/* Makes the calls again of a log that was read, which goes on behind them; one that follows another file is begun anew. */
static int32_t make_again(cola_log *log, cola *store, const void *page, const uint8_t *bytes, size_t length) {
    size_t whole = 0, done = 0;
    cola_core_log first;
    cola own = *store;
    int32_t answer = cola_core_log_replay(&own, page, COLA_PAGE, bytes, length, &log->sum, &whole, &done);
    store->is_open = own.is_open;
    store->at = own.at;
    if (answer != COLA_OK) return answer;
    if (whole == 0 && has_call(bytes, length, &first) && is_earlier(&first, page)) return errno = COLA_EARLIER, COLA_UNFINISHED;
    if (whole == 0 && !is_log(bytes, length)) return errno = EEXIST, COLA_SYSTEM;
    if (whole == 0) return log->is_stuck = true, cola_log_begin(log, page) ? COLA_OK : COLA_SYSTEM;
    memcpy(&log->first, bytes, sizeof log->first);
    log->length = whole;
    if (!cut(log)) return COLA_SYSTEM;
    take_first_room(log);
    return sync_whole(log) ? COLA_OK : COLA_SYSTEM;
}

static int32_t read_and_make_again(cola_log *log, cola *store, const void *page) {
    uint8_t *bytes = malloc(log->room + 1);
    if (bytes == NULL) return COLA_MEMORY;
    ssize_t had = cola_disk_read(log->descriptor, bytes, log->room);
    int32_t answer = had < 0 ? COLA_SYSTEM : make_again(log, store, page, bytes, (size_t)had);
    int error = errno;
    free(bytes);
    errno = error;
    return answer;
}

/* What a header says of the calls that its store takes. */
static void learn(cola_log *log, const uint8_t *header) {
    bool is_first = header[VERSION] == 1;
    log->key_max = is_first ? COLA_KEY_MAX_1 : COLA_KEY_MAX;
    log->value_max = is_first ? COLA_VALUE_MAX_1 : COLA_VALUE_MAX;
    log->keys = 0;
    for (int at = 0; at < 8; at++) log->keys |= (uint64_t)header[KEYS + at] << 8 * at;
}

int32_t cola_log_open(cola_log *log, const cola_journal *journal, cola *store, const void *page, bool syncs) {
    log->folder = journal->folder;
    log->syncs = syncs;
    log->is_done = false;
    cola_journal_beside(journal, suffix, log->name);
    learn(log, page);
    int32_t answer = open_file(log, journal->file) ? read_and_make_again(log, store, page) : COLA_SYSTEM;
    if (answer != COLA_OK) {
        int error = errno;
        if (log->is_new && log->descriptor >= 0) unlinkat(log->folder, log->name, 0);
        cola_log_leave(log);
        errno = error;
    }
    return answer;
}

/* Closing. */

void cola_log_leave(cola_log *log) {
    if (log->descriptor >= 0) cola_disk_close(log->descriptor);
    log->descriptor = -1;
}

/* (One that cannot be removed follows no file any more, or has no call.) */
void cola_log_close(cola_log *log) {
    int error = errno;
    bool is_empty = log->length == sizeof log->first && !log->is_stuck;
    if (log->descriptor >= 0 && (log->is_done || is_empty) && unlinkat(log->folder, log->name, 0) == 0) cola_disk_sync_folder(log->folder);
    cola_log_leave(log);
    errno = error;
}

/* Beside a store that is closed. */

/* Opens the log that stands beside a file: -1 where there is none, and on failure, which *told says. */
static int open_beside(cola_journal *journal, const char *path, int file, char name[NAME_MAX + 1], bool *told) {
    *told = cola_journal_of(journal, path, file) || errno == ENAMETOOLONG;
    if (journal->folder < 0) return -1;
    cola_journal_beside(journal, suffix, name);
    int descriptor = openat(journal->folder, name, O_RDONLY | O_CLOEXEC | O_NOFOLLOW | O_NONBLOCK);
    *told = descriptor >= 0 || errno == ENOENT || errno == ELOOP;
    return descriptor;
}

/* Reads the front of a log: its first state, and the bytes of a record at least. -1 on failure, 0 where it is no file. */
static ssize_t read_front(int descriptor, uint8_t bytes[sizeof(cola_core_log) + LONGEST_READ]) {
    struct stat about;
    if (fstat(descriptor, &about) != 0) return -1;
    return S_ISREG(about.st_mode) ? cola_disk_read(descriptor, bytes, sizeof(cola_core_log) + LONGEST_READ) : 0;
}

/* Whether the log has a call, whichever file it follows; false on failure too, which *told says. */
static bool has_calls(int descriptor, cola_core_log *first, bool *told) {
    uint8_t bytes[sizeof *first + LONGEST_READ];
    ssize_t had = read_front(descriptor, bytes);
    *told = had >= 0;
    return *told && has_call(bytes, (size_t)had, first);
}

/* Whether the log has a call, and follows the file. */
static int32_t has_calls_of(int descriptor, int file, bool *beside) {
    uint8_t page[COLA_PAGE];
    cola_core_log first;
    bool told;
    if (!has_calls(descriptor, &first, &told)) return told ? COLA_OK : COLA_SYSTEM;
    ssize_t had = cola_disk_read(file, page, sizeof page);
    if (had < (ssize_t)sizeof page) return had < 0 ? COLA_SYSTEM : COLA_OK; /* (which no store is) */
    *beside = follows(&first, page, COLA_PAGE);
    return !*beside && is_earlier(&first, page) ? (errno = COLA_EARLIER, COLA_UNFINISHED) : COLA_OK;
}

int32_t cola_log_is_beside(const char *path, int file, bool *beside) {
    cola_journal journal;
    char name[NAME_MAX + 1];
    bool told;
    int descriptor = open_beside(&journal, path, file, name, &told);
    *beside = false;
    int32_t answer = descriptor >= 0 ? has_calls_of(descriptor, file, beside) : told ? COLA_OK : COLA_SYSTEM;
    if (descriptor >= 0) cola_disk_close(descriptor);
    cola_journal_leave(&journal);
    return answer;
}

bool cola_log_drop_stale(const char *path, int file) {
    cola_journal journal;
    cola_core_log first;
    char name[NAME_MAX + 1];
    bool told, dropped = false;
    int descriptor = open_beside(&journal, path, file, name, &told);
    bool has_log = descriptor >= 0 && has_calls(descriptor, &first, &told);
    if (descriptor >= 0) cola_disk_close(descriptor);
    if (!told || journal.folder < 0) return cola_journal_leave(&journal), told;
    bool is_gone = cola_journal_drop(&journal, &dropped) && (!has_log || unlinkat(journal.folder, name, 0) == 0);
    if (is_gone && (dropped || has_log)) is_gone = cola_disk_sync_folder(journal.folder);
    cola_journal_leave(&journal);
    return is_gone;
}
