/* A checkpoint by way of a journal: see cola_journal.h. Which step comes next, and what stands in a journal behind its front, the
 * proved calls say; here each step is carried out, and it is told whether all of it went well. */
#define _GNU_SOURCE
#include "cola_journal.h"

#include <errno.h>
#include <fcntl.h>
#include <stdio.h>
#include <stdlib.h>
#include <string.h>
#include <sys/stat.h>
#include <unistd.h>

#include "cola.h"
#include "cola_core.h"
#include "cola_disk.h"

static const char suffix[] = "-journal";

/* In front of what the proved calls write and read stands the first page of the file as the journal was begun, with a sum. */
enum { FRONT = COLA_PAGE + sizeof(cola_core_log), STATE = 14 };

size_t cola_pages_in(size_t length) { return length / COLA_PAGE + (length % COLA_PAGE != 0); }

/* Bytes of a file from a place on. */
typedef struct piece {
    size_t place, length;
    const char *bytes;
} piece;

/* The pieces of a checkpoint: the marked pages of a store, or, where there is none, those of a journal that was read. */
typedef struct pieces {
    const cola_pages *store;
    const char *journal;
    size_t length; /* bytes of these pieces, without the journal's head and sum */
} pieces;

/* The first marked page from one on: false where there is none. */
static bool next_page(const cola_pages *store, size_t *page, piece *it) {
    size_t pages = cola_pages_in(store->length);
    while (*page < pages && store->marks[*page] == 0) ++*page;
    if (*page == pages) return false;
    it->place = *page * COLA_PAGE;
    it->length = store->length - it->place < COLA_PAGE ? store->length - it->place : COLA_PAGE;
    it->bytes = (const char *)store->bytes + it->place;
    ++*page;
    return true;
}

/* The piece of a journal from a place among its pieces on. */
static bool next_read(const pieces *of, size_t *at, piece *it) {
    uint64_t place, count;
    if (!cola_core_journal_next(of->journal + *at, of->length - *at, &place, &count)) return false;
    it->place = (size_t)place;
    it->length = (size_t)count;
    it->bytes = of->journal + *at + COLA_JOURNAL_HEAD;
    *at += COLA_JOURNAL_HEAD + (size_t)count;
    return true;
}

/* The next piece: *at is 0 before the first. */
static bool next_piece(const pieces *of, size_t *at, piece *it) {
    return of->store != NULL ? next_page(of->store, at, it) : next_read(of, at, it);
}

/* Writing the journal: many small pieces in one call. */

typedef struct writer {
    int descriptor;
    size_t place, had;
    bool is_well;
    char held[1 << 16];
} writer;

static void flush(writer *to) {
    if (to->is_well) to->is_well = cola_disk_write(to->descriptor, to->held, to->had, to->place);
    to->place += to->had;
    to->had = 0;
}

static void add(writer *to, const void *bytes, size_t length) {
    const char *from = bytes;
    while (length > 0) {
        size_t part = sizeof to->held - to->had < length ? sizeof to->held - to->had : length;
        memcpy(to->held + to->had, from, part);
        to->had += part, from += part, length -= part;
        if (to->had == sizeof to->held) flush(to);
    }
}

/* Opens the journal, new or from before, as nobody else may write to it than to the file. */
static bool open_journal(cola_journal *journal) {
    struct stat about;
    if (journal->descriptor >= 0) return true;
    if (fstat(journal->file, &about) != 0) return false;
    int descriptor = openat(journal->folder, journal->name, O_RDWR | O_CREAT | O_CLOEXEC | O_NOFOLLOW | O_NONBLOCK, 0600);
    if (descriptor < 0) return false;
    journal->descriptor = descriptor;
    journal->is_named = false;
    return fchmod(descriptor, about.st_mode & 0777) == 0;
}

/* Reads the first page of the file: false on failure, and where it is shorter, which no store is. */
static bool read_page(const cola_journal *journal, char page[COLA_PAGE]) {
    ssize_t had = cola_disk_read(journal->file, page, COLA_PAGE);
    if (had >= 0 && had < COLA_PAGE) errno = EIO;
    return had == COLA_PAGE;
}

/* The sum of a page, by which a journal is known whose front has reached the disk. */
static cola_core_log sum_of(const char page[COLA_PAGE]) {
    cola_core_log sum;
    cola_core_log_begin(page, COLA_PAGE, &sum);
    return sum;
}

/* Empties the journal, and writes the new one. */
static bool write_journal(cola_journal *journal, const pieces *of) {
    char page[COLA_PAGE], head[COLA_JOURNAL_HEAD], sum[COLA_JOURNAL_SUM];
    const cola_pages *store = of->store;
    piece it;
    if (store == NULL || !read_page(journal, page) || !open_journal(journal) || ftruncate(journal->descriptor, 0) != 0) return false;
    writer *to = malloc(sizeof *to);
    if (to == NULL) return false;
    to->descriptor = journal->descriptor, to->place = 0, to->had = 0, to->is_well = true;
    cola_core_journal_frame(store->bytes, store->length, store->marks, cola_pages_in(store->length), head, sum);
    cola_core_log sum_of_page = sum_of(page);
    add(to, page, sizeof page);
    add(to, &sum_of_page, sizeof sum_of_page);
    add(to, head, sizeof head);
    for (size_t at = 0; to->is_well && next_piece(of, &at, &it);) {
        cola_core_journal_piece(it.place, it.length, head);
        add(to, head, sizeof head);
        add(to, it.bytes, it.length);
    }
    add(to, sum, sizeof sum);
    flush(to);
    bool is_well = to->is_well;
    free(to);
    return is_well;
}

/* Waits until the journal is on the disk, and its name. */
static bool sync_journal(cola_journal *journal) {
    if (journal->descriptor < 0) return true;
    if (fsync(journal->descriptor) != 0) return false;
    if (!journal->is_named) journal->is_named = cola_disk_sync_folder(journal->folder);
    return journal->is_named;
}

/* Writes what lies in these bytes of the file, of each piece; pieces that lie side by side in one call. */
static bool write_pieces(const cola_journal *journal, const pieces *of, size_t from, size_t until) {
    piece run = {0, 0, ""}, it;
    bool is_well = true, is_more = true;
    for (size_t at = 0; is_well && is_more;) {
        is_more = next_piece(of, &at, &it);
        if (is_more) {
            size_t skipped = it.place < from ? from - it.place : 0;
            if (it.place >= until || skipped >= it.length) continue;
            it.place += skipped, it.bytes += skipped, it.length -= skipped;
            if (it.length > until - it.place) it.length = until - it.place;
            if (it.place == run.place + run.length && it.bytes == run.bytes + run.length) {
                run.length += it.length;
                continue;
            }
        }
        is_well = cola_disk_write(journal->file, run.bytes, run.length, run.place);
        run = it;
    }
    return is_well;
}

static bool carry_out(cola_journal *journal, const pieces *of, uint8_t step) {
    static const char in_use[] = {1};
    switch (step) {
    case COLA_STEP_WRITE_JOURNAL: return write_journal(journal, of);
    case COLA_STEP_SYNC_JOURNAL: return sync_journal(journal);
    case COLA_STEP_MARK_IN_USE: return cola_disk_write(journal->file, in_use, sizeof in_use, STATE);
    case COLA_STEP_WRITE_PAGES: return write_pieces(journal, of, COLA_HEADER, SIZE_MAX);
    case COLA_STEP_WRITE_HEADER: return write_pieces(journal, of, 0, COLA_HEADER);
    case COLA_STEP_SYNC_FILE: return fsync(journal->file) == 0;
    default: return journal->descriptor < 0 || ftruncate(journal->descriptor, 0) == 0;
    }
}

/* Carries out the steps that are asked for, up to the last. *holds: the journal of a new checkpoint was synced. errno is that of
 * the first step that was refused. */
static void go_on(cola_journal *journal, const pieces *of, bool *holds) {
    int error = 0;
    for (uint8_t step; (step = cola_core_stage_next(journal->stage)) != COLA_STEP_NONE;) {
        bool is_well = carry_out(journal, of, step);
        if (!is_well && error == 0) error = errno;
        if (is_well && journal->stage == COLA_STAGE_JOURNAL_SYNC) *holds = true;
        journal->stage = cola_core_stage_done(journal->stage, is_well);
    }
    if (error != 0) errno = error;
}

/* Reading a journal. */

/* A journal of the file has at most a piece for each of its pages. */
static size_t most_of(size_t length) {
    return FRONT + COLA_JOURNAL_HEAD + cola_pages_in(length) * (COLA_JOURNAL_HEAD + COLA_PAGE) + COLA_JOURNAL_SUM;
}

/* Whether a whole journal follows the checkpoint that the file has, or the file is half way to the journal's own: each byte of the
 * file's first page, but for the mark of use, is that of the front, or that which the pieces make of it. (Each write may be torn.)
 * Where the front has not reached the disk, the journal's sync did not end, so that nothing of the file was written yet, and the
 * journal may be dropped. */
static bool follows(const pieces *of, const char front[FRONT], const char page[COLA_PAGE]) {
    char after[COLA_PAGE];
    piece it;
    cola_core_log sum = sum_of(front);
    if (memcmp(&sum, front + COLA_PAGE, sizeof sum) != 0) return false;
    memcpy(after, front, sizeof after);
    for (size_t at = 0; next_read(of, &at, &it) && it.place < sizeof after;)
        memcpy(after + it.place, it.bytes, it.length < sizeof after - it.place ? it.length : sizeof after - it.place);
    for (size_t byte = 0; byte < sizeof after; byte++)
        if (byte != STATE && page[byte] != front[byte] && page[byte] != after[byte]) return false;
    return true;
}

/* Reads the journal: its pieces, whose bytes the caller frees, or none where it is not whole, or follows another checkpoint. */
static int32_t read_journal(const cola_journal *journal, pieces *of) {
    char page[COLA_PAGE];
    struct stat own, about;
    *of = (pieces){NULL, NULL, 0};
    if (fstat(journal->file, &own) != 0 || fstat(journal->descriptor, &about) != 0) return COLA_SYSTEM;
    if (!S_ISREG(about.st_mode)) return errno = EINVAL, COLA_SYSTEM;
    size_t length = (size_t)about.st_size, least = FRONT + COLA_JOURNAL_HEAD + COLA_JOURNAL_SUM;
    if (own.st_size < COLA_PAGE || length < least || length > most_of((size_t)own.st_size)) return COLA_OK;
    if (!read_page(journal, page)) return COLA_SYSTEM;
    char *bytes = malloc(length);
    if (bytes == NULL) return COLA_MEMORY;
    ssize_t had = cola_disk_read(journal->descriptor, bytes, length);
    pieces read = {NULL, bytes + FRONT + COLA_JOURNAL_HEAD, length - least};
    if (had == (ssize_t)length && cola_core_journal_is_whole(bytes + FRONT, length - FRONT) && follows(&read, bytes, page)) {
        *of = read;
        return COLA_OK;
    }
    free(bytes);
    return had < 0 ? COLA_SYSTEM : COLA_OK;
}

static void free_pieces(pieces *of) {
    int error = errno;
    if (of->journal != NULL) free((char *)of->journal - COLA_JOURNAL_HEAD - FRONT);
    *of = (pieces){NULL, NULL, 0};
    errno = error;
}

/* Whether two headers are of one store: what never changes of them is the same. */
static bool is_same_store(const char *header, const char *other) {
    enum { BEHIND = STATE + 1, KEYS_END = 24 };
    return memcmp(header, other, STATE) == 0 && memcmp(header + BEHIND, other + BEHIND, KEYS_END - BEHIND) == 0;
}

/* Whether the pieces are those of a closed store in the file, and lie in it, each behind the one before. False on failure too: then
 * *told is false. */
static bool is_of_file(const cola_journal *journal, const pieces *of, bool *told) {
    char page[COLA_PAGE];
    struct stat own;
    uint64_t stored;
    piece it;
    size_t at = 0, from = 0;
    *told = fstat(journal->file, &own) == 0 && read_page(journal, page);
    if (!*told || !next_piece(of, &at, &it)) return false;
    if (!is_same_store(page, it.bytes) || cola_stored_size(it.bytes, it.length, (uint64_t)own.st_size, &stored) != COLA_OK) return false;
    do {
        if (it.place < from || it.place > stored || it.length > stored - it.place) return false;
        from = it.place + it.length;
    } while (next_piece(of, &at, &it));
    return true;
}

/* What is said of a checkpoint behind its last step. */
static int32_t answer_of(const cola_journal *journal, bool holds) {
    if (journal->stage == COLA_STAGE_REST) return holds ? COLA_OK : COLA_SYSTEM;
    return journal->stage == COLA_STAGE_STUCK ? COLA_UNFINISHED : COLA_SYSTEM;
}

/* Goes on with a checkpoint of which a step was refused: what is written to the file stands in the journal. */
static int32_t resume(cola_journal *journal) {
    pieces of = {NULL, NULL, 0};
    bool holds = true;
    uint8_t stage = cola_core_stage_resume(journal->stage);
    if (stage == COLA_STAGE_FOUND) {
        int32_t answer = read_journal(journal, &of);
        if (answer != COLA_OK) return answer == COLA_SYSTEM ? COLA_UNFINISHED : answer;
        if (of.journal == NULL) return errno = EIO, COLA_UNFINISHED;
    }
    journal->stage = stage;
    go_on(journal, &of, &holds);
    free_pieces(&of);
    return answer_of(journal, true);
}

int32_t cola_journal_checkpoint(cola_journal *journal, const cola_pages *pages_of, bool *holds) {
    pieces of = {pages_of, NULL, 0};
    *holds = false;
    if (journal->stage != COLA_STAGE_REST) {
        int32_t answer = resume(journal);
        if (answer != COLA_OK) return answer;
    }
    journal->stage = cola_core_stage_begin(journal->stage);
    go_on(journal, &of, holds);
    return answer_of(journal, *holds);
}

bool cola_journal_is_stuck(const cola_journal *journal) { return journal->stage == COLA_STAGE_STUCK; }

/* Opens the folder of a file, and gives the file its name there. */
static bool open_folder(cola_journal *journal, const char *path) {
    char *whole = realpath(path, NULL);
    if (whole == NULL) return false;
    char *name = strrchr(whole, '/') + 1;
    int length = snprintf(journal->name, sizeof journal->name, "%s%s", name, suffix);
    bool fits = length < (int)sizeof journal->name;
    name[0] = '\0'; /* (what is left is the folder) */
    if (fits) journal->folder = open(whole, O_PATH | O_DIRECTORY | O_CLOEXEC);
    else errno = ENAMETOOLONG;
    int error = errno;
    free(whole);
    errno = error;
    return fits && journal->folder >= 0;
}

void cola_journal_beside(const cola_journal *journal, const char *other, char name[NAME_MAX + 1]) {
    snprintf(name, NAME_MAX + 1, "%.*s%s", (int)(strlen(journal->name) - strlen(suffix)), journal->name, other);
}

/* Whether the folder has the open file by the name to which the journal's belongs. */
static bool is_in_folder(const cola_journal *journal) {
    char name[NAME_MAX + 1];
    struct stat own, named;
    cola_journal_beside(journal, "", name);
    if (fstat(journal->file, &own) != 0 || fstatat(journal->folder, name, &named, AT_SYMLINK_NOFOLLOW) != 0) return false;
    bool same = own.st_dev == named.st_dev && own.st_ino == named.st_ino;
    if (!same) errno = COLA_REPLACED;
    return same;
}

bool cola_journal_of(cola_journal *journal, const char *path, int file) {
    bool told;
    *journal = (cola_journal){file, -1, -1, false, COLA_STAGE_REST, ""};
    if (!open_folder(journal, path)) return false;
    if (is_in_folder(journal)) return true;
    if (errno == COLA_REPLACED && cola_disk_is_named(file, path, &told)) errno = ENOENT; /* (a path of /proc, of a file with no name) */
    cola_journal_leave(journal);
    return false;
}

/* (One that cannot be removed is empty, and no harm.) */
void cola_journal_remove(cola_journal *journal) {
    int error = errno;
    if (journal->descriptor >= 0 && journal->stage == COLA_STAGE_REST && unlinkat(journal->folder, journal->name, 0) == 0)
        cola_disk_sync_folder(journal->folder);
    errno = error;
    cola_journal_leave(journal);
}

bool cola_journal_drop(const cola_journal *journal, bool *dropped) {
    struct stat about;
    bool is_there = fstatat(journal->folder, journal->name, &about, AT_SYMLINK_NOFOLLOW) == 0;
    *dropped = is_there && S_ISREG(about.st_mode) && unlinkat(journal->folder, journal->name, 0) == 0;
    return is_there ? *dropped || !S_ISREG(about.st_mode) : errno == ENOENT;
}

void cola_journal_leave(cola_journal *journal) {
    if (journal->descriptor >= 0) cola_disk_close(journal->descriptor);
    if (journal->folder >= 0) cola_disk_close(journal->folder);
    journal->descriptor = journal->folder = -1;
}

/* Finishes a journal that was opened, or drops it. */
static int32_t finish(cola_journal *journal, bool *found) {
    pieces of;
    bool told, holds = true;
    int32_t answer = read_journal(journal, &of);
    *found = of.journal != NULL;
    if (answer != COLA_OK) return answer;
    if (*found && !is_of_file(journal, &of, &told)) {
        if (told) errno = EINVAL;
        free_pieces(&of);
        return told ? COLA_UNFINISHED : COLA_SYSTEM;
    }
    journal->stage = cola_core_stage_opened(*found);
    go_on(journal, &of, &holds);
    free_pieces(&of);
    return answer_of(journal, true);
}

/* Opens the journal that stands beside the file: false where there is none, and on failure, which *answer tells. */
static bool open_beside(cola_journal *journal, const char *path, int file, int how, int32_t *answer) {
    *answer = COLA_SYSTEM;
    if (!cola_journal_of(journal, path, file)) {
        if (errno == ENAMETOOLONG || errno == ENOENT) *answer = COLA_OK; /* (no file has such a name, or the store's has none by now) */
        return false;
    }
    journal->descriptor = openat(journal->folder, journal->name, how | O_CLOEXEC | O_NOFOLLOW | O_NONBLOCK);
    if (journal->descriptor >= 0) return true;
    if (errno == ENOENT) *answer = COLA_OK;
    cola_journal_leave(journal);
    return false;
}

int32_t cola_journal_settle(const char *path, int file, bool *found) {
    cola_journal journal;
    int32_t answer;
    bool whole = false;
    if (open_beside(&journal, path, file, O_RDWR, &answer)) {
        answer = finish(&journal, &whole);
        answer == COLA_OK ? cola_journal_remove(&journal) : cola_journal_leave(&journal);
    }
    if (found != NULL) *found = whole;
    return answer;
}

bool cola_journal_is_beside(const char *path, int file, bool *beside) {
    cola_journal journal;
    int32_t answer;
    pieces of;
    *beside = false;
    if (!open_beside(&journal, path, file, O_RDONLY, &answer)) return answer == COLA_OK;
    answer = read_journal(&journal, &of);
    *beside = of.journal != NULL;
    free_pieces(&of);
    cola_journal_leave(&journal);
    return answer == COLA_OK;
}

int32_t cola_journal_recover(const char *path, bool *found) {
    int32_t answer;
    do {
        int descriptor = cola_disk_open_locked(path, false);
        *found = false;
        if (descriptor < 0) return COLA_SYSTEM;
        answer = cola_journal_settle(path, descriptor, found);
        cola_disk_let_go(descriptor);
    } while (cola_disk_is_replaced(answer == COLA_SYSTEM));
    return answer;
}
