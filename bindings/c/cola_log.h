/* A log of calls beside the file of a resident store, for the files of this folder alone: what a record has, and which calls of a
 * log are made again, the proved calls say (crates/cola_log, crates/cola_replay). The log of the file NAME is NAME-log in the same
 * folder, of the file's mode. Who calls has the file locked.
 *
 * A log begins with a sum of the first page, 4,096 bytes, of the closed file that it follows, as a journal has that page. (An earlier
 * library took the header alone, which another store with as many puts may have too. What has calls, and follows the file's header
 * so, is refused, COLA_UNFINISHED with COLA_EARLIER, and stays as it is.) */
#ifndef COLA_LOG_H
#define COLA_LOG_H

#include <errno.h>
#include <limits.h>
#include <stdbool.h>
#include <stddef.h>
#include <stdint.h>

#include "cola.h"
#include "cola_core.h"
#include "cola_journal.h"

enum {
    COLA_LOG_HELD = 1 << 17, /* the bytes of records that one write has at most */
    COLA_EARLIER = ENOTSUP   /* the errno that says that an earlier library wrote the log */
};

/* The log of an open store. */
typedef struct cola_log {
    int folder;       /* where it lies, the journal's */
    int descriptor;   /* -1 where there is none */
    bool syncs;       /* each call waits until it is on the disk */
    bool is_new;      /* this opening made it */
    bool is_behind;   /* the disk may have less of it than the file */
    bool is_stuck;    /* what the disk has of it is not known: no call is made */
    bool is_done;     /* the store's file has what its calls gave */
    size_t length;    /* up to the end of its last record */
    size_t room;      /* bytes that the disk has taken for it */
    size_t from;      /* where the last write began */
    cola_core_log first, sum, from_sum; /* the states at the log's beginning, at its end, and where that write began */
    uint64_t keys;    /* that the store is for */
    size_t key_max, value_max;
    char name[NAME_MAX + 1];
    uint8_t held[COLA_LOG_HELD]; /* the records of that write */
} cola_log;

/* A call that changes a store. */
typedef struct cola_call {
    enum { COLA_CALL_PUT, COLA_CALL_PUT_IF, COLA_CALL_DELETE } kind;
    const void *key, *value;
    size_t key_len, value_len;
    uint64_t seen;
} cola_call;

/* No log. */
void cola_log_none(cola_log *log);

/* Opens the log of the store that was just opened from the file of this journal, whose first page was this one as it lay closed, or
 * makes a new one. The calls of a log that follows this page are made again on the store, and its end is cut off behind its
 * last whole record. COLA_SYSTEM with EEXIST: the file of that name is no log. COLA_UNFINISHED with COLA_EARLIER: see above. */
int32_t cola_log_open(cola_log *log, const cola_journal *journal, cola *store, const void *page, bool syncs);

/* Begins the log anew, behind a checkpoint with this first page, and waits until that is on the disk. False on failure: then it is
 * stuck. */
bool cola_log_begin(cola_log *log, const void *page);

/* Whether the log has calls, and follows this page. */
bool cola_log_follows(const cola_log *log, const void *page);

/* Waits until the log is on the disk: COLA_OK, COLA_SYSTEM, which makes it stuck, or COLA_UNFINISHED where it was that. */
int32_t cola_log_sync(cola_log *log);

/* Closes the log, and removes it where it is done, or has no call. errno stays. */
void cola_log_close(cola_log *log);

/* Closes what is open of it, and leaves all else to the process that opened it. */
void cola_log_leave(cola_log *log);

/* Whether a log with calls stands beside the closed store's file that is open here and has this path, and follows it. COLA_OK,
 * COLA_SYSTEM, or COLA_UNFINISHED with COLA_EARLIER. */
int32_t cola_log_is_beside(const char *path, int file, bool *beside);

/* Removes the journal, and a log with calls, that stand beside the locked file of a new store: they are those of another one, which is
 * gone. False on failure. */
bool cola_log_drop_stale(const char *path, int file);

/* For the calls of cola.h on a store with a log, before they are made. */

/* Appends a call, unless its lengths are none, so that it will be refused. COLA_OK, COLA_SYSTEM, COLA_UNFINISHED: it is not to be made. */
int32_t cola_log_call(cola *store, const cola_call *call);

/* Appends puts of the first of some rows by one write, and says how many: one at least, and none behind as many new keys as the store
 * has room for, so that none but the last can be refused. Where not all may be new, each key is looked up. */
int32_t cola_log_rows(cola *store, const cola_row *rows, size_t count, size_t *logged);

/* Takes back what the last write has of the rows behind the first so many, which are not made. */
void cola_log_keep(cola *store, const cola_row *rows, size_t count);

#endif
