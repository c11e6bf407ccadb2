/* A checkpoint by way of a journal, for the files of this folder alone: the steps that the proved protocol asks for
 * (crates/cola_journal), carried out. The journal of the file NAME is NAME-journal in the same folder, of the file's mode. Who
 * calls has the file locked.
 *
 * The first 4,096 bytes of a journal are the file's first page as the journal was begun, that of the last checkpoint: the header, and the
 * cells of the latest puts. (A header alone would not do: that of another store with as many puts may be the same.) Then come 32
 * bytes, the sum with which a log of that file begins, and what the proved calls write (crates/cola_journal_bytes). A
 * journal beside a file with another first page, as a copy that was put back or a new store, is dropped as one that is not whole is. */
#ifndef COLA_JOURNAL_H
#define COLA_JOURNAL_H

#include <limits.h>
#include <stdbool.h>
#include <stddef.h>
#include <stdint.h>

/* The journal of a file. */
typedef struct cola_journal {
    int file;       /* the store's, which is the caller's */
    int folder;     /* where both lie */
    int descriptor; /* the journal's, -1 where there is none */
    bool is_named;  /* its name is on the disk */
    uint8_t stage;  /* how far the checkpoint is, a number of crates/cola_c */
    char name[NAME_MAX + 1];
} cola_journal;

/* The bytes of a store in memory, with a mark for each page that is to be written. */
typedef struct cola_pages {
    const void *bytes;
    size_t length;
    const uint8_t *marks;
} cola_pages;

/* How many pages so many bytes have. */
size_t cola_pages_in(size_t length);

/* The journal of the file that is open here and has this path: none is under way. False on failure, with COLA_REPLACED where the path
 * has another file by now. */
bool cola_journal_of(cola_journal *journal, const char *path, int file);

/* The name of another file that belongs to the journal's, in the same folder: the file's, and a suffix that is no longer than
 * the journal's. */
void cola_journal_beside(const cola_journal *journal, const char *suffix, char name[NAME_MAX + 1]);

/* Makes the file have the marked pages: COLA_OK, and the journal is empty. COLA_SYSTEM: a call of the system failed (errno), and
 * the file has what it had, or, where *holds says so, the pages. COLA_UNFINISHED: it failed behind the sync of the journal, which
 * holds the pages from then on: no other checkpoint is made before it is finished, as the next call tries. COLA_MEMORY, where
 * there was none to read such a journal. */
int32_t cola_journal_checkpoint(cola_journal *journal, const cola_pages *pages, bool *holds);

/* Whether a checkpoint holds in the journal that the file does not have. */
bool cola_journal_is_stuck(const cola_journal *journal);

/* Removes the journal where no checkpoint is under way, and closes what is open of it. errno stays. */
void cola_journal_remove(cola_journal *journal);

/* Removes the file of a journal's name that stands beside, whatever it has, which *dropped says. False on failure. */
bool cola_journal_drop(const cola_journal *journal, bool *dropped);

/* Closes what is open of it, and leaves it where it is. errno stays. */
void cola_journal_leave(cola_journal *journal);

/* Finishes the journal that stands beside the file, where it is whole and follows the file, drops any other, and removes it. *found,
 * where it is not NULL, says whether such a one was. COLA_SYSTEM, COLA_MEMORY: it is there as before. COLA_UNFINISHED: a call of the
 * system failed (errno), or its pieces are none of this store (EINVAL): it is there, and nothing of the file was written. */
int32_t cola_journal_settle(const char *path, int file, bool *found);

/* Whether a whole journal that follows the file stands beside it; both are only read. False on failure. */
bool cola_journal_is_beside(const char *path, int file, bool *beside);

/* Locks the file, and does what an opening does to its journal. */
int32_t cola_journal_recover(const char *path, bool *found);

#endif
