/* SPDX-License-Identifier: MIT */
/* A store's file for cola.h: made, mapped into memory or read into it, copied, closed. Plain C over POSIX calls, tested and not proved.
 *
 *     cola_file file = COLA_FILE_INIT;
 *     if (cola_file_open(&file, "notes") != COLA_OK) ..
 *     cola_put(&file.store, "k", 1, "v", 1, NULL);
 *     cola_file_checkpoint(&file, "notes.copy");
 *     cola_file_close(&file);
 *
 * What is on the disk: a file in use says so in its header before anything else of it is written, and says that it is closed
 * after all else is. So where the process dies or the machine stops, at whatever moment, the file has the map of the last
 * cola_file_close that came to its end, or is refused from then on with COLA_NOT_CLOSED. Then go back to a copy: the one of
 * the last cola_file_checkpoint is whole, and is a closed store.
 *
 * A resident store (COLA_RESIDENT) is read whole into memory, on huge pages where the system gives them: no call but these
 * waits for the disk or meets a page that is not there. The file is not written but by cola_file_checkpoint(&file, NULL) and the
 * close, which write what changed: first to NAME-journal beside it, which the close removes, then to the file. So where the
 * process dies or the machine stops, the file has the last checkpoint, at whatever moment, once an opening of any kind, or the
 * program cola-recover, has finished a whole journal or passed over another. Journal and file are kept, moved and put back together:
 * a journal has the first page of the checkpoint that it follows, so that one that was left is passed over beside a copy that was put
 * back, or a new store; and each call that makes a file removes a journal and a log that stand beside it.
 *
 * A logged store (COLA_LOGGED) is a resident one that goes back to its last call: each put, put_if and delete whose lengths are right
 * is appended to NAME-log beside the file, by one write, before it is made; cola_put_many by one for each 128 KiB of records, as
 * long as the store has room for the keys that are new. An opening makes these calls again on the last checkpoint, and goes on behind
 * them; a checkpoint begins a new log, and the close, which is one, removes it. So where the process dies, no call is lost that was
 * answered; where the machine stops, none that was answered before the last cola_file_sync that came to its end, or, of a synced
 * store (COLA_SYNCED), none at all; and those that are there are the first ones, without a gap. A call that was answered COLA_SYSTEM
 * as the last one may be there after that too. A log is kept, moved and put back with its file; one that does not follow the file,
 * as behind a session of the program cola, is passed over.
 *
 * Room on the disk is taken for the log 1 MiB at a time. A call whose record finds none is answered COLA_SYSTEM (ENOSPC) and not made,
 * and the store goes on. Where what was written of it cannot be cut off, and where a sync failed, what the disk has of the log is not
 * known: then puts and deletes are answered COLA_UNFINISHED until a checkpoint has succeeded.
 *
 * A store in use has all its bytes on the disk: a full disk is told by cola_file_open, not by a put.
 *
 * A file is open in one process that writes it, or in any number of them that only read it (COLA_READ_ONLY): the system's lock
 * refuses a writer beside readers and a reader beside a writer. A reader writes nothing but what a journal or a log
 * beside the file has, as each opening does, and leaves nothing where it dies.
 *
 * What a call takes: cola_file_create and cola_file_checkpoint write as many bytes as the store has; cola_file_open asks the
 * system for room for as many, and reads and syncs few; cola_file_close syncs what was written since. A file that is read alone
 * is opened with neither. A resident store is read whole as it opens, and takes as much memory; its checkpoints take what changed.
 * A logged one is opened with a call for each that was logged since the last checkpoint, and memory for the log meanwhile.
 * cola_file_check reads the store; cola_file_grow and a load write as many bytes as the new one has.
 *
 * Asked of the caller: no other program makes the file shorter while it is open, which would end the process by a signal;
 * the file lies on a disk of this machine; a process made by fork does not call with a store that its parent has open,
 * but cola_file_close, which leaves the file to the parent. A child has the parent's lock on the file too: the parent gives it
 * up for both as it closes the file; where the parent dies before, no other process opens the file (EWOULDBLOCK) until the
 * child has ended, started another program (exec) or called cola_file_close.
 */
#ifndef COLA_FILE_H
#define COLA_FILE_H

#include "cola.h"

#ifdef __cplusplus
extern "C" {
#endif

/* A file with an open store. &file.store serves the calls of cola.h but cola_open, cola_checkpoint and cola_close. */
typedef struct cola_file {
    cola store;
    void *bytes;    /* the mapped store, NULL while it is closed */
    size_t length;  /* its bytes */
    int descriptor; /* locked against other processes that open it */
    bool is_resident;
    long owner;     /* the process that opened it */
} cola_file;
#define COLA_FILE_INIT {COLA_INIT, NULL, 0, -1, false, 0}

/* The flags of cola_file_open_as. The first stands alone; each of the others has in it those above. */
#define COLA_READ_ONLY 1 /* the store is read alone */
#define COLA_RESIDENT 2  /* the store is kept in memory, and the file has its last checkpoint */
#define COLA_LOGGED 4    /* and each call since is in a log beside the file */
#define COLA_SYNCED 8    /* and on the disk, before it is answered */

/* Makes the file of a new, closed store for so many keys, with blocks of 2^block cells, of version 1 or 2. A file that is
 * there has to be empty (COLA_NOT_EMPTY). The journal and the log of a removed store are removed. Where it is not made, the folder and
 * the file are as before, but for these; a process that dies meanwhile leaves a file that is refused, or the whole one. */
int32_t cola_file_create(const char *path, uint64_t keys, uint8_t block, uint8_t version);

/* Opens the store in the file, for this process alone. The file may be longer than its store. As cola_open answers; COLA_SYSTEM
 * with errno EWOULDBLOCK where another process has the file open, by this call or in the program cola, ENOSPC where the disk
 * has no room for the store; COLA_IN_USE where *file is open. A refusal leaves the bytes of the file. But where the disk fails
 * behind the mark that the store is in use (COLA_SYSTEM), and again as the mark is taken back, the file may be refused with
 * COLA_NOT_CLOSED from then on: its bytes are those of the closed store with that mark. Where another file takes the path while
 * the lock is taken, as a copy that is renamed does, it is that one that is opened. */
int32_t cola_file_open(cola_file *file, const char *path);

/* cola_file_open, where flags is 0. With COLA_RESIDENT the store is kept in memory; of a logged one COLA_SYSTEM with EEXIST is that
 * NAME-log is no log, and COLA_BAD_CELL or COLA_OVERFULL that a damaged store refuses a call that is made again. With COLA_READ_ONLY
 * it is open to be read alone, beside others that read it, and no byte of the file is written, which may be one that this process may
 * not write: a put, a delete and a checkpoint are answered COLA_READ_ONLY_STORE. EWOULDBLOCK is that a process has it open for
 * writing. COLA_OPTIONS: there are no such flags.
 *
 * Each opening finishes a journal beside the file that is whole and follows it, for which one that reads alone has to write
 * too. Any other is removed, but by one that reads alone, and by cola_file_check, which leave it where it is. COLA_UNFINISHED: the
 * journal could not be finished (errno), or its pieces are none of this store (EINVAL): it stays.
 * An opening without a log beside one that follows the file, a check and a growing make its calls again first, as one with COLA_LOGGED and
 * its close do, with their answers, the memory and the right to write. COLA_UNFINISHED with EEXIST: the log stays, since the file
 * of version 1 that its calls give has the first page that it follows already; open it with COLA_LOGGED. With ENOTSUP any opening: the
 * log stays, since an earlier library wrote it, for which the header alone told whether it follows: that one makes its calls again. */
int32_t cola_file_open_as(cola_file *file, const char *path, uint32_t flags);

/* Makes a copy of the store as it is now, in the file named copy, which is replaced as a whole and is on the disk when this
 * answers COLA_OK. It has the mode of the store's file. It is written to a file of a new name first, copy.new- and six letters
 * or digits, which a refused call removes, and a process that dies meanwhile leaves behind: that one is refused, or is the whole
 * copy. A journal and a log of the copy before go with it. COLA_SYSTEM: the store is open as before, and copy is as it was, or is
 * the new one where these could not be removed, or its name not be synced; with errno EINVAL copy is the store's own file.
 * COLA_MEMORY: the store is closed, the file has its map, and cola_file_close is all that is left to call.
 *
 * Of a resident store copy may be NULL: then the file itself is made to have what the store has. COLA_SYSTEM: the disk was full,
 * or failed; the store is open as before, and the file has its last checkpoint, or this one. COLA_UNFINISHED: the disk failed
 * (errno) behind the sync of the journal, in which this checkpoint holds; puts and deletes have that answer too, until a
 * checkpoint or an opening has finished it. Of a logged store COLA_SYSTEM may be that the new log could not be begun: then they have
 * it as well. */
int32_t cola_file_checkpoint(cola_file *file, const char *copy);

/* Waits until each call on a logged store that was answered is on the disk. COLA_SYSTEM: that failed (errno), and puts and deletes are
 * answered COLA_UNFINISHED, as this is, until a checkpoint has succeeded. COLA_OPTIONS: the store has no log. */
int32_t cola_file_sync(cola_file *file);

/* Closes the store and the file; when it answers COLA_OK all is on the disk. Whatever it answers, *file is closed then:
 * after COLA_SYSTEM (a disk that fails) the file may be refused, as after a process that died. A resident store's has its last
 * checkpoint then, or, after COLA_UNFINISHED, the journal has this one: a checkpoint before the close leaves it open where it
 * is refused. A logged store's log is kept then, and with it each call that was answered. */
int32_t cola_file_close(cola_file *file);

/* Tests the closed store in the file, beside others that read it: as cola_check answers of its bytes. What a journal or a log beside
 * the file has is written to it first, as an opening does; else nothing is. */
int32_t cola_file_check(const char *path, cola_verdict *verdict);

/* Tests the store of an open file as it is now: it is closed in memory, tested, and opened again. COLA_MEMORY: as
 * cola_file_checkpoint's. */
int32_t cola_file_check_open(cola_file *file, cola_verdict *verdict);

/* Makes the store of the file one for so many keys, with such blocks: cola_grow into a new file, which takes the place of the old
 * one as a whole, and is on the disk when this answers COLA_OK. The file is locked for this process alone meanwhile. As
 * cola_grow answers, and COLA_SYSTEM: the file is as it was, or is the new one where its name alone could not be synced. The new
 * file is written as a copy of cola_file_checkpoint is, and what a process that dies leaves is as such a one. */
int32_t cola_file_grow(const char *path, uint64_t keys, uint8_t block, uint64_t *rows);

/* A new file that is filled with rows: &load.load serves cola_load_row and cola_load_many. */
typedef struct cola_file_load {
    cola_load load;
    void *bytes;    /* the mapped bytes, NULL while nothing is filled */
    size_t length;
    char *name;     /* of the file while it is filled: the path, .new- and six letters or digits */
    int descriptor;
    long owner;     /* the process that began */
} cola_file_load;
#define COLA_FILE_LOAD_INIT {COLA_LOAD_INIT, NULL, 0, NULL, -1, 0}

/* Begins the file of a new store, as cola_file_create makes it and with its answers, to be filled with rows by rising keys. It has
 * another name until it is whole: a process that dies leaves nothing in the path's place. COLA_IN_USE where *load is open. */
int32_t cola_file_load_begin(cola_file_load *load, const char *path, uint64_t keys, uint8_t block, uint8_t version);

/* Ends it: the file is on the disk, and has its name, when this answers COLA_OK. Else nothing is there but what was: COLA_NOT_EMPTY
 * where a file came to the path meanwhile. *load is closed then, whatever the answer is. */
int32_t cola_file_load_end(cola_file_load *load, uint64_t *rows);

/* Gives it up: nothing of it is left. */
int32_t cola_file_load_drop(cola_file_load *load);

/* Closes the file of a resident store without a checkpoint: what changed since the last one is gone, but not from a logged store, whose
 * log is kept: what was answered stays, and the next opening makes it again. Any other store is closed. */
int32_t cola_file_discard(cola_file *file);

#ifdef __cplusplus
}
#endif
#endif
