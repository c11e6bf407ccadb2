/* SPDX-License-Identifier: MIT */
/* An ordered key-value store in one file, for C.
 *
 * The store lies in bytes that the caller brings: a file mapped into memory (bindings/c/cola_file.h does that), or any
 * memory. cola_create makes a store in them; cola_open opens it; from then on the bytes are the library's, until cola_close
 * gives them back. No call takes memory but cola_open and cola_checkpoint, cola_check, cola_grow and cola_load_begin.
 *
 *     cola store = COLA_INIT;
 *     if (cola_open(&store, bytes, length) != COLA_OK) ..
 *     cola_put(&store, "k", 1, "v", 1, NULL);
 *     cola_close(&store);
 *
 * Keys and values are bytes of any kind, of these lengths at most, by the version of the file. A key has at least one byte;
 * a value may be empty. Keys are ordered byte by byte, a key before those that it begins.
 *
 * Where a call has nothing to say of a place, as the length of a value that is not there, or is refused, the place stays as it
 * was; only the rows of a refused cola_next or cola_prev may be others, and *done is always told.
 *
 * What a call takes is bounded, by the levels of the store, of which there is one more for twice the keys, or by the keys:
 *   - the same for every store: cola_size, cola_stored_size, cola_count, cola_info, cola_level, cola_seek, cola_seek_prefix, cola_seek_last;
 *   - by the levels: cola_put, cola_put_if and cola_delete make at most 40 cell accesses for each, cola_get and cola_stamp 8;
 *     cola_put_many and cola_get_many take as much as so many calls of cola_put and cola_get;
 *     cola_load_row adds at most one cell for each, and of many rows eight for seven; what cola_load_end writes is not bounded here;
 *     cola_open reads, cola_close writes at most a block for each and three more; cola_checkpoint does both;
 *   - by the keys: cola_create looks at each byte; cola_next and cola_prev pass over deleted keys that still have a cell, and
 *     before one row there may be nearly as many of them as the store has cells; where there are few, a row takes some cell
 *     accesses;
 *   - by the bytes of the store: cola_check, cola_grow and cola_load_begin; the calls of cola_file.h but an opening, which see.
 * A cell access is one cell read, or one added to a run, wherever it lies. Looks at the store's bytes are not counted beside it:
 * cells are read where they lie, and a merge counts each cell that it takes once, however often it has looked at it before.
 *
 * One thread at a time may call with one store; stores in other bytes are independent. There is no global state, no output.
 *
 * Asked of the caller, since no check can tell: the bytes given to cola_open stay mapped, writable, aligned as malloc aligns
 * and untouched by others until cola_close has answered COLA_OK, and those given to cola_load_begin until cola_load_end has; each
 * pointer that is not NULL points to as many bytes as its length says, which do not lie in the store's bytes; a cola is started
 * with COLA_INIT, a cola_load with COLA_LOAD_INIT, and neither is copied while it is open.
 */
#ifndef COLA_H
#define COLA_H

#include <stdbool.h>
#include <stddef.h>
#include <stdint.h>

#ifdef __cplusplus
extern "C" {
#endif

#define COLA_KEY_MAX_1 24   /* bytes of a key, in a file of version 1 */
#define COLA_VALUE_MAX_1 32 /* bytes of a value */
#define COLA_KEY_MAX 40     /* the same in a file of version 2 */
#define COLA_VALUE_MAX 72
#define COLA_KEYS_MAX 16777216 /* keys that a store may be for */

/* What a call answers. COLA_OK is 0; cola_strerror says each in words. */
enum {
    COLA_OK = 0,
    COLA_NONE = 1,          /* the key is absent; no row is left */
    COLA_OTHER = 2,         /* cola_put_if: the key has another stamp; nothing changed */
    COLA_FULL = 3,          /* the key is new, and the store has as many keys as it is for */
    COLA_WORN = 4,          /* no stamp is left to give: load the pairs into a new store */
    COLA_CLOSED = 5,        /* the handle is not open */
    COLA_IN_USE = 6,        /* the handle is open already */
    COLA_LENGTH = 7,        /* a key is empty, or a key or a value is longer than the store's version allows */
    COLA_NULL = 8,          /* a pointer is NULL where there has to be one */
    COLA_OPTIONS = 9,       /* keys, block or version is none that a store can have; cola_file: a flag is none, there is no log */
    COLA_NOT_EMPTY = 10,    /* cola_create: the bytes are not all zero */
    COLA_NOT_STORE = 11,    /* the bytes have no store's header */
    COLA_SMALL = 12,        /* there are fewer bytes than the store has */
    COLA_NOT_CLOSED = 13,   /* the store was not closed: a process died, or has it open */
    COLA_BAD_CELL = 14,     /* a cell is damaged */
    COLA_OVERFULL = 15,     /* the levels are damaged: a run has no room */
    COLA_MEMORY = 16,       /* there was no memory; no key and no value changed */
    COLA_SYSTEM = 17,       /* cola_file: a call of the system failed; errno says which way */
    COLA_READ_ONLY_STORE = 18, /* the store is open to be read alone (cola_file_open_as); nothing changed */
    COLA_ORDER = 19,        /* cola_load_row: the key is not above that of the row before; nothing changed */
    COLA_FEWER = 20,        /* cola_grow: the new store is for fewer keys than the old one has; nothing is written */
    COLA_BROKEN = 21,       /* cola_check: the store stands for no map; the verdict says why */
    COLA_UNFINISHED = 22    /* cola_file: a checkpoint holds in the journal beside the file, and not in the file, or what the disk has of
                             * the log is not known; nothing changed */
};

/* A handle. What is in it is the library's. */
typedef struct cola {
    bool is_open, is_read_only, is_unfinished, is_logged;
    void *at;
} cola;
#define COLA_INIT {false, false, false, false, NULL}

/* A key with its value. */
typedef struct cola_row {
    uint8_t key_len, value_len;
    uint8_t key[COLA_KEY_MAX], value[COLA_VALUE_MAX];
} cola_row;

/* A place in the order of the keys, which the caller holds: plain bytes, free to be copied or dropped. It stays good over
 * puts and deletes, and over a close and an open: the rows that it gives next are those behind the last one given. */
typedef struct cola_cursor {
    uint8_t from_len, until_len;
    bool behind, bounded;   /* behind: it is behind from, and else before it; bounded: there is an upper end */
    uint8_t from[COLA_KEY_MAX], until[COLA_KEY_MAX];
} cola_cursor;

/* What a store is, and how full. */
typedef struct cola_store_info {
    uint64_t keys, count;            /* that it is for; that it has */
    uint64_t bytes;                  /* of the store, as cola_size says */
    uint64_t write_bound, get_bound; /* cell accesses that a put or a delete, and a get, makes at most */
    uint8_t version, block, levels;
} cola_store_info;

/* How far a level is filled, in cells. A key has one in each level that it came through, and some are for searches alone. */
typedef struct cola_level_info {
    uint64_t visible, shadow; /* of the run that searches read, and of the run that the level builds */
    uint64_t room;            /* that either run may have */
} cola_level_info;

/* What is wrong with a closed store, as cola_check says it. */
enum {
    COLA_SOUND = 0,       /* nothing: it stands for a map, and answers as that map does once it is opened */
    COLA_FLAW_CELL = 1,   /* a cell of a run is none */
    COLA_FLAW_ORDER = 2,  /* in a run keys do not rise, or a link is wrong */
    COLA_FLAW_SAMPLE = 3, /* a run has other lookahead cells than the run below gives */
    COLA_FLAW_LENGTH = 4, /* a run has more items than its level may have */
    COLA_FLAW_SHADOW = 5, /* the run that a level builds is not what it builds */
    COLA_FLAW_LIVE = 6,   /* there are more keys than the store is for */
    COLA_FLAW_COUNT = 7,  /* the header has another number of keys */
    COLA_FLAW_STAMP = 8   /* a stamp is above the last one that was given */
};

/* What cola_check says: the keys of a sound store, or its first flaw, with the level and the cell of the file where it shows. */
typedef struct cola_verdict {
    uint64_t count, cell;
    uint32_t flaw, level;
} cola_verdict;

/* A handle on a new store that is filled with rows. What is in it is the library's. */
typedef struct cola_load {
    bool is_open;
    void *at;
} cola_load;
#define COLA_LOAD_INIT {false, NULL}

/* How many bytes a store takes: 2^block cells of 64 bytes (version 1) or 128 (version 2) are one block, block from 3 to 9,
 * keys from 1 to COLA_KEYS_MAX. COLA_OPTIONS otherwise. 5 to 9 take much the same time: cells are read where they lie, and a
 * put writes a block once it is full. */
int32_t cola_size(uint64_t keys, uint8_t block, uint8_t version, uint64_t *bytes);

/* How many bytes the store takes that lies in a file of so many bytes, by the first head_len of them: 512, or all of a shorter
 * file. The file may be longer. COLA_SMALL, COLA_NOT_STORE, COLA_NOT_CLOSED as cola_open answers of all its bytes; COLA_OK does
 * not say that no cell is damaged. */
int32_t cola_stored_size(const void *head, size_t head_len, uint64_t length, uint64_t *bytes);

/* Makes the store of a new file in zero bytes, as many as cola_size says. */
int32_t cola_create(void *bytes, size_t len, uint64_t keys, uint8_t block, uint8_t version);

/* Opens the store in the bytes, marks it as in use in its header, and takes all memory that it will ever use.
 * COLA_SMALL, COLA_NOT_STORE, COLA_NOT_CLOSED, COLA_BAD_CELL: the handle stays closed and the bytes as they were. COLA_MEMORY:
 * the handle stays closed, and the bytes have the same store. */
int32_t cola_open(cola *store, void *bytes, size_t len);

/* cola_open, with a byte for each page of 4,096 bytes: the byte is 1 from before the first write to its page on, and stays so,
 * also over a checkpoint; the caller clears bytes while the store is closed. A page whose byte was 0 all the while is as it was.
 * A page with no byte is not marked. The bytes are the library's like those of the store. */
int32_t cola_open_marked(cola *store, void *bytes, size_t len, uint8_t *marks, size_t pages);

/* Gives the key a value. *was, where was is not NULL, says whether the key was there before. COLA_FULL, COLA_WORN: nothing changed. */
int32_t cola_put(cola *store, const void *key, size_t key_len, const void *value, size_t value_len, bool *was);

/* A put that is made only where the key has the stamp that was seen, 0 where it is absent (version 2; in version 1 each stamp
 * is 0). COLA_OTHER: *stamp, where stamp is not NULL, is the stamp that it has, and nothing changed. */
int32_t cola_put_if(cola *store, const void *key, size_t key_len, uint64_t seen, const void *value, size_t value_len, uint64_t *stamp);

/* The value of the key, into value of at least COLA_VALUE_MAX bytes, and its length. COLA_NONE where it is absent. */
int32_t cola_get(cola *store, const void *key, size_t key_len, void *value, size_t *value_len);

/* The stamp of the key: the number of the put that gave its value (version 2; 0 in version 1). COLA_NONE where it is absent. */
int32_t cola_stamp(cola *store, const void *key, size_t key_len, uint64_t *stamp);

/* Takes the key out. COLA_NONE where it is absent: nothing changed. */
int32_t cola_delete(cola *store, const void *key, size_t key_len);

/* Puts so many rows, one by one in their order, up to the first that is refused: the answer is that one's, and *done is how
 * many were put before it. was[n], where was is not NULL, says of each that was put whether its key was there before. */
int32_t cola_put_many(cola *store, const cola_row *rows, size_t count, bool *was, size_t *done);

/* The values of the keys of so many rows, into these rows, up to the first that is refused: the answer is that one's, and
 * *done is how many were looked up before it. there[n] says of each of these whether its key is there; where it is not, the
 * row's value stays as it was. COLA_OK where none is refused, also where keys are absent. */
int32_t cola_get_many(cola *store, cola_row *rows, size_t count, bool *there, size_t *done);

/* The number of keys. */
int32_t cola_count(cola *store, uint64_t *count);

/* Sets a cursor before the first key from low on, or before all, where low is empty; it gives keys below high, or all, where
 * high is NULL. Both have at most COLA_KEY_MAX bytes, in either version. */
int32_t cola_seek(cola_cursor *cursor, const void *low, size_t low_len, const void *high, size_t high_len);

/* Sets a cursor before the first of the keys that begin so, or of all keys, where the prefix is empty; cola_next gives these alone,
 * cola_prev those below the prefix too. */
int32_t cola_seek_prefix(cola_cursor *cursor, const void *prefix, size_t prefix_len);

/* The next rows of the cursor, at most so many, by rising keys, and how many they are. COLA_NONE where none was left.
 * A larger number of rows is cheaper for each: every call seeks once. Where most is 0 none is given, and the answer is COLA_OK.
 * It makes at most 9 * n + 2^(n + 2) cell accesses in a store of n levels, and writes no block. A refusal leaves the cursor, and
 * the rows behind those that it had given; COLA_LENGTH leaves all rows. */
int32_t cola_next(cola *store, cola_cursor *cursor, cola_row *rows, size_t most, size_t *given);

/* Sets a cursor behind the last of the keys below high, or of all, where high is NULL. High is its upper end too, of at most
 * COLA_KEY_MAX bytes. */
int32_t cola_seek_last(cola_cursor *cursor, const void *high, size_t high_len);

/* The rows before the cursor, at most so many, by falling keys, and how many they are, with the answers and the bounds of cola_next.
 * Behind cola_seek these are the rows below its low end, and behind rows that were given in one direction the other gives them
 * again. A cursor's upper end holds in both directions, and there is no lower one: look at the keys. */
int32_t cola_prev(cola *store, cola_cursor *cursor, cola_row *rows, size_t most, size_t *given);

/* What the store is, and how full. */
int32_t cola_info(cola *store, cola_store_info *info);

/* How far the level of this number is filled; 0 is the one that takes a put. COLA_NONE where the store has no such level. */
int32_t cola_level(cola *store, uint8_t level, cola_level_info *info);

/* Closes the store and opens it again: what lies in the bytes between the two is a closed store, so that a copy of them, or
 * a sync behind this call, is a state to go back to. COLA_MEMORY: the store is closed, the bytes are given back. */
int32_t cola_checkpoint(cola *store);

/* Closes the store: its header says so, the bytes are the caller's again, the memory is given back. */
int32_t cola_close(cola *store);

/* Tests the closed store in the bytes, all of it, and writes nothing to them. COLA_OK: it stands for a map, and *verdict says of
 * how many keys. COLA_BROKEN: it stands for none, and *verdict says why. COLA_SMALL, COLA_NOT_STORE, COLA_NOT_CLOSED as cola_open
 * answers, COLA_MEMORY: there is no verdict. */
int32_t cola_check(const void *bytes, size_t len, cola_verdict *verdict);

/* Makes a new store for so many keys, with such blocks, in other bytes, which are zero and as many as cola_size says for the
 * version of the old one, and puts all rows of the closed store in the bytes into it, with their stamps. *rows, where rows is not
 * NULL, is how many they are. The two do not overlap, and the old one is not written. COLA_OPTIONS, COLA_SMALL, COLA_NOT_EMPTY,
 * COLA_FEWER: nothing is written. COLA_BAD_CELL, COLA_MEMORY: the new bytes are no store. */
int32_t cola_grow(const void *bytes, size_t len, void *to, size_t to_len, uint64_t keys, uint8_t block, uint64_t *rows);

/* Begins a new store in zero bytes, as many as cola_size says, which is filled with rows by rising keys in one pass. The bytes are
 * the library's until cola_load_end, and no closed store before. COLA_OPTIONS, COLA_SMALL, COLA_NOT_EMPTY, COLA_MEMORY: they stay. */
int32_t cola_load_begin(cola_load *load, void *bytes, size_t len, uint64_t keys, uint8_t block, uint8_t version);

/* The next row. COLA_LENGTH, COLA_ORDER, COLA_FULL: it is left out, and others may follow. In version 2 its stamp is its number, from
 * 1 on, and a put behind the load begins with one above the keys that the store is for. */
int32_t cola_load_row(cola_load *load, const void *key, size_t key_len, const void *value, size_t value_len);

/* So many next rows, up to the first that is refused: the answer is that one's, and *done is how many were taken before it. */
int32_t cola_load_many(cola_load *load, const cola_row *rows, size_t count, size_t *done);

/* Ends it: the bytes are the caller's again, and have a closed store with the rows, of which *rows, where rows is not NULL, says how
 * many they are. To give it up, call this too, and clear the bytes. */
int32_t cola_load_end(cola_load *load, uint64_t *rows);

/* The answer in words. Never NULL. */
const char *cola_strerror(int32_t answer);

#ifdef __cplusplus
}
#endif
#endif
