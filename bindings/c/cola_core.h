/* What crates/cola_c exports of the journal and of the log, for the files of this folder alone: proved, and no pointer is NULL. */
#ifndef COLA_CORE_H
#define COLA_CORE_H

#include <stdbool.h>
#include <stddef.h>
#include <stdint.h>

#include "cola.h"

/* How far a checkpoint is. Of the stages these are named here; what comes behind each the proved calls say. */
enum { COLA_STAGE_REST = 0, COLA_STAGE_JOURNAL_SYNC = 2, COLA_STAGE_FOUND = 3, COLA_STAGE_STUCK = 12 };

/* What is to be done at a stage. */
enum {
    COLA_STEP_NONE,
    COLA_STEP_WRITE_JOURNAL,
    COLA_STEP_SYNC_JOURNAL,
    COLA_STEP_MARK_IN_USE,
    COLA_STEP_WRITE_PAGES,
    COLA_STEP_WRITE_HEADER,
    COLA_STEP_SYNC_FILE,
    COLA_STEP_EMPTY_JOURNAL
};

uint8_t cola_core_stage_opened(bool whole);
uint8_t cola_core_stage_begin(uint8_t stage);
uint8_t cola_core_stage_next(uint8_t stage);
uint8_t cola_core_stage_done(uint8_t stage, bool carried_out);
uint8_t cola_core_stage_resume(uint8_t stage);

enum { COLA_JOURNAL_HEAD = 16, COLA_JOURNAL_SUM = 32, COLA_PAGE = 4096 };

/* Of a journal of the marked pages, one piece a page: what stands before the pieces, and behind them. */
void cola_core_journal_frame(const void *bytes, size_t length, const void *marks, size_t pages, void *head, void *sum);

/* What stands before the bytes of a piece. */
void cola_core_journal_piece(uint64_t place, uint64_t count, void *head);

/* Whether the bytes are a whole journal, with the header. */
bool cola_core_journal_is_whole(const void *journal, size_t length);

/* The first of some pieces: its place in the file, and how many bytes it has, which stand behind a head. */
bool cola_core_journal_next(const void *pieces, size_t length, uint64_t *place, uint64_t *count);

/* The state of a log that is written or read: the sum of all so far. A log's first bytes are those of its first state. */
typedef struct cola_core_log {
    uint8_t sum[32];
} cola_core_log;

/* The first state of a log that follows a closed file with this first page. */
void cola_core_log_begin(const void *page, size_t length, cola_core_log *log);

/* Write the record of a call to the front of some bytes, and tell its length: 0 where they are too few. */
size_t cola_core_log_put(cola_core_log *log, const void *key, size_t key_len, const void *value, size_t value_len, void *into, size_t room);
size_t cola_core_log_put_if(cola_core_log *log, const void *key, size_t key_len, uint64_t seen, const void *value, size_t value_len,
                            void *into, size_t room);
size_t cola_core_log_delete(cola_core_log *log, const void *key, size_t key_len, void *into, size_t room);

/* Goes behind the whole records at the front of some bytes, and tells their length. */
size_t cola_core_log_pass(cola_core_log *log, const void *bytes, size_t length);

/* Makes the calls of a log again on the store that was opened of the file with this first page, as it lay closed. *whole is how many
 * bytes of the log are whole, 0 where it follows another file, and *log the state behind them. */
int32_t cola_core_log_replay(cola *store, const void *page, size_t page_len, const void *bytes, size_t length, cola_core_log *log,
                             size_t *whole, size_t *done);

#endif
