/* What cola.c hands on to the proved calls, in whose place stand-ins are here: no pointer is NULL, no length is far above its
 * limit, each bool is one, also where the caller's byte is none or was never written, and the caller's places are written
 * where the answer says so, and nowhere else. What a proved call leaves between the bytes of a handle changes nothing.
 *
 *     handed
 *
 * Link with cola.c alone: for the log of a store too there is a stand-in. Under valgrind it tells bytes that were never written. */
#include <stdio.h>
#include <stdlib.h>
#include <string.h>

#include "cola_log.h"

#define HOLDS(is) ((is) ? (void)0 : (fprintf(stderr, "handed: line %d: not so: %s\n", __LINE__, #is), exit(1)))

typedef struct cola_region {
    void *at;
    size_t len;
} cola_region;

/* The handle as a proved call writes it, as a whole: of what stands between its bytes nothing is said. */
static void writes(cola *store, bool is_open) {
    memset(store, 0xAB, sizeof *store);
    store->is_open = is_open, store->at = NULL;
}

static int32_t answer;     /* what the stand-ins answer */
static int calls;          /* how many were made */
static cola_cursor handed; /* the cursor of the last one */

static bool is_bool(const bool *it) {
    unsigned char byte;
    memcpy(&byte, it, 1);
    return byte == 0 || byte == 1;
}

static bool reads;         /* each byte that is handed on is read, for tools that tell bytes that are none */
static volatile unsigned char read_last;

static void read_all(const void *bytes, size_t len) {
    for (size_t at = 0; at < len; at++) read_last = ((const unsigned char *)bytes)[at];
}

static void takes(const void *key, size_t key_len, const void *value, size_t value_len) {
    calls++;
    if (reads) read_all(key, key_len), read_all(value, value_len);
    HOLDS(key != NULL && key_len <= COLA_KEY_MAX + 1 && value != NULL && value_len <= COLA_VALUE_MAX + 1);
}

/* The log: what it answers, how many calls were appended, and how many rows one write takes. */
static int32_t log_answer;
static int appended, row_writes, taken_back;
static size_t rows_at_once = 2;
static cola_call appended_last;

int32_t cola_log_call(cola *store, const cola_call *call) {
    HOLDS(store->is_logged && is_bool(&store->is_logged));
    return appended_last = *call, appended++, log_answer;
}
int32_t cola_log_rows(cola *store, const cola_row *rows, size_t count, size_t *logged) {
    HOLDS(store->is_logged && rows != NULL && count > 0);
    return *logged = count < rows_at_once ? count : rows_at_once, row_writes++, log_answer;
}
void cola_log_keep(cola *store, const cola_row *rows, size_t count) {
    HOLDS(store->is_logged && rows != NULL);
    taken_back = (int)count;
}

int32_t cola_core_size(uint64_t keys, uint8_t block, uint8_t version, uint64_t *bytes) {
    return (void)keys, (void)block, (void)version, *bytes = 77, calls++, answer;
}
int32_t cola_core_stored_size(const void *head, size_t head_len, uint64_t length, uint64_t *bytes) {
    HOLDS(head != NULL);
    return (void)head_len, (void)length, *bytes = 77, calls++, answer;
}
int32_t cola_core_create(void *bytes, size_t len, uint64_t keys, uint8_t block, uint8_t version) {
    return (void)bytes, (void)len, (void)keys, (void)block, (void)version, calls++, answer;
}
int32_t cola_core_open(cola *store, cola_region *region) {
    HOLDS(is_bool(&store->is_open) && region->at != NULL);
    return writes(store, answer == COLA_OK), calls++, answer;
}
int32_t cola_core_open_marked(cola *store, cola_region *region, cola_region *marks) {
    HOLDS(marks->at != NULL);
    return cola_core_open(store, region);
}
int32_t cola_core_put(cola *store, const void *key, size_t key_len, const void *value, size_t value_len, bool *was) {
    takes(key, key_len, value, value_len);
    HOLDS(store != NULL && is_bool(was));
    if (store->is_open) writes(store, true);
    if (answer == COLA_OK) *was = true;
    return answer;
}
int32_t cola_core_put_if(cola *store, const void *key, size_t key_len, uint64_t seen, const void *value, size_t value_len, uint64_t *stamp) {
    takes(key, key_len, value, value_len);
    HOLDS(store != NULL && seen == 5);
    if (answer == COLA_OTHER) *stamp = 9;
    return answer;
}
int32_t cola_core_get(cola *store, const void *key, size_t key_len, void *value, size_t room, size_t *value_len) {
    takes(key, key_len, value, room);
    HOLDS(store != NULL && value_len != NULL && room == COLA_VALUE_MAX);
    return answer;
}
int32_t cola_core_stamp(cola *store, const void *key, size_t key_len, uint64_t *stamp) {
    takes(key, key_len, "", 0);
    HOLDS(store != NULL && stamp != NULL);
    return answer;
}
int32_t cola_core_delete(cola *store, const void *key, size_t key_len) {
    takes(key, key_len, "", 0);
    HOLDS(store != NULL);
    return answer;
}
int32_t cola_core_count(cola *store, uint64_t *count) { return HOLDS(store != NULL && count != NULL), calls++, answer; }
int32_t cola_core_seek(cola_cursor *cursor, const void *low, size_t low_len, const void *high, size_t high_len, bool bounded) {
    takes(low, low_len, high, high_len);
    HOLDS(is_bool(&cursor->behind) && is_bool(&cursor->bounded));
    if (answer == COLA_OK) *cursor = (cola_cursor){.from_len = 3, .bounded = bounded};
    return answer;
}
int32_t cola_core_seek_last(cola_cursor *cursor, const void *high, size_t high_len, bool bounded) {
    takes(high, high_len, "", 0);
    HOLDS(is_bool(&cursor->behind) && is_bool(&cursor->bounded));
    if (answer == COLA_OK) *cursor = (cola_cursor){.from_len = 5, .bounded = bounded};
    return answer;
}
int32_t cola_core_seek_prefix(cola_cursor *cursor, const void *prefix, size_t prefix_len) {
    takes(prefix, prefix_len, "", 0);
    HOLDS(is_bool(&cursor->behind) && is_bool(&cursor->bounded));
    if (answer == COLA_OK) *cursor = (cola_cursor){.from_len = 7, .bounded = true};
    return answer;
}
static int32_t walks(cola *store, cola_cursor *cursor, cola_row *rows, size_t most, size_t *given, bool falls) {
    calls++;
    HOLDS(store != NULL && rows != NULL && is_bool(&cursor->behind) && is_bool(&cursor->bounded));
    handed = *cursor;
    if (answer != COLA_OK) return answer;
    *given = most;
    *cursor = (cola_cursor){.from_len = falls ? 6 : 4, .behind = !falls};
    return answer;
}
int32_t cola_core_next(cola *store, cola_cursor *cursor, cola_row *rows, size_t most, size_t *given) {
    return walks(store, cursor, rows, most, given, false);
}
int32_t cola_core_prev(cola *store, cola_cursor *cursor, cola_row *rows, size_t most, size_t *given) {
    return walks(store, cursor, rows, most, given, true);
}
int32_t cola_core_info(cola *store, cola_store_info *info) { return HOLDS(store != NULL && info != NULL), calls++, answer; }
int32_t cola_core_level(cola *store, uint8_t level, cola_level_info *info) {
    return HOLDS(store != NULL && level == 9 && info != NULL), calls++, answer;
}
int32_t cola_core_check(const void *bytes, size_t len, cola_verdict *verdict) {
    HOLDS(bytes != NULL && verdict != NULL);
    return (void)len, calls++, answer;
}
int32_t cola_core_grow(const void *bytes, size_t len, cola_region *to, uint64_t keys, uint8_t block, uint64_t *rows) {
    HOLDS(bytes != NULL && to->at != NULL && to->len == 3 && keys == 5 && block == 6 && rows != NULL);
    if (answer == COLA_OK) *rows = 8;
    return (void)len, calls++, answer;
}
/* The handle of a load as a proved call writes it, as a whole. */
static void writes_load(cola_load *load, bool is_open) {
    memset(load, 0xAB, sizeof *load);
    load->is_open = is_open, load->at = NULL;
}
int32_t cola_core_load_begin(cola_load *load, cola_region *region, uint64_t keys, uint8_t block, uint8_t version) {
    HOLDS(is_bool(&load->is_open) && region->at != NULL && keys == 5 && block == 6 && version == 2);
    return writes_load(load, answer == COLA_OK), calls++, answer;
}
int32_t cola_core_load_row(cola_load *load, const void *key, size_t key_len, const void *value, size_t value_len) {
    takes(key, key_len, value, value_len);
    return writes_load(load, true), answer;
}
int32_t cola_core_load_end(cola_load *load, cola_region *region, uint64_t *rows) {
    HOLDS(region->at == NULL && rows != NULL);
    if (answer == COLA_OK) *rows = 9;
    return writes_load(load, false), calls++, answer;
}
int32_t cola_core_checkpoint(cola *store, cola_region *region) { return HOLDS(store != NULL && region->at == NULL), calls++, answer; }
int32_t cola_core_close(cola *store, cola_region *region, cola_region *marks) {
    (void)marks;
    HOLDS(store != NULL && region->at == NULL);
    return writes(store, false), calls++, answer;
}

/* Fills a place with bytes that make no bool. */
#define SPOIL(place) memset(&(place), 0xAB, sizeof(place))

static bool is_spoiled(const void *place, size_t length) {
    for (size_t at = 0; at < length; at++)
        if (((const unsigned char *)place)[at] != 0xAB) return false;
    return true;
}

static void of_bools(cola *store) {
    bool was, unwritten;
    uint64_t stamp = 1;
    SPOIL(was);
    answer = COLA_FULL;
    HOLDS(cola_put(store, "k", 1, "v", 1, &was) == COLA_FULL && is_spoiled(&was, 1));
    HOLDS(cola_put(store, "k", 1, "v", 1, NULL) == COLA_FULL);
    HOLDS(cola_put_if(store, "k", 1, 5, "v", 1, &stamp) == COLA_FULL && stamp == 1);
    answer = COLA_OTHER;
    HOLDS(cola_put_if(store, "k", 1, 5, "v", 1, &stamp) == COLA_OTHER && stamp == 9);
    HOLDS(cola_put_if(store, "k", 1, 5, "v", 1, NULL) == COLA_OTHER);
    answer = COLA_OK;
    HOLDS(cola_put(store, "k", (size_t)-1, "v", (size_t)-1, &was) == COLA_OK && was);
    HOLDS(cola_put(store, NULL, 0, NULL, 0, &unwritten) == COLA_OK && unwritten);
    HOLDS(cola_put(store, "k", 1, "v", 1, NULL) == COLA_OK);
}

static void of_cursors(cola *store) {
    cola_cursor cursor, unwritten;
    cola_row row;
    size_t given = 7;
    SPOIL(cursor);
    answer = COLA_LENGTH;
    HOLDS(cola_seek(&cursor, "k", (size_t)-1, NULL, 0) == COLA_LENGTH && is_spoiled(&cursor, sizeof cursor));
    HOLDS(cola_seek_prefix(&cursor, "k", (size_t)-1) == COLA_LENGTH && is_spoiled(&cursor, sizeof cursor));
    HOLDS(cola_next(store, &cursor, &row, 1, &given) == COLA_LENGTH && is_spoiled(&cursor, sizeof cursor) && given == 7);
    HOLDS(handed.behind && handed.bounded && handed.from_len == 0xAB);
    answer = COLA_OK;
    HOLDS(cola_seek_prefix(&unwritten, NULL, 0) == COLA_OK && unwritten.from_len == 7 && unwritten.bounded && !unwritten.behind);
    HOLDS(cola_seek(&unwritten, "", 0, NULL, 0) == COLA_OK && unwritten.from_len == 3 && !unwritten.bounded);
    HOLDS(cola_seek(&unwritten, "", 0, "z", 1) == COLA_OK && unwritten.bounded && !unwritten.behind);
    HOLDS(cola_next(store, &unwritten, &row, 1, &given) == COLA_OK && given == 1 && unwritten.from_len == 4 && unwritten.behind);
    HOLDS(handed.from_len == 3 && handed.bounded && !handed.behind);
    HOLDS(cola_next(store, &unwritten, NULL, 0, &given) == COLA_OK && given == 0);
}

/* The same of the calls by falling keys. */
static void of_cursors_that_fall(cola *store) {
    cola_cursor cursor, unwritten;
    cola_row row;
    size_t given = 7;
    SPOIL(cursor);
    answer = COLA_LENGTH;
    HOLDS(cola_seek_last(&cursor, "k", (size_t)-1) == COLA_LENGTH && is_spoiled(&cursor, sizeof cursor));
    HOLDS(cola_prev(store, &cursor, &row, 1, &given) == COLA_LENGTH && is_spoiled(&cursor, sizeof cursor) && given == 7);
    HOLDS(handed.behind && handed.bounded && handed.from_len == 0xAB);
    answer = COLA_OK;
    HOLDS(cola_seek_last(&unwritten, NULL, 0) == COLA_OK && unwritten.from_len == 5 && !unwritten.bounded);
    HOLDS(cola_seek_last(&unwritten, "", 0) == COLA_OK && unwritten.bounded);
    HOLDS(cola_prev(store, &unwritten, &row, 1, &given) == COLA_OK && given == 1 && unwritten.from_len == 6 && !unwritten.behind);
    HOLDS(handed.from_len == 5 && handed.bounded && !handed.behind);
    HOLDS(cola_prev(store, &unwritten, NULL, 0, &given) == COLA_OK && given == 0);
    calls = 0;
    HOLDS(cola_seek_last(NULL, "", 0) == COLA_NULL && cola_seek_last(&cursor, NULL, 1) == COLA_NULL);
    HOLDS(cola_prev(NULL, &unwritten, &row, 1, &given) == COLA_NULL && cola_prev(store, NULL, &row, 1, &given) == COLA_NULL);
    HOLDS(cola_prev(store, &unwritten, NULL, 1, &given) == COLA_NULL && cola_prev(store, &unwritten, &row, 1, NULL) == COLA_NULL);
    HOLDS(calls == 0);
}

/* What a store says of itself goes into places of any bytes, which an answer other than COLA_OK leaves. */
static void of_infos(cola *store) {
    cola_store_info info;
    cola_level_info level;
    SPOIL(info), SPOIL(level);
    for (answer = COLA_OK; answer <= COLA_NONE; answer++) HOLDS(cola_info(store, &info) == answer && cola_level(store, 9, &level) == answer);
    HOLDS(is_spoiled(&info, sizeof info) && is_spoiled(&level, sizeof level));
    calls = 0;
    HOLDS(cola_info(NULL, &info) == COLA_NULL && cola_info(store, NULL) == COLA_NULL);
    HOLDS(cola_level(NULL, 9, &level) == COLA_NULL && cola_level(store, 9, NULL) == COLA_NULL && calls == 0);
}

/* Whole stores: how many rows they are is told where it is asked for, and a load's handle is written byte by byte. */
static void of_whole_stores(void) {
    cola_load load = COLA_LOAD_INIT;
    cola_verdict verdict;
    cola_row *rows = calloc(2, sizeof *rows);
    uint64_t count = 7;
    size_t done = 7;
    char bytes[3];
    HOLDS(rows != NULL);
    answer = COLA_FEWER;
    HOLDS(cola_grow("", 0, bytes, 3, 5, 6, &count) == COLA_FEWER && cola_grow(NULL, 0, bytes, 3, 5, 6, NULL) == COLA_FEWER && count == 7);
    HOLDS(cola_check(NULL, 0, &verdict) == COLA_FEWER && cola_load_begin(&load, bytes, 3, 5, 6, 2) == COLA_FEWER && !load.is_open);
    answer = COLA_OK;
    HOLDS(cola_grow("", 0, bytes, 3, 5, 6, &count) == COLA_OK && count == 8 && cola_grow("", 0, bytes, 3, 5, 6, NULL) == COLA_OK);
    HOLDS(cola_load_begin(&load, bytes, 3, 5, 6, 2) == COLA_OK && load.is_open);
    HOLDS(cola_load_row(&load, "k", (size_t)-1, NULL, 0) == COLA_OK && cola_load_row(&load, NULL, 0, "v", (size_t)-1) == COLA_OK);
    rows[0].key_len = COLA_KEY_MAX, rows[0].value_len = COLA_VALUE_MAX, rows[1].key_len = rows[1].value_len = 255;
    calls = 0, reads = true;
    HOLDS(cola_load_many(&load, rows, 2, &done) == COLA_OK && done == 2 && calls == 2 && load.is_open);
    reads = false, answer = COLA_ORDER;
    HOLDS(cola_load_many(&load, rows, 2, &done) == COLA_ORDER && done == 0 && calls == 3);
    HOLDS(cola_load_end(&load, &count) == COLA_ORDER && count == 8 && !load.is_open);
    HOLDS(cola_load_many(&load, rows, 2, &done) == COLA_CLOSED && calls == 4);
    answer = COLA_OK;
    HOLDS(cola_load_end(&load, &count) == COLA_OK && count == 9 && cola_load_end(&load, NULL) == COLA_OK);
    calls = 0;
    HOLDS(cola_check(NULL, 1, &verdict) == COLA_NULL && cola_check("", 0, NULL) == COLA_NULL && cola_grow(NULL, 1, bytes, 3, 5, 6, NULL) == COLA_NULL);
    HOLDS(cola_grow("", 0, NULL, 3, 5, 6, NULL) == COLA_NULL && cola_load_begin(&load, NULL, 3, 5, 6, 2) == COLA_NULL);
    HOLDS(cola_load_begin(NULL, bytes, 3, 5, 6, 2) == COLA_NULL && cola_load_end(NULL, &count) == COLA_NULL && calls == 0);
    free(rows);
}

/* A store is read alone where this file's own mark says so, and no other byte of a handle is one. */
static void of_handles(void) {
    char value[COLA_VALUE_MAX];
    size_t length = 7;
    cola store;
    SPOIL(store);
    store.is_open = false, store.at = NULL;
    answer = COLA_OK;
    HOLDS(cola_put(&store, "k", 1, "v", 1, NULL) == COLA_OK && cola_delete(&store, "k", 1) == COLA_OK);
    HOLDS(cola_open(&store, value, sizeof value) == COLA_OK && store.is_open && !store.is_read_only);
    HOLDS(cola_put(&store, "k", 1, "v", 1, NULL) == COLA_OK && store.is_open && !store.is_read_only);
    HOLDS(cola_put(&store, "k", 1, "v", 1, NULL) == COLA_OK);
    store.is_read_only = true, calls = 0;
    HOLDS(cola_put(&store, "k", 1, "v", 1, NULL) == COLA_READ_ONLY_STORE && cola_delete(&store, "k", 1) == COLA_READ_ONLY_STORE);
    HOLDS(cola_put_if(&store, "k", 1, 5, "v", 1, NULL) == COLA_READ_ONLY_STORE && cola_checkpoint(&store) == COLA_READ_ONLY_STORE);
    HOLDS(calls == 0 && cola_get(&store, "k", 1, value, &length) == COLA_OK && calls == 1);
    HOLDS(cola_close(&store) == COLA_OK && !store.is_open && cola_put(&store, "k", 1, "v", 1, NULL) == COLA_OK);
    uint8_t marks[1];
    HOLDS(cola_open_marked(&store, value, sizeof value, marks, 1) == COLA_OK && store.is_open && !store.is_read_only && !store.is_unfinished);
    store.is_unfinished = true, calls = 0; /* and nothing is put where a checkpoint is not finished */
    HOLDS(cola_put(&store, "k", 1, "v", 1, NULL) == COLA_UNFINISHED && cola_delete(&store, "k", 1) == COLA_UNFINISHED);
    HOLDS(cola_put_if(&store, "k", 1, 5, "v", 1, NULL) == COLA_UNFINISHED && calls == 0);
    HOLDS(cola_get(&store, "k", 1, value, &length) == COLA_OK && cola_close(&store) == COLA_OK);
}

/* A call that changes a store with a log is appended before it is made, and not made where that is refused; of a batch what one write
 * takes, and what was not made of it is taken back. Where nothing may be written, and on a closed store, nothing is appended. */
static void of_logs(void) {
    cola store = COLA_INIT;
    cola_row *rows = calloc(5, sizeof *rows);
    size_t done = 7;
    uint64_t stamp;
    HOLDS(rows != NULL);
    store.is_open = store.is_logged = true;
    answer = COLA_OK, calls = 0;
    HOLDS(cola_put(&store, "k", 1, "v", 1, NULL) == COLA_OK && appended == 1 && calls == 1 && appended_last.kind == COLA_CALL_PUT);
    HOLDS(cola_put_if(&store, "k", 1, 5, "v", 1, &stamp) == COLA_OK && appended == 2 && appended_last.kind == COLA_CALL_PUT_IF && appended_last.seen == 5);
    HOLDS(cola_delete(&store, "k", 1) == COLA_OK && appended == 3 && calls == 3 && appended_last.kind == COLA_CALL_DELETE);
    HOLDS(cola_put_many(&store, rows, 5, NULL, &done) == COLA_OK && done == 5 && row_writes == 3 && appended == 3 && calls == 8);
    answer = COLA_FULL;
    HOLDS(cola_put_many(&store, rows, 5, NULL, &done) == COLA_FULL && done == 0 && row_writes == 4 && taken_back == 1);
    answer = COLA_OK, log_answer = COLA_SYSTEM, calls = 0;
    HOLDS(cola_put(&store, "k", 1, "v", 1, NULL) == COLA_SYSTEM && cola_delete(&store, "k", 1) == COLA_SYSTEM && appended == 5);
    HOLDS(cola_put_if(&store, "k", 1, 5, "v", 1, NULL) == COLA_SYSTEM && cola_put_many(&store, rows, 5, NULL, &done) == COLA_SYSTEM && done == 0);
    HOLDS(calls == 0 && store.is_logged);
    log_answer = COLA_OK, store.is_unfinished = true, appended = row_writes = 0;
    HOLDS(cola_put(&store, "k", 1, "v", 1, NULL) == COLA_UNFINISHED && cola_put_many(&store, rows, 5, NULL, &done) == COLA_UNFINISHED);
    store.is_unfinished = store.is_open = false;
    cola_put(&store, "k", 1, "v", 1, NULL), cola_put_many(&store, rows, 5, NULL, &done);
    HOLDS(appended == 0 && row_writes == 0);
    HOLDS(cola_open(&store, rows, sizeof *rows) == COLA_OK && !store.is_logged);
    free(rows);
}

/* Rows that are said to be longer than they are: nothing behind them is read, also behind the last one. */
static void of_rows(void) {
    cola store = COLA_INIT;
    store.is_open = true;
    cola_row *rows = calloc(2, sizeof *rows);
    bool there[2];
    size_t done = 7;
    HOLDS(rows != NULL);
    rows[0].key_len = COLA_KEY_MAX, rows[0].value_len = COLA_VALUE_MAX, rows[1].key_len = rows[1].value_len = 255;
    answer = COLA_OK, calls = 0, reads = true;
    HOLDS(cola_put_many(&store, rows, 2, there, &done) == COLA_OK && done == 2 && calls == 2 && there[0] && there[1]);
    HOLDS(cola_get_many(&store, rows, 1, there, &done) == COLA_OK && done == 1 && calls == 3);
    answer = COLA_LENGTH;
    HOLDS(cola_put_many(&store, rows, 2, there, &done) == COLA_LENGTH && done == 0 && calls == 4);
    HOLDS(cola_get_many(&store, rows, 2, there, &done) == COLA_LENGTH && done == 0 && calls == 5);
    answer = COLA_OK, reads = false;
    free(rows);
}

int main(void) {
    cola store = COLA_INIT;
    uint64_t number = 0;
    size_t length = 0;
    char value[COLA_VALUE_MAX];
    of_bools(&store);
    of_cursors(&store);
    of_cursors_that_fall(&store);
    of_infos(&store);
    of_handles();
    of_logs();
    of_whole_stores();
    of_rows();
    answer = COLA_OK;
    HOLDS(cola_size(1, 5, 1, &number) == COLA_OK && number == 77);
    HOLDS(cola_stored_size(NULL, 0, 0, &number) == COLA_OK);
    HOLDS(cola_create(value, sizeof value, 1, 5, 1) == COLA_OK && cola_open(&store, value, sizeof value) == COLA_OK);
    HOLDS(cola_get(&store, NULL, 0, value, &length) == COLA_OK && cola_stamp(&store, "k", 1, &number) == COLA_OK);
    HOLDS(cola_delete(&store, "k", 1) == COLA_OK && cola_count(&store, &number) == COLA_OK);
    HOLDS(cola_checkpoint(&store) == COLA_OK && cola_close(&store) == COLA_OK);
    /* A pointer that is NULL where there has to be one goes no further. */
    calls = 0;
    HOLDS(cola_put(NULL, "k", 1, "v", 1, NULL) == COLA_NULL && cola_put(&store, NULL, 1, "v", 1, NULL) == COLA_NULL);
    HOLDS(cola_seek(NULL, "", 0, NULL, 0) == COLA_NULL && cola_next(&store, NULL, NULL, 0, &length) == COLA_NULL);
    HOLDS(cola_stored_size(NULL, 1, 1, &number) == COLA_NULL && cola_stored_size("", 0, 0, NULL) == COLA_NULL);
    HOLDS(calls == 0);
    return 0;
}
