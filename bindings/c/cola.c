/* The calls of cola.h: they test pointers for NULL, and leave all else to the proved calls of crates/cola_c, which take none.
 *
 * A length above every limit goes on as one above the limit, so that no more bytes are looked at than a key or a value has.
 * Of a place that is to be written any bytes make a number, but not any byte is a bool: so what is handed on is a bool, or a
 * cursor, of this file's own, and the caller's is written behind the call.
 *
 * A handle too is handed on as one of this file's own: the proved calls know that it is open and where, and write it whole. That
 * a store is read alone is known here, and nothing that would write to it goes on; and that it has a log, to which a call is
 * appended before it goes on. */
#include "cola.h"

#include <string.h>

#include "cola_log.h"

/* The bytes of a store, lent from an opening to a closing. */
typedef struct cola_region {
    void *at;
    size_t len;
} cola_region;

/* What crates/cola_c exports: as in cola.h, but no pointer is NULL. */
int32_t cola_core_size(uint64_t keys, uint8_t block, uint8_t version, uint64_t *bytes);
int32_t cola_core_stored_size(const void *head, size_t head_len, uint64_t length, uint64_t *bytes);
int32_t cola_core_create(void *bytes, size_t len, uint64_t keys, uint8_t block, uint8_t version);
int32_t cola_core_open(cola *store, cola_region *region);
int32_t cola_core_put(cola *store, const void *key, size_t key_len, const void *value, size_t value_len, bool *was);
int32_t cola_core_put_if(cola *store, const void *key, size_t key_len, uint64_t seen, const void *value, size_t value_len, uint64_t *stamp);
int32_t cola_core_get(cola *store, const void *key, size_t key_len, void *value, size_t room, size_t *value_len);
int32_t cola_core_stamp(cola *store, const void *key, size_t key_len, uint64_t *stamp);
int32_t cola_core_delete(cola *store, const void *key, size_t key_len);
int32_t cola_core_count(cola *store, uint64_t *count);
int32_t cola_core_seek(cola_cursor *cursor, const void *low, size_t low_len, const void *high, size_t high_len, bool bounded);
int32_t cola_core_next(cola *store, cola_cursor *cursor, cola_row *rows, size_t most, size_t *given);
int32_t cola_core_seek_last(cola_cursor *cursor, const void *high, size_t high_len, bool bounded);
int32_t cola_core_seek_prefix(cola_cursor *cursor, const void *prefix, size_t prefix_len);
int32_t cola_core_prev(cola *store, cola_cursor *cursor, cola_row *rows, size_t most, size_t *given);
int32_t cola_core_info(cola *store, cola_store_info *info);
int32_t cola_core_level(cola *store, uint8_t level, cola_level_info *info);
int32_t cola_core_check(const void *bytes, size_t len, cola_verdict *verdict);
int32_t cola_core_grow(const void *bytes, size_t len, cola_region *to, uint64_t keys, uint8_t block, uint64_t *rows);
int32_t cola_core_load_begin(cola_load *load, cola_region *region, uint64_t keys, uint8_t block, uint8_t version);
int32_t cola_core_load_row(cola_load *load, const void *key, size_t key_len, const void *value, size_t value_len);
int32_t cola_core_load_end(cola_load *load, cola_region *region, uint64_t *rows);
int32_t cola_core_checkpoint(cola *store, cola_region *region);
int32_t cola_core_open_marked(cola *store, cola_region *region, cola_region *marks);
int32_t cola_core_close(cola *store, cola_region *region, cola_region *marks);

/* Whether bytes are said to be where there can be none. */
static bool is_null(const void *bytes, size_t len) { return bytes == NULL && len > 0; }

/* A pointer that is not NULL. */
static const void *some(const void *bytes) { return bytes == NULL ? "" : bytes; }

/* The length, or one above the limit. */
static size_t at_most(size_t len, size_t limit) { return len > limit ? limit + 1 : len; }
static size_t of_key(size_t len) { return at_most(len, COLA_KEY_MAX); }
static size_t of_value(size_t len) { return at_most(len, COLA_VALUE_MAX); }

/* Whether a bool of the caller's is true, which any byte but 0 makes it. */
static bool is_true(const bool *it) {
    unsigned char byte;
    memcpy(&byte, it, 1);
    return byte != 0;
}

/* Why nothing may be written to the store, where it is open: it is read alone, or a checkpoint of its file is not finished. */
static int32_t refusal(const cola *store) {
    if (!is_true(&store->is_open)) return COLA_OK;
    return is_true(&store->is_read_only) ? COLA_READ_ONLY_STORE : is_true(&store->is_unfinished) ? COLA_UNFINISHED : COLA_OK;
}

/* Whether the store is open, to be read alone. */
static bool is_read_only(const cola *store) { return refusal(store) == COLA_READ_ONLY_STORE; }

/* Why a call is not to be made that would write to the store; else it is in the log, where the store has one. */
static int32_t refusal_of(cola *store, cola_call call) {
    int32_t refused = refusal(store);
    if (refused != COLA_OK || !is_true(&store->is_open) || !is_true(&store->is_logged)) return refused;
    return cola_log_call(store, &call);
}

/* Takes back the handle that a call had, and gives its answer. */
static int32_t back(cola *store, const cola *own, int32_t answer) {
    store->is_open = own->is_open;
    store->at = own->at;
    return answer;
}

int32_t cola_size(uint64_t keys, uint8_t block, uint8_t version, uint64_t *bytes) {
    if (bytes == NULL) return COLA_NULL;
    return cola_core_size(keys, block, version, bytes);
}

int32_t cola_stored_size(const void *head, size_t head_len, uint64_t length, uint64_t *bytes) {
    if (is_null(head, head_len) || bytes == NULL) return COLA_NULL;
    return cola_core_stored_size(some(head), head_len, length, bytes);
}

int32_t cola_create(void *bytes, size_t len, uint64_t keys, uint8_t block, uint8_t version) {
    if (bytes == NULL) return COLA_NULL;
    return cola_core_create(bytes, len, keys, block, version);
}

int32_t cola_open(cola *store, void *bytes, size_t len) {
    if (store == NULL || bytes == NULL) return COLA_NULL;
    cola_region region = {bytes, len};
    cola own = *store;
    int32_t answer = back(store, &own, cola_core_open(&own, &region));
    if (answer == COLA_OK) store->is_read_only = store->is_unfinished = store->is_logged = false;
    return answer;
}

int32_t cola_open_marked(cola *store, void *bytes, size_t len, uint8_t *marks, size_t pages) {
    if (store == NULL || bytes == NULL || marks == NULL) return COLA_NULL;
    cola_region region = {bytes, len}, lent = {marks, pages};
    cola own = *store;
    int32_t answer = back(store, &own, cola_core_open_marked(&own, &region, &lent));
    if (answer == COLA_OK) store->is_read_only = store->is_unfinished = store->is_logged = false;
    return answer;
}

/* A put that is in the log, where the store has one. */
static int32_t put(cola *store, const void *key, size_t key_len, const void *value, size_t value_len, bool *was) {
    bool told = false;
    cola own = *store;
    int32_t answer = back(store, &own, cola_core_put(&own, some(key), of_key(key_len), some(value), of_value(value_len), &told));
    if (answer == COLA_OK && was != NULL) *was = told;
    return answer;
}

int32_t cola_put(cola *store, const void *key, size_t key_len, const void *value, size_t value_len, bool *was) {
    if (store == NULL || is_null(key, key_len) || is_null(value, value_len)) return COLA_NULL;
    int32_t refused = refusal_of(store, (cola_call){COLA_CALL_PUT, key, value, key_len, value_len, 0});
    return refused != COLA_OK ? refused : put(store, key, key_len, value, value_len, was);
}

int32_t cola_put_if(cola *store, const void *key, size_t key_len, uint64_t seen, const void *value, size_t value_len, uint64_t *stamp) {
    uint64_t unasked = 0;
    if (store == NULL || is_null(key, key_len) || is_null(value, value_len)) return COLA_NULL;
    int32_t refused = refusal_of(store, (cola_call){COLA_CALL_PUT_IF, key, value, key_len, value_len, seen});
    if (refused != COLA_OK) return refused;
    cola own = *store;
    return back(store, &own, cola_core_put_if(&own, some(key), of_key(key_len), seen, some(value), of_value(value_len),
                                              stamp == NULL ? &unasked : stamp));
}

int32_t cola_get(cola *store, const void *key, size_t key_len, void *value, size_t *value_len) {
    if (store == NULL || is_null(key, key_len) || value == NULL || value_len == NULL) return COLA_NULL;
    cola own = *store;
    return back(store, &own, cola_core_get(&own, some(key), of_key(key_len), value, COLA_VALUE_MAX, value_len));
}

int32_t cola_stamp(cola *store, const void *key, size_t key_len, uint64_t *stamp) {
    if (store == NULL || is_null(key, key_len) || stamp == NULL) return COLA_NULL;
    cola own = *store;
    return back(store, &own, cola_core_stamp(&own, some(key), of_key(key_len), stamp));
}

int32_t cola_delete(cola *store, const void *key, size_t key_len) {
    if (store == NULL || is_null(key, key_len)) return COLA_NULL;
    int32_t refused = refusal_of(store, (cola_call){COLA_CALL_DELETE, key, "", key_len, 0, 0});
    if (refused != COLA_OK) return refused;
    cola own = *store;
    return back(store, &own, cola_core_delete(&own, some(key), of_key(key_len)));
}

/* Bytes for a key, or a value, of a row that is said to have more than a row has room for: their length alone is looked at. */
static const uint8_t too_long[COLA_VALUE_MAX + 1];
static const void *key_of(const cola_row *row) { return row->key_len > COLA_KEY_MAX ? too_long : row->key; }
static const void *value_of(const cola_row *row) { return row->value_len > COLA_VALUE_MAX ? too_long : row->value; }

/* Puts some rows that are in the log, where the store has one, up to the first that is refused. */
static int32_t put_rows(cola *store, const cola_row *rows, size_t count, bool *was, size_t *done) {
    int32_t answer = COLA_OK;
    for (*done = 0; *done < count && answer == COLA_OK; *done += answer == COLA_OK) {
        const cola_row *row = &rows[*done];
        answer = put(store, key_of(row), row->key_len, value_of(row), row->value_len, was == NULL ? NULL : &was[*done]);
    }
    return answer;
}

int32_t cola_put_many(cola *store, const cola_row *rows, size_t count, bool *was, size_t *done) {
    if (store == NULL || (rows == NULL && count > 0) || done == NULL) return COLA_NULL;
    int32_t answer = !is_true(&store->is_open) ? COLA_CLOSED : refusal(store);
    bool is_logged = is_true(&store->is_logged);
    size_t at = 0;
    while (at < count && answer == COLA_OK) {
        size_t some = count - at, put = 0;
        if (is_logged) answer = cola_log_rows(store, &rows[at], count - at, &some);
        if (answer != COLA_OK) break;
        answer = put_rows(store, &rows[at], some, was == NULL ? NULL : &was[at], &put);
        if (is_logged && answer != COLA_OK) cola_log_keep(store, &rows[at], put + 1);
        at += put;
    }
    *done = at;
    return answer;
}

int32_t cola_get_many(cola *store, cola_row *rows, size_t count, bool *there, size_t *done) {
    if (store == NULL || ((rows == NULL || there == NULL) && count > 0) || done == NULL) return COLA_NULL;
    int32_t answer = is_true(&store->is_open) ? COLA_OK : COLA_CLOSED;
    size_t at = 0, length = 0;
    while (at < count && answer == COLA_OK) {
        cola_row *row = &rows[at];
        answer = cola_get(store, key_of(row), row->key_len, row->value, &length);
        if (answer != COLA_OK && answer != COLA_NONE) break;
        there[at] = answer == COLA_OK;
        if (there[at]) row->value_len = (uint8_t)length;
        answer = COLA_OK;
        at++;
    }
    *done = at;
    return answer;
}

int32_t cola_count(cola *store, uint64_t *count) {
    if (store == NULL || count == NULL) return COLA_NULL;
    cola own = *store;
    return back(store, &own, cola_core_count(&own, count));
}

int32_t cola_seek(cola_cursor *cursor, const void *low, size_t low_len, const void *high, size_t high_len) {
    cola_cursor place = {0};
    if (cursor == NULL || is_null(low, low_len) || is_null(high, high_len)) return COLA_NULL;
    int32_t answer = cola_core_seek(&place, some(low), of_key(low_len), some(high), of_key(high_len), high != NULL);
    if (answer == COLA_OK) *cursor = place;
    return answer;
}

int32_t cola_seek_prefix(cola_cursor *cursor, const void *prefix, size_t prefix_len) {
    cola_cursor place = {0};
    if (cursor == NULL || is_null(prefix, prefix_len)) return COLA_NULL;
    int32_t answer = cola_core_seek_prefix(&place, some(prefix), of_key(prefix_len));
    if (answer == COLA_OK) *cursor = place;
    return answer;
}

int32_t cola_seek_last(cola_cursor *cursor, const void *high, size_t high_len) {
    cola_cursor place = {0};
    if (cursor == NULL || is_null(high, high_len)) return COLA_NULL;
    int32_t answer = cola_core_seek_last(&place, some(high), of_key(high_len), high != NULL);
    if (answer == COLA_OK) *cursor = place;
    return answer;
}

/* One of the two calls that give rows. */
typedef int32_t walk(cola *store, cola_cursor *cursor, cola_row *rows, size_t most, size_t *given);

static int32_t walks(walk *to, cola *store, cola_cursor *cursor, cola_row *rows, size_t most, size_t *given) {
    cola_row none = {0};
    cola_cursor place;
    if (store == NULL || cursor == NULL || (rows == NULL && most > 0) || given == NULL) return COLA_NULL;
    cola own = *store;
    memcpy(&place, cursor, sizeof place);
    place.behind = is_true(&cursor->behind);
    place.bounded = is_true(&cursor->bounded);
    int32_t answer = back(store, &own, to(&own, &place, rows == NULL ? &none : rows, most, given));
    if (answer == COLA_OK) *cursor = place;
    return answer;
}

int32_t cola_next(cola *store, cola_cursor *cursor, cola_row *rows, size_t most, size_t *given) {
    return walks(cola_core_next, store, cursor, rows, most, given);
}

int32_t cola_prev(cola *store, cola_cursor *cursor, cola_row *rows, size_t most, size_t *given) {
    return walks(cola_core_prev, store, cursor, rows, most, given);
}

int32_t cola_info(cola *store, cola_store_info *info) {
    if (store == NULL || info == NULL) return COLA_NULL;
    cola own = *store;
    return back(store, &own, cola_core_info(&own, info));
}

int32_t cola_level(cola *store, uint8_t level, cola_level_info *info) {
    if (store == NULL || info == NULL) return COLA_NULL;
    cola own = *store;
    return back(store, &own, cola_core_level(&own, level, info));
}

int32_t cola_checkpoint(cola *store) {
    cola_region region = {NULL, 0};
    if (store == NULL) return COLA_NULL;
    if (is_read_only(store)) return COLA_READ_ONLY_STORE;
    cola own = *store;
    return back(store, &own, cola_core_checkpoint(&own, &region));
}

int32_t cola_close(cola *store) {
    cola_region region = {NULL, 0}, marks = {NULL, 0};
    if (store == NULL) return COLA_NULL;
    cola own = *store;
    return back(store, &own, cola_core_close(&own, &region, &marks));
}

int32_t cola_check(const void *bytes, size_t len, cola_verdict *verdict) {
    if (is_null(bytes, len) || verdict == NULL) return COLA_NULL;
    return cola_core_check(some(bytes), len, verdict);
}

int32_t cola_grow(const void *bytes, size_t len, void *to, size_t to_len, uint64_t keys, uint8_t block, uint64_t *rows) {
    uint64_t unasked = 0;
    cola_region region = {to, to_len};
    if (is_null(bytes, len) || to == NULL) return COLA_NULL;
    return cola_core_grow(some(bytes), len, &region, keys, block, rows == NULL ? &unasked : rows);
}

/* Takes back the handle of a load that a call had, and gives its answer. */
static int32_t load_back(cola_load *load, const cola_load *own, int32_t answer) {
    load->is_open = own->is_open;
    load->at = own->at;
    return answer;
}

int32_t cola_load_begin(cola_load *load, void *bytes, size_t len, uint64_t keys, uint8_t block, uint8_t version) {
    cola_region region = {bytes, len};
    if (load == NULL || bytes == NULL) return COLA_NULL;
    cola_load own = *load;
    return load_back(load, &own, cola_core_load_begin(&own, &region, keys, block, version));
}

int32_t cola_load_row(cola_load *load, const void *key, size_t key_len, const void *value, size_t value_len) {
    if (load == NULL || is_null(key, key_len) || is_null(value, value_len)) return COLA_NULL;
    cola_load own = *load;
    return load_back(load, &own, cola_core_load_row(&own, some(key), of_key(key_len), some(value), of_value(value_len)));
}

int32_t cola_load_many(cola_load *load, const cola_row *rows, size_t count, size_t *done) {
    if (load == NULL || (rows == NULL && count > 0) || done == NULL) return COLA_NULL;
    int32_t answer = is_true(&load->is_open) ? COLA_OK : COLA_CLOSED;
    size_t at = 0;
    while (at < count && answer == COLA_OK) {
        answer = cola_load_row(load, key_of(&rows[at]), rows[at].key_len, value_of(&rows[at]), rows[at].value_len);
        at += answer == COLA_OK;
    }
    *done = at;
    return answer;
}

int32_t cola_load_end(cola_load *load, uint64_t *rows) {
    uint64_t unasked = 0;
    cola_region region = {NULL, 0};
    if (load == NULL) return COLA_NULL;
    cola_load own = *load;
    return load_back(load, &own, cola_core_load_end(&own, &region, rows == NULL ? &unasked : rows));
}
