/* A sorted array that answers as a store does: what the calls of cola.h are compared with. */
#ifndef PLAIN_H
#define PLAIN_H

#include <stdlib.h>
#include <string.h>

#include "cola.h"

typedef struct plain_pair {
    cola_row row;
    uint64_t stamp;
} plain_pair;

typedef struct plain {
    size_t limit, count, key_max, value_max;
    bool has_stamps;
    uint64_t last; /* the last stamp that was given */
    plain_pair *pairs;
} plain;

static inline plain plain_new(size_t limit, int version) {
    plain it = {limit, 0, COLA_KEY_MAX_1, COLA_VALUE_MAX_1, version == 2, 0, calloc(limit + 1, sizeof(plain_pair))};
    if (version == 2) it.key_max = COLA_KEY_MAX, it.value_max = COLA_VALUE_MAX;
    if (it.pairs == NULL) abort();
    return it;
}

/* Byte by byte, and a key before those that it begins. */
static inline int plain_order(const void *a, size_t a_len, const void *b, size_t b_len) {
    int by = memcmp(a, b, a_len < b_len ? a_len : b_len);
    return by != 0 ? by : (a_len > b_len) - (a_len < b_len);
}

/* How many keys are below this one; *there: whether the next one is it. */
static inline size_t plain_below(const plain *it, const void *key, size_t len, bool *there) {
    size_t low = 0, high = it->count;
    while (low < high) {
        size_t middle = low + (high - low) / 2;
        const cola_row *row = &it->pairs[middle].row;
        if (plain_order(row->key, row->key_len, key, len) < 0) low = middle + 1;
        else high = middle;
    }
    *there = low < it->count && plain_order(it->pairs[low].row.key, it->pairs[low].row.key_len, key, len) == 0;
    return low;
}

static inline bool plain_is_key(const plain *it, size_t len) { return len >= 1 && len <= it->key_max; }

static inline int32_t plain_put_if(plain *it, bool any, const void *key, size_t key_len, uint64_t seen, const void *value,
                                   size_t value_len, bool *was, uint64_t *stamp) {
    if (!plain_is_key(it, key_len) || value_len > it->value_max) return COLA_LENGTH;
    bool there;
    size_t at = plain_below(it, key, key_len, &there);
    uint64_t has = there ? it->pairs[at].stamp : 0;
    if (!any && has != seen) return *stamp = has, COLA_OTHER;
    if (!there && it->count == it->limit) return COLA_FULL;
    if (!there) {
        memmove(it->pairs + at + 1, it->pairs + at, (it->count - at) * sizeof *it->pairs);
        it->count++;
    }
    plain_pair *pair = &it->pairs[at];
    memset(pair, 0, sizeof *pair);
    pair->row.key_len = (uint8_t)key_len;
    pair->row.value_len = (uint8_t)value_len;
    memcpy(pair->row.key, key, key_len);
    memcpy(pair->row.value, value, value_len);
    pair->stamp = it->has_stamps ? ++it->last : 0;
    *was = there;
    return COLA_OK;
}

static inline int32_t plain_put(plain *it, const void *key, size_t key_len, const void *value, size_t value_len, bool *was) {
    return plain_put_if(it, true, key, key_len, 0, value, value_len, was, NULL);
}

static inline int32_t plain_get(const plain *it, const void *key, size_t key_len, const plain_pair **pair) {
    if (!plain_is_key(it, key_len)) return COLA_LENGTH;
    bool there;
    size_t at = plain_below(it, key, key_len, &there);
    *pair = &it->pairs[at];
    return there ? COLA_OK : COLA_NONE;
}

static inline int32_t plain_delete(plain *it, const void *key, size_t key_len) {
    if (!plain_is_key(it, key_len)) return COLA_LENGTH;
    bool there;
    size_t at = plain_below(it, key, key_len, &there);
    if (!there) return COLA_NONE;
    it->count--;
    memmove(it->pairs + at, it->pairs + at + 1, (it->count - at) * sizeof *it->pairs);
    return COLA_OK;
}

#endif
