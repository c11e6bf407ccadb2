/* Many rows at once, and the keys that begin so: how far cola_put_many and cola_get_many go and what they tell of each row, and
 * that a cursor of cola_seek_prefix gives exactly the keys that begin with any bytes.
 *
 *     many
 */
#include <stdio.h>
#include <stdlib.h>
#include <string.h>

#include "cola.h"

#define HOLDS(is) ((is) ? (void)0 : (fprintf(stderr, "many: line %d: not so: %s\n", __LINE__, #is), exit(1)))

/* The bytes of a new store. */
static void *store_of(uint64_t keys, uint8_t version, uint64_t *length) {
    HOLDS(cola_size(keys, 3, version, length) == COLA_OK);
    void *bytes = calloc(1, (size_t)*length);
    HOLDS(bytes != NULL && cola_create(bytes, *length, keys, 3, version) == COLA_OK);
    return bytes;
}

/* Arrays of rows: how far they go, and what is told of each. */
static void of_many(int version) {
    uint64_t length;
    void *bytes = store_of(3, (uint8_t)version, &length);
    cola store = COLA_INIT;
    cola_row rows[4] = {{1, 1, "b", "1"}, {1, 0, "a", ""}, {1, 1, "b", "2"}, {1, 1, "c", "3"}};
    cola_row asked[4] = {{1, 9, "a", "same"}, {1, 9, "z", "same"}, {1, 0, "b", ""}, {0, 9, "", "same"}};
    bool was[4] = {true, true, false, true}, there[4] = {false, true, false, true};
    uint8_t key_max = version == 1 ? COLA_KEY_MAX_1 : COLA_KEY_MAX, value_max = version == 1 ? COLA_VALUE_MAX_1 : COLA_VALUE_MAX;
    size_t done = 7;
    HOLDS(cola_put_many(&store, rows, 4, was, &done) == COLA_CLOSED);
    HOLDS(done == 0 && was[0]);
    HOLDS(cola_get_many(&store, rows, 0, NULL, &done) == COLA_CLOSED);
    HOLDS(cola_open(&store, bytes, length) == COLA_OK);
    HOLDS(cola_put_many(NULL, rows, 4, was, &done) == COLA_NULL);
    HOLDS(cola_put_many(&store, NULL, 4, was, &done) == COLA_NULL);
    HOLDS(cola_put_many(&store, rows, 4, was, NULL) == COLA_NULL);
    HOLDS(cola_get_many(NULL, rows, 4, there, &done) == COLA_NULL);
    HOLDS(cola_get_many(&store, NULL, 4, there, &done) == COLA_NULL);
    HOLDS(cola_get_many(&store, rows, 4, NULL, &done) == COLA_NULL);
    HOLDS(cola_get_many(&store, rows, 4, there, NULL) == COLA_NULL);
    HOLDS(done == 0);
    HOLDS(cola_put_many(&store, NULL, 0, NULL, &done) == COLA_OK);
    HOLDS(cola_get_many(&store, NULL, 0, NULL, &done) == COLA_OK);
    HOLDS(cola_put_many(&store, rows, 4, was, &done) == COLA_OK);
    HOLDS(done == 4 && !was[0] && !was[1] && was[2] && !was[3]);
    HOLDS(cola_get_many(&store, asked, 4, there, &done) == COLA_LENGTH); /* the last one has no key */
    HOLDS(done == 3 && there[0] && !there[1] && there[2] && there[3]);
    HOLDS(asked[0].value_len == 0 && asked[1].value_len == 9 && memcmp(asked[1].value, "same", 5) == 0);
    HOLDS(asked[2].value_len == 1 && asked[2].value[0] == '2' && asked[3].value_len == 9);
    HOLDS(cola_get_many(&store, asked, 3, there, &done) == COLA_OK);
    HOLDS(done == 3);
    rows[0].value[0] = '7', rows[1].key[0] = 'd'; /* a fourth key, where the store is for three */
    HOLDS(cola_put_many(&store, rows, 4, NULL, &done) == COLA_FULL);
    HOLDS(done == 1);
    HOLDS(cola_get_many(&store, asked, 3, there, &done) == COLA_OK);
    HOLDS(asked[2].value[0] == '7'); /* what was put before the refusal is */
    for (int at = 0; at < 4; at++) { /* lengths at the limits, above them, and above those of a row */
        uint8_t key_len = at == 0 ? key_max : at == 1 ? (uint8_t)(key_max + 1) : at == 2 ? 255 : 1;
        uint8_t value_len = at == 0 ? value_max : at == 3 ? (uint8_t)(value_max + 1) : 1;
        cola_row row = {.key_len = key_len, .value_len = value_len, .key = "c"};
        HOLDS(cola_put_many(&store, &row, 1, NULL, &done) == (at == 0 ? COLA_FULL : COLA_LENGTH));
        row.value_len = 255;
        HOLDS(cola_put_many(&store, &row, 1, NULL, &done) == COLA_LENGTH);
        HOLDS(cola_get_many(&store, &row, 1, there, &done) == (at % 3 == 0 ? COLA_OK : COLA_LENGTH));
        HOLDS(done == (at % 3 == 0) && (at != 0 || !there[0]));
    }
    HOLDS(cola_close(&store) == COLA_OK);
    free(bytes);
}

/* The keys that begin so: of any bytes, with 255 at the end, the empty prefix, and one longer than any key. */
static void of_prefixes(void) {
    static const struct { const char *prefix; size_t length, rows; } cases[] = {
        {"", 0, 9}, {"a", 1, 3}, {"ab", 2, 2}, {"abc", 3, 1}, {"abcd", 4, 0}, {"b", 1, 0}, {"\xff", 1, 3}, {"\xff\xff", 2, 2},
        {"\xff\xff\xff", 3, 0}, {"a\xff", 2, 0}, {"", 1, 2}, {"\xfe\xff", 2, 1}, {"\xfe", 1, 1}};
    static const char *const keys[] = {"a", "ab", "abc", "\xff", "\xff\xff", "\xff\xff\x01", "\xfe\xff"};
    uint64_t length;
    void *bytes = store_of(20, 1, &length);
    static const char longest[COLA_KEY_MAX + 1];
    cola store = COLA_INIT;
    cola_cursor cursor;
    cola_row rows[16];
    size_t given;
    HOLDS(cola_open(&store, bytes, length) == COLA_OK);
    for (size_t at = 0; at < sizeof keys / sizeof *keys; at++) HOLDS(cola_put(&store, keys[at], strlen(keys[at]), "", 0, NULL) == COLA_OK);
    HOLDS(cola_put(&store, "\0", 1, "", 0, NULL) == COLA_OK);
    HOLDS(cola_put(&store, "\0\xff", 2, "", 0, NULL) == COLA_OK);
    for (size_t at = 0; at < sizeof cases / sizeof *cases; at++) {
        HOLDS(cola_seek_prefix(&cursor, cases[at].prefix, cases[at].length) == COLA_OK);
        HOLDS(cola_next(&store, &cursor, rows, 16, &given) == (cases[at].rows == 0 ? COLA_NONE : COLA_OK));
        HOLDS(given == cases[at].rows);
        for (size_t row = 0; row < given; row++) HOLDS(memcmp(rows[row].key, cases[at].prefix, cases[at].length) == 0);
    }
    HOLDS(cola_seek_prefix(&cursor, NULL, 0) == COLA_OK);
    HOLDS(cola_seek_prefix(&cursor, NULL, 1) == COLA_NULL);
    HOLDS(cola_seek_prefix(NULL, "a", 1) == COLA_NULL);
    HOLDS(cola_seek_prefix(&cursor, longest, COLA_KEY_MAX) == COLA_OK);
    HOLDS(cola_seek_prefix(&cursor, longest, COLA_KEY_MAX + 1) == COLA_LENGTH);
    HOLDS(cola_seek_prefix(&cursor, longest, (size_t)-1) == COLA_LENGTH);
    HOLDS(cola_close(&store) == COLA_OK);
    free(bytes);
}

int main(void) {
    of_many(1);
    of_many(2);
    of_prefixes();
    return 0;
}
