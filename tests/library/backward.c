/* Rows backwards, where a cursor turns and where it ends; what a store says of itself. Random calls beside a sorted array are in
 * random.c, and what is handed on to the proved calls in handed.c.
 *
 *     backward
 */
#include <stdio.h>
#include <stdlib.h>
#include <string.h>

#include "cola.h"

#define HOLDS(is) ((is) ? (void)0 : (fprintf(stderr, "backward: line %d: not so: %s\n", __LINE__, #is), exit(1)))

enum { MOST = 8 };

static cola store;
static cola_cursor cursor;
static cola_row rows[MOST];

/* A new store with these keys, open. */
static void *open_with(const char *const *keys, size_t count, uint8_t version) {
    uint64_t length;
    HOLDS(cola_size(20, 3, version, &length) == COLA_OK);
    void *bytes = calloc(1, (size_t)length);
    HOLDS(bytes != NULL && cola_create(bytes, (size_t)length, 20, 3, version) == COLA_OK);
    HOLDS(cola_open(&store, bytes, (size_t)length) == COLA_OK);
    for (size_t at = 0; at < count; at++) HOLDS(cola_put(&store, keys[at], strlen(keys[at]), "v", 1, NULL) == COLA_OK);
    return bytes;
}

static void close_all(void *bytes) {
    HOLDS(cola_close(&store) == COLA_OK);
    free(bytes);
}

/* Whether the next rows, or those before, are these, each with one byte more than the one before it said so. */
static bool gives(bool falls, size_t most, const char *keys) {
    char text[64] = "";
    size_t given = 77;
    memset(rows, 0, sizeof rows);
    int32_t answer = (falls ? cola_prev : cola_next)(&store, &cursor, rows, most, &given);
    HOLDS(given <= most && answer == (given == 0 && most > 0 ? COLA_NONE : COLA_OK));
    for (size_t at = 0; at < given; at++) {
        HOLDS(rows[at].value_len == 1 && rows[at].value[0] == 'v');
        snprintf(text + strlen(text), sizeof text - strlen(text), "%s%.*s", at == 0 ? "" : " ", rows[at].key_len, (const char *)rows[at].key);
    }
    return strcmp(text, keys) == 0;
}

/* A cursor of each call of a seek, and where it turns. */
static void of_turns(uint8_t version) {
    static const char *const keys[] = {"a", "b", "ba", "c", "d"};
    void *bytes = open_with(keys, 5, version);
    HOLDS(cola_seek_last(&cursor, NULL, 0) == COLA_OK);
    HOLDS(gives(true, 2, "d c") && gives(true, 2, "ba b") && gives(true, 2, "a") && gives(true, 2, ""));
    HOLDS(gives(false, 3, "a b ba") && gives(true, 1, "ba") && gives(false, MOST, "ba c d") && gives(false, 1, ""));
    HOLDS(gives(true, 0, "") && gives(true, MOST, "d c ba b a") && gives(true, 0, ""));
    HOLDS(cola_seek_last(&cursor, "c", 1) == COLA_OK); /* the end is no key, and holds in both directions */
    HOLDS(gives(false, MOST, "") && gives(true, 2, "ba b") && gives(false, MOST, "b ba") && gives(true, MOST, "ba b a"));
    HOLDS(cola_seek_last(&cursor, "bb", 2) == COLA_OK && gives(true, 1, "ba"));
    HOLDS(cola_seek_last(&cursor, "a", 1) == COLA_OK && gives(true, 1, "") && gives(false, 1, ""));
    HOLDS(cola_seek_last(&cursor, "", 0) == COLA_OK && gives(true, 1, "") && gives(false, 1, "")); /* no key is below it */
    HOLDS(cola_seek(&cursor, "c", 1, NULL, 0) == COLA_OK); /* the rows before its place */
    HOLDS(gives(true, 2, "ba b") && gives(false, 2, "b ba") && gives(false, MOST, "c d"));
    HOLDS(cola_seek(&cursor, "d", 1, "c", 1) == COLA_OK && gives(false, 1, "") && gives(true, 2, "ba b"));
    HOLDS(cola_seek(&cursor, NULL, 0, NULL, 0) == COLA_OK && gives(true, 1, "") && gives(false, 1, "a") && gives(true, 2, "a"));
    HOLDS(cola_seek_prefix(&cursor, "b", 1) == COLA_OK);
    HOLDS(gives(true, MOST, "a") && gives(false, MOST, "a b ba") && gives(false, 1, "") && gives(true, MOST, "ba b a"));
    /* A row that was given and is deleted, and one that is put between. */
    HOLDS(cola_seek_last(&cursor, NULL, 0) == COLA_OK && gives(true, 3, "d c ba") && cola_delete(&store, "ba", 2) == COLA_OK);
    HOLDS(cola_put(&store, "bb", 2, "v", 1, NULL) == COLA_OK && gives(false, 1, "bb") && gives(true, 2, "bb b"));
    close_all(bytes);
}

/* The longest keys, and those of bytes of 255: an end is behind them all. */
static void of_last_keys(uint8_t version) {
    size_t longest = version == 1 ? COLA_KEY_MAX_1 : COLA_KEY_MAX, given = 7;
    uint8_t key[COLA_KEY_MAX + 1];
    memset(key, 255, sizeof key);
    void *bytes = open_with(NULL, 0, version);
    HOLDS(cola_seek_last(&cursor, NULL, 0) == COLA_OK && gives(true, 1, ""));
    HOLDS(cola_put(&store, key, longest, "v", 1, NULL) == COLA_OK);
    for (size_t len = 0; len <= COLA_KEY_MAX; len++) {
        HOLDS(cola_seek_last(&cursor, key, len) == COLA_OK);
        HOLDS(cola_prev(&store, &cursor, rows, 1, &given) == (len > longest ? COLA_OK : COLA_NONE));
    }
    HOLDS(cola_seek_last(&cursor, NULL, 0) == COLA_OK && cola_prev(&store, &cursor, rows, MOST, &given) == COLA_OK);
    HOLDS(given == 1 && rows[0].key_len == longest && memcmp(rows[0].key, key, longest) == 0);
    cola_cursor before = cursor; /* one that is too long changes none */
    HOLDS(cola_seek_last(&cursor, key, COLA_KEY_MAX + 1) == COLA_LENGTH && cola_seek_last(&cursor, key, (size_t)-1) == COLA_LENGTH);
    HOLDS(cursor.from_len == longest && memcmp(before.from, cursor.from, longest) == 0 && !cursor.behind && !cursor.bounded);
    cursor.from_len = COLA_KEY_MAX + 1, given = 7;
    HOLDS(cola_prev(&store, &cursor, rows, 1, &given) == COLA_LENGTH && given == 7);
    cursor = before, cursor.until_len = 255;
    HOLDS(cola_prev(&store, &cursor, rows, 1, &given) == COLA_LENGTH && cola_next(&store, &cursor, rows, 1, &given) == COLA_LENGTH);
    close_all(bytes);
    HOLDS(cola_prev(&store, &before, rows, 1, &given) == COLA_CLOSED && given == 7);
}

/* What a store says of itself, as it fills. */
static void of_infos(uint8_t version) {
    cola_store_info info = {0}, none = {0};
    cola_level_info level = {7, 7, 7};
    uint64_t length, cells;
    char key[16];
    HOLDS(cola_info(&store, &none) == COLA_CLOSED && none.keys == 0 && cola_level(&store, 0, &level) == COLA_CLOSED && level.room == 7);
    void *bytes = open_with(NULL, 0, version);
    HOLDS(cola_size(20, 3, version, &length) == COLA_OK);
    for (uint64_t count = 0; count <= 20; count++) {
        HOLDS(cola_info(&store, &info) == COLA_OK && info.keys == 20 && info.count == count && info.bytes == length);
        HOLDS(info.version == version && info.block == 3 && info.levels == 4 && info.write_bound == 160 && info.get_bound == 32);
        cells = 0;
        for (uint8_t at = 0; at < info.levels; at++, cells += level.visible) {
            HOLDS(cola_level(&store, at, &level) == COLA_OK && level.room == (uint64_t)4 << at);
            HOLDS(level.visible <= level.room && level.shadow <= level.room);
        }
        HOLDS(cells >= count && (count > 0 || cells == 0));
        level.room = 7;
        HOLDS(cola_level(&store, info.levels, &level) == COLA_NONE && cola_level(&store, 255, &level) == COLA_NONE && level.room == 7);
        snprintf(key, sizeof key, "k%02d", (int)count);
        HOLDS(cola_put(&store, key, 3, "v", 1, NULL) == (count < 20 ? COLA_OK : COLA_FULL));
    }
    close_all(bytes);
}

int main(void) {
    for (uint8_t version = 1; version <= 2; version++) {
        of_turns(version);
        of_last_keys(version);
        of_infos(version);
    }
    return 0;
}
