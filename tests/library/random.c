/* Random calls on a store, each answer compared with that of a sorted array; after every so many calls a checkpoint, whose
 * copy the program opens and prints, and the rows are compared too: of the copy, of a new file that is filled with them, and of the
 * copy once it has grown.
 *
 *     random FOLDER CALLS EVERY [PROGRAM]
 *
 * Two fifths of the calls go to small stores of version 1, two to small ones of version 2, and one to a store of thousands of
 * keys, which has two checkpoints. The seed is fixed. Without PROGRAM the copies are opened by the library alone. It ends with
 * 0 where all was equal, and writes the number of calls. */
#include <fcntl.h>
#include <spawn.h>
#include <stdio.h>
#include <sys/wait.h>
#include <unistd.h>

#include "cola_file.h"
#include "plain.h"

extern char **environ;

enum { MOST = 40 };

static uint64_t state = 20261128;
static char store_path[4096], copy_path[4096], loaded_path[4096], lines_path[4096], wanted_path[4096], written_path[4096];
static const char *program;
static bool any_bytes; /* keys and values of any bytes, which the program's lines can't have */
static long call;
static uint64_t limit, names; /* the keys that a store is for, and how many keys there are */

static uint64_t next(uint64_t below) {
    state ^= state << 13, state ^= state >> 7, state ^= state << 17;
    return (state >> 11) % below;
}

#define SAME(what, is) ((is) ? (void)0 : differ(what, __LINE__))
static void differ(const char *what, int line) {
    fprintf(stderr, "random: call %ld: %s differs (line %d)\n", call, what, line);
    exit(1);
}

/* One of so many keys, many of them beginnings of others; now and then one that is too long, or empty. */
static size_t some_key(const plain *it, uint8_t *key) {
    uint64_t which = next(names), number = which;
    size_t length = 1 + (size_t)(which % 7) * (it->key_max - 1) / 6;
    if (next(200) == 0) length = next(2) == 0 ? 0 : it->key_max + 1 + next(30);
    for (size_t at = 0; at < length; at++) {
        key[at] = (uint8_t)(any_bytes ? number * 97 % 256 : 'a' + number % 5);
        number /= 5;
    }
    return length;
}

static size_t some_value(const plain *it, uint8_t *value) {
    size_t length = next(300) == 0 ? it->value_max + 1 + next(100) : next(it->value_max + 1);
    for (size_t at = 0; at < length; at++) value[at] = (uint8_t)(any_bytes ? next(256) : '!' + next(94));
    return length;
}

static void puts_one(plain *it, cola *store) {
    uint8_t key[128], value[256];
    size_t key_len = some_key(it, key), value_len = some_value(it, value);
    bool was = false, plain_was = false;
    int32_t answer = cola_put(store, key, key_len, value, value_len, next(10) == 0 ? NULL : &was);
    SAME("the answer of a put", answer == plain_put(it, key, key_len, value, value_len, &plain_was));
    SAME("whether a put found the key", answer != COLA_OK || !was || plain_was);
}

static void puts_if(plain *it, cola *store) {
    uint8_t key[128], value[256];
    size_t key_len = some_key(it, key), value_len = some_value(it, value);
    const plain_pair *pair = NULL;
    uint64_t seen = plain_get(it, key, key_len, &pair) == COLA_OK ? pair->stamp : 0, stamp = 77, plain_stamp = 77;
    bool was;
    if (next(3) == 0) seen = next(it->last + 2);
    int32_t answer = cola_put_if(store, key, key_len, seen, value, value_len, &stamp);
    SAME("the answer of a put_if", answer == plain_put_if(it, false, key, key_len, seen, value, value_len, &was, &plain_stamp));
    SAME("the stamp of a put_if", answer != COLA_OTHER || stamp == plain_stamp);
}

static void gets(plain *it, cola *store) {
    uint8_t key[128], value[COLA_VALUE_MAX];
    size_t key_len = some_key(it, key), value_len = 999;
    const plain_pair *pair = NULL;
    uint64_t stamp = 999;
    int32_t answer = cola_get(store, key, key_len, value, &value_len);
    SAME("the answer of a get", answer == plain_get(it, key, key_len, &pair));
    SAME("a value", answer != COLA_OK || (value_len == pair->row.value_len && memcmp(value, pair->row.value, value_len) == 0));
    SAME("the answer of a stamp", cola_stamp(store, key, key_len, &stamp) == answer);
    SAME("a stamp", answer != COLA_OK || stamp == pair->stamp);
}

/* Rows put at once, some of which may be refused: those before the first that is are put. */
static void puts_many(plain *it, cola *store) {
    uint8_t key[128], value[256];
    cola_row rows[MOST] = {{0}};
    bool was[MOST], plain_was = false;
    size_t count = next(MOST), done = 999, wanted = 0;
    int32_t plain_answer = COLA_OK;
    for (size_t at = 0; at < count; at++) {
        rows[at].key_len = (uint8_t)some_key(it, key), rows[at].value_len = (uint8_t)some_value(it, value);
        memcpy(rows[at].key, key, COLA_KEY_MAX), memcpy(rows[at].value, value, COLA_VALUE_MAX);
    }
    int32_t answer = cola_put_many(store, rows, count, was, &done);
    for (; wanted < count && plain_answer == COLA_OK; wanted += plain_answer == COLA_OK) {
        plain_answer = plain_put(it, rows[wanted].key, rows[wanted].key_len, rows[wanted].value, rows[wanted].value_len, &plain_was);
        SAME("whether one of many puts found the key", plain_answer != COLA_OK || was[wanted] == plain_was);
    }
    SAME("the answer of many puts", answer == plain_answer);
    SAME("how many were put", done == wanted);
}

/* The values of many keys, up to the first that is refused. */
static void gets_many(plain *it, cola *store) {
    uint8_t key[128];
    cola_row rows[MOST] = {{0}};
    bool there[MOST];
    const plain_pair *pair = NULL;
    size_t count = next(MOST), done = 999, wanted = 0;
    int32_t plain_answer = COLA_OK;
    for (size_t at = 0; at < count; at++) rows[at].key_len = (uint8_t)some_key(it, key), memcpy(rows[at].key, key, COLA_KEY_MAX);
    int32_t answer = cola_get_many(store, rows, count, there, &done);
    for (; wanted < count; wanted++) {
        plain_answer = plain_get(it, rows[wanted].key, rows[wanted].key_len, &pair);
        if (plain_answer == COLA_LENGTH) break;
        SAME("whether one of many keys is there", there[wanted] == (plain_answer == COLA_OK));
        SAME("one of many values", !there[wanted] || plain_order(rows[wanted].value, rows[wanted].value_len, pair->row.value, pair->row.value_len) == 0);
    }
    SAME("the answer of many gets", answer == (wanted < count ? COLA_LENGTH : COLA_OK));
    SAME("how many were looked up", done == wanted);
}

/* The keys that begin as one of them does, or as its bytes and one more. */
static void prefixes(plain *it, cola *store) {
    uint8_t prefix[128];
    size_t length = some_key(it, prefix) % COLA_KEY_MAX, given;
    bool there;
    cola_cursor cursor;
    cola_row rows[MOST];
    if (next(3) == 0) prefix[length++] = next(2) == 0 ? UINT8_MAX : (uint8_t)next(256);
    SAME("the answer of a seek of a prefix", cola_seek_prefix(&cursor, prefix, length) == COLA_OK);
    for (size_t at = plain_below(it, prefix, length, &there); cola_next(store, &cursor, rows, MOST, &given) == COLA_OK;)
        for (size_t row = 0; row < given; row++, at++) {
            const cola_row *mine = &it->pairs[at].row;
            SAME("a row too many of a prefix", at < it->count && mine->key_len >= length && memcmp(mine->key, prefix, length) == 0);
            SAME("a key of a prefix", plain_order(mine->key, mine->key_len, rows[row].key, rows[row].key_len) == 0);
            bool is_last = at + 1 == it->count || it->pairs[at + 1].row.key_len < length || memcmp(it->pairs[at + 1].row.key, prefix, length) != 0;
            SAME("the last row of a prefix", !is_last || row + 1 == given);
        }
}

static void same_row(const cola_row *mine, const cola_row *row) {
    SAME("a key of a row", plain_order(mine->key, mine->key_len, row->key, row->key_len) == 0);
    SAME("a value of a row", plain_order(mine->value, mine->value_len, row->value, row->value_len) == 0);
}

/* A range, with bounds of any lengths that a cursor takes, a few rows at a time, and now and then a put in between. */
static void ranges(plain *it, cola *store) {
    uint8_t low[128], high[128];
    size_t low_len = some_key(it, low) % (COLA_KEY_MAX + 1), high_len = some_key(it, high) % (COLA_KEY_MAX + 1), given;
    bool bounded = next(4) != 0, there;
    cola_cursor cursor;
    cola_row rows[MOST];
    SAME("the answer of a seek", cola_seek(&cursor, low, low_len, bounded ? high : NULL, bounded ? high_len : 0) == COLA_OK);
    size_t at = plain_below(it, low, low_len, &there), most = 1 + next(MOST);
    for (int steps = 0; steps < 30; steps++) {
        size_t end = bounded ? plain_below(it, high, high_len, &there) : it->count;
        size_t wanted = at >= end ? 0 : end - at < most ? end - at : most;
        int32_t answer = cola_next(store, &cursor, rows, most, &given);
        SAME("the answer of a next", answer == (wanted == 0 ? COLA_NONE : COLA_OK));
        SAME("how many rows", given == wanted);
        for (size_t row = 0; row < given; row++) same_row(&it->pairs[at + row].row, &rows[row]);
        if (given == 0) break;
        if (next(8) == 0) puts_one(it, store);
        at = plain_below(it, rows[given - 1].key, rows[given - 1].key_len, &there);
        at += there;
    }
}

/* A cursor that goes in either direction, a few rows at a time, from either end of a range, and now and then a put or a delete
 * in between. Beside it stands its place: before a key, or behind it. */
static void turns(plain *it, cola *store) {
    uint8_t low[128], high[128], place[COLA_KEY_MAX];
    size_t low_len = some_key(it, low) % (COLA_KEY_MAX + 1), high_len = some_key(it, high) % (COLA_KEY_MAX + 1), given;
    bool bounded = next(4) != 0, from_end = next(2) == 0, there, behind = from_end && !bounded;
    cola_cursor cursor;
    cola_row rows[MOST];
    size_t place_len = !from_end ? low_len : bounded ? high_len : COLA_KEY_MAX;
    memset(place, 255, COLA_KEY_MAX);
    if (!from_end || bounded) memcpy(place, from_end ? high : low, place_len);
    int32_t seek = from_end ? cola_seek_last(&cursor, bounded ? high : NULL, bounded ? high_len : 0)
                            : cola_seek(&cursor, low, low_len, bounded ? high : NULL, bounded ? high_len : 0);
    SAME("the answer of a seek", seek == COLA_OK);
    for (int steps = 0; steps < 20; steps++) {
        bool falls = next(2) == 0;
        size_t most = 1 + next(MOST), end = bounded ? plain_below(it, high, high_len, &there) : it->count;
        size_t at = plain_below(it, place, place_len, &there);
        at += there && behind;
        size_t ahead = falls ? (at < end ? at : end) : at < end ? end - at : 0, wanted = ahead < most ? ahead : most;
        int32_t answer = (falls ? cola_prev : cola_next)(store, &cursor, rows, most, &given);
        SAME("the answer of a step", answer == (wanted == 0 ? COLA_NONE : COLA_OK));
        SAME("how many rows", given == wanted);
        for (size_t row = 0; row < given; row++) same_row(&it->pairs[falls ? ahead - 1 - row : at + row].row, &rows[row]);
        if (given > 0) memcpy(place, rows[given - 1].key, place_len = rows[given - 1].key_len), behind = !falls;
        if (next(8) == 0) puts_one(it, store);
        if (next(8) != 0 || given == 0) continue;
        const cola_row *gone = &rows[next(given)]; /* one of those that were given, be it the one at the place */
        SAME("a delete of a row", cola_delete(store, gone->key, gone->key_len) == plain_delete(it, gone->key, gone->key_len));
    }
}

/* What a store says of itself. */
static void infos(const plain *it, cola *store, int version, uint8_t block) {
    cola_store_info info;
    cola_level_info level = {0};
    uint64_t bytes, cells = 0;
    SAME("the answer of an info", cola_info(store, &info) == COLA_OK);
    SAME("an info", info.keys == it->limit && info.count == it->count && info.version == version && info.block == block);
    SAME("the bytes of an info", cola_size(info.keys, info.block, info.version, &bytes) == COLA_OK && info.bytes == bytes);
    SAME("the bounds of an info", info.write_bound == 40u * info.levels && info.get_bound == 8u * info.levels);
    for (uint8_t at = 0; at < info.levels; at++, cells += level.visible) {
        SAME("the answer of a level", cola_level(store, at, &level) == COLA_OK);
        SAME("a level", level.room == (uint64_t)4 << at && level.visible <= level.room && level.shadow <= level.room);
    }
    SAME("the cells of all levels", cells >= it->count);
    SAME("a level behind the last", cola_level(store, info.levels, &level) == COLA_NONE && cola_level(store, 255, &level) == COLA_NONE);
}

static void counts(plain *it, cola *store) {
    uint64_t count;
    SAME("the answer of a count", cola_count(store, &count) == COLA_OK);
    SAME("a count", count == it->count);
}

/* Whether two files have the same bytes. */
static bool same_files(const char *a, const char *b) {
    FILE *one = fopen(a, "rb"), *two = fopen(b, "rb");
    int x = EOF, y = one != NULL && two != NULL ? EOF : 0;
    if (one != NULL && two != NULL) do x = getc(one), y = getc(two); while (x == y && x != EOF);
    if (one != NULL) fclose(one);
    if (two != NULL) fclose(two);
    return x == y;
}

/* Runs the program with these words and the lines as its input. */
static void run_program(char *words[]) {
    posix_spawn_file_actions_t files;
    pid_t child;
    int status;
    posix_spawn_file_actions_init(&files);
    posix_spawn_file_actions_addopen(&files, 0, lines_path, O_RDONLY, 0);
    posix_spawn_file_actions_addopen(&files, 1, written_path, O_WRONLY | O_CREAT | O_TRUNC, 0666);
    SAME("the start of the program", posix_spawn(&child, program, &files, NULL, words, environ) == 0);
    posix_spawn_file_actions_destroy(&files);
    waitpid(child, &status, 0);
    SAME("the status of the program", status == 0);
}

/* The copy, as the program prints it (where its keys are of any bytes, as it counts and tests it). */
static void program_opens(const plain *it) {
    FILE *wanted = fopen(wanted_path, "w");
    if (wanted == NULL) perror(wanted_path), exit(1);
    if (any_bytes) {
        fprintf(wanted, "sound %zu\n", it->count);
    } else {
        for (size_t at = 0; at < it->count; at++) {
            const cola_row *row = &it->pairs[at].row;
            fprintf(wanted, "row %.*s %.*s\n", row->key_len, (const char *)row->key, row->value_len, (const char *)row->value);
        }
        fprintf(wanted, "end %zu\n", it->count);
    }
    fclose(wanted);
    run_program(any_bytes ? (char *[]){"cola", "check", copy_path, NULL} : (char *[]){"cola", "run", copy_path, NULL});
    SAME("what the program writes of a copy", same_files(wanted_path, written_path));
}

/* Whether the closed store in a file has these rows, also for its test. Stamps are compared where it has the old ones. */
static void library_opens(const plain *it, const char *path, bool has_stamps) {
    cola_file copy = COLA_FILE_INIT;
    cola_cursor cursor;
    cola_row rows[MOST];
    cola_verdict verdict;
    size_t given, at = 0;
    SAME("the test of a copy", cola_file_check(path, &verdict) == COLA_OK && verdict.flaw == COLA_SOUND && verdict.count == it->count);
    SAME("the opening of a copy", cola_file_open(&copy, path) == COLA_OK);
    SAME("a seek in a copy", cola_seek(&cursor, NULL, 0, NULL, 0) == COLA_OK);
    while (cola_next(&copy.store, &cursor, rows, MOST, &given) == COLA_OK)
        for (size_t row = 0; row < given; row++, at++) {
            const plain_pair *mine = &it->pairs[at];
            uint64_t stamp;
            SAME("a row more in a copy", at < it->count);
            same_row(&mine->row, &rows[row]);
            SAME("a stamp of a copy", cola_stamp(&copy.store, rows[row].key, rows[row].key_len, &stamp) == COLA_OK);
            SAME("a stamp of a copy", stamp == mine->stamp || !has_stamps);
        }
    SAME("the rows of a copy", at == it->count);
    SAME("the closing of a copy", cola_file_close(&copy) == COLA_OK);
}

/* A new file of the rows, some at a time; now and then one that is out of order is refused, and left out. */
static void loads(const plain *it, uint8_t version) {
    cola_file_load load = COLA_FILE_LOAD_INIT;
    cola_row rows[MOST];
    size_t done;
    uint64_t loaded;
    unlink(loaded_path);
    SAME("the beginning of a load", cola_file_load_begin(&load, loaded_path, limit + next(limit), 3, version) == COLA_OK);
    for (size_t at = 0; at < it->count; at += done) {
        size_t count = 1 + next(MOST);
        if (count > it->count - at) count = it->count - at;
        for (size_t row = 0; row < count; row++) rows[row] = it->pairs[at + row].row;
        size_t wrong = at > 0 && next(5) == 0 ? next(count) : count;
        bool is_long = next(3) == 0;
        if (wrong < count) rows[wrong] = it->pairs[next(at + wrong)].row;
        if (wrong < count && is_long) rows[wrong].key_len = (uint8_t)(it->key_max + 1 + next(100));
        int32_t answer = cola_load_many(&load.load, rows, count, &done);
        SAME("the answer of a load", answer == (wrong == count ? COLA_OK : is_long ? COLA_LENGTH : COLA_ORDER));
        SAME("how many were loaded", done == wrong);
    }
    SAME("the end of a load", cola_file_load_end(&load, &loaded) == COLA_OK && loaded == it->count);
    library_opens(it, loaded_path, false);
}

/* The copy grows, in its place, or gets smaller. */
static void grows(const plain *it) {
    uint64_t rows = 999, keys = it->count + next(2 * limit) + 1;
    if (it->count > 1) SAME("a growing for fewer keys", cola_file_grow(copy_path, it->count - 1, 3, &rows) == COLA_FEWER && rows == 999);
    SAME("a growing", cola_file_grow(copy_path, keys, 3, &rows) == COLA_OK && rows == it->count);
    library_opens(it, copy_path, true);
}

static void calls_on(int version, uint8_t block, long calls, long every) {
    plain it = plain_new(limit, version);
    cola_file file = COLA_FILE_INIT;
    unlink(store_path);
    SAME("a new file", cola_file_create(store_path, limit, block, (uint8_t)version) == COLA_OK);
    SAME("its opening", cola_file_open(&file, store_path) == COLA_OK);
    for (long done = 0; done < calls; done++, call++) {
        uint64_t which = next(100);
        if (which < 40) puts_one(&it, &file.store);
        else if (which < 50) puts_if(&it, &file.store);
        else if (which < 70) gets(&it, &file.store);
        else if (which < 78) counts(&it, &file.store);
        else if (which < 81) ranges(&it, &file.store);
        else if (which < 82) prefixes(&it, &file.store);
        else if (which < 83) puts_many(&it, &file.store);
        else if (which < 84) gets_many(&it, &file.store);
        else if (which < 86) turns(&it, &file.store);
        else if (which < 87) infos(&it, &file.store, version, block);
        else {
            uint8_t key[128];
            size_t length = some_key(&it, key);
            SAME("the answer of a delete", cola_delete(&file.store, key, length) == plain_delete(&it, key, length));
        }
        if (next(2000) == 0) {
            SAME("a closing", cola_file_close(&file) == COLA_OK);
            SAME("an opening", cola_file_open(&file, store_path) == COLA_OK);
        }
        if (next(500) == 0) SAME("a checkpoint in memory", cola_checkpoint(&file.store) == COLA_OK);
        if ((done + 1) % every == 0) {
            SAME("a checkpoint", cola_file_checkpoint(&file, copy_path) == COLA_OK);
            if (program != NULL) program_opens(&it);
            if (program != NULL && done % (10 * every) >= every) continue;
            library_opens(&it, copy_path, true);
            loads(&it, (uint8_t)version);
            grows(&it);
        }
    }
    SAME("the last closing", cola_file_close(&file) == COLA_OK);
    free(it.pairs);
}

int main(int count, char **words) {
    if (count < 4) return fprintf(stderr, "random FOLDER CALLS EVERY [PROGRAM]\n"), 2;
    long calls = atol(words[2]), every = atol(words[3]);
    program = count > 4 ? words[4] : NULL;
    snprintf(store_path, sizeof store_path, "%s/store", words[1]);
    snprintf(copy_path, sizeof copy_path, "%s/copy", words[1]);
    snprintf(loaded_path, sizeof loaded_path, "%s/loaded", words[1]);
    snprintf(lines_path, sizeof lines_path, "%s/lines", words[1]);
    snprintf(wanted_path, sizeof wanted_path, "%s/wanted", words[1]);
    snprintf(written_path, sizeof written_path, "%s/written", words[1]);
    FILE *lines = fopen(lines_path, "w");
    if (lines == NULL) return perror(lines_path), 1;
    fputs("scan ! 16777216\n", lines);
    fclose(lines);
    for (int version = 1; version <= 2; version++)
        for (int any = 0; any < 2; any++) {
            any_bytes = any, limit = 300, names = 400;
            calls_on(version, (uint8_t)(3 + 2 * any), calls / 5, every);
        }
    any_bytes = false, limit = 20000, names = 60000;
    calls_on(1, 5, calls / 5, calls / 10);
    printf("%ld calls\n", call);
    return 0;
}
