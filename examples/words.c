/* An index of the words of a text, in a store: under each word stand the number of the first line that has it, and how often
 * it stands there in all. Then the index is asked for one word, and for all words from one to another.
 *
 *     cc words.c $(pkg-config --cflags --libs cola) -o words
 *     ./words INDEX < sonnet.txt          INDEX is a new file
 */
#include <cola_file.h>
#include <ctype.h>
#include <stdio.h>
#include <stdlib.h>
#include <string.h>

/* Ends the program where the answer is none of those that are expected. */
static int32_t expect(int32_t answer, int32_t other) {
    if (answer == COLA_OK || answer == other) return answer;
    fprintf(stderr, "words: %s\n", cola_strerror(answer));
    exit(1);
}

/* Counts one more of a word that stands in a line. */
static void count_word(cola *index, const char *word, size_t length, unsigned line) {
    char value[COLA_VALUE_MAX + 1], changed[COLA_VALUE_MAX];
    size_t value_len;
    unsigned first = line, times = 0;
    if (expect(cola_get(index, word, length, value, &value_len), COLA_NONE) == COLA_OK) {
        value[value_len] = 0;
        if (sscanf(value, "line:%u,times:%u", &first, &times) != 2) exit(1);
    }
    int changed_len = snprintf(changed, sizeof changed, "line:%u,times:%u", first, times + 1);
    expect(cola_put(index, word, length, changed, (size_t)changed_len, NULL), COLA_OK);
}

/* Counts the words of the input that are no longer than a key may be. */
static void count_words(cola *index, FILE *text) {
    char word[COLA_KEY_MAX_1];
    size_t length = 0;
    unsigned line = 1;
    for (int c; (c = getc(text)) != EOF || length > 0;) {
        if (c != EOF && isalpha(c)) {
            if (length < sizeof word) word[length] = (char)tolower(c);
            length++;
            continue;
        }
        if (length > 0 && length <= sizeof word) count_word(index, word, length, line);
        length = 0;
        if (c == '\n') line++;
    }
}

static void show(cola *index, const char *word) {
    char value[COLA_VALUE_MAX];
    size_t value_len;
    if (expect(cola_get(index, word, strlen(word), value, &value_len), COLA_NONE) == COLA_NONE) printf("none\n");
    else printf("val %.*s\n", (int)value_len, value);
}

static void show_range(cola *index, const char *low, const char *high) {
    cola_cursor cursor;
    cola_row rows[16];
    size_t given, all = 0;
    expect(cola_seek(&cursor, low, strlen(low), high, strlen(high)), COLA_OK);
    while (expect(cola_next(index, &cursor, rows, 16, &given), COLA_NONE) == COLA_OK) {
        for (size_t at = 0; at < given; at++)
            printf("row %.*s %.*s\n", rows[at].key_len, (char *)rows[at].key, rows[at].value_len, (char *)rows[at].value);
        all += given;
    }
    printf("end %zu\n", all);
}

int main(int count, char **words) {
    cola_file index = COLA_FILE_INIT;
    uint64_t keys;
    if (count != 2) return fprintf(stderr, "words INDEX < TEXT\n"), 2;
    expect(cola_file_create(words[1], 10000, 5, 1), COLA_OK);
    expect(cola_file_open(&index, words[1]), COLA_OK);
    count_words(&index.store, stdin);
    expect(cola_count(&index.store, &keys), COLA_OK);
    printf("%llu words\n", (unsigned long long)keys);
    show(&index.store, "summer");
    show(&index.store, "winter");
    show_range(&index.store, "so", "su");
    expect(cola_file_close(&index), COLA_OK);
    return 0;
}
