// Decodes and encodes cells as a plain C program would: the same checks, the padding by memcmp with
// zeros. The one argument is the number of rounds over 64 cells.
#include <stdint.h>
#include <stdio.h>
#include <stdlib.h>
#include <string.h>
#include <time.h>

enum { CELLS = 64, LAST_KEY = 40, LAST_VALUE = 72 };

struct cell {
    uint8_t kind, young, key_len, value_len;
    uint32_t link;
    uint64_t stamp;
    uint8_t key[LAST_KEY], value[LAST_VALUE];
};

static const uint8_t ZEROS[LAST_VALUE];

static inline __attribute__((always_inline)) int decode_in(struct cell *cell, const uint8_t *bytes, int key_at, int value_at, int end)
{
    int key_room = value_at - key_at, value_room = end - value_at;
    uint8_t kind = bytes[0], young = bytes[1], key_len = bytes[2], value_len = bytes[3];
    if (kind > 2 || young > (kind == 2 ? 0 : 1))
        return 0;
    if (key_len < 1 || key_len > key_room || value_len > value_room || (kind != 0 && value_len != 0))
        return 0;
    if (memcmp(bytes + key_at + key_len, ZEROS, key_room - key_len) != 0)
        return 0;
    if (memcmp(bytes + value_at + value_len, ZEROS, value_room - value_len) != 0)
        return 0;
    uint64_t stamp = 0;
    if (key_at == 16) {
        memcpy(&stamp, bytes + 8, 8);
        if (stamp > (uint64_t)1 << 63 || (kind != 0 && stamp != 0))
            return 0;
    }
    cell->kind = kind;
    cell->young = young;
    cell->key_len = key_len;
    cell->value_len = value_len;
    memcpy(&cell->link, bytes + 4, 4);
    cell->stamp = stamp;
    memset(cell->key, 0, LAST_KEY);
    memset(cell->value, 0, LAST_VALUE);
    memcpy(cell->key, bytes + key_at, key_len);
    memcpy(cell->value, bytes + value_at, value_len);
    return 1;
}

static inline __attribute__((always_inline)) void encode_in(const struct cell *cell, uint8_t *into, int key_at, int value_at, int end)
{
    memset(into, 0, end);
    into[0] = cell->kind;
    into[1] = cell->young;
    into[2] = cell->key_len;
    into[3] = cell->value_len;
    memcpy(into + 4, &cell->link, 4);
    if (key_at == 16)
        memcpy(into + 8, &cell->stamp, 8);
    memcpy(into + key_at, cell->key, cell->key_len);
    memcpy(into + value_at, cell->value, cell->value_len);
}

__attribute__((noinline)) static int decode(struct cell *cell, const uint8_t *bytes) { return decode_in(cell, bytes, 8, 32, 64); }
__attribute__((noinline)) static int decode_wide(struct cell *cell, const uint8_t *bytes) { return decode_in(cell, bytes, 16, 56, 128); }
__attribute__((noinline)) static void encode(const struct cell *cell, uint8_t *into) { encode_in(cell, into, 8, 32, 64); }
__attribute__((noinline)) static void encode_wide(const struct cell *cell, uint8_t *into) { encode_in(cell, into, 16, 56, 128); }

static void sample(uint8_t *cell, int i, int key, int value, int key_at, int value_at)
{
    if (i % 4 >= 2)
        value = 0;
    cell[0] = i % 4 < 2 ? 0 : i % 4 - 1;
    cell[1] = cell[0] == 2 ? 0 : i % 2;
    cell[2] = key;
    cell[3] = value;
    memset(cell + 4, i, 4);
    memset(cell + key_at, 0x61 + i % 26, key);
    memset(cell + value_at, 0x41, value);
}

static double now(void)
{
    struct timespec time;
    clock_gettime(CLOCK_MONOTONIC, &time);
    return time.tv_sec * 1e6 + time.tv_nsec / 1e3;
}

static uint32_t number(const uint8_t *bytes)
{
    uint32_t n;
    memcpy(&n, bytes, 4);
    return n;
}

int main(int count, char **words)
{
    long rounds = count > 1 ? atol(words[1]) : 0;
    static uint8_t narrow[CELLS][64], wide[CELLS][128];
    uint8_t into[128];
    struct cell cell;
    uint64_t a = 0, b = 0, c = 0, d = 0;
    for (int i = 0; i < CELLS; i++) {
        sample(narrow[i], i, 1 + i % 24, i * 7 % 33, 8, 32);
        sample(wide[i], i, 1 + i % 40, i * 7 % 73, 16, 56);
    }
    double start = now();
    for (long r = 0; r < rounds; r++)
        for (int i = 0; i < CELLS; i++)
            if (decode(&cell, narrow[i]))
                a += cell.link + cell.key_len;
    double decoded = now();
    for (long r = 0; r < rounds; r++)
        for (int i = 0; i < CELLS; i++)
            if (decode(&cell, narrow[i])) {
                encode(&cell, into);
                b += (uint64_t)number(into + 8) + number(into + 32);
            }
    double copied = now();
    for (long r = 0; r < rounds; r++)
        for (int i = 0; i < CELLS; i++)
            if (decode_wide(&cell, wide[i]))
                c += cell.link + cell.key_len;
    double decoded_wide = now();
    for (long r = 0; r < rounds; r++)
        for (int i = 0; i < CELLS; i++)
            if (decode_wide(&cell, wide[i])) {
                encode_wide(&cell, into);
                d += (uint64_t)number(into + 16) + number(into + 56);
            }
    double copied_wide = now();
    printf("sums %lu %lu %lu %lu\n", a, b, c, d);
    printf("decode, decode and encode, the same wide, in us each from the start:\n");
    printf("%.0f %.0f %.0f %.0f\n", decoded - start, copied - start, decoded_wide - start, copied_wide - start);
    return 0;
}
