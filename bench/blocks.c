// Writes and reads cells of 64 bytes in blocks of 32 cells as a plain C program would: cells are encoded into a block, which
// is written by pwrite when it is full; a block is read by pread when it is not the last one read, and its cells are decoded.
// The arguments are the file, which is made anew, the number of cells, and how many blocks are kept in memory, or none: those
// that were used last, found by chains, in the order of their last use.
#include <fcntl.h>
#include <stdint.h>
#include <stdio.h>
#include <stdlib.h>
#include <string.h>
#include <time.h>
#include <unistd.h>

enum { CELL = 64, BLOCK_CELLS = 32, BLOCK = CELL * BLOCK_CELLS, KEY_AT = 8, VALUE_AT = 32 };

static const uint8_t ZEROS[CELL];

static double now(void)
{
    struct timespec time;
    clock_gettime(CLOCK_MONOTONIC, &time);
    return time.tv_sec * 1e6 + time.tv_nsec / 1e3;
}

static void put_number(uint8_t *into, uint32_t number)
{
    for (int i = 0; i < 4; i++)
        into[i] = number >> (24 - 8 * i);
}

static void encode(uint32_t number, uint8_t *into)
{
    memset(into, 0, CELL);
    into[2] = 4;
    into[3] = 4;
    memcpy(into + 4, &number, 4);
    put_number(into + KEY_AT, number);
    put_number(into + VALUE_AT, number);
}

// The link of a cell, or -1 where the bytes are none.
static int64_t decode(const uint8_t *bytes)
{
    uint32_t link;
    uint8_t kind = bytes[0], young = bytes[1], key = bytes[2], value = bytes[3];
    if (kind > 2 || young > (kind == 2 ? 0 : 1) || key < 1 || key > VALUE_AT - KEY_AT || value > CELL - VALUE_AT || (kind != 0 && value != 0))
        return -1;
    if (memcmp(bytes + KEY_AT + key, ZEROS, VALUE_AT - KEY_AT - key) != 0 || memcmp(bytes + VALUE_AT + value, ZEROS, CELL - VALUE_AT - value) != 0)
        return -1;
    memcpy(&link, bytes + 4, 4);
    return link;
}

static void fail(const char *what)
{
    perror(what);
    exit(1);
}

static void push_all(int file, uint32_t cells)
{
    static uint8_t block[BLOCK];
    for (uint32_t i = 0; i < cells; i++) {
        encode(i, block + i % BLOCK_CELLS * CELL);
        if (i % BLOCK_CELLS == BLOCK_CELLS - 1 || i == cells - 1)
            if (pwrite(file, block, BLOCK, (off_t)(i / BLOCK_CELLS) * BLOCK) != BLOCK)
                fail("pwrite");
    }
}

// The frames of a cache: the block of each, the next of its chain, and its neighbours in the order of use. Frame numbers are
// one more than their places, and 0 is none; place 0 of the order has the first and the last.
static uint8_t (*frames)[BLOCK];
static uint32_t *held, *chained, *heads, *newer, *older, room, chains;

static void make_cache(uint32_t blocks)
{
    room = blocks;
    chains = 2 * blocks + 1;
    frames = calloc(blocks + 1, BLOCK);
    held = calloc(blocks + 1, 4);
    chained = calloc(blocks + 1, 4);
    newer = calloc(blocks + 1, 4);
    older = calloc(blocks + 1, 4);
    heads = calloc(chains, 4);
    if (!frames || !held || !chained || !newer || !older || !heads)
        exit(1);
    for (uint32_t i = 0; i <= blocks; i++) {
        held[i] = UINT32_MAX;
        older[i] = i == blocks ? 0 : i + 1;
        newer[i] = i == 0 ? blocks : i - 1;
    }
}

static void to_front(uint32_t frame)
{
    older[newer[frame]] = older[frame];
    newer[older[frame]] = newer[frame];
    older[frame] = older[0];
    newer[older[0]] = frame;
    newer[frame] = 0;
    older[0] = frame;
}

// The bytes of a block, which are in memory then.
static const uint8_t *block_of(int file, uint32_t block)
{
    uint32_t frame = heads[block % chains];
    while (frame && held[frame] != block)
        frame = chained[frame];
    if (!frame) {
        frame = newer[0];
        if (held[frame] != UINT32_MAX) {
            uint32_t *link = &heads[held[frame] % chains];
            while (*link != frame)
                link = &chained[*link];
            *link = chained[frame];
        }
        if (pread(file, frames[frame], BLOCK, (off_t)block * BLOCK) != BLOCK)
            fail("pread");
        held[frame] = block;
        chained[frame] = heads[block % chains];
        heads[block % chains] = frame;
    }
    to_front(frame);
    return frames[frame];
}

// Reads so many cells, each `step` behind the one before, modulo their number, which is no multiple of it.
static uint32_t read_all(int file, uint32_t cells, uint32_t step)
{
    static uint8_t own[BLOCK];
    const uint8_t *block = own;
    uint32_t last = UINT32_MAX, found = 0;
    for (uint32_t i = 0, at = 0; i < cells; i++, at = (uint32_t)(((uint64_t)at + step) % cells)) {
        if (at / BLOCK_CELLS != last) {
            last = at / BLOCK_CELLS;
            if (room)
                block = block_of(file, last);
            else if (pread(file, own, BLOCK, (off_t)last * BLOCK) != BLOCK)
                fail("pread");
        }
        found += decode(block + at % BLOCK_CELLS * CELL) == at;
    }
    return found;
}

int main(int count, char **words)
{
    if (count < 3)
        return 2;
    if (count > 3 && strtoul(words[3], NULL, 10) > 0)
        make_cache(strtoul(words[3], NULL, 10));
    uint32_t cells = strtoul(words[2], NULL, 10);
    int file = open(words[1], O_RDWR | O_CREAT | O_TRUNC, 0600);
    if (file < 0)
        fail("open");
    double start = now();
    push_all(file, cells);
    double pushed = now();
    uint32_t one = read_all(file, cells, 1);
    double in_order = now();
    uint32_t other = read_all(file, cells, 7919);
    double scattered = now();
    printf("found %u %u\n", one, other);
    printf("pushed, read in order, read 7,919 apart, in us each from the start:\n");
    printf("%.0f %.0f %.0f\n", pushed - start, in_order - start, scattered - start);
    return 0;
}
