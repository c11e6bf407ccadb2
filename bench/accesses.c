/*
 * What the cells of a store cost without its code: as many cells of 64 bytes as a put and a get of a million keys read and move
 * (bench/STORE.md), at such places, with no rule and no test between. bench/library.sh runs it.
 *
 *     accesses COUNT random|rising
 *
 * A search reads four neighbours at each of 19 levels, each level twice as long as the one above, at a place that follows from
 * what was read before it. A put makes a search, and moves eight cells in order at every other level. It prints the seconds of
 * COUNT puts, and of COUNT gets.
 */
#include <stdint.h>
#include <stdio.h>
#include <stdlib.h>
#include <string.h>
#include <time.h>

enum { LEVELS = 19, FIRST = 4, WINDOW = 4, MOVED = 8 };

struct cell {
    uint64_t words[8];
};

struct level {
    struct cell *visible, *shadow;
    size_t length, read, written;
};

static struct level levels[LEVELS];
static uint64_t chance = 88172645463325252u;

/* The next number of a fixed sequence, by Marsaglia's xorshift. */
static uint64_t draw(void) {
    chance ^= chance << 13;
    chance ^= chance >> 7;
    chance ^= chance << 17;
    return chance;
}

/* The cells that a search for a key at this part of 2^64 of all keys reads. The words that are looked at are zero, and so is the answer. */
static uint64_t search(uint64_t part) {
    uint64_t seen = 0;
    for (int i = 0; i < LEVELS; i++) {
        uint64_t places = levels[i].length - WINDOW;
        const struct cell *cell = levels[i].visible + (size_t)((unsigned __int128)part * places >> 64) + seen;
        for (int j = 0; j < WINDOW; j++) seen |= cell[j].words[1];
    }
    return seen;
}

/* The cells that the merges of one mutation move. */
static void move(uint32_t turn) {
    for (int i = 1 + (turn & 1); i < LEVELS; i += 2) {
        struct level *level = &levels[i];
        for (int j = 0; j < MOVED; j++) {
            struct cell *cell = &level->shadow[level->written];
            *cell = level->visible[level->read];
            cell->words[0] = (uint64_t)turn << 32;
            level->read = (level->read + 1) % level->length;
            level->written = (level->written + 1) % level->length;
        }
    }
}

static double seconds(void) {
    struct timespec now;
    clock_gettime(CLOCK_MONOTONIC, &now);
    return now.tv_sec + now.tv_nsec / 1e9;
}

int main(int argc, char **argv) {
    if (argc != 3) return fputs("accesses COUNT random|rising\n", stderr), 2;
    uint32_t count = strtoul(argv[1], NULL, 10);
    int random = strcmp(argv[2], "random") == 0;
    size_t bytes = 0;
    for (int i = 0; i < LEVELS; i++) {
        levels[i].length = (size_t)FIRST << i;
        bytes += 2 * levels[i].length * sizeof(struct cell);
    }
    struct cell *cells = malloc(bytes);
    if (!cells) return fputs("accesses: out of memory\n", stderr), 1;
    memset(cells, 0, bytes);
    /* each has bytes of its own, so that the system gives it memory */
    for (size_t i = 0; i < bytes / sizeof(struct cell); i++) cells[i].words[7] = i;
    for (int i = 0; i < LEVELS; i++) {
        levels[i].visible = cells;
        levels[i].shadow = cells + levels[i].length;
        cells += 2 * levels[i].length;
    }
    uint64_t seen = 0;
    double start = seconds();
    for (uint32_t turn = 0; turn < count; turn++) {
        seen |= search(random ? draw() : UINT64_MAX);
        move(turn);
    }
    double put = seconds();
    for (uint32_t turn = 0; turn < count; turn++) seen |= search(random ? draw() : ((uint64_t)turn << 32) / count << 32);
    double got = seconds();
    printf("%.2f %.2f\n", put - start, got - put);
    return seen != 0;
}
