/* A process that is killed in mid-session, at each of many moments: its file is refused from then on, and the copy of its
 * last checkpoint has the map of that moment. A copy that was not finished is refused, or has such a map too. Of a resident
 * store the file itself has the map of the last checkpoint, or of the one under way, once it is opened; of a logged or synced one
 * it has each call that was answered, and at most the one behind it, of many rows the first so many. The calls are puts, deletes, puts
 * that depend on a stamp, and puts of many rows.
 *
 *     killed FOLDER TIMES [resident | logged | synced]
 */
#define _GNU_SOURCE
#include <glob.h>
#include <signal.h>
#include <stdio.h>
#include <sys/mman.h>
#include <sys/wait.h>
#include <unistd.h>

#include "cola_file.h"
#include "plain.h"

enum { KEYS = 5000, EVERY = 500, BATCH = 8 };

static char path[4096], copy[4096], unfinished[5000];
static uint32_t degree; /* the flags that the store is opened with */
static volatile long *answered;  /* how many steps were answered, in memory that parent and child have */

#define HOLDS(is) ((is) ? (void)0 : (fprintf(stderr, "killed: line %d: not so: %s\n", __LINE__, #is), exit(1)))

/* The steps of a session, each of one key: every fifth one deletes it, if it is there, each other one puts it, with its number as the
 * value. A call makes one step, or, of many rows, some that only put. */
static bool deletes(long n) { return n % 5 == 2; }

static void nth(long n, char key[32], char value[32]) {
    snprintf(key, 32, "k%05ld", n * 7919 % KEYS);
    snprintf(value, 32, "%010ld", n);
}

/* How many steps the call behind so many makes: none of a batch deletes, and a checkpoint comes behind the last of some. */
static long steps_behind(long done) {
    long steps = 1;
    if (deletes(done + 1) || done % 50 > 40) return 1;
    while (steps < BATCH && !deletes(done + steps + 1) && (done + steps) % EVERY != 0) steps++;
    return steps;
}

/* Makes the call behind so many steps, whose number of steps is this. */
static bool make(cola *store, long done, long steps) {
    char key[32], value[32];
    cola_row rows[BATCH] = {0};
    uint64_t stamp = 0;
    size_t put;
    nth(done + 1, key, value);
    if (deletes(done + 1)) {
        int32_t answer = cola_delete(store, key, 6);
        return answer == COLA_OK || answer == COLA_NONE;
    }
    if (steps == 1 && done % 3 == 0) return cola_put(store, key, 6, value, 10, NULL) == COLA_OK;
    if (steps == 1) {
        int32_t answer = cola_stamp(store, key, 6, &stamp);
        return (answer == COLA_OK || answer == COLA_NONE) && cola_put_if(store, key, 6, stamp, value, 10, NULL) == COLA_OK;
    }
    for (long row = 0; row < steps; row++) {
        nth(done + 1 + row, key, value);
        rows[row].key_len = 6, rows[row].value_len = 10;
        memcpy(rows[row].key, key, 6), memcpy(rows[row].value, value, 10);
    }
    return cola_put_many(store, rows, (size_t)steps, NULL, &put) == COLA_OK;
}

/* Steps without end, with a checkpoint after so many, of which the parent is told. It is killed. */
static void session(int told) {
    cola_file file = COLA_FILE_INIT;
    if (cola_file_open_as(&file, path, degree) != COLA_OK) _exit(9);
    for (long done = 0;;) {
        long steps = steps_behind(done);
        if (!make(&file.store, done, steps)) _exit(9);
        *answered = done += steps;
        if (done % EVERY == 0 && cola_file_checkpoint(&file, degree != 0 ? NULL : copy) != COLA_OK) _exit(9);
        if (done % EVERY == 0 && write(told, &done, sizeof done) != sizeof done) _exit(9);
    }
}

static cola_row rows[KEYS + 1]; /* of a file that is looked at */
static size_t given;

static void read_rows(const char *where) {
    cola_file file = COLA_FILE_INIT;
    cola_cursor cursor;
    given = 0;
    HOLDS(cola_file_open(&file, where) == COLA_OK);
    HOLDS(cola_seek(&cursor, NULL, 0, NULL, 0) == COLA_OK);
    cola_next(&file.store, &cursor, rows, KEYS + 1, &given);
    HOLDS(cola_file_close(&file) == COLA_OK);
}

/* Whether they are those behind so many steps. */
static bool is_behind(long steps) {
    static long last[KEYS];
    char key[32], value[32];
    size_t keys = 0;
    memset(last, 0, sizeof last);
    for (long n = 1; n <= steps; n++) last[n * 7919 % KEYS] = deletes(n) ? 0 : n;
    for (int at = 0; at < KEYS; at++) {
        if (last[at] == 0) continue;
        nth(last[at], key, value);
        if (keys == given || plain_order(rows[keys].key, rows[keys].key_len, key, 6) != 0) return false;
        if (plain_order(rows[keys].value, rows[keys].value_len, value, 10) != 0) return false;
        keys++;
    }
    return keys == given;
}

/* What is left of a mapped store, behind so many steps of its last checkpoint. */
static void look(long last) {
    cola_file file = COLA_FILE_INIT;
    /* Killed between a checkpoint's closing and its opening, the file is in use all the same. */
    HOLDS(cola_file_open(&file, path) == COLA_NOT_CLOSED);
    read_rows(copy);
    HOLDS(is_behind(last) || is_behind(last + EVERY));
    glob_t left;
    if (glob(unfinished, 0, NULL, &left) == 0) {
        HOLDS(left.gl_pathc == 1);
        int32_t answer = cola_file_open(&file, left.gl_pathv[0]);
        HOLDS(answer == COLA_OK || answer == COLA_SMALL || answer == COLA_NOT_STORE);
        if (answer == COLA_OK) {
            HOLDS(cola_file_close(&file) == COLA_OK);
            read_rows(left.gl_pathv[0]);
            HOLDS(is_behind(last + EVERY));
        }
        HOLDS(unlink(left.gl_pathv[0]) == 0);
        globfree(&left);
    }
    HOLDS(rename(copy, path) == 0); /* the copy takes the file's place */
}

/* And of a resident one. */
static void look_at_resident(long last) {
    read_rows(path);
    HOLDS(is_behind(last) || is_behind(last + EVERY));
}

/* And of a logged one: of the call behind the last answered one, the first so many steps. */
static void look_at_logged(void) {
    long steps = *answered, most = steps + steps_behind(steps);
    read_rows(path);
    while (steps < most && !is_behind(steps)) steps++;
    HOLDS(is_behind(steps));
}

static void one_time(int time) {
    int told[2], status;
    long done = 0, last = 0;
    cola_file file = COLA_FILE_INIT;
    unlink(path), unlink(copy);
    *answered = 0;
    HOLDS(cola_file_create(path, KEYS, 5, (uint8_t)(1 + time % 2)) == COLA_OK);
    HOLDS(pipe(told) == 0);
    pid_t child = fork();
    if (child == 0) session(told[1]);
    close(told[1]);
    for (int at = 0; at <= time % 4 && read(told[0], &done, sizeof done) == sizeof done; at++) last = done;
    usleep((useconds_t)(time * 977 % 9000));
    kill(child, SIGKILL);
    waitpid(child, &status, 0);
    HOLDS(WIFSIGNALED(status) && WTERMSIG(status) == SIGKILL);
    while (read(told[0], &done, sizeof done) == sizeof done) last = done;
    close(told[0]);
    degree >= COLA_LOGGED ? look_at_logged() : degree == COLA_RESIDENT ? look_at_resident(last) : look(last);
    /* The session goes on. */
    HOLDS(cola_file_open(&file, path) == COLA_OK);
    HOLDS(cola_put(&file.store, "zz", 2, "on", 2, NULL) == COLA_OK);
    HOLDS(cola_file_close(&file) == COLA_OK);
}

int main(int count, char **words) {
    if (count < 3) return fprintf(stderr, "killed FOLDER TIMES [resident | logged | synced]\n"), 2;
    degree = count == 3 ? 0 : words[3][0] == 'r' ? COLA_RESIDENT : words[3][0] == 'l' ? COLA_LOGGED : COLA_SYNCED;
    answered = mmap(NULL, sizeof *answered, PROT_READ | PROT_WRITE, MAP_SHARED | MAP_ANONYMOUS, -1, 0);
    HOLDS(answered != MAP_FAILED);
    snprintf(path, sizeof path, "%.4000s/killed.store", words[1]);
    snprintf(copy, sizeof copy, "%.4000s/killed.copy", words[1]);
    snprintf(unfinished, sizeof unfinished, "%s.new-*", copy);
    int times = atoi(words[2]);
    for (int time = 0; time < times; time++) one_time(time);
    printf("killed %d times\n", times);
    return 0;
}
