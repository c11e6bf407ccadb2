/* Leaves files as processes leave them that die, for the tests of cola-recover and of the program: of each store the file has 10 keys.
 *
 *     left FOLDER
 *
 *     journal    killed as the pages of a checkpoint of 20 keys were written
 *     log        killed with 20 keys, 10 of them in the log
 *     both       with 20 keys in the journal, and 30 with the log behind that
 *     other      with a journal that follows another file
 *     earlier    with ten keys in a log as an earlier library wrote it, which follows the header alone
 *     nothing    closed
 *
 * Link with -Wl,--wrap=fsync. */
#include <errno.h>
#include <signal.h>
#include <stdio.h>
#include <stdlib.h>
#include <string.h>
#include <sys/wait.h>
#include <unistd.h>

#include "cola_file.h"
#include "cola_opening.h"
#include "earlier.h"

#define HOLDS(is) ((is) ? (void)0 : (fprintf(stderr, "left: line %d: not so: %s (%s)\n", __LINE__, #is, strerror(errno)), exit(1)))

static long syncs_left = -1; /* the process is killed in front of the sync behind so many */

int __real_fsync(int descriptor);
int __wrap_fsync(int descriptor);
int __wrap_fsync(int descriptor) {
    if (syncs_left == 0) raise(SIGKILL);
    if (syncs_left > 0) syncs_left--;
    return __real_fsync(descriptor);
}

static char paths[2][4200];

/* The path of a file of this name, of two that stand at once. */
static const char *path_of(const char *folder, const char *name, const char *suffix) {
    static int next;
    snprintf(paths[next ^= 1], sizeof paths[0], "%.3900s/%s%s", folder, name, suffix);
    return paths[next];
}

static void puts_until(cola_file *file, int from, int until) {
    char key[16];
    for (int number = from; number < until; number++) {
        snprintf(key, sizeof key, "k%03d", number);
        HOLDS(cola_put(&file->store, key, 4, "v", 1, NULL) == COLA_OK);
    }
}

static void make(const char *path) {
    cola_file file = COLA_FILE_INIT;
    HOLDS(cola_file_create(path, 100, 3, 1) == COLA_OK && cola_file_open(&file, path) == COLA_OK);
    puts_until(&file, 0, 10);
    HOLDS(cola_file_close(&file) == COLA_OK);
}

/* A session of ten more puts whose process is killed: behind them, or in a checkpoint. */
static void dies(const char *path, uint32_t flags, int from, bool checkpoints) {
    enum { PAGES = 3 }; /* the syncs of the journal, of its name, and of the mark of use */
    int status;
    pid_t child = fork();
    if (child == 0) {
        cola_file file = COLA_FILE_INIT;
        HOLDS(cola_file_open_as(&file, path, flags) == COLA_OK);
        puts_until(&file, from, from + 10);
        syncs_left = PAGES;
        if (checkpoints) cola_file_checkpoint(&file, NULL);
        else raise(SIGKILL);
        _exit(9);
    }
    waitpid(child, &status, 0);
    HOLDS(WIFSIGNALED(status) && WTERMSIG(status) == SIGKILL);
}

int main(int count, char **words) {
    static char bytes[1 << 20];
    bool journal, log;
    if (count < 2) return fprintf(stderr, "left FOLDER\n"), 2;
    static const char *const names[] = {"nothing", "journal", "log", "both", "other", "earlier"};
    for (int at = 0; at < 6; at++) make(path_of(words[1], names[at], ""));
    dies(path_of(words[1], "journal", ""), COLA_RESIDENT, 10, true);
    dies(path_of(words[1], "log", ""), COLA_LOGGED, 10, false);
    dies(path_of(words[1], "both", ""), COLA_RESIDENT, 10, true);
    FILE *file = fopen(path_of(words[1], "both", "-journal"), "rb");
    HOLDS(file != NULL);
    size_t length = fread(bytes, 1, sizeof bytes, file);
    HOLDS(length > 4096 && length < sizeof bytes && fclose(file) == 0);
    HOLDS(cola_file_settle(path_of(words[1], "both", ""), &journal, &log) == COLA_OK && journal && !log);
    dies(path_of(words[1], "both", ""), COLA_LOGGED, 20, false);
    for (int at = 3; at < 5; at++) { /* (as where both files came back from a copy, and where one alone did) */
        if (at == 4) {
            cola_file other = COLA_FILE_INIT;
            HOLDS(cola_file_open(&other, path_of(words[1], "other", "")) == COLA_OK);
            puts_until(&other, 50, 60);
            HOLDS(cola_file_close(&other) == COLA_OK);
        }
        file = fopen(path_of(words[1], names[at], "-journal"), "wb");
        HOLDS(file != NULL && fwrite(bytes, 1, length, file) == length && fclose(file) == 0);
    }
    file = fopen(path_of(words[1], "earlier", ""), "rb");
    HOLDS(file != NULL && fread(bytes, 1, 512, file) == 512 && fclose(file) == 0);
    length = earlier_log(bytes, 10, (uint8_t *)bytes + 512, sizeof bytes - 512);
    file = fopen(path_of(words[1], "earlier", "-log"), "wb");
    HOLDS(file != NULL && fwrite(bytes + 512, 1, length, file) == length && fclose(file) == 0);
    return 0;
}
