/* Counts the calls by which a program changes its file: what it writes at a place, cuts and syncs. tests/crash.sh preloads it.
 *
 *     CRASH_AT=N     the process is killed in the Nth of them
 *     CRASH_CUT=B    behind the first B bytes of it, where it is a write; a cut or a sync is not begun
 *     CRASH_LOG=F    each that was carried out is added to the file F, a line each: W, a place, how many bytes, and these in
 *                    hexadecimal; T and a size; S */
#define _GNU_SOURCE
#include <dlfcn.h>
#include <inttypes.h>
#include <signal.h>
#include <stdio.h>
#include <stdlib.h>
#include <unistd.h>

static void *real(const char *name) {
    return dlsym(RTLD_NEXT, name);
}

/* Whether this call is the one in which the process is killed. */
static int is_last(void) {
    static unsigned long calls, at;
    const char *word = getenv("CRASH_AT");
    if (at == 0) at = word ? strtoul(word, NULL, 10) : ~0ul;
    return ++calls == at;
}

static void note(char letter, uint64_t place, const unsigned char *bytes, size_t count) {
    const char *path = getenv("CRASH_LOG");
    FILE *log = path ? fopen(path, "ae") : NULL;
    if (!log) return;
    fprintf(log, "%c %" PRIu64 " %zu ", letter, place, count);
    for (size_t at = 0; at < count; at++) fprintf(log, "%02x", bytes[at]);
    if (fputc('\n', log) == EOF || fclose(log) != 0) abort();
}

ssize_t pwrite(int file, const void *bytes, size_t count, off_t place) {
    ssize_t (*write_at)(int, const void *, size_t, off_t) = (ssize_t(*)(int, const void *, size_t, off_t))real("pwrite");
    const char *cut = getenv("CRASH_CUT");
    ssize_t done;
    if (is_last()) {
        size_t most = cut ? strtoul(cut, NULL, 10) : 0;
        if (write_at(file, bytes, most < count ? most : count, place) < 0) abort();
        raise(SIGKILL);
    }
    done = write_at(file, bytes, count, place);
    if (done > 0) note('W', (uint64_t)place, bytes, (size_t)done);
    return done;
}

int ftruncate(int file, off_t size) {
    int (*cut)(int, off_t) = (int (*)(int, off_t))real("ftruncate");
    int answer;
    if (is_last()) raise(SIGKILL);
    answer = cut(file, size);
    if (answer == 0) note('T', (uint64_t)size, NULL, 0);
    return answer;
}

int fsync(int file) {
    int (*sync)(int) = (int (*)(int))real("fsync");
    int answer;
    if (is_last()) raise(SIGKILL);
    answer = sync(file);
    if (answer == 0) note('S', 0, NULL, 0);
    return answer;
}
