// Measures a program that reads lines and writes replies, for bench/store.sh.
//
//     driver run IN OUT COMMAND..
//         runs the command with the file IN as its input and OUT as its output, and prints: the seconds that passed, the processor's
//         in the program and in the system, the most memory in KiB, the calls of read and of write and the bytes that they moved
//         (all kinds of either, as the system counts them for the process), the exit status, and the bytes that the process had
//         read from the device below the files, and will have written to it. With MOST in the environment the command is killed
//         after so many seconds
//
//     driver calls RUNS TEXT POINTS PREPARE COMMAND..
//         RUNS times: runs the shell words PREPARE, starts the command, waits for the reply to a first line `get -`, so that it is open,
//         and for each line of the file TEXT writes the line, waits for its one reply, and takes the time from before the write to after
//         the reply. A call's time is the least over the runs.
//         Prints for each of put and get: the verb, how many, the median, the 99.9th percentile and the worst in nanoseconds; and a
//         sum over all replies, which must be the same in each run. POINTS.put and POINTS.get get up to 200 lines for a plot: a
//         time in microseconds, and the share of calls that took at least that long.
#define _GNU_SOURCE
#include <errno.h>
#include <fcntl.h>
#include <inttypes.h>
#include <math.h>
#include <signal.h>
#include <spawn.h>
#include <stdint.h>
#include <stdio.h>
#include <stdlib.h>
#include <string.h>
#include <sys/resource.h>
#include <sys/stat.h>
#include <sys/wait.h>
#include <time.h>
#include <unistd.h>

extern char **environ;

static void fail(const char *what) {
    perror(what);
    exit(1);
}

static uint64_t now(void) {
    struct timespec at;
    clock_gettime(CLOCK_MONOTONIC, &at);
    return (uint64_t)at.tv_sec * 1000000000u + (uint64_t)at.tv_nsec;
}

static double seconds(struct timeval it) { return (double)it.tv_sec + (double)it.tv_usec / 1e6; }

// Starts the command with these files as its standard input and output.
static pid_t start(char **words, int in, int out) {
    posix_spawn_file_actions_t files;
    pid_t child;
    posix_spawn_file_actions_init(&files);
    posix_spawn_file_actions_adddup2(&files, in, 0);
    posix_spawn_file_actions_adddup2(&files, out, 1);
    int error = posix_spawnp(&child, words[0], &files, NULL, words, environ);
    posix_spawn_file_actions_destroy(&files);
    if (error) {
        fprintf(stderr, "driver: %s: %s\n", words[0], strerror(error));
        exit(1);
    }
    return child;
}

// The number behind a word in /proc/PID/io, -1 where there is none.
static long long counted(pid_t child, const char *word) {
    char path[64], line[128];
    long long value = -1;
    snprintf(path, sizeof path, "/proc/%d/io", (int)child);
    FILE *file = fopen(path, "r");
    if (!file) return -1;
    while (fgets(line, sizeof line, file))
        if (!strncmp(line, word, strlen(word)) && line[strlen(word)] == ':') value = atoll(line + strlen(word) + 1);
    fclose(file);
    return value;
}

static pid_t running;
static void stop(int signal) {
    (void)signal;
    kill(running, SIGKILL);
}

static int run(char **words) {
    int in = open(words[0], O_RDONLY | O_CLOEXEC);
    int out = open(words[1], O_WRONLY | O_CREAT | O_TRUNC | O_CLOEXEC, 0666);
    if (in < 0 || out < 0) fail("driver");
    uint64_t begun = now();
    pid_t child = running = start(words + 2, in, out);
    siginfo_t info;
    const char *most = getenv("MOST");
    if (most) {
        signal(SIGALRM, stop);
        alarm((unsigned)atoi(most));
    }
    while (waitid(P_PID, (id_t)child, &info, WEXITED | WNOWAIT))
        if (errno != EINTR) fail("waitid");
    uint64_t took = now() - begun;
    // The child has ended and is not taken off yet, so that its counts can be read.
    long long reads = counted(child, "syscr"), writes = counted(child, "syscw");
    long long got = counted(child, "rchar"), put = counted(child, "wchar");
    long long fetched = counted(child, "read_bytes"), stored = counted(child, "write_bytes");
    struct rusage used;
    int status;
    wait4(child, &status, 0, &used);
    int ended = WIFEXITED(status) ? WEXITSTATUS(status) : 128 + WTERMSIG(status);
    printf("%.3f %.3f %.3f %ld %lld %lld %lld %lld %d %lld %lld\n", (double)took / 1e9, seconds(used.ru_utime),
           seconds(used.ru_stime), used.ru_maxrss, reads, writes, got, put, ended, fetched, stored);
    return ended;
}

static int by_size(const void *a, const void *b) {
    uint32_t x = *(const uint32_t *)a, y = *(const uint32_t *)b;
    return x < y ? -1 : x > y;
}

// Prints what the sorted times have, and the points of the plot.
static void show(const char *verb, const char *points, uint32_t *times, size_t count) {
    if (!count) return;
    qsort(times, count, sizeof *times, by_size);
    printf("%s %zu %u %u %u\n", verb, count, times[count / 2], times[(size_t)((double)(count - 1) * 0.999)], times[count - 1]);
    char path[4096];
    snprintf(path, sizeof path, "%s.%s", points, verb);
    FILE *file = fopen(path, "w");
    if (!file) fail(path);
    // Of the slowest so many, that grow by a factor, the fastest.
    for (double many = 1; many <= (double)count; many = fmax(many + 1, many * pow((double)count, 1.0 / 190))) {
        size_t slow = (size_t)many;
        fprintf(file, "%.3f %.9f\n", times[count - slow] / 1e3, (double)slow / (double)count);
    }
    fclose(file);
}

static int calls(int runs, char **words) {
    int text = open(words[0], O_RDONLY);
    struct stat about;
    if (text < 0 || fstat(text, &about)) fail(words[0]);
    char *bytes = malloc((size_t)about.st_size + 1);
    size_t lines = 0, size = 0;
    for (ssize_t got; (got = read(text, bytes + size, (size_t)about.st_size + 1 - size)) > 0;) size += (size_t)got;
    for (size_t at = 0; at < size; at++) lines += bytes[at] == '\n';
    uint32_t *least = malloc(lines * sizeof *least);
    memset(least, 255, lines * sizeof *least);
    uint64_t first = 0;
    signal(SIGPIPE, SIG_IGN);
    for (int run = 0; run < runs; run++) {
        if (system(words[2])) {
            fprintf(stderr, "driver: this failed: %s\n", words[2]);
            return 1;
        }
        int to[2], from[2];
        if (pipe2(to, O_CLOEXEC) || pipe2(from, O_CLOEXEC)) fail("pipe");
        pid_t child = start(words + 3, to[0], from[1]);
        close(to[0]);
        close(from[1]);
        uint64_t sum = 14695981039346656037u;
        static char reply[1 << 16];
        if (write(to[1], "get -\n", 6) != 6 || read(from[0], reply, sizeof reply) <= 0) {
            fprintf(stderr, "driver: no reply to the first line\n");
            return 1;
        }
        char *line = bytes;
        for (size_t at = 0; at < lines; at++) {
            char *end = memchr(line, '\n', (size_t)(bytes + size - line));
            size_t length = (size_t)(end + 1 - line);
            uint64_t begun = now();
            if (write(to[1], line, length) != (ssize_t)length) fail("driver: write");
            size_t got = 0;
            do {
                ssize_t more = got < sizeof reply ? read(from[0], reply + got, sizeof reply - got) : 0;
                if (more <= 0) {
                    fprintf(stderr, "driver: no reply of a line to line %zu\n", at + 1);
                    return 1;
                }
                got += (size_t)more;
            } while (reply[got - 1] != '\n');
            uint64_t took = now() - begun;
            if (took < least[at]) least[at] = (uint32_t)took;
            for (size_t byte = 0; byte < got; byte++) sum = (sum ^ (unsigned char)reply[byte]) * 1099511628211u;
            line = end + 1;
        }
        close(to[1]);
        while (read(from[0], reply, sizeof reply) > 0) {}
        close(from[0]);
        int status;
        waitpid(child, &status, 0);
        if (status) {
            fprintf(stderr, "driver: it ended with %d\n", status);
            return 1;
        }
        if (run == 0) first = sum;
        if (sum != first) {
            fprintf(stderr, "driver: the replies of two runs differ\n");
            return 1;
        }
    }
    // The times of each verb, one behind the other.
    uint32_t *of_verb = malloc((lines + 1) * sizeof *of_verb);
    for (int verb = 0; verb < 2; verb++) {
        const char *name = verb ? "get" : "put";
        size_t count = 0;
        char *line = bytes;
        for (size_t at = 0; at < lines; at++) {
            if (!strncmp(line, name, 3)) of_verb[count++] = least[at];
            line = (char *)memchr(line, '\n', (size_t)(bytes + size - line)) + 1;
        }
        show(name, words[1], of_verb, count);
    }
    printf("sum %016" PRIx64 "\n", first);
    return 0;
}

int main(int count, char **words) {
    if (count >= 5 && !strcmp(words[1], "run")) return run(words + 2);
    if (count >= 7 && !strcmp(words[1], "calls") && atoi(words[2]) > 0) return calls(atoi(words[2]), words + 3);
    fprintf(stderr, "driver: run IN OUT COMMAND.., or calls RUNS TEXT POINTS PREPARE COMMAND..\n");
    return 2;
}
