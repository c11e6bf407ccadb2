/* What is done to whole files of stores: see cola_file.h. */
#define _GNU_SOURCE
#include "cola_file.h"
#include "cola_opening.h"

#include <errno.h>
#include <fcntl.h>
#include <stdio.h>
#include <stdlib.h>
#include <string.h>
#include <sys/file.h>
#include <sys/mman.h>
#include <sys/stat.h>
#include <time.h>
#include <unistd.h>

#include "cola_disk.h"
#include "cola_log.h"

/* Frees a name, and unmaps bytes. errno stays. */
static void give_up(char *name, void *bytes, size_t length) {
    int error = errno;
    free(name);
    if (bytes != NULL) munmap(bytes, length);
    errno = error;
}

/* A closed store of a locked file, to be read alone. */
static int32_t show(int descriptor, char **bytes, size_t *length) {
    char head[COLA_HEADER];
    uint64_t stored;
    struct stat about;
    if (fstat(descriptor, &about) != 0) return COLA_SYSTEM;
    ssize_t had = cola_disk_read(descriptor, head, about.st_size < COLA_HEADER ? (size_t)about.st_size : COLA_HEADER);
    if (had < 0) return COLA_SYSTEM;
    int32_t answer = cola_stored_size(head, (size_t)had, (uint64_t)about.st_size, &stored);
    if (answer != COLA_OK) return answer;
    *length = (size_t)stored;
    *bytes = mmap(NULL, *length, PROT_READ, MAP_PRIVATE, descriptor, 0);
    return *bytes == MAP_FAILED ? COLA_SYSTEM : COLA_OK;
}

int32_t cola_file_check(const char *path, cola_verdict *verdict) {
    char *bytes;
    size_t length;
    int descriptor;
    if (path == NULL || verdict == NULL) return COLA_NULL;
    int32_t answer = cola_file_open_settled(path, COLA_READ_ONLY, &descriptor);
    if (answer != COLA_OK) return answer;
    answer = show(descriptor, &bytes, &length);
    if (answer == COLA_OK) {
        answer = cola_check(bytes, length, verdict);
        give_up(NULL, bytes, length);
    }
    cola_disk_let_go(descriptor);
    return answer;
}

int32_t cola_file_check_open(cola_file *file, cola_verdict *verdict) {
    if (file == NULL || verdict == NULL) return COLA_NULL;
    if (file->bytes == NULL || file->owner != (long)getpid()) return COLA_CLOSED;
    int32_t answer = cola_close(&file->store);
    if (answer != COLA_OK) return answer;
    answer = cola_check(file->bytes, file->length, verdict);
    int32_t opened = cola_file_reopen(file);
    return opened == COLA_OK ? answer : opened;
}

/* A new file beside the one whose place it takes once it is whole. */
typedef cola_file_load fresh;

/* The bytes of the file that its mapping keeps to this process: its first page, or all of a shorter file. With them its header
 * reaches the disk when it is written, and at no other moment. */
static size_t first_of(size_t length) {
    size_t page = (size_t)sysconf(_SC_PAGESIZE);
    return length < page ? length : page;
}

/* Makes a file of a name that no file has: the path, .new- and six signs. (mkostemp would leave the umask aside.) */
static const char ending[] = ".new-XXXXXX";
enum { SIGNS = 6, ENDING = sizeof ending - 1 };

static bool name_fresh(fresh *it, const char *path) {
    static const char signs[] = "abcdefghijklmnopqrstuvwxyz0123456789";
    size_t length = strlen(path);
    struct timespec now;
    it->name = malloc(length + sizeof ending);
    if (it->name == NULL) return false;
    memcpy(it->name, path, length);
    memcpy(it->name + length, ending, sizeof ending);
    char *last = it->name + length + ENDING - SIGNS;
    do {
        clock_gettime(CLOCK_MONOTONIC, &now);
        uint64_t number = (uint64_t)now.tv_nsec * 2654435761u + (uint64_t)getpid();
        for (size_t at = 0; at < SIGNS; at++, number /= 36) last[at] = signs[number % 36];
        it->descriptor = open(it->name, O_RDWR | O_CREAT | O_EXCL | O_CLOEXEC, 0666);
    } while (it->descriptor < 0 && errno == EEXIST);
    return it->descriptor >= 0;
}

/* Gives the file up that is not whole. */
static void drop_fresh(fresh *it) {
    int error = errno;
    if (it->descriptor >= 0) unlink(it->name), close(it->descriptor);
    errno = error;
    give_up(it->name, it->bytes, it->length);
    *it = (fresh)COLA_FILE_LOAD_INIT;
}

/* Takes room for the file, and maps it. */
static bool map_fresh(fresh *it, size_t length) {
    if (!cola_disk_take_room(it->descriptor, 0, length)) return false;
    void *bytes = mmap(NULL, length, PROT_READ | PROT_WRITE, MAP_SHARED, it->descriptor, 0);
    if (bytes == MAP_FAILED) return false;
    it->bytes = bytes, it->length = length;
    return mmap(bytes, first_of(length), PROT_READ | PROT_WRITE, MAP_PRIVATE | MAP_FIXED, it->descriptor, 0) != MAP_FAILED;
}

static bool begin_fresh(fresh *it, const char *path, size_t length) {
    *it = (fresh)COLA_FILE_LOAD_INIT;
    it->owner = (long)getpid();
    if (name_fresh(it, path) && map_fresh(it, length)) return true;
    drop_fresh(it);
    return false;
}

/* The store is whole in memory: it goes to the disk, the header last, and takes its name there. A journal and a log of that name go
 * before any other process can open it. */
static int32_t end_fresh(fresh *it, const char *path) {
    const char *bytes = it->bytes;
    size_t first = first_of(it->length);
    bool is_written = msync(it->bytes, it->length, MS_SYNC) == 0 &&
                      cola_disk_store(it->descriptor, bytes + COLA_HEADER, first - COLA_HEADER, COLA_HEADER) &&
                      cola_disk_store(it->descriptor, bytes, COLA_HEADER, 0) && flock(it->descriptor, LOCK_EX | LOCK_NB) == 0 &&
                      rename(it->name, path) == 0;
    if (!is_written) return drop_fresh(it), COLA_SYSTEM;
    bool is_alone = cola_log_drop_stale(path, it->descriptor);
    cola_disk_let_go(it->descriptor);
    give_up(it->name, it->bytes, it->length);
    *it = (fresh)COLA_FILE_LOAD_INIT;
    return is_alone && cola_disk_sync_name(path) ? COLA_OK : COLA_SYSTEM;
}

/* Grows the store of a locked file. */
static int32_t grow_locked(int descriptor, const char *path, uint64_t keys, uint8_t block, uint64_t *rows) {
    char *old;
    size_t length;
    uint64_t new_length;
    struct stat about;
    fresh it;
    int32_t answer = show(descriptor, &old, &length);
    if (answer != COLA_OK) return answer;
    answer = cola_size(keys, block, (uint8_t)old[8], &new_length); /* (byte 8 of a header is the version) */
    if (answer == COLA_OK && !begin_fresh(&it, path, (size_t)new_length)) answer = COLA_SYSTEM;
    else if (answer == COLA_OK) {
        bool is_set = fstat(descriptor, &about) == 0 && fchmod(it.descriptor, about.st_mode & 0777) == 0;
        answer = is_set ? cola_grow(old, length, it.bytes, it.length, keys, block, rows) : COLA_SYSTEM;
        if (answer == COLA_OK) answer = end_fresh(&it, path);
        else drop_fresh(&it);
    }
    give_up(NULL, old, length);
    return answer;
}

int32_t cola_file_grow(const char *path, uint64_t keys, uint8_t block, uint64_t *rows) {
    int descriptor;
    if (path == NULL) return COLA_NULL;
    char *name = realpath(path, NULL); /* (a link keeps its place) */
    if (name == NULL) return COLA_SYSTEM;
    int32_t answer = cola_file_open_settled(name, 0, &descriptor);
    if (answer == COLA_OK) {
        answer = grow_locked(descriptor, name, keys, block, rows);
        cola_disk_let_go(descriptor);
    }
    give_up(name, NULL, 0);
    return answer;
}

/* Whether a new file may have this name: where there is none, or an empty one. */
static int32_t is_free(const char *path) {
    struct stat about;
    if (stat(path, &about) != 0) return errno == ENOENT ? COLA_OK : COLA_SYSTEM;
    return about.st_size == 0 ? COLA_OK : COLA_NOT_EMPTY;
}

int32_t cola_file_load_begin(cola_file_load *load, const char *path, uint64_t keys, uint8_t block, uint8_t version) {
    uint64_t length;
    if (load == NULL || path == NULL) return COLA_NULL;
    if (load->bytes != NULL) return COLA_IN_USE;
    int32_t answer = cola_size(keys, block, version, &length);
    if (answer == COLA_OK) answer = is_free(path);
    if (answer == COLA_OK && !begin_fresh(load, path, (size_t)length)) answer = COLA_SYSTEM;
    if (answer != COLA_OK) return answer;
    answer = cola_load_begin(&load->load, load->bytes, load->length, keys, block, version);
    if (answer != COLA_OK) drop_fresh(load);
    return answer;
}

int32_t cola_file_load_end(cola_file_load *load, uint64_t *rows) {
    if (load == NULL) return COLA_NULL;
    if (load->bytes == NULL || load->owner != (long)getpid()) return COLA_CLOSED;
    char *path = strndup(load->name, strlen(load->name) - ENDING);
    int32_t answer = cola_load_end(&load->load, rows);
    if (answer == COLA_OK) answer = path == NULL ? COLA_SYSTEM : is_free(path);
    if (answer == COLA_OK) answer = end_fresh(load, path);
    else drop_fresh(load);
    give_up(path, NULL, 0);
    return answer;
}

int32_t cola_file_load_drop(cola_file_load *load) {
    if (load == NULL) return COLA_NULL;
    if (load->bytes == NULL) return COLA_CLOSED;
    if (load->owner == (long)getpid()) {
        cola_load_end(&load->load, NULL); /* (in memory alone) */
        drop_fresh(load);
        return COLA_OK;
    }
    close(load->descriptor);
    give_up(load->name, load->bytes, load->length);
    *load = (cola_file_load)COLA_FILE_LOAD_INIT;
    return COLA_OK;
}
