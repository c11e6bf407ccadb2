/* Calls of the system on a file that is on a disk: see cola_disk.h. */
#define _GNU_SOURCE
#include "cola_disk.h"

#include <errno.h>
#include <fcntl.h>
#include <limits.h>
#include <stdio.h>
#include <string.h>
#include <sys/file.h>
#include <sys/stat.h>
#include <unistd.h>

/* A system that takes no byte and gives no reason is a disk that fails. */
bool cola_disk_write(int descriptor, const void *bytes, size_t length, size_t place) {
    const char *from = bytes;
    while (length > 0) {
        ssize_t wrote = pwrite(descriptor, from, length, (off_t)place);
        if (wrote < 0 && errno == EINTR) continue;
        if (wrote == 0) errno = EIO;
        if (wrote <= 0) return false;
        from += wrote, place += (size_t)wrote, length -= (size_t)wrote;
    }
    return true;
}

bool cola_disk_store(int descriptor, const void *bytes, size_t length, size_t place) {
    return cola_disk_write(descriptor, bytes, length, place) && fsync(descriptor) == 0;
}

ssize_t cola_disk_read(int descriptor, void *bytes, size_t length) {
    char *into = bytes;
    size_t had = 0;
    while (had < length) {
        ssize_t got = pread(descriptor, into + had, length - had, (off_t)had);
        if (got < 0 && errno == EINTR) continue;
        if (got < 0) return -1;
        if (got == 0) break;
        had += (size_t)got;
    }
    return (ssize_t)had;
}

bool cola_disk_take_room(int descriptor, size_t place, size_t length) {
    int error = posix_fallocate(descriptor, (off_t)place, (off_t)length);
    errno = error;
    return error == 0;
}

bool cola_disk_sync_name(const char *path) {
    char folder[PATH_MAX];
    const char *end = strrchr(path, '/');
    if (end != NULL && end - path >= PATH_MAX) return errno = ENAMETOOLONG, false;
    snprintf(folder, sizeof folder, "%.*s", end == NULL ? 1 : end == path ? 1 : (int)(end - path), end == NULL ? "." : path);
    int descriptor = open(folder, O_RDONLY | O_DIRECTORY | O_CLOEXEC);
    if (descriptor < 0) return false;
    bool synced = fsync(descriptor) == 0;
    cola_disk_close(descriptor);
    return synced;
}

bool cola_disk_sync_folder(int folder) {
    int descriptor = openat(folder, ".", O_RDONLY | O_DIRECTORY | O_CLOEXEC);
    if (descriptor < 0) return false;
    bool is_synced = fsync(descriptor) == 0;
    cola_disk_close(descriptor);
    return is_synced;
}

void cola_disk_let_go(int descriptor) {
    int error = errno;
    flock(descriptor, LOCK_UN);
    close(descriptor);
    errno = error;
}

void cola_disk_close(int descriptor) {
    int error = errno;
    close(descriptor);
    errno = error;
}

bool cola_disk_is_named(int descriptor, const char *path, bool *told) {
    struct stat own, named;
    *told = fstat(descriptor, &own) == 0;
    if (!*told) return false;
    if (stat(path, &named) == 0) return own.st_dev == named.st_dev && own.st_ino == named.st_ino;
    *told = errno == ENOENT;
    return false;
}

int cola_disk_open_locked(const char *path, bool reads) {
    bool told = true;
    while (told) {
        int descriptor = open(path, (reads ? O_RDONLY : O_RDWR) | O_CLOEXEC);
        if (descriptor < 0) return -1;
        told = flock(descriptor, (reads ? LOCK_SH : LOCK_EX) | LOCK_NB) == 0;
        if (told && cola_disk_is_named(descriptor, path, &told)) return descriptor;
        cola_disk_let_go(descriptor);
    }
    return -1;
}
