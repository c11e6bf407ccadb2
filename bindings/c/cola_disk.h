/* Calls of the system on a file that is on a disk, for the files of this folder alone. Each is false, or -1, where one failed:
 * errno says which way. */
#ifndef COLA_DISK_H
#define COLA_DISK_H

#include <errno.h>
#include <stdbool.h>
#include <stddef.h>
#include <sys/types.h>

enum {
    COLA_HEADER = 512,     /* the bytes of a header, which a disk writes as a whole */
    COLA_REPLACED = ESTALE /* the errno that says that a path has another file than the one that was locked */
};

/* Writes bytes at a place of the file. */
bool cola_disk_write(int descriptor, const void *bytes, size_t length, size_t place);

/* The same, and waits until they are on the disk. */
bool cola_disk_store(int descriptor, const void *bytes, size_t length, size_t place);

/* Reads the first bytes of the file, and answers how many it gave, fewer at its end alone. */
ssize_t cola_disk_read(int descriptor, void *bytes, size_t length);

/* Takes room on the disk for bytes of the file from a place on. */
bool cola_disk_take_room(int descriptor, size_t place, size_t length);

/* Waits until a name in a folder is on the disk. */
bool cola_disk_sync_name(const char *path);

/* Waits until the names in this folder are on the disk. */
bool cola_disk_sync_folder(int folder);

/* Gives up the lock, which a child or a mapping may have too, and closes the file. errno stays. */
void cola_disk_let_go(int descriptor);

/* Closes a file. errno stays. */
void cola_disk_close(int descriptor);

/* Whether the path names the open file, and not another one, or none, by now. False too where that could not be told: then *told is. */
bool cola_disk_is_named(int descriptor, const char *path, bool *told);

/* Opens the file and locks it, alone or as one of those that read it; -1 on failure. Where the path got another file meanwhile,
 * as by a copy that took the old one's place, that one is opened. */
int cola_disk_open_locked(const char *path, bool reads);

/* Whether a refusal says that the path got another file behind that: then the opening begins again. */
static inline bool cola_disk_is_replaced(bool refused) { return refused && errno == COLA_REPLACED; }

#endif
