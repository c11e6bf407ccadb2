/* A store's file that is kept in memory of the process's own, for the files of this folder alone: see cola_file.h. */
#ifndef COLA_RESIDENT_H
#define COLA_RESIDENT_H

#include "cola_file.h"

#include "cola_log.h"

/* Reads the store of so many bytes in a locked file into memory, and opens it there, with a log where the flags ask for one. */
int32_t cola_resident_open(cola_file *file, const char *path, int descriptor, size_t length, uint32_t flags);

/* The log of an open store, which has one. */
cola_log *cola_resident_log(const cola *store);

/* Opens the store in memory again, which was closed there. */
int32_t cola_resident_reopen(cola_file *file);

/* Makes the file have what the store has, and begins its log anew. */
int32_t cola_resident_checkpoint(cola_file *file);

/* Closes the store in memory, makes the file have what it has, unless it is discarded, and gives the memory back. A log that the
 * file has no need of is removed. In another
 * process than the one that opened it the memory alone is given back. The file itself is the caller's. */
int32_t cola_resident_close(cola_file *file, bool discards, bool is_owner);

#endif
