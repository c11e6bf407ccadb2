/* How a file is opened whose journal and log may stand beside it, for the files of this folder alone. */
#ifndef COLA_OPENING_H
#define COLA_OPENING_H

#include "cola_file.h"

/* Opens the file and locks it, alone or to be read alone, as the flags of cola_file_open_as say: when the journal that stood beside
 * was finished or dropped, and, where the flags ask for no log, when the calls of a log that follows the file were made again, by a
 * checkpoint. */
int32_t cola_file_open_settled(const char *path, uint32_t flags, int *descriptor);

/* Finishes the journal of a closed store's file, and makes the calls of its log again, where these stand beside it; *journal and
 * *log say so. */
int32_t cola_file_settle(const char *path, bool *journal, bool *log);

/* Opens the store of an open file again, which was closed in memory, as it was open. */
int32_t cola_file_reopen(cola_file *file);

#endif
