/* SPDX-License-Identifier: MIT */
/* cola-recover NAME..: finishes the checkpoint of each store's file whose journal, NAME-journal, is whole and follows it, and drops any
 * other journal; and makes the calls of a log that follows the file, NAME-log, again, by a checkpoint. Any opening by the library does the
 * same; the program cola, which knows of neither, wants it done before.
 *
 * A line for each file says what was done. The status is 0 where all was done, 1 where one was refused, 2 for no name. */
#include <errno.h>
#include <stdio.h>
#include <string.h>

#include "cola.h"
#include "cola_log.h"
#include "cola_opening.h"

static const char *why(int32_t answer) {
    return answer == COLA_UNFINISHED && errno == EINVAL ? "the pieces of its journal are none of this store"
         : answer == COLA_UNFINISHED && errno == COLA_EARLIER ? "its log was written by an earlier library, which makes its calls again"
         : answer != COLA_SYSTEM && answer != COLA_UNFINISHED ? cola_strerror(answer)
         : errno == EWOULDBLOCK                          ? "it is open in another process"
                                                         : strerror(errno);
}

static const char *what(bool journal, bool log) {
    return journal && log ? "its checkpoint was finished, and the calls of its log were made again"
         : journal        ? "its checkpoint was finished"
         : log            ? "the calls of its log were made again"
                          : "nothing to finish";
}

int main(int count, char **words) {
    int status = 0;
    if (count < 2 || words[1][0] == '-') return fprintf(stderr, "usage: cola-recover NAME..\n"), 2;
    for (int at = 1; at < count; at++) {
        bool journal, log;
        int32_t answer = cola_file_settle(words[at], &journal, &log);
        if (answer == COLA_OK) {
            printf("%s: %s\n", words[at], what(journal, log));
        } else {
            fprintf(stderr, "cola-recover: %s: %s\n", words[at], why(answer));
            status = 1;
        }
    }
    return status;
}
