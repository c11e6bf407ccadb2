/* Puts a key by the library: beside FILE KEY VALUE. It ends with 0 where the key was put and the file is closed, with 3 where the
 * file is refused, since another has it, and else with 1. */
#include "cola_file.h"

#include <errno.h>
#include <stdio.h>
#include <string.h>

int main(int words, char **word) {
    cola_file file = COLA_FILE_INIT;
    int32_t answer;
    if (words != 4) return 1;
    answer = cola_file_open(&file, word[1]);
    if (answer == COLA_NOT_CLOSED || (answer == COLA_SYSTEM && errno == EWOULDBLOCK)) return 3;
    if (answer == COLA_OK) answer = cola_put(&file.store, word[2], strlen(word[2]), word[3], strlen(word[3]), NULL);
    if (answer == COLA_OK) answer = cola_file_close(&file);
    if (answer != COLA_OK) fprintf(stderr, "beside: %d\n", (int)answer);
    return answer != COLA_OK;
}
