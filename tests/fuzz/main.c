/* Runs a test of hostile bytes on each of some inputs, where there is no fuzzer: FILE.. */
#include <stdint.h>
#include <stdio.h>
#include <stdlib.h>

int LLVMFuzzerTestOneInput(const uint8_t *bytes, size_t length);

int main(int count, char **words) {
    static uint8_t bytes[1 << 20];
    for (int at = 1; at < count; at++) {
        FILE *file = fopen(words[at], "rb");
        if (file == NULL) return perror(words[at]), 2;
        size_t length = fread(bytes, 1, sizeof bytes, file);
        fclose(file);
        LLVMFuzzerTestOneInput(bytes, length);
    }
    printf("%d inputs\n", count - 1);
    return count < 2 ? 2 : 0;
}
