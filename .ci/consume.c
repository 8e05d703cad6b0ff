/* A target for fuzzers, in one process or, with -DFILES, as a program that takes a file. It walks over the sections of a module, and stops
 * at anything else. */
#include <stddef.h>
#include <stdint.h>
#include <stdio.h>
#include <stdlib.h>
#include <string.h>

static volatile unsigned kinds;

static size_t number(const uint8_t *module, size_t *at) {
    uint8_t byte = module[(*at)++];
    return byte < 128 ? byte : (byte & 127) + 128 * number(module, at);
}

void consume(const uint8_t *module, size_t length) {
    if (length < 8 || memcmp(module, "\0asm\1\0\0", 8)) abort();
    for (size_t at = 8; at < length;) {
        switch (module[at++]) {
            case 1: kinds |= 1; break;
            case 2: kinds |= 2; break;
            case 3: kinds |= 4; break;
            case 5: kinds |= 8; break;
            case 10: kinds |= 16; break;
        }
        size_t size = number(module, &at);
        at += size;
    }
}

#ifdef FILES
int main(int count, char **words) {
    static uint8_t module[1 << 20];
    FILE *file = fopen(words[count - 1], "rb");
    if (!file) abort();
    size_t length = fread(module, 1, sizeof module, file);
    fclose(file);
    consume(module, length);
}
#endif
