/* A target for libFuzzer and for AFL++ in one process: each input becomes a module, and `consume` is yours to write.
 *
 *     afl-clang-fast -fsanitize=fuzzer -I bindings bindings/libfuzzer/target.c consume.c dist/libsmith.a -o fuzz
 *     afl-fuzz -i seeds -o found -- ./fuzz
 *
 *     clang -g -O1 -fsanitize=fuzzer,address -I bindings bindings/libfuzzer/target.c consume.c dist/libsmith.a -o fuzz
 *     ./fuzz corpus
 *
 * SMITH_CONFIG names a file with a configuration, of at most 64 KiB; without it the configuration is the default.
 */
#include "generator.h"

#include <string.h>

/* Passes a module to the code under test. The bytes are an allocation of just that length, so that sanitizers see a read past its end. */
void consume(const uint8_t *module, size_t length);

static struct generator *generator;

int LLVMFuzzerInitialize(int *count, char ***words) {
    (void)count, (void)words;
    generator = generator_new();
    return 0;
}

/* Returns -1 for a refused input, so that the fuzzer doesn't keep it. */
int LLVMFuzzerTestOneInput(const uint8_t *input, size_t length) {
    struct smith_answer answer = generator_call(generator, smith_binary_with, input, length);
    if (answer.status != SMITH_MADE) return -1;
    uint8_t *module = malloc(answer.length);
    if (!module) return -1;
    memcpy(module, generator->output, answer.length);
    consume(module, answer.length);
    free(module);
    return 0;
}
