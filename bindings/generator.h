/* Modules for fuzzers in C: the configuration of the file that SMITH_CONFIG names, and a buffer that grows with the modules.
 *
 * Without SMITH_CONFIG the configuration is the default. If its file can't be read, has more than 64 KiB or holds a wrong configuration,
 * the process aborts with the reason on standard error, since no test case would reach the target.
 */
#ifndef SMITH_GENERATOR_H
#define SMITH_GENERATOR_H

#include "smith.h"

#include <stdio.h>
#include <stdlib.h>

struct generator {
    struct smith_config config;
    uint8_t *output;
    size_t room;
};

typedef struct smith_answer smith_call(const struct smith_config *, const uint8_t *, size_t, uint8_t *, size_t);

/* Replaces the buffer by one with room for `length` bytes. */
static inline void generator_enlarge(struct generator *generator, size_t length) {
    free(generator->output);
    generator->room = length;
    if (!(generator->output = (uint8_t *)malloc(generator->room))) abort();
}

/* Returns what `call` answers for the input. The output is at the front of `generator->output`. */
static inline struct smith_answer generator_call(struct generator *generator, smith_call *call, const uint8_t *input, size_t length) {
    for (;;) {
        struct smith_answer answer = call(&generator->config, input, length, generator->output, generator->room);
        if (answer.status != SMITH_SHORT) return answer;
        generator_enlarge(generator, answer.length);
    }
}

/* Returns what smith_invalid_with answers for the input and some families. The file is at the front of `generator->output`. */
static inline struct smith_answer generator_invalid(struct generator *generator, const uint8_t *input, size_t length,
                                                    const uint32_t *families, size_t count, struct smith_fault *fault) {
    for (;;) {
        struct smith_answer answer =
            smith_invalid_with(&generator->config, input, length, families, count, fault, generator->output, generator->room);
        if (answer.status != SMITH_SHORT) return answer;
        generator_enlarge(generator, answer.length);
    }
}

/* Prints why there is no module of the input, after `name` and a colon. */
static inline void generator_explain(struct generator *generator, const char *name, const uint8_t *input, size_t length) {
    size_t words = generator_call(generator, smith_refusal_with, input, length).length;
    fprintf(stderr, "%s: %.*s\n", name, (int)words, (const char *)generator->output);
}

/* Returns the number of bytes of the file, which are put into `text`. */
static inline size_t generator_read_file(const char *name, uint8_t *text, size_t room) {
    FILE *file = fopen(name, "rb");
    if (!file) {
        perror(name);
        abort();
    }
    size_t length = fread(text, 1, room, file);
    int next = fgetc(file);
    if (ferror(file)) {
        perror(name);
        abort();
    }
    if (next != EOF) {
        fprintf(stderr, "%s: more than %zu bytes\n", name, room);
        abort();
    }
    fclose(file);
    return length;
}

/* Reads the configuration in the file `name`, or the default one without a name. A text that is none aborts. */
static inline void generator_read_config(struct generator *generator, const char *name) {
    static uint8_t text[1 << 16];
    size_t length = name ? generator_read_file(name, text, sizeof text) : 0;
    if (smith_config_read(text, length, &generator->config).status == SMITH_MADE) return;
    size_t words = smith_refusal(text, length, text, 0, generator->output, generator->room).length;
    fprintf(stderr, "%s: %.*s\n", name ? name : "SMITH_CONFIG", (int)words, (const char *)generator->output);
    abort();
}

/* Returns a generator that is never freed. Only a wrong configuration aborts: other refusals may be of the empty input alone. */
static inline struct generator *generator_new(void) {
    static const uint8_t no_input[1];
    struct generator *generator = (struct generator *)malloc(sizeof *generator);
    if (!generator) abort();
    generator->room = 1 << 16;
    if (!(generator->output = (uint8_t *)malloc(generator->room))) abort();
    const char *name = getenv("SMITH_CONFIG");
    generator_read_config(generator, name);
    if (!name || generator_call(generator, smith_binary_with, no_input, 0).status != SMITH_CONFIG) return generator;
    generator_explain(generator, name, no_input, 0);
    abort();
}

#endif
