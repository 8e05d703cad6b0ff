/* A target for libFuzzer and for AFL++ in one process that tests a validator: each input becomes a file that is no valid module, and a file
 * that `validate`, which is yours to write, takes as valid is a crash.
 *
 *     clang -g -O1 -fsanitize=fuzzer,address -I bindings bindings/libfuzzer/invalid.c validate.c dist/libsmith.a -o fuzz
 *     ./fuzz corpus
 *
 *     afl-clang-fast -fsanitize=fuzzer -I bindings bindings/libfuzzer/invalid.c validate.c dist/libsmith.a -o fuzz
 *     afl-fuzz -i seeds -o found -- ./fuzz
 *
 * SMITH_CONFIG names a file with a configuration, of at most 64 KiB; without it the configuration is the default. The validator must have
 * the features that it turns on, and no others, since a file may be valid under more. SMITH_FAMILIES has names of families of changes, with
 * commas between them, such as label,limits; without it all are drawn. Before it aborts, the target prints the fault of the file and the
 * family of the change, and writes the file to the path that SMITH_TAKEN names, if there is one.
 */
#include "generator.h"

#include <inttypes.h>
#include <string.h>

/* Returns 1 if the bytes are taken as a valid module, or else 0. They are an allocation of just that length, so that sanitizers see a read
 * past its end. */
int validate(const uint8_t *file, size_t length);

static struct generator *generator;
static uint32_t families[64];
static size_t families_count;

/* Returns the number of the family whose name begins at `name` and has `length` letters. A name of none aborts. */
static uint32_t family_of(const char *name, size_t length) {
    const char *other;
    for (uint32_t family = 1; (other = smith_family_name(family)); family++) {
        if (strlen(other) == length && !memcmp(other, name, length)) return family;
    }
    fprintf(stderr, "SMITH_FAMILIES: %.*s is no family\n", (int)length, name);
    abort();
}

static void read_families(const char *names) {
    while (names && families_count < sizeof families / sizeof *families) {
        size_t length = strcspn(names, ",");
        families[families_count++] = family_of(names, length);
        names = names[length] ? names + length + 1 : NULL;
    }
}

int LLVMFuzzerInitialize(int *count, char ***words) {
    (void)count, (void)words;
    generator = generator_new();
    read_families(getenv("SMITH_FAMILIES"));
    return 0;
}

static void write_file(const char *path, const uint8_t *file, size_t length) {
    FILE *to = fopen(path, "wb");
    if (!to || fwrite(file, 1, length, to) != length || fclose(to)) perror(path);
}

/* Prints in which numbers of smith.h a file breaks a rule, and aborts. */
static void fail(const struct smith_fault *fault, const uint8_t *file, size_t length) {
    const struct smith_verdict *verdict = &fault->verdict;
    const char *kind = verdict->kind == SMITH_INVALID ? "an invalid" : "a malformed";
    uint32_t rule = verdict->kind == SMITH_INVALID ? verdict->rule : verdict->reason;
    fprintf(stderr, "invalid: %s file of %zu bytes is taken: %s, rule %" PRIu32 " at %#" PRIx64 "\n", kind, length,
            smith_family_name(fault->family), rule, verdict->offset);
    const char *path = getenv("SMITH_TAKEN");
    if (path) write_file(path, file, length);
    abort();
}

/* Returns -1 for an input of which there is no file, so that the fuzzer doesn't keep it. */
int LLVMFuzzerTestOneInput(const uint8_t *input, size_t length) {
    struct smith_fault fault;
    struct smith_answer answer = generator_invalid(generator, input, length, families, families_count, &fault);
    if (answer.status != SMITH_MADE) return -1;
    uint8_t *file = malloc(answer.length);
    if (!file) return -1;
    memcpy(file, generator->output, answer.length);
    if (validate(file, answer.length)) fail(&fault, file, answer.length);
    free(file);
    return 0;
}
