/* Runs a target that takes files on the module of a test case. Write it before the target's command:
 *
 *     cc -O2 -I bindings -o smith_exec bindings/afl/smith_exec.c dist/libsmith.a
 *     afl-fuzz -i seeds -o found -- ./smith_exec ./target --option @@
 *     ./smith_exec ./target --option found/default/crashes/id:000000*
 *
 * The last word names the test case. In its place the target receives a path of the module, which is its standard input, too.
 *
 * Under AFL++ the target must be built with afl-cc. Its own fork server then forks each run and records edges in the map of AFL++;
 * this program passes AFL++'s words to it and its answers back. A test case of which there is no module runs nothing and has one edge of
 * its own. For a target with a persistent loop or a deferred fork server, set AFL_PERSISTENT=1 or AFL_DEFER_FORKSRV=1, as AFL++ looks for
 * their marks in this program only. SMITH_CONFIG names a file with a configuration, of at most 64 KiB.
 */
#define _GNU_SOURCE
#include "generator.h"

#include <fcntl.h>
#include <signal.h>
#include <string.h>
#include <sys/mman.h>
#include <sys/prctl.h>
#include <sys/shm.h>
#include <unistd.h>

/* The files on which AFL++ and a fork server exchange words of four bytes. */
enum { REQUESTS = 198, ANSWERS = 199 };

/* In the first word of a fork server: it takes test cases in memory, or has a dictionary. Neither is passed on. */
static const uint32_t UNSUPPORTED = 0x01000000 | 0x10000000;

/* The first three bytes of the first word of fork servers that begin with their version. */
static const uint32_t VERSIONED = 0x41464c;

struct wrapper {
    struct generator *generator;
    const char *test_case;
    uint8_t *input;
    size_t length;
    size_t room;
    int module;           /* a file in memory */
    int target_requests;  /* the fork server of the target */
    int target_answers;
    uint8_t *map;         /* AFL++'s map of edges, or null */
};

static void fail(const char *words) {
    fprintf(stderr, "smith_exec: %s\n", words);
    exit(1);
}

static void fail_at(const char *name) {
    perror(name);
    exit(1);
}

/* Reads a word. Without one the other side has ended, and so does this process. */
static uint32_t read_word(int file) {
    uint32_t word;
    if (read(file, &word, sizeof word) != sizeof word) exit(0);
    return word;
}

static void write_word(int file, uint32_t word) {
    if (write(file, &word, sizeof word) != sizeof word) exit(0);
}

static void read_test_case(struct wrapper *wrapper) {
    int file = open(wrapper->test_case, O_RDONLY | O_CLOEXEC);
    if (file < 0) fail_at(wrapper->test_case);
    wrapper->length = 0;
    ssize_t count;
    while ((count = read(file, wrapper->input + wrapper->length, wrapper->room - wrapper->length)) > 0) {
        wrapper->length += count;
        if (wrapper->length < wrapper->room) continue;
        wrapper->room *= 2;
        if (!(wrapper->input = realloc(wrapper->input, wrapper->room))) abort();
    }
    if (count < 0) fail_at(wrapper->test_case);
    close(file);
}

/* Writes the module of the test case to the file in memory. Returns whether there is one. */
static int write_module(struct wrapper *wrapper) {
    read_test_case(wrapper);
    struct smith_answer answer = generator_call(wrapper->generator, smith_binary_with, wrapper->input, wrapper->length);
    if (answer.status != SMITH_MADE) return 0;
    if (ftruncate(wrapper->module, 0) || lseek(wrapper->module, 0, SEEK_SET)) fail_at("the module");
    if (write(wrapper->module, wrapper->generator->output, answer.length) != (ssize_t)answer.length) fail_at("the module");
    if (lseek(wrapper->module, 0, SEEK_SET)) fail_at("the module");
    return 1;
}

/* Becomes the target. */
static void become(struct wrapper *wrapper, char **words) {
    if (dup2(wrapper->module, STDIN_FILENO) < 0) fail_at("standard input");
    execvp(words[0], words);
    fail_at(words[0]);
}

/* Starts the fork server of the target, which ends with this process. */
static void start_target(struct wrapper *wrapper, char **words) {
    int requests[2], answers[2];
    if (pipe2(requests, O_CLOEXEC) || pipe2(answers, O_CLOEXEC)) fail_at("pipe");
    pid_t process = fork();
    if (process < 0) fail_at("fork");
    if (process == 0) {
        prctl(PR_SET_PDEATHSIG, SIGTERM);
        if (dup2(requests[0], REQUESTS) < 0 || dup2(answers[1], ANSWERS) < 0) fail_at("dup2");
        become(wrapper, words);
    }
    close(requests[0]);
    close(answers[1]);
    wrapper->target_requests = requests[1];
    wrapper->target_answers = answers[0];
}

/* Passes the first word of the target's fork server to AFL++: it has the size of its map. */
static void greet(struct wrapper *wrapper) {
    uint32_t first;
    if (read(wrapper->target_answers, &first, sizeof first) != sizeof first) fail("the target has no fork server: build it with afl-cc");
    if (first >> 8 == VERSIONED) fail("the target's fork server is of a newer AFL++ than is known here");
    write_word(ANSWERS, first & ~UNSUPPORTED);
}

/* Passes a request to the target, and its two answers back: the process of the run, and how it ended. */
static void run_target(struct wrapper *wrapper, uint32_t request) {
    write_word(wrapper->target_requests, request);
    write_word(ANSWERS, read_word(wrapper->target_answers));
    write_word(ANSWERS, read_word(wrapper->target_answers));
}

/* Answers that a run ended well, in a map with its first byte alone, where no edge of a target is counted. */
static void run_nothing(struct wrapper *wrapper) {
    if (wrapper->map) wrapper->map[0] = 1;
    uint32_t words[2] = {getpid(), 0};
    if (write(ANSWERS, words, sizeof words) != sizeof words) exit(0);
}

/* Serves AFL++ until it ends. The request says whether AFL++ killed the run before, which the target must hear. */
static void serve(struct wrapper *wrapper, char **words) {
    const char *map = getenv("__AFL_SHM_ID");
    if (map && (wrapper->map = shmat(atoi(map), NULL, 0)) == (void *)-1) fail_at("the map");
    start_target(wrapper, words);
    greet(wrapper);
    uint32_t was_killed = 0;
    for (;;) {
        was_killed |= read_word(REQUESTS);
        if (write_module(wrapper)) {
            run_target(wrapper, was_killed);
            was_killed = 0;
        } else {
            run_nothing(wrapper);
        }
    }
}

int main(int count, char **words) {
    if (count < 3) fail("usage: smith_exec TARGET [WORD..] TEST_CASE");
    struct wrapper wrapper = {.generator = generator_new(), .test_case = words[count - 1], .room = 1 << 16};
    if (!(wrapper.input = malloc(wrapper.room))) abort();
    if ((wrapper.module = memfd_create("module", 0)) < 0) fail_at("memfd_create");
    char path[32];
    snprintf(path, sizeof path, "/proc/self/fd/%d", wrapper.module);
    words[count - 1] = path;
    if (fcntl(ANSWERS, F_GETFD) >= 0) serve(&wrapper, words + 1);
    if (write_module(&wrapper)) become(&wrapper, words + 1);
    generator_explain(wrapper.generator, wrapper.test_case, wrapper.input, wrapper.length);
    return 1;
}
