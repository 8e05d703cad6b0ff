/* Reads a configuration and inputs from standard input, each as its length in four bytes, least significant first, and then its bytes.
 * Writes for each input a status and the module, or the reason in words, in the same form.
 *
 * It also checks the buffer after each call, with too little room, with just enough, and with more, that the calls for a
 * configuration that is read answer the same, also with no shapes, that calls with a shape make modules, what each module and its front are
 * judged to be, and that an invalid file is one. The exit status is 3 if a buffer is not as smith.h says, 4 if memory runs out, or a read or
 * a write fails, and 5 if answers differ or are wrong.
 */
#include "smith.h"

/* The parts of the C library that are needed. The kit lacks its headers. */
long read(int file, void *buffer, size_t length);
long write(int file, const void *buffer, size_t length);
void *memset(void *bytes, int byte, size_t length);
int memcmp(const void *one, const void *other, size_t length);
void _exit(int status);

typedef struct smith_answer call(const uint8_t *, size_t, const uint8_t *, size_t, uint8_t *, size_t);
typedef struct smith_answer call_with(const struct smith_config *, const uint8_t *, size_t, uint8_t *, size_t);
typedef struct smith_answer call_shaped(const struct smith_config *, const struct smith_shapes *, const uint8_t *, size_t, uint8_t *,
                                        size_t);

/* Each call, and the same for a configuration that is read, without shapes and with them. */
static const struct {
    call *of_text;
    call_with *of_read;
    call_shaped *of_shapes;
} CALLS[] = {
    {smith_binary, smith_binary_with, smith_binary_shaped},
    {smith_text, smith_text_with, smith_text_shaped},
    {smith_wat, smith_wat_with, smith_wat_shaped},
    {smith_refusal, smith_refusal_with, smith_refusal_shaped},
};

/* Shapes: one that each default configuration permits, and one that is no module. */
static const uint8_t SHAPE[] = "(module (func (export \"run\") (param i32)))", NO_SHAPE[] = "(modul)";

enum { MARK = 0xA5, ROOM = 1 << 18, GIVEN = 64 << 20, BEYOND = 64 };

struct bytes {
    const uint8_t *at;
    size_t length;
};

static void need(int holds, int status) {
    if (!holds) _exit(status);
}

static void write_all(const void *bytes, size_t length) {
    for (const uint8_t *rest = bytes; length > 0;) {
        long count = write(1, rest, length);
        need(count > 0, 4);
        rest += count;
        length -= (size_t)count;
    }
}

static void write_number(uint32_t number) {
    uint8_t bytes[4] = {(uint8_t)number, (uint8_t)(number >> 8), (uint8_t)(number >> 16), (uint8_t)(number >> 24)};
    write_all(bytes, 4);
}

/* Takes a record from the front of the input. */
static struct bytes record(struct bytes *given) {
    need(given->length >= 4, 4);
    const uint8_t *at = given->at;
    size_t length = at[0] | at[1] << 8 | at[2] << 16 | (size_t)at[3] << 24;
    need(given->length - 4 >= length, 4);
    *given = (struct bytes){at + 4 + length, given->length - 4 - length};
    return (struct bytes){at + 4, length};
}

/* Calls with `room` bytes of a buffer of marks. All bytes that are not written must still be marks, even those beyond the room. */
static struct smith_answer marked(call *make, struct bytes config, struct bytes input, uint8_t *out, size_t room, uint32_t writes) {
    memset(out, MARK, room + BEYOND);
    struct smith_answer answer = make(config.at, config.length, input.at, input.length, out, room);
    size_t written = answer.status == writes ? answer.length : 0;
    need(written <= room, 3);
    for (size_t i = written; i < room + BEYOND; i++) need(out[i] == MARK, 3);
    return answer;
}

/* Calls with all the room, then with exactly the room that the output needs, and with one byte less. */
static struct smith_answer tried(call *make, struct bytes config, struct bytes input, uint8_t *out, uint32_t writes) {
    struct smith_answer first = marked(make, config, input, out, ROOM, writes);
    need(first.status != SMITH_SHORT, 3);
    if (first.length > 0) {
        struct smith_answer less = marked(make, config, input, out, first.length - 1, writes);
        need(less.status == SMITH_SHORT && less.length == first.length, 3);
    }
    struct smith_answer just = marked(make, config, input, out, first.length, writes);
    need(just.status == first.status && just.length == first.length, 3);
    return just;
}

/* A configuration that is read, if it can be, with marks after it, and a handle of it. */
struct read {
    struct smith_config config;
    uint8_t marks[BEYOND];
    uint32_t status;
    struct smith_config *handle;
};

static void read_config(struct bytes config, struct read *read) {
    memset(read, MARK, sizeof *read);
    struct smith_answer answer = smith_config_read(config.at, config.length, &read->config);
    need(answer.length == 0, 3);
    read->status = answer.status;
    for (size_t i = 0; i < BEYOND; i++) need(read->marks[i] == MARK, 3);
    const uint8_t *bytes = (const uint8_t *)&read->config;
    for (size_t i = 0; answer.status != SMITH_MADE && i < sizeof read->config; i++) need(bytes[i] == MARK, 3);
    read->handle = smith_config_new(config.at, config.length);
    need((read->handle != NULL) == (answer.status == SMITH_MADE), 5);
}

/* The answers must be the same, and so must be the outputs. */
static void need_same(struct smith_answer one, const uint8_t *out, struct smith_answer same, const uint8_t *other) {
    need(one.status == same.status && one.length == same.length, 5);
    need(one.status == SMITH_SHORT || memcmp(out, other, one.length) == 0, 5);
}

/* Compares the answers of a text with those of what was read of it, or with the status if it wasn't read. */
static void compare(struct bytes config, const struct read *read, struct bytes input, uint8_t *out, uint8_t *other) {
    struct smith_shapes none = smith_no_shapes();
    for (size_t i = 0; i < sizeof CALLS / sizeof *CALLS; i++) {
        struct smith_answer one = CALLS[i].of_text(config.at, config.length, input.at, input.length, out, ROOM);
        need(read->status == SMITH_MADE || one.status == read->status, 5);
        if (read->status != SMITH_MADE) continue;
        need_same(one, out, CALLS[i].of_read(&read->config, input.at, input.length, other, ROOM), other);
        need_same(one, out, CALLS[i].of_read(read->handle, input.at, input.length, other, ROOM), other);
        need_same(one, out, CALLS[i].of_shapes(&read->config, &none, input.at, input.length, other, ROOM), other);
    }
}

/* Judges the file of `length` bytes with a buffer of marks and `room` bytes of it, and returns the verdict, which must be written. */
static struct smith_verdict judged(const uint8_t *file, size_t length, uint8_t *out, size_t room) {
    struct smith_verdict verdict;
    memset(&verdict, MARK, sizeof verdict);
    memset(out, MARK, room + BEYOND);
    struct smith_answer answer = smith_check(file, 0, file, length, &verdict, out, room);
    need(answer.status == (answer.length > room ? SMITH_SHORT : SMITH_MADE), 3);
    for (size_t i = answer.length > room ? 0 : answer.length; i < room + BEYOND; i++) need(out[i] == MARK, 3);
    need(answer.length > 0 && verdict.kind <= SMITH_NOT_JUDGED, 3);
    return verdict;
}

/* A module must be valid, or not judged, whatever room there is for the words, and its front must be malformed. */
static void judge_module(const uint8_t *file, size_t length, uint8_t *out) {
    struct smith_verdict whole = judged(file, length, out, ROOM), none = judged(file, length, out, 0);
    need(whole.kind == SMITH_VALID || whole.kind == SMITH_NOT_JUDGED, 5);
    need(memcmp(&whole, &none, sizeof whole) == 0, 5);
    need((whole.kind == SMITH_VALID) == (whole.offset == ~(uint64_t)0), 5);
    struct smith_verdict front = judged(file, length - 1, out, ROOM);
    need(front.kind == SMITH_MALFORMED && front.reason == SMITH_REASON_END && front.offset <= length, 5);
}

/* A module with a shape must be valid, or not judged, and the reason must be the shape if it isn't one. */
static void try_shapes(const struct read *read, struct bytes input, uint8_t *out, uint8_t *other) {
    struct smith_shapes shapes = smith_no_shapes();
    shapes.exports = SHAPE;
    shapes.exports_length = sizeof SHAPE - 1;
    struct smith_answer made = smith_binary_shaped(&read->config, &shapes, input.at, input.length, out, ROOM);
    need(made.status != SMITH_SHAPE && made.status != SMITH_NO_SHAPE, 5);
    if (made.status == SMITH_MADE) judge_module(out, made.length, other);
    shapes.module_shape = NO_SHAPE;
    shapes.module_shape_length = sizeof NO_SHAPE - 1;
    need(smith_binary_shaped(&read->config, &shapes, input.at, input.length, out, ROOM).status == SMITH_NO_SHAPE, 5);
    need(smith_refusal_shaped(&read->config, &shapes, input.at, input.length, out, ROOM).status == SMITH_NO_SHAPE, 5);
}

/* Makes an invalid file by a buffer of marks and `room` bytes of it. The fault must be written if the file is made, or has no room. */
static struct smith_answer invalid_file(struct bytes config, struct bytes input, uint32_t family, struct smith_fault *fault, uint8_t *out,
                                        size_t room) {
    memset(fault, MARK, sizeof *fault);
    memset(out, MARK, room + BEYOND);
    struct smith_answer answer = smith_invalid(config.at, config.length, input.at, input.length, &family, family > 0, fault, out, room);
    for (size_t i = answer.status == SMITH_MADE ? answer.length : 0; i < room + BEYOND; i++) need(out[i] == MARK, 3);
    need((fault->family == MARK * 0x01010101u) == (answer.status > SMITH_SHORT), 3);
    return answer;
}

/* An invalid file must be one of the family that is given, with one fault whatever room there is for it, and the same if the configuration
 * is read, also with no shapes. */
static void try_invalid(struct bytes config, const struct read *read, struct bytes input, uint8_t *out, uint8_t *other) {
    static const uint32_t any[1];
    struct smith_shapes none = smith_no_shapes();
    struct smith_fault fault, same;
    struct smith_answer made = invalid_file(config, input, 0, &fault, out, ROOM);
    need_same(made, out, smith_invalid_with(&read->config, input.at, input.length, any, 0, &same, other, ROOM), other);
    need_same(made, out, smith_invalid_shaped(&read->config, &none, input.at, input.length, any, 0, &same, other, ROOM), other);
    need(invalid_file(config, input, 99, &same, other, ROOM).status == SMITH_NO_FAMILY, 5);
    if (made.status != SMITH_MADE) return;
    need(fault.verdict.kind == SMITH_INVALID || fault.verdict.kind == SMITH_MALFORMED, 5);
    need(invalid_file(config, input, 0, &same, other, made.length - 1).status == SMITH_SHORT, 3);
    need(memcmp(&fault.verdict, &same.verdict, sizeof same.verdict) == 0 && fault.family == same.family, 5);
    struct smith_answer again = invalid_file(config, input, fault.family, &same, other, ROOM);
    need(again.status == SMITH_NO_CHANGE || (again.status == SMITH_MADE && same.family == fault.family), 5);
    need(smith_family_name(fault.family) && !smith_family_name(0) && !smith_family_name(SMITH_FAMILY_DATA_COUNT_MISSING + 1), 5);
}

static void answer_record(struct bytes config, struct bytes input, uint8_t *out, uint8_t *other) {
    struct smith_answer answer = tried(smith_binary, config, input, out, SMITH_MADE);
    if (answer.status == SMITH_MADE) {
        judge_module(out, answer.length, other);
    } else {
        struct smith_answer reason = tried(smith_refusal, config, input, out, answer.status);
        need(reason.status == answer.status, 3);
        answer = reason;
    }
    write_number(answer.status);
    write_number((uint32_t)answer.length);
    write_all(out, answer.length);
}

int main(void) {
    uint8_t *buffer = malloc(GIVEN), *out = malloc(ROOM + BEYOND), *other = malloc(ROOM + BEYOND);
    need(buffer && out && other, 4);
    struct bytes given = {buffer, 0};
    for (long count; (count = read(0, buffer + given.length, GIVEN - given.length)) != 0;) {
        need(count > 0, 4);
        given.length += (size_t)count;
    }
    struct bytes config = record(&given);
    struct read read;
    read_config(config, &read);
    while (given.length > 0) {
        struct bytes input = record(&given);
        compare(config, &read, input, out, other);
        if (read.status == SMITH_MADE) try_shapes(&read, input, out, other);
        if (read.status == SMITH_MADE) try_invalid(config, &read, input, out, other);
        answer_record(config, input, out, other);
    }
    smith_config_free(read.handle);
    return 0;
}
