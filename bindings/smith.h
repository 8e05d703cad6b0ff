/* Valid WebAssembly modules from bytes, with bodies of instructions, and files that are no valid modules.
 *
 * Link with libsmith.a, or load libsmith.so; `./build` makes both. In the header next to them SMITH_VERSION is the version, a string, and
 * SMITH_UNPROVED is defined if nothing of the build is proved. Versions with the same second number produce the same modules.
 *
 * Most calls take a configuration, an input, and a buffer for the output. A text, an input and a buffer are a pointer and a number of
 * bytes.
 *
 * - A configuration is a JSON object in the form of the Rust crate `wasm-smith`, such as {"max-types": 3}, in UTF-8, without a zero at its
 *   end. With length 0 it is the default configuration. Each call that takes it reads it, and many fields take longer than a small module.
 *   smith_config_read reads it once into a struct smith_config, for the calls whose names end in _with. These answer what the calls without
 *   this ending answer for the text.
 * - A struct smith_config is memory of the caller, without pointers: it may be copied, needs no release, and means the same in every
 *   process with a library of the same version. Give no other bytes than those that smith_config_read wrote, or copies of them.
 *   smith_config_new returns such a struct in memory of its own, for callers that keep a handle.
 * - A shape is a module in the binary or the text format that says what the drawn ones import or export. The calls whose names end in
 *   _shaped take a struct smith_shapes beside a struct smith_config, and read its shapes each time.
 * - `input` is any bytes. The same configuration and input produce the same module.
 * - No pointer may be null, even where its length is 0, and what a call writes may overlap nothing else that it takes.
 *   No length may be above PTRDIFF_MAX. Neither `config` nor `input` nor a shape may change during a call. What is written may be
 *   uninitialised.
 * - A call writes all of its output to the front of `out` and leaves the other bytes as they are, or it leaves all of `out` as it is.
 *   It keeps no pointer.
 *
 * Any number of threads may call at the same time, each with a buffer of its own. They may share inputs, texts, and each struct
 * smith_config that no thread reads a text into. A call allocates with malloc, which must be thread-safe then and align as for max_align_t,
 * and frees all that it allocated with free of the same allocator. Do not call from a signal handler, nor in the child of a process that
 * had several threads when it forked. The stack grows with the depth of blocks in bodies, which is bounded: a thread of 96 KiB was enough
 * for 1,800 inputs under six configurations, and one of 64 KiB was not. Give it the usual 8 MiB.
 *
 * The processor must have the instructions of x86-64-v2, as SSE4.2 and POPCNT. Neither library checks that.
 *
 * The module is determined by the definitions of this project. Apart from raw bodies it is valid by the WebAssembly Core
 * Specification 3.0 and, for proposals beyond it that the configuration turns on (by default shared memories, compact imports and,
 * in bodies, atomic accesses and arithmetic on 128 bits), by rules of this project; docs/DEFINITIONS.md lists both. Each body is
 * typed over it. smith_binary writes a binary of it. All this is proved for every input. Nothing checks that a caller in C keeps
 * the rules above.
 *
 * A function may run forever, even the start function. The member {"fuel": N} adds a global that counts down from N, at each call and at
 * each iteration of a loop, and a trap at 0. With {"fuel-export": true} beside it, the last export is that global, a mutable i32 that can
 * be set again before a call. {"max-instructions": 0} makes every body but raw ones `unreachable`. Else whoever instantiates a module
 * should set a time limit.
 *
 * The member {"observe": true} adds three mutable globals, the sinks: one i32 and two i64, which are 0 at first. Each function mixes the
 * values of its locals into them where it ends, so that two engines that compute other values differ in their sinks. They are the last
 * exports, `sink_i32`, `sink_i64` and `sink_i64_2`. If an earlier export has one of these names, as many `_` follow it as the longest
 * earlier name has bytes. The counter of fuel comes after them, and is exported, too. A raw body is refused with SMITH_UNMET, as for fuel.
 */
#ifndef SMITH_H
#define SMITH_H

#include <stddef.h>
#include <stdint.h>
#include <stdlib.h>

#ifdef __cplusplus
extern "C" {
#endif

/* The outcome of a call. */
enum {
    SMITH_MADE = 0,         /* there is a module */
    SMITH_SHORT = 1,        /* nothing was written, since the output has `length` bytes and `out` has fewer */
    SMITH_NO_MEMORY = 2,    /* malloc returned no memory */
    SMITH_CONFIG_TEXT = 3,  /* the configuration isn't UTF-8, or isn't an object of known fields with values that they take */
    SMITH_CONFIG = 4,       /* a minimum is above its maximum, or a maximum is too large */
    SMITH_UNMET = 5,        /* the input doesn't reach a minimum of the configuration, or exports would pass the type size */
    SMITH_SHAPE = 6,        /* a shape is wrong, or needs what the configuration doesn't permit */
    SMITH_TOO_LONG = 7,     /* a list or a section is too long for the binary format */
    SMITH_NO_SHAPE = 8,     /* the bytes of a shape are no module in the binary or the text format */
    SMITH_NO_CHANGE = 9,    /* no change that was tried makes the module an invalid file */
    SMITH_NO_FAMILY = 10    /* the number of a family of changes is that of none */
};

/* `length` is the number of bytes of the output. It is 0 if there is none. */
struct smith_answer {
    uint32_t status;
    size_t length;
};

/* A configuration that is read. It has room for fields of later versions. */
struct smith_config {
    uint64_t words[48];
};

/* Reads a configuration. The status is SMITH_MADE, SMITH_CONFIG_TEXT or SMITH_NO_MEMORY, and the length 0. Other faults, such as a minimum
 * above its maximum, are found by the calls that make modules. If the text is refused, `read` stays as it is, and smith_refusal returns the
 * reason in words, for any input. */
struct smith_answer smith_config_read(const uint8_t *config, size_t config_length, struct smith_config *read);

/* Allocates a struct smith_config, the handle of a configuration, and reads the configuration into it. Returns a null pointer if malloc
 * does, or if the text is refused; smith_refusal returns that reason in words. Any number of threads may give a handle to calls at the same
 * time, which take it as `const`. One thread frees it, once, after all of these calls have returned. */
static inline struct smith_config *smith_config_new(const uint8_t *config, size_t config_length) {
    struct smith_config *read = (struct smith_config *)malloc(sizeof *read);
    if (read && smith_config_read(config, config_length, read).status == SMITH_MADE) return read;
    free(read);
    return NULL;
}

/* Frees a handle that smith_config_new returned. A null pointer is none, and nothing is done. */
static inline void smith_config_free(struct smith_config *config) { free(config); }

/* Writes the module in the binary format. The status is any of the above up to SMITH_NO_SHAPE, but SMITH_SHAPE and SMITH_NO_SHAPE only of
 * calls that take shapes. */
struct smith_answer smith_binary(const uint8_t *config, size_t config_length,
                                 const uint8_t *input, size_t input_length,
                                 uint8_t *out, size_t out_length);

/* Writes the module in the text format, and after it comments with values that the format cannot express. The status is SMITH_TOO_LONG only
 * if there is no index for the counter of fuel and the sinks. */
struct smith_answer smith_text(const uint8_t *config, size_t config_length,
                               const uint8_t *input, size_t input_length,
                               uint8_t *out, size_t out_length);

/* Writes the text of smith_text in another form: each index of a function type has the parameters and the results after it, and comments
 * have raw bodies alone. */
struct smith_answer smith_wat(const uint8_t *config, size_t config_length,
                              const uint8_t *input, size_t input_length,
                              uint8_t *out, size_t out_length);

/* Writes in words, as UTF-8, why smith_binary writes no module, and returns the status of that refusal, or SMITH_SHORT if `out` is
 * too short for the words. If there is no memory for them, other words say so. If there is a module, it writes nothing, and
 * returns SMITH_MADE with length 0. */
struct smith_answer smith_refusal(const uint8_t *config, size_t config_length,
                                  const uint8_t *input, size_t input_length,
                                  uint8_t *out, size_t out_length);

/* The same four calls for a configuration that is read. */
struct smith_answer smith_binary_with(const struct smith_config *config, const uint8_t *input, size_t input_length,
                                      uint8_t *out, size_t out_length);

struct smith_answer smith_text_with(const struct smith_config *config, const uint8_t *input, size_t input_length,
                                    uint8_t *out, size_t out_length);

struct smith_answer smith_wat_with(const struct smith_config *config, const uint8_t *input, size_t input_length,
                                   uint8_t *out, size_t out_length);

struct smith_answer smith_refusal_with(const struct smith_config *config, const uint8_t *input, size_t input_length,
                                       uint8_t *out, size_t out_length);

/* The bytes of shapes. A length of 0 is no shape. */
struct smith_shapes {
    const uint8_t *available_imports; /* a module imports nothing but what this one imports */
    size_t available_imports_length;
    const uint8_t *exports;           /* a module exports exactly what this one exports */
    size_t exports_length;
    const uint8_t *module_shape;      /* a module has the first types, and exactly the imports and the exports, of this one */
    size_t module_shape_length;
};

/* Returns no shapes, to be set one by one. */
static inline struct smith_shapes smith_no_shapes(void) {
    static const uint8_t none[1] = {0};
    struct smith_shapes shapes = {none, 0, none, 0, none, 0};
    return shapes;
}

/* The same four calls for a configuration that is read, with shapes. The bytes of shapes may overlap each other and the input. */
struct smith_answer smith_binary_shaped(const struct smith_config *config, const struct smith_shapes *shapes,
                                        const uint8_t *input, size_t input_length, uint8_t *out, size_t out_length);

struct smith_answer smith_text_shaped(const struct smith_config *config, const struct smith_shapes *shapes,
                                      const uint8_t *input, size_t input_length, uint8_t *out, size_t out_length);

struct smith_answer smith_wat_shaped(const struct smith_config *config, const struct smith_shapes *shapes,
                                     const uint8_t *input, size_t input_length, uint8_t *out, size_t out_length);

struct smith_answer smith_refusal_shaped(const struct smith_config *config, const struct smith_shapes *shapes,
                                         const uint8_t *input, size_t input_length, uint8_t *out, size_t out_length);

/* What a file is. Later versions append numbers to the tables below, and renumber none. */
enum {
    SMITH_VALID = 0,        /* a valid module */
    SMITH_INVALID = 1,      /* a module that isn't valid */
    SMITH_MALFORMED = 2,    /* no module, or one with a form of a feature that is off */
    SMITH_NOT_JUDGED = 3    /* a module of which some body isn't judged, and all before that body is valid */
};

/* The rules of the standard's chapter Validation that an invalid module breaks first, as far as its fault says which. */
enum {
    SMITH_RULE_TYPES = 1,               /* of a recursive type: a group of types that may refer to each other */
    SMITH_RULE_TAG = 2,                 /* of the type of a tag */
    SMITH_RULE_FUNCTION = 3,            /* of the type of a function */
    SMITH_RULE_TABLE = 4,               /* of the type of a table */
    SMITH_RULE_MEMORY = 5,              /* of the type of a memory */
    SMITH_RULE_GLOBAL = 6,              /* of the type of a global */
    SMITH_RULE_TABLE_INITIAL = 7,       /* of the first elements of a table */
    SMITH_RULE_GLOBAL_INITIAL = 8,      /* of the first value of a global */
    SMITH_RULE_EXPORT = 9,              /* that what an export names is there */
    SMITH_RULE_EXPORT_NAME = 10,        /* that the names of exports differ */
    SMITH_RULE_START = 11,              /* of the start function */
    SMITH_RULE_ELEMENT = 12,            /* of an element segment */
    SMITH_RULE_DATA = 13,               /* of a data segment */
    SMITH_RULE_LOCAL = 14,              /* of the types of locals */
    SMITH_RULE_NUMERIC = 15,            /* of numeric instructions */
    SMITH_RULE_VECTOR = 16,             /* of vector instructions */
    SMITH_RULE_REFERENCE = 17,          /* of reference instructions */
    SMITH_RULE_PARAMETRIC = 18,         /* of parametric instructions */
    SMITH_RULE_VARIABLE = 19,           /* of variable instructions */
    SMITH_RULE_TABLE_INSTRUCTION = 20,  /* of table instructions */
    SMITH_RULE_MEMORY_INSTRUCTION = 21, /* of memory instructions, atomic ones among them */
    SMITH_RULE_AGGREGATE = 22,          /* of aggregate instructions */
    SMITH_RULE_CONTROL = 23,            /* of control instructions, else and end aside */
    SMITH_RULE_END = 24,                /* of else and end */
    SMITH_RULE_SUPERTYPES = 25          /* that a type has one supertype at most */
};

/* The rules of the standard's chapter Binary Format that a malformed file breaks first. */
enum {
    SMITH_REASON_END = 1,               /* the bytes end within an item */
    SMITH_REASON_INTEGER_LONG = 2,      /* an integer has too many bytes */
    SMITH_REASON_INTEGER_LARGE = 3,     /* an integer doesn't fit its type */
    SMITH_REASON_UTF8 = 4,              /* a name isn't UTF-8 */
    SMITH_REASON_SIZE = 5,              /* a content has bytes after its item */
    SMITH_REASON_BYTE = 6,              /* a byte, or a number in its place, that begins nothing */
    SMITH_REASON_LENGTH = 7,            /* given by earlier versions: a type has several supertypes */
    SMITH_REASON_LOCALS = 8,            /* a body has 2^32 locals or more */
    SMITH_REASON_SECTION = 9,           /* a section is out of order, or comes twice */
    SMITH_REASON_COUNTS = 10,           /* two numbers of items differ that must agree */
    SMITH_REASON_DATA_COUNT = 11,       /* a body names a data segment, and their number isn't stated */
    SMITH_REASON_FEATURE = 12           /* a form is of a feature that is off */
};

/* The kinds of items of a module. */
enum {
    SMITH_ITEM_TYPES = 1,               /* a recursive type */
    SMITH_ITEM_TAG = 2,
    SMITH_ITEM_FUNCTION = 3,
    SMITH_ITEM_TABLE = 4,
    SMITH_ITEM_MEMORY = 5,
    SMITH_ITEM_GLOBAL = 6,
    SMITH_ITEM_EXPORT = 7,
    SMITH_ITEM_START = 8,
    SMITH_ITEM_ELEMENT = 9,
    SMITH_ITEM_DATA = 10
};

/* What smith_check says of a file. `rule` is above 0 if the file is invalid, `reason` if it is malformed, and `item` if it is invalid or
 * not judged: `index` is then the index of the item, with imported items first. `inner` is the index of the instruction in the item's body,
 * or with SMITH_RULE_LOCAL of the run of locals, or UINT64_MAX if there is neither. `offset` is where in the file that is, counted from 0,
 * or UINT64_MAX if the file is valid. */
struct smith_verdict {
    uint32_t kind;
    uint32_t rule;
    uint32_t reason;
    uint32_t item;
    uint64_t index;
    uint64_t inner;
    uint64_t offset;
};

/* Judges a file. The features that are on are all that are known, changed by the configuration: {"preset": "mvp"} leaves those of version
 * 1.0 of the standard, and {"gc-enabled": false} all but one. Fields without a feature have no effect.
 *
 * If the file is judged, the verdict is written, and the status is SMITH_MADE if its words were too, UTF-8 in one line, or SMITH_SHORT if
 * `out` is too short for them. The other statuses are SMITH_CONFIG_TEXT and SMITH_NO_MEMORY, and then nothing is written. */
struct smith_answer smith_check(const uint8_t *config, size_t config_length,
                                const uint8_t *file, size_t file_length,
                                struct smith_verdict *verdict, uint8_t *out, size_t out_length);

/* The families of changes that make a valid module an invalid file, with the names that `smith_wasm invalid --families` takes: those of
 * items of the module first, then those of bytes, most of which make it malformed. */
enum {
    SMITH_FAMILY_OPERAND_TYPE = 1,         /* an operand has another type */
    SMITH_FAMILY_MISSING_OPERAND = 2,      /* an instruction is left out */
    SMITH_FAMILY_EXTRA_OPERAND = 3,        /* a value that nothing takes is added */
    SMITH_FAMILY_BLOCK_TYPE = 4,           /* a block has another type */
    SMITH_FAMILY_FUNCTION_RESULT = 5,      /* a value is added at the end of a body */
    SMITH_FAMILY_INDEX_PAST_END = 6,       /* an index in a body is past the end of its index space */
    SMITH_FAMILY_OTHER_ENTITY = 7,         /* an index in a body is that of another entity or type */
    SMITH_FAMILY_REFERENCE_TYPE = 8,       /* a type of a reference in a body is another one */
    SMITH_FAMILY_LABEL = 9,                /* a branch has another label */
    SMITH_FAMILY_CAST_HIERARCHY = 10,      /* a test or a cast is to a type of another hierarchy */
    SMITH_FAMILY_TAIL_CALL = 11,           /* a call is a tail call */
    SMITH_FAMILY_DEAD_CODE = 12,           /* an instruction is added after one that leaves */
    SMITH_FAMILY_UNSET_LOCAL = 13,         /* a local without a default value is read before it is set */
    SMITH_FAMILY_IMMUTABLE_GLOBAL = 14,    /* an immutable global is set */
    SMITH_FAMILY_IMMUTABLE_FIELD = 15,     /* an immutable field or array is written */
    SMITH_FAMILY_PACKED_FIELD = 16,        /* a field is extended that isn't packed, or one that is packed isn't */
    SMITH_FAMILY_UNDECLARED_FUNCTION = 17, /* ref.func is of a function that nothing outside bodies refers to */
    SMITH_FAMILY_ALIGNMENT = 18,           /* an alignment is above the natural one */
    SMITH_FAMILY_OFFSET = 19,              /* an offset is past the addresses of a memory */
    SMITH_FAMILY_LANE = 20,                /* a lane is past the last one */
    SMITH_FAMILY_SUPERTYPE = 21,           /* a supertype doesn't match, or comes later */
    SMITH_FAMILY_FINAL_TYPE = 22,          /* a final type has subtypes */
    SMITH_FAMILY_FORWARD_REFERENCE = 23,   /* a type refers to one after its recursive type */
    SMITH_FAMILY_LIMITS = 24,              /* a minimum is above its maximum */
    SMITH_FAMILY_DUPLICATE_EXPORT = 25,    /* two exports have one name */
    SMITH_FAMILY_EXPORT_INDEX = 26,        /* an export is of an entity that isn't there */
    SMITH_FAMILY_START_FUNCTION = 27,      /* the start function has another type, or isn't there */
    SMITH_FAMILY_CONSTANT_TYPE = 28,       /* a constant expression has another type */
    SMITH_FAMILY_NON_CONSTANT = 29,        /* a constant expression has another instruction */
    SMITH_FAMILY_LATER_GLOBAL = 30,        /* a constant expression reads a mutable or a later global */
    SMITH_FAMILY_FUNCTION_TYPE = 31,       /* a function has another type */
    SMITH_FAMILY_TAG_TYPE = 32,            /* a tag has another type */
    SMITH_FAMILY_IMPORT_TYPE = 33,         /* an import has another type */
    SMITH_FAMILY_ELEMENT_SEGMENT = 34,     /* an element segment has another type, table or function */
    SMITH_FAMILY_DATA_SEGMENT = 35,        /* a data segment is for a memory that isn't there */
    SMITH_FAMILY_LONG_INTEGER = 36,        /* an integer has too many bytes */
    SMITH_FAMILY_UNUSED_BITS = 37,         /* unused bits of an integer are set */
    SMITH_FAMILY_SECTION_SIZE = 38,        /* the size of a section is wrong */
    SMITH_FAMILY_BODY_SIZE = 39,           /* the size of a body is wrong */
    SMITH_FAMILY_LIST_COUNT = 40,          /* the number of items of a list is wrong */
    SMITH_FAMILY_FUNCTION_COUNT = 41,      /* there are more or fewer functions than bodies */
    SMITH_FAMILY_DATA_COUNT = 42,          /* there are more or fewer data segments than are stated */
    SMITH_FAMILY_SECTION_ORDER = 43,       /* sections are out of order */
    SMITH_FAMILY_SECTION_TWICE = 44,       /* a section comes twice */
    SMITH_FAMILY_UNKNOWN_SECTION = 45,     /* a section has an unknown identifier */
    SMITH_FAMILY_LEFT_OVER_BYTE = 46,      /* a section or a body has a byte after its item */
    SMITH_FAMILY_NOT_UTF8 = 47,            /* a name isn't UTF-8 */
    SMITH_FAMILY_UNKNOWN_FLAG = 48,        /* a byte that chooses a form is unknown */
    SMITH_FAMILY_UNKNOWN_TYPE = 49,        /* a type begins with an unknown byte */
    SMITH_FAMILY_UNKNOWN_OPCODE = 50,      /* an opcode is unknown */
    SMITH_FAMILY_MISSING_END = 51,         /* an expression has no end */
    SMITH_FAMILY_SECOND_END = 52,          /* an expression ends twice */
    SMITH_FAMILY_PREAMBLE = 53,            /* the magic number or the version is another one */
    SMITH_FAMILY_CUT_FILE = 54,            /* the file is cut off */
    SMITH_FAMILY_DATA_COUNT_MISSING = 55   /* a needed number of data segments is not stated */
};

/* Returns the name of a family, such as "operand-type", or a null pointer if no family has the number. */
static inline const char *smith_family_name(uint32_t family) {
    static const char *const names[] = {
        "operand-type", "missing-operand", "extra-operand", "block-type", "function-result", "index-past-end", "other-entity",
        "reference-type", "label", "cast-hierarchy", "tail-call", "dead-code", "unset-local", "immutable-global", "immutable-field",
        "packed-field", "undeclared-function", "alignment", "offset", "lane", "supertype", "final-type", "forward-reference", "limits",
        "duplicate-export", "export-index", "start-function", "constant-type", "non-constant", "later-global", "function-type",
        "tag-type", "import-type", "element-segment", "data-segment", "long-integer", "unused-bits", "section-size", "body-size",
        "list-count", "function-count", "data-count", "section-order", "section-twice", "unknown-section", "left-over-byte", "not-utf8",
        "unknown-flag", "unknown-type", "unknown-opcode", "missing-end", "second-end", "preamble", "cut-file",
        "data-count-missing",
    };
    return family >= 1 && family <= sizeof names / sizeof *names ? names[family - 1] : NULL;
}

/* What smith_invalid says of its file. `verdict` has the first fault of the file, in the numbers of smith_check; its kind is
 * SMITH_INVALID or SMITH_MALFORMED. `family` is that of the change. */
struct smith_fault {
    struct smith_verdict verdict;
    uint32_t family;
};

/* Writes a file that is no valid module, to test a validator: the module of the configuration and the input with one change that breaks a
 * rule. The change is of one of the families whose numbers are given, or of any if `families_count` is 0. It is proved that no valid module
 * of the features that the configuration turns on is spelled by the file, and that the fault is right. The validator must have these
 * features and no others, since a file may be valid under more.
 *
 * The module before the change is one that smith_binary writes for the same configuration and input, as is proved too, but without fuel,
 * sinks, custom sections and canonical NaNs, which the file never has: smith_binary returns it if the configuration has none of them.
 *
 * If a file is made, the fault is written, and the status is SMITH_MADE if the file was too, or SMITH_SHORT if `out` is too short for it.
 * Otherwise nothing is written. The status is SMITH_NO_CHANGE for one input in 30 of the default configuration, whose modules are often
 * nearly empty, and for fewer if modules have functions. Others are SMITH_NO_FAMILY and those of smith_binary; smith_refusal returns the
 * reasons of these in words. */
struct smith_answer smith_invalid(const uint8_t *config, size_t config_length,
                                  const uint8_t *input, size_t input_length,
                                  const uint32_t *families, size_t families_count,
                                  struct smith_fault *fault, uint8_t *out, size_t out_length);

/* The same for a configuration that is read, and with shapes. */
struct smith_answer smith_invalid_with(const struct smith_config *config, const uint8_t *input, size_t input_length,
                                       const uint32_t *families, size_t families_count,
                                       struct smith_fault *fault, uint8_t *out, size_t out_length);

struct smith_answer smith_invalid_shaped(const struct smith_config *config, const struct smith_shapes *shapes,
                                         const uint8_t *input, size_t input_length,
                                         const uint32_t *families, size_t families_count,
                                         struct smith_fault *fault, uint8_t *out, size_t out_length);

#ifdef __cplusplus
}
#endif

#endif
