/* A validator with a fault, for `bindings/libfuzzer/invalid.c`: it takes a module in which two exports have one name. It has the features
 * of the default configuration. */
#include "smith.h"

int validate(const uint8_t *file, size_t length) {
    static const char features[] = "{\"max-memories\": 1, \"custom-descriptors-enabled\": false, \"custom-page-sizes-enabled\": false, "
                                   "\"shared-everything-threads-enabled\": false}";
    struct smith_verdict verdict;
    uint8_t words[1];
    smith_check((const uint8_t *)features, sizeof features - 1, file, length, &verdict, words, sizeof words);
    return verdict.kind == SMITH_VALID || verdict.rule == SMITH_RULE_EXPORT_NAME;
}
