/* The kit's clang comes without headers. */
#include <stddef.h>
void *malloc(size_t length);
void free(void *bytes);
