/* Faults that a preloaded library injects. The numbers are environment variables, and each counts from 1 over the whole process.
 *
 *   FAULT_MEMORY       the request for memory that is refused; with FAULT_FROM, all later ones too
 *   FAULT_READ         the read that fails
 *   FAULT_WRITE        the write that fails
 *   FAULT_SHORT        reads and writes move a single byte
 *   FAULT_REQUESTS     the number of requests is written to standard error when the process exits
 *
 * No header is included, since the kit has none. */

typedef __SIZE_TYPE__ size;

void *__libc_malloc(size bytes);
void *__libc_realloc(void *block, size bytes);
long __read(int file, void *bytes, size count);
long __write(int file, const void *bytes, size count);
int *__errno_location(void);
char *getenv(const char *name);

enum { INPUT_OUTPUT_ERROR = 5 };

static size requests, reads, writes;

/* Returns the number in the environment variable of this name, or 0. */
static size number(const char *name) {
    const char *text = getenv(name);
    size found = 0;
    while (text && *text >= '0' && *text <= '9') found = 10 * found + (size)(*text++ - '0');
    return found;
}

static int is_refused(void) {
    size at = number("FAULT_MEMORY");
    requests++;
    return at && (requests == at || (requests > at && number("FAULT_FROM")));
}

void *malloc(size bytes) { return is_refused() ? 0 : __libc_malloc(bytes); }

void *realloc(void *block, size bytes) { return is_refused() ? 0 : __libc_realloc(block, bytes); }

static long failed(void) {
    *__errno_location() = INPUT_OUTPUT_ERROR;
    return -1;
}

/* Returns 1 for a short move of bytes, else their number. */
static size moved(size count) { return count && number("FAULT_SHORT") ? 1 : count; }

long read(int file, void *bytes, size count) {
    reads++;
    return reads == number("FAULT_READ") ? failed() : __read(file, bytes, moved(count));
}

/* Standard error reports the fault, so its writes never fail. */
long write(int file, const void *bytes, size count) {
    if (file == 2) return __write(file, bytes, count);
    writes++;
    return writes == number("FAULT_WRITE") ? failed() : __write(file, bytes, moved(count));
}

__attribute__((destructor)) static void tell(void) {
    char text[24], *digit = text + sizeof text;
    if (!number("FAULT_REQUESTS")) return;
    *--digit = '\n';
    do *--digit = (char)('0' + requests % 10);
    while (requests /= 10);
    __write(2, digit, (size)(text + sizeof text - digit));
}
