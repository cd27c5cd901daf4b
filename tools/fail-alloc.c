/* A malloc for tools/fail-alloc.sh: the call of the number in FAIL_ALLOC, counted from 1, finds no memory, and with
   COUNT_ALLOC set the number of calls is written to standard error at the end. All else is the C library's. */

typedef unsigned long size;

extern void *__libc_malloc(size bytes);
extern void *__libc_calloc(size count, size bytes);
extern void *__libc_realloc(void *block, size bytes);
extern char *getenv(const char *name);
extern long atol(const char *text);
extern int dprintf(int file, const char *format, ...);

static long calls;
static long failing;

__attribute__((constructor)) static void begin(void) {
    const char *text = getenv("FAIL_ALLOC");
    failing = text ? atol(text) : 0;
    calls = 0;
}

__attribute__((destructor)) static void end(void) {
    if (getenv("COUNT_ALLOC"))
        dprintf(2, "%ld\n", calls);
}

static int fails(void) { return ++calls == failing; }

void *malloc(size bytes) { return fails() ? 0 : __libc_malloc(bytes); }

void *calloc(size count, size bytes) { return fails() ? 0 : __libc_calloc(count, bytes); }

void *realloc(void *block, size bytes) { return fails() ? 0 : __libc_realloc(block, bytes); }
