/* Refuses the allocation whose number is in FAIL_AT, and each of more octets than FAIL_ABOVE, if
   that is given; with FAIL_SHOW it prints how many there were. It includes nothing, since the kit
   has a compiler and no headers.
   clang -shared -fPIC -O2 -nostdlib -o failmalloc.so failmalloc.c */
typedef unsigned long size_t;

extern void *__libc_malloc(size_t size);
extern void *__libc_realloc(void *old, size_t size);
extern void *__libc_calloc(size_t count, size_t size);
extern char *getenv(const char *name);
extern long atol(const char *digits);
extern int dprintf(int file, const char *format, ...);

static long taken, refused = -1;
static size_t most = -1;

__attribute__((constructor)) static void begin(void)
{
    const char *at = getenv("FAIL_AT"), *above = getenv("FAIL_ABOVE");
    refused = at ? atol(at) : 0;
    most = above ? (size_t)atol(above) : most;
}

__attribute__((destructor)) static void end(void)
{
    if (getenv("FAIL_SHOW"))
        dprintf(2, "%ld\n", taken);
}

static int is_refused(size_t size) { return ++taken == refused || size > most; }

void *malloc(size_t size) { return is_refused(size) ? 0 : __libc_malloc(size); }

void *realloc(void *old, size_t size) { return is_refused(size) ? 0 : __libc_realloc(old, size); }

void *calloc(size_t count, size_t size)
{
    return is_refused(count * size) ? 0 : __libc_calloc(count, size);
}
