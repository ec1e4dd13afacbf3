/* Has reads of standard input and writes of standard output go wrong: the one whose number is in
   FAIL_READ or FAIL_WRITE fails, or takes nothing where FAIL_HOW is `nothing`, or is interrupted
   where it is `interrupted`. With SHORT_BY each moves at most so many octets. FAIL_SHOW prints how
   many of each there were.
   cc -shared -fPIC -O2 -o failcalls.so failcalls.c -ldl */
#define _GNU_SOURCE
#include <dlfcn.h>
#include <errno.h>
#include <stdio.h>
#include <stdlib.h>
#include <string.h>
#include <sys/uio.h>
#include <unistd.h>

static long reads, writes;

static long number_in(const char *name)
{
    const char *text = getenv(name);
    return text ? atol(text) : 0;
}

static size_t shortened(size_t size)
{
    size_t most = (size_t)number_in("SHORT_BY");
    return most && size > most ? most : size;
}

/* what a call that goes wrong answers */
static ssize_t wrong(void)
{
    const char *how = getenv("FAIL_HOW");
    if (how && !strcmp(how, "nothing"))
        return 0;
    errno = how && !strcmp(how, "interrupted") ? EINTR : EIO;
    return -1;
}

__attribute__((destructor)) static void end(void)
{
    if (getenv("FAIL_SHOW"))
        fprintf(stderr, "%ld %ld\n", reads, writes);
}

ssize_t read(int file, void *octets, size_t size)
{
    static ssize_t (*next)(int, void *, size_t);
    if (!next)
        next = (ssize_t (*)(int, void *, size_t))dlsym(RTLD_NEXT, "read");
    if (file != 0)
        return next(file, octets, size);
    return ++reads == number_in("FAIL_READ") ? wrong() : next(file, octets, shortened(size));
}

ssize_t write(int file, const void *octets, size_t size)
{
    static ssize_t (*next)(int, const void *, size_t);
    if (!next)
        next = (ssize_t (*)(int, const void *, size_t))dlsym(RTLD_NEXT, "write");
    if (file != 1)
        return next(file, octets, size);
    return ++writes == number_in("FAIL_WRITE") ? wrong() : next(file, octets, shortened(size));
}
