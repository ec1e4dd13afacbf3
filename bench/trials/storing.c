/* Says on standard error, when a file takes a name, whether all that was written to a file before
   is stored: `stored 1`, or `stored 0`. It includes nothing, since the kit has a compiler and no
   headers; the numbers are those of the system's calls on x86-64.
   clang -shared -fPIC -O2 -nostdlib -o storing.so storing.c */
typedef unsigned long size_t;

extern long syscall(long number, ...);
extern int dprintf(int file, const char *format, ...);

enum { WRITE = 1, FSYNC = 74, FDATASYNC = 75, RENAME = 82 };

static int is_stored = 1;

long write(int file, const void *octets, size_t size)
{
    is_stored = is_stored && file <= 2;
    return syscall(WRITE, file, octets, size);
}

int fsync(int file)
{
    is_stored = 1;
    return (int)syscall(FSYNC, file);
}

int fdatasync(int file)
{
    is_stored = 1;
    return (int)syscall(FDATASYNC, file);
}

int rename(const char *old, const char *new)
{
    dprintf(2, "stored %d\n", is_stored);
    return (int)syscall(RENAME, old, new);
}
