/* Has the system's clock be as many seconds away as the file says whose name is in CLOCK_STEP, such
   as +3600. The clock that does not jump stays. It includes nothing, since the kit has a compiler
   and no headers; the numbers are those of the system's calls on x86-64.
   clang -shared -fPIC -O2 -nostdlib -o stepping.so stepping.c */
struct moment {
    long seconds, nanoseconds;
};

extern long syscall(long number, ...);
extern char *getenv(const char *name);
extern long atol(const char *digits);

enum { READ = 0, OPEN = 2, CLOSE = 3, CLOCK_GETTIME = 228, REAL_TIME = 0, ROOM = 32 };

static long step(void)
{
    char text[ROOM];
    long file = syscall(OPEN, getenv("CLOCK_STEP"), 0), size = 0;
    if (file >= 0) {
        size = syscall(READ, file, text, ROOM - 1);
        syscall(CLOSE, file);
    }
    text[size > 0 ? size : 0] = 0;
    return atol(text);
}

int clock_gettime(int clock, struct moment *now)
{
    int status = (int)syscall(CLOCK_GETTIME, clock, now);
    if (status == 0 && clock == REAL_TIME)
        now->seconds += step();
    return status;
}
