/* Has the system's clock and the clock that does not jump show the milliseconds that the file says
   whose name is in HELD_CLOCKS, such as "1700000000000 5000". Both stand still until the file is
   another one. It includes nothing, since the kit has a compiler and no headers; the numbers are
   those of the system's calls on x86-64.
   clang -shared -fPIC -O2 -nostdlib -o holding.so holding.c */
struct moment {
    long seconds, nanoseconds;
};

extern long syscall(long number, ...);
extern char *getenv(const char *name);
extern long strtol(const char *digits, char **end, int base);

enum { READ = 0, OPEN = 2, CLOSE = 3, CLOCK_GETTIME = 228 };
enum { REAL_TIME = 0, MONOTONIC = 1, ROOM = 64 };

static void read_times(long *times)
{
    char text[ROOM], *rest = text;
    long file = syscall(OPEN, getenv("HELD_CLOCKS"), 0), size = 0;
    if (file >= 0) {
        size = syscall(READ, file, text, ROOM - 1);
        syscall(CLOSE, file);
    }
    text[size > 0 ? size : 0] = 0;
    times[REAL_TIME] = strtol(rest, &rest, 10);
    times[MONOTONIC] = strtol(rest, &rest, 10);
}

int clock_gettime(int clock, struct moment *now)
{
    long times[2];
    if (clock != REAL_TIME && clock != MONOTONIC)
        return (int)syscall(CLOCK_GETTIME, clock, now);
    read_times(times);
    now->seconds = times[clock] / 1000;
    now->nanoseconds = times[clock] % 1000 * 1000000;
    return 0;
}
