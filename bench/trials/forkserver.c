/* Starts a program once and runs it many times. For each octet that comes on descriptor 198 a
   child goes on to the program's main, with standard input from its front and standard output and
   standard error emptied (all three are files), and its wait status goes to descriptor 199. A child
   that runs longer than FORK_SECONDS ends by a signal. It is preloaded.
   cc -shared -fPIC -O2 -o forkserver.so forkserver.c */
#include <stdlib.h>
#include <sys/wait.h>
#include <unistd.h>

enum { ASKED = 198, TOLD = 199 };

static int is_ready(void)
{
    lseek(0, 0, SEEK_SET);
    for (int file = 1; file <= 2; file++)
        if (ftruncate(file, 0) || lseek(file, 0, SEEK_SET))
            return 0;
    return 1;
}

__attribute__((constructor)) static void serve(void)
{
    const char *seconds = getenv("FORK_SECONDS");
    char octet;
    int status;
    if (!seconds)
        return;
    while (read(ASKED, &octet, 1) == 1 && is_ready()) {
        pid_t child = fork();
        if (child == 0) {
            close(ASKED), close(TOLD), alarm((unsigned)atoi(seconds));
            return;
        }
        if (child < 0 || waitpid(child, &status, 0) != child)
            break;
        if (write(TOLD, &status, sizeof status) != sizeof status)
            break;
    }
    _exit(0);
}
