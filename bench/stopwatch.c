/* Runs a command and notes how long it took.
 *
 *   stopwatch NOTES WORD COMMAND ..   adds the line "WORD WALL BUSY" to the file NOTES: the microseconds on the wall, and those
 *                                     on a processor (user and system), which other work on the machine disturbs less
 *
 * The command has the standard input and output of this program, which ends with status 1 where the command doesn't end with 0.
 */
#include <stdio.h>
#include <stdlib.h>
#include <sys/resource.h>
#include <sys/time.h>
#include <sys/wait.h>
#include <time.h>
#include <unistd.h>

static void fail(const char *what)
{
    perror(what);
    exit(1);
}

static long long microseconds(struct timeval t)
{
    return t.tv_sec * 1000000LL + t.tv_usec;
}

static long long now(void)
{
    struct timespec t;
    clock_gettime(CLOCK_MONOTONIC, &t);
    return t.tv_sec * 1000000LL + t.tv_nsec / 1000;
}

int main(int argc, char **argv)
{
    struct rusage used;
    int status;
    if (argc < 4) {
        fprintf(stderr, "usage: stopwatch NOTES WORD COMMAND ..\n");
        return 1;
    }
    FILE *notes = fopen(argv[1], "a");
    if (notes == NULL)
        fail(argv[1]);
    long long start = now();
    pid_t child = fork();
    if (child < 0)
        fail("fork");
    if (child == 0) {
        execv(argv[3], argv + 3);
        perror(argv[3]);
        _exit(127);
    }
    if (wait4(child, &status, 0, &used) != child)
        fail("wait4");
    fprintf(notes, "%s %lld %lld\n", argv[2], now() - start, microseconds(used.ru_utime) + microseconds(used.ru_stime));
    return WIFEXITED(status) && WEXITSTATUS(status) == 0 ? 0 : 1;
}
