/* Runs a program and tells, on standard error, its processor time in seconds (user and system) and its peak memory in KiB.
 *
 * usage: timed PROGRAM [ARGUMENT ..] < FILE > FILE
 * Its own memory is small, as a program's peak is counted from before it takes the place of the one that started it.
 */
#include <stdio.h>
#include <sys/resource.h>
#include <sys/wait.h>
#include <unistd.h>

static double seconds(struct timeval t)
{
    return t.tv_sec + t.tv_usec / 1e6;
}

int main(int argc, char **argv)
{
    struct rusage used;
    int status;
    if (argc < 2)
        return 1;
    pid_t child = fork();
    if (child == 0) {
        execv(argv[1], argv + 1);
        _exit(127);
    }
    if (child < 0 || wait4(child, &status, 0, &used) != child || !WIFEXITED(status) || WEXITSTATUS(status) == 127)
        return 1;
    fprintf(stderr, "%.6f %ld\n", seconds(used.ru_utime) + seconds(used.ru_stime), used.ru_maxrss);
    return 0;
}
