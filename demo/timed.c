// Runs a command, and adds a line to a file with its processor time and its time by the clock, in microseconds, and the most memory
// that it had at once, in kilobytes: `timed FILE COMMAND..`. It ends with the command's status, or with 127.
#include <stdio.h>
#include <sys/resource.h>
#include <sys/wait.h>
#include <time.h>
#include <unistd.h>
static long clock_now(void) {
    struct timespec at;
    clock_gettime(CLOCK_MONOTONIC, &at);
    return at.tv_sec * 1000000 + at.tv_nsec / 1000;
}
static long spent(struct timeval of) {
    return of.tv_sec * 1000000 + of.tv_usec;
}
int main(int count, char **words) {
    struct rusage used;
    int status = 0;
    if (count < 3) return 127;
    long before = clock_now();
    pid_t child = fork();
    if (child == 0) {
        execvp(words[2], words + 2);
        _exit(127);
    }
    if (child < 0 || wait4(child, &status, 0, &used) != child) return 127;
    long took = clock_now() - before;
    FILE *file = fopen(words[1], "a");
    long worked = spent(used.ru_utime) + spent(used.ru_stime);
    if (!file || fprintf(file, "%ld %ld %ld\n", worked, took, used.ru_maxrss) < 0 || fclose(file)) return 127;
    return WIFEXITED(status) ? WEXITSTATUS(status) : 127;
}
