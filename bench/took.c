/* Runs a program, and writes into a file what it took: microseconds of the processor and by the clock, and kilobytes.
 *
 *     ./took FILE PROGRAM WORD..
 *
 * A child of a large process counts that one's memory as its own; this one is small.
 */
#include <stdio.h>
#include <sys/resource.h>
#include <sys/wait.h>
#include <time.h>
#include <unistd.h>

static long long microseconds(void) {
    struct timespec t;
    clock_gettime(CLOCK_MONOTONIC, &t);
    return t.tv_sec * 1000000LL + t.tv_nsec / 1000;
}

static long long spent(struct timeval t) {
    return t.tv_sec * 1000000LL + t.tv_usec;
}

int main(int count, char **words) {
    if (count < 3) return 125;
    long long begun = microseconds();
    pid_t child = fork();
    if (!child) {
        execv(words[2], words + 2);
        _exit(126);
    }
    int status;
    struct rusage used;
    if (child < 0 || wait4(child, &status, 0, &used) != child) return 125;
    long long clock = microseconds() - begun;
    FILE *file = fopen(words[1], "w");
    if (!file) return 125;
    fprintf(file, "%lld %lld %ld\n", spent(used.ru_utime) + spent(used.ru_stime), clock, used.ru_maxrss);
    fclose(file);
    return WIFEXITED(status) ? WEXITSTATUS(status) : 127;
}
