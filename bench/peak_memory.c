/*
 * Runs a command, and writes into a file what it took: seconds of wall time, of processor time and of user time, and kilobytes of memory at the
 * peak.
 *
 *     gcc -O2 -o peak_memory bench/peak_memory.c
 *     ./peak_memory FILE COMMAND WORD..
 *
 * The status is that of the command. It stands in a small program of its own since the kernel counts the memory of the process that starts a
 * command for the command too.
 */
#define _GNU_SOURCE
#include <stdio.h>
#include <sys/resource.h>
#include <sys/time.h>
#include <sys/wait.h>
#include <time.h>
#include <unistd.h>

static double wall_time(void) {
    struct timespec now;
    clock_gettime(CLOCK_MONOTONIC, &now);
    return (double)now.tv_sec + (double)now.tv_nsec / 1e9;
}

static double seconds(struct timeval time) {
    return (double)time.tv_sec + (double)time.tv_usec / 1e6;
}

int main(int count, char **words) {
    int status = 0;
    struct rusage used;
    double start = wall_time();
    if (count < 3)
        return 2;
    pid_t child = fork();
    if (child == 0) {
        execvp(words[2], &words[2]);
        _exit(127);
    }
    if (child < 0 || wait4(child, &status, 0, &used) < 0)
        return 70;
    double wall = wall_time() - start;
    FILE *file = fopen(words[1], "w");
    if (file == NULL)
        return 70;
    double user = seconds(used.ru_utime);
    fprintf(file, "%.6f %.6f %.6f %ld\n", wall, user + seconds(used.ru_stime), user, used.ru_maxrss);
    fclose(file);
    return WIFEXITED(status) ? WEXITSTATUS(status) : 71;
}
