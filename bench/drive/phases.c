/* Runs a command with a file as its standard input and reads its answer, and prints when the first byte of it came and when
 * it ended, in milliseconds from the start; then its processor time, and the most memory that it had, in kilobytes.
 *
 *   phases STATUS FILE COMMAND WORDS..      the command has to end with this status */
#define _DEFAULT_SOURCE
#include "../apply/measure.h"

#include <stdio.h>
#include <stdlib.h>
#include <sys/resource.h>
#include <sys/wait.h>
#include <time.h>
#include <unistd.h>

static double now(void) {
    struct timespec time;
    must(clock_gettime(CLOCK_MONOTONIC, &time) == 0, "the clock");
    return (double)time.tv_sec * 1000 + (double)time.tv_nsec / 1000000;
}

static double milliseconds(struct timeval time) { return (double)time.tv_sec * 1000 + (double)time.tv_usec / 1000; }

/* when the first byte came, or the end if none did */
static double read_all(int from) {
    static char bytes[1 << 16];
    double first = 0;
    while (read(from, bytes, sizeof bytes) > 0)
        if (first == 0) first = now();
    return first == 0 ? now() : first;
}

int main(int count, char **words) {
    must(count > 3, "STATUS FILE COMMAND WORDS..");
    int ends[2], status;
    must(pipe(ends) == 0, "a pipe");
    double start = now();
    pid_t child = fork();
    must(child >= 0, "fork");
    if (child == 0) {
        must(freopen(words[2], "r", stdin) && dup2(ends[1], 1) == 1, "files");
        close(ends[0]);
        close(ends[1]);
        execv(words[3], words + 3);
        _exit(127);
    }
    close(ends[1]);
    double first = read_all(ends[0]);
    struct rusage usage;
    must(wait4(child, &status, 0, &usage) == child && WIFEXITED(status), "the command was killed");
    must(WEXITSTATUS(status) == atoi(words[1]), "the command has another status");
    printf("%.1f %.1f %.1f %ld\n", first - start, now() - start, milliseconds(usage.ru_utime) + milliseconds(usage.ru_stime),
           usage.ru_maxrss);
    return 0;
}
