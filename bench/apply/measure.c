#define _DEFAULT_SOURCE
#include "measure.h"

#include <sqlite3.h>

#include <stdio.h>
#include <stdlib.h>
#include <sys/resource.h>
#include <sys/wait.h>
#include <unistd.h>

enum { RUNS = 5 };

void must(int holds, const char *what) {
    if (holds) return;
    fprintf(stderr, "measuring: %s\n", what);
    exit(1);
}

void make_lean(void) {
    must(sqlite3_config(SQLITE_CONFIG_MEMSTATUS, 0) == SQLITE_OK, "statistics");
    must(sqlite3_config(SQLITE_CONFIG_SINGLETHREAD) == SQLITE_OK, "locks");
}

static int by_size(const void *one, const void *other) {
    double a = *(const double *)one, b = *(const double *)other;
    return (a > b) - (a < b);
}

static double milliseconds(struct timeval time) { return (double)time.tv_sec * 1000 + (double)time.tv_usec / 1000; }

/* what one run of the command used */
static struct rusage run(const char *file, const char *output, char **words) {
    pid_t child = fork();
    must(child >= 0, "fork");
    if (child == 0) {
        must(freopen(file, "r", stdin) && freopen(output, "w", stdout), "files");
        execv(words[0], words);
        _exit(127);
    }
    int status;
    struct rusage usage;
    must(wait4(child, &status, 0, &usage) == child && status == 0, "the command failed");
    return usage;
}

/* A command that answers nothing does nothing, so nothing is measured. */
static void must_answer(const char *file, char **words) {
    char name[] = "/tmp/measure-XXXXXX";
    int output = mkstemp(name);
    must(output >= 0, "a file for the answers");
    run(file, name, words);
    must(unlink(name) == 0 && lseek(output, 0, SEEK_END) > 0, "the command answers nothing");
    close(output);
}

void measure(const char *file, char **words) {
    double took[RUNS];
    long most = 0;
    must_answer(file, words);
    for (int i = 0; i < RUNS; i++) {
        struct rusage usage = run(file, "/dev/null", words);
        took[i] = milliseconds(usage.ru_utime) + milliseconds(usage.ru_stime);
        if (usage.ru_maxrss > most) most = usage.ru_maxrss;
    }
    qsort(took, RUNS, sizeof *took, by_size);
    printf("%.1f %ld\n", took[RUNS / 2], most);
}
