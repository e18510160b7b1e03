/* What a call costs: `./calls` in this process, `./calls PROGRAM` by `rb_run script` at the other end of two pipes. It
 * prints a line for each job: the median of RUNS runs and the least, in nanoseconds, and the job's name. */
#define _POSIX_C_SOURCE 200809L
#include "jobs.h"

#include <stdio.h>
#include <stdlib.h>
#include <string.h>
#include <time.h>

enum { RUNS = 25, JOBS = 5 };
static const char *const NAMES[JOBS] = {"a `turn` that finds nothing", "`left`",
                                        "`feed`, `end`, `send` and `turn` of 26 bytes",
                                        "an entry's text of 26 bytes",
                                        "`take`, `accept` and `ack` of 16 entries"};

void fail(const char *why) {
    fprintf(stderr, "bench: %s\n", why);
    exit(1);
}

void insert_of(uint64_t key, unsigned char text[TEXT]) {
    memcpy(text, "T\2\1\0t\0\22\0\1\0\0\0\0\0\0\0\0\1\0\0\0\0\0\0\0\5", TEXT);
    for (int i = 0; i < 8; i++) text[9 + i] = (unsigned char)(key >> (56 - 8 * i));
}

static double nanoseconds(clockid_t clock) {
    struct timespec now;
    clock_gettime(clock, &now);
    return (double)now.tv_sec * 1e9 + (double)now.tv_nsec;
}

double processor_time(void) { return nanoseconds(CLOCK_THREAD_CPUTIME_ID); }

double real_time(void) { return nanoseconds(CLOCK_MONOTONIC); }

static int by_size(const void *a, const void *b) {
    const double *x = a, *y = b;
    return (*x > *y) - (*x < *y);
}

int main(int count, char **words) {
    struct jobs jobs = count == 2 ? jobs_by_pipe(words[1]) : jobs_by_calls();
    double took[JOBS][RUNS];
    uint64_t first = 1;
    for (int run = 0; run < RUNS; run++, first += (uint64_t)jobs.entries) {
        double at[JOBS + 1];
        at[0] = jobs.time(), jobs.idle(jobs.idles);
        at[1] = jobs.time(), jobs.left(jobs.idles);
        at[2] = jobs.time(), jobs.publish(first, jobs.entries);
        at[3] = jobs.time(), jobs.read(first, jobs.entries);
        at[4] = jobs.time(), jobs.follow(first, jobs.entries);
        at[5] = jobs.time();
        long times[JOBS] = {jobs.idles, jobs.idles, jobs.entries, jobs.entries, jobs.entries / BATCH};
        for (int i = 0; i < JOBS; i++) took[i][run] = (at[i + 1] - at[i]) / (double)times[i];
    }
    for (int i = 0; i < JOBS; i++) {
        qsort(took[i], RUNS, sizeof *took[i], by_size);
        printf("%.1f %.1f %s\n", took[i][RUNS / 2], took[i][0], NAMES[i]);
    }
    return 0;
}
