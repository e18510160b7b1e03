/* The jobs by lines of a script: one goes out by a pipe, and its answer comes in by another before the next. */
#define _POSIX_C_SOURCE 200809L
#include "jobs.h"

#include <inttypes.h>
#include <stdarg.h>
#include <stdio.h>
#include <stdlib.h>
#include <string.h>
#include <sys/types.h>
#include <unistd.h>

static FILE *to, *from;
static char *answer;
static size_t room;

/* asks a line, whose answer begins so */
static void ask(const char *wanted, const char *line, ...) {
    va_list values;
    va_start(values, line), vfprintf(to, line, values), va_end(values);
    if (putc('\n', to) == EOF || fflush(to) || getline(&answer, &room, from) < 1) fail("rb_run has ended");
    if (strncmp(answer, wanted, strlen(wanted))) fail(answer);
}

static void idle(long count) {
    for (long i = 0; i < count; i++) ask("idle", "turn");
}

static void left(long count) {
    for (long i = 0; i < count; i++) ask("left 0", "left");
}

static void publish(uint64_t first, long count) {
    for (long i = 0; i < count; i++) {
        ask("ok", "feed 0 540201007400120001%016" PRIx64 "010000000000000005", first + (uint64_t)i);
        ask("staged", "end 0"), ask("sent", "send 0"), ask("placed", "turn");
    }
}

static void read_texts(uint64_t first, long count) {
    for (long i = 0; i < count; i++) ask("entry", "entry %" PRIu64, first + (uint64_t)i);
}

static void follow(uint64_t first, long count) {
    for (uint64_t i = 0; i < (uint64_t)count; i += BATCH) {
        uint64_t delivery = (first + i - 1) / BATCH + 1;
        ask("delivery", "take 0 0"), ask("accepted", "accept %" PRIu64, delivery);
        ask("floor", "ack %" PRIu64, delivery);
    }
}

struct jobs jobs_by_pipe(const char *program) {
    int in[2], out[2];
    char batch[12];
    snprintf(batch, sizeof batch, "%d", BATCH);
    if (pipe(in) || pipe(out)) fail("no pipe is made");
    if (fork() == 0) {
        dup2(in[0], 0), dup2(out[1], 1), close(in[0]), close(in[1]), close(out[0]), close(out[1]);
        execl(program, program, "script", "--capacity", "16777216", "--batch", batch, (char *)NULL);
        _exit(127);
    }
    close(in[0]), close(out[1]), to = fdopen(in[1], "w"), from = fdopen(out[0], "r");
    ask("ok", "table 540201007400"), ask("publisher", "publisher"), ask("subscriber", "subscribe 0");
    return (struct jobs){idle, left, publish, read_texts, follow, real_time, 1600, 4000};
}
