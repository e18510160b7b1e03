/* The script goes to the command through a pipe, and its answers come back through another. So the command's clock can be
 * read between two lines. */
#define _GNU_SOURCE
#include "after.h"
#include "../apply/measure.h"

#include <fcntl.h>
#include <poll.h>
#include <signal.h>
#include <stdio.h>
#include <stdlib.h>
#include <string.h>
#include <sys/wait.h>
#include <time.h>
#include <unistd.h>

enum { RUNS = 3 };

struct text {
    const char *bytes;
    size_t length;
};

static struct text contents(const char *file) {
    FILE *stream = fopen(file, "rb");
    must(stream != NULL && fseek(stream, 0, SEEK_END) == 0, "no script");
    long length = ftell(stream);
    must(length > 0 && fseek(stream, 0, SEEK_SET) == 0, "an empty script");
    char *bytes = malloc((size_t)length);
    must(bytes != NULL && fread(bytes, 1, (size_t)length, stream) == (size_t)length, "the script isn't read");
    fclose(stream);
    return (struct text){bytes, (size_t)length};
}

static size_t lines(const char *bytes, size_t length) {
    size_t count = 0;
    for (const char *end = bytes + length; (bytes = memchr(bytes, '\n', (size_t)(end - bytes))); bytes++) count++;
    return count;
}

struct command {
    pid_t child;
    int input, output;
};

static struct command start(char **words) {
    int in[2], out[2];
    must(pipe2(in, O_CLOEXEC) == 0 && pipe2(out, O_CLOEXEC) == 0, "pipes");
    pid_t child = fork();
    must(child >= 0, "fork");
    if (child == 0) {
        must(dup2(in[0], STDIN_FILENO) >= 0 && dup2(out[1], STDOUT_FILENO) >= 0, "standard input and output");
        execv(words[0], words);
        _exit(127);
    }
    close(in[0]);
    close(out[1]);
    must(fcntl(in[1], F_SETFL, O_NONBLOCK) == 0, "a pipe that doesn't wait");
    return (struct command){child, in[1], out[0]};
}

/* gives the command these lines, and returns when all are answered */
static void answered(struct command command, struct text text) {
    static char room[1 << 16];
    size_t left = lines(text.bytes, text.length);
    while (left > 0) {
        struct pollfd ends[] = {{text.length > 0 ? command.input : -1, POLLOUT, 0}, {command.output, POLLIN, 0}};
        must(poll(ends, 2, -1) > 0, "poll");
        if (ends[0].revents) {
            ssize_t wrote = write(command.input, text.bytes, text.length);
            must(wrote > 0, "the command takes no line");
            text.bytes += wrote;
            text.length -= (size_t)wrote;
        }
        if (ends[1].revents) {
            ssize_t got = read(command.output, room, sizeof room);
            must(got > 0, "the command ends before all is answered");
            size_t more = lines(room, (size_t)got);
            must(more <= left, "more answers than lines");
            left -= more;
        }
    }
}

/* the processor time that it has used, in nanoseconds */
static double used(struct command command) {
    clockid_t clock;
    struct timespec time;
    must(clock_getcpuclockid(command.child, &clock) == 0 && clock_gettime(clock, &time) == 0, "the command's clock");
    return (double)time.tv_sec * 1e9 + (double)time.tv_nsec;
}

static double run(struct text first, struct text rest, char **words) {
    struct command command = start(words);
    answered(command, first);
    double before = used(command);
    answered(command, rest);
    double took = used(command) - before;
    int status;
    close(command.input);
    close(command.output);
    must(waitpid(command.child, &status, 0) == command.child && status == 0, "the command failed");
    return took;
}

void measure_after(const char *file, char **words) {
    signal(SIGPIPE, SIG_IGN);
    struct text all = contents(file);
    const char *end = memmem(all.bytes, all.length, "\n\n", 2);
    must(end != NULL, "the script has no empty line");
    struct text first = {all.bytes, (size_t)(end + 1 - all.bytes)};
    struct text rest = {end + 2, all.length - first.length - 1};
    size_t count = lines(rest.bytes, rest.length);
    must(count > 0, "no line is measured");
    double least = 0;
    for (int i = 0; i < RUNS; i++) {
        double took = run(first, rest, words);
        if (i == 0 || took < least) least = took;
    }
    printf("%zu %.1f\n", count, least / (double)count);
}
