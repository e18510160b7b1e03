#define _DEFAULT_SOURCE
#define SQLITE_ENABLE_SESSION
#define SQLITE_ENABLE_PREUPDATE_HOOK
#include "times.h"
#include "measure.h"

#include <stdio.h>
#include <stdlib.h>
#include <time.h>

sqlite3 *new_table(void) {
    sqlite3 *database;
    must(sqlite3_open(":memory:", &database) == SQLITE_OK, "open");
    must(sqlite3_exec(database, "CREATE TABLE m(a INTEGER PRIMARY KEY, b, c) WITHOUT ROWID", 0, 0, 0) == SQLITE_OK, "create");
    return database;
}

size_t length_of(const unsigned char *head) {
    return (size_t)head[0] << 24 | (size_t)head[1] << 16 | (size_t)head[2] << 8 | head[3];
}

static int abort_it(void *context, int conflict, sqlite3_changeset_iter *iter) {
    (void)context, (void)conflict, (void)iter;
    return SQLITE_CHANGESET_ABORT;
}

void apply_text(sqlite3 *database, unsigned char *text, size_t len) {
    must(sqlite3changeset_apply(database, (int)len, text, 0, abort_it, 0) == SQLITE_OK, "conflict");
}

/* all of standard input, and its length */
static unsigned char *read_input(size_t *len) {
    size_t room = 1 << 20, got;
    unsigned char *bytes = malloc(room);
    must(bytes != NULL, "memory");
    *len = 0;
    while ((got = fread(bytes + *len, 1, room - *len, stdin)) > 0) {
        *len += got;
        if (*len < room) continue;
        bytes = realloc(bytes, room *= 2);
        must(bytes != NULL, "memory");
    }
    return bytes;
}

static double microseconds(void) {
    struct timespec time;
    must(clock_gettime(CLOCK_MONOTONIC, &time) == 0, "the clock");
    return (double)time.tv_sec * 1000000 + (double)time.tv_nsec / 1000;
}

/* the group at a place of the input, and the place behind it; what it took, or less than 0 if it has no changesets */
static double apply_group(sqlite3 *database, unsigned char *bytes, size_t *at) {
    double took = -1;
    size_t len;
    while ((len = length_of(bytes + *at)) > 0) {
        if (took < 0) took = 0;
        double start = microseconds();
        apply_text(database, bytes + *at + 4, len);
        took += microseconds() - start;
        *at += 4 + len;
    }
    *at += 4;
    return took;
}

static void turn(const char *name, unsigned char *bytes, size_t len) {
    sqlite3 *database = new_table();
    int group = 0;
    for (size_t at = 0; at < len; group++) {
        double took = apply_group(database, bytes, &at);
        if (took >= 0) {
            printf("%s %d %.0f\n", name, group, took);
            continue;
        }
        sqlite3_close(database);
        database = new_table();
    }
    sqlite3_close(database);
}

void times(const char *name, int turns) {
    size_t len;
    unsigned char *bytes = read_input(&len);
    for (int i = 0; i < turns; i++) turn(name, bytes, len);
    free(bytes);
}
