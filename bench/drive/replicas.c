/* Does with SQLite what a drive does: reads the same input, adds each so many changesets to a group, applies each group to
 * one database for each subscriber, and writes the report of a drive. It has one thread.
 *
 *   replicas BATCH SUBSCRIBERS [each]     with `each` a group is made for each subscriber anew, as a drive does
 *
 * It is SQLite without memory statistics and locks. A database has one table in memory. */
#define SQLITE_ENABLE_SESSION
#define SQLITE_ENABLE_PREUPDATE_HOOK
#include "../apply/measure.h"

#include <sqlite3.h>

#include <stdint.h>
#include <stdio.h>
#include <stdlib.h>
#include <string.h>
#include <sys/types.h>

enum { MOST_SUBSCRIBERS = 16, MOST_LINES = 65536 };

/* the changesets, in the order of their lines */
static struct { unsigned char *bytes; int len; } sets[MOST_LINES];
static size_t lines;

/* ---- reading */

static int digit(int c) {
    if (c >= '0' && c <= '9') return c - '0';
    if (c >= 'a' && c <= 'f') return c - 'a' + 10;
    return -1;
}

/* Reads `changeset P HEX`. Returns 0 for any other line. */
static int read_set(const char *line, size_t len) {
    if (len < 12 || lines == MOST_LINES || memcmp(line, "changeset ", 10)) return 0;
    const char *hex = memchr(line + 10, ' ', len - 10);
    if (!hex || (line + len - ++hex) % 2) return 0;
    size_t bytes = (size_t)(line + len - hex) / 2;
    unsigned char *at = malloc(bytes + 1);
    must(at != NULL, "memory");
    for (size_t i = 0; i < bytes; i++) {
        int high = digit(hex[2 * i]), low = digit(hex[2 * i + 1]);
        if (high < 0 || low < 0) return 0;
        at[i] = (unsigned char)(high << 4 | low);
    }
    sets[lines].bytes = at;
    sets[lines++].len = (int)bytes;
    return 1;
}

/* Ends the program at the first bad line, as a drive does. */
static void read_input(void) {
    char *line = NULL;
    size_t room = 0, number = 0;
    for (ssize_t len; (len = getline(&line, &room, stdin)) > 0;) {
        if (line[len - 1] == '\n') len--;
        if (++number == 1 || read_set(line, (size_t)len)) continue;
        fprintf(stderr, "replicas: line %zu\n", number);
        exit(1);
    }
    free(line);
}

/* ---- applying */

static sqlite3 *databases[MOST_SUBSCRIBERS];

static int abort_it(void *context, int conflict, sqlite3_changeset_iter *iter) {
    (void)context, (void)conflict, (void)iter;
    return SQLITE_CHANGESET_ABORT;
}

static void *group(size_t first, size_t after, int *len) {
    sqlite3_changegroup *all;
    void *out;
    must(sqlite3changegroup_new(&all) == SQLITE_OK, "group");
    for (size_t i = first; i < after; i++)
        must(sqlite3changegroup_add(all, sets[i].len, sets[i].bytes) == SQLITE_OK, "add");
    must(sqlite3changegroup_output(all, len, &out) == SQLITE_OK, "output");
    sqlite3changegroup_delete(all);
    return out;
}

static void apply(int subscriber, int len, void *text) {
    must(sqlite3changeset_apply(databases[subscriber], len, text, 0, abort_it, 0) == SQLITE_OK, "conflict");
}

static void apply_all(size_t batch, int subscribers, int each) {
    for (size_t first = 0; first < lines; first += batch) {
        size_t after = first + batch < lines ? first + batch : lines;
        int len;
        void *text = each ? NULL : group(first, after, &len);
        for (int i = 0; i < subscribers; i++) {
            if (each) text = group(first, after, &len);
            apply(i, len, text);
            if (each) sqlite3_free(text);
        }
        if (!each) sqlite3_free(text);
    }
}

/* ---- reporting */

static void put_hex(char *at, const unsigned char *bytes, int len) {
    static const char digits[] = "0123456789abcdef";
    for (int i = 0; i < len; i++) {
        *at++ = digits[bytes[i] >> 4];
        *at++ = digits[bytes[i] & 15];
    }
    *at = 0;
}

static void report_rows(sqlite3 *database) {
    sqlite3_stmt *all;
    const char *count = "SELECT count(*) FROM t", *rows = "SELECT k, v FROM t ORDER BY k";
    must(sqlite3_prepare_v2(database, count, -1, &all, 0) == SQLITE_OK && sqlite3_step(all) == SQLITE_ROW, "count");
    printf("rows %lld\n", (long long)sqlite3_column_int64(all, 0));
    sqlite3_finalize(all);
    must(sqlite3_prepare_v2(database, rows, -1, &all, 0) == SQLITE_OK, "rows");
    while (sqlite3_step(all) == SQLITE_ROW) {
        char hex[512];
        int len = sqlite3_column_bytes(all, 1);
        must(len < 128, "a text of less than 128 bytes");
        put_hex(hex, sqlite3_column_text(all, 1), len);
        printf("row 0 01%016llx 03%02x%s\n", (unsigned long long)sqlite3_column_int64(all, 0), (unsigned)len, hex);
    }
    sqlite3_finalize(all);
}

static void report(int subscribers) {
    printf("placed %zu\nleft 0\nunsent 0\n", lines);
    for (int i = 0; i < subscribers; i++) {
        printf("subscriber %d cursor %zu drained\n", i, lines);
        report_rows(databases[i]);
    }
}

int main(int count, char **words) {
    must(count == 3 || (count == 4 && !strcmp(words[3], "each")), "BATCH SUBSCRIBERS [each]");
    size_t batch = strtoull(words[1], 0, 10);
    int subscribers = atoi(words[2]);
    must(batch > 0 && subscribers > 0 && subscribers <= MOST_SUBSCRIBERS, "1 to 16 subscribers");
    make_lean();
    read_input();
    for (int i = 0; i < subscribers; i++) {
        must(sqlite3_open(":memory:", &databases[i]) == SQLITE_OK, "open");
        must(sqlite3_exec(databases[i], "CREATE TABLE t(k INTEGER PRIMARY KEY, v)", 0, 0, 0) == SQLITE_OK, "create");
    }
    apply_all(batch, subscribers, count == 4);
    report(subscribers);
    return 0;
}
