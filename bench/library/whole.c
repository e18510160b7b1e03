/* The whole way of changesets of one INSERT each, from their bytes to applied rows.
 *
 *     ./whole broker       feed, end, send, turn, take, accept, ack: the rows are in the broker's tables
 *     ./whole replica      the same, and each delivery's changeset is applied to an SQLite database in memory, too
 *     ./whole groups       SQLite alone: a changegroup of each 16 changesets is applied to such a database
 *     ./whole each         SQLite alone: each changeset is applied by itself
 *
 * A database has its cursor in the same transaction. SQLite is lean, without its memory statistics and its locks. It
 * prints milliseconds of processor time, and checks the rows. */
#define _POSIX_C_SOURCE 200809L
#define SQLITE_ENABLE_SESSION
#define SQLITE_ENABLE_PREUPDATE_HOOK
#include "broker.h"

#include <sqlite3.h>
#include <stdio.h>
#include <stdlib.h>
#include <string.h>
#include <time.h>

enum { CHANGESETS = 100000, BATCH = 16, TEXT = 26, ROOM = BATCH * TEXT };

static broker *b;
static sqlite3 *db;
static sqlite3_stmt *moves;

static void need(int holds, const char *what) {
    if (holds) return;
    fprintf(stderr, "bench: %s\n", what);
    exit(1);
}

/* the INSERT of (key, 5) */
static void insert_of(uint64_t key, unsigned char text[TEXT]) {
    memcpy(text, "T\2\1\0t\0\22\0\1\0\0\0\0\0\0\0\0\1\0\0\0\0\0\0\0\5", TEXT);
    for (int i = 0; i < 8; i++) text[9 + i] = (unsigned char)(key >> (56 - 8 * i));
}

static void run_sql(const char *sql) { need(!sqlite3_exec(db, sql, NULL, NULL, NULL), sqlite3_errmsg(db)); }

static int conflict(void *context, int kind, sqlite3_changeset_iter *change) {
    return (void)context, (void)kind, (void)change, SQLITE_CHANGESET_ABORT;
}

static void apply(void *text, int len, uint64_t last) {
    run_sql("BEGIN");
    need(!sqlite3changeset_apply(db, len, text, NULL, conflict, NULL), "a changeset isn't applied");
    need(!sqlite3_bind_int64(moves, 1, (sqlite3_int64)last) && sqlite3_step(moves) == SQLITE_DONE, "no cursor");
    sqlite3_reset(moves);
    run_sql("COMMIT");
}

static void publish(uint64_t entry) {
    unsigned char text[TEXT];
    uint64_t own, placed;
    insert_of(entry, text);
    need(!broker_feed(b, 0, text, TEXT) && !broker_end(b, 0) && !broker_send(b, 0, &own) && !broker_turn(b, &placed) &&
             placed == entry,
         "a changeset isn't placed");
}

static void follow(int to_database) {
    unsigned char text[ROOM];
    struct broker_delivery d;
    uint64_t cursor, floor;
    need(!broker_take(b, 0, 0, &d), "no delivery");
    if (to_database) {
        int64_t len = broker_combined(b, d.first, d.last, text, ROOM);
        need(len > 0 && len <= ROOM, "no text");
        apply(text, (int)len, d.last);
    }
    need(!broker_accept(b, d.number, &cursor) && !broker_ack(b, d.number, &floor) && floor == d.last, "not settled");
}

static void by_broker(int to_database) {
    for (uint64_t entry = 1; entry <= CHANGESETS; entry++) {
        publish(entry);
        if (entry % BATCH == 0) follow(to_database);
    }
    need(CHANGESETS % BATCH == 0, "changesets are left");
}

static void by_groups(void) {
    unsigned char text[TEXT];
    void *changes;
    int len;
    for (uint64_t entry = 1; entry <= CHANGESETS; entry += BATCH) {
        sqlite3_changegroup *group;
        need(!sqlite3changegroup_new(&group), "no group");
        for (uint64_t i = entry; i < entry + BATCH; i++)
            insert_of(i, text), need(!sqlite3changegroup_add(group, TEXT, text), "not added");
        need(!sqlite3changegroup_output(group, &len, &changes), "no output");
        apply(changes, len, entry + BATCH - 1);
        sqlite3_free(changes), sqlite3changegroup_delete(group);
    }
}

static void by_each(void) {
    unsigned char text[TEXT];
    for (uint64_t entry = 1; entry <= CHANGESETS; entry++) insert_of(entry, text), apply(text, TEXT, entry);
}

static void begin(void) {
    static const unsigned char key[] = {1, 0};
    static const struct broker_table table = {(const unsigned char *)"t", 1, key, 2};
    struct broker_limits limits = BROKER_LIMITS;
    struct broker_numbers why;
    uint64_t n, link;
    limits.batch = BATCH, limits.capacity = CHANGESETS;
    need(!broker_open(&b, &limits, &table, 1, &why) && !broker_publisher(b, &n) && !broker_subscribe(b, 0, &n, &link),
         "no broker");
    need(!sqlite3_open(":memory:", &db), "no database");
    run_sql("CREATE TABLE t (a INTEGER PRIMARY KEY, b INTEGER); CREATE TABLE cursor AS SELECT 0 AS number");
    need(!sqlite3_prepare_v2(db, "UPDATE cursor SET number = ?", -1, &moves, NULL), "no statement");
}

/* the rows of the database, or of the broker, must be those of the changesets */
static void end(int in_database) {
    sqlite3_stmt *rows;
    need(!sqlite3_prepare_v2(db, "SELECT count(*), sum(a), sum(b), number FROM t, cursor", -1, &rows, NULL), "no rows");
    need(sqlite3_step(rows) == SQLITE_ROW, "no row");
    sqlite3_int64 count = sqlite3_column_int64(rows, 0), sum = sqlite3_column_int64(rows, 1);
    sqlite3_int64 fives = sqlite3_column_int64(rows, 2), number = sqlite3_column_int64(rows, 3);
    int same = count == CHANGESETS && sum == (sqlite3_int64)CHANGESETS * (CHANGESETS + 1) / 2 &&
               fives == 5 * CHANGESETS && number == CHANGESETS;
    need(!in_database || same, "other rows");
    uint64_t cursor;
    need(!broker_cursor(b, 0, &cursor) && (in_database || cursor == CHANGESETS), "another cursor");
    sqlite3_finalize(rows), sqlite3_finalize(moves), sqlite3_close(db), broker_free(b);
}

static double processor_time(void) {
    struct timespec now;
    clock_gettime(CLOCK_PROCESS_CPUTIME_ID, &now);
    return (double)now.tv_sec * 1e3 + (double)now.tv_nsec / 1e6;
}

int main(int count, char **words) {
    const char *way = count == 2 ? words[1] : "";
    need(*way && strstr("broker replica groups each", way), "whole broker|replica|groups|each");
    sqlite3_config(SQLITE_CONFIG_MEMSTATUS, 0), sqlite3_config(SQLITE_CONFIG_SINGLETHREAD);
    begin();
    double before = processor_time();
    if (*way == 'b' || *way == 'r') by_broker(*way == 'r');
    else if (*way == 'g') by_groups();
    else by_each();
    double took = processor_time() - before;
    end(*way != 'b');
    return printf("%.1f\n", took) < 0;
}
