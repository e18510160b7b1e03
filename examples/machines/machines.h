/* What the programs of this folder share: how they end, SQL on a file, and the tables whose changes are recorded. A
 * program defines NAME before it includes this: its messages begin with it. */
#ifndef MACHINES_H
#define MACHINES_H
#define SQLITE_ENABLE_SESSION
#define SQLITE_ENABLE_PREUPDATE_HOOK
#include "broker.h"
#include <inttypes.h>
#include <signal.h>
#include <sqlite3.h>
#include <stdarg.h>
#include <stdbool.h>
#include <stdint.h>
#include <stdio.h>
#include <stdlib.h>
#include <string.h>
#include <time.h>
#include <unistd.h>

#define SAY(...) (fputs(NAME ": ", stderr), fprintf(stderr, __VA_ARGS__), fputc('\n', stderr))
/* Ends the program with one line on standard error. It runs no handler, as other threads may be at work. What SQLite
 * has not committed by then is as after a crash. */
#define FAIL(...) (SAY(__VA_ARGS__), fflush(NULL), _exit(1))

/* How long a program tries to reach the stream before it ends, in seconds. */
enum { PATIENCE = 120 };

/* ---- time, and the signal that asks a program to end */

static volatile sig_atomic_t is_asked_to_end;

static inline void ask_to_end(int number) {
    (void)number;
    is_asked_to_end = 1;
}

static inline void heed_signals(void) {
    struct sigaction action = {.sa_handler = ask_to_end};
    sigemptyset(&action.sa_mask);
    if (sigaction(SIGTERM, &action, NULL) || sigaction(SIGINT, &action, NULL)) FAIL("no signal can be heeded");
}

static inline double seconds(void) {
    struct timespec now;
    clock_gettime(CLOCK_MONOTONIC, &now);
    return (double)now.tv_sec + (double)now.tv_nsec / 1e9;
}

static inline void wait_ms(long ms) {
    struct timespec pause = {ms / 1000, ms % 1000 * 1000000};
    nanosleep(&pause, NULL);
}

static inline void *allocate(void *old, size_t len) {
    void *memory = realloc(old, len ? len : 1);
    if (!memory) FAIL("out of memory");
    return memory;
}

/* ---- SQL: each call that fails ends the program */

static inline void check(sqlite3 *db, int rc) {
    if (rc) FAIL("SQLite: %s", sqlite3_errcode(db) ? sqlite3_errmsg(db) : sqlite3_errstr(rc));
}

static inline void run(sqlite3 *db, const char *sql, ...) {
    va_list values;
    va_start(values, sql);
    char *text = sqlite3_vmprintf(sql, values);
    va_end(values);
    check(db, text ? sqlite3_exec(db, text, NULL, NULL, NULL) : SQLITE_NOMEM);
    sqlite3_free(text);
}

/* Opens a file, or makes it. Its log is written ahead, so a reader does not wait for a writer. */
static inline sqlite3 *open_database(const char *path, const char *synchronous) {
    sqlite3 *db;
    int rc = sqlite3_open(path, &db);
    check(db, rc);
    check(db, sqlite3_busy_timeout(db, 10000));
    run(db, "PRAGMA journal_mode = WAL; PRAGMA synchronous = %s; PRAGMA foreign_keys = 0", synchronous);
    return db;
}

static inline sqlite3_stmt *prepare(sqlite3 *db, const char *sql, ...) {
    sqlite3_stmt *statement = NULL;
    va_list values;
    va_start(values, sql);
    char *text = sqlite3_vmprintf(sql, values);
    va_end(values);
    check(db, text ? sqlite3_prepare_v2(db, text, -1, &statement, NULL) : SQLITE_NOMEM);
    sqlite3_free(text);
    return statement;
}

/* Whether a query has one more row. */
static inline bool has_row(sqlite3 *db, sqlite3_stmt *query) {
    int rc = sqlite3_step(query);
    if (rc != SQLITE_ROW && rc != SQLITE_DONE) check(db, rc);
    return rc == SQLITE_ROW;
}

/* Runs a prepared statement that has no rows, and makes it ready for the next time. */
static inline void run_prepared(sqlite3 *db, sqlite3_stmt *statement) {
    (void)has_row(db, statement);
    check(db, sqlite3_reset(statement));
}

/* The number that a query gives, or 0 where it has no row. */
static inline int64_t number(sqlite3 *db, const char *sql) {
    sqlite3_stmt *query = prepare(db, "%s", sql);
    int64_t found = has_row(db, query) ? sqlite3_column_int64(query, 0) : 0;
    check(db, sqlite3_finalize(query));
    return found;
}

/* The room of an outbox's name: 128 random bits in hexadecimal, and a zero byte. A number says nothing under another
 * name. */
enum { NAME_ROOM = 33 };

/* Sets `name` to the text that a query gives, or to "" where that is no name. */
static inline void find_name(sqlite3 *db, const char *sql, char *name) {
    sqlite3_stmt *query = prepare(db, "%s", sql);
    bool is_name = has_row(db, query) && sqlite3_column_bytes(query, 0) == NAME_ROOM - 1;
    snprintf(name, NAME_ROOM, "%s", is_name ? (const char *)sqlite3_column_text(query, 0) : "");
    check(db, sqlite3_finalize(query));
}

/* ---- the tables whose changes are recorded: all but those whose name begins with `machines_` */

struct tables {
    struct broker_table *list;
    size_t count;
};

/* Of each table: its name, its number of columns, its key as the broker wants it, and why it can't be recorded, or
 * NULL. A session skips a row with NULL in its key, so no column of a key may be NULL. */
static const char TABLES[] =
    "SELECT name, length(flags) / 2, flags, CASE WHEN type <> 'table' THEN 'it is ' || type"
    " WHEN keys = 0 THEN 'it has no PRIMARY KEY' WHEN length(flags) <> 2 * ncol THEN 'it has generated columns'"
    " WHEN can_be_null AND NOT is_rowid THEN 'its key can be NULL' END FROM (SELECT l.*, s.rowid AS place,"
    " (SELECT group_concat(printf('%02x', pk), '') FROM pragma_table_info(l.name)) AS flags,"
    " (SELECT count(*) FROM pragma_table_info(l.name) WHERE pk) AS keys,"
    " (SELECT count(*) FROM pragma_table_info(l.name) WHERE pk AND NOT \"notnull\") AS can_be_null,"
    " (SELECT count(*) = 1 AND max(upper(type)) = 'INTEGER' FROM pragma_table_info(l.name) WHERE pk) AS is_rowid"
    " FROM main.sqlite_schema s JOIN pragma_table_list l USING (name) WHERE s.type = 'table' AND l.schema = 'main'"
    " AND name NOT LIKE 'sqlite!_%' ESCAPE '!' AND name NOT LIKE 'machines!_%' ESCAPE '!') ORDER BY place";

static inline struct tables find_tables(sqlite3 *db) {
    struct tables tables = {NULL, 0};
    sqlite3_stmt *found = prepare(db, "%s", TABLES);
    while (has_row(db, found)) {
        const char *name = (const char *)sqlite3_column_text(found, 0);
        const char *flags = (const char *)sqlite3_column_text(found, 2);
        if (sqlite3_column_text(found, 3)) FAIL("table %s can't be recorded: %s", name, sqlite3_column_text(found, 3));
        size_t columns = (size_t)sqlite3_column_int64(found, 1), len = strlen(name);
        unsigned char *key = allocate(NULL, columns), *copy = allocate(NULL, len + 1);
        for (size_t i = 0; i < columns; i++) {
            char digits[3] = {flags[2 * i], flags[2 * i + 1], 0};
            key[i] = (unsigned char)strtol(digits, NULL, 16);
        }
        memcpy(copy, name, len + 1);
        tables.list = allocate(tables.list, (tables.count + 1) * sizeof *tables.list);
        tables.list[tables.count++] = (struct broker_table){copy, len, key, columns};
    }
    check(db, sqlite3_finalize(found));
    if (!tables.count) FAIL("the schema has no tables");
    return tables;
}

/* Begins a session on these tables. */
static inline sqlite3_session *begin_session(sqlite3 *db, const struct tables *tables) {
    sqlite3_session *session;
    check(db, sqlite3session_create(db, "main", &session));
    for (size_t i = 0; i < tables->count; i++)
        check(db, sqlite3session_attach(session, (const char *)tables->list[i].name));
    return session;
}

/* Ends a session, and returns the changeset that it recorded, which sqlite3_free frees. */
static inline unsigned char *end_session(sqlite3 *db, sqlite3_session *session, int *len) {
    void *changeset = NULL;
    check(db, sqlite3session_changeset(session, len, &changeset));
    sqlite3session_delete(session);
    return changeset;
}
#endif
