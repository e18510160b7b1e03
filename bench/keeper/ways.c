/* ./ways WAY TRANSACTIONS: transactions of one INSERT in the current folder, which two other processes apply to files of theirs.
 * It prints the milliseconds until the writer is done, and until both files have all.
 *     keeper    by gubzelk.h
 *     log       a session records each transaction, and its changeset is a row of a log table in the same database. Each
 *               process polls the log, and applies up to 64 rows as one group, with its place, in one transaction. */
#define SQLITE_ENABLE_SESSION
#define SQLITE_ENABLE_PREUPDATE_HOOK
#include <gubzelk.h>
#include <stdbool.h>
#include <stdio.h>
#include <stdlib.h>
#include <string.h>
#include <sys/wait.h>
#include <time.h>
#include <unistd.h>

#define CHECK(x) do { if (!(x)) { fprintf(stderr, "ways.c:%d: %s\n", __LINE__, #x); exit(1); } } while (0)

static const char TABLE[] = "PRAGMA journal_mode = WAL; PRAGMA synchronous = NORMAL; CREATE TABLE t (id INTEGER PRIMARY KEY, a, b);";
static const char LOG[] = "CREATE TABLE log (id INTEGER PRIMARY KEY, text BLOB)";
static const char PLACE[] = "CREATE TABLE place (one INTEGER PRIMARY KEY, id); INSERT INTO place VALUES (1, 0)";

static double now(void) {
    struct timespec at;
    clock_gettime(CLOCK_MONOTONIC, &at);
    return (double)at.tv_sec * 1e3 + (double)at.tv_nsec / 1e6;
}

static sqlite3 *opened(const char *file, const char *sql) {
    sqlite3 *db;
    CHECK(!sqlite3_open(file, &db) && !sqlite3_busy_timeout(db, 10000) && !sqlite3_exec(db, sql, NULL, NULL, NULL));
    return db;
}

static sqlite3_stmt *prepared(sqlite3 *db, const char *sql) {
    sqlite3_stmt *it;
    CHECK(!sqlite3_prepare_v3(db, sql, -1, SQLITE_PREPARE_PERSISTENT, &it, NULL));
    return it;
}

static void run(sqlite3_stmt *it) { sqlite3_step(it), sqlite3_reset(it) ? exit(1) : (void)0; }

static void insert(sqlite3_stmt *it, long id) {
    sqlite3_bind_int64(it, 1, id), sqlite3_bind_int64(it, 2, id * 7), run(it);
}

/* ---- by the keeper */

static void keep(const char *file, long transactions, int ready) {
    gz_replica *r;
    struct gz_replica_status it = {0};
    CHECK(!gz_replica_open(&r, file, "live.db", NULL));
    while (gz_replica_step(r, 1000) != GZ_IDLE) {}
    CHECK(write(ready, "", 1) == 1);
    while (it.number < (uint64_t)transactions) CHECK(gz_replica_step(r, 1000) >= 0 && !gz_replica_status(r, &it));
    CHECK(it.copies == 1);
    gz_replica_close(r);
}

static void write_kept(long transactions, int ready) {
    gz_source *s;
    char bytes[2];
    sqlite3 *db = opened("live.db", TABLE);
    sqlite3_stmt *it = prepared(db, "INSERT INTO t VALUES (?1, ?2, 'some words')");
    CHECK(!gz_source_open(&s, db, NULL) && read(ready, bytes, 1) == 1 && read(ready, bytes, 1) == 1);
    double begun = now();
    for (long i = 1; i <= transactions; i++) {
        CHECK(!gz_begin(s));
        insert(it, i);
        CHECK(!gz_commit(s));
    }
    printf("%.1f ", now() - begun);
    while (wait(NULL) > 0) {}
    printf("%.1f\n", now() - begun);
    sqlite3_finalize(it), gz_source_close(s), sqlite3_close(db);
}

/* ---- by a log table */

/* Applies what a query gives of the log after the place. Returns the new place. */
static long apply(sqlite3 *db, sqlite3_stmt *log, sqlite3_stmt *place, long at) {
    sqlite3_changegroup *group;
    void *text;
    int len;
    CHECK(!sqlite3changegroup_new(&group));
    sqlite3_bind_int64(log, 1, at);
    for (; sqlite3_step(log) == SQLITE_ROW; at = (long)sqlite3_column_int64(log, 0))
        CHECK(!sqlite3changegroup_add(group, sqlite3_column_bytes(log, 1), (void *)sqlite3_column_blob(log, 1)));
    CHECK(!sqlite3_reset(log) && !sqlite3changegroup_output(group, &len, &text));
    sqlite3changegroup_delete(group), sqlite3_bind_int64(place, 1, at);
    if (len) {
        CHECK(!sqlite3_exec(db, "BEGIN IMMEDIATE", NULL, NULL, NULL));
        CHECK(!sqlite3changeset_apply(db, len, text, NULL, NULL, NULL));
        run(place);
        CHECK(!sqlite3_exec(db, "COMMIT", NULL, NULL, NULL));
    }
    sqlite3_free(text);
    return len ? at : -1;
}

static void follow(const char *file, long transactions, int ready) {
    sqlite3 *db = opened(file, TABLE), *live;
    CHECK(!sqlite3_exec(db, PLACE, NULL, NULL, NULL) && write(ready, "", 1) == 1);
    while (sqlite3_open_v2("live.db", &live, SQLITE_OPEN_READONLY, NULL) ||
           sqlite3_exec(live, "SELECT id FROM log", NULL, NULL, NULL)) sqlite3_close(live), usleep(1000);
    CHECK(write(ready, "", 1) == 1);
    sqlite3_stmt *log = prepared(live, "SELECT id, text FROM log WHERE id > ?1 ORDER BY id LIMIT 64"),
        *place = prepared(db, "UPDATE place SET id = ?1");
    for (long at = 0, next; at < transactions; at = next < 0 ? at : next)
        if ((next = apply(db, log, place, at)) < 0) usleep(500);
    sqlite3_finalize(log), sqlite3_finalize(place), sqlite3_close(db), sqlite3_close(live);
}

static void record(sqlite3 *db, sqlite3_stmt *const it[4], long id) {
    sqlite3_session *session;
    void *text;
    int len;
    run(it[0]);
    CHECK(!sqlite3session_create(db, "main", &session) && !sqlite3session_attach(session, "t"));
    insert(it[1], id);
    CHECK(!sqlite3session_changeset(session, &len, &text));
    sqlite3session_delete(session), sqlite3_bind_blob(it[2], 1, text, len, SQLITE_STATIC);
    run(it[2]), run(it[3]), sqlite3_free(text);
}

static void write_logged(long transactions, int ready) {
    char bytes[4];
    sqlite3 *db = opened("live.db", TABLE);
    CHECK(!sqlite3_exec(db, LOG, NULL, NULL, NULL));
    sqlite3_stmt *it[] = {prepared(db, "BEGIN IMMEDIATE"), prepared(db, "INSERT INTO t VALUES (?1, ?2, 'some words')"),
        prepared(db, "INSERT INTO log (text) VALUES (?1)"), prepared(db, "COMMIT")};
    for (int i = 0; i < 4; i++) CHECK(read(ready, bytes, 1) == 1);
    double begun = now();
    for (long i = 1; i <= transactions; i++) record(db, it, i);
    printf("%.1f ", now() - begun);
    while (wait(NULL) > 0) {}
    printf("%.1f\n", now() - begun);
    for (int i = 0; i < 4; i++) sqlite3_finalize(it[i]);
    sqlite3_close(db);
}

int main(int count, char **words) {
    static const char *const FILES[] = {"one.db", "two.db"};
    int ready[2];
    if (count != 3 || pipe(ready)) return 2;
    bool by_keeper = !strcmp(words[1], "keeper");
    long transactions = atol(words[2]);
    /* a fork has no connection */
    for (int i = 0; i < 2; i++)
        if (!fork()) {
            (by_keeper ? keep : follow)(FILES[i], transactions, ready[1]);
            exit(0);
        }
    (by_keeper ? write_kept : write_logged)(transactions, ready[0]);
    for (int i = 0; i < 2; i++) {
        sqlite3 *db = opened(FILES[i], "SELECT 1");
        sqlite3_stmt *it = prepared(db, "SELECT count(*) FROM t");
        CHECK(sqlite3_step(it) == SQLITE_ROW && sqlite3_column_int64(it, 0) == transactions);
        sqlite3_finalize(it), sqlite3_close(db);
    }
    return 0;
}
