/* ./starved FOLDER STEP: a scene of a source and its replica, once for each STEP-th allocation, where that one is refused, and
 * once more where all from that one on are, until a call has failed. Allocations are those of the keeper, of the broker and
 * of SQLite, of the caller's thread and of the service thread (memory.c).
 * Each call has a code that the header allows. What gz_commit has committed is there. The call works once there is memory
 * again. The replica ends equal by type and bytes, and no block of memory stays. */
#include "memory.h"
#include <gubzelk.h>
#include <stdio.h>
#include <stdlib.h>
#include <string.h>
#include <unistd.h>

#define CHECK(x) \
    do { if (!(x)) { printf("line %d, allocation %ld of thread %d%s: %s (code %d: %s)\n", __LINE__, number, thread, \
        lasts ? " and all after it" : "", #x, code, words); exit(1); } } while (0)

static sqlite3 *db;
static gz_source *s;
static gz_replica *r;
/* what is refused, and the last code with its words */
static long number;
static enum memory_thread thread;
static bool lasts;
static int code;
static const char *words = "";
/* what came of it */
static long scenes, refused, failed_calls, repairs, copies;

static const char SCHEMA[] =
    "PRAGMA journal_mode = WAL; PRAGMA synchronous = OFF;"
    "CREATE TABLE t (id INTEGER PRIMARY KEY, a, b REAL); CREATE TABLE n (k TEXT PRIMARY KEY, v) WITHOUT ROWID;"
    "CREATE TABLE keyless (x); CREATE UNIQUE INDEX u ON t (a); CREATE TRIGGER g AFTER DELETE ON t BEGIN DELETE FROM n; END;"
    "INSERT INTO t VALUES (1, 1, 0.5), (2, 2.5, 1e300); INSERT INTO n VALUES ('a', x'0001');"
    "ALTER TABLE t ADD COLUMN d DEFAULT 0.25";

/* A call that has failed for want of memory, which is there from now on. */
static void fails(void) { failed_calls++, memory_comes_back(); }

/* Runs SQL of the caller's where nothing is refused. */
static void run(const char *sql) {
    memory_pause();
    code = sqlite3_exec(db, sql, NULL, NULL, NULL), words = sqlite3_errmsg(db);
    CHECK(code == SQLITE_OK);
    memory_go_on();
}

/* All tables that travel, by type and bytes. It frees nothing that `out` has. */
static char *rows_of(const char *path) {
    static const char *const QUERY[] = {"SELECT * FROM t ORDER BY id", "SELECT * FROM n ORDER BY k"};
    sqlite3 *file;
    sqlite3_str *out = sqlite3_str_new(NULL);
    CHECK(!sqlite3_open_v2(path, &file, SQLITE_OPEN_READONLY, NULL));
    for (int q = 0; q < 2; q++) {
        sqlite3_stmt *it;
        CHECK(!sqlite3_prepare_v2(file, QUERY[q], -1, &it, NULL));
        while (sqlite3_step(it) == SQLITE_ROW)
            for (int i = 0; i < sqlite3_column_count(it); i++) {
                double real = sqlite3_column_type(it, i) == SQLITE_FLOAT ? sqlite3_column_double(it, i) : 0;
                sqlite3_str_appendf(out, "%d:", sqlite3_column_type(it, i));
                for (size_t n = 0; n < sizeof real; n++) sqlite3_str_appendf(out, "%02x", ((unsigned char *)&real)[n]);
                sqlite3_str_appendf(out, ":%s ", sqlite3_column_text(it, i));
            }
        CHECK(!sqlite3_finalize(it));
    }
    return sqlite3_close(file), sqlite3_str_finish(out);
}

static void are_equal(void) {
    memory_pause();
    char *live = rows_of("live.db"), *copy = rows_of("copy.db");
    if (strcmp(live, copy)) printf("source %s\nreplica %s\n", live, copy);
    CHECK(!strcmp(live, copy));
    sqlite3_free(live), sqlite3_free(copy), memory_go_on();
}

/* Gives a transaction up, which SQLite may have done already. */
static void give_up(void) {
    fails(), code = gz_rollback(s);
    CHECK(code == GZ_OK || code == GZ_NO_TRANSACTION);
    CHECK(sqlite3_get_autocommit(db));
}

/* One attempt of a transaction. Returns whether it is committed. */
static bool attempt(const char *sql) {
    code = gz_begin(s), words = sqlite3_errmsg(db);
    if (code) {
        CHECK(code == GZ_NO_MEMORY && sqlite3_get_autocommit(db));
        return fails(), false;
    }
    code = sqlite3_exec(db, sql, NULL, NULL, NULL), words = sqlite3_errmsg(db);
    if (code) {
        CHECK((code & 0xff) == SQLITE_NOMEM || code == SQLITE_IOERR_NOMEM || code == SQLITE_ERROR);
        return give_up(), false;
    }
    code = gz_commit(s), words = sqlite3_errmsg(db);
    if (code == GZ_NO_MEMORY) {
        CHECK(!sqlite3_get_autocommit(db));
        fails(), code = gz_commit(s), words = sqlite3_errmsg(db);
        CHECK(code == GZ_OK);
    }
    CHECK((code == GZ_OK || code == GZ_ROLLED_BACK) && sqlite3_get_autocommit(db));
    if (code) fails();
    return code == GZ_OK;
}

/* A transaction, and a query that is true once it is committed. */
static void transact(const char *sql, const char *query) {
    sqlite3_stmt *it;
    for (int tries = 0; !attempt(sql); tries++) CHECK(tries < 2);
    memory_pause();
    CHECK(!sqlite3_prepare_v2(db, query, -1, &it, NULL) && sqlite3_step(it) == SQLITE_ROW && sqlite3_column_int(it, 0) == 1);
    CHECK(!sqlite3_finalize(it));
    memory_go_on();
}

/* Steps until the replica has everything, and compares. */
static void follow(void) {
    struct gz_replica_status it;
    for (int steps = 0; steps < 100; steps++) {
        code = gz_replica_step(r, 0), gz_replica_status(r, &it), words = it.error;
        CHECK(code >= 0 || code == GZ_NO_MEMORY);
        if (code == GZ_NO_MEMORY || code == GZ_LAGS || code == GZ_AWAY) fails();
        /* memory ran out between COMMIT and the broker: the next gz_commit repairs it */
        if (strstr(it.error, "no memory for the last transaction")) transact("", "SELECT 1"), repairs++;
        if (code == GZ_IDLE) break;
    }
    CHECK(code == GZ_IDLE && it.lag == 0);
    are_equal();
}

static void open_both(void) {
    struct gz_options options = {.max_entries = 3};
    for (int tries = 0; (code = gz_source_open(&s, db, &options)); tries++) {
        words = sqlite3_errmsg(db);
        CHECK(code == GZ_NO_MEMORY && !s && sqlite3_get_autocommit(db) && tries < 2);
        fails();
    }
    for (int tries = 0; (code = gz_replica_open(&r, "copy.db", "live.db", NULL)); tries++) {
        CHECK(code == GZ_NO_MEMORY && !r && tries < 2);
        fails();
    }
}

static void ask_statuses(void) {
    struct gz_source_status it;
    struct gz_known known;
    struct gz_left left;
    code = gz_source_status(s, &it), words = it.reason;
    CHECK(code == GZ_OK && it.front <= 3);
    code = gz_source_replica(s, 0, &known);
    CHECK(code == GZ_OK && known.lag == 0);
    for (size_t i = 0; !gz_source_left(s, i, &left); i++) CHECK(left.table && left.key && left.why);
}

static void scene(void) {
    char path[40];
    static const char *const FILES[] = {"live.db", "live.db-wal", "live.db-shm", "live.db-gz-lock", "copy.db", "copy.db-wal",
        "copy.db-shm", "copy.db-gz-lock"};
    for (size_t i = 0; i < sizeof FILES / sizeof *FILES; i++) snprintf(path, sizeof path, "%s", FILES[i]), unlink(path);
    CHECK(!sqlite3_open("live.db", &db));
    CHECK(!sqlite3_exec(db, SCHEMA, NULL, NULL, NULL));
    memory_refuse(thread, number, lasts);
    open_both();
    transact("INSERT INTO t VALUES (3, 3.5, -1e-300, 1); UPDATE t SET a = 7 WHERE id = 1", "SELECT count(*) = 3 FROM t");
    follow();
    transact("UPDATE t SET b = b * 1.25; INSERT INTO n VALUES ('b', 0.1)", "SELECT v = 0.1 FROM n WHERE k = 'b'");
    transact("DELETE FROM t WHERE id = 2; INSERT INTO keyless VALUES (1)", "SELECT count(*) = 2 FROM t");
    follow();
    transact("ALTER TABLE n ADD COLUMN w DEFAULT 'x'; INSERT INTO n VALUES ('c', 1, 2.5)", "SELECT w = 2.5 FROM n WHERE k = 'c'");
    follow(), ask_statuses();
    for (int i = 0; i < 5; i++) transact("UPDATE t SET b = b + 0.5", "SELECT count(*) = 2 FROM t");
    run("UPDATE t SET a = -1 WHERE id = 3");
    transact("UPDATE t SET a = 2 WHERE id = 3", "SELECT a = 2 FROM t WHERE id = 3");
    follow(), gz_replica_close(r);
    transact("INSERT INTO n VALUES ('d', 1.5, x'')", "SELECT v = 1.5 FROM n WHERE k = 'd'");
    for (int tries = 0; (code = gz_replica_open(&r, "copy.db", "live.db", NULL)); tries++) fails();
    follow();
    struct gz_replica_status it;
    gz_replica_status(r, &it), copies += (long)it.copies;
    gz_replica_close(r), gz_source_close(s);
    CHECK(!sqlite3_close(db));
    scenes++, refused += memory_was_refused();
}

/* The scene for each allocation of a thread, as many as a scene asks for where nothing is refused. */
static void each(enum memory_thread which, long step) {
    long most, blocks;
    number = 0, scene(), most = memory_asked(which), blocks = memory_blocks(), thread = which;
    for (number = 1; number <= most; number += step)
        for (int i = 0; i < 2; i++) {
            lasts = i, scene(), memory_comes_back();
            CHECK(memory_blocks() == blocks);
        }
    printf("thread %d asks for %ld allocations\n", (int)which, most);
}

int main(int count, char **given) {
    if (count != 3 || chdir(given[1])) return 2;
    memory_begin();
    number = 0, scene();
    each(MEMORY_CALLER, atol(given[2])), each(MEMORY_SERVICE, atol(given[2]));
    printf("%ld scenes, an allocation refused in %ld; %ld calls failed, %ld commits repaired one before; %ld copies at last\n",
        scenes, refused, failed_calls, repairs, copies);
    return 0;
}
