/* ./calls FOLDER: what keeper/gubzelk.h says of each call, with a source and its replicas in one process. */
#define SQLITE_ENABLE_SESSION
#include "common.h"
#include <sys/socket.h>
#include <sys/stat.h>
#include <sys/un.h>

/* Another connection writes. */
static void foreign(const char *path, const char *sql) {
    sqlite3 *file;
    CHECK(!sqlite3_open(path, &file));
    sqlite3_busy_timeout(file, 5000), run(file, sql), sqlite3_close(file);
}

/* What gz_source_open refuses. */
static void check_open(void) {
    struct gz_options options = {0};
    sqlite3 *memory;
    CHECK(!sqlite3_open(":memory:", &memory) && gz_source_open(&s, memory, NULL) == GZ_NO_FILE && !s);
    sqlite3_close(memory);
    CHECK(!sqlite3_open("live.db", &db));
    run(db, "CREATE TABLE t (id INTEGER PRIMARY KEY, a, b REAL DEFAULT 0.5); INSERT INTO t VALUES (1, 2, 3.5)");
    CHECK(gz_source_open(&s, db, NULL) == GZ_NOT_WAL && strstr(gz_message(GZ_NOT_WAL), "PRAGMA journal_mode=WAL"));
    run(db, "PRAGMA journal_mode = WAL; CREATE TABLE gz_mark (mine)");
    CHECK(gz_source_open(&s, db, NULL) == GZ_TABLE_TAKEN && sqlite3_get_autocommit(db));
    run(db, "DROP TABLE gz_mark; BEGIN");
    CHECK(gz_source_open(&s, db, NULL) == GZ_IN_TRANSACTION);
    run(db, "COMMIT");
    char path[200] = "x";
    memset(path, 'x', sizeof path - 1), path[sizeof path - 1] = 0, options.socket = path;
    CHECK(gz_source_open(&s, db, &options) == GZ_LONG_PATH);
    options.socket = "live.db";
    CHECK(gz_source_open(&s, db, &options) == GZ_SYSTEM);
    CHECK(gz_source_open(&s, db, NULL) == GZ_OK);
    gz_source *other;
    sqlite3 *second;
    CHECK(!sqlite3_open("live.db", &second) && gz_source_open(&other, second, NULL) == GZ_TAKEN && !other);
    sqlite3_close(second);
    CHECK(gz_replica_open(&r, "live.db", "live.db", NULL) == GZ_TAKEN);
}

/* The calls of a transaction. */
static void check_transactions(void) {
    CHECK(gz_commit(s) == GZ_NO_TRANSACTION && gz_rollback(s) == GZ_NO_TRANSACTION);
    CHECK(gz_begin(s) == GZ_OK && gz_begin(s) == GZ_IN_TRANSACTION);
    run(db, "INSERT INTO t VALUES (2, NULL, 1e300)");
    CHECK(gz_rollback(s) == GZ_OK && number(db, "SELECT count(*) FROM t") == 1);
    CHECK(gz_begin(s) == GZ_OK);
    run(db, "COMMIT");
    CHECK(gz_commit(s) == GZ_NO_TRANSACTION);
    run(db, "BEGIN");
    CHECK(gz_begin(s) == GZ_IN_TRANSACTION);
    run(db, "ROLLBACK");
    sqlite3 *other;
    CHECK(!sqlite3_open("live.db", &other));
    run(other, "BEGIN IMMEDIATE");
    CHECK(gz_begin(s) == GZ_BUSY && sqlite3_get_autocommit(db));
    run(other, "ROLLBACK"), sqlite3_close(other);
    /* a deferred constraint refuses COMMIT: the transaction stays open */
    commit("CREATE TABLE p (id INTEGER PRIMARY KEY); CREATE TABLE c (id INTEGER PRIMARY KEY, p REFERENCES p (id)"
           " DEFERRABLE INITIALLY DEFERRED); CREATE TABLE o (k PRIMARY KEY)");
    CHECK(strstr(reason(), "schema"));
    run(db, "PRAGMA foreign_keys = 1");
    CHECK(gz_begin(s) == GZ_OK);
    struct gz_source_status before, after;
    run(db, "INSERT INTO c VALUES (1, 7); INSERT INTO o VALUES (1.5)"), gz_source_status(s, &before);
    CHECK(gz_commit(s) == GZ_SQLITE && !sqlite3_get_autocommit(db));
    run(db, "INSERT INTO p VALUES (7)");
    CHECK(gz_commit(s) == GZ_OK && number(db, "SELECT count(*) FROM c") == 1 && !gz_source_status(s, &after));
    CHECK(after.left == before.left + 1);
}

/* A replica's life, with all that makes it a copy. */
static void check_replica(void) {
    struct gz_replica_status it;
    struct gz_known known;
    CHECK(gz_replica_open(&r, "copy.db", "live.db", NULL) == GZ_OK);
    it = until(r, GZ_IDLE);
    CHECK(it.copies == 1 && it.lag == 0 && of_file("copy.db", "SELECT b = 3.5 FROM t") == 1);
    commit("INSERT INTO t VALUES (3, 0.1, -0.0), (4, x'00', 9e999); UPDATE t SET a = 1.5 WHERE id = 1");
    it = until(r, GZ_IDLE);
    CHECK(it.copies == 1 && of_file("copy.db", "SELECT typeof(a) = 'real' AND a = 1.5 FROM t WHERE id = 1") == 1);
    CHECK(gz_source_replica(s, 0, &known) == GZ_OK && known.at == 2 && known.lag == 0);
    CHECK(!memcmp(known.id, it.id, 16) && gz_source_replica(s, 1, &known) == GZ_IDLE);
    /* a foreign write: no replica has everything until a commit repairs it */
    foreign("live.db", "INSERT INTO t VALUES (5, 5, 5)");
    it = until(r, GZ_LAGS);
    CHECK(it.foreign && it.lag == UINT64_MAX && gz_replica_step(r, 10) == GZ_LAGS);
    commit("INSERT INTO t VALUES (6, 6, 6)");
    CHECK(strstr(reason(), "another connection"));
    it = until(r, GZ_IDLE);
    CHECK(it.copies == 2 && of_file("copy.db", "SELECT count(*) FROM t") == 5);
    run(db, "UPDATE t SET a = 7");
    CHECK(gz_begin(s) == GZ_OK && gz_commit(s) == GZ_OK && strstr(reason(), "outside"));
    CHECK(until(r, GZ_IDLE).copies == 3 && of_file("copy.db", "SELECT sum(a) FROM t") == 35);
    /* a foreign write after a commit, between which no replica asked */
    commit("UPDATE t SET a = 7 WHERE id = 3");
    usleep(100000), foreign("live.db", "UPDATE t SET b = 8.5 WHERE id = 3");
    CHECK(until(r, GZ_LAGS).foreign && gz_begin(s) == GZ_OK && gz_commit(s) == GZ_OK && until(r, GZ_IDLE).copies == 4);
    /* these are no foreign writes */
    run(db, "VACUUM; ANALYZE");
    commit("UPDATE t SET a = 9 WHERE id = 1");
    run(db, "CREATE TEMP TABLE x (a); INSERT INTO x VALUES (1); BEGIN; UPDATE t SET a = 8; ROLLBACK");
    commit("UPDATE t SET a = 7 WHERE id = 1");
    CHECK(until(r, GZ_IDLE).copies == 4);
    CHECK(until(r, GZ_IDLE).copies == 4);
    /* others write to the replica */
    foreign("copy.db", "UPDATE t SET a = 10 WHERE id = 3");
    it = until(r, GZ_IDLE);
    CHECK(it.copies == 5 && strstr(it.reason, "another connection") && of_file("copy.db", "SELECT a FROM t WHERE id = 3") == 7);
    /* the file is removed */
    CHECK(!unlink("copy.db") && !unlink("copy.db-wal") && !unlink("copy.db-shm"));
    CHECK(until(r, GZ_IDLE).copies == 6 && of_file("copy.db", "SELECT count(*) FROM t") == 5);
    /* a locked file */
    sqlite3 *other;
    CHECK(!sqlite3_open("copy.db", &other));
    run(other, "BEGIN IMMEDIATE");
    commit("UPDATE t SET a = 11");
    it = until(r, GZ_LAGS);
    CHECK(strstr(it.error, "locked") && it.lag);
    run(other, "ROLLBACK"), sqlite3_close(other);
    CHECK(until(r, GZ_IDLE).copies == 6 && of_file("copy.db", "SELECT sum(a) FROM t") == 55);
}

/* What sessions see nothing of. */
static void check_unseen(void) {
    /* a table is dropped and made again, with the same text: its rows are gone */
    commit("CREATE TABLE again (id INTEGER PRIMARY KEY); INSERT INTO again VALUES (1), (2)");
    until(r, GZ_IDLE);
    run(db, "VACUUM");
    commit("DROP TABLE again; CREATE TABLE again (id INTEGER PRIMARY KEY); INSERT INTO again VALUES (3)");
    CHECK(strstr(reason(), "schema"));
    until(r, GZ_IDLE);
    CHECK(of_file("copy.db", "SELECT sum(id) FROM again") == 3);
    run(db, "DROP TABLE again; CREATE TABLE again (id INTEGER PRIMARY KEY)");
    CHECK(gz_begin(s) == GZ_OK && gz_commit(s) == GZ_OK && strstr(reason(), "schema"));
    until(r, GZ_IDLE);
    CHECK(of_file("copy.db", "SELECT count(*) FROM again") == 0);
    /* the transaction of gz_begin is another one at gz_commit */
    CHECK(gz_begin(s) == GZ_OK);
    run(db, "INSERT INTO again VALUES (4); COMMIT; BEGIN; INSERT INTO again VALUES (5)");
    CHECK(gz_commit(s) == GZ_OK && strstr(reason(), "ended before"));
    until(r, GZ_IDLE);
    CHECK(of_file("copy.db", "SELECT sum(id) FROM again") == 9);
}

/* Shapes, what doesn't travel, and what is too long. */
static void check_shapes(void) {
    struct gz_left left;
    struct gz_source_status status;
    commit("CREATE TABLE grown (id INTEGER PRIMARY KEY); INSERT INTO grown VALUES (1), (2), (3);"
           " CREATE TRIGGER g AFTER UPDATE ON grown BEGIN DELETE FROM t; END");
    until(r, GZ_IDLE);
    run(db, "ALTER TABLE grown ADD COLUMN d DEFAULT 0.25");
    commit("ALTER TABLE grown ADD COLUMN e DEFAULT 'x'");
    CHECK(number(db, "SELECT count(*) FROM t") == 5);
    struct gz_replica_status it = until(r, GZ_IDLE);
    commit("DROP TRIGGER g");
    it = until(r, GZ_IDLE);
    uint64_t copies = it.copies;
    commit("UPDATE grown SET d = 1 WHERE id = 1; DELETE FROM grown WHERE id = 2");
    CHECK(until(r, GZ_IDLE).copies == copies && of_file("copy.db", "SELECT count(*) FROM grown WHERE e = 'x'") == 2);
    commit("CREATE TABLE odd (k PRIMARY KEY, v); CREATE TABLE keyless (a); CREATE TABLE n (k TEXT COLLATE NOCASE PRIMARY KEY)");
    until(r, GZ_IDLE), gz_source_status(s, &status);
    uint64_t count = status.left;
    commit("INSERT INTO odd VALUES (1.5, 1), (2, 2); INSERT INTO n VALUES ('a')");
    it = until(r, GZ_IDLE), gz_source_status(s, &status);
    CHECK(status.left == count + 1 && !gz_source_left(s, 0, &left) && !strcmp(left.table, "odd") && !strcmp(left.key, "1.5"));
    CHECK(of_file("copy.db", "SELECT count(*) FROM odd") == 1 && gz_source_left(s, 64, &left) == GZ_IDLE);
    commit("UPDATE n SET k = 'A'");
    CHECK(strstr(reason(), "for equal") && until(r, GZ_IDLE).copies == it.copies + 1);
    commit("INSERT INTO t VALUES (20, zeroblob(17000000), 1)");
    CHECK(strstr(reason(), "16,777,216") && until(r, GZ_IDLE).copies == it.copies + 2);
    CHECK(of_file("copy.db", "SELECT length(a) FROM t WHERE id = 20") == 17000000);
    commit("UPDATE t SET a = zeroblob(16000000) WHERE id = 20");
    CHECK(until(r, GZ_IDLE).copies >= it.copies + 2);
    commit("DELETE FROM t WHERE id = 20");
    until(r, GZ_IDLE);
}

/* A source ends and begins; brokers that follow each other cost no copy. */
static void check_brokers(void) {
    struct gz_options options = {.max_bytes = 20000, .max_entries = 50};
    struct gz_source_status status;
    gz_source_close(s);
    until(r, GZ_AWAY);
    CHECK(gz_source_open(&s, db, &options) == GZ_OK);
    uint64_t copies = until(r, GZ_IDLE).copies;
    for (int i = 0; i < 400; i++) {
        char sql[100];
        snprintf(sql, sizeof sql, "INSERT OR REPLACE INTO t VALUES (%d, randomblob(%d), %d.5)", 100 + i % 30, i * 7 % 1000, i);
        commit(sql);
        if (i % 5 == 0) CHECK(gz_replica_step(r, 20) >= 0);
        gz_source_status(s, &status);
        CHECK(status.held <= 2 && status.bytes < 60000);
    }
    CHECK(status.brokers > 8 && until(r, GZ_IDLE).copies == copies);
    CHECK(of_file("copy.db", "SELECT sum(b) FROM t") == number(db, "SELECT sum(b) FROM t"));
}

/* What isn't a request, and who isn't a replica's file. */
static void check_strangers(void) {
    struct sockaddr_un at = {.sun_family = AF_UNIX, .sun_path = "live.db-gz"};
    for (int i = 0; i < 50; i++) {
        char noise[100];
        int file = socket(AF_UNIX, SOCK_STREAM, 0);
        CHECK(file >= 0 && !connect(file, (struct sockaddr *)&at, sizeof at));
        for (size_t n = 0; n < sizeof noise; n++) noise[n] = (char)rand();
        if (i % 2) memcpy(noise, "gzQ1", 4);
        CHECK(send(file, noise, (size_t)(i * 2), MSG_NOSIGNAL) >= 0);
        close(file);
    }
    commit("UPDATE t SET a = 12");
    until(r, GZ_IDLE);
    gz_replica *other;
    foreign("mine.db", "CREATE TABLE mine (a); INSERT INTO mine VALUES (1)");
    CHECK(gz_replica_open(&other, "mine.db", "live.db", NULL) == GZ_OK && gz_replica_step(other, 50) == GZ_NOT_REPLICA);
    gz_replica_close(other);
    CHECK(of_file("mine.db", "SELECT a FROM mine") == 1);
    struct gz_options options = {.replace = 1};
    CHECK(gz_replica_open(&other, "mine.db", "live.db", &options) == GZ_OK);
    until(other, GZ_IDLE), gz_replica_close(other);
    CHECK(gz_replica_open(&other, "mine.db", "live.db", NULL) == GZ_OK);
    CHECK(until(other, GZ_IDLE).copies == 0);
    gz_replica_close(other);
}

static int set_up(void *context, sqlite3 *on) {
    ++*(int *)context;
    return on ? SQLITE_OK : SQLITE_ERROR;
}

/* Other names of the mark and the socket, and a call for each connection to a replica's file. */
static void check_options(void) {
    int calls = 0;
    struct gz_options options = {.prefix = "x \"y", .socket = "a socket", .set_wal = 1, .setup = set_up, .context = &calls};
    gz_source *source;
    gz_replica *replica;
    sqlite3 *other;
    CHECK(!sqlite3_open("named.db", &other) && !access("named.db", F_OK));
    run(other, "CREATE TABLE t (a INTEGER PRIMARY KEY)");
    CHECK(gz_source_open(&source, other, &options) == GZ_OK && !access("a socket", F_OK));
    CHECK(gz_replica_open(&replica, "named copy.db", "named.db", &options) == GZ_OK && gz_begin(source) == GZ_OK);
    run(other, "INSERT INTO t VALUES (1)");
    CHECK(gz_commit(source) == GZ_OK && until(replica, GZ_IDLE).copies == 1 && calls == 1);
    CHECK(of_file("named copy.db", "SELECT front FROM \"x \"\"ymark\"") == 1);
    /* the socket of a process that has ended is replaced */
    gz_source_close(source);
    CHECK(access("a socket", F_OK));
    int file = socket(AF_UNIX, SOCK_STREAM, 0);
    struct sockaddr_un at = {.sun_family = AF_UNIX, .sun_path = "a socket"};
    CHECK(file >= 0 && !bind(file, (struct sockaddr *)&at, sizeof at) && !close(file) && !access("a socket", F_OK));
    CHECK(gz_source_open(&source, other, &options) == GZ_OK && until(replica, GZ_IDLE).copies == 2);
    gz_source_close(source), gz_replica_close(replica), sqlite3_close(other);
}

int main(int count, char **words) {
    if (count != 2 || chdir(words[1])) return 2;
    check_open(), check_transactions(), check_replica(), check_shapes(), check_unseen(), check_brokers(), check_strangers(), check_options();
    gz_source_close(s);
    until(r, GZ_AWAY), gz_replica_close(r);
    /* a source's file is no replica's, and a replica's no source's */
    CHECK(gz_replica_open(&r, "live.db", "other.db", NULL) == GZ_OK && gz_replica_step(r, 10) == GZ_OTHER_ROLE);
    gz_replica_close(r), sqlite3_close(db);
    CHECK(!sqlite3_open("copy.db", &db) && gz_source_open(&s, db, NULL) == GZ_OTHER_ROLE && !s);
    sqlite3_close(db);
    return puts("the calls do what the header says"), 0;
}
