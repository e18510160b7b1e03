/* ./paths WHAT FOLDER [SMALL]: what a source and a replica do where the system, the broker or others are against them.
 *     foreign      others write right after a commit, and the source's own connection makes a checkpoint, a VACUUM and the like
 *     read-only    the replica's file is read-only for a while. Not as root, who may write it
 *     limit        no file may grow beyond a size for a while (RLIMIT_FSIZE)
 *     full         the replica's file lies in SMALL, a file system that gets full; and so does a source's
 *     refused      the broker refuses an entry after COMMIT, also where no new broker is to be had (--wrap=broker_place) */
#define SQLITE_ENABLE_SESSION
#include "broker.h"
#include "common.h"
#include <signal.h>
#include <sys/resource.h>
#include <sys/stat.h>

static void begin(const char *copy) {
    struct gz_options options = {.set_wal = 1};
    CHECK(!sqlite3_open("live.db", &db));
    run(db, "CREATE TABLE t (id INTEGER PRIMARY KEY, a, b REAL); INSERT INTO t VALUES (1, 0, 0.5)");
    CHECK(gz_source_open(&s, db, &options) == GZ_OK && gz_replica_open(&r, copy, "live.db", NULL) == GZ_OK);
    CHECK(until(r, GZ_IDLE).copies == 1);
}

static void end(void) { gz_replica_close(r), gz_source_close(s), sqlite3_close(db); }

/* The replica has everything, with `copies` copies so far. */
static void has_all(const char *copy, uint64_t copies) {
    static const char *const SUMS[] = {"SELECT count(*) FROM t", "SELECT total(a) FROM t", "SELECT total(b * 8) FROM t"};
    struct gz_replica_status it = until(r, GZ_IDLE);
    if (it.copies != copies) printf("%d copies, the last because %s\n", (int)it.copies, it.reason);
    CHECK(it.copies == copies && it.lag == 0);
    for (int i = 0; i < 3; i++) CHECK(of_file(copy, SUMS[i]) == number(db, SUMS[i]));
}

/* ---- others write */

static void own_work(const char *sql, int code, uint64_t copies) {
    run(db, sql);
    CHECK(gz_replica_step(r, 0) == code && (code != GZ_LAGS || gz_replica_step(r, 0) == GZ_LAGS));
    CHECK(gz_begin(s) == GZ_OK && gz_replica_step(r, 0) == GZ_IDLE && gz_rollback(s) == GZ_OK);
    has_all("copy.db", copies);
}

static void check_foreign(void) {
    struct gz_replica_status it;
    sqlite3 *other;
    begin("copy.db");
    CHECK(!sqlite3_open("live.db", &other) && !sqlite3_busy_timeout(other, 5000));
    run(other, "PRAGMA synchronous = OFF");
    for (int i = 0; i < 300; i++) {
        commit("UPDATE t SET a = a + 1");
        /* the replica may know of the commit or not, and nobody has looked at the file since */
        if (i % 3 == 0) CHECK(gz_replica_step(r, 0) >= 0);
        run(other, "UPDATE t SET b = b + 0.125");
        for (int steps = 0; steps < 3; steps++) CHECK(gz_replica_step(r, 0) != GZ_IDLE);
        gz_replica_status(r, &it);
        CHECK(it.lag != 0 && (i % 3 || it.foreign));
        CHECK(gz_begin(s) == GZ_OK && gz_commit(s) == GZ_OK);
        uint64_t copies = until(r, GZ_IDLE).copies;
        has_all("copy.db", copies);
    }
    sqlite3_close(other);
    uint64_t copies = until(r, GZ_IDLE).copies;
    own_work("PRAGMA wal_checkpoint(TRUNCATE)", GZ_IDLE, copies);
    own_work("CREATE TEMP TABLE x (a); INSERT INTO x VALUES (1)", GZ_IDLE, copies);
    own_work("BEGIN; UPDATE t SET a = 0; ROLLBACK", GZ_IDLE, copies);
    own_work("VACUUM", GZ_LAGS, copies), own_work("ANALYZE", GZ_LAGS, copies);
    commit("UPDATE t SET a = a + 1");
    has_all("copy.db", copies), end();
}

/* ---- the replica's file can't be written */

/* SQLite makes files of the mode that the database has. */
static void set_mode(mode_t mode) {
    CHECK(!chmod("copy.db", mode));
    chmod("copy.db-wal", mode), chmod("copy.db-shm", mode);
}

static void check_read_only(void) {
    struct gz_replica_status it;
    CHECK(geteuid());
    begin("copy.db"), gz_replica_close(r);
    set_mode(0444);
    CHECK(gz_replica_open(&r, "copy.db", "live.db", NULL) == GZ_OK);
    has_all("copy.db", 0);
    for (int i = 0; i < 3; i++) {
        commit("UPDATE t SET a = a + 1");
        it = until(r, GZ_LAGS);
        CHECK(strstr(it.error, "readonly") && it.lag >= 1 && it.copies == 0);
    }
    /* the same handle goes on */
    set_mode(0644);
    has_all("copy.db", 0);
    gz_source_close(s), gz_replica_close(r);
    set_mode(0444);
    CHECK(gz_replica_open(&r, "copy.db", "live.db", NULL) == GZ_OK);
    CHECK(gz_source_open(&s, db, NULL) == GZ_OK);
    CHECK(strstr(until(r, GZ_LAGS).error, "readonly"));
    set_mode(0644);
    has_all("copy.db", until(r, GZ_IDLE).copies), end();
}

/* ---- no room */

static void set_limit(rlim_t bytes) {
    struct rlimit limit;
    CHECK(!getrlimit(RLIMIT_FSIZE, &limit));
    limit.rlim_cur = bytes < limit.rlim_max ? bytes : limit.rlim_max;
    CHECK(!setrlimit(RLIMIT_FSIZE, &limit) && signal(SIGXFSZ, SIG_IGN) != SIG_ERR);
}

/* A transaction that has no room is refused and rolled back, or stays open and is rolled back; then it is made. */
static void refused_commit(void) {
    long long rows = number(db, "SELECT count(*) FROM t");
    CHECK(gz_begin(s) == GZ_OK);
    int rc = sqlite3_exec(db, "INSERT INTO t (a) VALUES (zeroblob(3000000))", NULL, NULL, NULL);
    int code = rc ? gz_rollback(s) : gz_commit(s);
    CHECK(rc ? code == GZ_OK || code == GZ_NO_TRANSACTION : code == GZ_ROLLED_BACK || code == GZ_SQLITE);
    if (code == GZ_SQLITE) CHECK(gz_rollback(s) == GZ_OK);
    CHECK(sqlite3_get_autocommit(db) && number(db, "SELECT count(*) FROM t") == rows);
}

static void check_limit(void) {
    begin("copy.db");
    run(db, "PRAGMA wal_autocheckpoint = 0");
    set_limit(1000000), refused_commit(), set_limit(RLIM_INFINITY);
    has_all("copy.db", 1);
    commit("INSERT INTO t (a) VALUES (zeroblob(3000000))");
    set_limit(1000000);
    struct gz_replica_status it = until(r, GZ_LAGS);
    CHECK(*it.error && it.lag && until(r, GZ_LAGS).lag);
    set_limit(RLIM_INFINITY);
    /* an error of the file system may cost a copy */
    has_all("copy.db", until(r, GZ_IDLE).copies), end();
}

static void fill(const char *path) {
    static char bytes[4096];
    FILE *file = fopen(path, "w");
    while (file && fwrite(bytes, sizeof bytes, 1, file) == 1 && !fflush(file)) {}
    CHECK(file);
    fclose(file);
}

static void check_full(const char *small) {
    char copy[300], rest[300], live[300];
    struct gz_options options = {.set_wal = 1};
    snprintf(copy, sizeof copy, "%s/copy.db", small), snprintf(rest, sizeof rest, "%s/rest", small);
    snprintf(live, sizeof live, "%s/live.db", small);
    begin(copy), fill(rest);
    for (int i = 0; i < 3; i++) {
        commit("INSERT INTO t (a) VALUES (zeroblob(300000))");
        struct gz_replica_status it = until(r, GZ_LAGS);
        CHECK(strstr(it.error, "full") && it.lag >= 1 && it.copies == 1);
    }
    CHECK(!unlink(rest));
    has_all(copy, 1);
    /* a copy that has no room */
    gz_source_close(s), fill(rest);
    CHECK(gz_source_open(&s, db, NULL) == GZ_OK);
    run(db, "PRAGMA synchronous = OFF"), commit("INSERT INTO t (a) VALUES (zeroblob(800000))");
    CHECK(strstr(until(r, GZ_LAGS).error, "full") && until(r, GZ_LAGS).lag == UINT64_MAX && !unlink(rest));
    until(r, GZ_IDLE);
    has_all(copy, until(r, GZ_IDLE).copies), end(), unlink(copy);
    /* a source */
    CHECK(!sqlite3_open(live, &db));
    run(db, "CREATE TABLE t (id INTEGER PRIMARY KEY, a, b REAL)");
    CHECK(gz_source_open(&s, db, &options) == GZ_OK && gz_replica_open(&r, "other.db", live, NULL) == GZ_OK);
    until(r, GZ_IDLE), fill(rest), refused_commit();
    CHECK(until(r, GZ_IDLE).copies == 1 && !unlink(rest));
    commit("INSERT INTO t (a) VALUES (zeroblob(100000))");
    has_all("other.db", 1), end();
}

/* ---- the broker refuses */

/* How many of the next placements are refused, and the code; and how many new brokers. */
static int refuses, refusal, opens_refused;

int __real_broker_place(broker *b, uint64_t publisher, const unsigned char *bytes, size_t len, uint64_t *entry);
int __wrap_broker_place(broker *b, uint64_t publisher, const unsigned char *bytes, size_t len, uint64_t *entry) {
    return refuses && refuses-- ? refusal : __real_broker_place(b, publisher, bytes, len, entry);
}

int __real_broker_open(broker **out, const struct broker_limits *limits, const struct broker_table *tables, size_t count,
                       struct broker_numbers *why);
int __wrap_broker_open(broker **out, const struct broker_limits *limits, const struct broker_table *tables, size_t count,
                       struct broker_numbers *why) {
    return opens_refused && opens_refused-- ? BROKER_NO_MEMORY : __real_broker_open(out, limits, tables, count, why);
}

static void check_refused(void) {
    static const int CODES[] = {BROKER_NO_MEMORY, BROKER_JOURNAL_FULL, BROKER_SEQUENCE_FULL, BROKER_FAULT, BROKER_SHUT};
    uint64_t copies = 1;
    begin("copy.db");
    for (size_t i = 0; i < sizeof CODES / sizeof *CODES; i++) {
        commit("UPDATE t SET a = a + 1");
        refuses = 1, refusal = CODES[i], commit("UPDATE t SET b = b + 0.125");
        CHECK(strstr(reason(), "the broker refused an entry"));
        has_all("copy.db", ++copies);
        commit("INSERT INTO t (a) VALUES (1)");
        has_all("copy.db", copies);
    }
    /* no new broker either: no replica says that it has everything, until the next commit */
    refuses = 1, opens_refused = 1, commit("UPDATE t SET b = b + 0.125");
    CHECK(strstr(until(r, GZ_LAGS).error, "no memory for the last transaction") && gz_replica_step(r, 0) == GZ_LAGS);
    CHECK(gz_begin(s) == GZ_OK && gz_commit(s) == GZ_OK);
    has_all("copy.db", ++copies);
    /* a broker that follows another one refuses before COMMIT */
    gz_source_close(s);
    struct gz_options options = {.max_entries = 2};
    CHECK(gz_source_open(&s, db, &options) == GZ_OK);
    for (int i = 0; i < 2; i++) commit("UPDATE t SET a = a + 1");
    has_all("copy.db", ++copies), refuses = 1, refusal = BROKER_FAULT, commit("UPDATE t SET a = a + 1");
    CHECK(strstr(reason(), "the broker refuses a changeset"));
    has_all("copy.db", ++copies);
    for (int i = 0; i < 2; i++) commit("UPDATE t SET a = a + 1");
    refuses = 1, refusal = BROKER_NO_MEMORY;
    CHECK(gz_begin(s) == GZ_OK && gz_commit(s) == GZ_OK);
    CHECK(gz_begin(s) == GZ_OK);
    run(db, "UPDATE t SET a = a + 1");
    CHECK(gz_commit(s) == GZ_NO_MEMORY && !sqlite3_get_autocommit(db) && gz_commit(s) == GZ_OK);
    has_all("copy.db", copies), end();
}

int main(int count, char **words) {
    if (count < 3 || chdir(words[2])) return 2;
    if (!strcmp(words[1], "foreign")) check_foreign();
    else if (!strcmp(words[1], "read-only")) check_read_only();
    else if (!strcmp(words[1], "limit")) check_limit();
    else if (!strcmp(words[1], "full") && count == 4) check_full(words[3]);
    else if (!strcmp(words[1], "refused")) check_refused();
    else return 2;
    return puts("it is as the header says"), 0;
}
