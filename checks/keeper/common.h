/* What the programs of checks/keeper that make calls share: a source and a replica in one process. */
#ifndef COMMON_H
#define COMMON_H

#include <gubzelk.h>
#include <stdio.h>
#include <stdlib.h>
#include <string.h>
#include <unistd.h>

#define CHECK(x) do { if (!(x)) { printf("line %d: %s\n", __LINE__, #x); exit(1); } } while (0)

static sqlite3 *db;
static gz_source *s;
static gz_replica *r;

static void run(sqlite3 *on, const char *sql) {
    if (sqlite3_exec(on, sql, NULL, NULL, NULL)) printf("%s: %s\n", sql, sqlite3_errmsg(on)), exit(1);
}

static long long number(sqlite3 *on, const char *sql) {
    sqlite3_stmt *it;
    CHECK(!sqlite3_prepare_v2(on, sql, -1, &it, NULL) && sqlite3_step(it) == SQLITE_ROW);
    long long found = sqlite3_column_int64(it, 0);
    return sqlite3_finalize(it), found;
}

static void commit(const char *sql) {
    CHECK(gz_begin(s) == GZ_OK);
    run(db, sql);
    CHECK(gz_commit(s) == GZ_OK);
}

static const char *reason(void) {
    static struct gz_source_status it;
    gz_source_status(s, &it);
    return it.reason;
}

/* Steps until the code comes. */
static struct gz_replica_status until(gz_replica *of, int wanted) {
    struct gz_replica_status it;
    int code = GZ_OK;
    for (int i = 0; i < 1000 && (code = gz_replica_step(of, 50)) != wanted; i++) CHECK(code >= 0 || code == wanted);
    gz_replica_status(of, &it);
    if (code != wanted) printf("code %d, wanted %d: %s\n", code, wanted, it.error);
    CHECK(code == wanted);
    return it;
}

static long long of_file(const char *path, const char *sql) {
    sqlite3 *file;
    CHECK(!sqlite3_open_v2(path, &file, SQLITE_OPEN_READONLY, NULL));
    long long found = number(file, sql);
    return sqlite3_close(file), found;
}

#endif
