/* Commits rows and a mark by SQLite's library, as a replica's file has them, and prints how long it took in milliseconds.
 *
 *   sqlite FILE JOURNAL SYNCHRONOUS COMMITS CHANGES TEXT
 *
 * Each of COMMITS transactions upserts CHANGES rows of their own, with TEXT bytes of text each, and sets the mark. */
#include "../apply/measure.h"

#include <sqlite3.h>
#include <stdint.h>
#include <stdio.h>
#include <stdlib.h>
#include <string.h>
#include <time.h>

enum { MOST_TEXT = 4096, KEY_BYTES = 9 };

static sqlite3 *db;

static void ok(int code) {
    if (code == SQLITE_OK || code == SQLITE_ROW || code == SQLITE_DONE) return;
    fprintf(stderr, "sqlite: %s\n", sqlite3_errmsg(db));
    exit(1);
}

static double now(void) {
    struct timespec time;
    must(clock_gettime(CLOCK_MONOTONIC, &time) == 0, "the clock");
    return (double)time.tv_sec * 1000 + (double)time.tv_nsec / 1000000;
}

static sqlite3_stmt *prepared(const char *text) {
    sqlite3_stmt *statement;
    ok(sqlite3_prepare_v2(db, text, -1, &statement, 0));
    return statement;
}

static void run(sqlite3_stmt *statement) {
    ok(sqlite3_step(statement));
    ok(sqlite3_reset(statement));
}

/* the canonical bytes of an integer */
static void put_key(unsigned char *at, uint64_t key) {
    *at++ = 1;
    for (int i = 0; i < 8; i++) *at++ = (unsigned char)(key >> (56 - 8 * i));
}

int main(int count, char **words) {
    must(count == 7, "FILE, JOURNAL, SYNCHRONOUS, COMMITS, CHANGES and TEXT");
    uint64_t commits = strtoull(words[4], 0, 10), changes = strtoull(words[5], 0, 10), text = strtoull(words[6], 0, 10);
    must(text <= MOST_TEXT, "a shorter text");
    ok(sqlite3_open(words[1], &db));
    char modes[200];
    snprintf(modes, sizeof modes, "PRAGMA journal_mode = %s; PRAGMA synchronous = %s;", words[2], words[3]);
    ok(sqlite3_exec(db, modes, 0, 0, 0));
    ok(sqlite3_exec(db,
        "BEGIN;"
        "CREATE TABLE rb_row(tab INTEGER NOT NULL, rowkey BLOB NOT NULL, body BLOB NOT NULL, PRIMARY KEY (tab, rowkey));"
        "CREATE TABLE rb_mark(id INTEGER PRIMARY KEY, place INTEGER NOT NULL);"
        "INSERT INTO rb_mark VALUES (1, 0); COMMIT", 0, 0, 0));
    sqlite3_stmt *begin = prepared("BEGIN"), *commit = prepared("COMMIT");
    sqlite3_stmt *mark = prepared("UPDATE rb_mark SET place = ?1");
    sqlite3_stmt *put = prepared("INSERT INTO rb_row VALUES (0, ?1, ?2) ON CONFLICT DO UPDATE SET body = excluded.body");
    unsigned char body[KEY_BYTES + 3 + MOST_TEXT];
    memset(body, 'x', sizeof body);
    double start = now();
    for (uint64_t i = 0; i < commits; i++) {
        run(begin);
        for (uint64_t j = 0; j < changes; j++) {
            unsigned char key[KEY_BYTES];
            put_key(key, i * changes + j);
            memcpy(body, key, sizeof key);
            ok(sqlite3_bind_blob(put, 1, key, sizeof key, SQLITE_STATIC));
            ok(sqlite3_bind_blob(put, 2, body, (int)(KEY_BYTES + 2 + text), SQLITE_STATIC));
            run(put);
        }
        ok(sqlite3_bind_int64(mark, 1, (sqlite3_int64)i));
        run(mark);
        run(commit);
    }
    printf("%.1f\n", now() - start);
    ok(sqlite3_finalize(begin));
    ok(sqlite3_finalize(commit));
    ok(sqlite3_finalize(mark));
    ok(sqlite3_finalize(put));
    ok(sqlite3_close(db));
    return 0;
}
