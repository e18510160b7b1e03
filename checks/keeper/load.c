/* ./load DATABASE MAX_BYTES: a writer that checks/keeper.py conducts. It reads lines, and answers each with one:
 *     t SQL    a transaction        r SQL    one that is rolled back        o SQL    SQL outside of gz_begin and gz_commit
 *     s        the status: broker's name, front, entries, bytes, brokers held, brokers begun, replicas, left out, reason
 *     l        what is left out last: table, key, why */
#include <gubzelk.h>
#include <stdio.h>
#include <stdlib.h>
#include <string.h>

static void hex(const unsigned char name[16]) {
    for (int i = 0; i < 16; i++) printf("%02x", name[i]);
}

static void say_status(gz_source *s) {
    struct gz_source_status it;
    struct gz_known known;
    size_t replicas = 0;
    gz_source_status(s, &it);
    while (!gz_source_replica(s, replicas, &known)) replicas++;
    if (replicas < it.replicas) abort();
    hex(it.name);
    printf(" %llu %llu %llu %d %llu %zu %llu %s\n", (unsigned long long)it.front, (unsigned long long)it.entries,
        (unsigned long long)it.bytes, it.held, (unsigned long long)it.brokers, it.replicas, (unsigned long long)it.left, it.reason);
}

static void run(gz_source *s, sqlite3 *db, char kind, const char *sql) {
    int code = gz_begin(s);
    if (code) {
        printf("gz_begin %d %s %s\n", code, gz_message(code), sqlite3_errmsg(db));
        return;
    }
    if (sqlite3_exec(db, sql, NULL, NULL, NULL)) {
        printf("refused %s\n", sqlite3_errmsg(db));
        if (gz_rollback(s) == GZ_SQLITE) abort();
        return;
    }
    code = kind == 'r' ? gz_rollback(s) : gz_commit(s);
    if (code) printf("gz_commit %d %s %s\n", code, gz_message(code), sqlite3_errmsg(db)), gz_rollback(s);
    else printf("ok\n");
}

static void run_outside(sqlite3 *db, const char *sql) {
    puts(sqlite3_exec(db, sql, NULL, NULL, NULL) ? sqlite3_errmsg(db) : "ok");
    /* what is refused in the middle leaves its BEGIN open */
    if (!sqlite3_get_autocommit(db)) sqlite3_exec(db, "ROLLBACK", NULL, NULL, NULL);
}

int main(int count, char **words) {
    struct gz_options options = {.set_wal = 1};
    char *line = NULL;
    size_t room = 0;
    sqlite3 *db;
    gz_source *s;
    ssize_t len;
    if (count != 3 || sqlite3_open(words[1], &db)) return 2;
    options.max_bytes = strtoull(words[2], NULL, 10);
    sqlite3_busy_timeout(db, 20000);
    sqlite3_exec(db, "PRAGMA synchronous = NORMAL; PRAGMA foreign_keys = 1", NULL, NULL, NULL);
    int code = gz_source_open(&s, db, &options);
    if (code) return fprintf(stderr, "gz_source_open: %d %s %s\n", code, gz_message(code), sqlite3_errmsg(db)), 1;
    printf("open\n"), fflush(stdout);
    while ((len = getline(&line, &room, stdin)) > 1) {
        struct gz_left left;
        line[len - 1] = 0;
        if (*line == 's') say_status(s);
        else if (*line == 'l') gz_source_left(s, 0, &left) ? puts("none") : printf("%s %s %s\n", left.table, left.key, left.why);
        else if (*line == 'o') run_outside(db, line + 2);
        else run(s, db, *line, line + 2);
        fflush(stdout);
    }
    gz_source_close(s), free(line);
    return sqlite3_close(db) != SQLITE_OK;
}
