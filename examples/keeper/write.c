/* ./write DATABASE
 * Runs the SQL on standard input on a database, a line a transaction, and hands each transaction to the replicas of the
 * database (replica.c). It ends with its input.
 *     gcc write.c -I keeper $(sh keeper/build.sh --libs) -o write        docs/REPLICATE.md */
#include <gubzelk.h>
#include <stdio.h>
#include <stdlib.h>

static int fail(sqlite3 *db, const char *what, int code) {
    fprintf(stderr, "write: %s: %s (%s)\n", what, gz_message(code), sqlite3_errmsg(db));
    return 1;
}

/* Runs a line in a transaction. What SQL refuses is rolled back, and the next line is run. */
static int run_line(gz_source *source, sqlite3 *db, const char *line) {
    int code = gz_begin(source);
    if (code) return fail(db, "gz_begin", code);
    if (sqlite3_exec(db, line, NULL, NULL, NULL)) {
        fprintf(stderr, "write: %s: %s", sqlite3_errmsg(db), line);
        code = gz_rollback(source);
        return code && code != GZ_NO_TRANSACTION ? fail(db, "gz_rollback", code) : 0;
    }
    code = gz_commit(source);
    return code ? gz_rollback(source), fail(db, "gz_commit", code) : 0;
}

int main(int count, char **words) {
    struct gz_options options = {.set_wal = 1};
    char *line = NULL;
    size_t room = 0;
    sqlite3 *db;
    gz_source *source;
    if (count != 2) return fputs("usage: ./write DATABASE <SQL\n", stderr), 2;
    if (sqlite3_open(words[1], &db)) return fail(db, words[1], GZ_SQLITE);
    sqlite3_busy_timeout(db, 10000);
    int code = gz_source_open(&source, db, &options), bad = 0;
    if (code) return fail(db, words[1], code);
    while (!bad && getline(&line, &room, stdin) > 0) bad = run_line(source, db, line);
    struct gz_source_status status;
    struct gz_left left;
    gz_source_status(source, &status);
    printf("brokers begun: %d, the last one because %s\n", (int)status.brokers, status.reason);
    for (size_t i = 0; !gz_source_left(source, i, &left); i++)
        printf("left out: table %s%s%s: %s\n", left.table, *left.key ? ", key " : "", left.key, left.why);
    gz_source_close(source), sqlite3_close(db), free(line);
    return bad;
}
