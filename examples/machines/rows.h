/* All rows of a database as changesets of INSERTs, each short enough for the broker. An origin begins its stream with
 * them, and a replica its broker. */
#ifndef MACHINES_ROWS_H
#define MACHINES_ROWS_H
#include "machines.h"

/* A changeset ends at the row with which its values have this many bytes. Below 16 MiB there is room for one more row.
 * */
enum { ROWS_BYTES = 1 << 20 };

typedef void take_rows(void *with, const unsigned char *changeset, int len);

/* Copies rows of a table until they have ROWS_BYTES, or until no more come. Returns whether more may come. */
static inline bool copy_rows(sqlite3 *db, sqlite3_stmt *rows, sqlite3 *copy, sqlite3_stmt *insert) {
    int64_t bytes = 0;
    while (bytes < ROWS_BYTES) {
        if (!has_row(db, rows)) return false;
        for (int i = 0; i < sqlite3_column_count(rows); i++) {
            sqlite3_value *value = sqlite3_column_value(rows, i);
            check(copy, sqlite3_bind_value(insert, i + 1, value));
            bytes += 9 + (sqlite3_column_type(rows, i) == SQLITE_INTEGER ? 0 : sqlite3_column_bytes(rows, i));
        }
        run_prepared(copy, insert);
    }
    return true;
}

static inline void each_row(sqlite3 *db, sqlite3 *copy, const struct broker_table *table, take_rows *take, void *with) {
    const char *name = (const char *)table->name;
    struct tables one = {(struct broker_table *)table, 1};
    sqlite3_stmt *rows = prepare(db, "SELECT * FROM main.\"%w\"", name);
    sqlite3_str *sql = sqlite3_str_new(copy);
    sqlite3_str_appendf(sql, "INSERT INTO \"%w\" VALUES (?", name);
    for (size_t i = 1; i < table->columns; i++) sqlite3_str_appendall(sql, ", ?");
    sqlite3_str_appendall(sql, ")");
    char *text = sqlite3_str_finish(sql);
    sqlite3_stmt *insert = prepare(copy, "%s", text);
    sqlite3_free(text);
    for (bool is_more = true; is_more;) {
        int len;
        sqlite3_session *session = begin_session(copy, &one);
        is_more = copy_rows(db, rows, copy, insert);
        unsigned char *changeset = end_session(copy, session, &len);
        if (len) take(with, changeset, len);
        sqlite3_free(changeset);
        run(copy, "DELETE FROM \"%w\"", name);
    }
    check(db, sqlite3_finalize(rows)), check(copy, sqlite3_finalize(insert));
}

/* Gives `take` the rows of all tables. The rows pass through tables in memory, which a session watches. */
static inline void each_rows(sqlite3 *db, const struct tables *tables, take_rows *take, void *with) {
    for (size_t i = 0; i < tables->count; i++) {
        sqlite3 *copy = open_database(":memory:", "OFF");
        sqlite3_stmt *schema = prepare(db, "SELECT sql FROM main.sqlite_schema WHERE type = 'table' AND name = %Q",
                                       tables->list[i].name);
        if (has_row(db, schema)) run(copy, "%s", sqlite3_column_text(schema, 0));
        check(db, sqlite3_finalize(schema));
        each_row(db, copy, &tables->list[i], take, with);
        check(copy, sqlite3_close(copy));
    }
}
#endif
