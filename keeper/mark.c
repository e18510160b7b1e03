/* The mark: one row in a database that says where it stands. */
#include "mark.h"
#include <string.h>

#define SHAPE "(one INTEGER PRIMARY KEY, name BLOB, front INTEGER, turn INTEGER, role INTEGER, prepared INTEGER," \
    " id BLOB, filled INTEGER)"

bool gz_same_name(const unsigned char a[16], const unsigned char b[16]) { return !memcmp(a, b, 16); }

bool gz_same_place(const struct gz_place *a, const struct gz_place *b) {
    return a->front == b->front && gz_same_name(a->name, b->name);
}

void gz_take_name(sqlite3_stmt *query, int column, unsigned char name[16]) {
    const void *blob = sqlite3_column_blob(query, column);
    memset(name, 0, 16);
    if (blob && sqlite3_column_bytes(query, column) == 16) memcpy(name, blob, 16);
}

/* Sets `*found` by the table that the schema has under this name. */
static int find_table(sqlite3 *db, const char *table, enum gz_found *found) {
    sqlite3_stmt *query;
    char *wanted = sqlite3_mprintf("CREATE TABLE \"%w\"" SHAPE, table);
    int rc = gz_prepare(db, &query, sqlite3_mprintf("SELECT sql FROM main.sqlite_schema WHERE name = %Q COLLATE NOCASE",
        table));
    *found = GZ_MARK_NONE;
    if (!rc && sqlite3_step(query) == SQLITE_ROW) {
        const char *sql = (const char *)sqlite3_column_text(query, 0);
        *found = wanted && sql && !strcmp(sql, wanted) ? GZ_MARK_FOUND : GZ_MARK_STRANGE;
    }
    int end = sqlite3_finalize(query);
    sqlite3_free(wanted);
    return rc ? rc : end ? end : wanted ? SQLITE_OK : SQLITE_NOMEM;
}

int gz_read_mark(sqlite3 *db, const char *table, struct gz_mark *it, enum gz_found *found) {
    sqlite3_stmt *query;
    memset(it, 0, sizeof *it);
    int rc = find_table(db, table, found);
    if (rc || *found != GZ_MARK_FOUND) return rc;
    rc = gz_prepare(db, &query, sqlite3_mprintf("SELECT name, front, turn, role, prepared, id, filled FROM main.\"%w\""
        " WHERE one = 1", table));
    if (rc) return rc;
    *found = GZ_MARK_NONE;
    if (sqlite3_step(query) == SQLITE_ROW) {
        *found = GZ_MARK_FOUND;
        gz_take_name(query, 0, it->place.name), gz_take_name(query, 5, it->id);
        it->place.front = (uint64_t)sqlite3_column_int64(query, 1), it->turn = sqlite3_column_int64(query, 2);
        it->role = sqlite3_column_int(query, 3), it->prepared = sqlite3_column_int(query, 4);
        it->filled = sqlite3_column_int64(query, 6);
    }
    return sqlite3_finalize(query);
}

int gz_write_mark(sqlite3 *db, const char *table, const struct gz_mark *it) {
    sqlite3_stmt *query;
    enum gz_found found;
    int rc = find_table(db, table, &found);
    if (!rc && found == GZ_MARK_NONE) rc = gz_run(db, sqlite3_mprintf("CREATE TABLE main.\"%w\"" SHAPE, table));
    if (!rc) rc = gz_prepare(db, &query, sqlite3_mprintf("REPLACE INTO main.\"%w\" VALUES (1, ?1, %lld, %lld, %d, %d, ?2,"
        " %lld)", table, (long long)it->place.front, (long long)it->turn, it->role, it->prepared, (long long)it->filled));
    if (rc) return rc;
    rc = sqlite3_bind_blob(query, 1, it->place.name, 16, SQLITE_STATIC);
    if (!rc) rc = sqlite3_bind_blob(query, 2, it->id, 16, SQLITE_STATIC);
    if (!rc) sqlite3_step(query);
    int end = sqlite3_finalize(query);
    return rc ? rc : end;
}
