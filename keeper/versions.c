/* What the source finds of others' writes, and what it leaves out. */
#include "source.h"
#include <stdlib.h>
#include <string.h>

int gz_code(int sqlite) {
    if (sqlite == SQLITE_IOERR_NOMEM) return GZ_NO_MEMORY;
    switch (sqlite & 0xff) {
    case SQLITE_OK: return GZ_OK;
    case SQLITE_NOMEM: return GZ_NO_MEMORY;
    case SQLITE_BUSY: case SQLITE_LOCKED: return GZ_BUSY;
    default: return GZ_SQLITE;
    }
}

int gz_take_versions(struct gz_source *s) {
    int rc = gz_do_number(s, GZ_DATA_VERSION, &s->data_version);
    if (!rc) rc = sqlite3_file_control(s->db, "main", SQLITE_FCNTL_DATA_VERSION, &s->file_version);
    s->changes = sqlite3_total_changes64(s->db);
    return rc;
}

int gz_schema_changed(struct gz_source *s, struct gz_versions *now, bool *changed) {
    *now = (struct gz_versions){s->tables.version, s->tables.statistics}, *changed = false;
    int rc = gz_do_number(s, GZ_SCHEMA_VERSION, &now->version);
    return rc || now->version == s->tables.version ? rc : gz_tables_changed(s->db, &s->tables, now, changed);
}

int gz_has_own_mark(struct gz_source *s, bool *is_own) {
    sqlite3_stmt *it = s->statement[GZ_READ_MARK];
    *is_own = false;
    if (sqlite3_step(it) == SQLITE_ROW) {
        const void *name = sqlite3_column_blob(it, 0);
        *is_own = name && sqlite3_column_bytes(it, 0) == 16 && !memcmp(name, s->mark.place.name, 16) &&
            sqlite3_column_int64(it, 1) == (int64_t)s->mark.place.front && sqlite3_column_int64(it, 2) == s->mark.turn &&
            sqlite3_column_int(it, 3) == GZ_SOURCE_ROLE;
    }
    int rc = sqlite3_reset(it);
    /* a table that is gone or has another shape has no mark */
    return gz_code(rc) == GZ_SQLITE ? *is_own = false, SQLITE_OK : rc;
}

int gz_update_mark(struct gz_source *s, const struct gz_mark *mark) {
    sqlite3_stmt *it = s->statement[GZ_WRITE_MARK];
    int rc = sqlite3_bind_blob(it, 1, mark->place.name, 16, SQLITE_STATIC);
    if (rc) return rc;
    sqlite3_bind_int64(it, 2, (sqlite3_int64)mark->place.front), sqlite3_bind_int64(it, 3, mark->turn);
    sqlite3_bind_int64(it, 4, mark->filled), sqlite3_step(it);
    rc = sqlite3_reset(it), sqlite3_bind_null(it, 1);
    if (!rc && sqlite3_changes(s->db) == 1) return SQLITE_OK;
    /* the table or its row is gone; or the transaction was rolled back, and the mark would be a commit of its own */
    if (sqlite3_get_autocommit(s->db)) return rc ? rc : SQLITE_ABORT_ROLLBACK;
    return gz_write_mark(s->db, s->table, mark);
}

void gz_note_left(struct gz_source *s, const char *table, const char *key, const char *why) {
    for (int i = 0; !*key && i < GZ_MOST_LEFT; i++)
        if (s->left[i].table && s->left[i].key && s->left[i].why && !strcmp(s->left[i].table, table) &&
            !strcmp(s->left[i].key, key) && !strcmp(s->left[i].why, why)) return;
    size_t at = s->left_count++ % GZ_MOST_LEFT;
    free(s->left[at].table), free(s->left[at].key), free(s->left[at].why);
    s->left[at].table = strdup(table), s->left[at].key = strdup(key), s->left[at].why = strdup(why);
}

/* Finds whether a table has rows with NULL in the key. Sessions don't see them. */
static int find_null_key(struct gz_source *s, const char *table, int64_t *found) {
    char *where = NULL;
    sqlite3_stmt *query;
    int rc = gz_prepare(s->db, &query, sqlite3_mprintf("SELECT group_concat(printf('\"%%w\" IS NULL', name), ' OR ') FROM"
        " pragma_table_info(%Q, 'main') WHERE pk", table));
    if (rc) return rc;
    if (sqlite3_step(query) == SQLITE_ROW) where = sqlite3_mprintf("%s", sqlite3_column_text(query, 0));
    rc = sqlite3_finalize(query);
    if (!rc && !where) rc = SQLITE_NOMEM;
    if (!rc) rc = gz_number(s->db, found, sqlite3_mprintf("SELECT EXISTS (SELECT 1 FROM main.\"%w\" WHERE %s)", table, where));
    sqlite3_free(where);
    return rc;
}

int gz_note_tables(struct gz_source *s, const struct gz_tables *tables) {
    int rc = SQLITE_OK;
    for (int i = 0; !rc && i < tables->count; i++) {
        const struct gz_table *it = &tables->table[i];
        int64_t found = 0;
        if (it->why) gz_note_left(s, it->name, "", it->why);
        else rc = find_null_key(s, it->name, &found);
        if (found) gz_note_left(s, it->name, "", "rows with NULL in the key");
    }
    return rc;
}
