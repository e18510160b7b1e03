/* The statements that a replica's steps run on its file, prepared when they are first run. */
#include "replica.h"

static char *text_of(const gz_replica *r, enum gz_file_statement which) {
    switch (which) {
    case GZ_FILE_BEGIN: return sqlite3_mprintf("BEGIN IMMEDIATE");
    case GZ_FILE_COMMIT: return sqlite3_mprintf("COMMIT");
    case GZ_FILE_ROLLBACK: return sqlite3_mprintf("ROLLBACK");
    case GZ_FILE_DATA_VERSION: return sqlite3_mprintf("PRAGMA main.data_version");
    case GZ_FILE_SCHEMA_VERSION: return sqlite3_mprintf("PRAGMA main.schema_version");
    case GZ_FILE_READ_PLACE: return sqlite3_mprintf("SELECT name, front FROM main.\"%w\" WHERE one = 1", r->table);
    default: return sqlite3_mprintf("UPDATE main.\"%w\" SET name = ?1, front = ?2, turn = ?3, role = ?4, prepared = ?5,"
        " id = ?6, filled = ?7 WHERE one = 1", r->table);
    }
}

/* The statement, which is prepared if it isn't. Returns an SQLite code. */
static int ready(gz_replica *r, enum gz_file_statement which, sqlite3_stmt **it) {
    int rc = r->statement[which] ? SQLITE_OK : gz_prepare(r->db, &r->statement[which], text_of(r, which));
    *it = r->statement[which];
    return rc;
}

int gz_file_do(gz_replica *r, enum gz_file_statement which) {
    sqlite3_stmt *it;
    int rc = ready(r, which, &it);
    if (rc) return rc;
    sqlite3_step(it);
    return sqlite3_reset(it);
}

int gz_file_number(gz_replica *r, enum gz_file_statement which, int64_t *out) {
    sqlite3_stmt *it;
    int rc = ready(r, which, &it);
    if (rc) return rc;
    *out = sqlite3_step(it) == SQLITE_ROW ? sqlite3_column_int64(it, 0) : 0;
    return sqlite3_reset(it);
}

int gz_file_read_place(gz_replica *r, struct gz_place *place, bool *is_there) {
    sqlite3_stmt *it;
    *is_there = false;
    int rc = ready(r, GZ_FILE_READ_PLACE, &it);
    /* there is no table of the mark, or it has another shape */
    if (rc) return (rc & 0xff) == SQLITE_ERROR ? SQLITE_OK : rc;
    if (sqlite3_step(it) == SQLITE_ROW) {
        *is_there = true, gz_take_name(it, 0, place->name), place->front = (uint64_t)sqlite3_column_int64(it, 1);
    }
    rc = sqlite3_reset(it);
    return (rc & 0xff) == SQLITE_ERROR ? *is_there = false, SQLITE_OK : rc;
}

int gz_file_write_mark(gz_replica *r, const struct gz_mark *mark) {
    sqlite3_stmt *it;
    int rc = ready(r, GZ_FILE_WRITE_MARK, &it);
    if (!rc) rc = sqlite3_bind_blob(it, 1, mark->place.name, 16, SQLITE_STATIC);
    if (!rc) rc = sqlite3_bind_blob(it, 6, mark->id, 16, SQLITE_STATIC);
    if (rc) return rc;
    sqlite3_bind_int64(it, 2, (sqlite3_int64)mark->place.front), sqlite3_bind_int64(it, 3, mark->turn);
    sqlite3_bind_int(it, 4, mark->role), sqlite3_bind_int(it, 5, mark->prepared), sqlite3_bind_int64(it, 7, mark->filled);
    sqlite3_step(it);
    rc = sqlite3_reset(it), sqlite3_clear_bindings(it);
    if (rc || sqlite3_changes(r->db) == 1) return rc;
    /* the row is gone; or the transaction was rolled back, and the mark would be a commit of its own */
    return sqlite3_get_autocommit(r->db) ? SQLITE_ABORT_ROLLBACK : gz_write_mark(r->db, r->table, mark);
}

void gz_file_undo(gz_replica *r) {
    if (!sqlite3_get_autocommit(r->db)) gz_file_do(r, GZ_FILE_ROLLBACK);
    if (!sqlite3_get_autocommit(r->db)) gz_close_file(r);
}
