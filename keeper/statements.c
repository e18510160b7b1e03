/* The statements of a source's transactions, prepared once. */
#include "source.h"

static char *text_of(const struct gz_source *s, enum gz_statement which) {
    switch (which) {
    case GZ_PROBE: return sqlite3_mprintf("SELECT 1");
    case GZ_BEGIN: return sqlite3_mprintf("BEGIN IMMEDIATE");
    case GZ_COMMIT: return sqlite3_mprintf("COMMIT");
    case GZ_ROLLBACK: return sqlite3_mprintf("ROLLBACK");
    case GZ_DATA_VERSION: return sqlite3_mprintf("PRAGMA main.data_version");
    case GZ_SCHEMA_VERSION: return sqlite3_mprintf("PRAGMA main.schema_version");
    case GZ_READ_MARK: return sqlite3_mprintf("SELECT name, front, turn, role FROM main.\"%w\" WHERE one = 1", s->table);
    default: return sqlite3_mprintf("UPDATE main.\"%w\" SET name = ?1, front = ?2, turn = ?3, role = 0, filled = ?4 WHERE"
        " one = 1", s->table);
    }
}

int gz_prepare_some(struct gz_source *s, enum gz_statement first, enum gz_statement last) {
    int rc = SQLITE_OK;
    for (int i = (int)first; !rc && i <= (int)last; i++) {
        sqlite3_finalize(s->statement[i]);
        rc = gz_prepare(s->db, &s->statement[i], text_of(s, (enum gz_statement)i));
    }
    return rc;
}

int gz_do(struct gz_source *s, enum gz_statement which) {
    sqlite3_step(s->statement[which]);
    return sqlite3_reset(s->statement[which]);
}

int gz_do_number(struct gz_source *s, enum gz_statement which, int64_t *out) {
    if (sqlite3_step(s->statement[which]) == SQLITE_ROW) *out = sqlite3_column_int64(s->statement[which], 0);
    return sqlite3_reset(s->statement[which]);
}

int gz_make_ready(struct gz_source *s) {
    sqlite3_stmt *probe = s->statement[GZ_PROBE];
    int rc = gz_do(s, GZ_PROBE);
    if (rc || (s->statement[GZ_ROLLBACK] && !sqlite3_stmt_status(probe, SQLITE_STMTSTATUS_REPREPARE, 0))) return rc;
    rc = gz_prepare_some(s, GZ_ROLLBACK, GZ_ROLLBACK);
    if (!rc) sqlite3_stmt_status(probe, SQLITE_STMTSTATUS_REPREPARE, 1);
    return rc;
}
