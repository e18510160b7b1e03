/* A replica becomes a copy of the source's database. */
#include "replica.h"
#include <stdio.h>
#include <string.h>

/* The pages of one slice. */
enum { SLICE = 1024 };

void gz_drop_copy(gz_replica *r) {
    if (r->backup) sqlite3_backup_finish(r->backup);
    sqlite3_close(r->from), r->backup = NULL, r->from = NULL, r->is_copied = false;
}

/* Opens the source's file in a read transaction, which lasts until the copy is made. It stands where its mark says. */
static int open_snapshot(gz_replica *r) {
    struct gz_mark mark;
    enum gz_found found;
    int rc = sqlite3_open_v2(r->source_file, &r->from, SQLITE_OPEN_READONLY, NULL);
    if (!rc) sqlite3_busy_timeout(r->from, 100);
    if (!rc) rc = sqlite3_exec(r->from, "BEGIN", NULL, NULL, NULL);
    if (!rc) rc = gz_read_mark(r->from, r->table, &mark, &found);
    if (rc) return gz_lags_sqlite(r, r->from, rc, "the source's file");
    bool is_source = found == GZ_MARK_FOUND && mark.role == GZ_SOURCE_ROLE;
    return is_source ? GZ_OK : gz_lags(r, "the source's file has no mark of a source");
}

/* Others can read the file while it is copied to if it is in WAL mode. Then both files must have pages of one size. */
static int set_mode(gz_replica *r) {
    int64_t size = 0, from_size = 0, pages = 0;
    int rc = gz_number(r->from, &from_size, sqlite3_mprintf("PRAGMA page_size"));
    if (!rc) rc = gz_number(r->db, &pages, sqlite3_mprintf("PRAGMA main.page_count"));
    if (!rc && !pages) rc = gz_run(r->db, sqlite3_mprintf("PRAGMA main.page_size = %lld", (long long)from_size));
    if (!rc) rc = gz_number(r->db, &size, sqlite3_mprintf("PRAGMA main.page_size"));
    if (!rc) rc = gz_run(r->db, sqlite3_mprintf("PRAGMA main.journal_mode = %s", size == from_size ? "WAL" : "DELETE"));
    return rc ? gz_lags_sqlite(r, r->db, rc, "the file") : GZ_OK;
}

int gz_begin_copy(gz_replica *r) {
    int code = open_snapshot(r);
    if (!code) code = set_mode(r);
    int rc = code ? SQLITE_OK : gz_file_number(r, GZ_FILE_DATA_VERSION, &r->data_version);
    if (!code && rc) code = gz_lags_sqlite(r, r->db, rc, "the file");
    if (!code && !gz_write_lock(r, true)) code = gz_lags(r, "the lock file can't be written");
    if (!code && !(r->backup = sqlite3_backup_init(r->db, "main", r->from, "main")))
        code = gz_lags_sqlite(r, r->db, sqlite3_errcode(r->db), "no copy is begun");
    if (code) {
        gz_drop_copy(r);
        return code;
    }
    r->copies++, r->pages = r->pages_done = 0, r->has_place = false, *r->need = 0;
    return GZ_OK;
}

/* Drops what must not act while changes are applied: triggers, and unique indexes that aren't of a table itself. */
static int drop_actors(gz_replica *r) {
    sqlite3_stmt *actors;
    sqlite3_str *sql = sqlite3_str_new(r->db);
    int rc = gz_prepare(r->db, &actors, sqlite3_mprintf("SELECT type, name FROM main.sqlite_schema WHERE type = 'trigger'"
        " OR type = 'index' AND sql LIKE 'CREATE UNIQUE %%'"));
    while (!rc && sqlite3_step(actors) == SQLITE_ROW)
        sqlite3_str_appendf(sql, "DROP %s main.\"%w\";", sqlite3_column_text(actors, 0), sqlite3_column_text(actors, 1));
    int end = sqlite3_finalize(actors);
    sqlite3_str_appendall(sql, " ");
    char *all = sqlite3_str_finish(sql);
    if (rc || end) sqlite3_free(all);
    return rc ? rc : end ? end : gz_run(r->db, all);
}

/* The rest of a transaction that has begun. */
static int prepare_rows(gz_replica *r) {
    struct gz_mark mark;
    enum gz_found found;
    int rc = gz_read_mark(r->db, r->table, &mark, &found);
    if (!rc) rc = found == GZ_MARK_FOUND ? drop_actors(r) : SQLITE_CORRUPT;
    mark.role = GZ_REPLICA_ROLE, mark.prepared = 1, memcpy(mark.id, r->mark.id, 16);
    if (!rc) rc = gz_write_mark(r->db, r->table, &mark);
    gz_free_tables(&r->tables);
    if (!rc) rc = gz_read_tables(r->db, r->table, &r->tables);
    if (!rc) rc = gz_file_do(r, GZ_FILE_COMMIT);
    if (!rc) r->mark = mark;
    return rc;
}

/* Prepares the file, whose pages are those of the source, in one transaction. */
static int prepare(gz_replica *r) {
    int64_t version = 0;
    int rc = gz_file_do(r, GZ_FILE_BEGIN);
    if (rc) return gz_lags_sqlite(r, r->db, rc, "the copy");
    rc = gz_file_number(r, GZ_FILE_DATA_VERSION, &version);
    bool is_foreign = !rc && version != r->data_version;
    if (!rc && !is_foreign) rc = prepare_rows(r);
    if (rc || is_foreign) {
        int code = rc ? gz_lags_sqlite(r, r->db, rc, "the copy") : gz_lags(r, "another connection wrote to the copy");
        gz_file_undo(r);
        if (is_foreign) gz_drop_copy(r), gz_need_copy(r, "another connection wrote to the copy");
        return code;
    }
    r->is_copied = false, r->has_place = true, gz_write_lock(r, false);
    return GZ_OK;
}

int gz_go_on_copying(gz_replica *r) {
    if (r->is_copied) return prepare(r);
    int rc = sqlite3_backup_step(r->backup, SLICE);
    r->pages = sqlite3_backup_pagecount(r->backup);
    r->pages_done = r->pages - sqlite3_backup_remaining(r->backup);
    if (rc == SQLITE_OK) return GZ_OK;
    if (rc == SQLITE_BUSY || rc == SQLITE_LOCKED) return gz_lags(r, "the copy: the file is locked");
    int end = sqlite3_backup_finish(r->backup);
    r->backup = NULL, sqlite3_close(r->from), r->from = NULL;
    if (rc != SQLITE_DONE || end) {
        int code = gz_lags_sqlite(r, r->db, end ? end : rc, "the copy");
        gz_close_file(r);
        return code;
    }
    r->is_copied = true;
    return prepare(r);
}
