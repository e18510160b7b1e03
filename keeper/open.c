/* Opening and closing a source. */
#define _GNU_SOURCE
#include "source.h"
#include <errno.h>
#include <fcntl.h>
#include <stdio.h>
#include <stdlib.h>
#include <string.h>
#include <sys/file.h>
#include <sys/un.h>
#include <unistd.h>

static void free_source(struct gz_source *s) {
    gz_end_watch(&s->watch), gz_set_lines(&s->shared, NULL, false);
    for (int i = 0; i < GZ_STATEMENTS; i++) sqlite3_finalize(s->statement[i]);
    for (int i = 0; i < GZ_MOST_LEFT; i++) free(s->left[i].table), free(s->left[i].key), free(s->left[i].why);
    gz_free_tables(&s->tables), free(s->shared.peer), pthread_mutex_destroy(&s->shared.lock);
    /* a process that another thread is starting may still have the file open */
    if (s->lock_file >= 0) flock(s->lock_file, LOCK_UN), close(s->lock_file);
    sqlite3_free(s->file), sqlite3_free(s->table), sqlite3_free(s->socket), free(s);
}

/* Takes the options. Returns a code. */
static int take_options(struct gz_source *s, const struct gz_options *options) {
    struct gz_options none = {0};
    const struct gz_options *it = options ? options : &none;
    const char *file = sqlite3_db_filename(s->db, "main");
    if (!sqlite3_threadsafe() || !file || !*file) return GZ_NO_FILE;
    s->file = sqlite3_mprintf("%s", file);
    s->table = sqlite3_mprintf("%smark", it->prefix ? it->prefix : "gz_");
    s->socket = it->socket ? sqlite3_mprintf("%s", it->socket) : sqlite3_mprintf("%s-gz", file);
    if (!s->file || !s->table || !s->socket) return GZ_NO_MEMORY;
    if (strlen(s->socket) >= sizeof((struct sockaddr_un *)0)->sun_path) return GZ_LONG_PATH;
    s->max_bytes = it->max_bytes ? it->max_bytes : 268435456;
    s->max_entries = it->max_entries ? it->max_entries : 1000000;
    if (s->max_entries > 16777216) s->max_entries = 16777216;
    return sqlite3_get_autocommit(s->db) ? GZ_OK : GZ_IN_TRANSACTION;
}

static int take_lock(struct gz_source *s) {
    char *path = sqlite3_mprintf("%s-gz-lock", s->file);
    if (!path) return GZ_NO_MEMORY;
    s->lock_file = open(path, O_RDWR | O_CREAT | O_CLOEXEC, 0666);
    sqlite3_free(path);
    if (s->lock_file < 0) return GZ_SYSTEM;
    if (flock(s->lock_file, LOCK_EX | LOCK_NB)) return errno == EWOULDBLOCK ? GZ_TAKEN : GZ_SYSTEM;
    /* what a replica wrote there says nothing of a source's file */
    return ftruncate(s->lock_file, 0) ? GZ_SYSTEM : GZ_OK;
}

/* Whether the journal mode is WAL, which `sets` sets first. */
static int is_wal(struct gz_source *s, int sets) {
    sqlite3_stmt *query;
    int rc = gz_prepare(s->db, &query, sqlite3_mprintf("PRAGMA main.journal_mode%s", sets ? " = WAL" : ""));
    if (rc) return gz_code(rc);
    bool is = sqlite3_step(query) == SQLITE_ROW && !strcmp((const char *)sqlite3_column_text(query, 0), "wal");
    rc = sqlite3_finalize(query);
    return rc ? gz_code(rc) : is ? GZ_OK : GZ_NOT_WAL;
}

/* Begins the first line, in a transaction. */
static int begin_line(struct gz_source *s, bool replaces) {
    enum gz_found found;
    int64_t filled = 0;
    int rc = gz_read_mark(s->db, s->table, &s->mark, &found);
    if (rc) return gz_code(rc);
    if (found == GZ_MARK_STRANGE) return GZ_TABLE_TAKEN;
    if (found == GZ_MARK_FOUND && s->mark.role == GZ_REPLICA_ROLE && !replaces) return GZ_OTHER_ROLE;
    rc = gz_defaults(s->db, s->table, &filled);
    if (!rc && (found == GZ_MARK_NONE || filled != s->mark.filled)) rc = gz_fill_defaults(s->db, s->table);
    s->mark.filled = filled, s->mark.role = GZ_SOURCE_ROLE, s->mark.prepared = 0, s->mark.turn++, s->mark.place.front = 0;
    memset(s->mark.id, 0, 16);
    if (!rc) rc = gz_write_mark(s->db, s->table, &s->mark);
    if (!rc) rc = gz_read_tables(s->db, s->table, &s->tables);
    if (rc) return gz_code(rc);
    s->shared.now = gz_open_line(&s->tables, s->max_entries);
    if (!s->shared.now) return GZ_NO_MEMORY;
    memcpy(s->mark.place.name, s->shared.now->name, 16), s->brokers = 1;
    snprintf(s->shared.reason, sizeof s->shared.reason, "the source was opened");
    return gz_code(gz_write_mark(s->db, s->table, &s->mark));
}

/* The transaction in which the first line begins. ROLLBACK is prepared before it, and needs no memory. */
static int first_transaction(struct gz_source *s, bool replaces) {
    int code = gz_code(gz_prepare_some(s, GZ_PROBE, GZ_SCHEMA_VERSION));
    if (!code) code = gz_code(gz_do(s, GZ_BEGIN));
    if (code) return code;
    code = begin_line(s, replaces);
    if (!code) code = gz_code(gz_prepare_some(s, GZ_READ_MARK, GZ_WRITE_MARK));
    if (!code) code = gz_code(gz_note_tables(s, &s->tables));
    if (!code) code = gz_code(gz_take_versions(s));
    if (!code) code = gz_begin_watch(&s->watch, s->file);
    if (!code) s->shared.commits = gz_commits(&s->watch) + 1, code = gz_code(gz_do(s, GZ_COMMIT));
    if (code && !sqlite3_get_autocommit(s->db)) gz_do(s, GZ_ROLLBACK);
    return code;
}

static int open_source(struct gz_source *s, const struct gz_options *options) {
    int triggers = 1, unused, code = take_options(s, options);
    if (!code) code = take_lock(s);
    if (!code) code = is_wal(s, options && options->set_wal);
    if (code) return code;
    /* gz_fill_defaults wants no triggers, and a change of that setting lets prepared statements expire */
    sqlite3_db_config(s->db, SQLITE_DBCONFIG_ENABLE_TRIGGER, -1, &triggers);
    sqlite3_db_config(s->db, SQLITE_DBCONFIG_ENABLE_TRIGGER, 0, &unused);
    code = first_transaction(s, options && options->replace);
    sqlite3_db_config(s->db, SQLITE_DBCONFIG_ENABLE_TRIGGER, triggers, &unused);
    if (code) return code;
    s->changes = sqlite3_total_changes64(s->db);
    sqlite3_file_control(s->db, "main", SQLITE_FCNTL_DATA_VERSION, &s->file_version);
    return gz_start_service(s);
}

int gz_source_open(gz_source **out, sqlite3 *db, const struct gz_options *options) {
    *out = NULL;
    struct gz_source *s = calloc(1, sizeof *s);
    if (!s) return GZ_NO_MEMORY;
    s->db = db, s->lock_file = -1, pthread_mutex_init(&s->shared.lock, NULL);
    int code = open_source(s, options), why = errno;
    if (code) free_source(s), errno = why;
    else *out = s;
    return code;
}

void gz_source_close(gz_source *s) {
    if (!s) return;
    if (s->is_open) gz_rollback(s);
    gz_stop_service(s);
    free_source(s);
}
