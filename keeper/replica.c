/* A replica: its file, and one step after the other. */
#define _GNU_SOURCE
#include "replica.h"
#include <errno.h>
#include <fcntl.h>
#include <poll.h>
#include <stdio.h>
#include <stdlib.h>
#include <string.h>
#include <sys/file.h>
#include <sys/un.h>
#include <unistd.h>

int gz_lags(gz_replica *r, const char *words) {
    snprintf(r->error, sizeof r->error, "%s", words);
    return GZ_LAGS;
}

int gz_lags_sqlite(gz_replica *r, sqlite3 *db, int rc, const char *what) {
    /* the connection's words are of its last call, which may be another */
    const char *words = db && sqlite3_extended_errcode(db) == rc ? sqlite3_errmsg(db) : sqlite3_errstr(rc);
    snprintf(r->error, sizeof r->error, "%s: %s", what, words);
    return (rc & 0xff) == SQLITE_NOMEM || rc == SQLITE_IOERR_NOMEM ? GZ_NO_MEMORY : GZ_LAGS;
}

void gz_need_copy(gz_replica *r, const char *why) {
    if (!*r->need) snprintf(r->need, sizeof r->need, "%s", why);
    gz_lags(r, why);
}

/* The lock file: a letter, which is c while a copy is made, and the id. */
bool gz_write_lock(gz_replica *r, bool copying) {
    unsigned char bytes[17] = {copying ? 'c' : 'r'};
    memcpy(bytes + 1, r->mark.id, 16);
    r->was_copying = copying;
    return pwrite(r->lock_file, bytes, sizeof bytes, 0) == sizeof bytes;
}

void gz_close_file(gz_replica *r) {
    gz_drop_copy(r);
    for (int i = 0; i < GZ_FILE_STATEMENTS; i++) sqlite3_finalize(r->statement[i]), r->statement[i] = NULL;
    sqlite3_close(r->db), r->db = NULL, r->has_place = false, gz_free_tables(&r->tables);
}

/* Takes what the file has: a place, nothing, or a database that isn't a replica's. */
static int take_file(gz_replica *r, const struct gz_mark *mark, enum gz_found found, int64_t objects) {
    if (found == GZ_MARK_FOUND && mark->role == GZ_REPLICA_ROLE && mark->prepared) {
        /* another id: the file came from another place, whose replica goes on */
        bool is_own = gz_same_name(mark->id, r->mark.id);
        unsigned char id[16];
        memcpy(id, r->mark.id, 16), r->mark = *mark, r->has_place = true;
        if (!is_own) memcpy(r->mark.id, id, 16);
        return GZ_OK;
    }
    if (found == GZ_MARK_NONE && !objects) return GZ_OK;
    if (found == GZ_MARK_FOUND && r->was_copying) {
        gz_need_copy(r, "a copy was interrupted"), *r->error = 0;
        return GZ_OK;
    }
    if (!r->replaces) return found == GZ_MARK_FOUND ? GZ_OTHER_ROLE : GZ_NOT_REPLICA;
    return GZ_OK;
}

int gz_open_file(gz_replica *r) {
    struct gz_mark mark;
    enum gz_found found;
    int64_t objects = 0;
    int unused, code;
    if (r->db) return GZ_OK;
    int rc = sqlite3_open_v2(r->file, &r->db, SQLITE_OPEN_READWRITE | SQLITE_OPEN_CREATE, NULL);
    if (!rc && r->setup) rc = r->setup(r->context, r->db);
    if (!rc) rc = sqlite3_exec(r->db, "PRAGMA foreign_keys = 0; PRAGMA synchronous = NORMAL", NULL, NULL, NULL);
    if (!rc) sqlite3_db_config(r->db, SQLITE_DBCONFIG_ENABLE_TRIGGER, 0, &unused);
    /* one transaction, so that all of this is of one state */
    if (!rc) rc = sqlite3_exec(r->db, "BEGIN", NULL, NULL, NULL);
    if (!rc) rc = gz_number(r->db, &objects, sqlite3_mprintf("SELECT count(*) FROM main.sqlite_schema"));
    if (!rc) rc = gz_read_mark(r->db, r->table, &mark, &found);
    if (!rc) rc = gz_read_tables(r->db, r->table, &r->tables);
    if (!rc) rc = gz_number(r->db, &r->data_version, sqlite3_mprintf("PRAGMA main.data_version"));
    if (!rc) rc = sqlite3_exec(r->db, "COMMIT", NULL, NULL, NULL);
    code = rc ? gz_lags_sqlite(r, r->db, rc, "the file") : take_file(r, &mark, found, objects);
    if (code) gz_close_file(r);
    return code;
}

/* Opens a file anew that could only be read, and may be written now. SQLite's connections of a process share what they
 * know of the -shm file, so the old one is closed first. */
static int open_anew(gz_replica *r) {
    int64_t now = r->data_version;
    bool had_place = r->has_place;
    if (!r->db || sqlite3_db_readonly(r->db, "main") != 1 || access(r->file, W_OK)) return GZ_OK;
    int rc = gz_file_number(r, GZ_FILE_DATA_VERSION, &now);
    bool is_foreign = had_place && (rc || now != r->data_version);
    gz_close_file(r);
    int code = gz_open_file(r);
    if (!code && is_foreign) gz_need_copy(r, "another connection wrote to the file"), *r->error = 0;
    return code;
}

/* Whether the file is another one now, or others wrote to it. */
static int look_at_file(gz_replica *r) {
    int has_moved = 0;
    int64_t version;
    sqlite3_file_control(r->db, "main", SQLITE_FCNTL_HAS_MOVED, &has_moved);
    if (has_moved) {
        gz_close_file(r), gz_hang_up(r);
        return gz_open_file(r);
    }
    int rc = gz_file_number(r, GZ_FILE_DATA_VERSION, &version);
    if (rc) return gz_lags_sqlite(r, r->db, rc, "the file");
    if (r->has_place && version != r->data_version) gz_need_copy(r, "another connection wrote to the file"), *r->error = 0;
    r->data_version = version;
    return GZ_OK;
}

/* Forgets the answer, unless it is a batch that can be applied later. */
static int done(gz_replica *r, int code) {
    bool is_kept = code == GZ_LAGS && !*r->need && r->answer.kind == GZ_ENTRIES;
    if (!is_kept) r->has_answer = false, gz_free_bytes(&r->text);
    return code;
}

static int begin_copy(gz_replica *r) {
    int len = r->text.len < 300 ? (int)r->text.len : 300;
    if (*r->need) memcpy(r->reason, r->need, sizeof r->reason);
    else snprintf(r->reason, sizeof r->reason, "%.*s", len, r->text.at ? (const char *)r->text.at : "");
    r->knows_front = false;
    return gz_begin_copy(r);
}

static int take_answer(gz_replica *r) {
    int len = r->text.len < 300 ? (int)r->text.len : 300, code;
    r->front = r->answer.front, r->knows_front = true, r->is_foreign = r->answer.is_foreign;
    switch (r->answer.kind) {
    case GZ_ENTRIES: code = gz_apply_entries(r); break;
    case GZ_GO_ON: code = gz_apply_go_on(r); break;
    case GZ_COPY: code = begin_copy(r); break;
    case GZ_NOTHING:
        code = GZ_IDLE;
        if (r->is_foreign) code = gz_lags(r, "others wrote to the source's database; the next gz_commit repairs it");
        break;
    default:
        r->knows_front = false, code = GZ_LAGS;
        snprintf(r->error, sizeof r->error, "%.*s", len, r->text.at ? (const char *)r->text.at : "");
    }
    return done(r, code);
}

static int one_step(gz_replica *r, int timeout_ms) {
    int code = open_anew(r);
    if (!code) code = gz_open_file(r);
    if (code) return code;
    sqlite3_busy_timeout(r->db, timeout_ms);
    if (r->backup || r->is_copied) return gz_go_on_copying(r);
    code = look_at_file(r);
    /* what was asked for the place that the file had isn't wanted any more */
    if (!code && *r->need && (r->has_answer || r->is_asked) && r->asked.at.front) gz_hang_up(r);
    if (!code) code = gz_ask(r, timeout_ms);
    return code ? code : take_answer(r);
}

int gz_replica_step(gz_replica *r, int timeout_ms) {
    int64_t begun = gz_clock();
    *r->error = 0, r->knows_front = r->is_foreign = false;
    int code = one_step(r, timeout_ms < 0 ? 0 : timeout_ms);
    /* a caller that calls again at once shall not turn in circles */
    int64_t left = begun + timeout_ms - gz_clock();
    if ((code == GZ_LAGS || code == GZ_AWAY) && left > 0) poll(NULL, 0, left < 100 ? (int)left : 100);
    return code;
}

int gz_replica_status(gz_replica *r, struct gz_replica_status *status) {
    memset(status, 0, sizeof *status);
    if (r->has_place && !*r->need) memcpy(status->name, r->mark.place.name, 16), status->number = r->mark.place.front;
    status->front = r->front, status->lag = UINT64_MAX;
    if (r->knows_front && r->has_place && !*r->need && !r->is_foreign)
        status->lag = r->front > r->mark.place.front ? r->front - r->mark.place.front : 0;
    status->copying = r->backup || r->is_copied, status->pages = r->pages, status->pages_done = r->pages_done;
    status->copies = r->copies, status->reason = r->reason, status->error = r->error, status->foreign = r->is_foreign;
    memcpy(status->id, r->mark.id, 16);
    return GZ_OK;
}

/* Takes the lock, and the id that it holds. */
static int take_lock(gz_replica *r) {
    unsigned char bytes[17];
    char *path = sqlite3_mprintf("%s-gz-lock", r->file);
    if (!path) return GZ_NO_MEMORY;
    r->lock_file = open(path, O_RDWR | O_CREAT | O_CLOEXEC, 0666);
    sqlite3_free(path);
    if (r->lock_file < 0) return GZ_SYSTEM;
    if (flock(r->lock_file, LOCK_EX | LOCK_NB)) return errno == EWOULDBLOCK ? GZ_TAKEN : GZ_SYSTEM;
    if (pread(r->lock_file, bytes, sizeof bytes, 0) == sizeof bytes) {
        memcpy(r->mark.id, bytes + 1, 16), r->was_copying = *bytes == 'c';
        return GZ_OK;
    }
    return gz_random(r->mark.id) && gz_write_lock(r, false) ? GZ_OK : GZ_SYSTEM;
}

static int open_replica(gz_replica *r, const char *file, const char *source_file, const struct gz_options *options) {
    const char *prefix = options && options->prefix ? options->prefix : "gz_";
    r->file = sqlite3_mprintf("%s", file), r->source_file = sqlite3_mprintf("%s", source_file);
    r->table = sqlite3_mprintf("%smark", prefix);
    bool has_socket = options && options->socket;
    r->socket = has_socket ? sqlite3_mprintf("%s", options->socket) : sqlite3_mprintf("%s-gz", source_file);
    if (!r->file || !r->source_file || !r->table || !r->socket) return GZ_NO_MEMORY;
    if (strlen(r->socket) >= sizeof((struct sockaddr_un *)0)->sun_path) return GZ_LONG_PATH;
    if (options) r->setup = options->setup, r->context = options->context, r->replaces = options->replace;
    return take_lock(r);
}

int gz_replica_open(gz_replica **out, const char *file, const char *source_file, const struct gz_options *options) {
    *out = NULL;
    gz_replica *r = calloc(1, sizeof *r);
    if (!r) return GZ_NO_MEMORY;
    r->lock_file = r->connection = -1;
    int code = open_replica(r, file, source_file, options), why = errno;
    if (code) gz_replica_close(r), errno = why;
    else *out = r;
    return code;
}

void gz_replica_close(gz_replica *r) {
    if (!r) return;
    gz_hang_up(r), gz_close_file(r);
    /* a process that another thread is starting may still have the file open */
    if (r->lock_file >= 0) flock(r->lock_file, LOCK_UN), close(r->lock_file);
    sqlite3_free(r->file), sqlite3_free(r->source_file), sqlite3_free(r->table), sqlite3_free(r->socket), free(r);
}
