/* The transactions of a source. */
#include "source.h"
#include "wide.h"
#include <stdio.h>
#include <stdlib.h>
#include <string.h>

/* What a commit will do: `line` is a new line, or NULL if the present one goes on. */
struct commit {
    struct gz_bytes text;
    struct gz_line *line;
    bool has_tables, is_empty, places;
    struct gz_tables tables;
    struct gz_versions versions;
    struct gz_mark mark;
    /* Why a new line begins that equals no other, or "", and why any new line does. */
    char need[GZ_WORDS], reason[GZ_WORDS];
};

static void need(char words[GZ_WORDS], const char *why) {
    if (!*words) snprintf(words, GZ_WORDS, "%s", why);
}

/* What was committed since the last gz_commit is a VACUUM or the like, of this connection. */
static void count_own(struct gz_source *s) {
    pthread_mutex_lock(&s->shared.lock);
    s->shared.commits = gz_commits(&s->watch);
    pthread_mutex_unlock(&s->shared.lock);
}

/* Compares the database with what it was after the last commit. */
static int compare(struct gz_source *s, int64_t data_version, int64_t changes) {
    struct gz_versions now;
    bool changed = false, is_own = true;
    int rc = gz_take_versions(s);
    if (rc) return rc;
    rc = gz_schema_changed(s, &now, &changed);
    if (!rc) rc = gz_has_own_mark(s, &is_own);
    if (rc) return rc;
    if (s->data_version != data_version) need(s->need, "another connection wrote to the database");
    if (s->changes != changes) need(s->need, "the connection wrote outside of gz_begin and gz_commit");
    if (changed) need(s->need, "the schema changed");
    if (!is_own) need(s->need, "the mark was changed");
    return SQLITE_OK;
}

/* Finds what others wrote since the last commit. The transaction has begun, so nobody else can write now. */
static int find_others(struct gz_source *s) {
    int64_t data_version = s->data_version, changes = s->changes;
    uint32_t file_version = s->file_version, now = file_version;
    int rc = sqlite3_file_control(s->db, "main", SQLITE_FCNTL_DATA_VERSION, &now);
    /* neither others nor this connection have written */
    if (rc || now == file_version) return rc;
    rc = compare(s, data_version, changes);
    /* what was compared in part says nothing: the next call compares with the last commit again */
    if (rc) s->data_version = data_version, s->changes = changes, s->file_version = file_version;
    else if (!*s->need) count_own(s);
    return rc;
}

static int is_recorded(void *context, const char *name) {
    struct gz_source *s = context;
    const struct gz_table *it = gz_find_table(&s->tables, name);
    return it && !it->why;
}

static int begin_session(struct gz_source *s) {
    int rc = sqlite3session_create(s->db, "main", &s->session);
    if (rc) return s->session = NULL, rc;
    sqlite3session_table_filter(s->session, is_recorded, s);
    return sqlite3session_attach(s->session, NULL);
}

static void end_session(struct gz_source *s) {
    if (s->session) sqlite3session_delete(s->session);
    s->session = NULL, s->is_open = false;
}

/* The transaction ended without a commit. No statement runs here: the connection keeps the words of the error. */
static void end_uncommitted(struct gz_source *s) { end_session(s), s->is_undone = true; }

/* What a transaction changed that ended without a commit counts as changes of the connection, and an error that empties
 * SQLite's cache counts as a version of the file. Where nobody has committed since the last gz_commit, these are none. The
 * next transaction has begun, so nobody else commits. */
static void settle_undone(struct gz_source *s) {
    int64_t data_version = s->data_version, changes = s->changes;
    uint32_t file_version = s->file_version, commits = s->shared.commits;
    bool is_same = gz_commits(&s->watch) == commits && !gz_take_versions(s);
    if (!is_same) s->data_version = data_version, s->changes = changes, s->file_version = file_version;
    s->is_undone = false;
}

int gz_begin(gz_source *s) {
    if (s->is_open || !sqlite3_get_autocommit(s->db)) return GZ_IN_TRANSACTION;
    int rc = gz_make_ready(s);
    if (!rc) rc = gz_do(s, GZ_BEGIN);
    if (rc) return gz_code(rc);
    if (s->is_undone) settle_undone(s);
    rc = find_others(s);
    if (!rc && !*s->need) rc = begin_session(s);
    if (!rc) {
        s->is_open = true, s->changes_before = sqlite3_total_changes64(s->db);
        return GZ_OK;
    }
    end_session(s);
    if (!sqlite3_get_autocommit(s->db)) gz_do(s, GZ_ROLLBACK);
    return gz_code(rc);
}

int gz_rollback(gz_source *s) {
    if (!s->is_open) return GZ_NO_TRANSACTION;
    if (sqlite3_get_autocommit(s->db)) return end_uncommitted(s), GZ_NO_TRANSACTION;
    int rc = gz_do(s, GZ_ROLLBACK);
    if (sqlite3_get_autocommit(s->db)) end_uncommitted(s);
    return gz_code(rc);
}

static int take_piece(void *context, const void *bytes, int len) {
    struct gz_bytes *raw = context;
    gz_append(raw, bytes, (size_t)len);
    return raw->failed || raw->len > GZ_MOST_TEXT ? SQLITE_ABORT : SQLITE_OK;
}

static void note_change(void *context, const char *table, const char *key, const char *why) {
    gz_note_left(context, table, key, why);
}

/* Takes the widened changeset of the transaction. What can't be an entry needs a new line, which is no error. */
static int take_changes(struct gz_source *s, struct commit *it) {
    struct gz_bytes raw = {0};
    char fault[GZ_FAULT_ROOM];
    int rc = sqlite3session_changeset_strm(s->session, take_piece, &raw);
    bool is_long = raw.len > GZ_MOST_TEXT, has_failed = raw.failed;
    enum gz_wide wide = GZ_WIDE_OK;
    if (!rc) wide = gz_widen(raw.at, raw.len, &it->text, note_change, s, fault);
    gz_free_bytes(&raw);
    if (has_failed || wide == GZ_WIDE_NO_MEMORY) return SQLITE_NOMEM;
    /* where memory runs out in the midst of a query, SQLite may roll the transaction back */
    if (rc && sqlite3_get_autocommit(s->db)) return rc;
    if (is_long || it->text.len > GZ_MOST_TEXT) need(it->need, "a transaction has more than 16,777,216 bytes of changes");
    else if (rc == SQLITE_NOMEM) need(it->need, "the session ran out of memory");
    else if (rc) return rc;
    else if (wide == GZ_WIDE_FAULT) need(it->need, fault);
    return SQLITE_OK;
}

/* A new line that equals no other. Replicas become copies of this transaction's end, so nothing is placed. */
static int choose_new(struct gz_source *s, struct commit *it) {
    int64_t filled = 0;
    int rc = gz_defaults(s->db, s->table, &filled);
    if (!rc && filled != s->mark.filled) rc = gz_fill_defaults(s->db, s->table);
    it->mark.filled = filled;
    /* the table may be gone or changed: the schema has it once the mark is written */
    if (!rc) rc = gz_write_mark(s->db, s->table, &it->mark);
    if (!rc) rc = gz_read_tables(s->db, s->table, &it->tables);
    if (rc) return rc;
    it->has_tables = true, it->line = gz_open_line(&it->tables, s->max_entries);
    if (!it->line) return SQLITE_NOMEM;
    it->mark.place.front = 0, memcpy(it->mark.place.name, it->line->name, 16);
    snprintf(it->reason, sizeof it->reason, "%s", it->need);
    return SQLITE_OK;
}

/* A line that goes on after the present one: whoever has all of that stands at 0 of it. */
static int choose_next(struct gz_source *s, struct commit *it, const char *why) {
    it->line = gz_open_line(&s->tables, s->max_entries);
    if (!it->line) return SQLITE_NOMEM;
    it->line->has_equal = true, it->line->equal.front = s->shared.now->front;
    memcpy(it->line->equal.name, s->shared.now->name, 16);
    snprintf(it->reason, sizeof it->reason, "%s", why);
    int code = gz_place_entry(it->line, it->text.at, it->text.len);
    if (code == BROKER_NO_MEMORY) return SQLITE_NOMEM;
    if (!code) it->mark.place.front = 1, memcpy(it->mark.place.name, it->line->name, 16);
    else {
        char words[GZ_WORDS];
        gz_free_line(it->line), it->line = NULL;
        snprintf(words, sizeof words, "the broker refuses a changeset with code %d", code), need(it->need, words);
    }
    return SQLITE_OK;
}

/* Decides whether the present line takes the changeset, and makes room in it. */
static int choose_line(struct gz_source *s, struct commit *it) {
    struct gz_line *now = s->shared.now;
    const char *why = now->front >= s->max_entries ? "the broker has as many entries as it may"
        : now->front && gz_line_bytes(now) + it->text.len > s->max_bytes ? "the broker holds as many bytes as it may"
        : NULL;
    pthread_mutex_lock(&s->shared.lock);
    if (!why && now->is_worn) why = "the broker has no more steps or subscriptions";
    bool has_room = why || gz_reserve(now);
    pthread_mutex_unlock(&s->shared.lock);
    if (why) return choose_next(s, it, why);
    it->places = true, it->mark.place.front = now->front + 1, memcpy(it->mark.place.name, now->name, 16);
    return has_room ? SQLITE_OK : SQLITE_NOMEM;
}

/* Decides where the transaction goes, and writes the mark. */
static int decide(struct gz_source *s, struct commit *it) {
    uint32_t version = s->file_version;
    bool changed;
    it->mark = s->mark, it->mark.turn++, memcpy(it->need, s->need, sizeof it->need);
    sqlite3_file_control(s->db, "main", SQLITE_FCNTL_DATA_VERSION, &version);
    if (version != s->file_version) need(it->need, "the transaction of gz_begin ended before gz_commit");
    int rc = gz_schema_changed(s, &it->versions, &changed);
    if (!rc && changed) need(it->need, "the schema changed");
    if (!rc && !*it->need) rc = take_changes(s, it);
    if (rc) return rc;
    it->is_empty = !*it->need && !it->text.len && sqlite3_total_changes64(s->db) == s->changes_before;
    if (it->is_empty) return SQLITE_OK;
    if (!*it->need && it->text.len) rc = choose_line(s, it);
    if (!rc && *it->need) rc = choose_new(s, it);
    /* an error of a statement above may have rolled the transaction back: the mark would be a commit of its own */
    if (!rc && sqlite3_get_autocommit(s->db)) rc = SQLITE_ABORT_ROLLBACK;
    return rc ? rc : gz_update_mark(s, &it->mark);
}

/* Says where the database stands once it is visible: a replica may read it before the line has it. */
static void set_pending(struct gz_source *s, const struct commit *it) {
    pthread_mutex_lock(&s->shared.lock);
    s->shared.is_pending = it != NULL;
    /* the mark is written, so this connection has the write lock, and nobody else commits */
    if (it) s->shared.pending = it->mark.place, s->shared.pending_commits = gz_commits(&s->watch) + 1;
    pthread_mutex_unlock(&s->shared.lock);
    if (!it) gz_wake(s);
}

/* After COMMIT the broker refused the entry: the database stands at 0 of a new line. */
static struct gz_line *replace_refused(struct gz_source *s, struct commit *it, int code) {
    struct gz_line *line = gz_open_line(&s->tables, s->max_entries);
    snprintf(it->reason, sizeof it->reason, "the broker refused an entry with code %d", code);
    if (line) line->has_equal = true, line->equal = it->mark.place;
    else need(s->need, it->reason);
    return line;
}

/* Brings the lines to where the database stands. Nothing can be lost here. */
static void hand_out(struct gz_source *s, struct commit *it) {
    struct gz_shared *shared = &s->shared;
    struct gz_line *line = it->line, *now = shared->now;
    *s->need = 0, s->mark = it->mark;
    pthread_mutex_lock(&shared->lock);
    int code = it->places ? gz_place_entry(now, it->text.at, it->text.len) : BROKER_OK;
    if (code) line = replace_refused(s, it, code), shared->is_broken = !line;
    if (line) {
        shared->is_broken = false, memcpy(shared->reason, it->reason, sizeof shared->reason);
        gz_set_lines(shared, line, line->has_equal && gz_same_name(line->equal.name, now->name) &&
            line->equal.front == now->front);
    }
    shared->commits = shared->pending_commits;
    bool wakes = shared->has_waiting;
    shared->is_pending = shared->has_waiting = false;
    pthread_mutex_unlock(&shared->lock);
    if (wakes) gz_wake(s);
    if (!line) return;
    s->brokers++;
    if (!it->has_tables) return;
    gz_free_tables(&s->tables), s->tables = it->tables, it->tables = (struct gz_tables){0};
}

int gz_commit(gz_source *s) {
    struct commit it = {0};
    if (!s->is_open) return GZ_NO_TRANSACTION;
    if (sqlite3_get_autocommit(s->db)) return end_uncommitted(s), GZ_NO_TRANSACTION;
    uint64_t left = s->left_count;
    int rc = decide(s, &it);
    if (!rc && it.has_tables) rc = gz_note_tables(s, &it.tables);
    if (!rc && !it.is_empty) set_pending(s, &it);
    if (!rc) rc = gz_do(s, GZ_COMMIT);
    bool is_back = rc && sqlite3_get_autocommit(s->db);
    if (!rc) {
        end_session(s), s->changes = sqlite3_total_changes64(s->db);
        sqlite3_file_control(s->db, "main", SQLITE_FCNTL_DATA_VERSION, &s->file_version);
        s->tables.version = it.versions.version, s->tables.statistics = it.versions.statistics;
        if (!it.is_empty) hand_out(s, &it), it.line = NULL;
    } else {
        if (is_back) end_uncommitted(s);
        /* what was left out is counted when it is committed */
        if (!it.has_tables) s->left_count = left;
        set_pending(s, NULL), gz_free_line(it.line);
    }
    gz_free_bytes(&it.text), gz_free_tables(&it.tables);
    return is_back ? GZ_ROLLED_BACK : gz_code(rc);
}
