/* What a replica does with an answer. */
#include "replica.h"
#include "wide.h"
#include <stdio.h>
#include <string.h>

/* Ends a transaction that can't be committed. */
static int give_up(gz_replica *r, int code) {
    gz_file_undo(r);
    return code;
}

/* Begins a transaction, and finds whether others wrote to the file since the last one. Returns GZ_OK if not. */
static int begin(gz_replica *r) {
    int64_t version;
    struct gz_place place;
    bool is_there;
    int rc = gz_file_do(r, GZ_FILE_BEGIN);
    if (rc) return gz_lags_sqlite(r, r->db, rc, "the file");
    rc = gz_file_number(r, GZ_FILE_DATA_VERSION, &version);
    if (!rc) rc = gz_file_read_place(r, &place, &is_there);
    if (rc) return give_up(r, gz_lags_sqlite(r, r->db, rc, "the file"));
    if (version == r->data_version && is_there && gz_same_place(&place, &r->mark.place)) return GZ_OK;
    gz_need_copy(r, "another connection wrote to the file"), r->data_version = version;
    return give_up(r, GZ_LAGS);
}

/* Writes where the file stands, and commits. */
static int end(gz_replica *r, const struct gz_place *place) {
    struct gz_mark mark = r->mark;
    mark.place = *place;
    int rc = gz_file_write_mark(r, &mark);
    if (!rc) rc = gz_file_do(r, GZ_FILE_COMMIT);
    if (rc) return give_up(r, gz_lags_sqlite(r, r->db, rc, "the file"));
    r->mark = mark;
    return GZ_OK;
}

/* The first words of what conflicts. */
static int say_conflict(void *context, int kind, sqlite3_changeset_iter *change) {
    static const char *const WHAT[] = {"", "the row has other values", "no row has this key", "a row has this key",
        "a constraint fails, as where two rows swap values that are UNIQUE in the table", "a foreign key"};
    gz_replica *r = context;
    const char *name = "";
    unsigned char *keys;
    int columns = 0, op = 0;
    sqlite3_str *words = sqlite3_str_new(NULL);
    if (kind != SQLITE_CHANGESET_FOREIGN_KEY) {
        sqlite3changeset_op(change, &name, &columns, &op, NULL), sqlite3changeset_pk(change, &keys, NULL);
        sqlite3_str_appendf(words, "table %.100s, key", name);
    }
    for (int i = 0, keys_said = 0; i < columns; i++) {
        sqlite3_value *value = NULL;
        if (!keys[i]) continue;
        op == SQLITE_INSERT ? sqlite3changeset_new(change, i, &value) : sqlite3changeset_old(change, i, &value);
        const char *text = value ? (const char *)sqlite3_value_text(value) : NULL;
        if (keys_said++ < 4) sqlite3_str_appendf(words, " %.40s", text ? text : "NULL");
    }
    char *all = sqlite3_str_finish(words);
    char both[GZ_REPLICA_WORDS];
    snprintf(both, sizeof both, "conflict %d: %s: %s", kind, WHAT[kind > 0 && kind < 6 ? kind : 0], all ? all : "");
    sqlite3_free(all), gz_need_copy(r, both);
    return SQLITE_CHANGESET_ABORT;
}

static bool has_shape(void *context, const char *name, const unsigned char *key, int columns) {
    gz_replica *r = context;
    const struct gz_table *it = gz_find_table(&r->tables, name);
    return it && !it->why && it->columns == columns && !memcmp(it->key, key, (size_t)columns);
}

/* Reads the schema anew if it was changed. SQLite passes over the changes of a table that isn't there. */
static int look_at_schema(gz_replica *r) {
    int64_t version;
    int rc = gz_file_number(r, GZ_FILE_SCHEMA_VERSION, &version);
    if (rc || version == r->tables.version) return rc;
    gz_free_tables(&r->tables);
    return gz_read_tables(r->db, r->table, &r->tables);
}

int gz_apply_entries(gz_replica *r) {
    struct gz_place place = {.front = r->answer.last};
    struct gz_bytes text = {0};
    static const struct gz_place none;
    if (!gz_same_name(r->answer.name, r->mark.place.name) || r->answer.first != r->mark.place.front + 1 ||
        gz_same_place(&r->mark.place, &none)) return gz_lags(r, "the source answered what wasn't asked");
    int code = begin(r);
    if (code) return code;
    int rc = look_at_schema(r);
    if (rc) return give_up(r, gz_lags_sqlite(r, r->db, rc, "the file"));
    enum gz_wide wide = gz_narrow(r->text.at, r->text.len, &text, has_shape, r);
    if (wide) {
        gz_free_bytes(&text);
        if (wide == GZ_WIDE_FAULT) gz_need_copy(r, "the file's tables have another shape than the source's");
        return give_up(r, wide == GZ_WIDE_NO_MEMORY ? GZ_NO_MEMORY : GZ_LAGS);
    }
    /* what fails is rolled back as a whole, so it needs no savepoint */
    if (text.len) rc = sqlite3changeset_apply_v2(r->db, (int)text.len, text.at, NULL, say_conflict, r, NULL, NULL,
        SQLITE_CHANGESETAPPLY_NOSAVEPOINT);
    gz_free_bytes(&text);
    if (rc && *r->need) return give_up(r, GZ_LAGS);
    if (rc) return give_up(r, gz_lags_sqlite(r, r->db, rc, "a batch isn't applied"));
    memcpy(place.name, r->answer.name, 16);
    return end(r, &place);
}

int gz_apply_go_on(gz_replica *r) {
    struct gz_place place = {.front = 0};
    int code = begin(r);
    if (code) return code;
    memcpy(place.name, r->answer.name, 16);
    return end(r, &place);
}
