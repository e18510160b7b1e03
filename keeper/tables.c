/* What a database's schema says: its texts, the tables that are recorded, and those that are left out. */
#include "tables.h"
#include "wide.h"
#include <stdlib.h>
#include <string.h>

int gz_prepare(sqlite3 *db, sqlite3_stmt **out, char *sql) {
    *out = NULL;
    int rc = sql ? sqlite3_prepare_v2(db, sql, -1, out, NULL) : SQLITE_NOMEM;
    sqlite3_free(sql);
    return rc;
}

int gz_run(sqlite3 *db, char *sql) {
    int rc = sql ? sqlite3_exec(db, sql, NULL, NULL, NULL) : SQLITE_NOMEM;
    sqlite3_free(sql);
    return rc;
}

int gz_number(sqlite3 *db, int64_t *out, char *sql) {
    sqlite3_stmt *query;
    int rc = gz_prepare(db, &query, sql);
    if (rc) return rc;
    *out = sqlite3_step(query) == SQLITE_ROW ? sqlite3_column_int64(query, 0) : 0;
    return sqlite3_finalize(query);
}

/* The texts of the schema. VACUUM changes their rowids, so their order is that of the names. */
static int read_texts(sqlite3 *db, struct gz_bytes *texts) {
    sqlite3_stmt *query;
    int rc = gz_prepare(db, &query, sqlite3_mprintf("SELECT type, name, tbl_name, sql FROM main.sqlite_schema WHERE"
        " name NOT LIKE 'sqlite!_%%' ESCAPE '!' ORDER BY type, name"));
    if (rc) return rc;
    while (sqlite3_step(query) == SQLITE_ROW)
        for (int i = 0; i < 4; i++) {
            const void *text = sqlite3_column_text(query, i);
            if (text) gz_append(texts, text, (size_t)sqlite3_column_bytes(query, i));
            gz_append_byte(texts, 0);
        }
    rc = sqlite3_finalize(query);
    return rc ? rc : texts->failed ? SQLITE_NOMEM : SQLITE_OK;
}

/* How many tables ANALYZE has made. */
static int read_statistics(sqlite3 *db, int64_t *out) {
    return gz_number(db, out, sqlite3_mprintf("SELECT count(*) FROM main.sqlite_schema WHERE name LIKE 'sqlite!_stat%%'"
        " ESCAPE '!'"));
}

/* Of each table: its name, its number of columns with those that are generated, and its type. */
static const char TABLES[] =
    "SELECT name, ncol, type FROM pragma_table_list WHERE schema = 'main' AND type <> 'view' AND"
    " name NOT LIKE 'sqlite!_%%' ESCAPE '!' AND name <> %Q COLLATE NOCASE ORDER BY name";

/* Reads the columns of a table, which `columns` is the number of, and says whether they can be recorded. */
static int read_columns(sqlite3 *db, struct gz_table *it, int columns, const char *type) {
    sqlite3_stmt *query;
    int rc = gz_prepare(db, &query, sqlite3_mprintf("SELECT pk FROM pragma_table_info(%Q, 'main') ORDER BY cid",
        it->name));
    int keys = 0;
    if (rc) return rc;
    while (sqlite3_step(query) == SQLITE_ROW && it->columns < columns) {
        keys += sqlite3_column_int(query, 0) > 0;
        it->key[it->columns++] = (unsigned char)sqlite3_column_int(query, 0);
    }
    if (!strcmp(type, "virtual")) it->why = "a virtual table";
    else if (!strcmp(type, "shadow")) it->why = "the table of a virtual table";
    else if (it->columns != columns) it->why = "generated columns";
    else if (!keys) it->why = "no PRIMARY KEY";
    else if (keys > 255) it->why = "more than 255 columns in the key";
    else if (keys + 2 * (it->columns - keys) > GZ_MOST_COLUMNS) it->why = "more than some 1,000 columns";
    else if (strlen(it->name) > 1024) it->why = "a name of more than 1,024 bytes";
    return sqlite3_finalize(query);
}

static int read_table(sqlite3 *db, struct gz_tables *to, sqlite3_stmt *found) {
    const char *name = (const char *)sqlite3_column_text(found, 0), *type = (const char *)sqlite3_column_text(found, 2);
    int columns = sqlite3_column_int(found, 1);
    struct gz_table *more = realloc(to->table, (size_t)(to->count + 1) * sizeof *more);
    if (!more || !name || !type) return SQLITE_NOMEM;
    to->table = more;
    struct gz_table *it = &more[to->count];
    *it = (struct gz_table){strdup(name), malloc((size_t)columns + 1), 0, NULL};
    to->count++;
    return it->name && it->key ? read_columns(db, it, columns, type) : SQLITE_NOMEM;
}

/* A broker has at most 1,024 tables: the rest is left out. */
static void leave_the_rest(struct gz_tables *it) {
    int count = 0;
    for (int i = 0; i < it->count; i++)
        if (!it->table[i].why && ++count > 1024) it->table[i].why = "more than 1,024 tables";
}

int gz_read_tables(sqlite3 *db, const char *mark, struct gz_tables *it) {
    sqlite3_stmt *found = NULL;
    *it = (struct gz_tables){0};
    int rc = gz_number(db, &it->version, sqlite3_mprintf("PRAGMA main.schema_version"));
    if (!rc) rc = read_texts(db, &it->texts);
    if (!rc) rc = read_statistics(db, &it->statistics);
    if (!rc) rc = gz_prepare(db, &found, sqlite3_mprintf(TABLES, mark));
    while (!rc && sqlite3_step(found) == SQLITE_ROW) rc = read_table(db, it, found);
    int end = sqlite3_finalize(found);
    if (!rc) rc = end;
    leave_the_rest(it);
    if (rc) gz_free_tables(it);
    return rc;
}

void gz_free_tables(struct gz_tables *it) {
    for (int i = 0; i < it->count; i++) free(it->table[i].name), free(it->table[i].key);
    free(it->table), gz_free_bytes(&it->texts);
    *it = (struct gz_tables){0};
}

int gz_tables_changed(sqlite3 *db, const struct gz_tables *it, struct gz_versions *now, bool *changed) {
    struct gz_bytes texts = {0};
    int rc = read_texts(db, &texts);
    if (!rc) rc = read_statistics(db, &now->statistics);
    bool same = !rc && texts.len == it->texts.len && (!texts.len || !memcmp(texts.at, it->texts.at, texts.len));
    int64_t steps = now->version - it->version, made = now->statistics - it->statistics;
    /* VACUUM is a step of the version, and so is each table of ANALYZE. DROP and CREATE are two. */
    *changed = !rc && (!same || steps < 0 || made < 0 || steps > made + 1);
    gz_free_bytes(&texts);
    return rc;
}

const struct gz_table *gz_find_table(const struct gz_tables *it, const char *name) {
    for (int i = 0; i < it->count; i++)
        if (!sqlite3_stricmp(it->table[i].name, name)) return &it->table[i];
    return NULL;
}

/* The columns that may be shorter than their table: the table and the column, and the DEFAULT as it is written. */
static const char DEFAULTS[] =
    "SELECT l.name, c.name, c.dflt_value FROM pragma_table_list l, pragma_table_info(l.name, 'main') c WHERE"
    " l.schema = 'main' AND l.type = 'table' AND l.name NOT LIKE 'sqlite!_%%' ESCAPE '!' AND"
    " l.name <> %Q COLLATE NOCASE AND NOT c.pk AND c.dflt_value IS NOT NULL AND upper(c.dflt_value) <> 'NULL'"
    " ORDER BY l.name, c.cid";

int gz_defaults(sqlite3 *db, const char *mark, int64_t *hash) {
    sqlite3_stmt *found;
    uint64_t mixed = 14695981039346656037u;
    int rc = gz_prepare(db, &found, sqlite3_mprintf(DEFAULTS, mark));
    if (rc) return rc;
    while (sqlite3_step(found) == SQLITE_ROW)
        for (int i = 0; i < 3; i++)
            for (const unsigned char *at = sqlite3_column_text(found, i); at && *at; at++)
                mixed = (mixed ^ *at) * 1099511628211u;
    *hash = (int64_t)mixed;
    return sqlite3_finalize(found);
}

/* A short record has the DEFAULT, so rows with another value are full. A DEFAULT that is a bare word or in double quotes
 * would be a column's name in a condition: all rows are rewritten then. What refuses, as a CHECK, leaves the rows. */
static int fill_column(sqlite3 *db, const char *table, const char *column, const char *text) {
    bool is_literal = strchr("0123456789'+-.(", *text) || !sqlite3_strnicmp(text, "x'", 2);
    char *rows = is_literal ? sqlite3_mprintf(" WHERE \"%w\" IS (%s)", column, text) : sqlite3_mprintf("%s", "");
    int rc = rows ? gz_run(db, sqlite3_mprintf("UPDATE OR ABORT main.\"%w\" SET \"%w\" = \"%w\"%s", table, column, column,
        rows)) : SQLITE_NOMEM;
    sqlite3_free(rows);
    return (rc & 0xff) == SQLITE_CONSTRAINT || (rc & 0xff) == SQLITE_ERROR ? SQLITE_OK : rc;
}

int gz_fill_defaults(sqlite3 *db, const char *mark) {
    sqlite3_stmt *found;
    int triggers = 1, unused;
    int rc = gz_prepare(db, &found, sqlite3_mprintf(DEFAULTS, mark));
    if (rc) return rc;
    sqlite3_db_config(db, SQLITE_DBCONFIG_ENABLE_TRIGGER, -1, &triggers);
    sqlite3_db_config(db, SQLITE_DBCONFIG_ENABLE_TRIGGER, 0, &unused);
    while (!rc && sqlite3_step(found) == SQLITE_ROW) {
        const char *text[3];
        for (int i = 0; i < 3; i++) text[i] = (const char *)sqlite3_column_text(found, i);
        rc = text[0] && text[1] && text[2] ? fill_column(db, text[0], text[1], text[2]) : SQLITE_NOMEM;
    }
    sqlite3_db_config(db, SQLITE_DBCONFIG_ENABLE_TRIGGER, triggers, &unused);
    int end = sqlite3_finalize(found);
    return rc ? rc : end;
}
