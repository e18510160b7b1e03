/* What a database's schema says: its texts, the tables that are recorded, and those that are left out. */
#ifndef GZ_TABLES_H
#define GZ_TABLES_H

#define SQLITE_ENABLE_SESSION
#define SQLITE_ENABLE_PREUPDATE_HOOK
#include "bytes.h"
#include <sqlite3.h>

/* A table. `key` has a byte for each column, 0 or its place in the key. `why` says why it is left out, or is NULL. */
struct gz_table {
    char *name;
    unsigned char *key;
    int columns;
    const char *why;
};

struct gz_tables {
    struct gz_table *table;
    int count;
    /* PRAGMA schema_version, how many tables ANALYZE has made, and the texts of the schema without SQLite's own tables. */
    int64_t version, statistics;
    struct gz_bytes texts;
};

/* Reads the schema, without the table `mark`. Returns an SQLite code. */
int gz_read_tables(sqlite3 *db, const char *mark, struct gz_tables *it);
void gz_free_tables(struct gz_tables *it);

/* Sets `*changed` to whether the schema was changed since it had the version of `it`: its texts are others, or there was
 * more than a VACUUM and the first ANALYZE. A table that is dropped and made again has the same text, and other rows, of
 * which a session sees nothing. `now` has the version and the tables of ANALYZE as they are. Returns an SQLite code. */
struct gz_versions {
    int64_t version, statistics;
};
int gz_tables_changed(sqlite3 *db, const struct gz_tables *it, struct gz_versions *now, bool *changed);

/* The table of this name, or NULL. */
const struct gz_table *gz_find_table(const struct gz_tables *it, const char *name);

/* A number that is another one where columns with a DEFAULT are others. */
int gz_defaults(sqlite3 *db, const char *mark, int64_t *hash);

/* Rewrites the rows whose columns may come from ALTER TABLE ADD COLUMN .. DEFAULT: their records are shorter than the
 * table, and sessions would record NULL as their old values. No session is attached, and triggers are off. */
int gz_fill_defaults(sqlite3 *db, const char *mark);

/* Runs SQL that sqlite3_mprintf made, and frees it. Returns an SQLite code. */
int gz_run(sqlite3 *db, char *sql);
/* Prepares it. `*out` is NULL if that fails. */
int gz_prepare(sqlite3 *db, sqlite3_stmt **out, char *sql);
/* Sets `*out` to the first number of a query, or to 0 if there is no row. */
int gz_number(sqlite3 *db, int64_t *out, char *sql);

#endif
