/* What record.c and replicate.c share: which tables of a database changesets can have, copies of it, sessions on it,
 * SQL, one statement at a time, and changes in words. A program defines NAME before it includes this: its messages
 * begin with it. */
#define SQLITE_ENABLE_SESSION
#include <sqlite3.h>
#include <stdio.h>
#include <stdlib.h>
#include <string.h>

/* ends the program with one line on standard error */
#define FAIL(...) (fputs(NAME ": ", stderr), fprintf(stderr, __VA_ARGS__), fputc('\n', stderr), exit(1))
#define SAY(...) (fputs(NAME ": ", stderr), fprintf(stderr, __VA_ARGS__), fputc('\n', stderr))

/* a broker has no more tables */
enum { MOST_TABLES = 1024 };

/* The tables whose changes can be recorded: the name, each column's place in the key, from 1, or 0, and a condition
 * that leaves out rows with NULL in the key, which SQLite's sessions skip. */
static struct table { char *name, *has_key; unsigned char *key; int columns; } table[MOST_TABLES];
static int tables;

/* Of each table: its name, its number of columns, their places in the key, the condition, why its changes can't be
 * recorded, or NULL, and a query for the key of a row with a REAL value. */
static const char TABLES[] =
    "SELECT name, ncol, places, 'min(0, ' || keys || ') IS NOT NULL', CASE WHEN type <> 'table' THEN type || ' table'"
    " WHEN length(places) <> 2 * ncol THEN 'generated columns' WHEN keys IS NULL THEN 'no PRIMARY KEY' WHEN"
    " length(CAST(name AS BLOB)) > 1024 THEN 'name too long' END,"
    " printf('SELECT %s FROM main.\"%w\" WHERE ''real'' IN (%s)', literals, name, types) FROM (SELECT l.*,"
    " s.rowid AS place, (SELECT group_concat(printf('%02x', pk), '') FROM pragma_table_info(l.name)) AS places,"
    " (SELECT group_concat(printf('\"%w\"', name)) FROM pragma_table_info(l.name) WHERE pk) AS keys,"
    " (SELECT group_concat(printf('quote(\"%w\")', name), '||'', ''||') FROM pragma_table_info(l.name) WHERE pk)"
    " AS literals, (SELECT group_concat(printf('typeof(\"%w\")', name)) FROM pragma_table_info(l.name)) AS types"
    " FROM main.sqlite_schema s JOIN pragma_table_list l USING (name)"
    " WHERE s.type = 'table' AND l.schema = 'main' AND name NOT LIKE 'sqlite!_%' ESCAPE '!') ORDER BY place";

static void check(sqlite3 *db, int rc) {
    if (rc) FAIL("%s", sqlite3_errcode(db) ? sqlite3_errmsg(db) : sqlite3_errstr(rc));
}

static sqlite3 *open_database(const char *path, int flags) {
    sqlite3 *db;
    int rc = sqlite3_open_v2(path, &db, flags, NULL);
    if (rc) FAIL("%s: %s", path, sqlite3_errmsg(db));
    sqlite3_busy_timeout(db, 60000);
    return db;
}

/* Runs SQL that `sqlite3_mprintf` made. */
static void run(sqlite3 *db, char *sql) {
    check(db, sql ? sqlite3_exec(db, sql, NULL, NULL, NULL) : SQLITE_NOMEM);
    sqlite3_free(sql);
}

static sqlite3_stmt *prepare(sqlite3 *db, char *sql) {
    sqlite3_stmt *statement = NULL;
    check(db, sql ? sqlite3_prepare_v2(db, sql, -1, &statement, NULL) : SQLITE_NOMEM);
    sqlite3_free(sql);
    return statement;
}

/* the number that a query gives */
static long long number(sqlite3 *db, char *sql) {
    sqlite3_stmt *query = prepare(db, sql);
    long long found = sqlite3_step(query) == SQLITE_ROW ? sqlite3_column_int64(query, 0) : 0;
    check(db, sqlite3_finalize(query));
    return found;
}

/* the text that a query gives, or NULL */
static char *text(sqlite3 *db, char *sql) {
    sqlite3_stmt *query = prepare(db, sql);
    char *found = NULL;
    if (sqlite3_step(query) == SQLITE_ROW && sqlite3_column_type(query, 0) != SQLITE_NULL)
        found = sqlite3_mprintf("%s", sqlite3_column_text(query, 0));
    check(db, sqlite3_finalize(query));
    return found;
}

/* Copies a whole database, with its triggers, views and indexes, over the one of this name. */
static void copy(sqlite3 *to, const char *name, sqlite3 *from) {
    sqlite3_backup *backup = sqlite3_backup_init(to, name, from, "main");
    if (backup) sqlite3_backup_step(backup, -1), sqlite3_backup_finish(backup);
    if (sqlite3_errcode(to)) FAIL("no copy is made: %s", sqlite3_errmsg(to));
}

/* Drops what must not act while changesets are applied: triggers, and unique indexes that aren't of a table itself. */
static void strip(sqlite3 *db, const char *schema) {
    sqlite3_stmt *actors = prepare(db, sqlite3_mprintf("SELECT type, name FROM \"%w\".sqlite_schema WHERE"
        " type = 'trigger' OR type = 'index' AND sql LIKE 'CREATE UNIQUE %%'", schema));
    sqlite3_str *sql = sqlite3_str_new(db);
    while (sqlite3_step(actors) == SQLITE_ROW)
        sqlite3_str_appendf(sql, "DROP %s \"%w\".\"%w\";", sqlite3_column_text(actors, 0), schema,
            sqlite3_column_text(actors, 1));
    check(db, sqlite3_finalize(actors));
    sqlite3_str_appendall(sql, " ");
    run(db, sqlite3_str_finish(sql));
}

/* Says what a table leaves out, unless it was said of the table before. */
static void say_left_out(sqlite3 *db, const char *name, const char *why) {
    run(db, sqlite3_mprintf("CREATE TEMP TABLE IF NOT EXISTS replicate_said(name, why)"));
    if (number(db, sqlite3_mprintf("SELECT count(*) FROM temp.replicate_said WHERE (name, why) = (%Q, %Q)", name, why)))
        return;
    SAY("table %s%s", name, why);
    run(db, sqlite3_mprintf("INSERT INTO temp.replicate_said VALUES (%Q, %Q)", name, why));
}

/* Finds the tables of a database, and says which ones and which rows are left out. temp.replicate_left has these
 * tables, each with its reason. Tables with REAL values are among them where a program wants that. */
static void find_tables(sqlite3 *db, int leaves_real_out) {
    run(db, sqlite3_mprintf("CREATE TEMP TABLE IF NOT EXISTS replicate_left(name, why);"
        " DELETE FROM temp.replicate_left"));
    sqlite3_stmt *found = prepare(db, sqlite3_mprintf("%s", TABLES));
    for (tables = 0; sqlite3_step(found) == SQLITE_ROW;) {
        const char *word[6];
        for (int i = 0; i < 6; i++) word[i] = (const char *)sqlite3_column_text(found, i);
        char *why = word[4] ? sqlite3_mprintf("%s", word[4]) : NULL;
        char *key = why || !leaves_real_out ? NULL : text(db, sqlite3_mprintf("%s", word[5]));
        if (key) why = sqlite3_mprintf("a REAL value, key %s: keep it as INTEGER or TEXT", key);
        if (why) {
            run(db, sqlite3_mprintf("INSERT INTO temp.replicate_left VALUES (%Q, ' is left out: ' || %Q)", word[0],
                why));
            char *line = text(db, sqlite3_mprintf("SELECT why FROM temp.replicate_left WHERE name = %Q", word[0]));
            say_left_out(db, word[0], line);
            sqlite3_free(key), sqlite3_free(why), sqlite3_free(line);
            continue;
        }
        long long rows = number(db, sqlite3_mprintf("SELECT count(*) FROM \"%w\" WHERE NOT %s", word[0], word[3]));
        char *line = sqlite3_mprintf(": %lld rows with NULL in the key are left out", rows);
        if (rows) say_left_out(db, word[0], line);
        sqlite3_free(line);
        if (tables == MOST_TABLES) FAIL("more than %d tables", MOST_TABLES);
        struct table *it = &table[tables++];
        free(it->name), free(it->has_key), free(it->key);
        it->name = strdup(word[0]), it->has_key = strdup(word[3]), it->columns = atoi(word[1]);
        it->key = calloc(it->columns, 1);
        for (int i = 0; i < it->columns; i++) sscanf(word[2] + 2 * i, "%2hhx", &it->key[i]);
    }
    check(db, sqlite3_finalize(found));
}

/* Says which parts of the schema changed since the last call, and what comes of it. Returns whether any did. VACUUM and
 * ANALYZE change none. */
static int schema_changed(sqlite3 *db, const char *what_comes) {
    static long long version = -1;
    long long last = version;
    if ((version = number(db, sqlite3_mprintf("PRAGMA schema_version"))) == last) return 0;
    run(db, sqlite3_mprintf("CREATE TEMP TABLE IF NOT EXISTS replicate_was(name, sql);"
        " CREATE TEMP VIEW IF NOT EXISTS replicate_now AS"
        " SELECT name, sql FROM main.sqlite_schema WHERE name NOT LIKE 'sqlite!_%%' ESCAPE '!'"));
    char *names = text(db, sqlite3_mprintf("SELECT group_concat(name, ', ') FROM"
        " (SELECT name FROM (SELECT * FROM temp.replicate_now EXCEPT SELECT * FROM temp.replicate_was)"
        " UNION SELECT name FROM (SELECT * FROM temp.replicate_was EXCEPT SELECT * FROM temp.replicate_now))"));
    run(db, sqlite3_mprintf("DELETE FROM temp.replicate_was;"
        " INSERT INTO temp.replicate_was SELECT * FROM temp.replicate_now"));
    int changed = names && last >= 0;
    if (changed) SAY("the schema of %s changed: %s", names, what_comes);
    return sqlite3_free(names), changed;
}

/* Begins a session on all tables. With a schema it records the rows that the tables have and those there haven't. */
static sqlite3_session *begin(sqlite3 *db, const char *schema) {
    sqlite3_session *session;
    check(db, sqlite3session_create(db, "main", &session));
    for (int i = 0; i < tables; i++) {
        check(db, sqlite3session_attach(session, table[i].name));
        if (schema) check(db, sqlite3session_diff(session, schema, table[i].name, NULL));
    }
    return session;
}

/* Ends a session, and returns the changeset that it recorded, with its length. */
static unsigned char *end(sqlite3 *db, sqlite3_session *session, int *len) {
    void *changeset;
    check(db, sqlite3session_changeset(session, len, &changeset));
    sqlite3session_delete(session);
    return changeset;
}

/* Runs the next statement of the SQL, and moves on to what follows it. Returns 0 if there is none. */
static int run_statement(sqlite3 *db, const char **sql) {
    static int count;
    sqlite3_stmt *statement = NULL;
    const char *begun = *sql += strspn(*sql, " \t\r\n");
    if (!*begun) return 0;
    int rc = sqlite3_prepare_v2(db, begun, -1, &statement, sql);
    count += statement || rc;
    while (statement && (rc = sqlite3_step(statement)) == SQLITE_ROW) {}
    if (rc && rc != SQLITE_DONE) {
        size_t len = strcspn(begun, statement ? "\n" : ";\n"), most = statement ? (size_t)(*sql - begun) : 80;
        FAIL("statement %d, `%.*s`: %s", count, (int)(len < most ? len : most), begun, sqlite3_errmsg(db));
    }
    return sqlite3_finalize(statement), 1;
}

/* A value as an SQL literal. */
static void append_value(sqlite3_str *to, sqlite3_value *value) {
    const unsigned char *bytes = sqlite3_value_blob(value);
    int len = sqlite3_value_bytes(value);
    switch (sqlite3_value_type(value)) {
    case SQLITE_INTEGER: return sqlite3_str_appendf(to, "%lld", sqlite3_value_int64(value));
    case SQLITE_FLOAT: return sqlite3_str_appendf(to, "%!.15g", sqlite3_value_double(value));
    case SQLITE_TEXT: return sqlite3_str_appendf(to, "%Q", sqlite3_value_text(value));
    case SQLITE_NULL: return sqlite3_str_appendall(to, "NULL");
    }
    for (int i = 0; i < len; i++) sqlite3_str_appendf(to, "%s%02x", i ? "" : "x'", bytes[i]);
    sqlite3_str_appendall(to, len ? "'" : "x''");
}

/* Where a change is: `table NAME, key VALUES`. The caller frees it by sqlite3_free. */
static char *place_of(sqlite3_changeset_iter *change) {
    const char *name;
    unsigned char *keys;
    int columns, op, indirect, count = 0;
    sqlite3changeset_op(change, &name, &columns, &op, &indirect), sqlite3changeset_pk(change, &keys, &columns);
    sqlite3_str *it = sqlite3_str_new(NULL);
    sqlite3_str_appendf(it, "table %s, key ", name);
    for (int i = 0; i < columns; i++) {
        sqlite3_value *value = NULL;
        if (!keys[i]) continue;
        op == SQLITE_INSERT ? sqlite3changeset_new(change, i, &value) : sqlite3changeset_old(change, i, &value);
        if (count++) sqlite3_str_appendall(it, ", ");
        if (value) append_value(it, value);
    }
    return sqlite3_str_finish(it);
}

/* Why no broker takes a changeset, with the place of the first such change; or NULL. The caller frees it by
 * sqlite3_free. */
static char *why_refused(sqlite3 *db, void *changeset, int len) {
    sqlite3_changeset_iter *changes;
    const char *name = "", *what = NULL;
    unsigned char *keys;
    int columns, op, indirect;
    check(db, sqlite3changeset_start(&changes, len, changeset));
    while (!what && sqlite3changeset_next(changes) == SQLITE_ROW) {
        sqlite3changeset_op(changes, &name, &columns, &op, &indirect), sqlite3changeset_pk(changes, &keys, &columns);
        for (int i = 0; i < 2 * columns; i++) {
            sqlite3_value *value = NULL;
            if (i % 2 && op != SQLITE_DELETE) sqlite3changeset_new(changes, i / 2, &value);
            if (!(i % 2) && op != SQLITE_INSERT) sqlite3changeset_old(changes, i / 2, &value);
            if (i % 2 && op == SQLITE_UPDATE && keys[i / 2] && value)
                what = "its letters change: do DELETE and INSERT in two transactions";
            if (value && sqlite3_value_type(value) == SQLITE_FLOAT) what = "a REAL value: keep it as INTEGER or TEXT";
        }
    }
    char *place = what ? place_of(changes) : sqlite3_mprintf("table %s", name), *found = NULL;
    if (!what && len > 16777216) what = "more than 16,777,216 bytes in a transaction: do it in parts";
    if (what) found = sqlite3_mprintf("%s: %s", place, what);
    return sqlite3changeset_finalize(changes), sqlite3_free(place), found;
}
