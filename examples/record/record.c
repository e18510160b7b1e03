/* ./record DATABASE SQL-FILE prints a script for `rb_run script`: the rows of an SQLite database, and then what SQL
 * changes in them, one changeset for each transaction. The database is only read: the SQL works on a copy of it. */
#define NAME "record"
#include "../common.h"

enum { MOST_OF_SCRIPT = 16777216, MOST_OF_CHANGESET = 8387561 };
static sqlite3_str *lines;
static int entries;

/* the whole file, or NULL */
static char *read_file(const char *path) {
    FILE *file = fopen(path, "rb");
    char *text = calloc(1, 1);
    size_t len = 0, more = 1;
    while (file && text && more && (text = realloc(text, len + 65537)))
        len += more = fread(text + len, 1, 65536, file), text[len] = 0;
    return file && text && !ferror(file) ? text : NULL;
}

/* Adds the line of a table: its name and its key, as in the header of a changeset. */
static void add_table(const struct table *it) {
    sqlite3_str_appendall(lines, "table 54");
    if (it->columns > 127) sqlite3_str_appendf(lines, "%02x", 128 + it->columns / 128);
    sqlite3_str_appendf(lines, "%02x", it->columns % 128);
    for (int i = 0; i < it->columns; i++) sqlite3_str_appendf(lines, "%02x", it->key[i]);
    for (const char *at = it->name; *at; at++) sqlite3_str_appendf(lines, "%02x", (unsigned char)*at);
    sqlite3_str_appendall(lines, "00\n");
}

/* Adds lines that feed a changeset, 32,000 bytes on each, and that accept and settle it. */
static void add(sqlite3 *db, sqlite3_session *session) {
    int len;
    unsigned char *changeset = end(db, session, &len);
    char *why = len ? why_refused(db, changeset, len) : NULL;
    entries += len > 0;
    if (why) SAY("entry %d: %s. So `feed` answers a fault.", entries, why), sqlite3_free(why);
    if (len > MOST_OF_CHANGESET) SAY("entry %d: %d bytes, and a script takes %d", entries, len, MOST_OF_CHANGESET);
    for (int at = 0; at < len; at++)
        sqlite3_str_appendf(lines, "%s%02x", at % 32000 ? "" : "\nfeed 0 ", changeset[at]);
    if (len) sqlite3_str_appendf(lines, "\nend 0\nsend 0\nturn\ntake 0 0\naccept %d\nack %d", entries, entries);
    sqlite3_free(changeset);
}

int main(int count, char **words) {
    const char *sql = count == 3 ? read_file(words[2]) : NULL;
    if (!sql) return fputs("./record DATABASE SQL-FILE: no SQL file is read\n", stderr), 2;
    sqlite3 *source = open_database(words[1], SQLITE_OPEN_READONLY);
    sqlite3 *db = open_database("", SQLITE_OPEN_READWRITE | SQLITE_OPEN_CREATE);
    copy(db, "main", source);
    find_tables(db, 0);
    if (!tables) FAIL("no table is left");
    lines = sqlite3_str_new(NULL);
    for (int i = 0; i < tables; i++) add_table(&table[i]);
    sqlite3_str_appendall(lines, "publisher\nsubscribe 0");
    run(db, sqlite3_mprintf("ATTACH '' AS bare"));
    copy(db, "bare", source), strip(db, "bare");
    for (int i = 0; i < tables; i++) run(db, sqlite3_mprintf("DELETE FROM bare.\"%w\"", table[i].name));
    add(db, begin(db, "bare"));
    run(db, sqlite3_mprintf("DETACH bare"));
    schema_changed(db, "");
    for (sqlite3_session *session = begin(db, NULL); run_statement(db, &sql);)
        if (sqlite3_get_autocommit(db)) add(db, session), session = begin(db, NULL);
    if (!sqlite3_get_autocommit(db)) FAIL("the SQL ends in a transaction: COMMIT or ROLLBACK is missing");
    schema_changed(db, "no changeset has that, so rows of new tables and columns are missing");
    sqlite3_str_appendall(lines, "\nrows 0\n");
    check(db, sqlite3_str_errcode(lines));
    if (sqlite3_str_length(lines) > MOST_OF_SCRIPT)
        SAY("the script has %d bytes, and `rb_run script` reads %d", sqlite3_str_length(lines), MOST_OF_SCRIPT);
    return fputs(sqlite3_str_value(lines), stdout) < 0 || fflush(stdout) ? perror(NAME), 1 : 0;
}
