/* Recording the transactions of a live database. Each puts its changeset into the table machines_outbox before it
 * commits, so a change and its changeset are committed together or not at all. The table's numbers go up by one. */
#ifndef MACHINES_OUTBOX_H
#define MACHINES_OUTBOX_H
#include "changeset.h"
#include "machines.h"
#include "rows.h"
#include <sys/random.h>

/* A changeset is stored in rows of at most PIECE bytes, each of which becomes a message. A row whose `ends` is 1 is the
 * last of its changeset. The KEPT last rows that the stream has acknowledged stay: numbering goes on from them, and a
 * stream that lost them gets them again. */
enum { PIECE = 256 * 1024, KEPT = 1024 };

struct outbox {
    sqlite3 *db;
    struct tables tables;
    sqlite3_session *session;
    sqlite3_stmt *insert, *trim;
    /* the last number in the table, the schema's version when recording began, and the changes recorded since */
    int64_t last, version, changes;
};

/* Stores a changeset in the present transaction. A replica takes no changeset that has a fault, so it must not commit.
 * */
static inline void store(void *with, const unsigned char *changeset, int len) {
    struct outbox *outbox = with;
    size_t place;
    uint32_t kind;
    int64_t changes = changeset_check(changeset, (size_t)len, &place, &kind);
    if (changes < 0)
        FAIL("the transaction is rolled back: its changeset has fault %" PRIu32 " at byte %zu", kind, place);
    outbox->changes += changes;
    for (int at = 0; at < len; at += PIECE) {
        int piece = len - at < PIECE ? len - at : PIECE;
        check(outbox->db, sqlite3_bind_int64(outbox->insert, 1, ++outbox->last));
        check(outbox->db, sqlite3_bind_int(outbox->insert, 2, at + piece == len));
        check(outbox->db, sqlite3_bind_blob(outbox->insert, 3, changeset + at, piece, SQLITE_STATIC));
        run_prepared(outbox->db, outbox->insert);
    }
}

/* Makes an outbox, and its name. */
static inline void make_outbox(sqlite3 *db) {
    unsigned char bits[16];
    char name[NAME_ROOM];
    if (getrandom(bits, 16, 0) != 16) FAIL("the system has no random bits");
    for (int i = 0; i < 16; i++) snprintf(name + 2 * i, 3, "%02x", bits[i]);
    run(db, "CREATE TABLE machines_outbox (number INTEGER PRIMARY KEY, ends INTEGER NOT NULL, bytes BLOB NOT NULL);"
        "DROP TABLE IF EXISTS machines_name; CREATE TABLE machines_name AS SELECT %Q AS name", name);
}

/* Opens the outbox of a database. The first time it makes it, and stores all rows that the database has. */
static inline struct outbox open_outbox(sqlite3 *db) {
    struct outbox outbox = {.db = db, .tables = find_tables(db)};
    run(db, "BEGIN IMMEDIATE");
    bool is_new = !number(db, "SELECT count(*) FROM sqlite_schema WHERE name = 'machines_outbox'");
    if (is_new) make_outbox(db);
    if (!number(db, "SELECT count(*) FROM sqlite_schema WHERE name = 'machines_name'"))
        FAIL("the outbox has no name: drop the table machines_outbox, and begin a new stream and new replicas");
    outbox.version = number(db, "PRAGMA schema_version");
    outbox.last = number(db, "SELECT max(number) FROM machines_outbox");
    outbox.insert = prepare(db, "INSERT INTO machines_outbox VALUES (?, ?, ?)");
    outbox.trim = prepare(db, "DELETE FROM machines_outbox WHERE number <= ?");
    if (is_new) each_rows(db, &outbox.tables, store, &outbox);
    run(db, "COMMIT");
    return outbox;
}

/* Begins a transaction that is recorded. */
static inline void begin_recorded(struct outbox *outbox) {
    run(outbox->db, "BEGIN IMMEDIATE");
    outbox->session = begin_session(outbox->db, &outbox->tables);
}

/* Commits it, with its changeset, and without the rows up to `acknowledged` that are not kept. Returns the outbox's
 * last number. */
static inline int64_t commit_recorded(struct outbox *outbox, int64_t acknowledged) {
    int len;
    unsigned char *changeset = end_session(outbox->db, outbox->session, &len);
    if (number(outbox->db, "PRAGMA schema_version") != outbox->version)
        FAIL("the transaction is rolled back: it changes the schema, which no changeset says");
    if (len) store(outbox, changeset, len);
    sqlite3_free(changeset);
    check(outbox->db, sqlite3_bind_int64(outbox->trim, 1, acknowledged - KEPT));
    run_prepared(outbox->db, outbox->trim);
    run(outbox->db, "COMMIT");
    return outbox->last;
}
#endif
